#!/usr/bin/env python3
"""Judges each reply of each example by Wireshark's dissector of H.225.0: that it has no complaint,
and that the reply says what examples.txt and replies.txt say. Arguments: the folder of the examples,
and the program of the gatekeeper. Ends with `N passed, M failed`."""

import pathlib
import subprocess
import sys
import tempfile
import xml.etree.ElementTree

import capture
import tree

HERE = pathlib.Path(__file__).resolve().parent


def table(path):
    """The lines of a table as lists of words, without comments and empty lines."""
    lines = path.read_text().splitlines()
    return [line.split() for line in lines if line and not line.startswith("#")]


def expected_replies():
    """The line that is expected for each (example, event), from the two tables."""
    meaning = {words[0]: " ".join(words[1:]) for words in table(HERE / "replies.txt")}
    replies = {}
    for example, *words in table(HERE / "examples.txt"):
        for number, reply in zip(words[0::2], words[1::2], strict=True):
            replies[example, int(number)] = meaning[reply]
    return replies


def sent_replies(gatekeeper, examples):
    """What the program sends: (payload, address, port) for each (example, event)."""
    sent = {}
    for script in sorted(examples.glob("*.script")):
        run = subprocess.run([gatekeeper, "replay"], stdin=script.open(), capture_output=True, check=True, text=True)
        for line in run.stdout.splitlines():
            note, _, reply = line.partition(" > ")
            if reply:
                target, octets = reply.split()
                address, port = target.split(":")
                place = (script.stem, int(note.split()[0]))
                sent[place] = (bytes.fromhex(octets), bytes(map(int, address.split("."))), int(port))
    return sent


def dissected(datagrams):
    """The packets of tshark's PDML, one for each datagram."""
    with tempfile.TemporaryDirectory() as folder:
        path = pathlib.Path(folder) / "replies.pcap"
        capture.write(path, datagrams)
        command = ["tshark", "-n", "-r", path, "-T", "pdml"]
        run = subprocess.run(command, capture_output=True, check=True, text=True)
    packets = xml.etree.ElementTree.fromstring(run.stdout).findall("packet")
    assert len(packets) == len(datagrams), "tshark has another number of packets"
    return packets


def faults(place, expected, sent, packets):
    """What is wrong with the reply at one place, as lines; none if it is as expected."""
    if place not in sent:
        return ["no reply, expected: " + expected[place]]
    if place not in expected:
        return ["a reply, expected: none"]
    found = [f"tshark: {complaint}" for complaint in tree.complaints(packets[place], len(sent[place][0]))]
    read = tree.line(packets[place])
    if read != expected[place]:
        found += ["read:     " + read, "expected: " + expected[place]]
    return found


def main(examples, gatekeeper):
    expected = expected_replies()
    sent = sent_replies(gatekeeper, pathlib.Path(examples))
    packets = dict(zip(sent, dissected(list(sent.values())), strict=True))
    failed = 0
    places = sorted(expected.keys() | sent.keys())
    for place in places:
        found = faults(place, expected, sent, packets)
        failed += bool(found)
        for fault in found:
            print(f"{place[0]}, event {place[1]}: {fault}")
    print(f"{len(sent)} replies sent, {len(packets)} dissected")
    print(f"{len(places) - failed} passed, {failed} failed")
    return 1 if failed or not places else 0


if __name__ == "__main__":
    sys.exit(main(*sys.argv[1:]))
