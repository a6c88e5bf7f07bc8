"""RAS as clients of trials speak it: requests in aligned PER, what is read of replies, and a network
of their own. It shares no code with the gatekeeper.
"""

import fcntl
import os
import socket
import struct
import sys

# ---- requests in aligned PER (ITU-T X.691 over the types of ITU-T H.225.0)

PROTOCOL = bytes.fromhex("06000891 4A0002".replace(" ", ""))


class Bits:
    """Octets that are written from their most significant bit on."""

    def __init__(self, octets=b""):
        self.out = bytearray(octets)
        self.free = 0

    def bits(self, value, count):
        for i in reversed(range(count)):
            if self.free == 0:
                self.out.append(0)
                self.free = 8
            self.free -= 1
            self.out[-1] |= (value >> i & 1) << self.free
        return self

    def octets(self, octets):
        self.free = 0
        self.out += octets
        return self

    def address(self, address):
        ip, port = address
        return self.bits(0, 4).octets(socket.inet_aton(ip) + port.to_bytes(2, "big"))

    def addresses(self, address):
        return self.octets(b"\x01").address(address)

    def aliases(self, digits):
        self.octets(b"\x01").bits(len(digits) - 1, 9).octets(b"")
        for digit in digits:
            self.bits(int(digit) + 3, 4)
        return self

    def identifier(self, octets):
        return self.bits(len(octets) // 2 - 1, 7).octets(octets)

    def bandwidth(self, units):
        octets = units.to_bytes(max(1, (units.bit_length() + 7) // 8), "big")
        return self.bits(len(octets) - 1, 2).octets(octets)


def number(seq):
    return (seq - 1).to_bytes(2, "big")


def discovery(seq, ras):
    text = Bits(b"\x00\x00" + number(seq) + PROTOCOL).address(ras)
    return bytes(text.bits(1, 7).bits(0, 4).out)


def registration(seq, signal_address, ras, digits):
    text = Bits(b"\x0c\x80" + number(seq) + PROTOCOL).bits(0, 1)
    text.addresses(signal_address).addresses(ras).bits(1, 7).bits(0, 4)
    return bytes(text.aliases(digits).bits(0, 4).octets(b"\xb5\x00\x00\x00").out)


def keep_alive(seq, signal_address, ras, identifier):
    text = Bits(b"\x0e\x00" + number(seq) + PROTOCOL).bits(0, 1)
    text.addresses(signal_address).addresses(ras).bits(1, 7).bits(0, 8)
    text.octets(b"\xb5\x00\x00\x00")
    inner = bytes(Bits().identifier(identifier).out)
    text.bits(6, 7).bits(3, 7).octets(b"\x01\x80" + bytes([len(inner)]) + inner)
    return bytes(text.out)


def unregistration(seq, signal_address, identifier):
    text = Bits(b"\x18\x40" + number(seq)).addresses(signal_address)
    return bytes(text.identifier(identifier).out)


def admission(seq, identifier, called, calling, units, call, is_answer):
    text = Bits().bits(0x26, 8).bits(0b100000, 6).octets(number(seq)).bits(0, 3)
    text.identifier(identifier).aliases(called).aliases(calling).bandwidth(units)
    text.octets(b"\x00\x01" + call).bits(int(is_answer), 2).bits(1, 7).bits(1, 2)
    return bytes(text.octets(b"\x11\x00" + call).out)


def bandwidth_change(seq, identifier, units, call):
    text = Bits().bits(0x32, 8).bits(0, 1).octets(number(seq)).identifier(identifier)
    text.octets(call + b"\x00\x01").bandwidth(units).bits(0, 7).bits(1, 1)
    return bytes(text.octets(b"\x11\x00" + call).out)


def disengage(seq, identifier, call):
    text = Bits(b"\x3e" + number(seq)).identifier(identifier)
    text.octets(call + b"\x00\x01").bits(1, 3).bits(0, 7).bits(1, 1)
    return bytes(text.octets(b"\x11\x00" + call).out)


def sign_of_life(seq, identifier, signal_address, ras):
    text = Bits(b"\x58" + number(seq)).bits(1, 7).bits(0, 4).identifier(identifier)
    return bytes(text.address(ras).addresses(signal_address).out)


# ---- replies

GRQ, RRQ, URQ, ARQ, BRQ, DRQ = "GRQ", "RRQ", "URQ", "ARQ", "BRQ", "DRQ"
CONFIRM = {GRQ: 1, RRQ: 4, URQ: 7, ARQ: 10, BRQ: 13, DRQ: 16}
INTERROGATION, IN_PROGRESS = 21, 25
NAMES = {1: "GCF", 2: "GRJ", 4: "RCF", 5: "RRJ", 7: "UCF", 8: "URJ", 10: "ACF", 11: "ARJ", 13: "BCF",
         14: "BRJ", 16: "DCF", 17: "DRJ", 21: "IRQ", 25: "RIP"}


def head_of(reply):
    """The kind of a reply and its sequence number."""
    kind = IN_PROGRESS if reply[0] & 0x80 else reply[0] >> 2
    place = 3 if kind == IN_PROGRESS else 2 if kind in (1, 2, 4, 5, 10, 21) else 1
    return kind, int.from_bytes(reply[place:place + 2], "big") + 1


def granted_in(reply, place):
    """The bandwidth in a confirm, which stands behind its sequence number."""
    count = (reply[place] >> 6) + 1
    return int.from_bytes(reply[place + 1:place + 1 + count], "big")


def identifier_in(reply, digits):
    """The endpoint identifier in a registration's confirm, which tells one alias and the name `gk`."""
    behind_alias = 19 + 2 + (len(digits) + 1) // 2
    name = reply.index(b"\x00g\x00k", behind_alias)
    count = (reply[name + 4] >> 1) + 1
    return bytes(reply[name + 5:name + 5 + 2 * count])


# ---- a network of its own

# What says that a trial is inside of it.
INSIDE = "GAMBYREI_TRIAL_INSIDE"


def enter_namespace():
    """Goes on in a network namespace of its own, with its loopback up."""
    if INSIDE not in os.environ:
        os.environ[INSIDE] = "1"
        own = [] if os.geteuid() == 0 else ["--user", "--map-root-user"]
        os.execvp("unshare", ["unshare", "--net", *own, sys.executable, *sys.argv])
    get_flags, set_flags, up = 0x8913, 0x8914, 1
    with socket.socket(socket.AF_INET, socket.SOCK_DGRAM) as any_socket:
        entry = struct.pack("16sh14x", b"lo", 0)
        name, flags = struct.unpack("16sh14x", fcntl.ioctl(any_socket, get_flags, entry))
        fcntl.ioctl(any_socket, set_flags, struct.pack("16sh14x", name, flags | up))
