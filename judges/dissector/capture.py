"""A capture file of datagrams, as tshark reads it (the classic pcap format, link type raw IP)."""

import struct

RAW_IP = 101
RAS_PORT = 1719


def checksum(header):
    """The checksum of an IPv4 header whose own field is zero."""
    total = sum(struct.unpack(f">{len(header) // 2}H", header))
    while total > 0xFFFF:
        total = (total & 0xFFFF) + (total >> 16)
    return 0xFFFF - total


def packet(payload, source, destination, destination_port):
    """An IPv4 packet with a UDP datagram from port 1719. A UDP checksum of zero means none."""
    udp = struct.pack(">HHHH", RAS_PORT, destination_port, 8 + len(payload), 0)
    length = 20 + len(udp) + len(payload)
    fields = (0x45, 0, length, 0, 0, 64, 17)
    bare = struct.pack(">BBHHHBBH4s4s", *fields, 0, source, destination)
    header = struct.pack(">BBHHHBBH4s4s", *fields, checksum(bare), source, destination)
    return header + udp + payload


def write(path, datagrams):
    """Writes one packet for each (payload, destination address, destination port)."""
    gatekeeper = bytes([10, 0, 0, 1])
    with open(path, "wb") as file:
        file.write(struct.pack("<IHHiIII", 0xA1B2C3D4, 2, 4, 0, 0, 65535, RAW_IP))
        for payload, address, port in datagrams:
            octets = packet(payload, gatekeeper, address, port)
            file.write(struct.pack("<IIII", 0, 0, len(octets), len(octets)) + octets)
