#!/usr/bin/env python3
"""Captures of a few packets, each made to show one thing.

    short_captures.py NAME > capture
    short_captures.py            tells the names
"""
import struct
import sys

SECONDS = 1_700_000_000
HEADER = struct.pack("<IHHIIII", 0xA1B2C3D4, 2, 4, 0, 0, 0x40000, 1)
STATIONS = bytes.fromhex("020000000002 020000000001 0800")
TCP, UDP = 6, 17
SYN, PUSH_ACK = 0x02, 0x18

# Three pairs of ends.
A, B = ("10.0.0.1", 1000), ("10.0.0.2", 2000)
C, D = ("10.0.0.3", 1000), ("10.0.0.4", 2000)
E, F = ("10.0.0.5", 1000), ("10.0.0.6", 2000)
CLIENT, SERVER = ("128.232.110.120", 34855), ("66.35.250.204", 80)


def packet(source, dest, protocol, inner):
    addresses = b"".join(bytes(map(int, address.split("."))) for address, _ in (source, dest))
    return STATIONS + struct.pack(">BBHHHBBH", 0x45, 0, 20 + len(inner), 0, 0x4000, 64, protocol, 0) + addresses + inner


def udp(source, dest):
    return packet(source, dest, UDP, struct.pack(">HHHH", source[1], dest[1], 8, 0))


def tcp(source, dest, flags, sequence, payload=b""):
    header = struct.pack(">HHIIBBHHH", source[1], dest[1], sequence, 0, 0x50, flags, 0xFFFF, 0, 0)
    return packet(source, dest, TCP, header + payload)


# Each capture's frames, with their seconds from the first one on.
CAPTURES = {
    "one_packet": [(0, udp(A, B))],
    "out_of_order": [
        (0, tcp(CLIENT, SERVER, SYN, 1000)), (0, tcp(CLIENT, SERVER, PUSH_ACK, 1002, b"b")), (0, tcp(CLIENT, SERVER, PUSH_ACK, 1001, b"a")),
    ],
    "two_flows": [(0, udp(A, B)), (0, udp(C, D))],
    "two_flows_in_turn": [(0, udp(A, B)), (0, udp(C, D)), (0, udp(A, B)), (0, udp(C, D))],
    "one_flow_after_a_timeout": [(0, udp(A, B)), (31, udp(A, B))],
    "one_flow_at_its_timeout": [(0, udp(A, B)), (30, udp(A, B))],
    "three_flows_and_one_again": [(0, udp(A, B)), (0, udp(C, D)), (0, udp(E, F)), (11, udp(C, D))],
}


def capture(name):
    records = [struct.pack("<IIII", SECONDS + after, 0, len(frame), len(frame)) + frame for after, frame in CAPTURES[name]]
    return HEADER + b"".join(records)


def main(words):
    if len(words) != 1 or words[0] not in CAPTURES:
        print(__doc__, *CAPTURES, sep="\n", file=sys.stderr)
        return 2
    sys.stdout.buffer.write(capture(words[0]))
    return 0


if __name__ == "__main__":
    sys.exit(main(sys.argv[1:]))
