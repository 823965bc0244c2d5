#!/usr/bin/env python3
"""Writes examples/first.pcap: a DNS exchange, a request without an answer, the same two ends again
after the timeout, and an ARP frame.

    python3 examples/make_first.py > examples/first.pcap
"""
import struct
import sys

ETHERNET = bytes.fromhex("020000000002 020000000001")
START = 1_700_000_000


def udp(source, sport, dest, dport, payload):
    addresses = bytes(map(int, source.split("."))) + bytes(map(int, dest.split(".")))
    datagram = struct.pack(">HHHH", sport, dport, 8 + len(payload), 0) + payload
    ip = struct.pack(">BBHHHBBH", 0x45, 0, 20 + len(datagram), 0, 0x4000, 64, 17, 0) + addresses
    return ETHERNET + b"\x08\x00" + ip + datagram


def record(seconds, micros, frame):
    return struct.pack("<IIII", START + seconds, micros, len(frame), len(frame)) + frame


QUESTION = bytes.fromhex("1234 0100 0001 0000 0000 0000 03777777 07 6578616d706c65 03636f6d 00 0001 0001")
ANSWER = QUESTION[:2] + bytes.fromhex("8180") + QUESTION[4:] + bytes.fromhex("c00c 0001 0001 0000003c 0004 c0000207")

CAPTURE = [
    record(0, 0, udp("10.0.0.1", 40000, "192.0.2.53", 53, QUESTION)),
    record(0, 18_250, udp("192.0.2.53", 53, "10.0.0.1", 40000, ANSWER)),
    record(1, 0, ETHERNET + b"\x08\x06" + bytes(28)),
    record(2, 500_000, udp("10.0.0.7", 50000, "198.51.100.9", 514, b"<13>link up")),
    record(45, 0, udp("10.0.0.7", 50000, "198.51.100.9", 514, b"<13>link down")),
]

if __name__ == "__main__":
    header = struct.pack("<IHHIIII", 0xA1B2C3D4, 2, 4, 0, 0, 262_144, 1)
    sys.stdout.buffer.write(header + b"".join(CAPTURE))
