#!/usr/bin/env python3
"""Writes examples/web.pcap: an ARP frame, one HTTP request over TCP from the handshake to the close, a ping with its
reply, and an ICMP error.

    python3 examples/make_web.py > examples/web.pcap
"""
import ipaddress
import struct
import sys

from make_first import ETHERNET, record

FIN, SYN, PSH, ACK = 0x01, 0x02, 0x08, 0x10
CLIENT, SERVER, ROUTER = "10.0.0.1", "192.0.2.80", "10.0.0.254"


def ipv4(source, dest, protocol, payload):
    addresses = ipaddress.IPv4Address(source).packed + ipaddress.IPv4Address(dest).packed
    return struct.pack(">BBHHHBBH", 0x45, 0, 20 + len(payload), 0, 0x4000, 64, protocol, 0) + addresses + payload


def tcp(source, dest, flags, sequence, acknowledged, payload=b""):
    ports = (40001, 80) if source == CLIENT else (80, 40001)
    header = struct.pack(">HHIIBBHHH", *ports, sequence, acknowledged, 5 << 4, flags, 65535, 0, 0)
    return ETHERNET + b"\x08\x00" + ipv4(source, dest, 6, header + payload)


def icmp(source, dest, kind, code, rest):
    return ETHERNET + b"\x08\x00" + ipv4(source, dest, 1, struct.pack(">BBH", kind, code, 0) + rest)


WHO_HAS_ROUTER = bytes.fromhex("0001 0800 06 04 0001 020000000001 0a000001 000000000000 0a0000fe")
REQUEST = b"GET / HTTP/1.1\r\nHost: example.com\r\n\r\n"
RESPONSE = b"HTTP/1.1 200 OK\r\nContent-Length: 6\r\n\r\nhello\n"
ASKED, ANSWERED = 1001 + len(REQUEST), 5001 + len(RESPONSE)
ECHO = bytes.fromhex("0001 0001") + bytes(range(32))
# The packet that a router could not bring on: its IP header and its first eight bytes.
UNDELIVERED = ipv4(CLIENT, "198.51.100.9", 17, struct.pack(">HHHH", 50000, 514, 8, 0))

CAPTURE = [
    record(0, 0, ETHERNET + b"\x08\x06" + WHO_HAS_ROUTER),
    record(0, 1_000, tcp(CLIENT, SERVER, SYN, 1000, 0)),
    record(0, 21_000, tcp(SERVER, CLIENT, SYN | ACK, 5000, 1001)),
    record(0, 21_100, tcp(CLIENT, SERVER, ACK, 1001, 5001)),
    record(0, 21_500, tcp(CLIENT, SERVER, PSH | ACK, 1001, 5001, REQUEST)),
    record(0, 44_000, tcp(SERVER, CLIENT, PSH | ACK, 5001, ASKED, RESPONSE)),
    record(0, 44_100, tcp(CLIENT, SERVER, ACK, ASKED, ANSWERED)),
    record(1, 44_000, tcp(SERVER, CLIENT, FIN | ACK, ANSWERED, ASKED)),
    record(1, 44_300, tcp(CLIENT, SERVER, FIN | ACK, ASKED, ANSWERED + 1)),
    record(1, 64_000, tcp(SERVER, CLIENT, ACK, ANSWERED + 1, ASKED + 1)),
    record(2, 0, icmp(CLIENT, SERVER, 8, 0, ECHO)),
    record(2, 20_000, icmp(SERVER, CLIENT, 0, 0, ECHO)),
    record(3, 0, icmp(ROUTER, CLIENT, 3, 1, bytes(4) + UNDELIVERED)),
]

if __name__ == "__main__":
    header = struct.pack("<IHHIIII", 0xA1B2C3D4, 2, 4, 0, 0, 262_144, 1)
    sys.stdout.buffer.write(header + b"".join(CAPTURE))
