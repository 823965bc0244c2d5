#!/usr/bin/env python3
"""Writes examples/tagged.pcap: a DNS exchange over IPv6 inside two VLAN tags, and the same question without tags
behind a hop-by-hop extension header.

    python3 examples/make_tagged.py > examples/tagged.pcap
"""
import ipaddress
import struct
import sys

from make_first import ANSWER, ETHERNET, QUESTION, record

TAGS = bytes.fromhex("88a8 0005 8100 0007")


def udp6(source, sport, dest, dport, payload, tags=b"", hop_by_hop=b""):
    datagram = struct.pack(">HHHH", sport, dport, 8 + len(payload), 0) + payload
    rest = hop_by_hop + datagram
    addresses = ipaddress.IPv6Address(source).packed + ipaddress.IPv6Address(dest).packed
    ip = struct.pack(">IHBB", 0x6000_0000, len(rest), 0 if hop_by_hop else 17, 64) + addresses
    return ETHERNET + tags + b"\x86\xdd" + ip + rest


CLIENT, SERVER = "2001:db8::1", "2001:db8::53"
CAPTURE = [
    record(0, 0, udp6(CLIENT, 40000, SERVER, 53, QUESTION, TAGS)),
    record(0, 18_250, udp6(SERVER, 53, CLIENT, 40000, ANSWER, TAGS)),
    record(1, 0, udp6(CLIENT, 40000, SERVER, 53, QUESTION, hop_by_hop=bytes.fromhex("1100 0502 0000 0100"))),
]

if __name__ == "__main__":
    header = struct.pack("<IHHIIII", 0xA1B2C3D4, 2, 4, 0, 0, 262_144, 1)
    sys.stdout.buffer.write(header + b"".join(CAPTURE))
