#!/usr/bin/env python3
"""A capture of 64 UDP flows, whose packets come in turn, a microsecond apart.

    capture.py PACKETS > capture
"""
import struct
import sys

FLOWS = 64
START = 1_700_000_000


def frame(flow):
    payload = bytes(18)
    datagram = struct.pack(">HHHH", 1000 + flow, 2000, 8 + len(payload), 0) + payload
    packet = struct.pack(">BBHHHBBH", 0x45, 0, 20 + len(datagram), 0, 0x4000, 64, 17, 0) + bytes([10, 0, 0, 1, 10, 0, 0, 2]) + datagram
    return bytes.fromhex("0200000000020200000000010800") + packet


frames = [frame(flow) for flow in range(FLOWS)]
out = sys.stdout.buffer
out.write(struct.pack("<IHHiIII", 0xA1B2C3D4, 2, 4, 0, 0, 65535, 1))
for number in range(int(sys.argv[1])):
    packet = frames[number % FLOWS]
    out.write(struct.pack("<IIII", START + number // 1_000_000, number % 1_000_000, len(packet), len(packet)) + packet)
