"""The capture file: classic pcap 2.4, its records and its faults."""
import struct

MAX_BYTES, MAX_FRAMES, MAX_CAPTURED = 1 << 30, 4_194_304, 262_144
SECOND = 1_000_000_000


class Refused(Exception):
    """The program's status and note in place of a text."""

    def __init__(self, status, note):
        super().__init__(note)
        self.status, self.note = status, note


def header(data):
    """Byte order, nanoseconds in a unit of the fraction, and link type."""
    if len(data) < 4:
        raise Refused(5, "capture refused: short header")
    magic = data[:4].hex()
    if magic == "0a0d0d0a":
        raise Refused(5, "capture refused: pcapng")
    orders = {"d4c3b2a1": ("<", 1000), "a1b2c3d4": (">", 1000), "4d3cb2a1": ("<", 1), "a1b23c4d": (">", 1)}
    if magic not in orders:
        raise Refused(5, "capture refused: magic " + magic)
    order, unit = orders[magic]
    if len(data) < 24:
        raise Refused(5, "capture refused: short header")
    major, minor = struct.unpack(order + "HH", data[4:8])
    if (major, minor) != (2, 4):
        raise Refused(5, f"capture refused: version {major}.{minor}")
    (link,) = struct.unpack(order + "I", data[20:24])
    if link % 65536 not in (1, 101, 113):
        raise Refused(5, f"capture refused: link {link}")
    return order, unit, link % 65536


def read(data):
    """Link type, the frames as (time, bytes), and the number of bytes of a cut tail."""
    if len(data) > MAX_BYTES:
        raise Refused(6, "limit: more than 1073741824 bytes")
    order, unit, link = header(data)
    found, at = [], 24
    while at < len(data):
        if len(found) == MAX_FRAMES:
            raise Refused(6, "limit: more than 4194304 frames")
        if len(data) - at < 16:
            break
        seconds, fraction, captured, _ = struct.unpack(order + "IIII", data[at : at + 16])
        if captured > MAX_CAPTURED:
            raise Refused(5, f"capture refused: record {len(found) + 1} has length {captured}")
        if len(data) - at - 16 < captured:
            break
        found.append((seconds * SECOND + fraction * unit, data[at + 16 : at + 16 + captured]))
        at += 16 + captured
    return link, found, len(data) - at
