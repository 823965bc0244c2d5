"""The streams of a TCP run: the bytes of each direction that came without a gap, from the list of its packets."""
import hashlib

from model.flows import SYN

WRAP = 1 << 32


def base_of(packets):
    """The sequence number of the first byte: that of the first packet with SYN or with payload, behind its SYN."""
    for packet in packets:
        if packet.flags & SYN or packet.payload:
            return (packet.sequence + (packet.flags & SYN != 0)) % WRAP
    return None


def first_offset(packet, base):
    """Where the payload of a packet begins; before the base it is negative."""
    ahead = (packet.sequence + (packet.flags & SYN != 0) - base) % WRAP
    return ahead - WRAP if ahead >= WRAP // 2 else ahead


def bytes_of(packets, depth):
    """The bytes from the base to the first gap, each from the earliest packet that has it; none at or above the depth."""
    base, found = base_of(packets), {}
    for packet in packets:
        for offset, byte in enumerate(packet.payload, first_offset(packet, base) if packet.payload else 0):
            if 0 <= offset < depth:
                found.setdefault(offset, byte)
    stream = bytearray()
    while len(stream) in found:
        stream.append(found[len(stream)])
    return bytes(stream)


def stream(packets, depth, stop=0):
    """One direction of the object `stream` of a flow line; where it was given up at a frame, only packets before that one count."""
    carried = bytes_of([packet for packet in packets if not stop or packet.number < stop], depth)
    return {"bytes": len(carried), "sha1": hashlib.sha1(carried).hexdigest()} | ({"stop": stop} if stop else {})
