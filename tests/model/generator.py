"""A generated capture, frame by frame, from its seed."""
import struct

HEADER = bytes.fromhex("d4c3b2a1020004000000000000000000 00000400 01000000")
LANES = 16
STATIONS = bytes.fromhex("020000000002 020000000001")
QUESTION = bytes.fromhex("123401000001000000000000 037777770000010001")


class Numbers:
    """The numbers that are drawn from a seed."""

    def __init__(self, seed):
        self.state = seed

    def below(self, bound):
        self.state = (self.state * 6364136223846793005 + 1442695040888963407) % 2**64
        return (self.state // 2**33) % bound


def segment(ports, flags, sequence, acknowledgement, payload=b""):
    return struct.pack(">HHIIBBHHH", *ports, sequence, acknowledgement, 0x50, flags, 0xFFFF, 0, 0) + payload


def web(port, size):
    """The segments of a web conversation, each with whether the client sends it."""
    there, back, end = (port, 80), (80, port), 5101 + size
    yield True, segment(there, 0x02, 1000, 0)
    yield False, segment(back, 0x12, 5000, 1001)
    yield True, segment(there, 0x10, 1001, 5001)
    yield True, segment(there, 0x18, 1001, 5001, b"GET / HTTP/1.1\r\n\r\n")
    yield False, segment(back, 0x18, 5001, 1019, bytes(j % 256 for j in range(100 + size)))
    yield True, segment(there, 0x10, 1019, end)
    yield True, segment(there, 0x11, 1019, end)
    yield False, segment(back, 0x10, end, 1020)
    yield False, segment(back, 0x11, end, 1020)
    yield True, segment(there, 0x10, 1020, end + 1)


def query(port):
    length = 8 + len(QUESTION)
    yield True, struct.pack(">HHHH", port, 53, length, 0) + QUESTION
    yield False, struct.pack(">HHHH", 53, port, length, 0) + QUESTION[:2] + b"\x81\x80" + QUESTION[4:]


def ping():
    for kind in 8, 0:
        yield kind == 8, bytes([kind, 0, 0, 0, 0, 1, 0, 1]) + bytes(56)


def conversation(numbers, lane):
    """The packets of a new conversation of a lane."""
    kind, host, port, server, size = (numbers.below(bound) for bound in (4, 200, 60000, 16, 400))
    client, other = bytes([10, 0, lane, 1 + host]), bytes([192, 0, 2, 1 + server])
    protocol, steps = {2: (17, query(1024 + port)), 3: (1, ping())}.get(kind, (6, web(1024 + port, size)))
    for is_client, body in steps:
        ends = client + other if is_client else other + client
        yield struct.pack(">BBHHHBBH", 0x45, 0, 20 + len(body), 0, 0x4000, 64, protocol, 0) + ends + body


def generate(seed, frames):
    """The capture file of so many frames."""
    numbers, lanes, records = Numbers(seed), [iter(())] * LANES, [HEADER]
    for i in range(frames):
        lane = i % LANES
        packet = next(lanes[lane], None)
        if packet is None:
            lanes[lane] = conversation(numbers, lane)
            packet = next(lanes[lane])
        tag = struct.pack(">HH", 0x8100, 100 + lane) if lane % 2 else b""
        frame = STATIONS + tag + b"\x08\x00" + packet
        micros = i * 10_000
        records += [struct.pack("<IIII", 1_700_000_000 + micros // 1_000_000, micros % 1_000_000, len(frame), len(frame)), frame]
    return b"".join(records)
