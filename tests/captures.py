#!/usr/bin/env python3
"""Random captures: few ends, times near the timeouts, TCP sessions of all courses, frames of many forms, and faults
now and then. tests/reach.py says what they reach.

    captures.py SEED > capture
"""
import random
import struct
import sys

r = random.Random()
SECOND = 10**9
HOSTS = {
    4: [bytes([10, 0, 0, 1]), bytes([10, 0, 0, 2]), bytes([200, 0, 0, 1])],
    6: [bytes.fromhex("20010db8") + bytes(11) + bytes([i]) for i in (1, 2)] + [b"\xff" * 16],
}
PORTS = [53, 80, 1000, 65535]
ICMP, TCP, UDP, ICMP6 = 1, 6, 17, 58
FIN, SYN, RST, PSH, ACK = 1, 2, 4, 8, 16

# The courses of a TCP session: who sends (client or server) which flags.
OPEN = [("c", SYN), ("s", SYN | ACK), ("c", ACK)]
COURSES = [
    OPEN + [("c", PSH | ACK), ("s", PSH | ACK), ("c", FIN | ACK), ("s", ACK), ("s", FIN | ACK), ("c", ACK)],
    OPEN + [("s", PSH | ACK), ("s", FIN | ACK), ("c", ACK), ("c", FIN | ACK), ("s", ACK)],
    OPEN + [("c", FIN | ACK), ("s", FIN | ACK), ("c", ACK), ("s", ACK)],
    OPEN + [("c", PSH | ACK), ("s", RST | ACK)],
    [("c", SYN), ("s", RST | ACK)],
    [("c", SYN), ("s", SYN), ("c", SYN | ACK), ("s", SYN | ACK), ("c", FIN), ("s", ACK), ("s", FIN), ("c", ACK)],
    [("c", SYN | ACK), ("s", ACK), ("s", FIN | ACK), ("c", FIN | ACK), ("s", ACK)],
    [("c", PSH), ("c", FIN), ("s", ACK), ("s", FIN), ("c", ACK)],
    [("c", 0), ("s", FIN), ("c", FIN), ("s", ACK)],
]
TCP_PAYLOADS = [
    b"GET / HTTP/1.1\r\n\r\n", b"GET", b"get / HTTP/1.1", b"POST /", b"PUT x", b"HEAD /", b"DELETE /", b"OPTIONS *", b"OPTIONS",
    b"HTTP/1.1 200 OK", b"HTTP/1.", b"HTTP/2", b"SSH-2.0-x", b"SSH-", b"SSH", b"x GET /", b"\x00", bytes(30),
] + [bytes.fromhex(hello) for hello in (
    "160301000501", "160304000502", "160300ffff01aa", "160305000501", "160301000503", "160301000500", "1603010005", "160201000501", "170301000501",
)]
UDP_PAYLOADS = [b"", bytes(11), bytes(12), bytes(30), b"GET / HTTP/1.1\r\n"]
# Types of ICMP: each and the one that the other end sends.
TYPES = {
    4: [(8, 0), (8, 0), (13, 14), (15, 16), (10, 9), (17, 18), (3, 3), (11, 5)],
    6: [(128, 129), (128, 129), (130, 131), (133, 134), (135, 136), (139, 140), (144, 145), (1, 1), (3, 143)],
}
TAGS = [(), (), (), (), (5,), (7,), (5, 7), (7, 5), (5, 7, 0), (0x2005,)]

# Values of options; those that are out of range or no numbers are rare.
WORDS = {
    "depth": ["0", "1", "2", "5", "10", "+20", "007", "1048576", "1073741824"] * 4 + ["1073741825", "-1", "5 ", "0x5"],
    "seed": ["0", "1", "256", "65535"] * 4 + ["65536", "", "1.0"],
    "workers": ["1", "64"] * 9 + ["0", "65"], "batch": ["1", "256"] * 9 + ["0", "257"], "round": ["1", "65536"] * 9 + ["0", "65537"],
    "rows": ["1", "4096"] * 9 + ["0", "4097"], "memcap": ["1", "1024", "4096", "1048576"] * 9 + ["0", "1048577"],
    "prealloc": ["0", "1048576"] * 9 + ["1048577"], "segments": ["0", "1048576"] * 9 + ["1048577"], "recovery": ["1", "100"] * 9 + ["0", "101"],
}


def mostly(usual, *others):
    return usual if r.random() < 0.96 else r.choice(others)


def tcp(ports, flags, sequence, payload):
    options = bytes(4 * mostly(0, 1, 5, 10))
    words = mostly(5 + len(options) // 4, 0, 4, 6, 15)
    return struct.pack(">HHIIBBHHH", *ports, sequence % 2**32, 0, words << 4, flags, 65535, 0, 0) + options + payload


def udp(ports, payload):
    return struct.pack(">HHHH", *ports, r.choice([8 + len(payload)] * 12 + [0, 7, 8, 9, 19, 20, 65535]), 0) + payload


def ipv4(source, dest, protocol, inner):
    options = bytes(4 * mostly(0, 1, 10))
    header = 20 + len(options)
    size = header + len(inner)
    total = mostly(size, 0, 19, header - 1, header, header + 19, header + 20, size - 1, size + 1, 65535) % 65536
    fragment = mostly(0x4000, 0, 0x2000, 0x2001, 1, 0x1000, 0x8000)
    first = mostly(0x40 + header // 4, 0x44, 0x46, 0x4F, 0x55, 0x65)
    return struct.pack(">BBHHHBBH", first, 0, total, 0, fragment, r.randrange(256), protocol, 0) + source + dest + options + inner


def extension(kind, following):
    if kind == 44:
        return struct.pack(">BBHI", following, r.randrange(256), r.choice([0] * 6 + [2, 6, 6, 1, 8, 0xFFF8]), 7)
    more = mostly(0, 1, 2, 255)
    size = (more + 2) * 4 if kind == 51 else (more + 1) * 8
    return bytes([following, more]) + bytes(min(size, 40) - 2)


def ipv6(source, dest, protocol, inner):
    kinds = [r.choice([0, 43, 44, 51, 60]) for _ in range(r.choice([0] * 12 + [1, 1, 2, 3, 15, 16, 17]))]
    following = protocol
    for kind in reversed(kinds):
        inner, following = extension(kind, following) + inner, kind
    stated = mostly(len(inner), 0, 7, len(inner) - 1, len(inner) + 1, 65535) % 65536
    first = mostly(0x60, 0x40, 0x50, 0x6F)
    return bytes([first]) + bytes(3) + struct.pack(">HBB", stated, following, r.randrange(256)) + source + dest + inner


def frame_of(link, version, packet, tags):
    if link == 101:
        return packet
    kind = mostly({4: 0x0800, 6: 0x86DD}[version], 0x0806, 0x0800, 0x86DD)
    for tag in reversed(tags):
        kind, packet = r.choice([0x8100, 0x88A8]), struct.pack(">HH", tag, kind) + packet
    head = bytes.fromhex("020000000002020000000001") if link == 1 else bytes(14)
    return head + struct.pack(">H", kind) + packet


class Sender:
    """One end's sequence numbers: segments in order, before and behind it, near the wrap and half the space away."""

    def __init__(self):
        self.next = r.choice([0, 1, 2**31 - 3, 2**31, 2**32 - 30, 2**32 - 1, r.randrange(2**32)])

    def segment(self, flags, payload):
        """The sequence number of a segment, and its payload, which overlaps others now and then with other bytes."""
        if r.random() < 0.3 and payload:
            payload = bytes(r.choice(b"abcdef") for _ in range(r.randint(1, 12)))
        behind = r.choice([-20, -5, -3, -1, 1, 2, 4, 8, 2**31 - 1, 2**31, 2**31 + 1]) if r.random() < 0.4 else 0
        sequence = self.next + behind
        if behind <= 8:
            self.next = max(self.next, sequence + (flags & SYN != 0) + len(payload) - (behind > 0) * (len(payload) + behind))
        return sequence, payload


class Talk:
    """Two ends that speak by one transport, inside the same tags."""

    def __init__(self):
        self.version = r.choice([4, 4, 6])
        self.protocol = r.choice([TCP] * 4 + [UDP] * 2 + [{4: ICMP, 6: ICMP6}[self.version]])
        self.tags = r.choice(TAGS)
        self.client, self.server = ((r.choice(HOSTS[self.version]), r.choice(PORTS)) for _ in range(2))
        self.types = r.choice(TYPES[self.version])
        self.course = []
        self.senders = {"c": Sender(), "s": Sender()}

    def next_step(self):
        """Who sends, and the flags that TCP has; a new course where the last one is over, at times from the other end."""
        if not self.course or r.random() < 0.02:
            self.course = list(r.choice(COURSES))
            if r.random() < 0.2:
                self.client, self.server = self.server, self.client
        if r.random() < 0.1:
            return r.choice("cs"), r.choice([r.randrange(256), 0, SYN, SYN | ACK, FIN, RST, ACK, SYN | RST, SYN | RST | ACK, SYN | FIN, FIN | ACK])
        sender, flags = self.course.pop(0)
        return sender, flags | mostly(0, 0x20, 0x40, 0x80, 0xE0)

    def icmp(self, sender):
        usual = self.types["cs".index(sender)]
        kind = usual if r.random() < 0.7 else r.choice([*self.types, *r.choice(TYPES[self.version]), r.randrange(256)])
        return bytes([kind, r.choice([0, 0, 1, 3])]) + bytes(mostly(10, 0, 1, 2))

    def packet(self):
        sender, flags = self.next_step()
        source, dest = (self.client, self.server) if sender == "c" else (self.server, self.client)
        ports = source[1], dest[1]
        if self.protocol == TCP:
            payload = r.choice(TCP_PAYLOADS) if flags & PSH or r.random() < 0.3 else b""
            sequence, payload = self.senders[sender].segment(flags, payload)
            inner = tcp(ports, flags, sequence, payload)
        else:
            inner = udp(ports, r.choice(UDP_PAYLOADS)) if self.protocol == UDP else self.icmp(sender)
        protocol = mostly(self.protocol, ICMP, TCP, UDP, ICMP6, 59, 0)
        return {4: ipv4, 6: ipv6}[self.version](source[0], dest[0], protocol, inner)

    def frame(self, link):
        tags = mostly(self.tags, *TAGS, (5, 7, 5, 7))
        frame = frame_of(link, self.version, self.packet(), tags) + bytes(mostly(0, 6))
        likely, least, most = (0.5, 24, 34) if len(tags) == 4 else (0.04, 0, r.choice([20, 34, 60, 10**6]))
        return frame[: r.randint(least, max(least, min(most, len(frame))))] if r.random() < likely else frame


def step():
    """The time from one frame to the next: small, or near a timeout."""
    if r.random() < 0.8:
        return r.choice([0, 1, 1000, 10**6, SECOND])
    return r.choice([30, 60, 120, 300, 3600]) * SECOND + r.choice([-1000, 0, 0, 0, 1, 1000, SECOND])


def record(order, unit, time, frame):
    fraction = time % SECOND // unit if r.random() < 0.99 else r.randrange(2**32)
    length = len(frame) if r.random() < 0.998 else r.choice([262_144, 262_145, 2**32 - 1])
    return struct.pack(order + "IIII", time // SECOND % 2**32, fraction, length, r.randrange(2**32)) + frame


def words(seed):
    """The words of the command line for the capture of this seed: mostly few and right."""
    r.seed(f"words of {seed}")
    pairs = [(name, r.choice(values)) for name, values in WORDS.items() if r.random() < 0.15]
    found = [word for name, value in pairs for word in ([f"--{name}={value}"] if r.random() < 0.3 else [f"--{name}", value])]
    if r.random() < 0.3:
        found.append("--netflow")
    if r.random() < 0.3:
        found.append("--audit")
    if r.random() < 0.06:
        found.insert(r.randrange(len(found) + 1), r.choice(["--netflow", "--netflow=true", "-d", "x", "--workers", "--dept", "", "--Seed", "--audit", "--audit=true"]))
    return found


def capture(seed):
    r.seed(seed)
    order, magic, unit = r.choice([("<", 0xA1B2C3D4, 1000), (">", 0xA1B2C3D4, 1000), ("<", 0xA1B23C4D, 1), (">", 0xA1B23C4D, 1)])
    link = r.choice([1] * 16 + [101] * 5 + [113] * 5 + [0x10001, 105])
    version = mostly((2, 4), (2, 3), (3, 4))
    parts = [struct.pack(order + "IHHIIII", magic, *version, 0, 0, 65535, link)]
    time = r.choice([0, 1_700_000_000 * SECOND, 951_782_399 * SECOND, 4_102_444_800 * SECOND])
    talks = [Talk() for _ in range(r.choice([1, 1, 2, 3, 4]))]
    for _ in range(r.randrange(50)):
        time += step()
        back = r.choice([1, 5, 31]) * SECOND if r.random() < 0.05 else 0
        parts.append(record(order, unit, max(0, time - back), r.choice(talks).frame(link % 65536)))
    data = b"".join(parts)
    if r.random() < 0.1:
        data = data[: r.randrange(len(data) + 1)]
    if r.random() < 0.03:
        data = r.choice([b"\x0a\x0d\x0d\x0a", b"\x00\x00\x00\x00", b"\x1f\x8b\x08\x00"]) + data[4:]
    return data


if __name__ == "__main__":
    sys.stdout.buffer.write(capture(int(sys.argv[1])))
