"""Keys, sessions, verdicts, and the runs into which the packets of a key are cut."""
import base64
import hashlib
import struct
from typing import NamedTuple

from model.capture import SECOND
from model.decode import TCP, UDP

FIN, SYN, RST, ACK = 0x01, 0x02, 0x04, 0x10

# Types of ICMP that ask and answer, by IP version.
PAIRS = {
    4: ((8, 0), (13, 14), (15, 16), (10, 9), (17, 18)),
    6: ((128, 129), (130, 131), (133, 134), (135, 136), (139, 140), (144, 145)),
}
COUNTERPARTS = {version: dict(pairs) | {two: one for one, two in pairs} for version, pairs in PAIRS.items()}

# The moves of a TCP session, by event and, where that tells, by who sent it: client or server. All
# other events leave the state.
MOVES = {
    "none": {"R": "closed", "SA": "syn_recv", "S": "syn_sent", "F by c": "fin_wait1", "F by s": "close_wait", "A": "established"},
    "syn_sent": {"R": "closed", "SA by s": "syn_recv", "S by s": "syn_recv", "F by c": "fin_wait1", "F by s": "close_wait", "A by c": "established"},
    "syn_recv": {"R": "closed", "F by c": "fin_wait1", "F by s": "close_wait", "A": "established"},
    "established": {"R": "closed", "F by c": "fin_wait1", "F by s": "close_wait"},
    "fin_wait1": {"R": "closed", "F by s": "time_wait", "A by s": "fin_wait2"},
    "fin_wait2": {"R": "closed", "F by s": "time_wait"},
    "time_wait": {"R": "closed", "A by c": "closed"},
    "close_wait": {"R": "closed", "F by c": "last_ack"},
    "last_ack": {"R": "closed", "A by s": "closed"},
    "closed": {},
}

# Seconds by class, of TCP and of the others.
TIMEOUTS = {True: {"new": 60, "established": 3600, "closed": 120}, False: {"new": 30, "established": 300}}

REQUESTS = (b"GET ", b"POST ", b"PUT ", b"HEAD ", b"DELETE ", b"OPTIONS ", b"HTTP/1.")


class Ends(NamedTuple):
    """The two ends of a packet; one-way where the order of the two is of the key."""

    source: tuple
    dest: tuple
    one_way: bool


class Run(NamedTuple):
    """Where limits act, a run may have ended by the emergency table, and its streams may have been given up at a frame, to the server and to the client."""

    packets: list
    reason: str
    emergency: bool = False
    stops: tuple = (0, 0)


def ends(packet):
    """Of an ICMP pair the types stand as ports, each at the end that sends it; else type and code."""
    numbers, one_way = packet.ports, False
    if packet.icmp:
        kind, code = packet.icmp
        counterpart = COUNTERPARTS[packet.internet.version].get(kind)
        one_way = counterpart is None
        numbers = kind, code if one_way else counterpart
    return Ends((packet.internet.source, numbers[0]), (packet.internet.dest, numbers[1]), one_way)


def key(packet):
    source, dest, one_way = ends(packet)
    pair = (source, dest) if one_way else frozenset((source, dest))
    return packet.vlans, packet.internet.version, packet.internet.protocol, one_way, pair


def is_from_lesser(packet):
    """Which side sent: the lesser of the two ends, or the source where the key is one-way."""
    source, dest, one_way = ends(packet)
    return one_way or source <= dest


def community_id(packet, seed=0):
    source, dest, one_way = ends(packet)
    a, b = (source, dest) if one_way else sorted((source, dest))
    named = struct.pack(">H", seed) + a[0] + b[0] + struct.pack(">BBHH", packet.internet.protocol, 0, a[1], b[1])
    return "1:" + base64.b64encode(hashlib.sha1(named).digest()).decode()


def is_tcp(packet):
    return packet.internet.protocol == TCP


def is_syn_ack(packet):
    return is_tcp(packet) and packet.flags & (SYN | ACK | RST) == SYN | ACK


def is_to_server(run, packet):
    """The client sent the first packet, or is to get it where it is SYN and ACK."""
    client_is_lesser = is_from_lesser(run[0]) != is_syn_ack(run[0])
    return is_from_lesser(packet) == client_is_lesser


def event(flags):
    if flags & RST:
        return "R"
    if flags & SYN:
        return "SA" if flags & ACK else "S"
    if flags & FIN:
        return "F"
    return "A" if flags & ACK else "N"


def session(run):
    """The state of the TCP session after these packets."""
    state = "none"
    for packet in run:
        what = event(packet.flags)
        by = f"{what} by {'c' if is_to_server(run, packet) else 's'}"
        state = MOVES[state].get(by) or MOVES[state].get(what, state)
    return state


def class_of(run):
    if not is_tcp(run[0]):
        return "established" if len({is_from_lesser(packet) for packet in run}) == 2 else "new"
    state = session(run)
    if state in ("none", "syn_sent", "syn_recv"):
        return "new"
    return "closed" if state in ("time_wait", "last_ack", "closed") else "established"


def is_expired(run, clock):
    return clock > run[-1].clock + TIMEOUTS[is_tcp(run[0])][class_of(run)] * SECOND


def is_reuse_of(class_, packet):
    """The packet opens a new connection where a flow of that class is."""
    opens = is_tcp(packet) and packet.flags & (SYN | ACK | RST) == SYN
    return opens and class_ == "closed"


def is_reuse(run, packet):
    return is_reuse_of(class_of(run), packet)


def cut(packets, last_clock):
    """The runs of one key's packets, each with the reason why it ended."""
    runs, run = [], []
    for packet in packets:
        if run and is_expired(run, packet.clock):
            runs.append(Run(run, "timeout"))
            run = []
        elif run and is_reuse(run, packet):
            runs.append(Run(run, "tcp_reuse"))
            run = []
        run = run + [packet]
    return runs + [Run(run, "timeout" if is_expired(run, last_clock) else "shutdown")]


def runs_of(packets, last_clock):
    """All runs of a capture, by the number of their first frame."""
    by_key = {}
    for packet in packets:
        by_key.setdefault(key(packet), []).append(packet)
    runs = [run for of_key in by_key.values() for run in cut(of_key, last_clock)]
    return sorted(runs, key=lambda run: run.packets[0].number)


def verdict(packet):
    """The application protocol that the payload of one packet tells, or nothing."""
    payload = packet.payload
    if is_tcp(packet):
        if payload.startswith(REQUESTS):
            return "http"
        if len(payload) >= 6 and payload[0] == 0x16 and payload[1] == 3 and payload[2] <= 4 and payload[5] in (1, 2):
            return "tls"
        return "ssh" if payload.startswith(b"SSH-") else None
    is_dns = packet.internet.protocol == UDP and 53 in packet.ports and len(payload) >= 12
    return "dns" if is_dns else None
