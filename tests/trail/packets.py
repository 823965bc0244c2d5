"""Flows with their packets, packet by packet: what the packets of a capture say of a bucket's entries."""
from model.capture import SECOND
from model.flows import MOVES, SYN, Run, event, is_from_lesser, is_reuse_of, is_tcp, is_to_server, verdict
from model.streams import WRAP, first_offset

# Seconds by class, of TCP and of the others: by the normal table, and by that of an emergency.
TIMEOUTS = {
    False: {True: {"new": 60, "established": 3600, "closed": 120}, False: {"new": 30, "established": 300}},
    True: {True: {"new": 10, "established": 300, "closed": 20}, False: {"new": 10, "established": 100}},
}
CLASSES = {"none": "new", "syn_sent": "new", "syn_recv": "new", "time_wait": "closed", "last_ack": "closed", "closed": "closed"}


class Stream:
    """One direction: the offsets that are covered, those below the frontier left out, and the segments that wait in nodes."""

    def __init__(self, depth):
        self.depth, self.base, self.frontier, self.ahead, self.stop, self.nodes = depth, None, 0, set(), 0, []

    def offer(self, packet):
        """What this packet brings; from now on its bytes are there."""
        if self.stop:
            return "stopped"
        if self.base is None and (packet.flags & SYN or packet.payload):
            self.base = (packet.sequence + (packet.flags & SYN != 0)) % WRAP
        if not packet.payload:
            return "nothing"
        first = first_offset(packet, self.base)
        new = set(range(max(first, self.frontier), min(first + len(packet.payload), self.depth))) - self.ahead
        if not new:
            return "nothing"
        offer = "inorder" if first <= self.frontier else "needs"
        self.ahead |= new
        while self.frontier in self.ahead:
            self.ahead.discard(self.frontier)
            self.frontier += 1
        return offer

    def store(self, packet):
        self.nodes.append(first_offset(packet, self.base))

    def free(self):
        """How many nodes are needed no longer."""
        waiting = [first for first in self.nodes if first > self.frontier and not self.stop]
        freed, self.nodes = len(self.nodes) - len(waiting), waiting
        return freed


class Flow:
    """A flow in its bucket."""

    def __init__(self, depth):
        self.packets, self.sides, self.state, self.uses, self.is_linked = [], set(), "none", set(), True
        self.streams, self.reason, self.emergency = {True: Stream(depth), False: Stream(depth)}, None, False

    @property
    def run(self):
        return self.packets[0].number

    @property
    def last(self):
        return self.packets[-1]

    def absorb(self, packet):
        """The packet is a member, and uses the flow; what it offers its stream."""
        self.packets.append(packet)
        self.sides.add(is_from_lesser(packet))
        self.uses.add(packet.number)
        if not is_tcp(packet):
            return "nothing"
        what = event(packet.flags)
        by = f"{what} by {'c' if is_to_server(self.packets, packet) else 's'}"
        self.state = MOVES[self.state].get(by) or MOVES[self.state].get(what, self.state)
        return self.stream(packet).offer(packet)

    def stream(self, packet):
        return self.streams[is_to_server(self.packets, packet)]

    def class_(self):
        if is_tcp(self.last):
            return CLASSES.get(self.state, "established")
        return "established" if len(self.sides) == 2 else "new"

    def is_expired(self, clock, emergency):
        return clock > self.last.clock + TIMEOUTS[emergency][is_tcp(self.last)][self.class_()] * SECOND

    def ends_at(self, packet, emergency):
        """Why this packet doesn't join the flow, if it doesn't: the reason, and whether by the emergency table."""
        if self.is_expired(packet.clock, emergency):
            return "timeout", emergency
        return ("tcp_reuse", False) if is_reuse_of(self.class_(), packet) else None

    def detach(self, reason, emergency=False):
        self.is_linked, self.reason, self.emergency = False, reason, emergency

    def as_run(self):
        return Run(self.packets, self.reason, self.emergency, (self.streams[True].stop, self.streams[False].stop))


def verdict_word(packet):
    return verdict(packet) or "none"
