"""A trail over its capture: each entry of a bucket must be the one that the packets give, and the lines those of its runs."""
from itertools import zip_longest

import model
from model.capture import read
from trail.faults import Fault
from trail.keys import key_of_packet
from trail.packets import Flow, verdict_word


class Setup:
    """What the capture tells: packets, keys, clocks, and the next frame of each frame's key."""

    def __init__(self, data, layout):
        self.layout = layout
        self.seen, self.clock, self.cut_bytes = model.frames_seen(data)
        self.packets = {what.number: what for _, what in self.seen if not isinstance(what, str)}
        self.keys = {no: key_of_packet(packet) for no, packet in self.packets.items()}
        self.clocks, self.next, latest = [0], {}, {}
        for time, _ in read(data)[1]:
            self.clocks.append(max(self.clocks[-1], time))
        for no, key in self.keys.items():
            self.next[latest.get(key)] = no
            latest[key] = no

    def round_of(self, no):
        return (no - 1) // self.layout.round

    def clock_of_round(self, number):
        return self.clocks[number * self.layout.round + 1]


class Bucket:
    """A bucket's flows, by its history. That the history is lawful by itself was judged before."""

    def __init__(self, number, entries, setup, let_go):
        self.number, self.entries, self.setup, self.let_go = number, entries, setup, let_go
        self.flows, self.linked, self.using, self.ended = {}, {}, {}, []

    def faults(self):
        """The first entry that isn't as the packets give it: what follows hangs on it."""
        for place, entry in enumerate(self.entries, 1):
            judged = getattr(self, entry.kind, None)
            for what in judged(entry, place) if judged else ():
                yield Fault(f"{entry.kind} by the capture", f"bucket {self.number} entry {place}", f"'{entry}' {what}")
                return

    def leave(self, flow):
        del self.flows[flow.run]
        self.ended.append(flow)

    def detach(self, flow, reason, emergency=False):
        flow.detach(reason, emergency)
        del self.linked[self.setup.keys[flow.run]]

    def found(self, entry, _):
        packet = self.setup.packets[entry.no]
        flow = self.linked.get(self.setup.keys[entry.no])
        if flow is None or flow.run != entry.run:
            yield f"where {f'run {flow.run}' if flow else 'no run'} of its key is linked"
            return
        if flow.ends_at(packet, entry.emergency):
            yield f"where that run ends by {flow.ends_at(packet, entry.emergency)[0]}"
        offer = flow.absorb(packet)
        self.using[entry.no] = flow
        if offer != entry.offer:
            yield f"where the offer is {offer}"

    def missing(self, entry, _):
        flow, due = self.linked.get(self.setup.keys[entry.no]), 0
        if flow:
            ends = flow.ends_at(self.setup.packets[entry.no], entry.emergency)
            if not ends:
                yield f"where run {flow.run} of its key is linked and hasn't ended"
            self.detach(flow, *(ends or ("timeout", False)))
            if not flow.uses:
                due = flow.run
                self.leave(flow)
        if entry.left != due:
            yield f"where run {due} leaves"

    def made(self, entry, _):
        flow = Flow(self.setup.layout.depth)
        offer = flow.absorb(self.setup.packets[entry.no])
        self.flows[entry.no] = self.linked[self.setup.keys[entry.no]] = self.using[entry.no] = flow
        if offer != entry.offer:
            yield f"where the offer is {offer}"

    def stored(self, entry, _):
        packet = self.setup.packets[entry.no]
        self.using[entry.no].stream(packet).store(packet)
        return ()

    def stopped(self, entry, _):
        self.using[entry.no].stream(self.setup.packets[entry.no]).stop = entry.no
        return ()

    def closed(self, entry, _):
        flow = self.using.pop(entry.no)
        flow.uses.discard(entry.no)
        due = verdict_word(self.setup.packets[entry.no]), flow.run, sum(stream.free() for stream in flow.streams.values()), not (flow.is_linked or flow.uses)
        if (entry.app, entry.run, entry.freed, entry.ended) != due:
            yield f"where verdict, run, freed nodes and end are {due}"
        if due[3]:
            self.leave(flow)

    def victim(self, entry, _):
        due = min((flow for flow in self.flows.values() if not flow.uses), key=lambda flow: (flow.last.clock, flow.run))
        if due.run != entry.run:
            yield f"where run {due.run} is older"
        flow = self.flows[entry.run]
        self.detach(flow, "forced")
        self.leave(flow)

    def swept(self, entry, place):
        """The flows that have expired, and of which no packet of an earlier round is to come."""
        clock, gone = self.setup.clock_of_round(entry.round), []
        for flow in list(self.flows.values()):
            following = self.setup.next.get(flow.last.number)
            is_left = following is None or self.setup.round_of(following) >= entry.round
            if flow.is_linked and is_left and flow.is_expired(clock, entry.emergency):
                self.detach(flow, "timeout", entry.emergency)
                if not flow.uses:
                    gone.append(flow)
        for flow in gone:
            self.leave(flow)
        due = sorted(flow.run for flow in gone)
        if due != self.let_go.get((self.number, place), []):
            yield f"where runs {due} have expired, and {self.let_go.get((self.number, place), [])} are given back"

    def drained(self, _, __):
        for flow in list(self.flows.values()):
            if flow.is_linked:
                self.detach(flow, "timeout" if flow.is_expired(self.setup.clock, False) else "shutdown")
            self.leave(flow)
        return ()


def faults_of_places(setup, trail):
    """Each frame that bears a flow is looked up by its worker in its bucket."""
    looked = set()
    for number, entries in enumerate(trail.buckets):
        for place, entry in enumerate(entries, 1):
            if entry.kind in ("found", "missing"):
                looked.add(entry.no)
                key = setup.keys.get(entry.no)
                if key is None or (key.bucket(trail.layout.rows), key.worker(trail.layout.workers)) != (number, entry.role):
                    yield Fault("place by the capture", f"bucket {number} entry {place}", f"'{entry}' is of another bucket or worker")
    for no in sorted(set(setup.keys) - looked):
        yield Fault("place by the capture", f"frame {no}", "it isn't looked up")


def replay(setup, trail, let_go, ended):
    """What is wrong with a lawful trail over this capture; the flows are put into `ended`."""
    places = list(faults_of_places(setup, trail))
    yield from places
    for number, entries in enumerate([] if places else trail.buckets):
        bucket = Bucket(number, entries, setup, let_go)
        yield from bucket.faults()
        ended += bucket.ended


def faults_of_text(setup, ended, counts, options, text):
    """The lines must be those of these flows, and of what the limits did by the trail's counts."""
    runs = sorted((flow.as_run() for flow in ended), key=lambda run: run.packets[0].number)
    limits = {name: counts[name] for name in ("emergency_entered", "memcap_full", "no_flow", "segment_full")}
    limits |= {"emergency": sum(run.emergency for run in runs), "forced": sum(run.reason == "forced" for run in runs)}
    due = model.written(setup.seen, setup.clock, setup.cut_bytes, runs, options, limits)
    for number, (line, other) in enumerate(zip_longest(text.splitlines(), due.splitlines(), fillvalue="no line"), 1):
        if line != other:
            yield Fault("lines by the capture", f"line {number}", f"{line} in place of {other}")
            return
