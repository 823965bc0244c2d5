"""A bucket's history, read as a machine: each entry must be the one that the flows in the bucket give."""
import heapq

from trail.faults import Fault


class Flow:
    """A run that is in its bucket: its members, which of them use it now, and whether it is known to be detached."""

    def __init__(self, run, role, place):
        self.run, self.role, self.members, self.uses = run, role, [run], {run}
        self.place, self.nodes, self.stops, self.is_detached = place, 0, 0, False

    @property
    def last(self):
        return self.members[-1]


class Bucket:
    """One bucket. Runs' keys are known where their lines are there; frames that were refused have no known key."""

    def __init__(self, number, entries, layout, let_go, keys):
        self.number, self.entries, self.layout, self.let_go, self.keys = number, entries, layout, let_go, keys
        self.flows, self.denied, self.pending, self.looked = {}, {}, {}, {}
        self.detached, self.spans, self.points, self.by_key = {}, [], [], {}
        self.place, self.is_lost = 0, False

    def faults(self):
        for self.place, entry in enumerate(self.entries, 1):
            for what in getattr(self, entry.kind)(entry):
                yield Fault(entry.kind, f"bucket {self.number} entry {self.place}", f"'{entry}' {what}")
            if self.is_lost:
                break
            if entry.kind not in ("victim", "inuse"):
                self.pending[entry.role] = entry
        yield from self.faults_of_detaching()
        if self.flows and not self.is_lost:
            yield Fault("drained", f"bucket {self.number}", f"runs {sorted(self.flows)} are there at the end")

    def is_pending(self, entry, kind):
        """Whether the role's last entry but evictions is of this kind and this frame."""
        before = self.pending.get(entry.role)
        return before is not None and before.kind == kind and before.no == entry.no

    def is_unsettled(self, role):
        return getattr(self.pending.get(role), "offer", None) == "needs"

    def look(self, entry):
        """What goes for every look."""
        before = self.looked.get(entry.role, 0)
        if entry.no <= before:
            yield f"behind frame {before} of the same role"
        self.looked[entry.role] = entry.no
        if self.is_unsettled(entry.role):
            yield "where an offer of the role isn't settled"
        if self.is_pending_missing(entry.role):
            yield "where a missing frame of the role has no answer"

    def is_pending_missing(self, role):
        return getattr(self.pending.get(role), "kind", "") == "missing"

    def found(self, entry):
        yield from self.look(entry)
        flow = self.flows.get(entry.run)
        if flow is None:
            yield "names a run that isn't in the bucket"
            return
        if flow.is_detached:
            yield "names a run that is detached"
        if flow.role != entry.role:
            yield f"names a run of role {flow.role}"
        if entry.no <= flow.last:
            yield f"behind member {flow.last}"
        yield from self.offered(entry, flow)
        flow.members.append(entry.no)
        flow.uses.add(entry.no)
        flow.place = self.place

    def offered(self, entry, flow):
        if (entry.offer == "stopped" and flow.stops == 0) or (entry.offer != "stopped" and flow.stops > 1):
            yield f"where {flow.stops} of the run's streams are stopped"
        key = self.keys.get(flow.run)
        if key and not key.is_tcp and entry.offer != "nothing":
            yield "has an offer of a TCP segment"

    def linked(self, key):
        """The flows of a key that packets may join."""
        self.by_key[key] = [flow for flow in self.by_key.get(key, ()) if self.flows.get(flow.run) is flow and not flow.is_detached]
        return self.by_key[key]

    def missing(self, entry):
        yield from self.look(entry)
        key = self.keys.get(entry.no)
        if entry.left:
            flow = self.flows.pop(entry.left, None)
            if flow is None:
                yield "names a run that isn't in the bucket"
                return
            if flow.uses or flow.is_detached or flow.role != entry.role:
                yield f"names a run that role {flow.role} made, with uses {sorted(flow.uses)}" + " and detached" * flow.is_detached
            if key and self.keys.get(entry.left) != key:
                yield "names a run of another key"
            self.detached[entry.left] = entry
        elif key is None:
            self.points.append((self.place, entry.role))
        else:
            for flow in self.linked(key):
                flow.is_detached = True
                self.detached[flow.run] = entry
                if not flow.uses:
                    yield f"where run {flow.run} of its key has no use, and leaves"

    def made(self, entry):
        if not self.is_pending(entry, "missing"):
            yield "where the role has no missing frame of this number"
        if entry.offer not in ("inorder", "nothing"):
            yield "has an offer that no first packet has"
        key = self.keys.get(entry.no)
        if key and self.linked(key):
            yield f"where runs {[flow.run for flow in self.linked(key)]} of its key are linked"
        if key and not key.is_tcp and entry.offer != "nothing":
            yield "has an offer of a TCP segment"
        self.flows[entry.no] = Flow(entry.no, entry.role, self.place)
        self.by_key.setdefault(key, []).append(self.flows[entry.no])

    def refused(self, entry):
        if not self.is_pending(entry, "missing"):
            yield "where the role has no missing frame of this number"
        self.denied[entry.no] = entry.role

    def settled(self, entry):
        """The flow whose offer is settled."""
        before = self.pending.get(entry.role)
        is_due = self.is_unsettled(entry.role) and before.no == entry.no
        return self.flows.get(before.run if before.kind == "found" else before.no) if is_due else None

    def stored(self, entry):
        flow = self.settled(entry)
        if flow is None:
            yield "where the role has no unsettled offer of this frame"
            return
        flow.nodes += 1

    def stopped(self, entry):
        flow = self.settled(entry)
        if flow is None:
            yield "where the role has no unsettled offer of this frame"
            return
        flow.stops += 1
        if flow.stops > 2:
            yield "is a third stop of the run"

    def closed(self, entry):
        flow = self.flows.get(entry.run)
        if self.is_unsettled(entry.role):
            yield "where an offer of the role isn't settled"
        if flow is None or entry.no not in flow.uses:
            yield "names no run that this frame uses"
            return
        flow.uses.discard(entry.no)
        if flow.role != entry.role:
            yield f"closes a use of role {flow.role}"
        if entry.freed > flow.nodes:
            yield f"frees nodes of a run that holds {flow.nodes}"
        flow.nodes -= entry.freed
        yield from self.let_last_go(entry, flow)

    def let_last_go(self, entry, flow):
        """A run leaves at the close of its last use exactly where it is detached."""
        if not entry.ended:
            if flow.is_detached and not flow.uses:
                yield "is the last use of a detached run, which stays"
            return
        if flow.uses:
            yield f"lets a run go that frames {sorted(flow.uses)} use"
        if not flow.is_detached:
            self.spans.append((flow.place, self.place, entry))
            self.detached[entry.run] = entry
        self.flows.pop(entry.run, None)

    def faults_of_detaching(self):
        """Each run that left at a close, and of which no missing frame's key tells that it detached it, needs a missing frame of its own between."""
        points, spans = list(self.points), sorted(self.spans, key=lambda span: span[0])
        for role in sorted({entry.role for _, _, entry in spans}):
            open_, mine = [], [span for span in spans if span[2].role == role]
            for point in [place for place, of in points if of == role] + [len(self.entries) + 1]:
                while mine and mine[0][0] < point:
                    begin, end, entry = mine.pop(0)
                    heapq.heappush(open_, (end, begin, entry))
                while open_ and open_[0][0] < point:
                    end, begin, entry = heapq.heappop(open_)
                    yield Fault("closed", f"bucket {self.number} entry {end}", f"'{entry}' lets a run go that no missing frame detached")
                if open_:
                    heapq.heappop(open_)

    def idle(self, entry):
        if self.denied.pop(entry.no, None) != entry.role:
            yield "where the role has no refused frame of this number"
        if entry.app != "none":
            yield "has a verdict"

    def victim(self, entry):
        flow = self.flows.pop(entry.run, None)
        if flow is None:
            yield "names a run that isn't in the bucket"
            return
        if flow.uses:
            yield f"names a run that frames {sorted(flow.uses)} use"
        # The clock of the last member doesn't fall with its number; of equal clocks the least run is the one.
        older = [other.run for other in self.flows.values() if not other.uses and other.last < flow.last and other.run < flow.run]
        if older:
            yield f"where run {min(older)} is older"
        if self.is_unsettled(entry.role):
            yield "where an offer of the role isn't settled"
        self.detached[entry.run] = entry

    def inuse(self, entry):
        idle = sorted(flow.run for flow in self.flows.values() if not flow.uses)
        if idle:
            yield f"where no frame uses runs {idle}"
        if entry.count != len(self.flows):
            yield f"where {len(self.flows)} runs are there"

    def names(self, entry):
        """The runs that a sweep or a drain lets go; where they aren't known, the rest of the history can't be judged."""
        names = self.let_go.get((self.number, self.place), [] if entry.count == 0 else None)
        self.is_lost = names is None
        return names or []

    def swept(self, entry):
        for run in self.names(entry):
            flow = self.flows.pop(run, None)
            if flow is None:
                yield f"lets run {run} go, which isn't in the bucket"
            elif flow.uses:
                yield f"lets run {run} go, which frames {sorted(flow.uses)} use"
            elif (flow.last - 1) // self.layout.round >= entry.round:
                yield f"lets run {run} go, whose last packet {flow.last} is of no earlier round"
            self.detached[run] = entry

    def drained(self, entry):
        if entry.count != len(self.flows):
            yield f"where {len(self.flows)} runs are there"
        names = self.names(entry)
        if not self.is_lost and names != sorted(self.flows):
            yield f"where runs {sorted(self.flows)} are there, and {names} are given back"
        used = sorted(flow.run for flow in self.flows.values() if flow.uses)
        if used:
            yield f"where frames use runs {used}"
        if self.place != len(self.entries):
            yield "isn't the last entry"
        self.detached |= dict.fromkeys(self.flows, entry)
        self.flows.clear()
