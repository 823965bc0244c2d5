"""Each role's entries in the order of its steps, read as its script."""
from collections import deque

from trail.faults import Fault
from trail.steps import by_role, name_of


class Broken(Exception):
    """The script asks for another step."""


class Acts:
    """What a role does, step by step."""

    def __init__(self, ones):
        self.ones, self.at = ones, 0

    def is_done(self):
        return self.at == len(self.ones)

    def is_next(self, *kinds):
        return not self.is_done() and self.ones[self.at].entry.kind in kinds

    def take(self, history, *kinds, **values):
        """The next entry: one of these kinds in this history, with these values."""
        due = " or ".join(kinds) + "".join(f" {name} {value}" for name, value in values.items()) + f" in {name_of(history)}"
        if self.is_done():
            raise Broken(f"no step in place of {due}")
        one = self.ones[self.at]
        same = all(getattr(one.entry, name, None) == value for name, value in values.items())
        if one.history != history or one.entry.kind not in kinds or not same:
            raise Broken(f"'{one.entry}' ({one.where}) in place of {due}")
        self.at += 1
        return one.entry

    def give(self, count):
        """Nodes go back, where there are any."""
        if count:
            self.take("segments", "gave", count=count)


class Worker:
    """A worker: its batches, and the hand of the runs that left by its own entries of the round."""

    def __init__(self, acts, layout, rounds, held):
        self.acts, self.layout, self.rounds, self.held = acts, layout, rounds, held
        self.hand, self.hands, self.round, self.last, self.is_cut = deque(), {}, 0, 0, False

    def play(self):
        while not self.acts.is_done():
            yield from self.batch()
        self.turn_round(self.rounds)

    def turn_round(self, following):
        """The hand of a round that is over goes to the recycler."""
        if following != self.round:
            self.hands[self.round], self.hand, self.is_cut = list(self.hand), deque(), False
        self.round = following

    def batch(self):
        """Yields each of its entries' round."""
        first = self.acts.at
        self.acts.take("pool", "mode")
        if not self.acts.is_next("found", "missing"):
            raise Broken("a batch without a packet")
        self.turn_round((self.acts.ones[self.acts.at].entry.no - 1) // self.layout.round)
        if self.is_cut:
            raise Broken(f"a further batch of round {self.round} behind one that isn't full")
        packets = []
        while self.acts.is_next("found", "missing"):
            packets.append(self.packet())
        self.is_cut = len(packets) < self.layout.batch
        if len(packets) > self.layout.batch:
            raise Broken(f"a batch of {len(packets)} packets")
        for bucket, no in packets:
            self.close(bucket, no)
        for one in self.acts.ones[first : self.acts.at]:
            yield one, self.round

    def packet(self):
        acts, one = self.acts, self.acts.ones[self.acts.at]
        acts.at += 1
        bucket, look, no = one.history, one.entry, one.entry.no
        if not self.last < no or (no - 1) // self.layout.round != self.round or self.round >= self.rounds:
            raise Broken(f"'{look}' ({one.where}) behind frame {self.last} in round {self.round} of {self.rounds}")
        self.last, begun = no, look
        if look.kind == "missing":
            if look.left:
                self.hand.append(look.left)
            begun = self.begin(bucket, no)
        if getattr(begun, "offer", None) == "needs":
            node = acts.take("segments", "took", "full", no=no)
            acts.take(bucket, "stored" if node.kind == "took" else "stopped", no=no)
        return bucket, no

    def begin(self, bucket, no):
        """An object for the frame's run, or a refusal where there is none."""
        if self.acts.take("pool", "took", "full", no=no).kind == "full":
            if not self.hand and not self.evict(bucket, no):
                return self.acts.take(bucket, "refused", no=no)
            run = self.hand.popleft()
            self.acts.give(self.held(run))
            self.acts.take("pool", "turn", run=run, no=no)
        return self.acts.take(bucket, "made", no=no)

    def evict(self, bucket, no):
        rows = self.layout.rows
        for k in range(rows):
            answer = self.acts.take((bucket + k) % rows, "victim", "inuse", no=no)
            if answer.kind == "victim":
                self.hand.append(answer.run)
                return True
        return False

    def close(self, bucket, no):
        entry = self.acts.take(bucket, "closed", "idle", no=no)
        if entry.kind == "closed":
            self.acts.give(entry.freed)
            if entry.ended:
                self.hand.append(entry.run)


def manage(acts, layout, swept):
    """The manager's rounds: yields each of its entries' round, and notes how many runs each sweep lets go."""
    number = 0
    while not acts.is_done():
        first = acts.at
        acts.take("pool", "mode")
        for bucket in range(layout.rows):
            if not acts.is_done():
                place = acts.ones[acts.at].place
            swept.append((number, bucket, place, acts.take(bucket, "swept", round=number).count))
        acts.take("pool", "over", round=number)
        for one in acts.ones[first : acts.at]:
            yield one, number
        number += 1


class Server:
    """The recycler or the end role, which finish what waits, run by run."""

    def __init__(self, acts, held, let_go):
        self.acts, self.held, self.let_go = acts, held, let_go

    def finish(self, run=None):
        """One run, where it is known that one: its nodes, and its object."""
        named = self.acts.ones[self.acts.at + self.acts.is_next("gave") :][:1]
        run = getattr(named[0].entry, "run", 0) if run is None and named else run
        self.acts.give(self.held(run))
        self.acts.take("pool", "put", run=run)
        return run

    def serve(self, number, known, counted):
        """The runs that are known by name, and then those of which histories tell how many, by rising run in each entry."""
        first = self.acts.at
        for run in known:
            self.finish(run)
        for bucket, place, count in counted:
            names = [self.finish() for _ in range(count)]
            if names != sorted(set(names)):
                raise Broken(f"runs {names} of bucket {bucket} entry {place} don't rise")
            self.let_go[bucket, place] = names
        for one in self.acts.ones[first : self.acts.at]:
            yield one, number

    def drain(self, number, rows):
        for bucket in range(rows):
            first, place = self.acts.at, self.acts.ones[self.acts.at].place if not self.acts.is_done() else 0
            count = self.acts.take(bucket, "drained").count
            yield self.acts.ones[first], number
            yield from self.serve(number, (), [(bucket, place, count)])


class Scripts:
    """All scripts of a trail: the round of each step, the runs that each sweep and each drain let go, and what is wrong."""

    def __init__(self, trail, account):
        self.layout, self.held, self.roles = trail.layout, account.held, by_role(trail)
        self.rounds_of, self.let_go, self.faults = {}, {}, []
        workers = self.layout.workers
        overs = [entry.round for entry in trail.pool if entry.kind == "over"]
        self.rounds = max(overs, default=-1) + 1
        swept = []
        is_whole = self.play("manager's script", manage(self.acts(workers), self.layout, swept))
        hands = []
        for role in range(workers):
            worker = Worker(self.acts(role), self.layout, self.rounds, self.held)
            is_whole = self.play(f"worker's script, role {role}", worker.play()) and is_whole
            hands.append(worker.hands)
        if is_whole:
            self.play("recycler's script", self.recycle(hands, swept))
            self.play("end's script", self.end(hands, swept))

    def acts(self, role):
        return Acts(self.roles.get(role, []))

    def play(self, script, steps):
        """Whether the role's entries are a whole run of its script."""
        try:
            for one, number in steps:
                self.rounds_of[one.entry.role, one.entry.step] = number
        except Broken as broken:
            name, _, role = script.partition(", ")
            self.faults.append(Fault(name, role or name.partition("'")[0], str(broken)))
            return False
        return True

    def queue(self, number, hands, swept):
        """What the roles let go in a round: the workers' hands by number, then the manager's."""
        known = [run for of_role in hands for run in of_role.get(number, ())]
        return known, [(bucket, place, count) for of, bucket, place, count in swept if of == number]

    def recycle(self, hands, swept):
        server = Server(self.acts(self.layout.workers + 1), self.held, self.let_go)
        for number in range(1, self.rounds):
            yield from server.serve(number, *self.queue(number - 1, hands, swept))
        if not server.acts.is_done():
            raise Broken(f"further steps from {server.acts.ones[server.acts.at].entry.step} on")

    def end(self, hands, swept):
        server = Server(self.acts(self.layout.workers + 2), self.held, self.let_go)
        yield from server.serve(self.rounds, *self.queue(self.rounds - 1, hands, swept))
        yield from server.drain(self.rounds, self.layout.rows)
        if not server.acts.is_done():
            raise Broken(f"further steps from {server.acts.ones[server.acts.at].entry.step} on")
