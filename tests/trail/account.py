"""What the histories tell of each frame and each run, whatever their order."""
import collections

from trail.faults import Fault
from trail.steps import placed

LOOKS = ("found", "missing")


class Account:
    """The entries of a trail by the frame and by the run that they name."""

    def __init__(self, trail):
        self.looks, self.answers, self.closes = (collections.defaultdict(list) for _ in range(3))
        self.given, self.back, self.left = (collections.defaultdict(list) for _ in range(3))
        self.members, self.closed = collections.defaultdict(list), collections.defaultdict(list)
        self.run_of, self.runs, self.stored, self.freed = {}, set(), collections.Counter(), collections.Counter()
        self.stops = collections.defaultdict(list)
        for one in placed(trail):
            if isinstance(one.history, int):
                self.note_bucket(one, one.entry)
            elif one.history == "pool":
                self.note_pool(one, one.entry)

    def note_pool(self, one, entry):
        if entry.kind in ("took", "turn"):
            self.given[entry.no].append(one)
        if entry.kind in ("put", "turn"):
            self.back[entry.run].append(one)

    def note_bucket(self, one, entry):
        kind = entry.kind
        if kind in LOOKS:
            self.looks[entry.no].append(one)
        if kind in ("made", "refused"):
            self.answers[entry.no].append(one)
        if kind in ("made", "found"):
            run = entry.no if kind == "made" else entry.run
            self.run_of[entry.no] = run
            self.members[run].append(entry.no)
        if kind == "made":
            self.runs.add(entry.no)
        if kind in ("closed", "idle"):
            self.closes[entry.no].append(one)
        self.note_nodes(entry)
        self.note_leaving(one, entry)

    def note_nodes(self, entry):
        if entry.kind == "stored":
            self.stored[self.run_of.get(entry.no)] += 1
        if entry.kind == "stopped":
            self.stops[self.run_of.get(entry.no)].append(entry.no)
        if entry.kind == "closed":
            self.freed[entry.run] += entry.freed
            self.closed[entry.run].append(entry)

    def note_leaving(self, one, entry):
        if entry.kind == "missing" and entry.left:
            self.left[entry.left].append(one)
        if entry.kind == "victim" or (entry.kind == "closed" and entry.ended):
            self.left[entry.run].append(one)

    def held(self, run):
        """The nodes that a run holds when it is finished."""
        return self.stored[run] - self.freed[run]


def once(check, of, count, due, what):
    if count != due:
        yield Fault(check, of, f"{count} {what} in place of {due}")


def faults_of_frames(account):
    """Each frame is looked up once, has one answer where no run was found, and its use is closed once."""
    for no in sorted({*account.looks, *account.answers, *account.closes}):
        frame, looks = f"frame {no}", account.looks[no]
        yield from once("answered once", frame, len(looks), 1, "looks")
        missing = sum(one.entry.kind == "missing" for one in looks)
        yield from once("answered once", frame, len(account.answers[no]), min(missing, 1), "answers to 'missing'")
        yield from once("closed once", frame, len(account.closes[no]), 1, "closes")
        for one in account.closes[no]:
            due = account.run_of.get(no, 0)
            if getattr(one.entry, "run", 0) != due:
                yield Fault("closed once", one.where, f"'{one.entry}' where the frame is of " + (f"run {due}" if due else "no run"))


def faults_of_objects(account):
    """Each run gets its object once and gives it back once, and nothing else does."""
    for run in sorted({*account.runs, *account.given, *account.back}):
        due = int(run in account.runs)
        yield from once("taken once", f"run {run}", len(account.given[run]), due, "objects")
        yield from once("given back once", f"run {run}", len(account.back[run]), due, "objects given back")
        if account.held(run) < 0:
            yield Fault("closed", f"run {run}", f"{account.freed[run]} nodes freed of {account.stored[run]}")
        if len(account.left[run]) > 1:
            yield Fault("given back after it left", f"run {run}", "it leaves twice")


def faults_of_returns(account, rounds):
    """The object comes back after its run left: by a later step of the same role, or in a later round."""
    for run, ones in sorted(account.back.items()):
        for back in ones:
            for left in account.left[run]:
                giver, keeper = back.entry, left.entry
                if giver.role == keeper.role:
                    is_after = keeper.step < giver.step
                else:
                    after, before = rounds.get((giver.role, giver.step)), rounds.get((keeper.role, keeper.step))
                    is_after = giver.kind == "put" and (None in (after, before) or before < after)
                if not is_after:
                    yield Fault("given back after it left", back.where, f"'{giver}' where the run leaves at {left.where}")
