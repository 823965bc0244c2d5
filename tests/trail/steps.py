"""Roles and their steps, over all histories."""
import collections
from typing import NamedTuple

from trail.faults import Fault

WORKER, MANAGER, RECYCLER, END = "a worker", "the manager", "the recycler", "the end role"
# Who makes an entry of each kind.
MAKERS = {
    ("pool", "took"): (WORKER,), ("pool", "full"): (WORKER,), ("pool", "turn"): (WORKER,), ("pool", "put"): (RECYCLER, END),
    ("pool", "mode"): (WORKER, MANAGER), ("pool", "over"): (MANAGER,),
    ("segments", "took"): (WORKER,), ("segments", "full"): (WORKER,), ("segments", "gave"): (WORKER, RECYCLER, END),
    ("bucket", "swept"): (MANAGER,), ("bucket", "drained"): (END,),
}


class Placed(NamedTuple):
    """An entry in its history, which is 'pool', 'segments' or a bucket's number, at its place from 1."""

    history: object
    place: int
    entry: tuple

    @property
    def where(self):
        return f"{name_of(self.history)} entry {self.place}"


def name_of(history):
    return f"bucket {history}" if isinstance(history, int) else history


def histories(trail):
    yield "pool", trail.pool
    yield "segments", trail.segments
    yield from enumerate(trail.buckets)


def placed(trail):
    """All entries of a trail, history by history."""
    for history, entries in histories(trail):
        for place, entry in enumerate(entries, 1):
            yield Placed(history, place, entry)


def by_role(trail):
    """The entries of each role in the order of its steps."""
    found = collections.defaultdict(list)
    for one in placed(trail):
        found[one.entry.role].append(one)
    return {role: sorted(ones, key=lambda one: one.entry.step) for role, ones in found.items()}


def kind_of_role(layout, role):
    if role < layout.workers:
        return WORKER
    return {0: MANAGER, 1: RECYCLER, 2: END}.get(role - layout.workers, "no role")


def faults_of_roles(trail):
    for one in placed(trail):
        history = "bucket" if isinstance(one.history, int) else one.history
        role = kind_of_role(trail.layout, one.entry.role)
        if role not in MAKERS.get((history, one.entry.kind), (WORKER,)):
            yield Fault("roles", one.where, f"'{one.entry}' is an entry of {role}")


def faults_of_steps(trail):
    """Each role's steps are 0, 1, 2 and so on, each once, and those in one history rise."""
    for role, ones in sorted(by_role(trail).items()):
        for due, one in enumerate(ones):
            if one.entry.step != due:
                yield Fault("steps", one.where, f"role {role} makes step {one.entry.step} in place of {due}")
                break
    for history, entries in histories(trail):
        last = {}
        for place, entry in enumerate(entries, 1):
            if entry.step <= last.get(entry.role, -1):
                yield Fault("order of steps", Placed(history, place, entry).where, f"'{entry}' behind step {last[entry.role]}")
            last[entry.role] = entry.step


def faults_of_readings(trail):
    """Each look and each sweep names its role's latest reading of the mode, and goes by what it told."""
    for ones in by_role(trail).values():
        mode = None
        for one in ones:
            if one.entry.kind == "mode":
                mode = one
            elif one.entry.kind in ("found", "missing", "swept"):
                due = (mode.place, mode.entry.on) if mode else None
                if (one.entry.seen, one.entry.emergency) != due:
                    yield Fault("seen", one.where, f"'{one.entry}' names another reading of the mode than {due}")
