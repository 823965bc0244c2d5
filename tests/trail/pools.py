"""The histories of the two pools."""
from trail.faults import Fault


def faults_of_take(entry, where, out, limit, check):
    """An object or a node is had exactly where not all are out."""
    if entry.kind == "full" and not entry.out == entry.limit == limit == out:
        yield Fault(check, where, f"'{entry}' where {out} of {limit} are out")
    if entry.kind == "took" and out >= limit:
        yield Fault(check, where, f"'{entry}' where all {limit} are out")


def faults_of_pool(trail):
    """The flow pool: flows out, and the emergency mode."""
    layout, out, is_on = trail.layout, 0, False
    for place, entry in enumerate(trail.pool, 1):
        where = f"pool entry {place}"
        yield from faults_of_take(entry, where, out, layout.memcap, "pool out")
        if entry.kind in ("put", "turn") and out == 0:
            yield Fault("pool out", where, f"'{entry}' where none is out")
        out = max(0, out + {"took": 1, "put": -1}.get(entry.kind, 0))
        if entry.kind == "full":
            is_on = True
        if entry.kind == "mode" and entry.on != is_on:
            yield Fault("emergency mode", where, f"'{entry}' where the mode is {int(is_on)}")
        if entry.kind == "over":
            ends = is_on and (layout.memcap - out) * 100 >= layout.recovery * layout.memcap
            if entry.ended != ends:
                yield Fault("emergency mode", where, f"'{entry}' where the mode is {int(is_on)} and {out} of {layout.memcap} are out")
            is_on = is_on and not entry.ended
    if out:
        yield Fault("pool out", "pool", f"{out} are out at the end")


def faults_of_segments(trail):
    """The segment pool: nodes out."""
    out = 0
    for place, entry in enumerate(trail.segments, 1):
        where = f"segments entry {place}"
        yield from faults_of_take(entry, where, out, trail.layout.segments, "segments out")
        if entry.kind == "gave":
            if not 0 < entry.count <= out:
                yield Fault("segments out", where, f"'{entry}' where {out} are out")
            out = max(0, out - entry.count)
        out += entry.kind == "took"
    if out:
        yield Fault("segments out", "segments", f"{out} are out at the end")
