"""A judge of trails, written from the formats and the law of the histories, and not from the program.

The law is judged as far as the audit text tells it, and, where the lines before it are there, as far as these tell more: the keys of runs,
what the runs count, and why they ended. What only the capture tells is judged where it is there too: which frame bears which key, the clocks, and so
whether a run had expired, which of two runs is the older, and what a segment brought; and then the lines, to the byte.
"""
from trail.account import Account, faults_of_frames, faults_of_objects, faults_of_returns
from trail.buckets import Bucket
from trail.faults import Fault
from trail.lines import Told, counts, faults_of_flows, faults_of_stats
from trail.pools import faults_of_pool, faults_of_segments
from trail.replay import Setup, faults_of_text, replay
from trail.rounds import faults_of_rounds
from trail.scripts import Scripts
from trail.steps import faults_of_readings, faults_of_roles, faults_of_steps
from trail.text import Layout, Outside, read

__all__ = ["LAYOUT", "is_front", "judge", "split"]

# The names of a layout's numbers, in their order.
LAYOUT = Layout._fields


def split(text):
    """The lines of JSON, and the trail behind them."""
    at = 0
    while text.startswith(b"{", at):
        at = text.find(b"\n", at) + 1 or len(text)
    return text[:at], text[at:]


def told_by(lines):
    """What the lines before a trail tell; nothing where there are none."""
    try:
        return Told(lines) if lines else None
    except (ValueError, KeyError, TypeError, IndexError) as fault:
        raise Outside("lines", 1, f"the lines before the trail can't be read: {fault!r}") from fault


class Case:
    """What is judged: the lines, the trail, and what is gathered from it."""

    def __init__(self, text):
        self.lines, audit = split(text)
        self.told = told_by(self.lines)
        self.trail = read(audit)
        self.account = Account(self.trail)
        self.scripts = Scripts(self.trail, self.account)


def judge(text, data=None, options=None):
    """All faults of a trail, or of a run's output with its trail; where that has none and the capture's bytes are there, those of that output over
    this capture and under these options of the model."""
    try:
        case = Case(text)
    except Outside as outside:
        return [outside.fault]
    faults = list(faults_of(case))
    return faults if faults or data is None else list(faults_over(case, data, options))


def faults_of(case):
    """What is wrong with a trail that is in the grammar, and with the lines before it."""
    trail, account, scripts, detached = case.trail, case.account, case.scripts, {}
    yield from faults_of_steps(trail)
    yield from faults_of_roles(trail)
    yield from faults_of_readings(trail)
    yield from faults_of_pool(trail)
    yield from faults_of_segments(trail)
    yield from faults_of_frames(account)
    yield from faults_of_objects(account)
    yield from scripts.faults
    yield from faults_of_returns(account, scripts.rounds_of)
    yield from faults_of_rounds(trail, scripts.rounds_of)
    for number, entries in enumerate(trail.buckets):
        bucket = Bucket(number, entries, trail.layout, scripts.let_go, case.told.keys if case.told else {})
        yield from bucket.faults()
        detached |= bucket.detached
    if case.told:
        yield from faults_of_stats(trail, account, case.told)
        yield from faults_of_flows(trail, account, case.told, detached)


def faults_over(case, data, options):
    """What the capture refuses of an output that is lawful by itself."""
    setup, ended = Setup(data, case.trail.layout), []
    if case.trail.layout.depth != options.depth:
        yield Fault("layout", "line 2", f"depth {case.trail.layout.depth} in place of {options.depth}")
    yield from replay(setup, case.trail, case.scripts.let_go, ended)
    if len(ended) == len(case.account.runs):
        yield from faults_of_text(setup, ended, counts(case.trail, case.account), options, case.lines.decode())


def is_front(whole, text):
    """Whether the text is a front of an output with these lines and some trail in the grammar behind them."""
    (due, _), (lines, trail) = split(whole), split(text)
    if not trail:
        return due.startswith(lines)
    try:
        read(trail)
    except Outside as outside:
        return lines == due and outside.fault.check in ("line feed", "lines")
    return lines == due
