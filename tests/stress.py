#!/usr/bin/env python3
"""Runs the program over captures under many options. In each run the status must be the one that capture and options give, and the counts must
add up; all runs that met no limit must print the text of the model (tests/model), which knows no limits, whatever shares out their work; and the
trail of each run whose trail isn't too long must be lawful, and, where that doesn't take too long, its lines those of its runs (tests/trail).

    tests/stress.py [--program PROGRAM] [--runs N] [--seed N] CAPTURE..
"""
import argparse
import collections
import json
import math
import pathlib
import random
import subprocess
import sys

import model
from program import PROGRAM, Run, faults_of_trail, knows_audit
from program import run as run_words

# Options that share out the work or limit it, from the least value to the greatest that is tried.
RANGES = {
    "workers": (1, 64), "batch": (1, 256), "round": (1, 65_536), "rows": (1, 4_096), "memcap": (1, 65_536), "prealloc": (0, 65_536),
    "segments": (0, 65_536), "recovery": (1, 100),
}
# Options that change the text.
TEXTS = [[], ["--netflow"], ["--netflow", "--seed", "7", "--depth", "5"]]
# So many flows and segments that no capture here meets a limit.
WIDE = ["--memcap", "1048576", "--segments", "1048576"]
ROUNDS_AND_ROWS = 2**24
# A trail is asked for up to so many entries of sweeps, and judged over the capture up to so many flows in all sweeps.
AUDITED, REPLAYED = 100_000, 1_000_000
REASONS = ["timeout", "tcp_reuse", "forced", "shutdown"]
SECONDS = 600


def drawn(r, least, most):
    """A value of a range: an end of it now and then, else each order of magnitude as often as any other."""
    if r.random() < 0.2:
        return r.choice([least, most])
    return min(most, int(math.exp(r.uniform(math.log(least + 1), math.log(most + 2)))) - 1 + (least > 0))


def choices(r, frames):
    """Values for all options of a run. A limit on flows or segments is the greatest one in some runs, and small for the capture in others."""
    chosen = {name: drawn(r, *ends) for name, ends in RANGES.items()}
    for name in ("memcap", "segments"):
        least, most = RANGES[name]
        chosen[name] = r.choice([chosen[name], most, drawn(r, least, min(most, max(least, frames)))])
    chosen["rows"] = min(chosen["rows"], chosen["memcap"])
    return chosen


def corners():
    """The least of all, the greatest of all, and as many rounds and rows as can be."""
    least, most = ({name: ends[side] for name, ends in RANGES.items()} for side in (0, 1))
    return [least, most, most | {"round": 1}]


def words_of(chosen):
    return [word for name, value in chosen.items() for word in (f"--{name}", str(value))]


def run(program, capture, words):
    try:
        with open(capture, "rb") as source:
            return run_words(program, words, stdin=source, timeout=SECONDS)
    except subprocess.TimeoutExpired:
        return Run(None, b"", f"no end after {SECONDS} s")


class Lines:
    """What a text tells: its flow lines, the netflow lines of each flow, and the stats."""

    def __init__(self, text):
        *lines, last = [json.loads(line) for line in text.splitlines()]
        self.flows = [line for line in lines if line["event_type"] == "flow"]
        self.netflows = collections.defaultdict(list)
        for line in lines:
            if line["event_type"] == "netflow":
                self.netflows[line["flow_id"]].append(line["netflow"])
        self.end, self.stats = last["timestamp"], last["stats"]
        self.known = len(self.flows) + sum(map(len, self.netflows.values())) == len(lines)
        self.stops = sum("stop" in stream for line in self.flows for stream in line.get("stream", {}).values())

    def is_quiet(self):
        return self.stats["flow"]["memcap_full"] == self.stats["flow"]["segment_full"] == 0


def lines_of(seen):
    """The lines of a run that ended well; none where its text can't be read."""
    try:
        return Lines(seen.text) if seen.status == 0 else None
    except (ValueError, KeyError, TypeError):
        return None


def sums(flows, name):
    return sum(line["flow"][f"{name}_toserver"] + line["flow"][f"{name}_toclient"] for line in flows)


def faults_of_flows(lines):
    """What doesn't add up between the flow lines and the stats."""
    told, flows = lines.stats["flow"], lines.flows
    for name, count in [("records", len(flows)), ("packets", sums(flows, "pkts")), ("bytes", sums(flows, "bytes"))]:
        if told[name] != count:
            yield f"{name} {told[name]} in place of {count}"
    ended = collections.Counter(line["flow"]["reason"] for line in flows)
    for reason in REASONS:
        if told[reason] != ended[reason]:
            yield f"{reason} {told[reason]} in place of {ended[reason]}"
    if sum(told[reason] for reason in REASONS) != told["records"]:
        yield "reasons that don't add up to the records"
    if told["emergency"] != sum(line["flow"].get("emergency", False) for line in flows):
        yield "another number of records by the emergency table"
    firsts = [line["flow_id"] for line in flows]
    if any(first >= second for first, second in zip(firsts, firsts[1:])):
        yield "flow lines out of order"
    for line in flows:
        packets = sums([line], "pkts")
        if not (line["flow_id"] == line["pcap_first"] and 0 < packets <= line["pcap_last"] - line["pcap_first"] + 1):
            yield f"flow {line['flow_id']} with {packets} packets from {line['pcap_first']} to {line['pcap_last']}"


def faults_of_netflows(lines, asked):
    """What doesn't add up between the flow lines and the netflow lines."""
    for line in lines.flows:
        ways = [(line["flow"][f"pkts_{way}"], line["flow"][f"bytes_{way}"]) for way in ("toserver", "toclient")]
        due = [way for way in ways if way[0] > 0] if asked else []
        seen = [(netflow["pkts"], netflow["bytes"]) for netflow in lines.netflows.get(line["flow_id"], [])]
        if seen != due:
            yield f"flow {line['flow_id']} with netflow lines of {seen} in place of {due}"


def faults_of_limits(lines, chosen):
    """What the limits don't explain."""
    told = lines.stats["flow"]
    bearing = told["packets"] + told["no_flow"]
    if told["forced"] + told["no_flow"] > told["memcap_full"]:
        yield "more flows forced out, and packets without a flow, than there were full pools"
    if told["memcap_full"] > 0 and chosen["memcap"] >= bearing:
        yield "a full pool with a flow for each packet"
    if told["segment_full"] > 0 and chosen["segments"] >= bearing:
        yield "a full pool with a segment for each packet"
    if told["segment_full"] != lines.stops:
        yield f"{lines.stops} streams were given up, for {told['segment_full']} full pools"
    if told["emergency_entered"] > told["memcap_full"] or (told["emergency"] > 0 and told["emergency_entered"] == 0):
        yield "an emergency without a full pool"


def faults_of_text(lines, chosen, asked, first):
    """What is wrong with the lines of a run; first are those of the first run with these options of text."""
    stats = lines.stats
    if not lines.known:
        yield "a line of another kind"
    if stats["capture"]["frames"] != sum(stats["decoder"].values()) + stats["flow"]["no_flow"] + stats["flow"]["packets"]:
        yield "frames that don't add up"
    if any(stats[name] != first.stats[name] for name in ("capture", "decoder")) or lines.end != first.end:
        yield "other counts of the capture than in the first run"
    yield from faults_of_flows(lines)
    yield from faults_of_netflows(lines, asked)
    yield from faults_of_limits(lines, chosen)


def modelled(capture, words):
    """What the model prints: status, text and note."""
    try:
        return Run(0, model.output(pathlib.Path(capture).read_bytes(), model.options(words)).encode(), "")
    except model.Refused as refused:
        return Run(refused.status, b"", f"suri_run: {refused.note}\n")


class Text:
    """All runs over one capture with the same options of text."""

    def __init__(self, program, capture, words, audited):
        self.program, self.capture, self.words, self.audited = program, capture, words, audited
        self.counts = collections.Counter()
        self.first = run(program, capture, words + WIDE)
        self.lines = lines_of(self.first)

    def faults_of_first(self):
        if self.first != modelled(self.capture, self.words):
            yield "another status, text or note than the model's"
        if self.lines is None:
            if self.first.status != 5 or self.first.text:
                yield f"status {self.first.status} and note {self.first.note!r}"
            return
        yield from faults_of_text(self.lines, {"memcap": 1_048_576, "segments": 1_048_576}, "--netflow" in self.words, self.lines)
        if not self.lines.is_quiet():
            yield "a full pool far from the limits"

    def rounds(self, chosen):
        return -(-self.lines.stats["capture"]["frames"] // chosen["round"])

    def due(self, chosen):
        """The status that the first run and the options give, and the note."""
        if self.lines is None:
            return self.first.status, self.first.note
        if self.rounds(chosen) * chosen["rows"] > ROUNDS_AND_ROWS:
            return 6, f"suri_run: limit: {self.rounds(chosen)} rounds of {chosen['rows']} rows\n"
        return 0, ""

    def audit_words(self, chosen):
        """The word that asks for a trail, where the program knows it and the trail isn't too long."""
        is_short = self.lines is None or self.rounds(chosen) * chosen["rows"] <= AUDITED
        return ["--audit"] if self.audited and is_short else []

    def faults(self, chosen):
        """What is wrong with one run."""
        audit = self.audit_words(chosen)
        seen = run(self.program, self.capture, self.words + words_of(chosen) + audit)
        due = self.due(chosen)
        self.counts[f"status {due[0]}"] += 1
        if audit and seen.status == due[0] == 0:
            yield from self.faults_of_audit(seen, chosen)
        if (seen.status, seen.note) != due:
            yield f"status {seen.status} and note {seen.note!r} in place of {due[0]} and {due[1]!r}"
        elif due[0] != 0:
            if seen.text or seen.trail:
                yield "a text beside a refusal"
        elif seen.text == self.first.text:
            self.counts["quiet"] += 1
        elif (lines := lines_of(seen)) is None:
            yield "a text that can't be read"
        else:
            self.count_limits(lines)
            yield from faults_of_text(lines, chosen, "--netflow" in self.words, self.lines)
            if lines.is_quiet():
                yield "another text without a full pool"

    def faults_of_audit(self, seen, chosen):
        """What is wrong with a trail, and, where that doesn't take long, with the lines before it."""
        is_replayed = self.rounds(chosen) * self.lines.stats["flow"]["records"] <= REPLAYED
        self.counts["audited"] += 1
        self.counts["replayed"] += is_replayed
        data = pathlib.Path(self.capture).read_bytes() if is_replayed else None
        return faults_of_trail(seen, self.words + words_of(chosen), data)

    def count_limits(self, lines):
        for name in ("memcap_full", "segment_full", "no_flow", "forced", "emergency"):
            self.counts[name] += lines.stats["flow"][name] > 0


def stress(program, capture, runs, seed):
    """How many runs over one capture passed, and how many failed."""
    r = random.Random(f"{seed} {pathlib.Path(capture).name}")
    audited = knows_audit(program)
    texts = [Text(program, capture, words, audited) for words in TEXTS]
    bad = 0
    frames = texts[0].lines.stats["capture"]["frames"] if texts[0].lines else 0
    drawn_choices = [choices(r, frames) for _ in range(runs)]
    tried = [(text, None) for text in texts] + [(r.choice(texts), chosen) for chosen in corners() + drawn_choices]
    for text, chosen in tried:
        faults = list(text.faults_of_first() if chosen is None else text.faults(chosen))
        bad += bool(faults)
        if faults:
            words = text.words + (WIDE if chosen is None else words_of(chosen))
            print(f"{capture}, words {' '.join(words)}: {'; '.join(faults[:5])}", flush=True)
    counts = sum((text.counts for text in texts), collections.Counter())
    print(f"{pathlib.Path(capture).name}: {', '.join(f'{name} {count}' for name, count in sorted(counts.items()))}", flush=True)
    return len(tried) - bad, bad


def main():
    parser = argparse.ArgumentParser(description=__doc__, formatter_class=argparse.RawDescriptionHelpFormatter)
    parser.add_argument("--program", default=str(PROGRAM))
    parser.add_argument("--runs", type=int, default=30)
    parser.add_argument("--seed", type=int, default=1)
    parser.add_argument("captures", nargs="+", metavar="CAPTURE")
    asked = parser.parse_args()
    counts = [stress(asked.program, capture, asked.runs, asked.seed) for capture in asked.captures]
    passed, failed = (sum(column) for column in zip(*counts))
    print(f"{passed} passed, {failed} failed")
    return failed != 0


if __name__ == "__main__":
    sys.exit(main())
