#!/usr/bin/env python3
"""Compares the program with the model (tests/model) on random captures, sound ones and broken ones, under random words:
text, note and status must be the same. The model knows no limits on flows and segments, so the text of a run in which one of them
acted isn't compared with its text. Where a trail was asked for, it must be lawful over the capture, and the lines those of its runs (tests/trail).

    tests/compare.py [COUNT [SEED]]
"""
import collections
import itertools
import json
import sys

import captures
import model
from program import PROGRAM, faults_of_trail, knows_audit, run


def wanted(data, words):
    try:
        return 0, model.output(data, model.options(words)), ""
    except model.Refused as refused:
        return refused.status, "", f"suri_run: {refused.note}\n"


def has_limit_acted(text):
    flow = json.loads(text.splitlines()[-1])["stats"]["flow"]
    return flow["memcap_full"] + flow["segment_full"] > 0


def first_difference(text, due):
    """The first line that differs, and the model's."""
    for line, other in itertools.zip_longest(text.splitlines(), due.splitlines(), fillvalue="no line"):
        if line != other:
            return [line, other]
    return []


# How the program's run differs from the model's: "same", "different", or "limited" where they can't be compared.
def outcome(seed, audited):
    data, words = captures.capture(seed), [word for word in captures.words(seed) if audited or word != "--audit"]
    ran = run(PROGRAM, words, input=data)
    seen, due = (ran.status, ran.text.decode(), ran.note), wanted(data, words)
    faults = list(faults_of_trail(ran, words, data)) if ran.status == due[0] == 0 and "--audit" in words else []
    is_limited = seen[0] == due[0] == 0 and seen != due and has_limit_acted(seen[1])
    if (seen == due or is_limited) and not faults:
        return "limited" if is_limited else "same"
    print(f"seed {seed}, words {' '.join(words)}: status {seen[0]} and note {seen[2]!r}; the model's {due[0]} and {due[2]!r}")
    print(*([] if is_limited else first_difference(seen[1], due[1])), *faults, sep="\n")
    return "different"


def main():
    count, first = (int(word) for word in (sys.argv[1:] + ["1000", "1"][len(sys.argv) - 1 :])[:2])
    audited = knows_audit(PROGRAM)
    outcomes = collections.Counter(outcome(seed, audited) for seed in range(first, first + count))
    print(f"in {outcomes['limited']} runs a limit acted")
    print(f"{outcomes['same']} passed, {outcomes['different']} failed")
    return outcomes["different"] != 0


if __name__ == "__main__":
    sys.exit(main())
