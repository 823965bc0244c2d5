#!/usr/bin/env python3
"""Judges trails (tests/trail): the output of runs with `--audit`, or bare trails.

    trails.py FILE..
    trails.py --over CAPTURE FILE [WORD..]
    trails.py --front WHOLE FILE
    trails.py --self-test

Of each file it says that its trail is lawful, or which checks it doesn't pass and where. With --over the file is the output of a run with these words
over that capture, and must be just what capture and trail give. With --front the file may end anywhere: it must be a front of
an output with the lines of WHOLE and any trail behind them. The self-test judges small trails made by hand: the lawful ones must pass, and each
broken one must be refused by the check that is named for it.
"""
import pathlib
import sys

from model import Options, options
from trail import is_front, judge, samples

MOST = 20


def judge_file(name, data=None, words=()):
    """Whether the file's trail is lawful."""
    faults = judge(pathlib.Path(name).read_bytes(), data, options(words))
    for fault in faults[:MOST]:
        print(f"{name}: {fault}")
    if len(faults) > MOST:
        print(f"{name}: {len(faults) - MOST} further faults")
    print(f"{name}: {'not lawful' if faults else 'lawful'}")
    return not faults


def self_test():
    """Whether each sample is judged as it is to be."""
    passed = failed = 0
    for name, text, data in samples.lawful():
        faults = judge(text, data, Options())
        passed, failed = passed + (not faults), failed + bool(faults)
        if faults:
            print(f"lawful sample '{name}' is refused: {'; '.join(map(str, faults[:5]))}")
    for name, check, text, data in samples.broken():
        faults = judge(text, data, Options())
        is_seen = check in {fault.check for fault in faults}
        passed, failed = passed + is_seen, failed + (not is_seen)
        if not is_seen:
            print(f"broken sample '{name}' isn't refused by '{check}': {'; '.join(map(str, faults[:5])) or 'no fault'}")
    print(f"{passed} passed, {failed} failed")
    return failed == 0


def main(words):
    if not words:
        print(__doc__, file=sys.stderr)
        return 2
    if words == ["--self-test"]:
        return not self_test()
    if words[0] == "--over" and len(words) > 2:
        return not judge_file(words[2], pathlib.Path(words[1]).read_bytes(), words[3:])
    if words[0] == "--front" and len(words) == 3:
        return not is_front(*(pathlib.Path(word).read_bytes() for word in words[1:]))
    return not all([judge_file(word) for word in words])


if __name__ == "__main__":
    sys.exit(main(sys.argv[1:]))
