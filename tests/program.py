"""The program that is tested, and the two parts of what it writes: lines, and the trail that `--audit` puts behind them."""
import collections
import pathlib
import subprocess

import model
import trail
from model.words import read_words

PROGRAM = pathlib.Path(__file__).resolve().parent.parent / "bin" / "suri_run"
EMPTY = bytes.fromhex("d4c3b2a1020004000000000000000000 00000400 01000000")

Run = collections.namedtuple("Run", "status text note trail", defaults=[b""])


def run(program, words, **streams):
    """A run; its text is what comes before the trail, where one was asked for."""
    ended = subprocess.run([program, *words], capture_output=True, **streams)
    text, audit = trail.split(ended.stdout) if "--audit" in words else (ended.stdout, b"")
    return Run(ended.returncode, text, ended.stderr.decode(errors="replace"), audit)


def knows_audit(program):
    return run(program, ["--rows", "1", "--audit"], input=EMPTY).status == 0


def faults_of_trail(seen, words, data=None):
    """What is wrong with the trail, and the lines before it, of a run with these words that ended well; more of it is judged over the capture's bytes."""
    text = seen.text + seen.trail
    faults = trail.judge(text, data, model.options(words))
    yield from map(str, faults[:3])
    lines, given = seen.trail.split(b"\n", 2), read_words(words)
    told = dict(zip(trail.LAYOUT, lines[1].decode().split(" ")[1:])) if len(lines) == 3 else {}
    for name in trail.LAYOUT:
        if name in given and told.get(name) != str(given[name]):
            yield f"{name} {told.get(name)} in the trail's layout in place of {given[name]}"
