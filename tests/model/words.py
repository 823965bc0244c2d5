"""The words of the command line."""
from typing import NamedTuple

from model.capture import Refused

# The options without a value.
FLAGS = ("netflow", "audit")
# The options with a number: their least and greatest value, and their default.
NUMBERS = {
    "workers": (1, 64, 4), "batch": (1, 256, 32), "round": (1, 65_536, 4_096), "rows": (1, 4_096, 1_024),
    "memcap": (1, 1_048_576, 65_536), "prealloc": (0, 1_048_576, 1_000), "segments": (0, 1_048_576, 65_536),
    "depth": (0, 1_073_741_824, 1_048_576), "recovery": (1, 100, 30), "seed": (0, 65_535, 0),
    "generate": (0, 2**64 - 1, None), "frames": (1, 1_000_000, None),
}


class Options(NamedTuple):
    """Those that have an effect on the lines of a run in which no pool is full. (The trail behind them, with `--audit`, is no text of the model's.)"""

    depth: int = 1_048_576
    seed: int = 0
    netflow: bool = False
    generate: int | None = None
    frames: int | None = None


def number(name, word):
    """A number in the range of its option: digits, after a plus sign or not."""
    least, greatest, _ = NUMBERS[name]
    digits = word[1:] if word.startswith("+") else word
    if not (digits.isascii() and digits.isdigit() and least <= int(digits) <= greatest):
        raise Refused(2, "words refused")
    return int(digits)


def read_words(words):
    """The values by name, as `--name value` and `--name=value` give them, each at most once."""
    found, rest = {}, list(words)
    while rest:
        word = rest.pop(0)
        name, equals, value = word[2:].partition("=")
        if not word.startswith("--") or name in found or (name not in FLAGS and name not in NUMBERS):
            raise Refused(2, "words refused")
        if name in FLAGS:
            if equals:
                raise Refused(2, "words refused")
            found[name] = True
            continue
        if not equals:
            if not rest or rest[0].startswith("-"):
                raise Refused(2, "words refused")
            value = rest.pop(0)
        found[name] = number(name, value)
    return found


def options(words):
    """The options that these words give, the program's name left out."""
    found = {name: default for name, (_, _, default) in NUMBERS.items()} | dict.fromkeys(FLAGS, False) | read_words(words)
    if found["rows"] > found["memcap"]:
        raise Refused(2, f"rows {found['rows']} exceed memcap {found['memcap']}")
    is_paired = (found["generate"] is None) == (found["frames"] is None)
    if not is_paired or (found["audit"] and found["generate"] is not None):
        raise Refused(2, "--generate goes with --frames and without --audit")
    return Options(*(found[name] for name in Options._fields))
