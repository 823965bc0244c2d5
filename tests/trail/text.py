"""The audit text, read strictly by its grammar: one space between words, a line feed behind each line, numbers without leading zeros."""
import re
from collections import namedtuple

from trail.faults import Fault

PLAIN = re.compile("0|[1-9][0-9]*")
WORD, LONG_WORD = 2**32, 2**64
# The layout's numbers, with the bounds of the options.
BOUNDS = {
    "workers": (1, 64), "batch": (1, 256), "round": (1, 65_536), "rows": (1, 4_096), "memcap": (1, 1_048_576),
    "segments": (0, 1_048_576), "recovery": (1, 100), "depth": (0, 1_073_741_824),
}
# What an entry of each history may be, and its fields.
FORMS = {
    "pool": {"took": "no", "full": "no out limit", "put": "run", "turn": "run no", "mode": "on", "over": "round ended"},
    "segments": {"took": "no", "full": "no out limit", "gave": "count"},
    "bucket": {
        "found": "no emergency seen run offer", "missing": "no emergency seen left", "made": "no offer", "refused": "no", "stored": "no",
        "stopped": "no", "closed": "no app run freed ended", "idle": "no app", "victim": "no run", "inuse": "no count",
        "swept": "round emergency seen count", "drained": "count",
    },
}
NAMES = {"offer": ("inorder", "nothing", "needs", "stopped"), "app": ("none", "http", "tls", "ssh", "dns")}
TRUTHS = {"emergency", "on", "ended"}

Layout = namedtuple("Layout", BOUNDS)
Trail = namedtuple("Trail", "layout pool segments buckets")


def kind_of(word, fields):
    """A kind of entry: its role, its step, and its own fields."""
    return type(word, (namedtuple(word, "role step " + fields),), {"__slots__": (), "kind": word, "__str__": words_of})


def words_of(entry):
    return " ".join(str(int(value) if isinstance(value, bool) else value) for value in (*entry[:2], entry.kind, *entry[2:]))


KINDS = {history: {word: kind_of(word, fields) for word, fields in forms.items()} for history, forms in FORMS.items()}


class Outside(Exception):
    """The text is no trail's: the fault tells the first line that can't stand there."""

    def __init__(self, check, line, what):
        self.fault = Fault(check, f"line {line}", what)
        super().__init__(str(self.fault))


class Lines:
    def __init__(self, text):
        *self.whole, self.tail = text.split(b"\n")
        self.no = 0

    def next(self, due):
        self.no += 1
        if self.no <= len(self.whole):
            return self.whole[self.no - 1].decode("latin-1")
        if self.tail:
            raise Outside("line feed", self.no, f"{self.tail!r} ends without one")
        raise Outside("lines", self.no, f"no line in place of {due}")

    def outside(self, check, what):
        return Outside(check, self.no, what)

    def number(self, word, bound=WORD):
        if not PLAIN.fullmatch(word) or int(word) >= bound:
            raise self.outside("number", f"{word!r} in place of a number below {bound}")
        return int(word)

    def head(self, *name):
        """The number at the end of the line before a history."""
        words = self.next(" ".join(name)).split(" ")
        if len(words) == 3 and len(name) == 2 and words[0] == name[0] and words[1] != name[1]:
            raise self.outside("bucket number", f"{words[1]!r} in place of {name[1]}")
        if len(words) != len(name) + 1 or words[:-1] != list(name):
            raise self.outside("head", f"{' '.join(words)!r} in place of '{' '.join(name)}' and a number")
        return self.number(words[-1])

    def value(self, field, word):
        if field in NAMES:
            if word not in NAMES[field]:
                raise self.outside("words", f"{word!r} is no {field}")
            return word
        if field in TRUTHS:
            return self.number(word, 2) == 1
        return self.number(word, LONG_WORD if field in ("step", "seen") else WORD)

    def entry(self, history):
        words = self.next(f"an entry of {history}").split(" ")
        kind = KINDS[history].get(words[2]) if len(words) > 2 else None
        if kind is None or len(words) != len(kind._fields) + 1:
            raise self.outside("words", f"{' '.join(words)!r} is no entry of {history}")
        return kind(*map(self.value, kind._fields, words[:2] + words[3:]))

    def history(self, history, *name):
        return [self.entry(history) for _ in range(self.head(*name))]

    def layout(self):
        words = self.next("layout").split(" ")
        if words[0] != "layout" or len(words) != len(BOUNDS) + 1:
            raise self.outside("layout", f"{' '.join(words)!r} is no layout")
        layout = Layout(*map(self.number, words[1:]))
        for name, (least, most) in BOUNDS.items():
            if not least <= getattr(layout, name) <= most:
                raise self.outside("layout", f"{name} {getattr(layout, name)} out of bounds")
        if layout.rows > layout.memcap:
            raise self.outside("layout", f"{layout.rows} rows and {layout.memcap} flows")
        return layout


def read(text):
    """The trail that this text spells, or Outside."""
    lines = Lines(text)
    title = lines.next("suri-trail 1")
    if title != "suri-trail 1":
        raise lines.outside("title", f"{title!r} in place of 'suri-trail 1'")
    layout = lines.layout()
    pool, segments = lines.history("pool", "pool"), lines.history("segments", "segments")
    buckets = [lines.history("bucket", "bucket", str(number)) for number in range(layout.rows)]
    if lines.no < len(lines.whole) or lines.tail:
        raise Outside("end", lines.no + 1, f"{(lines.whole + [lines.tail])[lines.no]!r} behind the last line")
    return Trail(layout, pool, segments, buckets)
