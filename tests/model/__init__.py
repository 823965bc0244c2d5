"""An independent model of suri_run, written from the formats and not from the program.

    python3 tests/model [options] < capture > lines     the text; a note on standard error; the program's status

It keeps whole lists and looks them through, with none of the program's structure, so that the two
can be compared on any capture (tests/compare.py).
"""
from model.capture import Refused, read
from model.decode import Counted, decode
from model.flows import runs_of
from model.generator import generate
from model.lines import flow_line, netflow_lines, stats_line, summary_line
from model.words import Options, options


def frames_seen(data):
    """The frames of a capture, each with its packet or with the name of its counter; and the bytes of a cut tail."""
    link, found, cut_bytes = read(data)
    clock, seen = 0, []
    for number, (time, frame) in enumerate(found, 1):
        clock = max(clock, time)
        try:
            what = decode(link, frame)._replace(number=number, time=time, clock=clock, length=len(frame))
        except Counted as counted:
            what = counted.args[0]
        seen.append((frame, what))
    return seen, clock, cut_bytes


def text(data, options=Options()):
    """The whole text for these bytes, or Refused."""
    seen, clock, cut_bytes = frames_seen(data)
    packets = [what for _, what in seen if not isinstance(what, str)]
    return written(seen, clock, cut_bytes, runs_of(packets, clock), options)


def written(seen, clock, cut_bytes, runs, options, limits=None):
    """The text of these runs, by rising number, and of what the limits did in them."""
    counters = [what for _, what in seen if isinstance(what, str)]
    capture = {"bytes": sum(len(frame) for frame, _ in seen), "cut_bytes": cut_bytes, "frames": len(seen)}
    lines = [flow_line(run, options) + (netflow_lines(run, options) if options.netflow else "") for run in runs]
    return "".join(lines) + stats_line(capture, counters, runs, clock, limits)


def output(data, options=Options()):
    """What a run writes: the text of these bytes, or the summary of a generated capture's."""
    if options.generate is None:
        return text(data, options)
    return summary_line(text(generate(options.generate, options.frames), options), options)
