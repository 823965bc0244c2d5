#!/usr/bin/env python3
"""Says what the random captures reach, by the model: how often each counter, reason, state and protocol came, and which
moves of a TCP session never came. (SYN alone begins a new run where the session is over, so it moves no such session.)

    tests/reach.py [COUNT [SEED]]
"""
import json
import sys
from collections import Counter

import captures
import model
from model.flows import MOVES, event, is_tcp, is_to_server, runs_of, session

WAYS = [(what, way) for what in ("R", "SA", "S", "F", "A", "N") for way in "cs"]


def of_lines(lines, reached):
    for line in map(json.loads, lines):
        if line["event_type"] == "stats":
            reached.update({f"counter {name}": times for name, times in line["stats"]["decoder"].items()})
            continue
        reached.update([
            f"reason {line['flow']['reason']} of {line['proto']}", f"class {line['flow']['state']} of {line['proto']}",
            f"protocol {line.get('app_proto', 'none')} over {line['proto']}", f"tags {len(line.get('vlan', ()))}",
            f"packets {min(line['flow']['pkts_toserver'], 2)} and {min(line['flow']['pkts_toclient'], 2)} of {line['proto']}",
        ])
        if "tcp" in line:
            reached.update([f"state {line['tcp']['state']}"])


def of_moves(data, moves):
    seen, clock, _ = model.frames_seen(data)
    for run in runs_of([what for _, what in seen if not isinstance(what, str)], clock):
        if is_tcp(run.packets[0]):
            for at, packet in enumerate(run.packets):
                way = "c" if is_to_server(run.packets, packet) else "s"
                moves[session(run.packets[:at]), event(packet.flags), way] += 1


def main():
    count, first = (int(word) for word in (sys.argv[1:] + ["1000", "1"][len(sys.argv) - 1 :])[:2])
    reached, moves = Counter(), Counter()
    for seed in range(first, first + count):
        data = captures.capture(seed)
        try:
            of_lines(model.text(data).splitlines(), reached)
            of_moves(data, moves)
        except model.Refused as refused:
            reached.update([f"refused {' '.join(refused.note.split()[:3])}"])
    for name, times in sorted(reached.items()):
        print(f"{times:8} {name}")
    for state in MOVES:
        for what, way in WAYS:
            is_cut = what == "S" and state in ("time_wait", "last_ack", "closed")
            if not moves[state, what, way] and not is_cut:
                print(f"   never {what} by {way} in {state}")


if __name__ == "__main__":
    main()
