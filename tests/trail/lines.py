"""The flow lines and the stats line before a trail, compared with it."""
import json

from trail.faults import Fault
from trail.keys import key_of

# The verdicts that packets of a protocol may have.
VERDICTS = {"TCP": ("none", "http", "tls", "ssh"), "UDP": ("none", "dns")}


class Told:
    """What the lines tell: the flow line of each run, its key, and the stats."""

    def __init__(self, text):
        lines = [json.loads(line) for line in text.splitlines()]
        self.flows = {line["flow_id"]: line for line in lines if line["event_type"] == "flow"}
        self.keys = {run: key_of(line) for run, line in self.flows.items()}
        self.stats = lines[-1]["stats"]


def counts(trail, account):
    """The numbers of the stats that a trail tells too."""
    entered, is_on = 0, False
    for entry in trail.pool:
        entered += entry.kind == "full" and not is_on
        is_on = entry.kind == "full" or (is_on and not (entry.kind == "over" and entry.ended))
    bucket_kinds = [entry.kind for entries in trail.buckets for entry in entries]
    return {
        "no_flow": bucket_kinds.count("refused"), "records": bucket_kinds.count("made"), "forced": bucket_kinds.count("victim"),
        "packets": len(account.run_of), "memcap_full": sum(entry.kind == "full" for entry in trail.pool),
        "segment_full": sum(entry.kind == "full" for entry in trail.segments), "emergency_entered": entered,
    }


def faults_of_stats(trail, account, told):
    flow, frames = told.stats["flow"], told.stats["capture"]["frames"]
    for name, count in counts(trail, account).items():
        if flow[name] != count:
            yield Fault(name, "stats line", f"{flow[name]} where the trail has {count}")
    bearing = frames - sum(told.stats["decoder"].values())
    if len(account.looks) != bearing or any(no > frames for no in account.looks):
        yield Fault("frames", "stats line", f"{bearing} of {frames} frames bear a flow, and {len(account.looks)} are looked up")
    rounds = sum(entry.kind == "over" for entry in trail.pool)
    if rounds != -(-frames // trail.layout.round):
        yield Fault("frames", "stats line", f"{frames} frames where the trail has {rounds} rounds")
    if set(told.flows) != account.runs:
        yield Fault("records", "flow lines", f"runs {sorted(set(told.flows) ^ account.runs)[:5]} are in the trail or in the lines alone")


def faults_of_members(run, line, account):
    """The packets of a run, its verdict and its stops."""
    members = account.members[run]
    packets = line["flow"]["pkts_toserver"] + line["flow"]["pkts_toclient"]
    if (packets, line["pcap_first"], line["pcap_last"]) != (len(members), members[0], members[-1]):
        yield Fault("members", f"run {run}", f"{packets} packets up to {line['pcap_last']} where the trail has {len(members)} up to {members[-1]}")
    verdicts = [entry.app for entry in account.closed[run] if entry.app != "none"]
    if line.get("app_proto", "none") != (verdicts + ["none"])[0]:
        yield Fault("app_proto", f"run {run}", f"{line.get('app_proto', 'none')} where the trail has {verdicts}")
    if any(verdict not in VERDICTS.get(line["proto"], ("none",)) for verdict in verdicts):
        yield Fault("app_proto", f"run {run}", f"{verdicts} over {line['proto']}")
    stops = sorted(stream["stop"] for stream in line.get("stream", {}).values() if "stop" in stream)
    if stops != account.stops[run]:
        yield Fault("stops", f"run {run}", f"{stops} where the trail has {account.stops[run]}")


def faults_of_reason(run, line, entry):
    """Why a run ended, by the entry that detached it, where that is known."""
    flow = line["flow"]
    reasons = {
        "missing": ("timeout", "tcp_reuse") if "tcp" in line else ("timeout",), "swept": ("timeout",), "victim": ("forced",),
        "drained": ("timeout", "shutdown"), "closed": ("timeout", "tcp_reuse"),
    }[entry.kind]
    if flow["reason"] not in reasons:
        yield Fault("reason", f"run {run}", f"{flow['reason']} where '{entry}' detached it")
    if entry.kind != "closed":
        due = flow["reason"] == "timeout" and getattr(entry, "emergency", False)
        if flow.get("emergency", False) != due:
            yield Fault("emergency", f"run {run}", f"{flow.get('emergency', False)} where '{entry}' detached it")


def faults_of_place(run, key, account, layout):
    """The bucket and the worker that a run's key gives."""
    for one in account.looks[run]:
        if one.history != key.bucket(layout.rows):
            yield Fault("bucket of key", one.where, f"run {run} is of bucket {key.bucket(layout.rows)}")
        if one.entry.role != key.worker(layout.workers):
            yield Fault("worker of key", one.where, f"run {run} is of worker {key.worker(layout.workers)}")


def faults_of_flows(trail, account, told, detached):
    for run in sorted(set(told.flows) & account.runs):
        line = told.flows[run]
        yield from faults_of_members(run, line, account)
        yield from faults_of_place(run, told.keys[run], account, trail.layout)
        if run in detached:
            yield from faults_of_reason(run, line, detached[run])
