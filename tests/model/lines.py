"""The lines of the text: compact JSON, keys in order of bytes."""
import hashlib
import json
from datetime import datetime, timedelta, timezone

from model.capture import SECOND
from model.decode import COUNTERS, ICMP, ICMP6, TCP, UDP
from model.flows import class_of, community_id, ends, is_syn_ack, is_tcp, is_to_server, session, verdict
from model.streams import stream

PROTOCOLS = {ICMP: "ICMP", TCP: "TCP", UDP: "UDP", ICMP6: "IPv6-ICMP"}
FLAGS = {0x01: "fin", 0x02: "syn", 0x04: "rst", 0x08: "psh", 0x10: "ack", 0x20: "urg", 0x40: "ecn", 0x80: "cwr"}


def line(value):
    return json.dumps(value, sort_keys=True, separators=(",", ":")) + "\n"


def address(raw):
    if len(raw) == 4:
        return ".".join(map(str, raw))
    return ":".join(raw[i : i + 2].hex() for i in range(0, 16, 2))


def moment(nanoseconds):
    when = datetime(1970, 1, 1, tzinfo=timezone.utc) + timedelta(microseconds=nanoseconds // 1000)
    return when.strftime("%Y-%m-%dT%H:%M:%S.%f+0000")


def union(packets):
    flags = 0
    for packet in packets:
        flags |= packet.flags
    return flags


def there_and_back(packets):
    there = [packet for packet in packets if is_to_server(packets, packet)]
    back = [packet for packet in packets if not is_to_server(packets, packet)]
    return there, back


def sums(packets, reason):
    """The object `flow` of a flow line."""
    there, back = there_and_back(packets)
    start, end = min(packet.time for packet in packets), max(packet.time for packet in packets)
    return {
        "pkts_toserver": len(there), "pkts_toclient": len(back),
        "bytes_toserver": sum(packet.length for packet in there),
        "bytes_toclient": sum(packet.length for packet in back),
        "start": moment(start), "end": moment(end), "age": (end - start) // SECOND,
        "state": class_of(packets), "reason": reason, "alerted": False,
    }


def flag_names(flags):
    return {name: True for bit, name in FLAGS.items() if flags & bit}


def tcp(packets):
    """The object `tcp` of a flow line."""
    there, back = there_and_back(packets)
    flags = union(packets)
    return flag_names(flags) | {
        "state": session(packets), "tcp_flags": f"{flags:02x}",
        "tcp_flags_ts": f"{union(there):02x}", "tcp_flags_tc": f"{union(back):02x}",
    }


def client_and_server(first):
    source, dest, _ = ends(first)
    return (dest, source) if is_syn_ack(first) else (source, dest)


def named(run, seed, source, dest):
    """What flow lines and netflow lines have in common, for packets from one end to the other."""
    packets, first = run.packets, run.packets[0]
    value = {
        "proto": PROTOCOLS[first.internet.protocol], "community_id": community_id(first, seed), "flow_id": first.number,
        "src_ip": address(source[0]), "dest_ip": address(dest[0]),
    }
    if first.icmp:
        value |= {"icmp_type": first.icmp[0], "icmp_code": first.icmp[1]}
    else:
        value |= {"src_port": source[1], "dest_port": dest[1]}
    if first.vlans:
        value["vlan"] = first.vlans
    verdicts = [verdict(packet) for packet in packets if verdict(packet)]
    if verdicts:
        value["app_proto"] = verdicts[0]
    return value


def flow_line(run, options):
    packets, first = run.packets, run.packets[0]
    flow = sums(packets, run.reason) | ({"emergency": True} if run.emergency else {})
    value = named(run, options.seed, *client_and_server(first)) | {
        "event_type": "flow", "pcap_first": first.number, "pcap_last": packets[-1].number, "timestamp": flow["end"], "flow": flow,
    }
    if is_tcp(first):
        ways = zip(("toserver", "toclient"), there_and_back(packets), run.stops)
        value |= {"tcp": tcp(packets), "stream": {name: stream(way, options.depth, stop) for name, way, stop in ways}}
    return line(value)


def netflow_line(run, options, source, dest, packets):
    """The line of one direction, whose packets these are."""
    start, end = min(packet.time for packet in packets), max(packet.time for packet in packets)
    ttls = [packet.internet.ttl for packet in packets]
    value = named(run, options.seed, source, dest) | {
        "event_type": "netflow", "timestamp": moment(end),
        "netflow": {
            "pkts": len(packets), "bytes": sum(packet.length for packet in packets), "start": moment(start), "end": moment(end),
            "age": (end - start) // SECOND, "min_ttl": min(ttls), "max_ttl": max(ttls),
        },
    }
    if is_tcp(packets[0]):
        value["tcp"] = flag_names(union(packets)) | {"tcp_flags": f"{union(packets):02x}"}
    return line(value)


def netflow_lines(run, options):
    """A line for each direction that has a packet, to the server first."""
    client, server = client_and_server(run.packets[0])
    there, back = there_and_back(run.packets)
    lines = netflow_line(run, options, client, server, there) if there else ""
    return lines + (netflow_line(run, options, server, client, back) if back else "")


def stats_line(capture, counters, runs, clock, limits=None):
    packets = [packet for run in runs for packet in run.packets]
    reasons = [run.reason for run in runs]
    flow = {"records": len(runs), "packets": len(packets), "bytes": sum(packet.length for packet in packets)}
    pools = dict.fromkeys(("emergency", "emergency_entered", "forced", "memcap_full", "no_flow", "segment_full"), 0) | (limits or {})
    stats = {
        "capture": capture,
        "decoder": {name: counters.count(name) for name in COUNTERS},
        "flow": flow | pools | {reason: reasons.count(reason) for reason in ("shutdown", "tcp_reuse", "timeout")},
    }
    return line({"event_type": "stats", "timestamp": moment(clock), "stats": stats})


def summary_line(text, options):
    """What stands in place of the text of a generated capture."""
    return line({
        "event_type": "summary", "frames": options.frames, "seed": options.generate, "lines": len(text.splitlines()),
        "sha1": hashlib.sha1(text.encode()).hexdigest(), "stats": json.loads(text.splitlines()[-1])["stats"],
    })
