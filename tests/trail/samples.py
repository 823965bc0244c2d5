"""Small trails, written by hand from the rules: lawful ones (tests/trail/samples), and what breaks each of them."""
import pathlib

import short_captures

FOLDER = pathlib.Path(__file__).resolve().parent / "samples"
LAWFUL = {path.stem: path.read_text() for path in sorted(FOLDER.glob("*.txt"))}

# What is broken, the check that refuses it, the lawful sample, and the pieces of text that are changed, each of which stands there once.
BROKEN = [
    # the grammar
    ("another title", "title", "no_flow", {"suri-trail 1\n": "suri-trail 2\n"}),
    ("more rows than flows", "layout", "no_flow", {"layout 1 2 4096 1 1 ": "layout 1 2 4096 2 1 "}),
    ("no worker", "layout", "no_flow", {"layout 1 2 4096": "layout 0 2 4096"}),
    ("a leading zero", "number", "no_flow", {"0 2 took 1": "0 02 took 1"}),
    ("a sign", "number", "no_flow", {"0 2 took 1": "0 +2 took 1"}),
    ("a number too great", "number", "no_flow", {"3 1 put 1": "3 1 put 4294967296"}),
    ("a truth value of two", "number", "no_flow", {"1 0 mode 1": "1 0 mode 2"}),
    ("two spaces", "words", "no_flow", {"0 2 took 1": "0  2 took 1"}),
    ("a word that no history has", "words", "no_flow", {"0 2 took 1": "0 2 takes 1"}),
    ("an entry of another history", "words", "no_flow", {"0 7 refused 2": "0 7 put 2"}),
    ("an offer that there isn't", "words", "no_flow", {"made 1 nothing": "made 1 none"}),
    ("another number of a bucket", "bucket number", "no_flow", {"bucket 0 9": "bucket 1 9"}),
    ("an entry more than the head says", "head", "no_flow", {"pool 6": "pool 5"}),
    ("an entry fewer than the head says", "words", "no_flow", {"pool 6": "pool 7"}),
    ("a line behind the last one", "end", "no_flow", {"3 0 drained 1\n": "3 0 drained 1\n\n"}),
    ("no last line", "lines", "no_flow", {"3 0 drained 1\n": ""}),
    ("no line feed at the end", "line feed", "no_flow", {"3 0 drained 1\n": "3 0 drained 1"}),
    # roles and steps
    ("a step left out", "steps", "no_flow", {"0 9 idle": "0 10 idle"}),
    ("a step twice", "steps", "no_flow", {"0 9 idle": "0 8 idle"}),
    ("steps of a role that fall", "order of steps", "no_flow", {"0 6 inuse 2 1\n0 7 refused 2": "0 7 refused 2\n0 6 inuse 2 1"}),
    ("a sweep by a worker", "roles", "no_flow", {"1 1 swept": "0 1 swept"}),
    ("a role that there isn't", "roles", "no_flow", {"3 1 put": "4 1 put"}),
    ("a look by an older reading of the mode", "seen", "forced", {"missing 3 1 6 0": "missing 3 0 3 0"}),
    ("a sweep by another table than it read", "seen", "no_flow", {"swept 0 1 4 0": "swept 0 0 4 0"}),
    # the pools
    ("full with one flow fewer", "pool out", "two_idle", {"full 3 2 2": "full 3 1 2"}),
    ("full where a flow is left", "pool out", "two_idle", {"layout 1 2 4096 1 2": "layout 1 2 4096 1 3", "full 3 2 2": "full 3 3 3"}),
    ("an object more than there are", "pool out", "no_flow", {"0 5 full 2 1 1": "0 5 took 2"}),
    ("an object that stays out", "pool out", "no_flow", {"pool 6": "pool 5", "3 1 put 1\n": ""}),
    ("an object given back before it is had", "pool out", "three_rounds", {"0 0 mode 0\n1 0": "4 2 put 3\n0 0 mode 0\n1 0", "2 11 over 2 0\n4 2 put 3": "2 11 over 2 0"}),
    ("an emergency that isn't read", "emergency mode", "no_flow", {"1 0 mode 1": "1 0 mode 0"}),
    ("an emergency that ends too soon", "emergency mode", "no_flow", {"over 0 0": "over 0 1"}),
    ("a node more than there are", "segments out", "segments", {"0 8 full 3 1 1": "0 8 took 3"}),
    ("full where a node is left", "segments out", "segments", {"0 5 took 2": "0 5 full 2 0 1"}),
    ("more nodes back than are out", "segments out", "segments", {"0 12 gave 1": "0 12 gave 2"}),
    ("a node that stays out", "segments out", "segments", {"segments 3": "segments 2", "0 12 gave 1\n": ""}),
    # frames and objects
    ("a frame without a look", "answered once", "three_rounds", {"found 4 0 8 3": "found 5 0 8 3"}),
    ("a frame with two looks", "answered once", "three_rounds", {"found 5 0 11 3": "found 4 0 11 3"}),
    ("a missing frame without an answer", "answered once", "no_flow", {"0 7 refused 2": "0 7 stored 2"}),
    ("a found frame that is refused", "answered once", "no_flow", {"missing 2 0 1 0": "found 2 0 1 1 nothing"}),
    ("a use that stays open", "closed once", "three_rounds", {"closed 5 none 3": "closed 4 none 3"}),
    ("a close that names another run", "closed once", "three_rounds", {"closed 2 none 2": "closed 2 none 1"}),
    ("an object for another frame", "taken once", "no_flow", {"0 2 took 1": "0 2 took 2"}),
    ("an object given back twice", "given back once", "three_rounds", {"3 1 put 2": "3 1 put 1"}),
    ("an object given back before its run left", "given back after it left", "forced", {"0 8 victim 2 1": "0 9 victim 2 1", "0 9 turn 1 2": "0 8 turn 1 2"}),
    # the buckets
    ("found a run that left", "found", "three_rounds", {"found 4 0 8 3": "found 4 0 8 1"}),
    ("found a run of another worker", "found", "three_rounds", {"0 9 found": "1 5 found"}),
    ("stopped without a stop", "found", "segments", {"found 2 0 1 1 needs": "found 2 0 1 1 stopped"}),
    ("an ended run that is in use", "missing", "no_flow", {"missing 2 0 1 0": "missing 2 0 1 1"}),
    ("an ended run that was never there", "missing", "ended_in_hand", {"missing 2 0 3 1": "missing 2 0 3 2"}),
    ("a run of the key that stays", "missing", "three_rounds", {"missing 3 0 8 1": "missing 3 0 8 0"}),
    ("made before it is missing", "made", "no_flow", {"0 1 missing 1 0 1 0\n0 3 made 1 nothing": "0 3 made 1 nothing\n0 1 missing 1 0 1 0"}),
    ("a first packet out of order", "made", "segments", {"made 1 nothing": "made 1 needs"}),
    ("refused another frame", "refused", "no_flow", {"0 7 refused 2": "0 7 refused 3"}),
    ("stored without an offer", "stored", "segments", {"0 6 stored 2": "0 6 stored 1"}),
    ("stopped without an offer", "stopped", "segments", {"0 9 stopped 3": "0 9 stopped 2"}),
    ("a victim that is in use", "victim", "no_flow", {"0 6 inuse 2 1": "0 6 victim 2 1"}),
    ("a victim that isn't the oldest", "victim", "two_idle", {"victim 3 1": "victim 3 2"}),
    ("a bucket with more flows than there are", "inuse", "no_flow", {"inuse 2 1": "inuse 2 2"}),
    ("a bucket with a flow that no packet uses", "inuse", "two_idle", {"victim 3 1": "inuse 3 2"}),
    ("a run that leaves in use", "closed", "three_rounds", {"closed 3 none 3 0 0": "closed 3 none 3 0 1"}),
    ("a run that leaves while it is linked", "closed", "two_idle", {"closed 2 none 2 0 0": "closed 2 none 2 0 1"}),
    ("more nodes freed than held", "closed", "segments", {"closed 1 none 1 1 0": "closed 1 none 1 2 0"}),
    ("a refused frame with a verdict", "idle", "no_flow", {"idle 2 none": "idle 2 dns"}),
    ("a sweep that lets a run of another bucket go", "swept", "three_rounds", {"2 5 swept 1 0 7 1": "2 5 swept 1 0 7 0", "2 6 swept 1 0 7 0": "2 6 swept 1 0 7 1"}),
    ("a sweep that lets a run of its own round go", "swept", "three_rounds", {
        "2 1 swept 0 0 4 0": "2 1 swept 0 0 4 1", "2 5 swept 1 0 7 1": "2 5 swept 1 0 7 0", "3 0 put 1": "3 0 put 2", "3 1 put 2": "3 1 put 1",
    }),
    ("a drain that forgets a run", "drained", "no_flow", {"drained 1": "drained 0"}),
    # the scripts
    ("a batch too long", "worker's script", "two_idle", {"layout 1 2": "layout 1 1"}),
    ("a batch cut too soon", "worker's script", "forced", {"layout 1 1": "layout 1 2"}),
    ("an eviction with a hand that isn't empty", "worker's script", "ended_in_hand", {"0 8 turn 1 2": "0 8 full 2 1 1"}),
    ("a round without its end", "manager's script", "three_rounds", {"2 7 over 1 0": "2 7 mode 0"}),
    ("what waits, in another order", "recycler's script", "three_rounds", {"3 0 put 1": "3 0 put 2", "3 1 put 2": "3 1 put 1"}),
    ("flows that wait when the last round is over", "end's script", "detached_in_use", {"pool 6": "pool 5", "3 0 put 1\n": "", "3 1 drained 0": "3 0 drained 0"}),
    ("a bucket that isn't drained", "end's script", "empty_capture", {"bucket 0 1\n3 0 drained 0": "bucket 0 0"}),
    ("a sweep behind looks of the next round", "rounds", "three_rounds", {"2 2 swept 0 0 4 0\n0 4 closed 1 none 1 0 0\n0 6 missing 3 0 8 1": "0 4 closed 1 none 1 0 0\n0 6 missing 3 0 8 1\n2 2 swept 0 0 4 0"}),
    # the lines before the trail
    ("a packet without a flow that isn't counted", "no_flow", "no_flow", {'"no_flow":1': '"no_flow":0'}),
    ("a record more", "records", "three_rounds", {'"records":3': '"records":4'}),
    ("a full pool that isn't counted", "memcap_full", "no_flow", {'"memcap_full":1': '"memcap_full":0'}),
    ("an emergency that isn't counted", "emergency_entered", "no_flow", {'"emergency_entered":1': '"emergency_entered":0'}),
    ("frames that aren't looked up", "frames", "three_rounds", {'"frames":5': '"frames":6'}),
    ("a line of a run that there isn't", "records", "no_flow", {'"flow_id":1': '"flow_id":2'}),
    ("another last packet", "members", "three_rounds", {'"pcap_last":5': '"pcap_last":4'}),
    ("another reason", "reason", "detached_in_use", {'"reason":"timeout"': '"reason":"forced"'}),
    ("a timeout by another table", "emergency", "three_rounds", {'"reason":"timeout","start":"2023-11-14T22:13:21.': '"emergency":true,"reason":"timeout","start":"2023-11-14T22:13:21.'}),
    ("a flow of another bucket", "bucket of key", "three_rounds", {'"src_ip":"10.0.0.1"': '"src_ip":"10.0.0.9"'}),
    ("a flow of another worker", "worker of key", "three_rounds", {'"src_ip":"10.0.0.1"': '"src_ip":"10.0.0.2"'}),
    ("a protocol that no packet told", "app_proto", "no_flow", {'{"community_id"': '{"app_proto":"dns","community_id"'}),
]

# Samples with lines that are just those of a capture, and what is broken in them, or in the capture, that only it tells.
LAWFUL_OVER = {"no_flow": "two_flows", "detached_in_use": "one_flow_after_a_timeout"}
BROKEN_OVER = [
    ("a timeout at the very nanosecond", "missing by the capture", "detached_in_use", "one_flow_at_its_timeout", {}),
    ("a frame that isn't in the capture", "place by the capture", "no_flow", "one_packet", {}),
    ("a frame that isn't looked up", "place by the capture", "no_flow", "two_flows_in_turn", {}),
    ("a protocol that the payload doesn't show", "closed by the capture", "no_flow", "two_flows", {"closed 1 none": "closed 1 dns", '{"community_id"': '{"app_proto":"dns","community_id"'}),
    ("another number of bytes", "lines by the capture", "no_flow", "two_flows", {'"bytes_toserver":42': '"bytes_toserver":43'}),
    ("another last clock", "lines by the capture", "no_flow", "two_flows", {'22:13:20.000000+0000"}\nsuri': '22:13:21.000000+0000"}\nsuri'}),
]


def changed(base, changes):
    text = LAWFUL[base]
    for old, new in changes.items():
        assert text.count(old) == 1, (base, old, text.count(old))
        text = text.replace(old, new)
    return text.encode()


def lawful():
    """Each lawful sample's name, its text, and the capture over which it is judged, if there is one."""
    for name, text in LAWFUL.items():
        yield name, text.encode(), None
    for name, capture in LAWFUL_OVER.items():
        yield name, LAWFUL[name].encode(), short_captures.capture(capture)


def broken():
    """Each broken sample's name, the check that refuses it, its text, and the capture over which it is judged, if there is one."""
    for name, check, base, changes in BROKEN:
        yield name, check, changed(base, changes), None
    for name, check, base, capture, changes in BROKEN_OVER:
        yield name, check, changed(base, changes), short_captures.capture(capture)
