#!/usr/bin/env bash
# Whole runs of the built program: its status, text and note over captures, files that are none, and words. The texts in tests/runs are the
# model's (`python3 tests/model OPTIONS < CAPTURE`, with the options of the run), but for those of runs in which a limit acts, which the rules give.
# Trails are judged by tests/trails.py.
set -u
cd "$(dirname "$0")/.." || exit 1
work=$(mktemp -d)
trap 'rm -rf "$work"' EXIT
program=bin/suri_run
passed=0
failed=0

# header: 24 bytes, little-endian, microseconds, Ethernet
header() { printf '\xd4\xc3\xb2\xa1\x02\x00\x04\x00\x00\x00\x00\x00\x00\x00\x00\x00\x00\x00\x04\x00\x01\x00\x00\x00'; }

# expect NAME STATUS TEXT NOTE [WORD..]: runs the program over $work/input; TEXT is a file
expect() {
  local name=$1 status=$2 text=$3 note=$4
  shift 4
  "$program" "$@" <"$work/input" >"$work/text" 2>"$work/note"
  local seen=$?
  if [ $seen -eq "$status" ] && cmp -s "$work/text" "$text" && [ "$(cat "$work/note")" = "$note" ]; then
    passed=$((passed + 1))
  else
    failed=$((failed + 1))
    echo "$name: status $seen and note '$(cat "$work/note")' in place of $status and '$note', or another text than $text"
  fi
}

for capture in first tagged web; do
  cp "examples/$capture.pcap" "$work/input"
  expect "$capture" 0 "tests/runs/$capture.txt" ''
done
expect 'netflow lines' 0 tests/runs/web_netflow.txt '' --netflow
expect 'a depth and a seed' 0 tests/runs/web_shallow.txt '' --depth 5 --seed 7
# more words than a short command line has
expect 'options that change no byte' 0 tests/runs/web.txt '' --workers=64 --batch +7 --round 1 --rows 16 --memcap 100 --segments 0 --prealloc 0 --recovery 100
cp examples/tagged.pcap "$work/input"
expect 'netflow lines with tags' 0 tests/runs/tagged_netflow.txt '' --netflow
head -c -1 examples/first.pcap >"$work/input"
expect 'a cut capture' 0 tests/runs/cut.txt ''
header >"$work/input"
expect 'an empty capture' 0 tests/runs/empty.txt ''
# nothing is looked up or swept, but the end role (behind four workers, manager and recycler) drains each bucket
{
  cat tests/runs/empty.txt
  printf '%s\n' 'suri-trail 1' 'layout 4 32 4096 1024 65536 65536 30 1048576' 'pool 0' 'segments 0'
  for ((bucket = 0; bucket < 1024; bucket++)); do printf 'bucket %d 1\n6 %d drained 0\n' $bucket $bucket; done
} >"$work/empty_audit"
expect 'the trail of an empty capture' 0 "$work/empty_audit" '' --audit
expect 'more rows than flows' 2 /dev/null 'suri_run: rows 10 exceed memcap 5' --rows 10 --memcap 5
expect 'frames without a seed' 2 /dev/null 'suri_run: --generate goes with --frames and without --audit' --frames 3
expect 'a seed without frames' 2 /dev/null 'suri_run: --generate goes with --frames and without --audit' --generate 7
expect 'a trail of a generated capture' 2 /dev/null 'suri_run: --generate goes with --frames and without --audit' --generate 7 --frames 5 --audit
# the input isn't read: these words go with any
expect 'a generated capture' 0 crates/suri_run/stdout '' --generate 7 --frames 50000
expect 'a generated capture, with one worker' 0 crates/suri_run/stdout '' --workers 1 --batch 1 --generate 7 --frames 50000
expect 'a number out of range' 2 /dev/null 'suri_run: words refused' --workers 0
# bin/suri_run answers this word itself
program=crates/suri_run/out/suri_run expect 'a word of the script' 2 /dev/null 'suri_run: words refused' --help
expect 'a flag with a value' 2 /dev/null 'suri_run: words refused' --audit=1
expect 'an unknown word' 2 /dev/null 'suri_run: words refused' --unknown
expect 'a word that is no text' 2 /dev/null 'suri_run: words refused' $'\xff'
: >"$work/input"
expect 'no byte' 5 /dev/null 'suri_run: capture refused: short header'
cp README.md "$work/input"
expect 'another file' 5 /dev/null "suri_run: capture refused: magic $(head -c 4 README.md | od -An -tx1 | tr -d ' \n')"
{ header; head -c 16 /dev/zero | tr '\0' '\1'; } >"$work/input"
expect 'a record too long' 5 /dev/null 'suri_run: capture refused: record 1 has length 16843009'

# expect_lawful NAME TEXT [WORD..]: a run with its trail; the lines are those of TEXT, a file, and the trail behind them, whose order is up to the
# threads, is lawful
expect_lawful() {
  local name=$1 text=$2
  shift 2
  "$program" "$@" --audit <"$work/input" >"$work/text" 2>"$work/note"
  local seen=$?
  if [ $seen -eq 0 ] && cmp -s <(grep '^{' "$work/text") "$text" && python3 tests/trails.py "$work/text" >"$work/faults"; then
    passed=$((passed + 1))
  else
    failed=$((failed + 1))
    echo "$name: status $seen and note '$(cat "$work/note")', or other lines than $text, or a trail that isn't lawful: $(cat "$work/faults")"
  fi
}

: >"$work/faults"
# the judge itself, on samples
if python3 tests/trails.py --self-test >"$work/faults"; then
  passed=$((passed + 1))
else
  failed=$((failed + 1))
  cat "$work/faults"
fi
cp examples/web.pcap "$work/input"
expect_lawful 'a trail' tests/runs/web.txt
expect_lawful 'a trail of many rounds' tests/runs/web.txt --workers 2 --batch 1 --round 1 --rows 2
expect_lawful 'a trail behind netflow lines' tests/runs/web_netflow.txt --netflow --rows 3
python3 tests/short_captures.py two_flows >"$work/input"
expect_lawful 'a packet that finds no flow' tests/runs/no_flow.txt --workers 1 --rows 1 --memcap 1 --batch 2
python3 tests/short_captures.py two_flows_in_turn >"$work/input"
expect_lawful 'flows that force each other out' tests/runs/forced.txt --workers 1 --rows 1 --memcap 1 --batch 1
# the most roles and the least of all else: which packets find no flow is up to the order of the roles, but each frame is counted once
"$program" --generate 3 --frames 2000 --workers 64 --batch 256 --round 1 --rows 1 --memcap 1 --segments 0 </dev/null >"$work/text"
if [ $? -eq 0 ] && python3 -c '
import json, sys
line = json.load(sys.stdin)
stats = line["stats"]
counted = sum(stats["decoder"].values()) + stats["flow"]["no_flow"] + stats["flow"]["packets"]
sys.exit(not line["frames"] == stats["capture"]["frames"] == counted == 2000)' <"$work/text"; then
  passed=$((passed + 1))
else
  failed=$((failed + 1))
  echo "a generated capture under the least limits: $(cat "$work/text")"
fi
echo "$passed passed, $failed failed"
[ $failed -eq 0 ]
