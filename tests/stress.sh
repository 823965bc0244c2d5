#!/usr/bin/env bash
# Runs of the program under many options, at its limits and far from them: what each run counts must add up, what met no limit must print the
# model's text whatever the options, and each trail that isn't too long must be lawful. First the judge of trails is tried on samples. Outside the
# gate: it takes minutes.
#
#     [MKCAP=PROGRAM] tests/stress.sh [RUNS [SEED]]
#
# RUNS (30) is the number of runs over each capture, SEED (1) picks their options. The captures are the examples and random ones
# (tests/captures.py). PROGRAM, where it is given, writes large ones to standard output, by the words below: `udp FRAMES FLOWS`, `tcp FLOWS WINDOW`
# (so many at a time), `bulk FLOWS SEGMENTS`, `mess FLOWS SEGMENTS` (out of order), `reverse FLOWS BYTES` (last byte first), `bucket FRAMES ROWS`
# (all keys in one bucket), `syn FRAMES` (each a flow), `spec SEED FRAMES` (some of each). Without it there are only small ones.
set -u
cd "$(dirname "$0")/.." || exit 1
work=$(mktemp -d)
trap 'rm -rf "$work"' EXIT

# Builds the program where it has to be built, and tells how far that is; an empty capture is refused.
bin/suri_run </dev/null 2>&1 | grep -v 'short header' >&2
[ -x crates/suri_run/out/suri_run ] || exit 1

python3 tests/trails.py --self-test >&2 || exit 1

number=0
while [ $number -lt 20 ]; do
  number=$((number + 1))
  python3 tests/captures.py $number >"$work/random_$number.pcap" || exit 1
done
if [ -n "${MKCAP:-}" ]; then
  while read -r load first second; do
    # shellcheck disable=SC2086 # a load may have one word
    "$MKCAP" "$load" $first $second >"$work/$load.pcap" || exit 1
  done <<'LOADS'
udp 10000 16
tcp 1000 300
bulk 4 2000
mess 4 2000
reverse 8 500
bucket 2000 1024
syn 10000
spec 7 10000
LOADS
fi
python3 tests/stress.py --program bin/suri_run --runs "${1:-30}" --seed "${2:-1}" examples/*.pcap "$work"/*.pcap
