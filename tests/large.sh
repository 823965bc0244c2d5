#!/usr/bin/env bash
# Captures at the limits, too large for the gate: status and note of each. It needs some 3 GiB of memory.
set -u
cd "$(dirname "$0")/.." || exit 1
work=$(mktemp -d)
trap 'rm -rf "$work"' EXIT

# header: 24 bytes, little-endian, microseconds, Ethernet
header() { printf '\xd4\xc3\xb2\xa1\x02\x00\x04\x00\x00\x00\x00\x00\x00\x00\x00\x00\x00\x00\x04\x00\x01\x00\x00\x00'; }

# expect STATUS NOTE: runs the program on standard input
expect() {
  bin/suri_run >"$work/text" 2>"$work/note"
  local status=$?
  if [ $status -eq "$1" ] && [ "$(cat "$work/note")" = "$2" ]; then
    echo pass >>"$work/verdicts"
  else
    echo fail >>"$work/verdicts"
    echo "status $status and note '$(cat "$work/note")' in place of $1 and '$2'"
  fi
}

head -c 1073741825 /dev/zero | expect 6 'suri_run: limit: more than 1073741824 bytes'
head -c 1073741824 /dev/zero | expect 5 'suri_run: capture refused: magic 00000000'
# 4,194,304 records of length 0, and one more
{ header; head -c $((16 * 4194304)) /dev/zero; } | expect 0 ''
{ header; head -c $((16 * 4194304 + 1)) /dev/zero; } | expect 6 'suri_run: limit: more than 4194304 frames'
{ header; head -c $((16 * 4194305)) /dev/zero; } | expect 6 'suri_run: limit: more than 4194304 frames'
bad=$(grep -c fail "$work/verdicts")
echo "$(grep -c pass "$work/verdicts") passed, $bad failed"
[ "$bad" -eq 0 ]
