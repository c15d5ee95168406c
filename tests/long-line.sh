#!/usr/bin/env bash
# tests/long-line.sh PROGRAM: a session answers a line of a million words, in little memory, and goes on with the next line.
set -euo pipefail
program=$(realpath "$1")
cd "$(dirname "$0")/../examples/box"
lines=$(mktemp)
trap 'rm -f "$lines"' EXIT
python3 -c 'print("open 7"); print("a " * (1 << 20)); print("shelf")' > "$lines"
found=$(ulimit -v 24576; timeout 60 "$program" session box.dqdimacs box.aag --filed 10 --entries 40 < "$lines" | cut -c1-40) || found="status $?"
wanted='ticket 7
usage: open N | premise truth CLASS NUMB
clauses 0, entries 0, K 10, W 40
slip 000e0103000000070000000000000001'
if [ "$found" != "$wanted" ]; then
    printf 'long-line: a session with a long line says\n%s\n' "$found" >&2
    exit 1
fi
echo 'long-line: answered'
