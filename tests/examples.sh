#!/usr/bin/env bash
# tests/examples.sh PROGRAM: runs the program on every example and compares what it prints, its status and its slip.
#
# A folder of examples/ has `command`, the program's arguments; `expected`, what it must print, with the status as the
# last line; `slip`, the sixteen bytes that it must write by --slip, where a case is closed; and `calls`, its standard
# input, for a session.
set -u
[ $# -eq 1 ] || { echo "usage: tests/examples.sh PROGRAM" >&2; exit 1; }
program=$(realpath "$1")
[ -x "$program" ] || { echo "examples: no program: $1" >&2; exit 1; }
cd "$(dirname "$0")/../examples" || exit 1
out=$(mktemp -d)
trap 'rm -rf "$out"' EXIT
count=0
failed=0

fail() {
    echo "examples: $name: $1"
    good=no
}

# differs FOLDER: tells another output, with its first lines
differs() {
    fail "another output (< expected, > printed)"
    { diff "$1/expected" "$out/printed" | head -6; head -3 "$out/complaints"; } | sed 's/^/    /'
}

# run FOLDER: the program's output with its status behind it, and its slip
run() {
    local arguments calls=/dev/null
    read -r -a arguments < "$1/command"
    case ${arguments[0]} in true | false) arguments+=(--slip "$out/slip") ;; esac
    [ -f "$1/calls" ] && calls=$1/calls
    calls=$(realpath "$calls")
    (cd "$1" && "$program" "${arguments[@]}" < "$calls" > "$out/printed" 2> "$out/complaints")
    echo "status $?" >> "$out/printed"
}

for command in */command; do
    name=$(dirname "$command")
    good=yes
    rm -f "$out/slip"
    run "$name"
    cmp -s "$out/printed" "$name/expected" || differs "$name"
    if [ -f "$name/slip" ]; then
        cmp -s "$out/slip" "$name/slip" || fail "another slip"
    elif [ -f "$out/slip" ]; then
        fail "a slip where none is due"
    fi
    count=$((count + 1))
    [ $good = yes ] || failed=$((failed + 1))
done
echo "examples: $count run, $failed failed"
[ $failed -eq 0 ]
