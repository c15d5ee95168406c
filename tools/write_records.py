#!/usr/bin/env python3
"""tools/write_records.py CALLS OUT: writes a proof file from steps in words, one a line, as a session has them:

    premise truth 2 1 1
    premise falsity 1 0000000000000000
    resolve 1 2 1
    settle 1 3

What stands behind # is a comment. This is for proofs made by hand; `jumpweft records` shows a file's steps.
"""

import sys

from checker import PREMISE_FALSITY, PREMISE_TRUTH, RESOLVE, SETTLE, write_record


def record_of(line):
    words = line.split("#")[0].split()
    if not words:
        return b""
    if words[:2] == ["premise", "truth"]:
        return write_record(PREMISE_TRUTH, *map(int, words[2:]))
    if words[:2] == ["premise", "falsity"]:
        return write_record(PREMISE_FALSITY, int(words[2]), int(words[3], 16))
    if words[0] == "resolve":
        return write_record(RESOLVE, *map(int, words[1:]))
    if words[0] == "settle":
        return write_record(SETTLE, *map(int, words[1:]))
    raise SystemExit(f"no step: {line.rstrip()}")


def main():
    if len(sys.argv) != 3:
        raise SystemExit(__doc__)
    with open(sys.argv[1], encoding="ascii") as calls:
        records = b"".join(record_of(line) for line in calls)
    with open(sys.argv[2], "wb") as out:
        out.write(records)


if __name__ == "__main__":
    main()
