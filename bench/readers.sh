#!/usr/bin/env bash
# How fast `jumpweft formula` reads: MB (1,000,000 bytes) per second over formulas of 1, 4 and 16 MiB.
#
#   rt ci && bench/readers.sh [RUNS]      RUNS: runs of each, of which the fastest counts (5)
#
# A formula has at most 16,384 clauses, so 16 MiB of clauses of three literals are mostly blanks. Hence three shapes:
#
#   short    16,384 clauses of 3 literals, the blanks that are missing spread between the words
#   narrow   16,384 clauses without padding, as short as the size allows (9, 38 and about 153 literals)
#   wide     clauses of 1,024 literals, without padding
#
# Each declares 64 universals and 4,096 existentials, the most there may be, by numbers up to V = 65,535: half of the
# existentials in an `e` group, half in `d` groups of four universals each. Every literal is a declared variable.
#
# Each formula is read twice: as it is, so that the program prints its tables (to /dev/null: "whole"), and with a last
# literal that is not declared, so that the reader goes through every byte and the program prints one line ("reader":
# starting, reading the file, making the tables, reading the formula, clearing the tables). The limits below are held
# against the second time; the status is 1 where one is broken. A time is the processor time of the process, user and
# system, which other work on the machine disturbs least.
. "$(dirname "$0")/setup.sh"
python3 - "$program" "$folder" "${1:-5}" <<'PYTHON'
import os
import random
import subprocess
import sys

LEAST_SPEED = 50      # MB per second of the reader
MOST_RATIO = 2        # time of 16 MiB of wide clauses over that of 16 MiB of shorter ones
MIB = 1024 * 1024
CLAUSES = 16384

program, folder, runs = sys.argv[1], sys.argv[2], int(sys.argv[3])
chance = random.Random(1)
declared = chance.sample(range(1, 65535), 64 + 4096)
undeclared = next(v for v in range(60000, 65535) if v not in set(declared))


def words(numbers):
    return " ".join(map(str, numbers))


def groups():
    universals, listed, dependent = declared[:64], declared[64:2112], declared[2112:]
    lines = [f"a {words(universals)} 0", f"e {words(listed)} 0"]
    lines += [f"d {v} {words(chance.sample(universals, 4))} 0" for v in dependent]
    return "".join(line + "\n" for line in lines)


declarations = groups()


def begin(clauses):
    return f"p cnf 65535 {clauses}\n" + declarations


# A clause as its words, the 0 behind it included.
def clause(length):
    return [str(chance.choice((v, -v))) for v in chance.sample(declared, length)] + ["0"]


def size_of(clauses):
    return sum(len(word) + 1 for one in clauses for word in one)


def short(room):
    return [clause(3) for _ in range(CLAUSES)]


def narrow(room):
    clauses, left = [], room
    for behind in range(CLAUSES, 0, -1):
        one = clause(max(1, round((left / behind - 2) / 6.33)))
        clauses.append(one)
        left -= size_of([one])
    while left < 0:
        left += size_of([clauses.pop()])
    return clauses


def wide(room):
    clauses, left = [], room
    while True:
        one = clause(1024)
        left -= size_of([one])
        if left < 0:
            return clauses
        clauses.append(one)


# The text of a shape, filled up to about its size by blanks between the words of its clauses; the same with an
# undeclared last literal; how many clauses and literals it has.
def formula(shape, size):
    clauses = shape(size - len(begin(CLAUSES)))
    head = begin(len(clauses))
    padding = size - len(head) - size_of(clauses)
    gaps = sum(len(one) for one in clauses)
    blanks = " " * (padding // gaps)
    body = "".join((blanks + " ").join(one) + blanks + "\n" for one in clauses)
    count = len(clauses)
    literals = sum(len(one) - 1 for one in clauses)
    last = clauses[-1][-2]
    at = body.rindex(last)
    return head + body, head + body[:at] + str(undeclared) + body[at + len(last):], count, literals


def fastest(path, status, start):
    shown = subprocess.run([program, "formula", path], stdout=subprocess.PIPE, stderr=subprocess.DEVNULL)
    if shown.returncode != status or not shown.stdout.startswith(start):
        sys.exit(f"bench: {path}: status {shown.returncode}, it prints {shown.stdout[:80]!r}")
    times = []
    for _ in range(runs):
        child = subprocess.Popen([program, "formula", path], stdout=subprocess.DEVNULL, stderr=subprocess.DEVNULL)
        used = os.wait4(child.pid, 0)[2]
        times.append(used.ru_utime + used.ru_stime)
    return min(times)


print("shape   MiB  clauses  literals     bytes   reader ms   MB/s   whole ms   MB/s")
reader, broken = {}, []
for mib in (1, 4, 16):
    for shape in (short, narrow, wide):
        name = shape.__name__
        accepted, refused, clauses, literals = formula(shape, mib * MIB)
        size = len(accepted)
        times = []
        for text, status, start in ((refused, 1, b"refused: cause 6, "), (accepted, 0, b"accepted, ")):
            path = f"{folder}/{name}{mib}"
            with open(path, "w") as file:
                file.write(text)
            times.append(fastest(path, status, start))
        reader[name, mib] = times[0]
        speeds = [size / 1e6 / t for t in times]
        print(f"{name:6} {mib:4} {clauses:8} {literals:9} {size:9} {times[0] * 1e3:11.1f} {speeds[0]:6.0f} "
              f"{times[1] * 1e3:10.1f} {speeds[1]:6.0f}", flush=True)
        if speeds[0] < LEAST_SPEED:
            broken.append(f"{name} {mib} MiB: less than {LEAST_SPEED} MB/s")
for name in ("short", "narrow"):
    ratio = reader["wide", 16] / reader[name, 16]
    print(f"16 MiB of wide clauses take {ratio:.2f} times as long as {name} ones")
    if ratio > MOST_RATIO:
        broken.append(f"wide clauses take more than {MOST_RATIO} times as long as {name} ones")
for line in broken:
    print(f"BROKEN: {line}")
sys.exit(1 if broken else 0)
PYTHON
