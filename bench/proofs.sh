#!/usr/bin/env bash
# How fast proofs are checked, by the program with both shelves and by a plain C program that does the same resolution in the same
# way (bench/plain.c): records per second and peak memory.
#
#   rt ci && bench/proofs.sh [RUNS]      RUNS: runs of each, of which the fastest counts (3)
#
# Proofs of short clauses have 10,000, 100,000 and 1,000,000 records on either side. Clauses of about 1,000 literals take so many
# entries that a shelf of 16,000,000 holds no proof of more than some 25,000 records. A time is the processor time of the whole
# process, user and system. The status is 1 where the program takes more than one and a half times the plain program's time, or
# the linked shelf more than one and a half times the flat one's; times below 20 ms are too short to be held to that.
. "$(dirname "$0")/setup.sh"
cc -O2 -o "$folder/plain" bench/plain.c
python3 - "$program" "$folder" "${1:-3}" <<'PYTHON'
import os
import subprocess
import sys

MOST_RATIO = 1.5
LEAST_TIME = 0.02
program, folder, runs = sys.argv[1], sys.argv[2], int(sys.argv[3])
SIZES = [("short", 10_000), ("short", 100_000), ("short", 1_000_000), ("long", 10_000), ("long", 20_000)]
broken = []


def measured(command):
    """The least processor time of some runs, the most memory, and what was printed last of a slip."""
    best, memory, slip = None, 0, None
    for _ in range(runs):
        out = os.path.join(folder, "out")
        with open(out, "wb") as to:
            child = subprocess.Popen(command, stdout=to, stderr=subprocess.DEVNULL)
            _, status, usage = os.wait4(child.pid, 0)
            child.returncode = status
        if status != 0:
            raise SystemExit(f"bench: {command}: status {status}")
        time = usage.ru_utime + usage.ru_stime
        best = time if best is None else min(best, time)
        memory = max(memory, usage.ru_maxrss)
        slip = next(line for line in open(out) if line.startswith("slip "))
    return best, memory / 1024, slip


def held(what, time, other):
    if max(time, other) >= LEAST_TIME and time > MOST_RATIO * other:
        broken.append(f"{what}: {time * 1000:.0f} ms to {other * 1000:.0f} ms")


print("| side | clauses | records | flat ms | records/s | MiB | linked ms | records/s | MiB | plain C ms | MiB | flat/plain | linked/flat |")
print("|---|---|---|---|---|---|---|---|---|---|---|---|---|")
for side in "true", "false":
    for shape, records in SIZES:
        subprocess.run([sys.executable, "bench/make_proof.py", side, shape, str(records), folder], check=True)
        files = [os.path.join(folder, name) for name in (["formula", "circuit", "proof"] if side == "true" else ["formula", "proof"])]
        flat, flat_memory, slip = measured([program, side, *files])
        linked, linked_memory, other = measured([program, side, *files, "--shelf", "linked"])
        plain, plain_memory, third = measured([os.path.join(folder, "plain"), side, *files])
        if not slip == other == third:
            raise SystemExit(f"bench: the slips differ: {slip}{other}{third}")
        print(f"| {side} | {shape} | {records:,} | {flat * 1000:.1f} | {records / flat:,.0f} | {flat_memory:.0f} "
              f"| {linked * 1000:.1f} | {records / linked:,.0f} | {linked_memory:.0f} | {plain * 1000:.1f} | {plain_memory:.0f} "
              f"| {flat / plain:.2f} | {linked / flat:.2f} |", flush=True)
        held(f"{side} {shape} {records}, flat to plain", flat, plain)
        held(f"{side} {shape} {records}, linked to flat", linked, flat)
for line in broken:
    print("bench: broken:", line, file=sys.stderr)
sys.exit(1 if broken else 0)
PYTHON
