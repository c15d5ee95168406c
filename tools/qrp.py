"""Refutations by the solver DepQBF: writes clauses for it, has it refute them, and reads its trace in the format QRP.

A trace has a line for each clause: its number, its literals, 0, the numbers of the clauses that it is the resolvent of, 0.
Clauses that were given have no such numbers.
"""

import os
import subprocess
import sys
import tempfile

COMMAND = ["depqbf", "--trace=qrp", "--dep-man=simple", "--traditional-qcdcl", "--no-qbce-dynamic"]


class Node:
    """A clause of a trace: the set of its literals, and the nodes that it comes from."""

    def __init__(self, literals, parents):
        self.literals = frozenset(literals)
        self.parents = parents


def refute(clauses):
    """The nodes of a refutation of these sets of whole numbers, parents first and the empty clause last; none where they
    are satisfiable."""
    names = sorted({abs(literal) for clause in clauses for literal in clause})
    number = {name: i for i, name in enumerate(names, 1)}
    trace = run_solver([[signed(number, literal) for literal in clause] for clause in clauses], len(names))
    if trace is None:
        return None
    back = dict(enumerate(names, 1))
    lines = {head: ([signed(back, literal) for literal in literals], parents) for head, literals, parents in trace}
    return used_nodes(lines)


def signed(number, literal):
    return number[literal] if literal > 0 else -number[-literal]


def run_solver(clauses, variables):
    """The lines of the solver's trace, or none where the clauses are satisfiable."""
    handle, name = tempfile.mkstemp(suffix=".qdimacs")
    with os.fdopen(handle, "w") as file:
        file.write(f"p cnf {variables} {len(clauses)}\n")
        if variables:
            file.write(f"e {' '.join(map(str, range(1, variables + 1)))} 0\n")
        for clause in clauses:
            file.write(f"{' '.join(map(str, [*clause, 0]))}\n")
    try:
        done = subprocess.run([*COMMAND, name], stdout=subprocess.PIPE, text=True, check=False)
    except FileNotFoundError:
        sys.exit("depqbf is not installed")
    finally:
        os.unlink(name)
    if done.returncode == 10:
        return None
    if done.returncode != 20:
        sys.exit(f"depqbf ended with status {done.returncode}")
    return [trace_line(line) for line in done.stdout.splitlines() if line[:1].isdigit()]


def trace_line(line):
    head, *numbers = map(int, line.split())
    middle = numbers.index(0)
    return head, numbers[:middle], numbers[middle + 1 : -1]


def used_nodes(lines):
    """The nodes that the empty clause comes from, parents first."""
    empty = next(head for head, (literals, _) in lines.items() if not literals)
    nodes = {}
    waiting = [empty]
    while waiting:
        head = waiting[-1]
        literals, parents = lines[head]
        missing = [parent for parent in parents if parent not in nodes]
        if missing:
            waiting.extend(missing)
            continue
        waiting.pop()
        if head not in nodes:
            nodes[head] = Node(literals, [nodes[parent] for parent in parents])
    return list(nodes.values())
