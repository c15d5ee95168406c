#!/usr/bin/env python3
"""tools/truth_records.py FORMULA CIRCUIT OUT: proves that circuits satisfy a formula, and writes the proof's records.

For each clause of the formula (each goal), the premises of the truth side are taken under the assignment that makes the
goal's literals false: those with a true literal fall out, the others lose their false ones. DepQBF refutes what is left,
and its steps, done with the whole premises, end in a clause that has literals of the goal only.
"""

import sys

from checker import PREMISE_TRUTH, Refusal, TruthSide, read_circuit, read_formula
from proof import start_proof
from qrp import refute


def premise_names(side):
    """The fields of every premise of the truth side."""
    yield 0, 0, 1
    for gate in range(1, side.circuit.A + 1):
        for part in (1, 2, 3):
            yield 1, gate, part
    for existential in range(1, side.formula.E + 1):
        for part in (1, 2):
            yield 2, existential, part


def premises(side):
    """Each premise's fields and its literals as whole numbers; those with both signs of a wire are of no use."""
    for fields in premise_names(side):
        literals = frozenset(to_number(code) for code, _ in side.premise(*fields))
        if not any(-literal in literals for literal in literals):
            yield fields, literals


def to_number(code):
    """Wire w is w + 1, since a solver has no variable 0."""
    wire = code // 2 + 1
    return -wire if code % 2 else wire


def to_literal(number):
    return 2 * (abs(number) - 1) + (number < 0), 0


def settle_goal(proof, known, goal):
    """Derives a clause within the goal and settles it; answers whether there is one."""
    false = {to_number(code) for code, _ in proof.examiner.side.goal(goal)}
    premise_of = {}
    for fields, literals in known:
        if not any(-literal in false for literal in literals):
            premise_of.setdefault(literals - false, (PREMISE_TRUTH, *fields))
    nodes = refute(list(premise_of))
    if nodes is None:
        return False
    proof.settle(goal, proof.replay(nodes, premise_of, to_literal))
    return True


def read_side(formula, circuit):
    try:
        with open(formula, "rb") as text:
            tables = read_formula(text.read())
        with open(circuit, "rb") as text:
            return TruthSide(tables, read_circuit(text.read()))
    except Refusal as refusal:
        raise SystemExit(refusal.line()) from None


def main():
    if len(sys.argv) != 4:
        raise SystemExit(__doc__)
    side = read_side(sys.argv[1], sys.argv[2])
    proof = start_proof(side)
    known = list(premises(side))
    missed = [goal for goal in range(1, side.goal_count + 1) if not settle_goal(proof, known, goal)]
    proof.write(sys.argv[3])
    print(proof.summary())
    if missed:
        raise SystemExit(f"the circuits miss {len(missed)} of {side.goal_count} clauses, the first is {missed[0]}")


if __name__ == "__main__":
    main()
