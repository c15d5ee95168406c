#!/usr/bin/env python3
"""tools/falsity_records.py FORMULA OUT: refutes a formula by expansion and resolution, and writes the proof's records.

Every clause is taken under each assignment that makes its universal literals false, where universals that no literal of
the clause sees stay 0. DepQBF refutes these instances; those that its refutation uses become premises.
"""

import sys

from checker import EXISTENTIAL, PREMISE_FALSITY, FalsitySide, Refusal, read_formula
from proof import start_proof
from qrp import refute

MOST_INSTANCES = 1_000_000


def clause_words(formula, clause):
    """A word of values in which the clause's universal literals are false, and the word of the universals that are free and
    that an existential of the clause sees."""
    values, fixed, seen = 0, 0, 0
    for variable, negative in clause:
        kind, position, dependencies = formula.variables[variable]
        if kind == EXISTENTIAL:
            seen |= dependencies
        else:
            fixed |= 1 << (position - 1)
            values |= negative << (position - 1)
    return values, seen & ~fixed


def subwords(word):
    """Every word whose bits are among those of this one."""
    sub = 0
    while True:
        yield sub
        if sub == word:
            return
        sub = (sub - word) & word


def instances(formula):
    """The fields of each premise that matters."""
    for number, clause in enumerate(formula.clauses, 1):
        values, free = clause_words(formula, clause)
        for sub in subwords(free):
            yield number, values | sub


class Numbering:
    """A whole number for each existential under each word of values that it sees."""

    def __init__(self):
        self.number = {}
        self.atoms = []

    def of(self, literal):
        atom = literal[0] & ~1, literal[1]
        if atom not in self.number:
            self.atoms.append(atom)
            self.number[atom] = len(self.atoms)
        return -self.number[atom] if literal[0] & 1 else self.number[atom]

    def literal(self, number):
        code, values = self.atoms[abs(number) - 1]
        return code + (number < 0), values


def refute_formula(proof):
    """Derives the empty clause and settles the goal; answers whether the formula is false."""
    side = proof.examiner.side
    numbering = Numbering()
    premise_of = {}
    for fields in instances(side.formula):
        literals = frozenset(numbering.of(literal) for literal in side.premise(*fields))
        premise_of.setdefault(literals, (PREMISE_FALSITY, *fields))
        if len(premise_of) > MOST_INSTANCES:
            raise SystemExit(f"more than {MOST_INSTANCES} instances")
    nodes = refute(list(premise_of))
    if nodes is None:
        return False
    proof.settle(1, proof.replay(nodes, premise_of, numbering.literal))
    return True


def main():
    if len(sys.argv) != 3:
        raise SystemExit(__doc__)
    try:
        with open(sys.argv[1], "rb") as text:
            formula = read_formula(text.read())
    except Refusal as refusal:
        raise SystemExit(refusal.line()) from None
    proof = start_proof(FalsitySide(formula))
    if not refute_formula(proof):
        raise SystemExit("the formula is true: its instances are satisfiable")
    proof.write(sys.argv[2])
    print(proof.summary())


if __name__ == "__main__":
    main()
