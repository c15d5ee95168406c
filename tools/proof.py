"""A proof that is being written: each step is done by an examiner of tests/reference.py and kept as a record, so that no step is
written that would be refused. A premise is filed once, and a clause that is there is not derived again."""

from checker import RESOLVE, SETTLE, Examiner, Refusal, make_shelf, write_record


class Proof:
    def __init__(self, side):
        self.examiner = Examiner(side, make_shelf("flat", None, None))
        self.examiner.open(1)
        self.numbers = {}  # of each clause on the shelf, by the set of its literals
        self.records = []

    def premise(self, kind, *fields):
        """The number of a premise."""
        clause = frozenset(self.examiner.side.premise(*fields))
        if clause not in self.numbers:
            self.numbers[clause] = self.examiner.premise(kind, *fields)
            self.records.append(write_record(kind, *fields))
        return self.numbers[clause]

    def resolve(self, first, second, pivot):
        """The number of the resolvent; the first clause has the pivot, the second its complement."""
        left, right = self.clause(first), self.clause(second)
        opposite = (pivot[0] ^ 1, pivot[1])
        resolvent = frozenset(left) - {pivot} | frozenset(right) - {opposite}
        if resolvent not in self.numbers:
            step = (first, second, left.index(pivot) + 1)
            self.numbers[resolvent] = self.examiner.resolve(*step)
            self.records.append(write_record(RESOLVE, *step))
        return self.numbers[resolvent]

    def settle(self, goal, clause):
        self.examiner.settle(goal, clause)
        self.records.append(write_record(SETTLE, goal, clause))

    def clause(self, number):
        return self.examiner.shelf.clauses[number - 1]

    def replay(self, nodes, premise_of, literal_of):
        """Derives a solver's refutation again; answers the number of its last clause.

        `premise_of` has the premise of each set of literals that the solver was given, `literal_of` answers what a
        literal of the solver stands for. The solver may have been given premises without some literals, which the
        clauses then have in addition.
        """
        number = {}
        for node in nodes:
            if not node.parents:
                number[node] = self.premise(*premise_of[node.literals])
            else:
                number[node] = self.derive(node, number, literal_of)
        return number[nodes[-1]]

    def derive(self, node, number, literal_of):
        if len(node.parents) != 2:
            raise SystemExit("a step of the trace is no resolution")
        first, second = node.parents
        (pivot,) = [literal for literal in first.literals if -literal in second.literals]
        if node.literals != (first.literals | second.literals) - {pivot, -pivot}:
            raise SystemExit("a clause of the trace is not the resolvent of its two parents")
        return self.resolve(number[first], number[second], literal_of(pivot))

    def write(self, name):
        with open(name, "wb") as file:
            file.write(b"".join(self.records))

    def summary(self):
        shelf = self.examiner.shelf
        return f"{len(self.records)} records, {len(shelf.clauses)} clauses, {shelf.entries} entries"


def start_proof(side):
    """A proof of this side, or the end of the program where its case cannot be opened."""
    try:
        return Proof(side)
    except Refusal as refusal:
        raise SystemExit(refusal.line()) from None
