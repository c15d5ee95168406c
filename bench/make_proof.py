"""Makes texts and proofs of any number of records, for bench/proofs.sh.

    make_proof.py true|false short|long RECORDS FOLDER

It writes FOLDER/formula, FOLDER/proof and, for `true`, FOLDER/circuit. Each proof ends in the side's verdict.

    true short    a chain of gates, taken apart from the output down: clauses of two literals
    true long     an output over 1,000 wires, each of which is four gates deep: clauses of up to 1,001 literals
    false short   a chain of implications: clauses of one and of two literals
    false long    a clause of 1,020 literals, each of which three implications carry on: clauses of up to 1,020 literals
"""

import sys

MOST_GATES = 50_000
MOST_LINKS = 4_000
WIDTH = {"true": 1_000, "false": 1_020}


class Proof:
    """Records, and the number of the clause that was filed last."""

    def __init__(self):
        self.records = []
        self.filed = 0

    def add(self, kind, *fields):
        body = bytes([1, kind]) + b"".join(value.to_bytes(size, "big") for value, size in fields)
        self.records.append(len(body).to_bytes(2, "big") + body)
        if kind != 4:
            self.filed += 1
        return self.filed

    def truth(self, class_, number, part):
        return self.add(1, (class_, 1), (number, 2), (part, 1))

    def falsity(self, clause, values):
        return self.add(2, (clause, 2), (values, 8))

    def resolve(self, first, second, position):
        return self.add(3, (first, 4), (second, 4), (position, 2))

    def settle(self, goal, clause):
        self.add(4, (goal, 2), (clause, 4))


def pad(proof, records, one_pass, length, filler):
    """As many passes as there is room for, other records before them, and one settling behind."""
    passes = max(1, (records - 1) // length)
    for _ in range(records - 1 - passes * length):
        filler()
    for k in range(passes):
        last = one_pass(k)
    proof.settle(1, last)


def truth_short(proof, records):
    gates = max(1, min(MOST_GATES, (records - 2) // 2))
    formula = "p cnf 2 1\na 1 0\ne 2 0\n-2 1 0\n"
    circuit = f"aag {1 + gates} 1 0 1 {gates}\n2\n{2 * (1 + gates)}\n"
    circuit += "".join(f"{2 * (1 + g)} {2 * g} 2\n" for g in range(1, gates + 1))

    def one_pass(_):
        last = proof.truth(2, 1, 1)
        for g in range(gates, 0, -1):
            last = proof.resolve(last, proof.truth(1, g, 1), 2)
        return last

    pad(proof, records, one_pass, 1 + 2 * gates, lambda: proof.truth(2, 1, 1))
    return formula, circuit


def truth_long(proof, records):
    """Gates 1 to w are the lowest, then three more layers of w, then a chain that joins the w gates of the top layer."""
    w, layers, inputs = WIDTH["true"], 4, 64
    gates = []
    for layer in range(layers):
        for i in range(w):
            below = 2 * (1 + i % inputs) if layer == 0 else 2 * (inputs + (layer - 1) * w + i + 1)
            gates.append((below, below))
    top = inputs + (layers - 1) * w
    for i in range(1, w):
        left = 2 * (top + 1) if i == 1 else 2 * (inputs + len(gates))
        gates.append((left, 2 * (top + i + 1)))
    wires = inputs + len(gates)
    formula = f"p cnf {inputs + 1} 1\na {' '.join(str(v) for v in range(1, inputs + 1))} 0\ne {inputs + 1} 0\n"
    formula += " ".join(str(-v) for v in range(1, inputs + 1)) + f" {inputs + 1} 0\n"
    circuit = f"aag {wires} {inputs} 0 1 {len(gates)}\n" + "".join(f"{2 * i}\n" for i in range(1, inputs + 1))
    circuit += f"{2 * wires}\n" + "".join(
        f"{2 * (inputs + g)} {r} {s}\n" for g, (r, s) in enumerate(gates, 1))

    def one_pass(_):
        last = proof.truth(2, 1, 2)
        clause = [2 * (wires + 1), 2 * wires + 1]
        for g in range(len(gates), 0, -1):
            own = 2 * (inputs + g)
            position = clause.index(own + 1) + 1
            last = proof.resolve(last, proof.truth(1, g, 3), position)
            del clause[position - 1]
            for literal in gates[g - 1]:
                if literal + 1 not in clause:
                    clause.append(literal + 1)
        return last

    pad(proof, records, one_pass, 1 + 2 * len(gates), lambda: proof.truth(2, 1, 2))
    return formula, circuit


def falsity_short(proof, records):
    links = max(1, min(MOST_LINKS, (records - 2) // 2))
    formula = f"p cnf {links + 1} {links + 1}\na 1 0\ne {' '.join(str(v) for v in range(2, links + 2))} 0\n2 0\n"
    formula += "".join(f"-{v} {v + 1} 0\n" for v in range(2, links + 1)) + f"-{links + 1} 0\n"

    def one_pass(k):
        values = k % 2
        last = proof.falsity(1, values)
        for j in range(2, links + 2):
            last = proof.resolve(last, proof.falsity(j, values), 1)
        return last

    pad(proof, records, one_pass, 1 + 2 * links, lambda: proof.falsity(1, 0))
    return formula, None


def falsity_long(proof, records):
    w, layers = WIDTH["false"], 4
    numbers = [[2 + layer * w + i for i in range(w)] for layer in range(layers)]
    clauses = [numbers[0]]
    clauses += [[-numbers[layer][i], numbers[layer + 1][i]] for layer in range(layers - 1) for i in range(w)]
    clauses += [[-v] for v in numbers[-1]]
    variables = 1 + layers * w
    formula = f"p cnf {variables} {len(clauses)}\na 1 0\ne {' '.join(str(v) for v in range(2, variables + 1))} 0\n"
    formula += "".join(" ".join(map(str, clause)) + " 0\n" for clause in clauses)

    def one_pass(k):
        values = k % 2
        last = proof.falsity(1, values)
        for j in range(2, len(clauses) + 1):
            last = proof.resolve(last, proof.falsity(j, values), 1)
        return last

    pad(proof, records, one_pass, 1 + 2 * (len(clauses) - 1), lambda: proof.falsity(1, 0))
    return formula, None


MAKERS = {
    ("true", "short"): truth_short,
    ("true", "long"): truth_long,
    ("false", "short"): falsity_short,
    ("false", "long"): falsity_long,
}


def main():
    side, shape, records, folder = sys.argv[1], sys.argv[2], int(sys.argv[3]), sys.argv[4]
    proof = Proof()
    formula, circuit = MAKERS[side, shape](proof, records)
    with open(f"{folder}/formula", "w", encoding="ascii") as out:
        out.write(formula)
    if circuit is not None:
        with open(f"{folder}/circuit", "w", encoding="ascii") as out:
            out.write(circuit)
    with open(f"{folder}/proof", "wb") as out:
        out.write(b"".join(proof.records))


if __name__ == "__main__":
    main()
