#!/usr/bin/env python3
"""tools/adder_box.py BITS FORMULA CIRCUIT [blind]: writes a box that has to add two numbers, and circuits that do.

The universals are a1, b1, a2, b2, ..; the existentials the sum bits s1, s2, .. and the carries c1, c2, .., c(i) out of bit i.
Sum bit i and carry i may read the bits 1 to i alone. With `blind` the last carry may not read a1, and the formula is false.
"""

import sys


class AdderBox:
    def __init__(self, bits, blind):
        self.bits = bits
        self.blind = blind

    def a(self, i):
        return 2 * i - 1

    def b(self, i):
        return 2 * i

    def sum_bit(self, i):
        return 2 * self.bits + 2 * i - 1

    def carry(self, i):
        return 2 * self.bits + 2 * i

    def dependencies(self, variable):
        """Both outputs of bit i read the universals 1 to 2i."""
        bit = (variable - 2 * self.bits + 1) // 2
        blind = self.blind and variable == self.carry(self.bits)
        return range(2 if blind else 1, 2 * bit + 1)

    def clauses(self):
        for i in range(1, self.bits + 1):
            inputs = [self.a(i), self.b(i)] + ([self.carry(i - 1)] if i > 1 else [])
            yield from parity(self.sum_bit(i), inputs)
            yield from (majority if i > 1 else conjunction)(self.carry(i), inputs)

    def formula(self):
        clauses = list(self.clauses())
        outputs = range(2 * self.bits + 1, 4 * self.bits + 1)
        lines = [f"p cnf {4 * self.bits} {len(clauses)}"]
        lines.append(line("a", range(1, 2 * self.bits + 1)))
        lines += [line("d", [variable, *self.dependencies(variable)]) for variable in outputs]
        lines += [line("", clause) for clause in clauses]
        return "".join(lines_end(lines))

    def circuit(self):
        gates = Gates(2 * self.bits)
        outputs = []
        carry = 0
        for i in range(1, self.bits + 1):
            half = gates.xor(2 * self.a(i), 2 * self.b(i))
            both = gates.both(2 * self.a(i), 2 * self.b(i))
            outputs.append(gates.xor(half, carry) if i > 1 else half)
            carry = gates.either(both, gates.both(half, carry)) if i > 1 else both
            outputs.append(carry)
        return gates.text(outputs)


class Gates:
    """And-gates over a number of inputs."""

    def __init__(self, inputs):
        self.inputs = inputs
        self.gates = []

    def both(self, left, right):
        self.gates.append((left, right))
        return 2 * (self.inputs + len(self.gates))

    def either(self, left, right):
        return self.both(left ^ 1, right ^ 1) ^ 1

    def xor(self, left, right):
        return self.both(self.both(left, right) ^ 1, self.both(left ^ 1, right ^ 1) ^ 1)

    def text(self, outputs):
        lines = [f"aag {self.inputs + len(self.gates)} {self.inputs} 0 {len(outputs)} {len(self.gates)}"]
        lines += [str(2 * i) for i in range(1, self.inputs + 1)]
        lines += [str(output) for output in outputs]
        for number, (left, right) in enumerate(self.gates, 1):
            lines.append(f"{2 * (self.inputs + number)} {left} {right}")
        return "".join(lines_end(lines))


def majority(output, inputs):
    pairs = [(inputs[0], inputs[1]), (inputs[0], inputs[2]), (inputs[1], inputs[2])]
    return [[-x, -y, output] for x, y in pairs] + [[x, y, -output] for x, y in pairs]


def conjunction(output, inputs):
    return [[x, -output] for x in inputs] + [[-x for x in inputs] + [output]]


def parity(output, inputs):
    """A clause for each row of the table."""
    clauses = []
    for row in range(1 << len(inputs)):
        values = [row >> i & 1 for i in range(len(inputs))]
        row_false = [-variable if value else variable for variable, value in zip(inputs, values)]
        clauses.append(row_false + [output if sum(values) % 2 else -output])
    return clauses


def line(letter, numbers):
    return " ".join([letter] * bool(letter) + [str(number) for number in numbers] + ["0"])


def lines_end(lines):
    return [text + "\n" for text in lines]


def main():
    if len(sys.argv) not in (4, 5) or sys.argv[4:] not in ([], ["blind"]):
        raise SystemExit(__doc__)
    box = AdderBox(int(sys.argv[1]), len(sys.argv) == 5)
    with open(sys.argv[2], "w", encoding="ascii") as file:
        file.write(box.formula())
    with open(sys.argv[3], "w", encoding="ascii") as file:
        file.write(box.circuit())


if __name__ == "__main__":
    main()
