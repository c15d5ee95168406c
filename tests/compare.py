#!/usr/bin/env python3
"""tests/compare.py PROGRAM [COUNT] [SEED] [KINDS]: runs the program and tests/reference.py on random small inputs and
compares what they print, their status and their slips. It stops at the first case that differs, says where, and keeps
its files.

COUNT cases (1000) are made from SEED (1). KINDS is a list of text,records,slip,case,session with commas; all by default.
    text      formulas and circuits, most of them damaged, read from any place into tables of any length
    records   files of records, most of them damaged
    slip      slips, most of them damaged
    case      whole cases of either side: proofs that go through, and damaged ones, on small and large shelves
    session   calls in any order, repeated and wrong
The reference itself is checked too: a verdict of a case has to agree with the formula's truth by brute force.
"""

import collections
import itertools
import os
import random
import re
import subprocess
import sys
import tempfile

import reference
from reference import PREMISE_FALSITY, PREMISE_TRUTH, RESOLVE, SETTLE, Refusal, write_record

FORMULA, CIRCUIT, PROOF, SLIP = "formula.dqdimacs", "circuit.aag", "proof", "slip"
VALUES = 1 << 64


# ---------------------------------------------------------------------------------------------- random texts


class Shape:
    """A random formula: its universals, its existentials with what they depend on, and its clauses."""

    def __init__(self, dice):
        self.universals = dice.randint(0, 3)
        self.existentials = dice.randint(0, 3)
        declared = self.universals + self.existentials
        self.V = max(declared + dice.choice([0, 0, 1]), 1)
        names = dice.sample(range(1, self.V + 1), declared)
        self.a = names[: self.universals]
        self.e = names[self.universals :]
        self.dependencies = [[u for u in self.a if dice.random() < 0.6] for _ in self.e]
        most = dice.choice([2, 4, 8, 14])
        self.clauses = [self.clause(dice) for _ in range(dice.randint(0, most))]

    def clause(self, dice):
        names = self.a + self.e
        chosen = dice.sample(names, min(len(names), dice.choice([0, 1, 1, 2, 2, 2, 3, 3, 4])))
        return [dice.choice([-1, 1]) * name for name in chosen]

    def text(self, dice):
        groups = [["a", *self.a, 0]] if self.a or dice.random() < 0.3 else []
        for name, dependencies in zip(self.e, self.dependencies):
            if dependencies == self.a and dice.random() < 0.7:
                groups.append(["e", name, 0])
            else:
                groups.append(["d", name, *dice.sample(dependencies, len(dependencies)), 0])
        lines = [["p", "cnf", self.V, len(self.clauses)], *groups, *[[*clause, 0] for clause in self.clauses]]
        return laid_out(dice, lines)


def laid_out(dice, lines):
    blank = dice.choice([" ", " ", "  ", "\t"])
    end = dice.choice(["\n", "\n", "\r\n", " "])
    return "".join(blank.join(map(str, line)) + end for line in lines).encode()


def random_circuit(dice, shape):
    """Circuits for a formula, mostly with as many inputs and outputs, and mostly reading what they may."""
    inputs = shape.universals + dice.choice([0] * 12 + [1])
    gates = []
    reaches = [0] + [1 << i for i in range(inputs)]
    for g in range(dice.choice([0, 0, 1, 2, 3, 5])):
        own = 2 * (inputs + g + 1)
        left, right = dice.randrange(own), dice.randrange(own)
        gates.append([own, left, right])
        reaches.append(reaches[left // 2] | reaches[right // 2])
    outputs = [[random_output(dice, shape, k, reaches)] for k in range(shape.existentials + dice.choice([0] * 12 + [1]))]
    wires = inputs + len(gates)
    lines = [["aag", wires, inputs, 0, len(outputs), len(gates)]]
    lines += [[2 * i] for i in range(1, inputs + 1)] + outputs + gates
    return laid_out(dice, lines)


def random_output(dice, shape, k, reaches):
    wires = range(len(reaches))
    if k < shape.existentials and dice.random() < 0.95:
        allowed = sum(1 << shape.a.index(u) for u in shape.dependencies[k])
        wires = [wire for wire in wires if not reaches[wire] & ~allowed]
    return 2 * dice.choice(wires) + dice.randrange(2)


ODD_WORDS = ["0", "1", "-1", "2", "00", "-0", "01", "999999999", "1234567890", "-1234567890", "a", "e", "d", "p", "cnf", "aag"]
ODD_WORDS += ["x", "-", "+1", "65535", "65536", "16384", "16385", "60000", "60001", "4096", "4097", "64", "65", "A", "\0", "\xff", "c"]


def damaged_text(dice, text):
    """A word or a byte of the text changed, dropped, doubled, or the text cut."""
    kind = dice.randrange(6)
    at = dice.randrange(len(text) + 1)
    if kind == 0:
        return text[:at]
    if kind == 1:
        return text[:at] + bytes([dice.randrange(256)]) + text[at + 1 :]
    words = re.findall(rb"\S+", text) or [b"p"]
    i = dice.randrange(len(words))
    if kind == 2:
        words[i] = dice.choice(ODD_WORDS).encode("latin-1")
    elif kind == 3:
        words.pop(i)
    elif kind == 4:
        words.insert(i, words[dice.randrange(len(words))])
    else:
        words[i] = str(dice.randrange(12)).encode()
    return b" ".join(words) + dice.choice([b"", b"\n"])


# ---------------------------------------------------------------------------------------------- random proofs


class Prover:
    """Makes random steps that an examiner accepts, and keeps their records."""

    def __init__(self, dice, side):
        self.dice = dice
        self.examiner = reference.Examiner(side, reference.make_shelf("flat", None, None))
        self.records = []
        self.known = set()

    def run(self, steps):
        self.examiner.open(1)
        for fields in self.premises():
            self.file(self.premise_clause(fields), self.examiner.premise, (self.examiner.side.premise_kind, *fields))
            self.settle_new()
        for _ in range(steps):
            self.resolve_some()
            self.settle_new()
        return b"".join(self.records)

    def premises(self):
        """All premises in any order, some left out now and then."""
        side = self.examiner.side
        if side.premise_kind == PREMISE_FALSITY:
            names = [(j, values) for j in range(1, side.formula.C + 1) for values in range(1 << side.formula.n)]
        else:
            names = [(0, 0, 1)] + [(1, g, part) for g in range(1, side.circuit.A + 1) for part in (1, 2, 3)]
            names += [(2, k, part) for k in range(1, side.formula.E + 1) for part in (1, 2)]
        self.dice.shuffle(names)
        return names[: self.dice.choice([len(names), len(names), len(names) // 2])]

    def premise_clause(self, fields):
        try:
            return self.examiner.side.premise(*fields)
        except reference.NoSuchClause:
            return None

    def file(self, clause, call, fields):
        """Files a clause that is not there, unless the call is refused."""
        if clause is None or frozenset(clause) in self.known:
            return
        try:
            call(*fields)
        except Refusal:
            return
        self.known.add(frozenset(clause))
        kind = (RESOLVE,) if call == self.examiner.resolve else ()
        self.records.append(write_record(*kind, *fields))

    def resolve_some(self):
        clauses = self.examiner.shelf.clauses
        if not clauses:
            return
        first, second = self.dice.randrange(len(clauses)), self.dice.randrange(len(clauses))
        for position, (code, values) in enumerate(clauses[first], 1):
            if (code ^ 1, values) in clauses[second]:
                resolvent = {*clauses[first], *clauses[second]} - {(code, values), (code ^ 1, values)}
                self.file(resolvent, self.examiner.resolve, (first + 1, second + 1, position))
                return

    def settle_new(self):
        """Settles the goals that the last clause is in."""
        clauses = self.examiner.shelf.clauses
        for goal in range(1, self.examiner.side.goal_count + 1):
            if clauses and goal not in self.examiner.settled and set(clauses[-1]) <= set(self.examiner.side.goal(goal)):
                self.examiner.settle(goal, len(clauses))
                self.records.append(write_record(SETTLE, goal, len(clauses)))


def random_proof(dice, side):
    """Records that all are taken; none where the case cannot be opened."""
    try:
        return Prover(dice, side).run(dice.choice([0, 5, 40, 200]))
    except Refusal:
        return b""


def random_record(dice):
    kind = dice.choice([PREMISE_TRUTH, PREMISE_FALSITY, RESOLVE, SETTLE])
    fields = [dice.choice([dice.randrange(4), dice.randrange(1 << 8 * width)]) for width in reference.FIELDS[kind]]
    return write_record(kind, *fields)


def split_records(data):
    records, at = [], 0
    while at < len(data):
        _, used = reference.read_record(data, at)
        records.append(data[at : at + used])
        at += used
    return records


def damaged_proof(dice, data):
    kind = dice.randrange(6)
    at = dice.randrange(len(data)) if data else 0
    if kind == 0:
        return data[:at]
    if kind in (1, 2):
        value = dice.choice([dice.randrange(256), data[at] ^ 1]) if data else 0
        return data[:at] + bytes([value]) + data[at + 1 :]
    records = split_records(data)
    i = dice.randrange(len(records) + 1)
    if kind == 3:
        return b"".join(records[:i] + [random_record(dice)] + records[i:])
    if kind == 4:
        return b"".join(records[:i] + records[i + 1 :])
    return b"".join(records[:i] + records[i - 1 : i] + records[i:])


# ---------------------------------------------------------------------------------------------- random cases
# Each kind answers the program's arguments and its standard input; the files that it names are written first.


def put(name, data):
    with open(name, "wb") as file:
        file.write(data)


def some(dice, option, values, chance=0.3):
    return [option, str(dice.choice(values))] if dice.random() < chance else []


def text_case(dice):
    shape = Shape(dice)
    if dice.random() < 0.5:
        name, text, tables = FORMULA, shape.text(dice), ("--variables", "--clauses", "--literals")
    else:
        name, text, tables = CIRCUIT, random_circuit(dice, shape), ("--outputs", "--gates")
    for _ in range(dice.choice([0, 1, 1, 2])):
        text = damaged_text(dice, text)
    put(name, text)
    arguments = ["formula" if name == FORMULA else "circuit", name, *some(dice, "--at", range(len(text) + 4), 0.2)]
    for table in tables:
        arguments += some(dice, table, range(9))
    return arguments, b""


def records_case(dice):
    data = b"".join(random_record(dice) for _ in range(dice.randrange(6)))
    put(PROOF, damaged_proof(dice, data) if dice.random() < 0.7 else data)
    return ["records", PROOF], b""


def slip_case(dice):
    numbers = [dice.choice([0, 1, 16384, 16385, 1000000, 1000001, (1 << 32) - 1]) for _ in range(3)]
    data = reference.write_slip(dice.randrange(6), *numbers)
    for _ in range(dice.choice([0, 0, 1])):
        at = dice.randrange(len(data))
        data = dice.choice([data[:at], data[:at] + bytes([dice.randrange(256)]) + data[at + 1 :], data + b"\0"])
    put(SLIP, data)
    return ["slip", SLIP], b""


def shelf_options(dice):
    """Either shelf; its rows are long by default, of any small lengths, or such that a proof may just fit."""
    kind = dice.choice(["flat", "linked"])
    arguments = ["--shelf", kind] if kind == "linked" or dice.random() < 0.5 else []
    if dice.random() < 0.6:
        return arguments + some(dice, "--filed", [0, 1, 2, 5, 9, 30]) + some(dice, "--entries", [0, 1, 4, 7, 20, 100])
    clauses = dice.randint(1, 15)
    entries = dice.randint(0, 2 * clauses) + (3 * clauses if kind == "linked" else 0)
    return [*arguments, "--filed", str(clauses), "--entries", str(entries)]


def random_side(dice, truth):
    """A side with its files written; its texts are damaged now and then, and there is then no side."""
    shape = Shape(dice)
    texts = [shape.text(dice), random_circuit(dice, shape)]
    try:
        formula = reference.read_formula(texts[0])
        side = reference.TruthSide(formula, reference.read_circuit(texts[1])) if truth else reference.FalsitySide(formula)
    except Refusal:
        side = None
    if dice.random() < 0.1:
        i = dice.randrange(2)
        texts[i] = damaged_text(dice, texts[i])
    put(FORMULA, texts[0])
    put(CIRCUIT, texts[1])
    return side


def whole_case(dice):
    truth = dice.random() < 0.5
    side = random_side(dice, truth)
    proof = random_proof(dice, side) if side else b""
    for _ in range(dice.choice([0, 0, 1, 2])):
        try:
            proof = damaged_proof(dice, proof)
        except Refusal:
            pass
    put(PROOF, proof)
    if os.path.exists(SLIP):
        os.unlink(SLIP)
    files = [FORMULA, CIRCUIT, PROOF] if truth else [FORMULA, PROOF]
    arguments = ["true" if truth else "false", *files, *some(dice, "--case", [0, 1, 7, (1 << 32) - 1])]
    return arguments + some(dice, "--slip", [SLIP], 0.8) + shelf_options(dice), b""


NO_CALLS = ["", "what", "open", "open x", "open -1", "open 4294967296", "premise", "premise truth 1 1", "premise falsity 1 0"]
NO_CALLS += ["premise truth 256 1 1", "resolve 1 1 65536", "settle 1", "settle 65536 1", "take", "take 0", "take xx", "close", "show", "shelf 1"]
NO_CALLS += ["open 7 7", "premise truth 1 1 1 1", "premise falsity 1 0000000000000000 1", "resolve 1 1 1 1", "settle 1 1 1", "take 00 00"]
NO_CALLS += ["close 7 7", "show 1 1", "premise other 1 1 1", "a b c d e f g h"]


def random_call(dice, examiner):
    """A line of a session; the clauses and goals that it names are mostly there."""
    clauses = len(examiner.shelf.clauses)
    clause = dice.choice([dice.randint(0, clauses + 1), dice.randint(1, max(clauses, 1))])
    other = dice.randint(1, max(clauses, 1))
    goal = dice.randint(0, examiner.side.goal_count + 1)
    if examiner.settled and dice.random() < 0.3:
        goal = dice.choice(sorted(examiner.settled))
    ticket = dice.choice([0, 1, 7, 7, 7, examiner.case if examiner.case is not None else (1 << 32) - 1])
    calls = [
        (1, lambda: f"open {ticket}"),
        (8, lambda: random_premise(dice, examiner)),
        (8, lambda: f"resolve {clause} {other} {dice.randint(0, 3)}"),
        (5, lambda: likely_resolve(dice, examiner)),
        (5, lambda: f"settle {goal} {clause}"),
        (3, lambda: f"take {random_record(dice).hex()}"),
        (2, lambda: f"take {write_record(SETTLE, goal, clause).hex()}00"),
        (2, lambda: f"take {damaged_proof(dice, random_record(dice)).hex() or '00'}"),
        (1, lambda: f"close {ticket}"),
        (4, lambda: f"show {clause}"),
        (2, lambda: "shelf"),
        (1, lambda: dice.choice(NO_CALLS)),
    ]
    (chosen,) = dice.choices([call for _, call in calls], [weight for weight, _ in calls])
    return chosen()


def random_premise(dice, examiner):
    formula = examiner.side.formula
    if (examiner.side.premise_kind == PREMISE_FALSITY) == (dice.random() < 0.9):
        values = dice.choice([dice.randrange(1 << formula.n), dice.randrange(1 << formula.n), dice.randrange(VALUES)])
        return f"premise falsity {dice.randint(0, formula.C + 1)} {values:016x}"
    return f"premise truth {dice.choice([0, 1, 1, 2, 2, 2, 3])} {dice.randint(0, 4)} {dice.randint(0, 4)}"


def likely_resolve(dice, examiner):
    """A resolution that has its pivot, where one is found soon."""
    clauses = examiner.shelf.clauses
    for _ in range(20 if clauses else 0):
        first, second = dice.randrange(len(clauses)), dice.randrange(len(clauses))
        for position, (code, values) in enumerate(clauses[first], 1):
            if (code ^ 1, values) in clauses[second]:
                return f"resolve {first + 1} {second + 1} {position}"
    return "resolve 1 1 1"


def session_case(dice):
    truth = dice.random() < 0.5
    side = random_side(dice, truth) or reference.FalsitySide(reference.read_formula(b"p cnf 1 0"))
    arguments = ["session", *([FORMULA, CIRCUIT] if truth else [FORMULA]), *shelf_options(dice)]
    examiner = reference.Examiner(side, reference.make_shelf("flat", None, None))
    session = reference.Session(examiner, lambda line: None)
    lines = ["open 7"] if dice.random() < 0.7 else []
    for line in lines:
        session.answer(line)
    for _ in range(dice.choice([5, 30, 80])):
        lines.append(random_call(dice, examiner))
        session.answer(lines[-1])
    return arguments, "\n".join(lines).encode() + dice.choice([b"\n", b""])


KINDS = {"text": text_case, "records": records_case, "slip": slip_case, "case": whole_case, "session": session_case}


# ---------------------------------------------------------------------------------------------- truth by brute force


def circuits_satisfy(formula, circuit):
    """Whether every clause is true for every assignment, the existentials as the circuits' outputs say."""
    for values in range(1 << formula.n):
        wires = [False] + [bool(values >> i & 1) for i in range(circuit.I)]
        for left, right in circuit.gates:
            wires.append(all(wires[literal // 2] != literal % 2 for literal in (left, right)))
        outputs = [wires[output // 2] != output % 2 for output in circuit.outputs]
        if not all(clause_true(formula, clause, values, outputs) for clause in formula.clauses):
            return False
    return True


def clause_true(formula, clause, values, outputs):
    for variable, negative in clause:
        kind, position, _ = formula.variables[variable]
        value = bool(values >> (position - 1) & 1) if kind == reference.UNIVERSAL else outputs[position - 1]
        if value != negative:
            return True
    return False


MOST_POINTS = 16


def has_model(formula):
    """Whether some functions satisfy the formula; none where there are too many to try."""
    words = [formula.dependencies(k) for k in range(1, formula.E + 1)]
    points = [(k, seen) for k, word in enumerate(words) for seen in sorted({values & word for values in range(1 << formula.n)})]
    if len(points) > MOST_POINTS:
        return None
    for choice in itertools.product([False, True], repeat=len(points)):
        function = dict(zip(points, choice))
        if model_fits(formula, words, function):
            return True
    return False


def model_fits(formula, words, function):
    for values in range(1 << formula.n):
        outputs = [function[k, values & word] for k, word in enumerate(words)]
        if not all(clause_true(formula, clause, values, outputs) for clause in formula.clauses):
            return False
    return True


def check_meaning(arguments, lines):
    """A verdict of the reference has to be right."""
    if lines[-1] not in ("True", "False"):
        return
    formula = reference.read_formula(reference.read_file(FORMULA))
    if lines[-1] == "True":
        right = circuits_satisfy(formula, reference.read_circuit(reference.read_file(CIRCUIT)))
    else:
        right = has_model(formula) is not True
    if not right:
        raise SystemExit(f"compare: the reference's verdict is wrong: {' '.join(arguments)} in {os.getcwd()}")


# ---------------------------------------------------------------------------------------------- comparing


def taken_slip():
    """The slip that was written, which is then removed."""
    if not os.path.exists(SLIP):
        return b""
    data = reference.read_file(SLIP)
    os.unlink(SLIP)
    return data


def plain(line):
    """What a usage line says is free."""
    return "usage:" if line.startswith("usage:") else line


def by_reference(arguments, calls):
    lines = []
    status = reference.run(arguments, lambda: calls, lines.append, lambda message: None)
    return [plain(line) for line in lines], status


def by_program(program, arguments, calls):
    done = subprocess.run([program, *arguments], input=calls, stdout=subprocess.PIPE, stderr=subprocess.PIPE, check=False)
    lines = done.stdout.decode("latin-1").split("\n")
    return [plain(line) for line in (lines[:-1] if lines[-1] == "" else lines)], done.returncode


def first_difference(expected, printed):
    for number, pair in enumerate(itertools.zip_longest(expected, printed), 1):
        if pair[0] != pair[1]:
            return f"line {number}\n  reference: {pair[0]}\n  program:   {pair[1]}"
    return None


def compare(program, arguments, calls, writes_slip):
    """What differs, or none; and the reference's lines."""
    expected, expected_status = by_reference(arguments, calls)
    expected_slip = taken_slip() if writes_slip else b""
    printed, status = by_program(program, arguments, calls)
    slip = taken_slip() if writes_slip else b""
    difference = first_difference(expected, printed)
    if difference is None and status != expected_status:
        difference = f"status {status}, by the reference {expected_status}"
    if difference is None and slip != expected_slip:
        difference = f"slip {slip.hex()}, by the reference {expected_slip.hex()}"
    return difference, expected


def outcomes(lines):
    """The verdicts and causes that a case has met."""
    for line in lines:
        if line.startswith("refused: cause "):
            yield "cause " + line.split()[2].rstrip(",")
        elif line in ("True", "False", "Unproved"):
            yield line


def run_cases(program, count, seed, kinds):
    met = collections.Counter()
    for number in range(1, count + 1):
        dice = random.Random(f"{seed} {number}")
        kind = dice.choice(kinds)
        arguments, calls = KINDS[kind](dice)
        difference, lines = compare(program, arguments, calls, kind == "case")
        if kind == "case":
            check_meaning(arguments, lines or [""])
        met.update(set(outcomes(lines)))
        if difference:
            put("calls", calls)
            print(f"compare: case {number} of seed {seed} ({kind}) differs: {' '.join(arguments)}")
            print(f"{difference}\nits files are in {os.getcwd()}")
            return 1
    seen = ", ".join(f"{name}: {met[name]}" for name in sorted(met, key=lambda name: (len(name), name)))
    print(f"compare: {count} cases of seed {seed} agree ({seen})")
    return 0


def main():
    if not 2 <= len(sys.argv) <= 5:
        raise SystemExit(__doc__)
    program = os.path.realpath(sys.argv[1])
    count, seed = (int(word) for word in (sys.argv[2:4] + ["1000", "1"][len(sys.argv[2:4]) :]))
    kinds = sys.argv[4].split(",") if len(sys.argv) == 5 else list(KINDS)
    if not set(kinds) <= set(KINDS):
        raise SystemExit(__doc__)
    folder = tempfile.mkdtemp(prefix="compare-")
    os.chdir(folder)
    status = run_cases(program, count, seed, kinds)
    if status == 0:
        os.chdir("/")
        subprocess.run(["rm", "-r", folder], check=True)
    return status


if __name__ == "__main__":
    sys.exit(main())
