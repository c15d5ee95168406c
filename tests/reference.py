#!/usr/bin/env python3
"""A second implementation of the checker, in plain Python and independent of the proved one.

It has the program's command line and prints the same lines, so that both can be run on the same input and their
output compared byte for byte. It is written from docs/FORMATS.md and docs/CAUSES.md and is neither proved nor fast.

    tests/reference.py true FORMULA CIRCUIT PROOF [--case N] [--slip FILE] [--shelf flat|linked] [--filed K] [--entries W]
    tests/reference.py false FORMULA PROOF [the same options]
    tests/reference.py session FORMULA [CIRCUIT] [--shelf flat|linked] [--filed K] [--entries W] < CALLS
    tests/reference.py formula|circuit|records|slip FILE [options]
"""

import os
import re
import sys

TEXT_LIMIT = 16_777_216
CLAUSE_LIMIT = 1_024
SHELF_CLAUSES = 1_000_000
SHELF_ENTRIES = 16_000_000

# What is printed in the brackets of a refusal.
MEANINGS = {
    1: "the text has more than 16777216 bytes",
    2: "a word of this form may not stand here",
    3: "the number has more than nine digits",
    4: "the text ends too early",
    5: "a limit of formulas is broken",
    6: "no variable, or none of the kind that is due",
    7: "the variable stands twice",
    8: "a table is too short",
    9: "a count breaks a limit, or M is not I + A",
    10: "not the literal that is due, or too large",
    11: "a case is open",
    12: "no accepted text leaves these tables",
    13: "the circuit's inputs or outputs are not the formula's",
    14: "an output reads an input that it may not",
    15: "no case is open",
    16: "it names what does not exist",
    17: "a universal literal of the clause is true",
    18: "the second clause lacks the complement",
    19: "the clause would hold a literal and its complement",
    20: "the clause would have more than 1024 literals",
    21: "the shelf is full",
    22: "a literal is not in the goal",
    23: "the goal is settled",
    24: "the record is malformed",
    25: "a premise of the other side",
    26: "the slip is malformed",
}

# The layer that tells a cause; cause 8 is told by the formula's or the circuit's reader, which say so themselves.
LAYERS = {1: 1, 2: 1, 3: 1, 4: 1, 5: 2, 6: 2, 7: 2, 9: 3, 10: 3, 21: 5, 24: 6, 25: 6, 26: 7}
CASE_LAYER = 4


class Refusal(Exception):
    def __init__(self, cause, place, layer=None):
        super().__init__(cause, place)
        self.cause = cause
        self.place = place
        self.layer = LAYERS.get(cause, CASE_LAYER) if layer is None else layer

    def line(self):
        words = MEANINGS[self.cause]
        return f"refused: cause {self.cause}, place {self.place}, layer {self.layer} ({words})"


class Usage(Exception):
    """Bad usage, or a file that cannot be read or written; the message goes to standard error."""


# ---------------------------------------------------------------------------------------------- words of a text

WORD = re.compile(rb"[^ \t\r\n]+")
NUMBER = re.compile(rb"(?:0|[1-9][0-9]{0,8})\Z")
LONG_NUMBER = re.compile(rb"[1-9][0-9]{9,}\Z")


class Words:
    """The words of a text from a place on, one after the other."""

    def __init__(self, text, place):
        if len(text) > TEXT_LIMIT:
            raise Refusal(1, 0)
        self.text = text
        self.end = place

    def peek(self):
        """The next word and its place, or none."""
        found = WORD.search(self.text, self.end) if self.end < len(self.text) else None
        return (found.group(), found.start()) if found else None

    def next(self):
        found = self.peek()
        if found is None:
            raise Refusal(4, len(self.text))
        word, start = found
        self.end = start + len(word)
        return word, start

    def name(self, due):
        word, start = self.next()
        if word != due:
            raise Refusal(2, start)

    def number(self):
        word, start = self.next()
        return number_in(word, start), start

    def literal(self):
        """A variable, whether it is negative, and the place."""
        word, start = self.next()
        if not word.startswith(b"-"):
            return number_in(word, start), False, start
        if word == b"-0":
            raise Refusal(2, start)
        return number_in(word[1:], start), True, start


def number_in(word, start):
    if NUMBER.match(word):
        return int(word)
    raise Refusal(3 if LONG_NUMBER.match(word) else 2, start)


# ---------------------------------------------------------------------------------------------- formulas

UNIVERSAL, EXISTENTIAL = 1, 2
ALL_VARIABLES, ALL_CLAUSES, ALL_LITERALS = 65_535, 16_384, 16_777_216
MOST_UNIVERSALS, MOST_EXISTENTIALS = 64, 4_096


class Formula:
    """V, and the declared variables as [kind, position, dependency word]; clauses as lists of (variable, negative)."""

    def __init__(self):
        self.V = 0
        self.C = 0
        self.n = 0
        self.E = 0
        self.variables = {}
        self.existentials = []  # the variable at each position
        self.clauses = []
        self.place = 0

    def dependencies(self, k):
        return self.variables[self.existentials[k - 1]][2]


class FormulaReader:
    def __init__(self, text, place, variable_room, clause_room, literal_room):
        self.words = Words(text, place)
        self.formula = Formula()
        self.variable_room = variable_room
        self.clause_room = clause_room
        self.literal_room = literal_room

    def read(self):
        formula = self.formula
        self.words.name(b"p")
        self.words.name(b"cnf")
        formula.V = self.count(1, ALL_VARIABLES, self.variable_room)
        formula.C = self.count(0, ALL_CLAUSES, self.clause_room)
        while self.group():
            pass
        for _ in range(formula.C):
            formula.clauses.append(self.clause())
        formula.place = self.words.end
        return formula

    def count(self, least, most, room):
        value, start = self.words.number()
        if not least <= value <= most:
            raise Refusal(5, start)
        if value > room:
            raise Refusal(8, start, 2)
        return value

    def group(self):
        """Reads a group, or answers that none begins here."""
        found = self.words.peek()
        if found is None or found[0] not in (b"a", b"e", b"d"):
            return False
        letter, _ = self.words.next()
        if letter == b"a":
            self.listed(self.universal)
        elif letter == b"e":
            self.listed(self.full_existential)
        else:
            self.dependent()
        return True

    def listed(self, declare):
        while True:
            variable, start = self.words.number()
            if variable == 0:
                return
            declare(variable, start)

    def universal(self, variable, start):
        if self.formula.n >= MOST_UNIVERSALS:
            raise Refusal(5, start)
        self.check_new(variable, start)
        self.formula.n += 1
        self.formula.variables[variable] = [UNIVERSAL, self.formula.n, 0]

    def full_existential(self, variable, start):
        self.existential(variable, start, (1 << self.formula.n) - 1)

    def existential(self, variable, start, word):
        if self.formula.E >= MOST_EXISTENTIALS:
            raise Refusal(5, start)
        self.check_new(variable, start)
        self.formula.E += 1
        self.formula.existentials.append(variable)
        self.formula.variables[variable] = [EXISTENTIAL, self.formula.E, word]

    def check_new(self, variable, start):
        if not 1 <= variable <= self.formula.V:
            raise Refusal(6, start)
        if variable in self.formula.variables:
            raise Refusal(7, start)

    def dependent(self):
        variable, start = self.words.number()
        self.existential(variable, start, 0)
        record = self.formula.variables[variable]
        while True:
            universal, start = self.words.number()
            if universal == 0:
                return
            kind, position, _ = self.formula.variables.get(universal, (0, 0, 0))
            if kind != UNIVERSAL:
                raise Refusal(6, start)
            bit = 1 << (position - 1)
            if record[2] & bit:
                raise Refusal(7, start)
            record[2] |= bit

    def clause(self):
        clause = []
        named = set()
        while True:
            variable, negative, start = self.words.literal()
            if variable == 0:
                return clause
            if len(clause) >= CLAUSE_LIMIT:
                raise Refusal(5, start)
            if variable not in self.formula.variables:
                raise Refusal(6, start)
            if variable in named:
                raise Refusal(7, start)
            if self.literal_room == 0:
                raise Refusal(8, start, 2)
            self.literal_room -= 1
            named.add(variable)
            clause.append((variable, negative))


def read_formula(text, place=0, variables=ALL_VARIABLES, clauses=ALL_CLAUSES, literals=ALL_LITERALS):
    return FormulaReader(text, place, variables, clauses, literals).read()


# ---------------------------------------------------------------------------------------------- circuits

MOST_WIRES, MOST_INPUTS, MOST_OUTPUTS = 60_000, 64, 4_096


class Circuit:
    """M, I, O, A; the output literals; each gate's two right literals; each wire's reach, wire 0 first."""

    def __init__(self, wires, inputs, outputs, gates, place):
        self.M = wires
        self.I = inputs
        self.O = len(outputs)
        self.A = len(gates)
        self.outputs = outputs
        self.gates = gates
        self.place = place
        self.reaches = [0] + [1 << i for i in range(inputs)]
        for left, right in gates:
            self.reaches.append(self.reaches[left // 2] | self.reaches[right // 2])

    def output_reach(self, k):
        return self.reaches[self.outputs[k - 1] // 2]


def read_circuit(text, place=0, output_room=MOST_OUTPUTS, gate_room=MOST_WIRES):
    words = Words(text, place)
    words.name(b"aag")
    wires = circuit_count(words, lambda m: m <= MOST_WIRES)
    inputs = circuit_count(words, lambda i: i <= MOST_INPUTS)
    circuit_count(words, lambda latches: latches == 0)
    output_count = circuit_count(words, lambda o: o <= MOST_OUTPUTS, output_room)
    gate_count = circuit_count(words, lambda a: wires == inputs + a, gate_room)
    for i in range(1, inputs + 1):
        circuit_literal(words, lambda literal: literal == 2 * i)
    outputs = [circuit_literal(words, lambda literal: literal <= 2 * wires + 1) for _ in range(output_count)]
    gates = [read_gate(words, 2 * (inputs + g)) for g in range(1, gate_count + 1)]
    return Circuit(wires, inputs, outputs, gates, words.end)


def circuit_count(words, fits, room=None):
    value, start = words.number()
    if room is not None and value > room:
        raise Refusal(8, start, 3)
    if not fits(value):
        raise Refusal(9, start)
    return value


def circuit_literal(words, fits):
    value, start = words.number()
    if not fits(value):
        raise Refusal(10, start)
    return value


def read_gate(words, own):
    circuit_literal(words, lambda literal: literal == own)
    left = circuit_literal(words, lambda literal: literal < own)
    right = circuit_literal(words, lambda literal: literal < own)
    return left, right


# ---------------------------------------------------------------------------------------------- records and slips

PREMISE_TRUTH, PREMISE_FALSITY, RESOLVE, SETTLE = 1, 2, 3, 4
# The widths in bytes of the fields of each kind of record.
FIELDS = {PREMISE_TRUTH: (1, 2, 1), PREMISE_FALSITY: (2, 8), RESOLVE: (4, 4, 2), SETTLE: (2, 4)}
TRUE, FALSE, UNPROVED, STRAY = 1, 2, 3, 4
VERDICTS = {TRUE: "True", FALSE: "False", UNPROVED: "Unproved", STRAY: "Stray"}


def write_record(kind, *fields):
    body = b"".join(value.to_bytes(width, "big") for value, width in zip(fields, FIELDS[kind]))
    return (2 + len(body)).to_bytes(2, "big") + bytes([1, kind]) + body


def read_record(data, at=0):
    """The step (kind, field, ...) of the record at a byte, and the bytes that it has."""
    head = data[at : at + 4]
    if len(head) < 4 or head[2] != 1 or head[3] not in FIELDS:
        raise Refusal(24, 0)
    widths = FIELDS[head[3]]
    used = 4 + sum(widths)
    if int.from_bytes(head[:2], "big") != used - 2 or len(data) - at < used:
        raise Refusal(24, 0)
    step = [head[3]]
    at += 4
    for width in widths:
        step.append(int.from_bytes(data[at : at + width], "big"))
        at += width
    return tuple(step), used


def write_slip(verdict, case, clauses, goal):
    numbers = b"".join(value.to_bytes(4, "big") for value in (case, clauses, goal))
    return bytes([0, 14, 1, verdict]) + numbers


def read_slip(data):
    if len(data) < 16 or data[:3] != bytes([0, 14, 1]):
        raise Refusal(26, 0)
    verdict = data[3]
    case, clauses, goal = (int.from_bytes(data[i : i + 4], "big") for i in (4, 8, 12))
    goal_fits = 1 <= goal <= ALL_CLAUSES if verdict == UNPROVED else goal == 0
    clauses_fit = clauses <= (0 if verdict == STRAY else SHELF_CLAUSES)
    if verdict not in VERDICTS or not goal_fits or not clauses_fit:
        raise Refusal(26, 0)
    return verdict, case, clauses, goal


# ---------------------------------------------------------------------------------------------- the two sides
# A literal is a pair (code, values); its complement has the code with the lowest bit flipped.


class NoSuchClause(Exception):
    """Why a premise has no clause: its cause."""

    def __init__(self, cause):
        super().__init__(cause)
        self.cause = cause


def complement(literal):
    return literal[0] ^ 1, literal[1]


class TruthSide:
    verdict = TRUE
    premise_kind = PREMISE_TRUTH

    def __init__(self, formula, circuit):
        self.formula = formula
        self.circuit = circuit
        self.goal_count = formula.C

    def open(self):
        formula, circuit = self.formula, self.circuit
        if circuit.I != formula.n or circuit.O != formula.E:
            raise Refusal(13, 0)
        for k in range(1, formula.E + 1):
            if circuit.output_reach(k) & ~formula.dependencies(k):
                raise Refusal(14, k)

    def premise(self, class_, number, part):
        if class_ == 0 and number == 0:
            parts = [[1]]
        elif class_ == 1 and 1 <= number <= self.circuit.A:
            parts = self.gate_clauses(number)
        elif class_ == 2 and 1 <= number <= self.formula.E:
            parts = self.output_clauses(number)
        else:
            parts = []
        if not 1 <= part <= len(parts):
            raise NoSuchClause(16)
        return [(code, 0) for code in parts[part - 1]]

    def gate_clauses(self, g):
        a = 2 * (self.circuit.I + g)
        r, s = self.circuit.gates[g - 1]
        return [[a ^ 1, r], [a ^ 1, s], [a, r ^ 1, s ^ 1]]

    def output_clauses(self, k):
        e = 2 * (self.circuit.M + k)
        o = self.circuit.outputs[k - 1]
        return [[e ^ 1, o], [e, o ^ 1]]

    def goal(self, j):
        return [(self.code(variable) + negative, 0) for variable, negative in self.formula.clauses[j - 1]]

    def code(self, variable):
        kind, position, _ = self.formula.variables[variable]
        return 2 * position if kind == UNIVERSAL else 2 * (self.circuit.M + position)


class FalsitySide:
    verdict = FALSE
    premise_kind = PREMISE_FALSITY
    goal_count = 1

    def __init__(self, formula):
        self.formula = formula

    def open(self):
        pass

    def premise(self, clause, values):
        if not 1 <= clause <= self.formula.C or values >> self.formula.n:
            raise NoSuchClause(16)
        literals = []
        for variable, negative in self.formula.clauses[clause - 1]:
            kind, position, dependencies = self.formula.variables[variable]
            if kind == EXISTENTIAL:
                literals.append((2 * position + negative, values & dependencies))
            elif bool(values >> (position - 1) & 1) != negative:
                raise NoSuchClause(17)
        return literals

    def goal(self, _):
        return []


# ---------------------------------------------------------------------------------------------- shelves


class Shelf:
    """A list of clauses, at most K of them with at most W entries in all."""

    def __init__(self, most_clauses, most_entries):
        self.K = most_clauses
        self.W = most_entries
        self.clear()

    def clear(self):
        self.clauses = []
        self.entries = 0

    def file(self, clause):
        """Whether the clause was filed."""
        if len(self.clauses) >= self.K or self.entries + len(clause) > self.W:
            return False
        self.clauses.append(clause)
        self.entries += len(clause)
        return True


def flat_shelf(index_row, entry_row):
    return Shelf(min(index_row, SHELF_CLAUSES), min(entry_row, SHELF_ENTRIES))


def linked_shelf(index_row, entry_row):
    """Blocks of four entries in the entry row; each clause may leave three entries of its last block unused."""
    most_clauses = min(index_row, SHELF_CLAUSES)
    blocks = entry_row // 4
    return Shelf(most_clauses, min(max(4 * blocks - 3 * most_clauses, 0), SHELF_ENTRIES))


def make_shelf(kind, index_row, entry_row):
    """A shelf over rows of these lengths, by default long enough for its limits."""
    index_row = SHELF_CLAUSES if index_row is None else index_row
    if kind == "flat":
        return flat_shelf(index_row, SHELF_ENTRIES if entry_row is None else entry_row)
    widest = SHELF_ENTRIES + 3 * min(index_row, SHELF_CLAUSES)
    return linked_shelf(index_row, -(-widest // 4) * 4 if entry_row is None else entry_row)


# ---------------------------------------------------------------------------------------------- the examiner


class Examiner:
    def __init__(self, side, shelf):
        self.side = side
        self.shelf = shelf
        self.case = None
        self.settled = set()

    def here(self, cause):
        return Refusal(cause, len(self.shelf.clauses))

    def open(self, number):
        if self.case is not None:
            raise Refusal(11, 0)
        self.side.open()
        self.case = number
        self.shelf.clear()
        self.settled = set()
        return number

    def check_open(self):
        if self.case is None:
            raise self.here(15)

    def premise(self, kind, *fields):
        if kind != self.side.premise_kind:
            raise Refusal(25, 0)
        self.check_open()
        try:
            literals = self.side.premise(*fields)
        except NoSuchClause as no:
            raise self.here(no.cause) from None
        return self.file(self.joined([], literals))

    def clause(self, number):
        if not 1 <= number <= len(self.shelf.clauses):
            raise self.here(16)
        return self.shelf.clauses[number - 1]

    def resolve(self, first, second, position):
        self.check_open()
        left, right = self.clause(first), self.clause(second)
        if not 1 <= position <= len(left):
            raise self.here(16)
        pivot = complement(left[position - 1])
        if pivot not in right:
            raise self.here(18)
        rest = left[: position - 1] + left[position:]
        return self.file(self.joined(rest, [literal for literal in right if literal != pivot]))

    def joined(self, clause, literals):
        """The clause with these literals behind it, each kept once."""
        joined = list(clause)
        present = set(clause)
        for literal in literals:
            if complement(literal) in present:
                raise self.here(19)
            if literal not in present:
                present.add(literal)
                joined.append(literal)
        if len(joined) > CLAUSE_LIMIT:
            raise self.here(20)
        return joined

    def file(self, clause):
        if not self.shelf.file(clause):
            raise self.here(21)
        return len(self.shelf.clauses)

    def settle(self, goal, number):
        self.check_open()
        if not 1 <= goal <= self.side.goal_count:
            raise self.here(16)
        clause = self.clause(number)
        if not set(clause) <= set(self.side.goal(goal)):
            raise self.here(22)
        if goal in self.settled:
            raise self.here(23)
        self.settled.add(goal)
        return 0

    def take(self, data, at=0):
        """Does the call of the record at a byte; answers its result, whether it settled, and the bytes used."""
        step, used = read_record(data, at)
        if step[0] == RESOLVE:
            return self.resolve(*step[1:]), False, used
        if step[0] == SETTLE:
            return self.settle(*step[1:]), True, used
        return self.premise(*step), False, used

    def close(self, number):
        """The slip's verdict, case, clauses and lowest open goal."""
        if self.case is None or self.case != number:
            return STRAY, number, 0, 0
        self.case = None
        goal = self.lowest_open()
        return (UNPROVED if goal else self.side.verdict), number, len(self.shelf.clauses), goal

    def lowest_open(self):
        for goal in range(1, self.side.goal_count + 1):
            if goal not in self.settled:
                return goal
        return 0


# ---------------------------------------------------------------------------------------------- arguments and files


class Arguments:
    """Files and options; an option begins with `--` and takes the next word as its value."""

    def __init__(self, words, known):
        self.files = []
        self.options = {}
        words = list(words)
        while words:
            word = words.pop(0)
            if not word.startswith("--"):
                self.files.append(word)
                continue
            if word not in known:
                raise Usage("an option that this command does not have")
            if not words:
                raise Usage("the last option has no value")
            self.options[word] = words.pop(0)

    def number(self, option, default, limit=1 << 64):
        value = plain_number(self.options[option], limit) if option in self.options else default
        if option in self.options and value is None:
            raise Usage(f"{option} takes a number")
        return value

    def shelf(self, most_clauses=None):
        """The shelf of the options; where none says how many clauses it takes, it takes so many."""
        kind = self.options.get("--shelf", "flat")
        if kind not in ("flat", "linked"):
            raise Usage("--shelf takes flat or linked")
        return make_shelf(kind, self.number("--filed", most_clauses), self.number("--entries", None))


def plain_number(word, limit):
    """The number that a word of digits is, or none where it is no number below the limit."""
    if not re.fullmatch("[0-9]+", word) or int(word) >= limit:
        return None
    return int(word)


def read_file(name):
    try:
        with open(name, "rb") as file:
            return file.read()
    except OSError as error:
        raise Usage(f"{name}: {error.strerror}") from None


def write_file(name, data):
    """Writes a file through a temporary one, so that no part of it is ever seen."""
    temporary = name + ".new"
    try:
        with open(temporary, "wb") as file:
            file.write(data)
        os.replace(temporary, name)
    except OSError as error:
        raise Usage(f"{name}: {error.strerror}") from None


# ---------------------------------------------------------------------------------------------- commands
# Each gets its words, standard input and a function that prints a line; it answers whether the status is 0.

SHELF_OPTIONS = ("--shelf", "--filed", "--entries")
CASE_OPTIONS = ("--case", "--slip") + SHELF_OPTIONS


def formula_head(formula):
    return f"V {formula.V}, C {formula.C}, n {formula.n}, E {formula.E}"


def circuit_head(circuit):
    return f"M {circuit.M}, I {circuit.I}, O {circuit.O}, A {circuit.A}"


def only_file(arguments):
    if len(arguments.files) != 1:
        raise Usage("this command takes one file")
    return read_file(arguments.files[0])


def formula_command(words, _, say):
    arguments = Arguments(words, ("--at", "--variables", "--clauses", "--literals"))
    text = only_file(arguments)
    formula = read_formula(
        text,
        arguments.number("--at", 0),
        arguments.number("--variables", ALL_VARIABLES),
        arguments.number("--clauses", ALL_CLAUSES),
        arguments.number("--literals", len(text) // 2),
    )
    say(f"accepted, place {formula.place}")
    say(formula_head(formula))
    for variable in range(1, formula.V + 1):
        say(f"variable {variable}: {variable_words(formula, variable)}")
    first = 0
    for number, clause in enumerate(formula.clauses, 1):
        literals = "".join(f" {'-' if negative else ''}{variable}" for variable, negative in clause)
        say(f"clause {number}: first {first}, length {len(clause)}:{literals}")
        first += len(clause)
    return True


def variable_words(formula, variable):
    if variable not in formula.variables:
        return "undeclared"
    kind, position, word = formula.variables[variable]
    if kind == UNIVERSAL:
        return f"universal {position}"
    return f"existential {position}, dependencies {word:016x}"


def circuit_command(words, _, say):
    arguments = Arguments(words, ("--at", "--outputs", "--gates"))
    text = only_file(arguments)
    circuit = read_circuit(
        text,
        arguments.number("--at", 0),
        arguments.number("--outputs", MOST_OUTPUTS),
        arguments.number("--gates", MOST_WIRES),
    )
    say(f"accepted, place {circuit.place}")
    say(circuit_head(circuit))
    for k, literal in enumerate(circuit.outputs, 1):
        say(f"output {k}: {literal}, reach {circuit.output_reach(k):016x}")
    for g, (left, right) in enumerate(circuit.gates, 1):
        say(f"gate {g}: {left} {right}, reach {circuit.reaches[circuit.I + g]:016x}")
    return True


def step_words(step):
    kind, *fields = step
    if kind == PREMISE_TRUTH:
        return "truth premise, class {}, number {}, part {}".format(*fields)
    if kind == PREMISE_FALSITY:
        return "falsity premise, clause {}, values {:016x}".format(*fields)
    if kind == RESOLVE:
        return "resolve {}, {}, position {}".format(*fields)
    return "settle goal {}, clause {}".format(*fields)


def records_command(words, _, say):
    data = only_file(Arguments(words, ()))
    at, count = 0, 0
    while at < len(data):
        count += 1
        try:
            step, used = read_record(data, at)
        except Refusal:
            say(f"record {count}, at byte {at}")
            raise
        say(f"record {count}, {used} bytes: {step_words(step)}")
        at += used
    say(f"{count} records, {at} bytes")
    return True


def slip_command(words, _, say):
    verdict, case, clauses, goal = read_slip(only_file(Arguments(words, ())))
    say(f"{VERDICTS[verdict]}, case {case}, clauses {clauses}, open goal {goal}")
    return verdict in (TRUE, FALSE)


def show_formula(name, text, say):
    """Reads a formula and prints its counts; a refusal follows a line that names the file."""
    try:
        formula = read_formula(text)
    except Refusal:
        say(f"formula {name}: {len(text)} bytes")
        raise
    say(f"formula {name}: {len(text)} bytes, {formula_head(formula)}")
    return formula


def show_circuit(name, text, say):
    try:
        circuit = read_circuit(text)
    except Refusal:
        say(f"circuit {name}: {len(text)} bytes")
        raise
    say(f"circuit {name}: {len(text)} bytes, {circuit_head(circuit)}")
    return circuit


def true_command(words, _, say):
    arguments = Arguments(words, CASE_OPTIONS)
    case, shelf, texts = case_arguments(arguments, 3)
    formula = show_formula(arguments.files[0], texts[0], say)
    circuit = show_circuit(arguments.files[1], texts[1], say)
    return run_case(Examiner(TruthSide(formula, circuit), shelf), case, texts[2], arguments, say)


def false_command(words, _, say):
    arguments = Arguments(words, CASE_OPTIONS)
    case, shelf, texts = case_arguments(arguments, 2)
    formula = show_formula(arguments.files[0], texts[0], say)
    return run_case(Examiner(FalsitySide(formula), shelf), case, texts[1], arguments, say)


def case_arguments(arguments, file_count):
    if len(arguments.files) != file_count:
        raise Usage(f"this command takes {file_count} files")
    case = arguments.number("--case", 1, 1 << 32)
    texts = [read_file(name) for name in arguments.files]
    # a clause takes a record of at least 8 bytes
    return case, arguments.shelf(len(texts[-1]) // 8), texts


def run_case(examiner, case, proof, arguments, say):
    say(f"open: case {case}")
    ticket = examiner.open(case)
    take_all(examiner, proof, say)
    verdict, *fields = examiner.close(ticket)
    slip = write_slip(verdict, *fields)
    say(f"slip {slip.hex()}")
    if "--slip" in arguments.options:
        write_file(arguments.options["--slip"], slip)
    say(VERDICTS[verdict])
    return verdict in (TRUE, FALSE)


def take_all(examiner, proof, say):
    """Takes the records up to the first that is refused, and prints what was taken."""
    at, count = 0, 0
    while at < len(proof):
        try:
            _, _, used = examiner.take(proof, at)
        except Refusal as refusal:
            say(f"record {count + 1}, at byte {at}")
            say(refusal.line())
            break
        at += used
        count += 1
    shelf = examiner.shelf
    goals = f"goals settled {len(examiner.settled)} of {examiner.side.goal_count}"
    say(f"taken: {count} records, {at} bytes; clauses {len(shelf.clauses)}, entries {shelf.entries}; {goals}")


# ---------------------------------------------------------------------------------------------- sessions

CALLS = (
    "usage: open N | premise truth CLASS NUMBER PART | premise falsity CLAUSE VALUES | resolve FIRST SECOND POSITION"
    " | settle GOAL CLAUSE | take BYTES | close N | show N | shelf"
)
BITS8, BITS16, BITS32 = 1 << 8, 1 << 16, 1 << 32


class NoCall(Exception):
    """A line that is no call."""


def session_command(words, standard_input, say):
    arguments = Arguments(words, SHELF_OPTIONS)
    if len(arguments.files) not in (1, 2):
        raise Usage("this command takes a formula and, for the truth side, a circuit")
    shelf = arguments.shelf()
    texts = [read_file(name) for name in arguments.files]
    session = Session(Examiner(session_side(arguments.files, texts, say), shelf), say)
    for line in input_lines(standard_input()):
        session.answer(line)
    session.end()
    return True


def session_side(names, texts, say):
    """The side; a text is named only where it is refused."""
    unsaid = []
    try:
        formula = show_formula(names[0], texts[0], unsaid.append)
        if len(texts) == 1:
            return FalsitySide(formula)
        return TruthSide(formula, show_circuit(names[1], texts[1], unsaid.append))
    except Refusal:
        say(unsaid[-1])
        raise


def input_lines(data):
    lines = data.decode("latin-1").split("\n")
    return lines[:-1] if lines[-1] == "" else lines


class Session:
    def __init__(self, examiner, say):
        self.examiner = examiner
        self.say = say

    def answer(self, line):
        words = re.split("[ \t\r]+", line.strip(" \t\r"))
        calls = {
            "open": self.open,
            "premise": self.premise,
            "resolve": self.resolve,
            "settle": self.settle,
            "take": self.take,
            "close": self.close,
            "show": self.show,
            "shelf": self.shelf,
        }
        try:
            if words[0] not in calls:
                raise NoCall
            self.say(calls[words[0]](words[1:]))
        except NoCall:
            self.say(CALLS)
        except Refusal as refusal:
            self.say(refusal.line())

    def end(self):
        if self.examiner.case is not None:
            self.say(self.close([str(self.examiner.case)]))

    def open(self, words):
        (number,) = numbers(words, BITS32)
        return f"ticket {self.examiner.open(number)}"

    def premise(self, words):
        if words[:1] == ["truth"]:
            premise = (PREMISE_TRUTH, *numbers(words[1:], BITS8, BITS16, BITS8))
        elif words[:1] == ["falsity"] and len(words) == 3:
            premise = (PREMISE_FALSITY, *numbers(words[1:2], BITS16), value_word(words[2]))
        else:
            raise NoCall
        return f"clause {self.examiner.premise(*premise)}"

    def resolve(self, words):
        return f"clause {self.examiner.resolve(*numbers(words, BITS32, BITS32, BITS16))}"

    def settle(self, words):
        self.examiner.settle(*numbers(words, BITS16, BITS32))
        return "settled"

    def take(self, words):
        if len(words) != 1 or not re.fullmatch("(?:[0-9a-fA-F]{2})+", words[0]):
            raise NoCall
        number, settled, used = self.examiner.take(bytes.fromhex(words[0]))
        return f"settled, {used} bytes" if settled else f"clause {number}, {used} bytes"

    def close(self, words):
        (number,) = numbers(words, BITS32)
        return f"slip {write_slip(*self.examiner.close(number)).hex()}"

    def show(self, words):
        (number,) = numbers(words, BITS32)
        clauses = self.examiner.shelf.clauses
        if not 1 <= number <= len(clauses):
            return f"clause {number}: not filed"
        return f"clause {number}:" + "".join(f" {code}:{values:016x}" for code, values in clauses[number - 1])

    def shelf(self, words):
        numbers(words)
        shelf = self.examiner.shelf
        return f"clauses {len(shelf.clauses)}, entries {shelf.entries}, K {shelf.K}, W {shelf.W}"


def numbers(words, *limits):
    """The numbers that these words are, each below its limit."""
    if len(words) != len(limits):
        raise NoCall
    values = [plain_number(word, limit) for word, limit in zip(words, limits)]
    if None in values:
        raise NoCall
    return values


def value_word(word):
    if not re.fullmatch("[0-9a-fA-F]{16}", word):
        raise NoCall
    return int(word, 16)


# ---------------------------------------------------------------------------------------------- the program

COMMANDS = {
    "formula": formula_command,
    "circuit": circuit_command,
    "records": records_command,
    "slip": slip_command,
    "true": true_command,
    "false": false_command,
    "session": session_command,
}


def run(words, standard_input, say, complain):
    """Runs a command; answers its status."""
    if not words or words[0] not in COMMANDS:
        complain(__doc__)
        return 1
    try:
        return 0 if COMMANDS[words[0]](words[1:], standard_input, say) else 1
    except Refusal as refusal:
        say(refusal.line())
        return 1
    except Usage as usage:
        complain(f"jumpweft: {usage}")
        return 1


def main():
    return run(sys.argv[1:], sys.stdin.buffer.read, print, lambda message: print(message, file=sys.stderr))


if __name__ == "__main__":
    sys.exit(main())
