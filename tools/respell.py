#!/usr/bin/env python3
"""Brings the names of definitions and lemmas to one spelling: types and facts in upper camel case, all else in snake case.

Run once at the top of the repository, behind the kit's own script. Names of Rust items, strings, inputs and outputs, names of the
library and names that the check makes (goals, steps and their parts) keep their spelling. Prints the names that would fall together.
"""
import glob
import re
import sys

# names that would fall together with a module's, a Rust type's or a library's name
APART = {
    "Circuit-read": "CircuitWasRead",
    "Formula-read": "FormulaWasRead",
    "Circuit-rows": "RowsOfCircuit",
    "Formula-rows": "RowsOfFormula",
    "bit-and": "bit_of_and",
    "bit-or": "bit_of_or",
}
TOKEN = re.compile(r"[A-Za-zℕ][A-Za-z0-9_'ℕ]*(?:-[A-Za-z0-9_'ℕ]+)+")
LIBRARY = re.compile(r"^\s*(?:pub )?(?:ghost )?use (?:Rattle\.(?:std|core)\b|native\b|lib\b|mathlib\b|Prim\b)[^{\n]*(?:\{([^}]*)\})?", re.M)


def read(path):
    with open(path, encoding="utf-8") as file:
        return file.read()


def uncommented(text):
    return re.sub(r"--.*", "", text)


def respelt(name):
    if name in APART:
        return APART[name]
    parts = [re.sub("getD", "get_or", re.sub("putMid", "put_mid", part)) for part in name.split("-")]
    if name[0].isupper() and name[0] != "ℕ":
        return "".join(part[0].upper() + part[1:] for part in parts)
    return "_".join(parts)


def library_names(texts):
    names = set()
    for text in texts:
        for match in LIBRARY.finditer(text):
            for word in re.findall(r"[^\s{},;]+", match.group(1) or ""):
                names.add(word)
    return names


def main():
    meaning = sorted(glob.glob("crates/*/specs/**/*.antt", recursive=True)) + sorted(glob.glob("crates/*/proofs/*.antt"))
    walks = sorted(set(glob.glob("crates/*/proofs/**/*.antt", recursive=True)) - set(meaning))
    sources = sorted(glob.glob("crates/*/src/**/*.rt", recursive=True))
    texts = {path: read(path) for path in meaning + walks + sources}
    library = library_names(texts.values())
    plain = set()
    own = set()
    for path in meaning:
        body = "\n".join(line for line in uncommented(texts[path]).split("\n") if not re.match(r"\s*(pub )?use ", line))
        own.update(TOKEN.findall(body))
        plain.update(re.findall(r"[A-Za-z][A-Za-z0-9_']*", body))
    own -= library
    # what the check makes: names that a walk declares as a goal, and the parts of the path behind the values it is handed
    made = set()
    for path in walks:
        made.update(re.findall(r"^\s*(?:abbrev )?pub (\S+) : goal\.", texts[path], re.M))
        made.update(re.findall(r"goal\.([^\s(){}\[\],;]+)", texts[path]))
    clash = own & made
    if clash:
        print("kept, as the check makes names of this spelling:", *sorted(clash))
    own -= made
    new = {name: respelt(name) for name in own}
    for name, other in sorted(new.items()):
        if other in plain or other in library:
            print("falls together:", name, other)
        twins = [n for n in new if new[n] == other and n != name]
        if twins:
            print("falls together:", name, *twins)

    def turn(match, line, walk):
        name = match.group(0)
        step = walk and re.search(r"(?<![\w.'])c\.$", line[: match.start()])
        return name if step or name not in new else new[name]

    for path, text in texts.items():
        walk = path in walks
        lines = []
        for line in text.split("\n"):
            if path.endswith(".rt") and (line.lstrip().startswith("//") or '"' in line):
                lines.append(line)
                continue
            lines.append(TOKEN.sub(lambda m: turn(m, line, walk), line))
        out = "\n".join(lines)
        if out != text:
            with open(path, "w", encoding="utf-8") as file:
                file.write(out)


if __name__ == "__main__":
    sys.exit(main())
