#!/usr/bin/env python3
"""Lists places in crates/*/src that may be written in plainer forms of the language, for the page docs/DESIGN-PASS.md.

tools/places.py [-v] [POINT]    counts of each point, or with -v the lines themselves; run it at the top of a checkout.
A line is a place to look at, not a verdict: what each is, and why some stay, says the page.
"""
import collections
import glob
import re
import sys

PATTERNS = {
    1: [
        ("own enums", r"^\s*(pub(\(crate\))? )?enum \w+"),
        ("flags in structs", r"^    (pub(\(crate\))? )?\w+: bool,$"),
        ("a number that stands for none", r"//.*(\b0 (where|for (none|any))|where 0 stands)"),
        ("kinds by bytes or numbers", r"\b(class|part|verdict): u8\b|^        \d+ (if .*)?=> "),
    ],
    2: [
        ("refusals written out", r"(^|[^\w>])Fault \{|fn \w*_fault\(|fn malformed\("),
        ("empty records written out", r"code: 0,|bits: 0 \}|kind: Kind::Undeclared,|first: 0, len: 0|left: 0, right: 0|variable: 0,"),
        ("functions that ask whether all are zero", r"fn (all_\w+|zero_\w+|has_owners)\b"),
        ("numbers of one width each", r"fn (u16|u32|u64|plain_u\d+)\w*\("),
    ],
    3: [
        ("for over a range", r"\bfor \w+ in [^{]*\.\."),
        ("while", r"\bwhile "),
        ("loop", r"\bloop \{"),
        ("counted by hand", r"\+= 1;|-= 1;"),
        ("by number with enumerate", r"\.enumerate\(\)"),
        ("loops that look for a first or for all", r"^\s+for \w+ in [^.]*\{$"),
    ],
    4: [
        ("a bit of a truth value by hand", r"if \w[\w.]* \{ 1 \} else \{ 0 \}"),
        ("numbers of variants by hand", r"^            (Cause|Layer|\w+)::\w+ => \d+,"),
        ("words of variants by hand, outside fmt", r"^        \w+::\w+( \{)?.*=> \"|^        \} => \""),
        ("equality, order or conversion by hand", r"fn (equals|alike|same_\w+|number|is_empty_word|\w+_of)\("),
        ("printing functions", r"fn (print_\w+|\w+_line|refusal|meaning|verdict)\b"),
    ],
    6: [
        ("arrays of a fixed length", r"= \[[^;\]]+; [\w:]+\];"),
        ("rows in structs", r"^    (pub(\(crate\))? )?\w+: Vec<"),
        ("links by index", r"^    (pub(\(crate\))? )?(next|head|free|first): u32,"),
    ],
    7: [
        ("one-method traits", r"^pub trait Progress"),
        ("kinds that choose a function", r"^\s+(\w+::\w+(\(.*\)| \{.*\})?|\d+|\"\w+\") => \w+(::\w+)*\(.*\),$"),
    ],
}


def sources():
    for path in sorted(glob.glob("crates/*/src/**/*.rt", recursive=True)):
        if path.startswith("crates/cases/src/") and not path.endswith("lib.rt"):
            text = open(path).read().split("#[cfg(test)]")[0]
        else:
            text = open(path).read()
        yield path, text


def by_patterns(point):
    for title, pattern in PATTERNS[point]:
        found = []
        for path, text in sources():
            for n, line in enumerate(text.split("\n"), 1):
                if point != 1 and line.lstrip().startswith("//"):
                    continue
                if re.search(pattern, line):
                    found.append(f"{path}:{n}: {line.strip()}")
        yield title, found


def shapes():
    """Runs of eight lines or more that stand twice, but for names, numbers and texts."""
    keywords = "fn|let|mut|for|in|if|else|match|return|while|loop|pub|struct|enum|impl|const|Ok|Err|Some|None|requires|ensures"
    lines = []
    for path, text in sources():
        for n, line in enumerate(text.split("\n"), 1):
            line = line.strip()
            if re.match(r"//|use |ghost use |#", line) or not re.search(r"\w", line):
                continue
            line = re.sub(r'"[^"]*"|\b\d[\d_]*\b', "0", line)
            line = re.sub(rf"\b(?!(?:{keywords})\b)[A-Za-z_]\w*", "x", line)
            lines.append((path, n, line))
    size, seen, found, last = 8, {}, [], {}
    for i in range(len(lines) - size):
        run = tuple(line for _, _, line in lines[i:i + size])
        if lines[i][0] != lines[i + size - 1][0] or len(set(run)) < 5 or "static" in run[0]:
            continue
        if run in seen:
            j = seen[run]
            if last.get(i - 1) != j - 1:
                found.append(f"{lines[j][0]}:{lines[j][1]} ~ {lines[i][0]}:{lines[i][1]}")
            last[i] = j
        else:
            seen[run] = i
    yield "runs of eight lines that stand twice but for names and numbers", found


def functions():
    head = re.compile(r"^( *)(?:pub(?:\(crate\))? )?fn (\w+)(?:<[^{]*?>)?\(", re.M)
    for path, text in sources():
        for m in head.finditer(text):
            end = text.find("\n" + m.group(1) + "{", m.start())
            stop = text.find(";\n", m.start())
            if end < 0 or (0 <= stop < end and "\n" + m.group(1) + "}" not in text[m.start():end]):
                end = stop if stop > 0 else len(text)
            yield path, m.group(2), text[m.start():end]


def by_contracts():
    facts = collections.defaultdict(set)
    pairs = collections.defaultdict(set)
    for path, name, text in functions():
        crate = path.split("/")[1]
        for clause in re.findall(r"(?:requires|ensures) (?:\w+ )?\{ (.*) \}$", text, re.M):
            for fact in re.split(r" × ", clause):
                fact = re.sub(r"\.(old|now|new|entry)\b", "", fact.strip(" ()"))
                facts[crate, fact].add(name)
        parameters = re.findall(r"[(,]\s*(\w+): ([^,()]+)", text.split(")")[0] + ")")
        named = sorted({f"{n}: {t.strip()}" for n, t in parameters})
        for i, a in enumerate(named):
            for b in named[i + 1:]:
                pairs[crate, a + ", " + b].add(name)
    yield "facts in three or more contracts of a crate", [
        f"crates/{c}: {f}: {', '.join(sorted(n))}" for (c, f), n in sorted(facts.items()) if len(n) >= 3]
    yield "pairs of parameters in three or more functions of a crate", [
        f"crates/{c}: {p}: {', '.join(sorted(n))}" for (c, p), n in sorted(pairs.items()) if len(n) >= 3]
    joined = [f"{p}: {n}" for p, n, t in functions() if re.search(r"(requires|ensures) (\w+ )?\{.* × .*\}$", t, re.M)]
    joined += [f"{p}: {m.group(0).strip()}" for p, t in sources() for m in re.finditer(r"^    ghost \w+: \{.* × .*$", t, re.M)]
    yield "clauses of several facts", joined


def by_proofs():
    files = sorted(glob.glob("crates/*/proofs/**/*.antt", recursive=True))
    answers = lemmas = lines = 0
    for path in files:
        text = open(path).read()
        lines += text.count("\n")
        signs = len(re.findall(r"^(?:abbrev |unfoldable )?(?:pub )?[^\s#-][^\n:]* : ", text, re.M))
        if path.endswith(("Answers.antt", "Invariants.antt")):
            answers += len(re.findall(r"^pub [\w-]+ : goal\.|^abbrev pub [\w-]+ : goal\.", text, re.M))
        else:
            lemmas += signs
    yield f"proof files {len(files)}, lines", ["" for _ in range(lines)]
    yield "answers and invariants", ["" for _ in range(answers)]
    yield "lemmas and definitions in files of their own", ["" for _ in range(lemmas)]


def main():
    words = [w for w in sys.argv[1:] if w != "-v"]
    for point in [int(w) for w in words] or range(1, 9):
        groups = by_contracts() if point == 5 else by_proofs() if point == 8 else by_patterns(point)
        for title, found in list(groups) + (list(shapes()) if point == 2 else []):
            print(f"{point}. {title}: {len(found)}")
            if "-v" in sys.argv and point != 8:
                for line in found:
                    print("    " + line)


main()
