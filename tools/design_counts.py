#!/usr/bin/env python3
"""Lists the places in src/ that older forms of writing leave, point by point, and counts them.

    python3 tools/design_counts.py [ROOT]

ROOT is a checkout (default: the one that this file lies in). It goes by text: a line that it prints is a place to look at,
and docs/DESIGN-PASS.md says of each what became of it."""
import os
import re
import sys
from collections import defaultdict

ROOT = next((a for a in sys.argv[1:] if a != "-v"), None) or os.path.join(os.path.dirname(os.path.abspath(__file__)), "..")


def sources():
    for top, _, names in sorted(os.walk(os.path.join(ROOT, "crates"))):
        if "/src" not in top or "/out" in top:
            continue
        for name in sorted(names):
            if name.endswith(".rt"):
                path = os.path.join(top, name)
                yield os.path.relpath(path, os.path.join(ROOT, "crates")), open(path).read()


FILES = list(sources())


def grep(pattern, what, skip=None):
    found = []
    for path, text in FILES:
        for k, line in enumerate(text.split("\n"), 1):
            bare = line.strip()
            if bare.startswith("//") or bare.startswith("ghost use") or bare.startswith("use "):
                continue
            if re.search(pattern, line) and not (skip and re.search(skip, line)):
                found.append("%s:%d: %s" % (path, k, bare[:150]))
    show(what, found)


def show(what, found):
    print("%4d  %s" % (len(found), what))
    if "-v" in sys.argv:
        for line in found:
            print("        " + line)


def functions():
    """Each function: where it stands, its parameters, its clauses."""
    for path, text in FILES:
        for m in re.finditer(r"\bfn (\w+)(<[^({]*>)?\(", text):
            i = m.end()
            depth = 1
            while depth:
                depth += {"(": 1, ")": -1}.get(text[i], 0)
                i += 1
            params = re.sub(r"\s+", " ", text[m.end():i - 1])
            rest = text[i:]
            body = re.search(r"\n\s*\{\n|;\n|\{\n", rest)
            head = rest[: body.start()] if body else rest
            clauses = []
            for c in re.finditer(r"(requires|ensures)( \w+)? \{ (.*?) \}(?=\n|$|;)", head):
                clauses.append((c.group(1), c.group(3)))
            yield "%s %s" % (path, m.group(1)), params, clauses


print("1. enums of one's own, numbers for kinds and refusals, flags beside values")
grep(r"^\s*(pub )?enum \w+", "enums")
grep(r"\bcode: usize|fn code\(|fn from_code\(|fn number\(self\) -> u8|^const (OFF|ON|FREE)\b", "numbers for kinds or refusals")
grep(r"^\s*(pub(\(crate\))? )?\w+: bool,|\b\w+: bool[,)]|-> bool\b.*&mut|&mut.*-> bool\b", "bool fields and parameters, and answers of calls that change something")
grep(r"let mut (\w+) = None;|let mut (covered|last|holders) =", "locals that go in pairs with a flag or a place")

print("2. twins")
grep(r"\[(bool|Need|Prime|Step|T); (256|1280|N)\]", "arrays that differ in their size or in the type of their items")
grep(r"fn print_(fill|set|prices|price)\b|fn (done|found)\(", "functions that differ in a word or a type")

print("3. loops")
grep(r"\bfor \w+ in .*\.\.", "for over a range of numbers", r"^\s*//")
grep(r"\bwhile\b", "while")
grep(r"\bloop \{", "loop")

print("4. comparisons, conversions, copies and printing by hand")
grep(r"fn (is_earlier|code|from_code|number|same|word|done|found|clone|eq|cmp|partial_cmp|fmt|from|try_from)\b", "functions that convert, compare or print")
grep(r"\.number\(\);|let number = ", "numbers taken out to be printed")

print("5. facts in three or more contracts, parameters that travel together")
facts = defaultdict(set)
together = defaultdict(set)
for name, params, clauses in functions():
    for kind, clause in clauses:
        flat = re.sub(r"\b(self|list|result|needs|bound|here|good|trail|table|marks)\.(now|old|new)\b", "_", clause)
        facts[flat].add(name)
    ps = [p.strip() for p in params.split(",") if ":" in p]
    for i in range(len(ps)):
        for j in range(i + 1, len(ps)):
            together[(ps[i], ps[j])].add(name)
repeated = sorted(((len(v), k) for k, v in facts.items() if len(v) >= 3), reverse=True)
show("clauses that stand in three or more contracts", ["%d times: %s" % (n, k[:140]) for n, k in repeated])
pairs = sorted(((len(v), k) for k, v in together.items() if len(v) >= 3), reverse=True)
show("pairs of parameters that three or more functions take", ["%d times: %s, %s" % (n, a, b) for n, (a, b) in pairs])

print("6. buffers and arrays")
grep(r"^\s*(pub )?\w+: \[[^;]+; [^\]]+\],?$", "arrays in structs")
grep(r"^\s*(pub )?(count|len): usize,", "lengths that stand beside an array")

print("7. switches and tables of functions")
grep(r"\bmatch (self|call|work|\*?self\.\w+)\b", "a match on a kind")
grep(r"\bif (strict|takes)\b", "an if on a flag")

print("8. proofs")
answers = lemmas = 0
for top, _, names in os.walk(os.path.join(ROOT, "crates")):
    for name in names:
        if name.endswith(".antt") and "/proofs" in top and "/out" not in top:
            n = open(os.path.join(top, name)).read().count("\n")
            if name in ("Answers.antt", "Invariants.antt"):
                answers += n
            else:
                lemmas += n
print("%4d  lines of invariants and answers" % answers)
print("%4d  lines of lemmas" % lemmas)
