#!/usr/bin/env python3
"""Respells the repository's own definitions and lemmas: functions and lemmas in snake case, types in camel case.

usage: python3 tools/respell.py        once, at the top of the repository, right after the kit's port.py

It goes by whole names: a name that specs/ or proofs/ declares, and that std does not, is replaced wherever it stands as a
whole name in specs/, proofs/, clauses, must-fail edits and, between backticks, in the documents. A lemma that would get the
name of a definition takes `_lem`. Names of src/, strings, inputs and outputs are left alone.
"""

import collections
import os
import re

IDENT = r"[A-Za-z_][A-Za-z0-9_'′₀-₉-]*"
DECLARED = re.compile(r"^(\s*)((?:abbrev|unfoldable|pub|data|record|\|)\s+)*(" + IDENT + r")((?:\s*[({][^:]*:[^\n]*?[)}])*)\s*:(?!=)", re.M)
# Names that two declarations would share, or that the library has.
CHOSEN = {
    "Any-order": "TotalInAnyOrder",
    "bit-and": "bit_of_and",
    "bit-or": "bit_of_or",
    "best-set": "best_set_lem",
    "cube-of": "cube_of_lem",
    "first-best": "first_best_lem",
    "first-least": "first_least_lem",
    "implicant-at": "implicant_at_lem",
    "in-force": "in_force_lem",
    "is-term": "is_term_lem",
    "level-bit": "level_bit_lem",
    "prime-at": "prime_at_lem",
    "records-in": "records_in_lem",
}


def files(root, endings):
    for folder, dirs, names in os.walk(root):
        dirs[:] = sorted(d for d in dirs if d not in ("out", ".git"))
        for name in sorted(names):
            if name.endswith(endings):
                yield os.path.join(folder, name)


def text_of(path):
    with open(path, encoding="utf-8") as f:
        return f.read()


def declared():
    """The names that specs/ and proofs/ declare, less the answers to goals."""
    found = set()
    for path in files("crates", (".antt",)):
        text = text_of(path)
        for m in DECLARED.finditer(text):
            line = text[m.start() : text.find("\n", m.start() + 1)]
            if not re.search(r":\s*goal\.", line):
                found.add(m.group(3))
    return found


def of_std():
    found = set()
    for path in files("crates", (".antt", ".rt")):
        for m in re.finditer(r"use Rattle\.std\.[\w.]*\.\{([^}]*)\}", text_of(path)):
            found.update(n.strip().split(" as ")[0].strip() for n in m.group(1).split(","))
    return found


def respelled(name):
    if name in CHOSEN:
        return CHOSEN[name]
    if name[0].isupper() and not re.match(r"[A-Z][-_]", name):
        return "".join(p[0].upper() + p[1:] for p in name.split("-"))
    name = name.replace("′", "'").replace("-", "_")
    name = re.sub(r"([a-z0-9])([A-Z])", lambda m: m.group(1) + "_" + m.group(2).lower(), name)
    return re.sub(r"^([A-Z])(?=_)", lambda m: m.group(1).lower(), name)


def main():
    std = of_std()
    turned = {n: respelled(n) for n in declared() if n not in std and respelled(n) != n}
    shared = collections.Counter(turned.values())
    for new, count in shared.items():
        if count > 1:
            raise SystemExit("two names fall together: " + new)
    name = re.compile(r"(?<![\w'′-])" + IDENT)

    def turn(m):
        return turned.get(m.group(0), m.group(0))

    for path in files("crates", (".antt", ".rt", ".edit")):
        old = text_of(path)
        lines = []
        for line in old.split("\n"):
            comment = line.lstrip().startswith("--" if path.endswith(".antt") else "//")
            lines.append(line if comment else name.sub(turn, line))
        new = "\n".join(lines)
        if new != old:
            with open(path, "w", encoding="utf-8") as f:
                f.write(new)
    for path in ["README.md", *files("docs", (".md",))]:
        old = text_of(path)
        new = re.sub(r"`[^`\n]+`", lambda m: name.sub(turn, m.group(0)), old)
        if new != old:
            with open(path, "w", encoding="utf-8") as f:
                f.write(new)
    for old in sorted(turned):
        print(old, turned[old])


if __name__ == "__main__":
    main()
