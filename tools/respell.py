#!/usr/bin/env python3
"""Spells the repository's own definitions, lemmas and fields as today's Rattle spells names. Run once, at the top, after the script that comes with Rattle.

A word that this repository declares in specs/ or proofs/ gets `_` where it had `-` or a capital inside; a fact (a name with a capital first)
loses the dash. A dash stays behind `length`, which joins two names. Names that the check makes (goals, steps of the code) keep their spelling.
With --names it only prints which name becomes which.
"""
import os
import re
import sys

TOKEN = re.compile(r"[A-Za-zℤℕ≤≡≢_][A-Za-z0-9_'ℤℕ≤≡≢]*(?:-[A-Za-z0-9_'ℤℕ≤≡≢]+)*")
DECLARED = re.compile(r"(?m)^[ |]*(?:abbrev |unfoldable |pub |let )*([A-Za-z≤][A-Za-z0-9_'ℤ-]*)((?: \([^)\n]*\)| \{[^}\n]*\})*) :(?![=:])[ ]*(.*)$")
BOUND = re.compile(r"[({]((?:[A-Za-z][A-Za-z0-9_'ℤ-]* )+):(?![=:])")
# two names that would fall together
APART = {"is-fill": "is_fill-true"}
# names that the check makes, and that a local name of ours shares
MADE = {"returns", "invariant-of-self", "invariant-of-result"}


def files(top):
    for folder, dirs, names in os.walk(os.path.join(top, "crates")):
        dirs[:] = sorted(d for d in dirs if d != "out")
        for n in sorted(names):
            if n.endswith((".antt", ".rt")):
                yield os.path.join(folder, n)


def code(path, line):
    return line.split("--")[0] if path.endswith(".antt") else line.split("//")[0]


def respelled(name):
    if name in APART:
        return APART[name]
    if name[0].isupper():
        return "".join(p[:1].upper() + p[1:] for p in name.split("-"))
    head, dash, rest = name.partition("-")
    joint = "-" if head == "length" and dash else "_"
    new = head + (joint + rest.replace("-", "_") if dash else "")
    if re.fullmatch(r"(is|has)[A-Z][a-z]+", new):
        new = re.sub(r"[A-Z]", lambda m: "_" + m[0].lower(), new)
    return new


def declared(top):
    own = set()
    for p in files(top):
        if not p.endswith(".antt"):
            continue
        with open(p, encoding="utf-8") as f:
            text = "\n".join(code(p, l) for l in f.read().split("\n"))
        for m in DECLARED.finditer(text):
            if not m[3].startswith("goal.") and m[1] not in MADE:
                own.add(m[1])
        if os.path.basename(p) not in ("Answers.antt", "Invariants.antt"):
            for m in BOUND.finditer(text):
                own.update(m[1].split())
    return own


def main(top, only):
    own = declared(top)
    table = {n: respelled(n) for n in own if respelled(n) != n}
    if only:
        for n in sorted(table):
            print(n, table[n])
        return
    for p in files(top):
        answer = os.path.basename(p) in ("Answers.antt", "Invariants.antt")
        with open(p, encoding="utf-8") as f:
            lines = f.read().split("\n")
        for k, line in enumerate(lines):
            kept = code(p, line)

            def turn(m):
                before = kept[: m.start()]
                if answer and re.search(r"(?:^|[^\w'.-])(?:c|l|w|goal)\.$", before):
                    return m[0]
                return table.get(m[0], m[0])

            lines[k] = TOKEN.sub(turn, kept) + line[len(kept):]
        with open(p, "w", encoding="utf-8") as f:
            f.write("\n".join(lines))


if __name__ == "__main__":
    main(os.getcwd(), "--names" in sys.argv[1:])
