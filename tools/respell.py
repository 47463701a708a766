#!/usr/bin/env python3
"""Brings the repository's own definitions and lemmas to one spelling: words in snake case, types and modules in camel case.

usage: python3 tools/respell.py [--list]

Run once, at the top of a tree that port.py has just turned. It rewrites specs/, proofs/, the clauses of src/, must-fail edits and
the names that README.md and docs/ cite. Functions, strings and the contents of programs keep their names. --list prints the names only.
"""
import glob
import re
import sys

# Lemmas whose name would fall together with a definition's or another lemma's: they get the ending _lem.
FALL_TOGETHER = {n: n + "_lem" for n in ("next_place", "ran_out", "table_fits", "read_table", "version_of", "entry_length")}
NAME = re.compile(r"(?<![\w'\u2080-\u2089-])[A-Za-z\u0391-\u03c9_][\w'\u2080-\u2089]*(?:-[\w'\u2080-\u2089\u2261\u2264\u2262]+)*")
DECLARED = re.compile(r"\s*(?:abbrev |unfoldable |pub |ruleset |infixr \d+ )*((?:[^\s:(){}.,=]+ )+)[:=] ")
CAMEL = re.compile(r"[a-z][a-z0-9]*[A-Z]\w*'?$")
HEX = re.compile(r"x[0-9A-F]+$")
PROOF = re.compile(r"/proofs/.+/(Proof|Answers|Invariants)\.antt$")


def files(ending):
    return [f for f in sorted(glob.glob("crates/*/**/*" + ending, recursive=True)) if "/out/" not in f]


def code(f, text):
    if f.endswith(".rt"):
        text = re.sub(r"//.*", "", text)
        return re.sub(r'b?"(?:[^"\\]|\\.)*"', "", text)
    return re.sub(r"--.*", "", text)


def snake(w):
    return re.sub(r"(?<=[a-z0-9])([A-Z])", lambda m: "_" + m.group(1).lower(), w)


def names():
    """The old and new spelling of each name."""
    present, declared, camel = set(), set(), {}
    for f in files(".antt") + files(".rt"):
        text = code(f, open(f, encoding="utf-8").read())
        words = set(NAME.findall(text))
        camel.update({w: snake(w) for w in words if CAMEL.match(w) and "_" not in w and not HEX.match(w)})
        if f.endswith(".antt"):
            if not PROOF.search(f):
                present |= words
                for line in text.split("\n"):
                    m = DECLARED.match(line)
                    declared |= set(m.group(1).split()) if m else set()
    taken = set(camel.values()) | present
    turned = dict(camel)
    for n in sorted(declared):
        if "-" in n:
            to = n.replace("-", "_")
            turned[n] = to + "_lem" if to in taken else to
    turned.update(FALL_TOGETHER)
    return turned


def respell(text, turned):
    def one(m):
        w = m.group(0)
        if w in FALL_TOGETHER and text[: m.start()].endswith("."):
            return w
        return turned.get(w, w)

    return NAME.sub(one, text)


def respell_code(text, turned):
    """Of Rust's text: strings and what is no name of a definition stay."""
    parts = re.split(r'(b?"(?:[^"\\\n]|\\.)*")', text)
    return "".join(p if i % 2 else respell(p, turned) for i, p in enumerate(parts))


def main(argv):
    turned = names()
    if "--list" in argv:
        print("\n".join(f"{a} {b}" for a, b in sorted(turned.items())))
        return
    camel = {a: b for a, b in turned.items() if "-" not in a and a not in FALL_TOGETHER}
    cited = {a: b for a, b in turned.items() if a not in FALL_TOGETHER}
    for f in files(".antt"):
        rewrite(f, lambda t: respell(t, turned))
    for f in files(".rt"):
        rewrite(f, lambda t: respell_code(t, camel))
    for f in files(".edit"):
        rewrite(f, lambda t: respell(t, turned))
    for f in sorted(glob.glob("*.md") + glob.glob("docs/**/*.md", recursive=True)):
        rewrite(f, lambda t: re.sub(r"`[^`\n]+`", lambda m: respell(m.group(0), cited), t))


def rewrite(f, turn):
    with open(f, encoding="utf-8") as it:
        old = it.read()
    new = turn(old)
    if new != old:
        with open(f, "w", encoding="utf-8") as it:
            it.write(new)


if __name__ == "__main__":
    main(sys.argv[1:])
