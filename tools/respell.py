#!/usr/bin/env python3
"""Brings the repository's own names to today's spelling, once, after port.py: definitions, fields, constructors and lemmas in snake case.

usage: python3 tools/respell.py [ROOT]

A name that specs/ or proofs/ declare and that begins with a small letter loses its dashes and inner capitals: `chainOf` and `chain-of`
become `chain_of`; of two names that fall together the lemma's gets `_lem`. Types and modules keep their capitals; so do functions of src/, generated names (behind `tie.` and `goal.`), strings,
and everything that the repository does not declare. Must-fail edits, README and docs/ follow. It prints names that fall together.
"""
import collections
import os
import re
import sys

ROOT = sys.argv[1] if len(sys.argv) > 1 else "."
IDENT = r"[^\s(){}\[\]\"`;,:.λ→∷|⟨⟩]+"
MARKS = r"(?:(?:pub|abbrev|unfoldable)\s+)*"
DECLARED = re.compile(r"\s*" + MARKS + r"((?:" + IDENT + r"\s+)+):\s")
TYPE = re.compile(r"\s*" + MARKS + r"(?:data|record|module)\s")
MODULE = re.compile(r"\s*module\s+(" + IDENT + r")\s")
TOKEN = re.compile(r"[A-Za-z_+][\w'₀-₉+-]*[\w'₀-₉]|[A-Za-z]")


def snake(name):
    return re.sub(r"(?<=[a-z0-9'])([A-Z])", lambda m: "_" + m.group(1).lower(), name).replace("-", "_")


def old_form(name):
    return name[0].islower() and ("-" in name or re.search(r"[a-z0-9'][A-Z]", name))


def files(folder, *ends):
    for here, dirs, names in os.walk(os.path.join(ROOT, folder)):
        dirs[:] = sorted(d for d in dirs if d not in ("out", "target", ".git"))
        for n in sorted(names):
            if n.endswith(ends):
                yield os.path.join(here, n)


def read(path):
    with open(path, encoding="utf-8") as f:
        return f.read()


def declared():
    names = collections.defaultdict(set)
    for path in files("crates", ".antt"):
        for line in read(path).splitlines():
            m = None if TYPE.match(line) or line.lstrip().startswith(("use ", "--", "let ")) else DECLARED.match(line)
            for n in m.group(1).split() if m else []:
                names[n].add(path)
            m = MODULE.match(line)
            if m and m.group(1) != "_":
                names[m.group(1)].add(path)
    return names


def in_code(text, change):
    """Replaces names outside strings; in comments those with inner capitals, and others only between backticks."""
    out = []
    for line in text.split("\n"):
        cut = re.search(r"--\s|--$|//", line)
        body, note = (line[: cut.start()], line[cut.start() :]) if cut else (line, "")
        parts = re.split(r'("(?:[^"\\]|\\.)*")', body)
        body = "".join(p if p.startswith('"') else TOKEN.sub(lambda m: change(m, False), p) for p in parts)
        out.append(body + TOKEN.sub(lambda m: change(m, "-" in m.group(0)), note))
    return "\n".join(out)


def main():
    names = declared()
    turned = {n: snake(n) for n in names if old_form(n)}
    together = collections.defaultdict(set)
    for n in names:
        together[turned.get(n, n)].add(n)
    for new, olds in sorted(together.items()):
        if len(olds) > 1:
            print("fall together:", new, "from", *(f"{o} ({', '.join(sorted(os.path.relpath(p, ROOT) for p in names[o]))})" for o in sorted(olds)))
    known = set(together)
    # a lemma that would have the name of a definition, or a lemma that of its own pieces, gets `_lem`
    for new, olds in together.items():
        if len(olds) > 1:
            proved = [o for o in sorted(olds) if all("/proofs/" in p for p in names[o])]
            turned[next((o for o in proved if "-" in o), proved[0])] = new + "_lem"

    ours = os.listdir(os.path.join(ROOT, "crates"))
    lent = set()

    def change(m, prose):
        if prose or m.group(0) in lent or m.string[: m.start()].endswith(("tie.", "goal.")):
            return m.group(0)
        return turned.get(m.group(0), m.group(0))

    def told(m):
        word = m.group(0)
        return snake(word) if old_form(word) and snake(word) in known else word

    for path in files("crates", ".antt", ".rt"):
        text = read(path)
        lent = set()  # what this file imports from a library stays, though a file of ours declares the like
        for where, words in re.findall(r"use ([\w.◌·'-]+)\.\{([^}]*)\}", text):
            if not (where.startswith("Rattle.") and where.split(".")[1] in ours):
                lent.update(w.split(" as ")[0].strip() for w in words.split(","))
        new = in_code(text, change)
        if new != text:
            with open(path, "w", encoding="utf-8") as f:
                f.write(new)
    pages = [*files("docs", ".md"), os.path.join(ROOT, "README.md")]
    for path in [*files("crates", ".edit"), *pages]:
        text = read(path)
        new = TOKEN.sub(told, text) if path.endswith(".edit") else re.sub(r"`[^`\n]*`", lambda m: TOKEN.sub(told, m.group(0)), text)
        if new != text:
            with open(path, "w", encoding="utf-8") as f:
                f.write(new)
    print(len(turned), "names respelled")


main()
