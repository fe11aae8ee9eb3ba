#!/usr/bin/env python3
"""Respells this repository's own names as the library spells its: definitions, lemmas, fields and constructors in snake case,
types and facts in camel case. usage: tools/respell.py [--dry]

Names are those that specs/ and proofs/ declare. Generated names in proof files get the spelling of the names of src/ that they are
made of. Text of src/ outside clauses, strings and comments stay as they are.
"""
import collections
import os
import re
import sys

ROOT = os.path.dirname(os.path.dirname(os.path.abspath(__file__)))
CRATES = os.path.join(ROOT, "crates")
CH = r"A-Za-z0-9_'\-₀-₉ℕℤ+*∷"
TOKEN = re.compile(r"[A-Za-z_][A-Za-z0-9_'\-₀-₉ℕℤ]*(?:\+[A-Za-z][A-Za-z0-9_'\-]*)*")
DECLARED = re.compile(r"^(\s*)(?:(?:pub|abbrev|unfoldable)\s+)*(record|data|ruleset)?\s*([A-Za-z_][A-Za-z0-9_'\-₀-₉ℕ]*)\s*(:|\(|\{|=|where)")
WORDS = ("use ", "let ", "in ", "|", "module", "unfolding", "infix", "mod ", "pub mod", "where", "elim")
STEPS = ["in_ok", "in_err", "in_default", "overflow_add", "overflow_sub", "overflow_mul", "overflow_cast", "overflow_step", "invariant_of",
         "slice_bounds", "offset_bounds", "type_inv"]


def files(ends):
    for folder, dirs, names in os.walk(CRATES):
        dirs[:] = sorted(d for d in dirs if d not in ("out", "target"))
        for name in sorted(names):
            if name.endswith(ends):
                yield os.path.join(folder, name)


def text(path):
    with open(path, encoding="utf-8") as f:
        return f.read()


def generated(path):
    """Whether the file answers goals, whose names the check makes."""
    return os.path.basename(path) in ("Answers.antt", "Invariants.antt", "Choices.antt", "Proof.antt")


def declared():
    """The names with a dash that specs/ and proofs/ declare, but for goals."""
    names, goals = set(), set()
    for path in files(".antt"):
        for line in text(path).splitlines():
            if line.lstrip().startswith("--") or line.strip().startswith(WORDS):
                continue
            m = DECLARED.match(line)
            if not m or (m[4] != ":" and not m[2]):
                continue
            goal = generated(path) and re.search(r":\s*goal\.", line)
            (goals if goal else names).add(m[3])
    return {n for n in names - goals if "-" in n}, goals


def respelled(name):
    """snake case, or camel case for a type or a fact"""
    if name[0].isupper():
        return "".join(w[:1].upper() + (w[1:].lower() if w.isupper() and len(w) > 1 else w[1:]) for w in name.split("-"))
    return name.replace("-", "_")


def source_names():
    """The names with an underscore in src/, and the words of steps."""
    names = set(STEPS)
    for path in files(".rt"):
        names |= {w for w in re.findall(r"\b[A-Za-z][A-Za-z0-9]*(?:_[A-Za-z0-9]+)+\b", text(path))}
    return names


def step(name, known):
    """A generated name with its parts joined as src/ spells them."""
    parts, out, i = name.split("-"), [], 0
    while i < len(parts):
        for j in range(min(len(parts), i + 5), i + 1, -1):
            if "_".join(parts[i:j]) in known:
                out.append("_".join(parts[i:j]))
                i = j
                break
        else:
            out.append(parts[i])
            i += 1
    return "-".join(out)


def in_proofs(source, names, known, goals, steps):
    def turn(m):
        word = m[0]
        if word in names:
            return names[word]
        if not steps or "-" not in word:
            return word
        before = source[:m.start()]
        if word in goals or re.search(r"(?:goal|c|w|l|g)(?:\.[^\s.(){}\[\],;]+)*\.$", before[-120:]) or before.rstrip().endswith("goal."):
            return "+".join(step(p, known) for p in word.split("+"))
        return word
    lines = []
    pos = 0
    out = []
    for line in source.splitlines(keepends=True):
        body, comment = line, ""
        i = line.find("-- ")
        if line.lstrip().startswith("--"):
            body, comment = "", line
        elif i >= 0 and (i == 0 or line[i - 1] == " "):
            body, comment = line[:i], line[i:]
        out.append((body, comment))
    done = []
    for body, comment in out:
        source = body
        done.append(TOKEN.sub(turn, body) + comment)
    return "".join(done)


def in_source(source, names):
    """Text of src/ with the names respelled outside comments and strings."""
    parts = re.split(r'(//[^\n]*|"(?:[^"\\]|\\.)*")', source)
    return "".join(p if i % 2 else TOKEN.sub(lambda m: names.get(m[0], m[0]), p) for i, p in enumerate(parts))


def main():
    dry = "--dry" in sys.argv
    old, goals = declared()
    names = {n: respelled(n) for n in old}
    known = source_names()
    taken = collections.defaultdict(set)
    for path in files((".antt", ".rt")):
        for w in TOKEN.findall(text(path)):
            taken[w].add(path)
    if dry:
        both = collections.Counter(names.values())
        for n in sorted(names):
            note = "TWICE " if both[names[n]] > 1 else ""
            if names[n] in taken:
                note += "TAKEN " + " ".join(sorted({os.path.relpath(p, CRATES) for p in taken[names[n]]})[:6])
            print(n, names[n], note)
        return
    for path in files((".antt", ".rt")):
        source = text(path)
        new = in_source(source, names) if path.endswith(".rt") else in_proofs(source, names, known, goals, generated(path))
        if new != source:
            with open(path, "w", encoding="utf-8") as f:
                f.write(new)
    print(f"{len(names)} names respelled")


if __name__ == "__main__":
    main()
