#!/usr/bin/env python3
"""Lists the places of the code that docs/DESIGN-PASS.md counts, by its eight points.

    python3 tools/places.py [FOLDER] [--count]

FOLDER is a checkout, this one if none is named; --count leaves out the places.
What is found by the shape of the text is a place to look at, and not a verdict.
"""
import collections
import glob
import os
import re
import sys

words = [w for w in sys.argv[1:] if not w.startswith("--")]
root = words[0] if words else os.path.join(os.path.dirname(__file__), "..")
only_counts = "--count" in sys.argv


def read(pattern):
    return [(os.path.relpath(f, root), open(f).read()) for f in sorted(glob.glob(os.path.join(root, pattern), recursive=True))]


sources = read("crates/*/src/**/*.rt")
code = [(f, s) for f, s in sources if not f.endswith("tests.rt")]


def show(title, places):
    print("%4d  %s" % (len(places), title))
    if not only_counts:
        for p in places:
            print("        " + p)


def lines(pattern, files=code):
    found = []
    for f, s in files:
        for n, line in enumerate(s.split("\n"), 1):
            if re.search(pattern, line):
                found.append("%s:%d %s" % (f, n, line.strip()))
    return found


def structs():
    for f, s in code:
        for m in re.finditer(r"struct (\w+)[^{;]*\{(.*?)\n\}", s, re.S):
            yield f, m.group(1), [l.strip() for l in m.group(2).split("\n") if ":" in l and not l.strip().startswith(("//", "ghost"))]


def functions():
    for f, s in code:
        for part in re.split(r"(?=\bfn \w+)", s)[1:]:
            name = "%s:%s" % (f, re.match(r"fn (\w+)", part).group(1))
            pieces = re.split(r"\n\s*\{\n|;\n|\{\}\n", part, maxsplit=1)
            yield name, pieces[0], pieces[1] if len(pieces) > 1 else ""


def body(text):
    depth = 1
    for i, c in enumerate(text):
        depth += (c == "{") - (c == "}")
        if depth == 0:
            return text[:i]
    return text


# 1
show("1  own enums (to be read)", lines(r"^ *(pub(\(crate\))? )?enum "))
show("1  fields of type bool", lines(r"^ +(pub )?\w+: bool,"))
show("1  structs round one Option", ["%s %s { %s }" % (f, n, fs[0]) for f, n, fs in structs() if len(fs) == 1 and "Option<" in fs[0]])
show("1  numbers for kinds: answers and matches", lines(r"fn (number|layer)\(self\) -> u8|number: u32\) ->|match \w+\.(layer|number)\(\)"))

# 2
shapes = collections.defaultdict(list)
for name, head, text in functions():
    text = re.sub(r"//[^\n]*", "", body(text))
    tokens = re.findall(r"\"[^\"]*\"|'.'|\w+|[^\s\w]", text)
    shape = " ".join("I" if re.match(r"[A-Za-z_]", t) and t not in ("match", "if", "else", "for", "while", "loop", "return", "let", "break", "in", "mut") else "N" if t[0].isdigit() else t for t in tokens)
    if len(tokens) >= 14:
        shapes[shape].append(name)
show("2  groups of functions of one shape", [", ".join(v) for v in shapes.values() if len(v) > 1])
bare = collections.defaultdict(list)
for f, s in sources:
    bare[re.sub(r"ghost use [^\n]*\n", "", s)].append(f)
show("2  files that are the same but for their ghost imports", [", ".join(v) for v in bare.values() if len(v) > 1])

# 3
show("3  while, loop, and for over a range of numbers", lines(r"\bwhile\b.*\{|\bloop \{|for \w+ in \(?[\w.()]+\.\."))

# 4
show("4  copying, comparing, converting by a function of one's own", lines(r"fn (copy|copied|same|equal|at_most|owner|\w+_of|(read|write)_mode|fence_kind|layer_name|meaning|step_meaning)(<[^(]*>)?\("))
show("4  digits and numbers printed or read by hand", lines(r"b'0' [+]|is_digit|\* 10|10 \*|wrapping_mul\(10\)"))
show("4  matches! in tests, for want of an equality", lines(r"matches!\(", sources))

# 5
asked, taken = collections.defaultdict(set), collections.defaultdict(set)
for name, head, _ in functions():
    for r in re.findall(r"requires\s*(?:\w+\s*)?\{(.*)\}", head):
        for piece in re.split(r"\) × \(", r):
            asked[re.sub(r"\b(self|out|file|run)\.(now|old)\b", r"\1", piece).strip(" ()")].add(name)
    m = re.match(r"fn \w+\s*(?:<.*?>)?\s*\((.*?)\)\s*(?:->|\n|$)", head, re.S)
    if m:
        ps = [re.sub(r"\s+", " ", re.sub(r"^mut ", "", p.strip())) for p in re.split(r",(?![^<(]*[>)])", m.group(1)) if p.strip()]
        ps = [p for p in ps if "self" not in p.split(":")[0]]
        for i in range(len(ps)):
            for j in range(i + 1, len(ps)):
                taken[ps[i], ps[j]].add(name)
show("5  facts required by three functions or more", ["%d %s" % (len(v), k) for k, v in sorted(asked.items(), key=lambda x: -len(x[1])) if len(v) > 2])
show("5  pairs of parameters of four functions or more", ["%d %s" % (len(v), ", ".join(k)) for k, v in sorted(taken.items(), key=lambda x: -len(x[1])) if len(v) > 3])

# 6
show("6  structs with an array and a length beside it", ["%s %s { %s }" % (f, n, " ".join(fs)) for f, n, fs in structs() if any(re.search(r": \[.*; \w+\]", x) for x in fs) and any(re.search(r"\b(len|count): (usize|u8)", x) for x in fs)])
show("6  arrays of which only the first so many count", lines(r"-> (Result<)?(Option<)?\[(u32|u64|Section|usize); \d\]|let mut (numbers|sections|lines|programs) = .*\["))
show("6  searches by halving", lines(r"/ 2"))

# 7
show("7  functions numbered one after another", lines(r"fn \w+_\d+\("))
show("7  fn pointers, dyn, closures as parameters", lines(r"\bdyn \w|: fn\(|impl Fn|: Fn(Mut|Once)?\("))

# 8
answers = read("crates/*/proofs/**/Answers.antt")
proofs = read("crates/*/proofs/**/*.antt")
show("8  answers", ["%s %s" % (f, m) for f, s in answers for m in re.findall(r"^pub (\S+) : goal\.", s, re.M)] if not only_counts else ["" for f, s in answers for m in re.findall(r"^pub (\S+) : goal\.", s, re.M)])
show("8  lines of proofs", ["" for f, s in proofs for _ in s.split("\n")[:-1]] if only_counts else ["in all: %d" % sum(s.count("\n") for f, s in proofs)])
show("8  imports of older forms", ["%s: %s" % (f, m) for f, s in proofs + read("crates/*/specs/*.antt") for m in re.findall(r"AllByRecursion as All|\b(?:ltb|leb|eqb)\b(?=[,}])", s)])
show("8  laws that the script of the move proved by two tactics", lines(r"first_of \(Prim"))
