#!/usr/bin/env python3
"""Lists the places in src/ that an older form may stand in, by the points of docs/DESIGN-PASS.md.

    python3 tools/forms.py [FOLDER] [-v]

FOLDER is the top of a checkout (.). It prints a count for each point; with -v the places too.
"""
import collections
import glob
import itertools
import os
import re
import sys

verbose = "-v" in sys.argv
args = [a for a in sys.argv[1:] if a != "-v"]
os.chdir(args[0] if args else ".")
files = sorted(glob.glob("crates/*/src/*.rt"))
texts = {f: open(f, encoding="utf-8").read() for f in files}


def lines(pattern):
    """Lines of code, comments and ghost imports left out, that match."""
    for f, text in texts.items():
        for i, line in enumerate(text.split("\n"), 1):
            code = line.split("//")[0]
            if not code.startswith("ghost use") and re.search(pattern, code):
                yield f"{f}:{i}: {code.strip()}"


START = re.compile(r"^( *)(?:pub )?(?:const )?(?:extern \"C\" )?fn (\w+)(?:<[^>]*>)?\(")


def functions():
    """Each function's place, parameters, clauses and body."""
    for f, text in texts.items():
        rows = text.split("\n")
        for i, row in enumerate(rows):
            m = START.match(row)
            if not m:
                continue
            end = next(j for j in range(i, len(rows)) if rows[j] == m.group(1) + "}")
            whole = "\n".join(rows[i:end])
            inside = whole[m.end():]
            close = next(k for k in range(len(inside)) if inside[:k + 1].count(")") > inside[:k].count("("))
            params = re.split(r",(?![^\[]*\])", " ".join(inside[:close].split()))
            clauses, _, body = inside[close:].partition("\n" + m.group(1) + "{\n")
            if not body:
                clauses, _, body = inside[close:].partition("{\n")
            yield f"{f}: {m.group(2)}", [p.strip() for p in params if p.strip()], clauses, body


def shape(code):
    """A body with each name and each number told only by whether it stood before."""
    seen = {}
    tokens = re.findall(r"\w+|[^\w\s]", re.sub(r"//.*", "", code))
    word = lambda t: seen.setdefault(t, len(seen)) if re.match(r"\w", t) else t
    return tuple(word(t) for t in tokens)


def twins():
    """Functions whose bodies have the same shape, from eight tokens up."""
    by = collections.defaultdict(list)
    for place, _, _, body in functions():
        s = shape(body)
        if len(s) >= 8:
            by[s].append(place)
    return [" | ".join(ps) for ps in by.values() if len(ps) > 1]


def facts():
    """Conjuncts of requires that stand in three functions or more."""
    by = collections.Counter()
    for _, _, clauses, _ in functions():
        for clause in re.findall(r"requires (?:\w+ )?\{(.*?)\}", clauses, re.S):
            for part in re.split(r"\s×\s", " ".join(clause.split())):
                by[part.strip().strip("()")] += 1
    return [f"{n} × {p}" for p, n in by.most_common() if n >= 3]


def companions():
    """Pairs of parameters that stand together in three functions or more, and whose rarer one seldom stands alone."""
    pairs, alone = collections.Counter(), collections.Counter()
    for _, params, _, _ in functions():
        names = sorted({p.split(":")[0] for p in params if ":" in p})
        alone.update(names)
        pairs.update(itertools.combinations(names, 2))
    return [f"{n} × {a}, {b}" for (a, b), n in pairs.most_common()
            if n >= 3 and 4 * n >= 3 * min(alone[a], alone[b])]


POINTS = [
    ("1 own enums", lambda: lines(r"^(pub )?enum ")),
    ("1 numbers for kinds", lambda: lines(r"\b(kind|number): u32")),
    ("1 tests of an answer's number", lambda: lines(r"number_of\(\w+\) [!=]= ")),
    ("2 bodies of one shape", twins),
    ("3 while and loop", lambda: lines(r"^\s*(while|loop)\b")),
    ("4 conversions by hand", lambda: lines(r"% 256| as (u8|u16|u32|u64|usize)\b")),
    ("4 comparisons by hand", lambda: lines(r"\w\[\w+\] [!=]= \w+\[")),
    ("5 facts in three contracts", facts),
    ("5 parameters that travel together", companions),
    ("6 fixed buffers", lambda: lines(r"\[([0-9]*u(8|32|64)|[0-9]+); [0-9]+\]")),
    ("7 matches", lambda: lines(r"\bmatch ")),
]

for name, places in POINTS:
    found = list(places())
    print(f"{name}: {len(found)}")
    if verbose:
        for place in found:
            print("   ", place)
