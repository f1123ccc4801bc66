#!/usr/bin/env python3
"""Spells the repository's own definitions and lemmas in snake case: usage, at the top: python3 tools/names.py [--table]

A capital inside a word becomes '_' and a small letter. A dash stays where a function on lists of the library is joined
to the definition that it is called on, as in length-chain_digits, and is '_' elsewhere. Types, modules and the
functions that the standards name by a capital (F, H, T, PRF, C, D) keep their names, and so does all that src/
declares. It turns .antt files, the clauses of .rt files, must-fail edits, and what pages and comments quote. --table
prints the names and changes nothing. It stops where two names fall together. Run once, on the output of the kit's
port.py.
"""

import glob
import re
import sys

WORD = re.compile(r"[^\s(){}.;,@\"«»]+")
DECLARED = re.compile(
    r"^ *(?:(?:abbrev|pub|unfoldable|record|data) +)*((?:[^\s(){},:.|λ=]+ +)*[^\s(){},:.|λ=]+)"
    r"(?: +[({][^=\n]*)? :(?=\s)",
    re.M,
)
CAMEL = re.compile(r"[a-zμ][a-z0-9']*(?:[A-Z][A-Za-z0-9']*)+")
# A lemma that would have the name of a definition, by where it does not name a function of src/.
LEMMAS = {"part_length": ("part_length_lem", "crates/part_reading/")}
# The library's functions on lists, which a lemma on a call of one names first.
LIBRARY = set("length take drop get_or".split())
# What the rule would not spell as a reader expects, or would let fall together.
OTHER = {
    "PRFmsg": "prf_msg",
    "Hmsg": "h_msg",
    "PRFmsg-sized": "prf_msg_sized",
    "Hmsg-sized": "h_msg_sized",
    "getD-each": "get_or-each",
    "forestLong": "forest_bytes_long",
    "sameRoot": "roots_alike",
}


def sources(kinds):
    for kind in kinds:
        for path in sorted(glob.glob(kind, recursive=True)):
            if "/out/" not in path and "/target/" not in path:
                yield path


def read(path):
    with open(path, encoding="utf-8") as file:
        return file.read()


def declared(paths):
    names = set()
    for path in paths:
        for match in DECLARED.finditer(re.sub(r"--[^\n]*", "", read(path))):
            names.update(match[1].split())
    return names - {"pub", "abbrev", "unfoldable", "record", "data", "where", "module", "_"}


def snake(word):
    return re.sub(r"(?<=[a-z0-9'])([A-Z])", lambda m: "_" + m[1].lower(), word)


def small(part):
    """A part of a name: in snake case where it begins small, or as it is where it is a type's."""
    return snake(part) if CAMEL.fullmatch(part) else part


def spelled(name, known):
    if name in OTHER:
        return OTHER[name]
    parts = [small(p) for p in name.split("-")]
    # A function that the standard names by a capital is a word like others in a lemma's name.
    parts = [p.lower() if len(parts) > 1 and re.fullmatch("[A-Z]", p) else p for p in parts]
    out = parts[0]
    for i in range(1, len(parts)):
        joined = i == 1 and parts[0] in LIBRARY and "_".join(parts[1:]) in known
        out += ("-" if joined else "_") + parts[i]
    return out


def imported():
    """The names that .antt files take from the library."""
    names = set()
    for path in sources(["crates/*/specs/**/*.antt", "crates/*/proofs/**/*.antt"]):
        for match in re.finditer(r"^use (?!Rattle\.)[\w.]+\.\{([^}]*)\}", read(path), re.M):
            names.update(re.split(r"[\s,]+", match[1]))
    return names


def table():
    specs = declared(sources(["crates/*/specs/**/*.antt"]))
    own = specs | declared(sources(["crates/*/proofs/*.antt"]))
    known = {"_".join(small(p) for p in n.split("-")) for n in specs}
    words = set()
    for path in sources(["crates/*/specs/**/*.antt", "crates/*/proofs/**/*.antt", "crates/*/src/**/*.rt"]):
        text = re.sub(r"--[^\n]*", "", read(path)) if path.endswith(".antt") else read(path)
        words.update(WORD.findall(text))
    rows = {}
    for word in sorted((words | own) - imported()):
        if word in OTHER or CAMEL.fullmatch(word) or (word in own and "-" in word):
            new = spelled(word, known)
            if new != word:
                rows[word] = new
    # A lemma that would have its function's name gets '_lem'.
    functions = {new for old, new in rows.items() if "-" not in old}
    for old, new in rows.items():
        if "-" in old and new in functions:
            rows[old] = new + "_lem"
    taken = {}
    for word in words | own:
        taken.setdefault(rows.get(word, word), set()).add(word)
    # A function of src/ may have the name of the definition that it keeps to.
    code = set(WORD.findall("\n".join(read(path) for path in sources(["crates/*/src/**/*.rt"]))))
    clashes = {new: old for new, old in taken.items() if len(old - code - set(LEMMAS)) > 1}
    return rows, clashes


def turn(text, rows):
    return WORD.sub(lambda m: rows.get(m[0], m[0]), text)


def turn_quoted(text, rows):
    def quoted(match):
        return "`" + turn(match[1], rows) + "`"

    return re.sub(r"`([^`\n]+)`", quoted, text)


def main():
    rows, clashes = table()
    if "--table" in sys.argv:
        for old, new in sorted(rows.items()):
            print(f"{old}\t{new}")
        print(clashes, file=sys.stderr)
        return
    if clashes:
        sys.exit(f"names that fall together: {clashes}")
    code = ["crates/*/specs/**/*.antt", "crates/*/proofs/**/*.antt", "crates/*/src/**/*.rt"]
    code.append("crates/*/must-fail/*.edit")
    pages = ["README.md", "docs/*.md", "second/**/*.rs", "use/**/*.rs", "use/**/*.h", "use/**/*.c", "bench/**/*.rs"]
    for paths, change in ((code, turn), (pages, turn_quoted)):
        for path in sources(paths):
            old = read(path)
            own = {old: new for old, (new, where) in LEMMAS.items() if not path.startswith(where)}
            new = change(old, rows | own if path.endswith(".antt") else rows)
            if new != old:
                with open(path, "w", encoding="utf-8") as file:
                    file.write(new)


main()
