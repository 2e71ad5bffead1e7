#!/usr/bin/env python3
"""Brings the names of this repository's own definitions and lemmas to the spelling of today's Rattle: words in snake case, with an underscore
between them, a prime as an apostrophe. Types, modules, functions of src/ and what the library declares keep their names.

usage: python3 docs/history/snake_names.py [FOLDER]      rewrites specs/, proofs/, the clauses of src/, the must-fail edits and code spans of the documents
       python3 docs/history/snake_names.py --list        prints the table of names that it would turn, and writes nothing

It runs once, right after the toolchain's own script for the port, on a tree of the older spelling. It stops where two names would fall together in one file.
"""

import collections
import os
import re
import sys

WORD = re.compile(r'[^\s(){}.;,@"«»\x60|]+')
OLD = re.compile(r"[a-z0-9₀-₉'][A-Z]|-|′")
# Laws whose new name a definition or a function has: they get `_lem`. Behind a name, the beginning of the paths where it does.
LAWS = {
    "sums-wrong": "checker",
    "refused-head": "design",
    "entry-fits": "design",
    "term_fits": "design",
    "table-at": "design",
    "list_at": "design/proofs/Encoded",
    "frame-fault": "design",
    "head_read": "",
    "words-degree": "anf",
    "head-answer": "",
    "produced-most": "",
    "same-shares": "joiner",
    "stages-length": "joiner/proofs/Room",
    "file-size": "producer",
    "share-fits": "threshold",
    "direct-stage": "jestrunas",
}


def files(root, *endings):
    for folder, dirs, names in os.walk(os.path.join(root, "crates")):
        dirs[:] = sorted(d for d in dirs if d not in ("out", "target"))
        for name in sorted(names):
            if name.endswith(endings):
                yield os.path.join(folder, name)


def read(path):
    with open(path, encoding="utf-8") as f:
        return f.read()


def is_proof_of_function(path):
    """Proofs of functions: their goals have the names that the toolchain gives."""
    parts = path.split(os.sep)
    return "proofs" in parts and len(parts) - parts.index("proofs") > 2


def turned(name):
    """The new spelling: each part that begins with a capital is a type's name and keeps it."""
    parts = []
    for part in name.replace("′", "'").split("-"):
        if not part[:1].isupper():
            part = re.sub(r"(?<=[a-z0-9'₀-₉])([A-Z])", lambda m: "_" + m.group(1).lower(), part)
        parts.append(part)
    return "_".join(parts)


def declared(text):
    """What a file declares or binds: items, fields, constructors, parameters and local names."""
    found = set()
    code = re.sub(r"(?m)(?<![^\s(){}.;,])--.*$", "", text)
    for m in re.finditer(r"(?m)^\s*(?:(?:abbrev|unfoldable|data|record|pub|let)\s+)*([^\s(){}.;,@\"«»:]+)\s*(?:[({][^\n]*)?:(?=\s|$)", code):
        found.add(m.group(1))
    for m in re.finditer(r"[({]([^(){}:,]+?) ?:(?=\s)", code):
        found.update(m.group(1).split())
    for m in re.finditer(r"(?m)^ *use \S+ as (\S+)$|\bruleset (?:pub )?(\S+)", code):
        found.add(m.group(1) or m.group(2))
    for m in re.finditer(r"\blet ([^\s(){}:=]+) [:=]", code):
        found.add(m.group(1))
    for m in re.finditer(r"λ ([^.()]+)\.", code):
        found.update(m.group(1).split())
    return found


def imported(text):
    """What a file takes from the library: those names are not ours."""
    own, other = set(), set()
    for m in re.finditer(r"(?m)^\s*(?:ghost )?use ([^\s{;]+?)(?:\.\{([^}]*)\})?(?: as \S+)?;?$", text):
        names = {w.strip().split(" as ")[0] for w in (m.group(2) or "").split(",")}
        (own if re.match(r"Rattle\.(?:%s)\." % "|".join(CRATES), m.group(1)) else other).update(names)
    return own, other - own


def main(argv):
    global CRATES
    listing = "--list" in argv
    root = next((a for a in argv if not a.startswith("-")), ".")
    CRATES = sorted(os.listdir(os.path.join(root, "crates")))
    antt = {p: read(p) for p in files(root, ".antt")}
    table, library = {}, set()
    for path, text in antt.items():
        library |= imported(text)[1]
    for path, text in antt.items():
        names = declared(text)
        if is_proof_of_function(path):
            names = {n for n in names if n.endswith("-spec")}
        for name in names:
            if OLD.search(name) and not name[0].isupper() and name not in library and re.search(r"[a-z]", name) and not name.startswith(("-", "→")):
                table[name] = turned(name)
    table = {a: b for a, b in table.items() if a != b}
    if listing:
        for a in sorted(table):
            print(a, table[a])
        return 0

    # Names of functions and of clauses, which are no names of the proofs.
    source = set()
    for path in files(root, ".rt"):
        text = read(path)
        source.update(re.findall(r"\bfn (\w+)", text) + re.findall(r"\b(?:requires|ensures) (\w+) ?\{", text))
    source -= {n for path, text in antt.items() if not is_proof_of_function(path) for n in declared(text)}
    bad, out = [], {}

    def turn(path, text, own):
        seen = collections.defaultdict(set)
        inside = os.path.relpath(path, os.path.join(root, "crates"))

        def word(m):
            w = m.group(0)
            new = table[w] if w in own else w
            if w in LAWS and inside.startswith(LAWS[w]):
                new = turned(w) + "_lem"
            seen[new].add(w)
            return new

        text = re.sub(r"\.specs\.inside(?=[.\s;{])", ".specs.Inside", text)
        text = WORD.sub(word, text)
        for new, olds in seen.items():
            olds = {w for w in olds if w in own or w not in source}
            if len(olds) > 1:
                bad.append((path, new, sorted(olds)))
        return text

    for path, text in antt.items():
        own = set(table) - imported(text)[1]
        if is_proof_of_function(path):
            generated = {m.group(1) for m in re.finditer(r"(?m)^\s*(?:abbrev )?(?:pub )?(\S+) : (?:tie|goal)\.", text)}
            own -= generated
        out[path] = turn(path, text, own)
    for path in files(root, ".rt"):
        text = read(path)
        out[path] = turn(path, text, set(table) - imported(text)[1])
    for path in files(root, ".edit"):
        text = read(path)
        text = text.replace("file: specs/inside/", "file: specs/Inside/")
        out[path] = turn(path, text, set(table))
    for folder in (root, os.path.join(root, "docs")):
        for name in sorted(os.listdir(folder)):
            if name.endswith(".md"):
                path = os.path.join(folder, name)
                if os.path.basename(path) in ("PORT.md", "PORTING-LEFT.md"):
                    continue
                text = read(path).replace("specs/inside", "specs/Inside")
                out[path] = re.sub(r"\x60[^\x60\n]*\x60", lambda m: WORD.sub(lambda w: table.get(w.group(0), w.group(0)) + ("_lem" if LAWS.get(w.group(0)) == "" else ""), m.group(0)), text)
    if bad:
        for path, new, olds in bad:
            print(f"{path}: {', '.join(olds)} would all be {new}")
        return 1
    for path, text in out.items():
        if text != read(path):
            with open(path, "w", encoding="utf-8") as f:
                f.write(text)
    for c in CRATES:
        specs = os.path.join(root, "crates", c, "specs")
        for old, new in (("inside.antt", "Inside.antt"), ("inside", "Inside")):
            if os.path.exists(os.path.join(specs, old)):
                os.rename(os.path.join(specs, old), os.path.join(specs, new))
        lib = os.path.join(specs, "Lib.antt")
        if os.path.exists(lib):
            text = re.sub(r"(?m)^pub mod inside$", "pub mod Inside", read(lib))
            with open(lib, "w", encoding="utf-8") as f:
                f.write(text)
    print(f"{len(table)} names turned")
    return 0


if __name__ == "__main__":
    raise SystemExit(main(sys.argv[1:]))
