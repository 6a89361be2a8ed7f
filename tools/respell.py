#!/usr/bin/env python3
"""respell: brings the repository's own names of definitions and lemmas to snake case, once, after /opt/rattle/port/port.py.

usage: python3 tools/respell.py [--check]      at the top of the repository

A name in camel case (bitLength) and a name with dashes (low-bit) that a file of specs/ or proofs/ declares is written in snake case, wherever an
.antt file, a clause or an import of an .rt file, an edit or a paper has it. Where a lemma would then have a definition's name it gets _lem.
A file Contracts.antt of specs/ becomes Clauses.antt, since Rattle now makes a module of that name. Names of Rust code, strings, inputs and outputs
stay. Names that Rattle makes (Need-.., After-..) are none of these and are left to tools/turn_proofs.py.
"""

import collections
import glob
import os
import re
import sys

TOKEN = re.compile(r"[^\s(){}\[\];,.\"`]+")
DECLARED = re.compile(r"^\s*(?:(?:pub|abbrev|unfoldable|opaque|private) )*(?:(?:record|data) )?([^\s(){}\[\];,.\"]+)((?: \([^()]*\)| \{[^{}]*\}| \((?:[^()]|\([^()]*\))*\))*) : ")
CAMEL = re.compile(r"^[a-zα-ω][\w']*?[A-Z]")
IMPORT = re.compile(r"^\s*(?:pub )?(?:ghost )?use ([^\s{;]+?)(?:\.\{(.*)\};?| as (\S+))?;?\s*$")


def snake(name):
    name = name.replace("-", "_").replace("′", "'")
    name = re.sub(r"(?<=[a-z0-9₀-₉'])([A-Z]+)(?=[A-Z][a-z])|(?<=[a-z0-9₀-₉'])([A-Z]+)", lambda m: "_" + (m[1] or m[2]).lower() + ("_" if m[1] else ""), name)
    return name


def antt_files():
    return sorted(f for part in ("specs", "proofs") for f in glob.glob(f"crates/*/{part}/**/*.antt", recursive=True))


def code(line):
    """A line without its comment."""
    return "" if line.lstrip().startswith("--") else line.split(" -- ")[0]


def declared():
    """Each own name with the places that declare it."""
    names = collections.defaultdict(set)
    for path in antt_files():
        with open(path, encoding="utf-8") as f:
            for line in f:
                m = DECLARED.match(code(line.rstrip("\n")) + " ")
                if m:
                    names[m[1]].add(path)
    return names


def table():
    names = declared()
    rename = {}
    for name in names:
        if "-" in name and re.match(r"^[A-Za-zα-ω0-9⊎∷ℤ]", name) and not name.startswith(("Need-", "After-", "Then-", "Else-", "Inv-")):
            rename[name] = snake(name)
        elif CAMEL.match(name):
            rename[name] = snake(name)
    meant = collections.defaultdict(set)
    for name in names:
        meant[rename.get(name, name)].add(name)
    for new, olds in sorted(meant.items()):
        if len(olds) < 2:
            continue
        words = [o for o in olds if any("/specs/" in p for p in names[o])] or [o for o in olds if CAMEL.match(o)] or [sorted(olds)[0]]
        lead = next((o for o in words if CAMEL.match(o)), words[0])
        for old in olds - {lead}:
            to = new + "_lem"
            while to in meant:
                to += "'"
            rename[old] = to
            print(f"respell: {old} -> {to}, beside {lead} -> {new}")
    return {a: b for a, b in rename.items() if a != b}, names


def turned(text, rename, steps=False):
    """The text with its names turned; where it has steps of code, a field that has a step's name keeps it."""

    def to(m):
        new = rename.get(m[0], m[0])
        return m[0] if steps and new.endswith("_lem") and text[m.start() - 1 : m.start()] == "." else new

    return TOKEN.sub(to, text)


def turn_antt(text, rename, steps):
    out = []
    for line in text.split("\n"):
        if line.lstrip().startswith("--"):
            line = re.sub(r"`[^`]*`", lambda m: turned(m[0], rename), line)
            line = TOKEN.sub(lambda m: rename.get(m[0], m[0]) if CAMEL.match(m[0]) else m[0], line)
        else:
            line = turned(line, rename, steps)
        out.append(line)
    return "\n".join(out)


def turn_rt(text, rename):
    """Clauses and imports of definitions; a Rust name is never one of them, since those are in snake case already."""
    out, depth = [], 0
    for line in text.split("\n"):
        bare = line.strip()
        if bare.startswith("//"):
            line = TOKEN.sub(lambda m: rename.get(m[0], m[0]) if CAMEL.match(m[0]) else m[0], line)
        elif depth or re.match(r"(ghost|requires|ensures)\b", bare):
            line = turned(line, rename)
            depth += line.count("{") - line.count("}")
            if depth < 0 or bare.endswith(";"):
                depth = 0
        out.append(line)
    return "\n".join(out)


def main():
    check = "--check" in sys.argv
    rename, names = table()
    print(f"respell: {len(rename)} names")
    write = {}
    for path in antt_files():
        with open(path, encoding="utf-8") as f:
            write[path] = turn_antt(f.read(), rename, path.endswith("/Proof.antt"))
    for path in sorted(glob.glob("crates/*/src/**/*.rt", recursive=True)):
        with open(path, encoding="utf-8") as f:
            write[path] = turn_rt(f.read(), rename)
    for path in sorted(glob.glob("crates/*/must-fail/*.edit")):
        with open(path, encoding="utf-8") as f:
            write[path] = "\n".join(turned(l, rename) if re.match(r"(old|new): ", l) else l for l in f.read().split("\n"))
    papers = glob.glob("*.md") + glob.glob("docs/**/*.md", recursive=True) + glob.glob("clients/**/*.md", recursive=True) + ["include/urszovely.h", "include/urszovely.hpp"]
    for path in sorted(papers):
        with open(path, encoding="utf-8") as f:
            write[path] = re.sub(r"`[^`\n]*`", lambda m: turned(m[0], rename), f.read())
    moved = {}
    for path in glob.glob("crates/*/specs/Contracts.antt"):
        moved[path] = path.replace("Contracts.antt", "Clauses.antt")
    for path in write:
        t = write[path]
        t = re.sub(r"(Rattle\.\w+\.specs\.)Contracts\b", r"\1Clauses", t)
        if path.endswith("specs/Lib.antt"):
            t = re.sub(r"(?m)^(pub )?mod Contracts$", r"\1mod Clauses", t)
        if path.endswith(".md"):
            t = t.replace("specs/Contracts.antt", "specs/Clauses.antt")
        if path.endswith(".edit"):
            t = t.replace("file: specs/Contracts.antt", "file: specs/Clauses.antt")
        write[path] = t
    # what falls together in one file
    for path, t in write.items():
        if not path.endswith((".antt", ".rt")):
            continue
        from_ = collections.defaultdict(set)
        for line in t.split("\n"):
            m = IMPORT.match(line)
            if m and m[2]:
                for n in m[2].split(","):
                    n = n.strip().split(" as ")[-1]
                    from_[n].add(m[1])
        for n, where in from_.items():
            if len(where) > 1:
                print(f"look: {path}: {n} comes from {', '.join(sorted(where))}")
        if path.endswith(".antt"):
            own = {m[1] for m in (DECLARED.match(code(l) + " ") for l in t.split("\n")) if m}
            for n in own & set(from_):
                print(f"look: {path}: {n} is declared and comes from {', '.join(sorted(from_[n]))}")
    if check:
        return
    for path, t in write.items():
        with open(path, "w", encoding="utf-8") as f:
            f.write(t)
    for a, b in moved.items():
        os.rename(a, b)


main()
