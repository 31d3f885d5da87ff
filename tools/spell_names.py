#!/usr/bin/env python3
"""Spells the repository's own definitions and lemmas as today's Rattle does: words in snake case, types and modules in camel case.

usage: python3 tools/spell_names.py            at the top of the repository, once, after port.py
       python3 tools/spell_names.py --list     only prints what it would rename

`addEdge` becomes `add_edge`; a lemma `add-edge`, whose name that then is, becomes `add_edge_lem`. A dash stays where it joins the name of a
definition to another name (`length-put`). Names of src/, exported C names, strings, inputs and outputs stay.
"""
import collections
import os
import re
import sys

NAME = re.compile(r"(?<![\w'])[^\W\d][\w'-]*")
DECLARED = re.compile(r"^\s*(?:(?:abbrev|unfoldable|pub|data|record)\s+)*([^\W\d][\w'-]*)(?:\s+\{[^}]*\}|\s+\([^)]*\))*\s*:\s")
CAMEL = re.compile(r"[a-z0-9][A-Z]")
# words of the library that a lemma's left side begins with
STD = set("length take drop set get sum append map filter fold find position reverse insert remove swap replicate slice_index get_or".split())
PROOF_FILES = ("Proof.antt", "Answers.antt", "Invariants.antt")


def snake(part):
    if not part or not (part[0].islower() or part[0] == "_") or not CAMEL.search(part):
        return part
    part = re.sub(r"([a-z0-9])([A-Z])", r"\1_\2", part)
    part = re.sub(r"([A-Z])([A-Z][a-z])", r"\1_\2", part)
    return part.lower()


def files(root):
    for top in ("crates",):
        for folder, dirs, names in os.walk(os.path.join(root, top)):
            dirs[:] = sorted(d for d in dirs if d not in ("out", ".git"))
            for f in sorted(names):
                if f.endswith((".antt", ".rt", ".edit")):
                    yield os.path.join(folder, f)


def declared(root):
    specs, lemmas, rust = set(), set(), set()
    for p in files(root):
        if not p.endswith(".antt") or os.path.basename(p) in PROOF_FILES:
            continue
        for line in open(p, encoding="utf-8"):
            if line.lstrip().startswith("--"):
                continue
            m = DECLARED.match(line)
            if m:
                # what stands indented is a field, or a lemma of a section
                stated = "/specs/" not in p or line[0] == " "
                (lemmas if stated else specs if "/original/" not in p else rust).add(m.group(1))
    return specs, lemmas - specs, rust - specs - lemmas


def library(root):
    """Names that come from elsewhere: they keep their spelling."""
    found = set()
    for p in files(root):
        if p.endswith(".antt") or p.endswith(".rt"):
            for line in open(p, encoding="utf-8"):
                m = re.match(r"\s*(?:pub )?(?:ghost )?use ((?!Rattle\.)[\w·'-]+(?:\.[\w·'◌-]+)*|Rattle\.(?:std|io|libc|core)\b[^{;\s]*)\.?(?:\{(.*)\})?", line)
                if m and m.group(2):
                    found |= set(NAME.findall(m.group(2)))
    return found


def renames(root):
    specs, lemmas, rust = declared(root)
    lib = library(root)
    known = {snake(n).replace("-", "_") for n in specs} | {snake(n) for n in specs} | STD
    words = known | {snake(n) for n in lemmas if "-" not in n} | lib
    out, taken = {}, {n for n in specs if "-" not in n and snake(n) == n}
    for n in sorted(specs | lemmas, key=lambda n: (n not in specs, "-" in n, n)):
        if n in lib:
            continue
        if "-" not in n:
            new = snake(n)
        else:
            parts = [snake(p) for p in n.split("-")]
            new = "_".join(parts)
            if n in lemmas and n not in specs:
                for k in range(len(parts) - 1, 0, -1):
                    a, b = "_".join(parts[:k]), "_".join(parts[k:])
                    if a in known and b in words:
                        new = a + "-" + b
                        break
        if new == n and (n in specs or n not in taken):
            taken.add(n)
            continue
        if new in taken:
            new += "_lem"
        if new in taken:
            print(f"two names fall together: {n} and {new}")
        taken.add(new)
        out[n] = new
    # graph.rs's own names are those of its functions: where both are brought in, its are written behind their module
    out |= {n: snake(n).replace("-", "_") for n in rust if snake(n).replace("-", "_") != n}
    return out, lib


def turn_word(w, names, lib):
    if w in names:
        return names[w]
    if w in lib or "-" in w:
        return w
    return snake(w)


def turn(text, names, lib):
    """Outside strings."""
    pieces = re.split(r'("(?:\\.|[^"\\\n])*")', text)
    for i in range(0, len(pieces), 2):
        pieces[i] = NAME.sub(lambda m: turn_word(m.group(0), names, lib), pieces[i])
    return "".join(pieces)


def turn_rt(text, names, lib):
    """Camel words alone, outside strings; a dash in source is no part of a name but in a `ghost use`."""
    out = []
    for line in text.split("\n"):
        if re.match(r"\s*(old: |new: )?ghost use ", line):
            out.append(turn(line, names, lib))
            continue
        pieces = re.split(r'("(?:\\.|[^"\\])*")', line)
        for i in range(0, len(pieces), 2):
            pieces[i] = re.sub(r"(?<![\w'])[^\W\d][\w']*", lambda m: turn_word(m.group(0), names, lib) if CAMEL.search(m.group(0)) else m.group(0), pieces[i])
        out.append("".join(pieces))
    return "\n".join(out)


def turn_page(text, names):
    """In a page a name stands between backticks."""
    return re.sub(r"`([^`\n]+)`", lambda m: "`" + NAME.sub(lambda w: names.get(w.group(0), w.group(0)), m.group(1)) + "`", text)


def main():
    root = "."
    names, lib = renames(root)
    if "--list" in sys.argv:
        for a, b in sorted(names.items()):
            print(a, b)
        return
    for p in files(root):
        old = open(p, encoding="utf-8").read()
        if p.endswith(".antt"):
            new = turn(old, names, lib)
            before, after = set(NAME.findall(old)), collections.defaultdict(set)
            for w in before:
                after[turn_word(w, names, lib)].add(w)
            for w, ws in sorted(after.items()):
                if len(ws) > 1:
                    print(f"look: {p}: {' and '.join(sorted(ws))} are both {w}")
        else:
            new = turn_rt(old, names, lib)
        open(p, "w", encoding="utf-8").write(new)
    for folder in (".", "docs", "docs/landings", "bench"):
        for f in sorted(os.listdir(folder)):
            p = os.path.join(folder, f)
            if f.endswith(".md") and os.path.isfile(p):
                old = open(p, encoding="utf-8").read()
                new = turn_page(old, names)
                if new != old:
                    open(p, "w", encoding="utf-8").write(new)


main()
