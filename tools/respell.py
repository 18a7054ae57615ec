#!/usr/bin/env python3
"""Spells the repository's own definitions and lemmas as today's Rattle spells its own: words in snake case. Run once, after the kit's port.py.

usage: python3 tools/respell.py [--list]        at the top of the repository; --list prints the renaming and what falls together, and writes nothing

A name is turned where an .antt file of specs/ or proofs/ declares it, in camel case or with dashes between plain words. What stays: a name with a capital that is no
camel case (a type joined to a name, as Nearer-wf), and what a function's own proof (Proof.antt) declares, whose names are made anew from the goals of today.
It turns whole words alone: in .antt files, in the clauses and imports of .rt files, and in the lines of must-fail edits.
"""

import collections
import os
import re
import sys

WORD = re.compile(r"[^\s(){}.;,@\"«»`]+")
DECLARED = re.compile(r"(?m)^ *(?:(?:abbrev|pub|unfoldable|private|record|data) )*([^\s(){}.;,@\"«»]+(?: [^\s(){}.;,@\"«»:]+)*)(?: \{[^{}\n]*\})* :(?= |$)")
CLAUSE = re.compile(r"\b(?:requires|ensures)\*?\s*(?:\w+\s*)?\{|\bghost\s+\w+\s*:?\s*\{")
GHOST_USE = re.compile(r"ghost\s+use\b[^;]*;")
# lemmas that port.py gave the name that a definition has now
LEMMAS = "each_level ends_by going_on head_bytes held_on not_listed open_of stands_after".split()
# a field and two local lemmas, in files that do not cite the definition of that name
APART = ["in_bytes", "row_named"]


def files(root, kinds):
    for folder, dirs, names in os.walk(os.path.join(root, "crates")):
        dirs[:] = sorted(d for d in dirs if d != "out")
        for n in sorted(names):
            if n.endswith(kinds):
                yield os.path.join(folder, n)


def text(path):
    with open(path, encoding="utf-8") as f:
        return f.read()


def bare(t):
    return re.sub(r"(?<![^\s(){}.;,])--[^\n]*", "", t)


def lent(root):
    """The names that some file imports from a library: they stay."""
    own = set(os.listdir(os.path.join(root, "crates")))
    out = set()
    for p in files(root, (".antt", ".rt")):
        for m in re.finditer(r"\buse ([^\s;{]+)\.\{([^}]*)\}", text(p)):
            steps = m[1].split(".")
            if not (steps[0] == "Rattle" and steps[1] in own):
                out |= {w for it in m[2].split(",") for w in it.split()}
    return out


def snake(name):
    t = re.sub(r"(?<=[a-z0-9])([A-Z])([A-Z]*)", lambda m: "_" + (m[1] + m[2]).lower(), name)
    return t.replace("-", "_")


def camel(name):
    return re.match(r"[a-z][A-Za-z0-9_]*(-[a-z0-9_]+)*'*$", name) and re.search(r"[a-z0-9][A-Z]", name)


def dashed(name):
    return re.match(r"[a-z0-9_]+(-[a-z0-9_]+)+'*$", name)


def turned(root):
    """Each declared name that is turned, with its new spelling."""
    found, every = set(), set()
    for p in files(root, ".antt"):
        t = bare(text(p))
        own = os.path.basename(p) == "Proof.antt"
        for m in DECLARED.finditer(t):
            rest = t[m.end() : m.end() + 200]
            if re.match(r"\s*(?:\{[^{}]*\} → )?(tie|lts|goal|statement|stated)\b", rest):
                continue
            for name in m[1].split():
                every.add(name)
                if camel(name) or (dashed(name) and not own):
                    found.add(name)
    names, taken = {n: n + "_lem" for n in LEMMAS}, every - found - set(LEMMAS) - set(APART)
    found -= lent(root)
    # a definition has the plain name; a lemma that would have a definition's gets _lem, as in std
    for n in sorted(found, key=lambda n: (not camel(n), n)):
        new = snake(n)
        if new in taken:
            new += "_lem"
        taken.add(new)
        names[n] = new
    return names


def spans_rt(t):
    """The parts of a .rt file that are antt: clauses, ghost fields and ghost use items."""
    out = [(m.start(), m.end()) for m in GHOST_USE.finditer(t)]
    for m in CLAUSE.finditer(t):
        depth, i = 1, m.end()
        while depth and i < len(t):
            depth += {"{": 1, "}": -1}.get(t[i], 0)
            i += 1
        out.append((m.end(), i))
    return sorted(out)


def turn(t, names):
    return WORD.sub(lambda m: names.get(m[0], m[0]), t)


def turn_rt(t, names):
    out, at = [], 0
    for a, b in spans_rt(t):
        if a < at:
            continue
        out += [comment(t[at:a], names), turn(t[a:b], names)]
        at = b
    return "".join(out) + comment(t[at:], names)


def comment(t, names):
    """Outside clauses a name is the definition's only in a comment's code span."""
    return re.sub(r"//[^\n]*", lambda m: re.sub(r"`[^`\n]*`", lambda s: turn(s[0], names), m[0]), t)


def main(argv):
    root = os.getcwd()
    if os.path.exists(os.path.join(root, "docs", "PORT.md")) and "--list" not in argv:
        print("respell: docs/PORT.md is there, so this tree is turned already: a second run would rename eight definitions once more")
        return 1
    names = turned(root)
    back = collections.defaultdict(list)
    for old, new in names.items():
        back[new].append(old)
    together = {n: o for n, o in back.items() if len(o) > 1}
    if "--list" in argv:
        for old in sorted(names):
            print(old, names[old])
        for n, o in sorted(together.items()):
            print("together:", n, *o)
        for p in files(root, (".antt", ".rt")):
            t = text(p)
            if p.endswith(".antt"):
                words = set(WORD.findall(bare(t)))
                for old in sorted(words & set(names)):
                    if names[old] in words:
                        print("meets:", os.path.relpath(p, root), old, names[old])
            else:
                for a, b in spans_rt(t):
                    words = set(WORD.findall(t[a:b]))
                    for old in sorted(words & set(names)):
                        if names[old] in words:
                            print("meets:", os.path.relpath(p, root), old, names[old])
        return 0
    if together:
        print("names fall together:", *together)
        return 1
    n = 0
    for p in files(root, (".antt", ".rt", ".edit")):
        t = text(p)
        u = turn_rt(t, names) if p.endswith(".rt") else turn(t, names)
        if u != t:
            n += 1
            with open(p, "w", encoding="utf-8") as f:
                f.write(u)
    print(f"respell: {len(names)} names, {n} files")
    return 0


if __name__ == "__main__":
    raise SystemExit(main(sys.argv[1:]))
