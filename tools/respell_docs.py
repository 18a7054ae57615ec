#!/usr/bin/env python3
"""Spells the names of definitions and laws in the papers as the crates have them now: words in snake case. Beside tools/respell.py, which turned the crates.

usage: python3 tools/respell_docs.py [--list] PAPER..      at the top of the repository; --list prints what would be turned, and writes nothing

It goes by code spans alone (`..`), and there by whole words in camel case or with dashes. A word turns where the crates declare a name that differs from it only
in dashes, underlines and capitals, and none that is the word itself; in `crate/File.name` only that file's names count. A name that fell together with another
ends in _lem now. What turns in no way that is clear is told.
"""

import os
import re
import sys

DECLARED = re.compile(r"(?m)^ *(?:(?:abbrev|pub|unfoldable|private|record|data) )*([^\s(){}.;,@\"«»:]+)(?: [^\s(){}.;,@\"«»:]+)*(?: [({][^(){}\n]*(?:\([^()\n]*\)[^(){}\n]*)*[)}])* :(?= |$)")
WORD = re.compile(r"[^\W\d_][\w'′]*(?:-[\w'′]+)*")


def key(name):
    return re.sub(r"[-_]", "", name.replace("′", "'")).lower()


def declared():
    """The names that each file of specs/ and proofs/ declares, by crate/File."""
    found = {}
    for at, dirs, names in os.walk("crates"):
        dirs[:] = sorted(it for it in dirs if it != "out")
        steps = at.split("/")
        if len(steps) < 3 or steps[2] not in ("specs", "proofs"):
            continue
        for name in sorted(it for it in names if it.endswith(".antt")):
            with open(f"{at}/{name}", encoding="utf-8") as it:
                found.setdefault("/".join([steps[1], *steps[3:], name[: -len(".antt")]]), set()).update(DECLARED.findall(it.read()))
    return found


FILES = declared()
ALL = {}
for names in FILES.values():
    for it in names:
        ALL.setdefault(key(it), set()).add(it)
EVERY = {it for names in FILES.values() for it in names}


def turned(word, names, by_key):
    """The name that the word stands for now; the word itself where it stays; None where that is not clear."""
    if word in names:
        return word
    # (a type is never meant by a word that begins small)
    found = {it for it in by_key(key(word)) if it in names and it[0].isupper() == word[0].isupper()} or {it for it in by_key(key(word) + "lem") if it in names}
    return word if not found else found.pop() if len(found) == 1 else None


def main(words):
    is_list, papers = "--list" in words, [it for it in words if it != "--list"]
    unclear = []
    for paper in papers:
        with open(paper, encoding="utf-8") as it:
            text = it.read()
        seen = {}

        def of_file(match):
            names = FILES.get(match[1])
            if names is None:
                unclear.append(f"{paper}: there is no file {match[1]}, of which it names {match[2]}")
                return f"{match[1]}.{match[2]}"
            new = turned(match[2], names, lambda k: {it for it in names if key(it) == k})
            if new is None or new not in names:
                unclear.append(f"{paper}: {match[0]} is not there")
                return f"{match[1]}.{match[2]}"
            seen[match[2]] = new
            return f"{match[1]}.{new}"

        def of_word(match):
            word = match[0]
            if not ("-" in word or re.search(r"[a-z0-9][A-Z]", word)) or word[0].isupper() or word in EVERY:
                return word
            new = turned(word, EVERY, lambda k: ALL.get(k, set()))
            if new is None:
                unclear.append(f"{paper}: {word} may be any of {' '.join(sorted(ALL.get(key(word), set()) | ALL.get(key(word) + 'lem', set())))}")
                return word
            if new != word:
                seen[word] = new
            return new

        def of_span(match):
            span = match[0]
            whole = re.fullmatch(r"`((?!specs/|proofs/)[a-z]\w*/[A-Z]\w*)\.([^`\s]+)`", span)
            if whole:
                return f"`{of_file(whole)}`"
            if re.search(r"[!>]|::|^`(report|text): |\.(md|c|h|rt|antt|edit|txt|book)\b|^`\.?/|--", span):
                return span
            return WORD.sub(of_word, span)

        new = re.sub(r"`[^`\n]+`", of_span, text)
        if is_list:
            for it in sorted(seen.items()):
                if it[0] != it[1]:
                    print(paper, *it)
        elif new != text:
            with open(paper, "w", encoding="utf-8") as it:
                it.write(new)
        print(f"respell_docs: {paper}: {sum(a != b for a, b in seen.items())} names", file=sys.stderr)
    for it in unclear:
        print(f"respell_docs: unclear: {it}", file=sys.stderr)


if __name__ == "__main__":
    main(sys.argv[1:])
