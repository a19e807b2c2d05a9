#!/usr/bin/env python3
"""Brings the project's own definitions and lemmas to the spelling of today's Rattle: words in snake case, fields and constructors too.

    tools/respell.py [--names]     once, after the toolchain's port.py; --names prints the table of old and new names and changes nothing

It goes by words, as antt parts them, so that a name keeps its place everywhere: in definitions, proofs, clauses of the code, must-fail
edits and, between back quotes, in the pages. What is written in src/ outside clauses has no such name. Names that a rule would make
fall together, a field beside a definition or a lemma beside what it speaks of, are in APART.
"""

import glob
import re
import sys

NAME = r"[^\s:(){}\[\];.,=|↦`'\"]+"
WORD = re.compile(r"[^\s(){}\[\];.,|`\"]+")
# a lemma that would have its definition's name, and names whose first part is a name of the library that has a new one
APART = {
    "load_full": "load_full_lem",
    "put_three": "put_three_lem",
    "fact-places": "fact_places_are",
    "in-work": "at_work",
    "places-in": "places_inside",
    "runRefused": "refuse_run",
    "getD-upto": "get_or-upto",
    "getD-upto-past": "get_or-upto-past",
    "getD-highest": "get_or-highest",
}


def snake(name):
    parts = [re.sub(r"(?<=[a-z0-9])([A-Z])", lambda m: "_" + m.group(1).lower(), p) if p[:1].islower() else p for p in name.split("-")]
    return "-".join(parts)


def declared(text):
    """The names that a file declares, and of those the fields and constructors."""
    names, members = set(), set()
    inside = None
    for line in text.split("\n"):
        if not line.strip() or line.lstrip().startswith("--"):
            continue
        indent = len(line) - len(line.lstrip())
        if inside is not None and indent <= inside:
            inside = None
        head = re.match(r"\s*(?:(?:unfoldable|abbrev|pub) )*(record|data) (" + NAME + ")", line)
        if head:
            inside = indent
            names.add(head.group(2))
            continue
        one = re.match(r"\s*(?:(?:unfoldable|abbrev|pub) )*(" + NAME + r") :(?:\s|$)", line)
        if one:
            names.add(one.group(1))
            if inside is not None and indent == inside + 2:
                members.add(one.group(1))
    return names, members


def table(files):
    names, members = set(), set()
    for path in files:
        with open(path, encoding="utf-8") as f:
            n, m = declared(f.read())
        names |= n
        members |= m
    new = {}
    for name in names:
        to = snake(name.replace("-", "_") if name in members else name)
        if to != name:
            new[name] = to
    new.update(APART)
    return new


def respell(text, new, quoted):
    def word(m):
        return new.get(m.group(0), m.group(0))

    if quoted:
        return re.sub(r"`[^`\n]*`", lambda m: WORD.sub(word, m.group(0)), text)
    return WORD.sub(word, text)


def main(argv):
    antt = sorted(glob.glob("crates/**/*.antt", recursive=True))
    new = table([p for p in antt if "/out/" not in p])
    if argv == ["--names"]:
        for name in sorted(new):
            print(name, new[name])
        return
    code = sorted(glob.glob("crates/**/*.rt", recursive=True) + glob.glob("crates/*/must-fail/*.edit"))
    pages = sorted(glob.glob("*.md") + glob.glob("docs/**/*.md", recursive=True))
    for paths, quoted in ((antt + code, False), (pages, True)):
        for path in paths:
            with open(path, encoding="utf-8") as f:
                old = f.read()
            text = respell(old, new, quoted)
            if text != old:
                with open(path, "w", encoding="utf-8") as f:
                    f.write(text)


if __name__ == "__main__":
    main(sys.argv[1:])
