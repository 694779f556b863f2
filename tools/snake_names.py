#!/usr/bin/env python3
"""Gives this repository's own definitions and lemmas the spelling of today's Rattle: words in snake case, types in camel case.

usage: python3 tools/snake_names.py      at the top, once, behind the toolchain's own script

Names of the toolchain's library and names that a check makes (goals, steps, invariants of loops) stay as they are, and so do
functions of src/, strings, comments, inputs and outputs."""
import os
import re
import sys

NAME = re.compile(r"(?<![\w'◌≡≤<+*/&|=-])[A-Za-z][\w']*(?:-[\w'ℕℤ]+)+(?![\w'-])")
LIBRARY = re.compile(r"^(?:ghost )?(?:pub )?use (?:Rattle\.std|borrow|native|Prim|mathlib|lib)\b(.*)", re.M)
DEFINED = re.compile(r"^(?:(?:abbrev|pub|unfoldable|data|record|ruleset)\s+)*([^\s:{(]+)\s*(?:[({].*)?:(?!.*\b(?:goal|given)\.)", re.M)
FIELD = re.compile(r"^\s+pub ([^\s:]+)\s*:", re.M)

# two definitions that would fall together: this one speaks of the journal of a run
BY_HAND = {"runs": {"Journal-reads-back": "RunJournalReadsBack"}}


def texts(endings):
    for folder, dirs, files in os.walk("crates"):
        dirs[:] = sorted(d for d in dirs if d not in ("out", "must-fail"))
        for name in sorted(files):
            if name.endswith(endings):
                yield os.path.join(folder, name)


def read(path):
    with open(path, encoding="utf-8") as f:
        return f.read()


def respelled(name):
    parts = name.split("-")
    if parts[0][0].isupper():
        return "".join(p[0].upper() + p[1:] for p in parts)
    return "_".join(parts)


def is_of_function(path):
    """Whether a file answers a check's goals, and so cites the names that the check made."""
    return os.path.basename(path) in ("Answers.antt", "Invariants.antt", "Choices.antt", "Proof.antt")


def library_names():
    found = set()
    for path in texts((".rt", ".antt")):
        for line in LIBRARY.findall(read(path)):
            found |= set(NAME.findall(line))
    return found


def own_names(library):
    found = set()
    for path in texts((".antt",)):
        text = re.sub(r"--.*", "", read(path))
        if is_of_function(path):
            found |= {n for n in DEFINED.findall(text) if NAME.fullmatch(n)}
        else:
            found |= {n for n in FIELD.findall(text) if NAME.fullmatch(n)}
            found |= set(NAME.findall(text))
    return found - library


def turned(line, names, mark):
    """A line with its names respelled, but for strings and the comment behind `mark`."""
    parts = re.split(r'("(?:[^"\\]|\\.)*")', line)
    for i in range(0, len(parts), 2):
        code, found, said = parts[i].partition(mark)
        parts[i] = NAME.sub(lambda m: names.get(m.group(0), m.group(0)), code) + found + said
        if found:
            break
    return "".join(parts)


def main():
    library = library_names()
    own = own_names(library)
    spelled = {}
    for name in sorted(own):
        other = spelled.setdefault(respelled(name), name)
        if other != name:
            sys.exit(f"{name} and {other} fall together")
    names = {old: new for new, old in spelled.items()}
    changed = 0
    for path in texts((".rt", ".antt")):
        crate = path.split(os.sep)[1]
        here = dict(names, **BY_HAND.get(crate, {}))
        text = read(path)
        mark = "//" if path.endswith(".rt") else "--"
        after = "\n".join(turned(line, here, mark) for line in text.split("\n"))
        if after != text:
            with open(path, "w", encoding="utf-8") as f:
                f.write(after)
            changed += 1
    print(f"{len(names)} names, {changed} files")


main()
