#!/usr/bin/env python3
"""Writes the repository's own definitions and lemmas in one spelling: words in snake case.

usage: tools/respell.py [--list]

It reads which names the files of specs/ and proofs/*.antt declare, and rewrites those that have a dash or a capital within,
in every .antt and .rt file, in the must-fail edits and, in backticks, in docs/ and README.md. A type keeps its camel case.
What Rattle makes (names of goals, places and steps) and what src/ declares is left. --list prints the table and writes nothing.
A second run changes nothing. It ran once, behind the toolchain's port.py, which had respelt some of the names."""
import glob
import os
import re
import sys

os.chdir(os.path.join(os.path.dirname(os.path.abspath(__file__)), ".."))
DECLARED = re.compile(r"^\s*(?:(?:pub|abbrev|unfoldable|record|data|ruleset)\s+)*([^\s(){};:,.|]+)\s*(?:\{[^}]*\}\s*)?:(?=\s)")
# Lemmas that would have the name of the definition that they speak of.
LEMMAS = (
    "block-slot blocks-on content-over cut-past decimal-text delete-followed dotted-text end-number enter-followed free-block "
    "free-chain free-zero has-entry is-page key-groups key-number label-in laid-if last-slot least-from legal-call missing-label "
    "new-bytes no-leading-zero on-first own-slots page-call pairs-on prime-above program-bytes read-basic read-overflow "
    "relabel-followed retrieve-basic retrieve-overflow slot-in slot-put sound-walk store-overflow three-bits"
).split()


def text(path):
    with open(path, encoding="utf-8") as f:
        return f.read()


def snake(name):
    name = name.replace("getD", "get_or").replace("-", "_")
    name = re.sub(r"([a-z0-9])([A-Z])", r"\1_\2", name)
    return name.lower() if name[0].islower() else name


def declared():
    found = set()
    for f in glob.glob("crates/*/specs/**/*.antt", recursive=True) + glob.glob("crates/*/proofs/*.antt"):
        for line in text(f).split("\n"):
            m = DECLARED.match(line)
            if m and not line.lstrip().startswith("--"):
                found.add(m.group(1))
    return found


def table():
    names = {n for n in declared() if re.match(r"^[a-z][A-Za-z0-9_'-]*$", n)}
    return {n: snake(n) + ("_lem" if n in LEMMAS else "") for n in names if snake(n) != n}


TOKEN = re.compile(r"(?<![\w'′·-])[a-z][\w'-]*(?![\w'′-])")


def turned(line, names):
    return TOKEN.sub(lambda m: names.get(m.group(0), m.group(0)), line)


def in_ticks(line, names):
    return re.sub(r"`[^`]*`", lambda m: turned(m.group(0), names), line)


def rewrite(path, names):
    mark = "--" if path.endswith(".antt") else "//"
    out = []
    for line in text(path).split("\n"):
        if path.endswith(".md"):
            out.append(in_ticks(line, names))
            continue
        code, sep, comment = line.partition(mark)
        if path.endswith(".rt") and '"' in code:
            out.append(line)
        else:
            out.append(turned(code, names) + sep + in_ticks(comment, names))
    new = "\n".join(out)
    if new != text(path):
        with open(path, "w", encoding="utf-8") as f:
            f.write(new)


def main():
    names = table()
    if "--list" in sys.argv:
        for old in sorted(names):
            print(old, names[old])
        return
    for path in glob.glob("crates/**/*.antt", recursive=True) + glob.glob("crates/*/src/*.rt") + glob.glob("crates/*/must-fail/*.edit"):
        rewrite(path, names)
    for path in glob.glob("docs/**/*.md", recursive=True) + ["README.md"]:
        rewrite(path, names)


main()
