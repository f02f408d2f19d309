#!/usr/bin/env python3
"""Brings the definitions, facts and lemmas of this repository to the spelling of today's Rattle.

usage: python3 tools/respell.py [ROOT]      once, after the port's own script, at the top of the repository

The table tools/respelled.txt has the old and the new name of each, made by these rules: a function, a field, a lemma is in
snake case; a statement or a type is in upper camel case, with no dash; a lemma that would get the name of a definition
ends in `_lem`. Functions of src/, strings, inputs and outputs keep their names.
Pages are turned too, where they name a definition: a name with a dash only between backticks.
"""

import os
import re
import sys

ROOT = sys.argv[1] if len(sys.argv) > 1 else "."
HERE = os.path.dirname(os.path.realpath(__file__))
NAME = re.compile(r"[A-Za-z_][A-Za-z0-9_'₀-₉]*(?:-[A-Za-z0-9_'₀-₉]+)*")
STRING = re.compile(r'"(?:[^"\\]|\\.)*"')


def table():
    pairs = {}
    with open(os.path.join(HERE, "respelled.txt"), encoding="utf-8") as f:
        for line in f:
            if not line.startswith("#"):
                old, new = line.split()
                pairs[old] = new
    return pairs


def turned(text, pairs):
    return NAME.sub(lambda m: pairs.get(m.group(0), m.group(0)), text)


def outside_strings(line, pairs):
    parts, at = [], 0
    for m in STRING.finditer(line):
        parts += [turned(line[at : m.start()], pairs), m.group(0)]
        at = m.end()
    return "".join(parts) + turned(line[at:], pairs)


def in_source(text, pairs, plain):
    """Clauses and code by every name; comments by those names that are no English words."""
    lines = []
    for line in text.split("\n"):
        lines.append(outside_strings(line, plain if line.lstrip().startswith("//") else pairs))
    return "\n".join(lines)


def in_page(text, pairs, plain):
    quoted = re.sub(r"`[^`\n]*`", lambda m: turned(m.group(0), pairs), text)
    return turned(quoted, plain)


def main():
    pairs = table()
    plain = {o: n for o, n in pairs.items() if re.search("[A-Z]", o)}
    for folder, dirs, files in os.walk(ROOT):
        dirs[:] = [d for d in dirs if d not in ("out", "target", ".git", "tools")]
        for name in files:
            path = os.path.join(folder, name)
            if name.endswith(".antt"):
                turn = lambda t: turned(t, pairs)
            elif name.endswith((".rt", ".edit", ".patch")):
                turn = lambda t: in_source(t, pairs, plain)
            elif name.endswith(".md"):
                turn = lambda t: in_page(t, pairs, plain)
            else:
                continue
            with open(path, encoding="utf-8") as f:
                text = f.read()
            new = turn(text)
            if new != text:
                with open(path, "w", encoding="utf-8") as f:
                    f.write(new)


main()
