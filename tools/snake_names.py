#!/usr/bin/env python3
"""Spells the repository's own definitions and lemmas in snake case, by the table snake_names.tsv beside it.

    python3 tools/snake_names.py            in the repository, once, after the kit's port.py

A row is an old name and a new one; `name@path` holds in that file alone. Turned are the files of specs/ and proofs/, and in
src/ the clauses, ghost lines and comments, since only they can hold such a name. Text in quotes stays, and so does what
follows a dot: a field, or a name that the check makes.
"""

import os
import re
import sys

HERE = os.path.dirname(os.path.realpath(__file__))
QUOTED = re.compile(r'"(?:[^"\\\n]|\\.)*"')
NAME = re.compile(r"(?<![\w'\u00b7.-])[A-Za-z][\w'\u00b7-]*")


def table():
    everywhere, alone = {}, {}
    with open(os.path.join(HERE, "snake_names.tsv"), encoding="utf-8") as rows:
        for row in rows:
            old, new = row.rstrip("\n").split("\t")
            name, _, path = old.partition("@")
            (alone.setdefault(path, {}) if path else everywhere)[name] = new
    return everywhere, alone


def turned(text, names):
    """The text with its names turned, but for those in quotes."""
    parts, at = [], 0
    for quoted in QUOTED.finditer(text):
        parts += [NAME.sub(lambda m: names.get(m[0], m[0]), text[at:quoted.start()]), quoted[0]]
        at = quoted.end()
    return "".join(parts) + NAME.sub(lambda m: names.get(m[0], m[0]), text[at:])


def main():
    everywhere, alone = table()
    count = 0
    for folder, dirs, files in os.walk("crates"):
        dirs[:] = sorted(d for d in dirs if d != "out")
        for file in sorted(files):
            path = os.path.join(folder, file)
            if not file.endswith((".rt", ".antt")):
                continue
            with open(path, encoding="utf-8") as it:
                text = it.read()
            # First the rows of this file alone: their old names may be what another row turns to.
            new = turned(turned(text, alone.get(path, {})), everywhere)
            if new != text:
                with open(path, "w", encoding="utf-8") as it:
                    it.write(new)
                count += 1
    print(f"{count} files turned")
    return 0


if __name__ == "__main__":
    sys.exit(main())
