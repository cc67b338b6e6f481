#!/usr/bin/env python3
"""Gives the definitions and lemmas of this repository the spelling of today's Rattle: words joined by underscores.

usage: python3 tools/respell.py     once, at the top, after port.py

It renames what crates/*/specs and crates/*/proofs declare under a name with a dash, wherever it is cited in crates/.
Names that Rattle makes (goals, steps, arms, invariants, measures) keep their dashes, and so do names of the library.
"""

import os
import re

SIGNATURE = re.compile(
    r"^(\s*)(?:(?:abbrev|unfoldable|pub|record|data)\s+)*"
    r"([^\s:(){}.;,\[\]]+)((?:\s*(?:\([^()]*(?:\([^()]*\)[^()]*)*\)|\{[^{}]*\}))*)\s*:(?:\s+(.*))?$"
)
# a goal, an invariant or a measure: its type is the name of a goal
MADE = re.compile(r"(goal|given|needs|need)\.")
# a word of antt's text: what stands between spaces and brackets
WORD = re.compile(r"[^\s(){}\[\].,;:]+")


def files():
    for folder, dirs, names in os.walk("crates"):
        dirs[:] = sorted(d for d in dirs if d != "out")
        for name in sorted(names):
            if name.endswith((".antt", ".rt")):
                yield os.path.join(folder, name)


def declared():
    """The names with a dash that the repository declares, and those of them that are fields."""
    names, fields = set(), set()
    for path in files():
        if not path.endswith(".antt"):
            continue
        record = False
        with open(path, encoding="utf-8") as text:
            for line in text:
                if line.strip().startswith("--"):
                    continue
                # other names for imports, and names of steps inside a proof
                names.update(re.findall(r" as ([a-z]\w*(?:-\w+)+)(?=[,}])", line) if line.startswith("use ") else [])
                names.update(re.findall(r"\blet ([a-z]\w*(?:-\w+)+) [:=]", line))
                if line.strip() and not line[0].isspace():
                    record = bool(re.match(r"(pub |abbrev )*(record|data) ", line))
                found = SIGNATURE.match(line.rstrip("\n"))
                if not found or "-" not in found.group(2) or MADE.match(found.group(4) or ""):
                    continue
                names.add(found.group(2))
                if record and found.group(1):
                    fields.add(found.group(2))
    return names, fields


def respelled(line, names, fields):
    def word(found):
        name = found.group(0)
        if name not in names:
            return name
        before = line[: found.start()]
        if before.endswith("."):
            path = re.search(r"[^\s(){}\[\],;]*$", before).group(0)
            if not path.startswith("Rattle.") and name not in fields:
                return name
        return name.replace("-", "_")

    return WORD.sub(word, line)


def main():
    names, fields = declared()
    for path in files():
        with open(path, encoding="utf-8") as text:
            old = text.read()
        comment = "--" if path.endswith(".antt") else "//"
        new = "\n".join(
            line if line.strip().startswith(comment) else respelled(line, names, fields) for line in old.split("\n")
        )
        if new != old:
            with open(path, "w", encoding="utf-8") as text:
                text.write(new)
    print(f"respell: {len(names)} names, {len(fields)} of them fields")


main()
