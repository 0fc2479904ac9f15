#!/usr/bin/env python3
"""Brings the repository's own definitions and lemmas to today's spelling: types in camel case, all else in snake case.

usage: python3 tools/respell.py [--dry]     at the top of the repository, once, right after the kit's port.py

A name is the repository's own if a line of specs/ or proofs/ declares it and it answers no goal; names that Rattle makes
(loop-i-preserved) and names of the library (length-take-le) stay. Only names with a hyphen are turned. Comments and
strings stay. The script stops if two names would fall together.
"""

import glob
import re
import sys

DECLARES = re.compile(r"^\s*(?:(?:pub|abbrev|unfoldable|record|data)\s+)*([^\W\d][\w'-]*)((?:\s+(?:\([^()]*\)|\{[^{}]*\}))*)\s+:\s+(.*)$")
FACTS = {"NoLater-refl", "NoLater-trans"}  # lemmas on NoLater, not types


def files():
    for part in ("specs", "proofs"):
        yield from sorted(glob.glob(f"crates/*/{part}/**/*.antt", recursive=True))


def sources():
    yield from sorted(glob.glob("crates/*/src/**/*.rt", recursive=True))


def snake(name):
    return re.sub(r"(?<=[a-z])(?=[A-Z])", "_", name).replace("-", "_").lower()


def camel(name):
    return "".join(part[:1].upper() + part[1:] for part in name.split("-"))


def turned(name):
    return camel(name) if name[0].isupper() and name not in FACTS else snake(name)


def own_names():
    names = set()
    for path in files():
        for line in open(path, encoding="utf-8"):
            found = DECLARES.match(line)
            if found and "-" in found[1] and not line.lstrip().startswith("--") and not found[3].startswith("goal."):
                names.add(found[1])
    return sorted(names)


def code_of(line, comment):
    """The part of a line before its comment, and the rest. A comment sign inside a string counts as code."""
    at = line.find(comment)
    return (line, "") if at < 0 or line[:at].count('"') % 2 else (line[:at], line[at:])


def main():
    dry = "--dry" in sys.argv[1:]
    names = {name: turned(name) for name in own_names()}
    token = re.compile(r"(?<![\w'-])(" + "|".join(sorted(map(re.escape, names), key=len, reverse=True)) + r")(?![\w'-])")
    texts = {path: open(path, encoding="utf-8").read() for path in [*files(), *sources()]}
    for old, new in names.items():
        there = [path for path, text in texts.items() if path.endswith(".antt") and re.search(rf"(?<![\w'-]){re.escape(new)}(?![\w'-])", text)]
        if there:
            print(f"look: {old} becomes {new}, which stands already in {' '.join(there)}")
    if len(set(names.values())) != len(names):
        raise SystemExit("two names would fall together: nothing was written")
    changed = 0
    for path, text in texts.items():
        comment = "--" if path.endswith(".antt") else "//"
        lines = []
        for line in text.splitlines(keepends=True):
            code, rest = code_of(line, comment)
            parts = re.split(r'("(?:[^"\\]|\\.)*")', code)
            parts[::2] = [token.sub(lambda found: names[found[0]], part) for part in parts[::2]]
            lines.append("".join(parts) + rest)
        if "".join(lines) != text:
            changed += 1
            if not dry:
                open(path, "w", encoding="utf-8").write("".join(lines))
    print(f"{len(names)} names turned, {changed} files changed")


main()
