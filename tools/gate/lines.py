#!/usr/bin/env python3
"""lines.py: prints the lines of specs and proofs for each line of code, by crate and in all.

Lines of code are those of the files `crates/NAME/src/**/*.rt`, without blank lines, comments,
clauses, ghost items, imports by `ghost use`, attributes for tactics, and tests. Lines of specs and
proofs are all those of the .antt files in `crates/NAME/specs` and `crates/NAME/proofs`.

Left out are the crates of tests alone, those whose names end in `_tests`.
"""
import pathlib
import re
import sys

TOP = pathlib.Path(__file__).resolve().parents[2]
CLAUSE = re.compile(r"(pub(\(\w+\))? )?(ghost|requires|ensures)\b")
ATTRIBUTE = re.compile(r"#!?\[tactic\b")
TEST = re.compile(r"#\[(test|cfg\(test\))\]")
OPEN, CLOSE = "([{", ")]}"


def balance(text):
    """The number of brackets that the text opens and does not close."""
    plain = re.sub(r"""'(\\.|[^\\])'|"(\\.|[^"\\])*"|//.*""", "", text)
    return sum(plain.count(it) for it in OPEN) - sum(plain.count(it) for it in CLOSE)


def end_of(lines, at, ends):
    """The line after an item: its brackets are closed, and its last line ends in one of `ends`."""
    depth = 0
    while at < len(lines):
        depth += balance(lines[at])
        at += 1
        if depth <= 0 and lines[at - 1].rstrip().endswith(ends):
            break
    return at


def code_lines(text):
    """The number of lines of code in a source file."""
    lines = text.splitlines()
    count, at = 0, 0
    while at < len(lines):
        line = lines[at].strip()
        if TEST.match(line):
            at = end_of(lines, at + 1, ("}", ";"))
        elif ATTRIBUTE.match(line):
            at = end_of(lines, at, "]")
        elif CLAUSE.match(line):
            at = end_of(lines, at, ("}", ";", ","))
        else:
            count += bool(line) and not line.startswith("//")
            at += 1
    return count


def crate_lines(folder):
    """The lines of code of a crate, and those of its specs and proofs."""
    sources = sorted(folder.glob("src/**/*.rt"))
    stated = sorted(it for part in ("specs", "proofs") for it in folder.glob(f"{part}/**/*.antt"))
    code = sum(code_lines(it.read_text()) for it in sources)
    return code, sum(len(it.read_text().splitlines()) for it in stated)


def main():
    crates = [it for it in sorted((TOP / "crates").iterdir()) if it.is_dir() and not it.name.endswith("_tests")]
    rows = [(it.name, *crate_lines(it)) for it in crates]
    rows.append(("all", *(sum(column) for column in list(zip(*rows))[1:])))
    for name, code, stated in rows:
        print(f"{name:<27}{code:>7}{stated:>8}{stated / code if code else 0:>7.2f}")


if __name__ == "__main__":
    if len(sys.argv) != 1:
        sys.exit(__doc__)
    main()
