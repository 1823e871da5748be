#!/usr/bin/env python3
"""counts.py: fails if a count of turns begins in another place than docs/DECISIONS.md names.

No contract can say that a look is counted in the count of its search: one that begins in the middle
of a search, as `&mut Turns::new()`, would hide turns. So each place is named there, and read.
"""
import pathlib
import re
import sys

TOP = pathlib.Path(__file__).resolve().parents[2]
BEGINS = re.compile(r"\bTurns(?:::<[^>]*>)?::(?:new|default)\(\)|\bTurns\s*\{|mem::(?:take|replace)\([^)]*turns")
# Tests count for themselves.
TESTS = re.compile(r"_tests$|^daachorse_table$")

found = {}
for path in sorted(TOP.glob("crates/*/src/**/*.rt")):
    crate = path.relative_to(TOP / "crates").parts[0]
    code = "\n".join(it.partition("//")[0] for it in path.read_text().splitlines())
    number = len(BEGINS.findall(code))
    if number and not TESTS.search(crate) and path.name != "turns.rt":
        found[str(path.relative_to(TOP / "crates"))] = number
row = re.search(r"Counts begin in (.*?)\. \|", (TOP / "docs/DECISIONS.md").read_text())[1]
named = {path: 2 if twice else 1 for path, twice in re.findall(r"`([^`]+\.rt)`( twice)?", row)}
for path in sorted({*found, *named}):
    if found.get(path, 0) != named.get(path, 0):
        print(f"{path}: {found.get(path, 0)} counts begin there, and docs/DECISIONS.md names {named.get(path, 0)}")
sys.exit(found != named)
