#!/usr/bin/env python3
"""rows.py [FOLDER]: counts what the tests of a clone say, a line for each crate and one for all.

FOLDER is the clone, else the one that this file is in. Counted are

- the rows of the table `crates/daachorse_table/stdin`, by call; those below the line `#!`, which are
  wrong on purpose, stand apart;
- of each crate with tests, and of the crates that those alone depend on: rows, the elements of the
  constants that are lists of them; vectors, the elements of the lists that a loop runs over where it
  stands; and single assertions, the calls of `assert..` and `expect..` outside of loops.

A list of numbers, of texts or of patterns, or of the ways to make an automaton, is none of rows.
"""
import collections
import pathlib
import re
import sys

OPEN, CLOSE = "([{", ")]}"
# What is neither code nor a name: comments, texts, and characters.
LITERAL = re.compile(r"""//[^\n]*|b?"(?:\\.|[^"\\])*"|b?'(?:\\.|[^'\\])'|'\\u\{\w+\}'""", re.S)
CONSTANT = re.compile(r"\bconst [A-Z0-9_]+: ([^=]*)= &?\[")
# The type of a list, and the types of elements that are no rows.
LIST = re.compile(r"(?:&(?:'static )?)?\[(.*?)(?:; \w+)?\]\s*$", re.S)
NO_ROW = re.compile(r"(&(?:'static )?(str|\[u8\])|Option<&str>|u8|u32|char|MatchKind|Way|\(&(?:'static )?(str|\[u8\]), u32\)|&\[&\[u8\]\])$")
LOOP = re.compile(r"\bfor\b[^{;]*?\bin\b ")
ASSERTION = re.compile(r"(?<!fn )\b(?:assert\w*!|expect\w*)\s*\(")
EXPECTING = re.compile(r"\bfn expect\w*\b")


def plain(text):
    """The text, each comment gone, and a 0 in place of each literal."""
    return LITERAL.sub(lambda found: "" if found[0].startswith("//") else "0", text)


def closed(text, at):
    """The place behind the bracket that closes the one at `at`."""
    depth = 0
    for place in range(at, len(text)):
        depth += (text[place] in OPEN) - (text[place] in CLOSE)
        if depth == 0:
            return place + 1
    return len(text)


def elements(text, at):
    """The number of elements of the list whose bracket is at `at`."""
    count, depth, is_some = 0, 0, False
    for place in range(at + 1, closed(text, at) - 1):
        depth += (text[place] in OPEN) - (text[place] in CLOSE)
        if text[place] == "," and depth == 0:
            count, is_some = count + is_some, False
        elif not text[place].isspace():
            is_some = True
    return count + is_some


def is_of_rows(kind):
    """Whether a constant of this type is a list of rows."""
    found = LIST.match(kind.strip())
    return found is not None and not NO_ROW.match(found[1].strip())


def head_end(text, at):
    """The place of the brace that begins the body of the loop whose list begins at `at`."""
    while at < len(text) and text[at] != "{":
        at = closed(text, at) if text[at] in "([" else at + 1
    return at


def without_loops(text):
    """The text without the bodies of loops and of the functions that assert, and the vectors of the loops."""
    out, at, vectors = [], 0, 0
    for found in sorted([*LOOP.finditer(text), *EXPECTING.finditer(text)], key=lambda it: it.start()):
        if found.start() < at:
            continue
        body = head_end(text, found.end())
        out.append(text[at : found.start()])
        first = found.end() + (text[found.end()] == "&")
        if text[first] == "[":
            vectors += elements(text, first)
        at = closed(text, body)
    return "".join(out) + text[at:], vectors


def counted(folder):
    """The rows, vectors and single assertions of a crate."""
    rows = vectors = single = 0
    for source in sorted(folder.glob("src/**/*.rt")):
        text = plain(source.read_text())
        rows += sum(elements(text, it.end() - 1) for it in CONSTANT.finditer(text) if is_of_rows(it[1]))
        rest, found = without_loops(text)
        vectors += found
        single += len(ASSERTION.findall(rest))
    return rows, vectors, single


def crates_of_tests(top):
    """The crates with tests, and those that such alone depend on."""
    depends = {}
    for line in (top / "crates.txt").read_text().splitlines():
        name, found, names = line.partition("#")[0].partition(":")
        if found:
            depends[name.split()[0]] = names.split()
    has = lambda name: any("#[test]" in it.read_text() for it in (top / "crates" / name).glob("src/**/*.rt"))
    tests = {name for name in depends if has(name)}
    users = lambda name: {it for it in depends if name in depends[it]}
    return sorted(tests | {name for name in depends if users(name) and users(name) <= tests})


def table_calls(table):
    """The number of rows of each call, and that of the rows that are wrong on purpose."""
    calls, wrong, is_wrong = collections.Counter(), 0, False
    for line in table.read_text().splitlines():
        is_wrong = is_wrong or line.startswith("#!")
        if not line.strip() or line.startswith("#"):
            continue
        if is_wrong:
            wrong += 1
        else:
            calls[" ".join(line.split("|")[2].split()[:2]).strip(" 0123456789")] += 1
    return calls, wrong


def main():
    top = pathlib.Path(sys.argv[1] if len(sys.argv) > 1 else pathlib.Path(__file__).parents[2]).resolve()
    table, total = top / "crates" / "daachorse_table" / "stdin", 0
    if table.exists():
        calls, wrong = table_calls(table)
        total = sum(calls.values())
        print(f"daachorse_table: {total} rows, and {wrong} that are wrong on purpose")
        print("   ", ", ".join(f"{call} {count}" for call, count in calls.most_common()))
    for name in crates_of_tests(top):
        rows, vectors, single = counted(top / "crates" / name)
        if rows + vectors + single:
            print(f"{name}: {rows} rows, {vectors} vectors, {single} single assertions")
            total += rows + vectors + single
    print(f"all: {total}")


if __name__ == "__main__":
    if len(sys.argv) > 2:
        sys.exit(__doc__)
    main()
