"""Reads the table crates/daachorse_table/stdin, whose beginning says what a row means."""

from __future__ import annotations

import itertools
import os
import re
from typing import Iterator, NamedTuple

from daachorse import Kind

HERE = os.path.dirname(os.path.abspath(__file__))
TABLE = os.path.join(HERE, "..", "..", "crates", "daachorse_table", "stdin")
ESCAPES = {"\\": b"\\", "s": b" ", "p": b"|", "e": b"=", "c": b",", "l": b"<", "h": b"#"}
PART = re.compile(r"[^\\]+|\\(?:[\\speclh]|x[0-9a-f]{2}|\[[^]]+-[^]]+\]|\{(?:\d+|N):[^}]+\})")
MATCH = re.compile(r"(\+?)(\d+)-(\d+):(\d+)(?:@(\d+))?")
CHANGE = re.compile(r"change=(\d+):(\d+)")
FORM_WORD = re.compile(r"(b?)(\d+)(?:\*(\d+))?|v(\d+)-(\d+)")
KINDS = {"standard": Kind.STANDARD, "longest": Kind.LEFTMOST_LONGEST, "first": Kind.LEFTMOST_FIRST}
UNITS = {"bytes": [bytes], "chars": [str], "both": [bytes, str]}
ONE_WAY = {"once", "nofilter", "read", "rows"}
# Words of the first field that no call of the package stands for.
OTHERS = re.compile(r"unchecked|corpus=.*")


class Row(NamedTuple):
    """A row, whose ways are sets of words, and none if the package has no call for one of them."""

    units: list[type]
    kind: Kind
    ways: list[frozenset[str]]
    change: tuple[int, int] | None
    patterns: str
    call: str
    text: str
    expected: str


def lines() -> Iterator[tuple[str, bool]]:
    """Yields each row as a line, and whether it is wrong on purpose."""
    is_wrong = False
    with open(TABLE, encoding="utf-8") as table:
        for line in table:
            is_wrong = is_wrong or line.startswith("#!")
            if line.strip() and not line.startswith("#"):
                yield line.rstrip("\n"), is_wrong


def read(line: str) -> Row:
    """Reads a line, or raises ValueError."""
    automaton, patterns, call, text, expected = (field.strip() for field in line.split("|"))
    unit, kind, *words = automaton.split()
    if unit not in UNITS or kind not in KINDS:
        raise ValueError(automaton)
    changes = [CHANGE.fullmatch(word) for word in words if word.startswith("change=")]
    change = (int(changes[0][1]), int(changes[0][2])) if changes else None
    if any(word not in ONE_WAY and word != "anycase" and not CHANGE.fullmatch(word) and not OTHERS.fullmatch(word) for word in words):
        raise ValueError(automaton)
    return Row(UNITS[unit], KINDS[kind], ways(words, patterns + text), change, patterns, call, text, expected)


def ways(words: list[str], texts: str) -> list[frozenset[str]]:
    if any(OTHERS.fullmatch(word) for word in words):
        return []
    if words and words != ["anycase"]:
        return [frozenset(words)]
    each = [frozenset(words) | way for way in (set(), {"nofilter"}, {"read"}, {"rows"})]
    has_capital = re.search("[A-Z]", texts.replace("{N:", "{"))
    return each if words or has_capital else [*each, frozenset({"anycase"})]


def text(field: str, number: int = 0) -> bytes:
    """The bytes of a text, where N stands for the number."""
    parts, at = [], 0
    while at < len(field):
        found = PART.match(field, at)
        if found is None:
            raise ValueError(field)
        parts.append(part(found[0], number))
        at = found.end()
    return b"".join(parts)


def part(it: str, number: int) -> bytes:
    """The bytes of an escape, or of what has none."""
    if it[0] != "\\":
        return it.encode()
    mark, inside = it[1], it[2:-1]
    if mark == "x":
        return bytes.fromhex(it[2:])
    if mark == "[":
        return "".join(characters(inside)).encode()
    if mark == "{":
        count, repeated = inside.split(":", 1)
        units = itertools.cycle(units_of(text(repeated)))
        return b"".join(itertools.islice(units, number if count == "N" else int(count)))
    return ESCAPES[mark]


def characters(field: str) -> Iterator[str]:
    """The characters of A-B."""
    first, last = (ord(text(it).decode()) for it in field.split("-"))
    return map(chr, range(first, last + 1))


def units_of(data: bytes) -> list[bytes]:
    """The characters of a text, or each byte of what is none."""
    try:
        return [it.encode() for it in data.decode()]
    except UnicodeDecodeError:
        return [bytes([it]) for it in data]


def word(it: str) -> bytes:
    return b"" if it == '""' else text(it)


def patterns(field: str) -> list[tuple[bytes, int]]:
    """The patterns of a field, with their values."""
    listed = []
    for index, it in enumerate(field.split()):
        mark = re.search("[=<]", it)
        if mark is None:
            listed.append((word(it), index))
        elif mark[0] == "=":
            listed.append((word(it[: mark.start()]), int(it[mark.end() :])))
        else:
            listed += [(text(it[: mark.start()]) + last.encode(), 0) for last in characters(it[mark.end() : -1])]
    return listed


def form(field: str) -> bytes:
    """The bytes of the words of a form."""
    data = []
    for it in field.split():
        found = FORM_WORD.fullmatch(it)
        if found is None:
            raise ValueError(it)
        if found[4] is not None:
            data += [bytes(8) + index.to_bytes(4, "little") for index in range(int(found[4]), int(found[5]) + 1)]
        else:
            data.append(int(found[2]).to_bytes(1 if found[1] else 4, "little") * int(found[3] or 1))
    return b"".join(data)


def matches(field: str, number: int = 0) -> list[tuple[int, ...]]:
    """The matches of a field, with + before them the number further on, and after how many units each is given."""
    found = []
    for it in field.split():
        parts = MATCH.fullmatch(it)
        if parts is None:
            raise ValueError(it)
        start, end = (int(parts[place]) + (number if parts[1] else 0) for place in (2, 3))
        found.append((start, end, int(parts[4])) if parts[5] is None else (start, end, int(parts[4]), int(parts[5])))
    return found
