"""Runs a row of the table over bytes and str, in each of its ways, as far as the package has its call."""

from __future__ import annotations

import functools
import itertools
import re
from typing import Any

import definitions
import table
from daachorse import Automaton, Kind, Refusal, Refused

SEARCHES = {
    "overlapping": "find_overlapping",
    "nosuffix": "find_overlapping_no_suffix",
    "find": "find",
    "leftmost": "leftmost_find",
}
# Haystacks of so many units or more are streamed in one size of pieces, and not searched by definition.
LONG = 40
# What is written behind a form, and left by a read.
REST = b"*"


class Skipped(Exception):
    """The package has no such call, or a str cannot be so."""


class Run:
    """A row over one unit and in one way."""

    def __init__(self, row: table.Row, unit: type, way: frozenset[str]):
        self.row, self.unit, self.way = row, unit, way
        self.is_form = row.patterns.split()[:1] == ["form"]
        self.patterns = [] if self.is_form else [(self.of(it), value) for it, value in table.patterns(row.patterns)]

    def of(self, data: bytes) -> Any:
        """The bytes as a bytes or a str."""
        return data if self.unit is bytes else data.decode()

    def place(self, data: bytes, place: int) -> int:
        """A place in bytes as the package tells it."""
        return place if self.unit is bytes else len(data[:place].decode())

    def turned(self, data: bytes, matches: list[tuple]) -> list[tuple]:
        return [(self.place(data, start), self.place(data, end), *rest) for start, end, *rest in matches]

    def text(self, number: int = 0) -> bytes:
        """The text of the row. What is no UTF-8 is in no str."""
        data = table.text(self.row.text, number)
        if self.unit is str and "invalid" in self.row.expected.split():
            raise Skipped
        return data

    def built(self) -> Automaton:
        return Automaton(
            [it for it, _ in self.patterns],
            kind=self.row.kind,
            use_prefilter="nofilter" not in self.way,
            ascii_case_insensitive="anycase" in self.way,
            values=[value for _, value in self.patterns],
            unit=self.unit,
        )

    def form(self) -> bytes:
        """The form of the row. A str is searched by an automaton over the bytes of its UTF-8, which has another."""
        if self.unit is str:
            raise Skipped
        data = bytearray(table.form(self.row.patterns[4:]) if self.is_form else self.built().write())
        if self.row.change is not None:
            place, byte = self.row.change
            data[place] = byte
        return bytes(data)

    def automaton(self) -> Automaton:
        """The automaton of the row, made in its way."""
        if self.is_form or self.row.change is not None:
            return self.read(self.form())
        automaton = self.built()
        if "read" in self.way:
            automaton = self.read(automaton.write())
        return automaton.accelerate() if "rows" in self.way else automaton

    def read(self, form: bytes) -> Automaton:
        automaton, rest = Automaton.read(form + REST, self.unit)
        return automaton if rest == REST else Automaton([], unit=self.unit)


def defined(run: Run, automaton: Automaton, name: str, haystack: Any) -> list[tuple]:
    """What the search finds by definition, for the patterns of the row, or of an automaton that was read."""
    is_read = run.is_form or run.row.change is not None
    patterns, kind = (automaton.items(), 1) if is_read else (run.patterns, run.row.kind)
    read = definitions.lower if automaton.ignores_ascii_case else lambda it: it
    return found_by(name, kind, tuple((read(it), value) for it, value in patterns), read(haystack))


# The ways of a row search the same.
found_by = functools.lru_cache(1024)(definitions.found_by)


def streamed(automaton: Automaton, name: str, haystack: Any, size: int) -> list[tuple]:
    stream = automaton.stream(name == "find_overlapping", name == "find_overlapping_no_suffix")
    pieces = [haystack[at : at + size] for at in range(0, len(haystack), size)]
    told = [match for piece in [*pieces, haystack[:0]] for match in stream.feed(piece)]
    return told + stream.finish()


def is_found(automaton: Automaton, name: str, haystack: Any, wanted: list[tuple]) -> bool:
    """Whether each form of a search gives these matches."""
    if list(getattr(automaton, name)(haystack)) != wanted:
        return False
    if name in ("find", "leftmost_find"):
        first = wanted[0] if wanted else None
        if (automaton.find_first(haystack), automaton.is_match(haystack)) != (first, bool(wanted)):
            return False
    sizes = (1, 2, 3) if len(haystack) < LONG else (64,)
    return all(streamed(automaton, name, haystack, size) == wanted for size in sizes)


def search(run: Run, call: str, rest: list[str]) -> bool:
    """A search, of each beginning or for each number up to one."""
    automaton, name = run.automaton(), SEARCHES[call]
    if run.row.change is None and (automaton.kind, automaton.ignores_ascii_case) != (run.row.kind, "anycase" in run.way):
        return False
    if rest == ["beginnings"]:
        whole = run.of(run.text())
        haystacks = [whole[:end] for end in range(len(whole) + 1)]
        plain = run.row.expected == "plain"
        return plain and all(is_found(automaton, name, it, defined(run, automaton, name, it)) for it in haystacks)
    return all(searched(run, automaton, name, number) for number in range(int(rest[1]) + 1 if rest else 1))


def searched(run: Run, automaton: Automaton, name: str, number: int) -> bool:
    data = run.text(number)
    haystack = run.of(data)
    if run.row.expected == "plain":
        return is_found(automaton, name, haystack, defined(run, automaton, name, haystack))
    wanted = run.turned(data, table.matches(run.row.expected, number))
    is_defined = len(haystack) >= LONG or defined(run, automaton, name, haystack) == wanted
    return is_defined and is_found(automaton, name, haystack, wanted)


def certain(run: Run) -> bool:
    """A stream that gets unit by unit, before them nothing, and behind them the end."""
    data = run.text()
    haystack, stream, told = run.of(data), run.automaton().stream(), []
    for units in range(len(haystack) + 1):
        piece = haystack[units - 1 : units] if units else haystack[:0]
        told += [(*match, units) for match in stream.feed(piece)]
    told += [(*match, len(haystack) + 1) for match in stream.finish()]
    return told == run.turned(data, table.matches(run.row.expected))


def patterns(run: Run) -> bool:
    """The listing, and that of an automaton that is built of it."""
    wanted = [(run.of(it), value) for it, value in table.patterns(run.row.expected)]
    automaton = run.automaton()
    again = Automaton([it for it, _ in wanted], values=[value for _, value in wanted], unit=run.unit)
    firsts = dict(reversed(wanted))
    return automaton.items() == again.items() == wanted and all(automaton.get(it) == firsts[it] for it in firsts)


def values(run: Run) -> bool:
    """The first of the values, which is what the package gives, and whether there are any."""
    automaton, whole = run.automaton(), run.of(run.text())
    wanted = [int(it) for it in run.row.expected.split()]
    return (whole in automaton) == bool(wanted) and automaton.get(whole) == (wanted[0] if wanted else None)


def prefixes(run: Run) -> bool:
    automaton, data = run.automaton(), run.text()
    wanted = run.turned(data, table.matches(run.row.expected))
    longest = max(wanted, key=lambda it: it[1], default=None)
    return list(automaton.common_prefixes(run.of(data))) == wanted and automaton.longest_prefix(run.of(data)) == longest


def count(run: Run) -> bool:
    return len(run.automaton()) == int(run.row.expected)


def kind(run: Run) -> bool:
    automaton = run.automaton()
    words = [word for word, kind in table.KINDS.items() if kind == automaton.kind]
    return " ".join(words + ["anycase"] * automaton.ignores_ascii_case) == run.row.expected


def replaced(run: Run) -> bool:
    texts = {0: run.of(b"-"), 1: run.of(b"")}
    haystack = run.of(run.text())
    found = run.automaton().replace(haystack, lambda match: texts.get(match.value, haystack[match.start : match.end]))
    return found == run.of(table.text(run.row.expected))


def bracketed(run: Run) -> bool:
    """Each match in brackets. At one of value 9 the caller raises an error, and no text is returned."""
    haystack = run.of(run.text())

    def bracket(match):
        if match.value == 9:
            raise KeyError
        return run.of(b"[") + haystack[match.start : match.end] + run.of(b"]")

    try:
        return run.automaton().replace(haystack, bracket) == run.of(table.text(run.row.expected))
    except KeyError:
        return run.row.expected.endswith("!")


def written(run: Run) -> bool:
    run.form()
    return run.automaton().write() == table.form(run.row.expected)


def length(run: Run) -> bool:
    run.form()
    return len(run.automaton().write()) == int(run.row.expected)


def word(run: Run) -> bool:
    run.form()
    place = int(run.row.text)
    return int.from_bytes(run.automaton().write()[place : place + 4], "little") == int(run.row.expected)


def answer(form: bytes) -> str:
    """How a form is read: accepted, with no byte left, or refused as no automaton."""
    try:
        return "accepted" if Automaton.read(form)[1] == b"" else "accepted in part"
    except Refused as refused:
        return "refused" if refused.refusal == Refusal.INVALID_AUTOMATON else str(refused)


def read(run: Run) -> bool:
    return answer(run.form()) == run.row.expected


def beginnings(run: Run) -> bool:
    form = run.form()
    first, last = map(int, run.row.text.split("-")) if run.row.text else (0, len(form) - 1)
    return run.row.expected == "refused" and all(answer(form[:end]) == "refused" for end in range(first, last + 1))


def changes(run: Run) -> bool:
    """With each byte changed the form is refused, or read as what finds the patterns that it lists."""
    form, texts = run.form(), [table.word(it) for it in run.row.text.split()]
    return run.row.expected == "plain" and all(
        answer(changed) == "refused" or is_plain(changed, texts)
        for bits, place in itertools.product((1, 128), range(len(form)))
        for changed in [form[:place] + bytes([form[place] ^ bits]) + form[place + 1 :]]
    )


def is_plain(form: bytes, texts: list[bytes]) -> bool:
    automaton, _ = Automaton.read(form)
    read = definitions.lower if automaton.ignores_ascii_case else bytes
    names = ["leftmost_find"] if automaton.kind else ["find", "find_overlapping", "find_overlapping_no_suffix"]
    return all(
        list(getattr(automaton, name)(it)) == definitions.found_by(name, Kind.LEFTMOST_LONGEST, automaton.items(), read(it))
        for name in names
        for it in texts
    )


# The other calls, by their names.
_CALLS = (certain, patterns, values, prefixes, count, kind, replaced, bracketed, written, length, word, read, beginnings, changes)
CALLS = {it.__name__: it for it in _CALLS}
# The calls that the package has not.
OTHERS = {"depths-overlapping", "depths-find", "states", "elements", "longest", "summary"}


def run_once(run: Run) -> bool:
    call, *rest = run.row.call.split()
    if run.row.call in OTHERS:
        raise Skipped
    if call in SEARCHES and re.fullmatch(r"|beginnings|each \d+", " ".join(rest)):
        return search(run, call, rest)
    if run.row.call not in CALLS:
        raise ValueError(run.row.call)
    return CALLS[run.row.call](run)


def holds(line: str) -> bool | None:
    """Whether a row holds in each way that the package has, or `None` if it has none. One that is unreadable does not."""
    try:
        row = table.read(line)
    except ValueError:
        return False
    outcomes = []
    for unit, way in itertools.product(row.units, row.ways):
        try:
            outcomes.append(run_once(Run(row, unit, way)))
        except Skipped:
            pass
        except (ValueError, IndexError):
            return False
    return all(outcomes) if outcomes else None
