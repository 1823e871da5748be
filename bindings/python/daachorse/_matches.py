"""Matches, as they are given to the caller."""

from __future__ import annotations

from typing import Any, Iterable, Iterator, NamedTuple


class Match(NamedTuple):
    """A match: the pattern with this value stands in the haystack from start to end, exclusive.

    Searches give many matches as plain tuples in this order, which take less time.
    """

    start: int
    end: int
    value: Any


def valued(matches: Iterable[tuple], beside: list | None) -> Iterator[tuple[int, int, Any]]:
    """The matches, with the values beside the automaton if it has such."""
    if beside is None:
        return iter(matches)  # type: ignore[arg-type]
    return ((start, end, beside[number]) for start, end, number in matches)
