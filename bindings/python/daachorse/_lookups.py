"""The patterns of an automaton as a dictionary."""

from __future__ import annotations

from typing import Any, Iterable, Iterator


class Words:
    """Patterns, as bytes, with the values of each in order of registration."""

    def __init__(self, patterns: Iterable[tuple[bytes, Any]], ignores_ascii_case: bool):
        self._ignores_ascii_case = ignores_ascii_case
        self._values: dict[bytes, list] = {}
        for text, value in patterns:
            self._values.setdefault(text, []).append(value)
        self._lengths = sorted({len(text) for text in self._values})

    def values(self, text: bytes) -> list:
        """The values of the pattern that equals the text."""
        return self._values.get(self._read(text), [])

    def prefixes(self, text: bytes) -> Iterator[tuple[int, list]]:
        """The length and values of each pattern that begins the text, the shortest first."""
        text = self._read(text[: self._lengths[-1]] if self._lengths else b"")
        for length in self._lengths:
            if length <= len(text) and text[:length] in self._values:
                yield length, self._values[text[:length]]

    def _read(self, text: bytes) -> bytes:
        return text.lower() if self._ignores_ascii_case else text
