"""Places of matches, as the caller wants them: in bytes or in code points."""

from __future__ import annotations

from typing import Iterable, Iterator

from ._memory import Memory, Room


class Places:
    """Places in bytes."""

    def add(self, piece: bytes) -> None:
        """Takes the next bytes of the haystack."""

    def read(self, room: Room, origin: int = 0) -> Iterable[tuple]:
        """The room's matches, whose places count from an origin. None that is read later ends before them."""
        if origin == 0:
            return room.matches()
        return ((start + origin, end + origin, value) for start, end, value in room.matches())


class CodePoints(Places):
    """Places in code points of UTF-8. An empty match inside a character starts after its end."""

    def __init__(self, longest: int):
        self._longest = longest
        # Bytes to which a match may reach back, and how many came before them.
        self._text, self._start = b"", 0
        # A place in bytes, and how many code points begin before it.
        self._place = self._count = 0

    def add(self, piece: bytes) -> None:
        self._turn(Room(0), 0, self._start + len(self._text) - self._longest)
        self._text = self._text[self._place - self._start :] + piece
        self._start = self._place

    def read(self, room: Room, origin: int = 0) -> Iterable[tuple]:
        if not room.is_empty():
            self._turn(room, origin, origin + room.last()[1] - self._longest)
        return room.matches()

    def _turn(self, room: Room, origin: int, reach: int) -> None:
        """Turns the places of the room's matches. Later ones start at `reach` or later."""
        behind = self._place - self._start
        rest = Memory(self._text).at(behind), len(self._text) - behind
        after = max(reach, origin, self._place)
        self._count = room.to_characters(*rest, self._place, self._count, origin, after - origin)
        self._place = after


def at_characters(matches: Iterable[tuple]) -> Iterator[tuple]:
    """The matches without the empty ones inside a character."""
    return (match for match in matches if match[0] <= match[1])
