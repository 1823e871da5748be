"""Searches of a whole haystack, which go on as their matches are asked for.

Each call of the library finds some matches. The next goes on from where the last one allows.
"""

from __future__ import annotations

from itertools import islice, takewhile
from typing import Callable, Iterable, Iterator, NamedTuple

from ._memory import Memory, Room
from ._places import Places
from ._stream import Feed

# The matches that a call finds, at most, but for the first calls.
_ROOM = 1 << 16

# Matches are dense if there are fewer bytes from one end to the next. Then a stream, which is
# slower, takes less time than moving places does.
_DENSE = 12


class Found(NamedTuple):
    """What a call found, from a place on."""

    matches: list[tuple]
    end: int
    """Where the last match ends, counted from there in bytes."""

    def is_dense(self) -> bool:
        return self.end < _DENSE * len(self.matches)


# Finds the first matches in the bytes from a place on, at most so many.
Call = Callable[[int, int], Found]


def read_found(places: Places, room: Room, origin: int = 0) -> Found:
    """Reads the matches that a call wrote, whose places count from an origin."""
    end = 0 if room.is_empty() else room.last()[1]
    return Found(list(places.read(room, origin)), end)


def streamed(feed: Feed, memory: Memory, places: Places, told: int) -> Iterator[Iterable[tuple]]:
    """Yields what follows so many matches, by a stream."""
    room, place, is_full = Room(2 * told), 0, True
    while is_full:
        place += feed.consume(memory, place, room)
        yield islice(places.read(room), told, None)
        is_full = room.is_full()
        told, room = 0, Room(min(2 * room.size, _ROOM))


def apart(call: Callable[[int], Found], size: int) -> Iterator[list[tuple]]:
    """Yields matches that do not overlap, at first so many. Each call finds the next ones."""
    found = call(size)
    yield found.matches
    while len(found.matches) == size:
        size = min(2 * size, _ROOM)
        found = call(size)
        yield found.matches


def overlapping(call: Call, reach: int, found: Found, size: int) -> Iterator[Iterable[tuple]]:
    """Yields what follows the first matches, by rising ends. None has more bytes than `reach`.

    Those that end after a place are found from so far before it on.
    """
    place = told = 0
    while len(found.matches) == size:
        end = found.matches[-1][1]
        here = sum(1 for _ in takewhile(lambda match: match[1] == end, reversed(found.matches)))
        place = max(place + found.end - reach, 0)
        # At least half of the matches are new.
        size = 2 * size if 2 * told > size else min(2 * size, _ROOM)
        found = call(place, size)
        told = here + sum(1 for _ in takewhile(lambda match: match[1] < end, found.matches))
        yield islice(found.matches, told, None)
