"""Streams: haystacks that come in pieces."""

from __future__ import annotations

import ctypes
import threading
from typing import Any

from ._handles import Handles
from ._library import Search, library, need_done
from ._matches import valued
from ._memory import Memory, Room, memory_of
from ._places import Places, at_characters
from ._texts import Text, encoded

_ROOM = 1 << 10


class Feed:
    """A stream of the library, over bytes."""

    def __init__(self, handles: Handles, search: Search):
        self._taken = ctypes.c_size_t()
        self._handle = handles.share()
        need_done(library.begin(self._handle.address, search))

    def consume(self, memory: Memory, place: int, room: Room) -> int:
        """Feeds bytes from a place on until the room is full, and returns how many were taken."""
        rest, (out, size, written) = (memory.at(place), memory.length - place), room.words
        need_done(library.consume(self._handle.address, *rest, out, size, ctypes.addressof(self._taken), written))
        return self._taken.value

    def end(self) -> None:
        """Ends the haystack. What `consume` writes of no bytes is what is left."""
        need_done(library.end(self._handle.address))


class Stream:
    """A haystack that comes in pieces. It may outlive its automaton, which makes it by `stream`."""

    def __init__(self, feed: Feed, unit: type, places: Places, has_empty: bool, beside: list | None):
        self._lock = threading.Lock()
        self._feed, self._unit, self._places, self._beside = feed, unit, places, beside
        self._has_empty = has_empty

    def feed(self, piece: Text) -> list[tuple[int, int, Any]]:
        """Returns the matches that end in the next piece, and at first also the empty ones at 0.

        Those of a leftmost automaton are told as soon as they are certain: as soon as they stay,
        whatever follows. Places count from the beginning of the stream.
        """
        data = encoded(piece, self._unit)
        with self._lock:
            return self._told(data)

    def finish(self) -> list[tuple[int, int, Any]]:
        """Ends the haystack, and returns the matches that are left: only leftmost ones can be.

        A later piece raises Refused.
        """
        with self._lock:
            self._feed.end()
            return self._told(b"")

    def _told(self, data: Any) -> list[tuple[int, int, Any]]:
        memory, room, place = memory_of(data), Room(_ROOM), 0
        matches: list[tuple] = []
        self._places.add(data)
        is_full = True
        while is_full:
            place += self._feed.consume(memory, place, room)
            matches += self._places.read(room)
            is_full = room.is_full()
        if self._unit is str and self._has_empty:
            matches = list(at_characters(matches))
        return list(valued(matches, self._beside))
