"""Handles of one automaton, of which each call uses one of its own."""

from __future__ import annotations

import ctypes
import threading
from typing import Callable, TypeVar

from ._library import library, need_done
from ._memory import Memory, Place, Room

_T = TypeVar("_T")

# The matches that the first call of a search has room for.
FIRST_ROOM = 64


class Handle:
    """Nothing, or an automaton, alone or shared with other handles."""

    def __init__(self) -> None:
        self._memory = ctypes.c_void_p()
        self.address = ctypes.addressof(self._memory)
        self.room = Room(FIRST_ROOM)

    def __del__(self):
        library.free(self.address)


class Handles:
    """As many handles as calls were made at once. No lock is held while the library works."""

    def __init__(self, fill: Callable[..., int], *arguments):
        self._lock = threading.Lock()
        self._source = Handle()
        self._idle: list[Handle] = []
        self._is_open = True
        need_done(fill(self._source.address, *arguments))

    def share(self) -> Handle:
        """Returns another handle."""
        handle = Handle()
        with self._lock:
            need_done(library.share(self._source.address, handle.address))
        return handle

    def ask(self, export: Callable[..., int], *arguments) -> int:
        """Returns the answer of a call."""
        handle = self._take()
        try:
            return export(handle.address, *arguments)
        finally:
            self._give_back(handle)

    def search(self, export: Callable[..., int], memory: Memory, place: int, size: int, read: Callable[[Room], _T]) -> _T:
        """Finds the first matches in the bytes from a place on, at most so many, and reads them."""
        return self._found(export, (memory.at(place), memory.length - place), size, read)

    def find_on(self, memory: Memory, place: Place, size: int, read: Callable[[Room], _T]) -> _T:
        """Finds the next matches that do not overlap, at most so many, moves the place, and reads them."""
        return self._found(library.find_on, (memory.at(0), memory.length, ctypes.addressof(place)), size, read)

    def _found(self, export: Callable[..., int], arguments: tuple, size: int, read: Callable[[Room], _T]) -> _T:
        handle = self._take()
        try:
            room = handle.room if size <= FIRST_ROOM else Room(size)
            out, _size, written = room.words
            need_done(export(handle.address, *arguments, out, size, written))
            return read(room)
        finally:
            self._give_back(handle)

    def close(self) -> None:
        """Frees the handles. Later calls are refused."""
        self._is_open = False
        self._idle.clear()
        with self._lock:
            library.free(self._source.address)

    def _take(self) -> Handle:
        try:
            return self._idle.pop()
        except IndexError:
            return self.share()

    def _give_back(self, handle: Handle) -> None:
        self._idle.append(handle)
        if not self._is_open:
            self._idle.clear()
