"""Memory that the library reads and writes."""

from __future__ import annotations

import ctypes
import struct
from typing import TYPE_CHECKING, Iterator

from ._library import library

if TYPE_CHECKING:
    from _typeshed import ReadableBuffer

# A match of C: start, end and value, and what fills up to the size of a word.
_MATCH = struct.Struct("NNI0N")


class Room:
    """Room for matches, and how many were written to it."""

    def __init__(self, size: int):
        self.size = size
        # One more, for a place that is turned with the matches.
        self._memory = (ctypes.c_char * (_MATCH.size * (size + 1)))()
        self._written = ctypes.c_size_t()
        # What a search takes.
        self.words = ctypes.addressof(self._memory), size, ctypes.addressof(self._written)

    def is_empty(self) -> bool:
        return self._written.value == 0

    def is_full(self) -> bool:
        return self._written.value == self.size

    def last(self) -> tuple:
        return _MATCH.unpack_from(self._memory, self._end() - _MATCH.size)

    def matches(self) -> Iterator[tuple]:
        """The matches that were written."""
        return _MATCH.iter_unpack(memoryview(self._memory)[: self._end()])

    def to_characters(self, text: int | bytes, length: int, before: int, characters: int, origin: int, place: int) -> int:
        """Turns the matches' places in bytes into places in characters.

        So many bytes and characters come before the text, and the places count from the origin.
        Returns how many characters begin before a place, which counts from there too.
        """
        _MATCH.pack_into(self._memory, self._end(), place, place, 0)
        library.to_characters(text, length, before, characters, origin, self.words[0], self._written.value + 1)
        return _MATCH.unpack_from(self._memory, self._end())[0]

    def _end(self) -> int:
        return _MATCH.size * self._written.value


class Place(ctypes.Structure):
    """Where a search goes on, at first at the beginning."""

    _fields_ = [("at", ctypes.c_size_t), ("after", ctypes.c_bool), ("over", ctypes.c_bool)]


class Memory:
    """Bytes, where they are."""

    def __init__(self, owner: bytes):
        self._owner = owner
        self.length = len(owner)

    def at(self, place: int) -> int | bytes:
        """What a call takes for the address of the bytes from this place on."""
        if place == 0:
            return self._owner
        return (ctypes.cast(ctypes.c_char_p(self._owner), ctypes.c_void_p).value or 0) + place


class _Buffer(ctypes.Structure):
    """What Python says of an object's memory: its struct Py_buffer."""

    _fields_ = [
        ("address", ctypes.c_void_p),
        ("owner", ctypes.c_void_p),
        ("length", ctypes.c_ssize_t),
        ("item_size", ctypes.c_ssize_t),
        ("is_read_only", ctypes.c_int),
        ("dimensions", ctypes.c_int),
        ("others", ctypes.c_void_p * 5),
    ]


_get_buffer = ctypes.pythonapi.PyObject_GetBuffer
_get_buffer.argtypes = [ctypes.py_object, ctypes.POINTER(_Buffer), ctypes.c_int]
_release_buffer = ctypes.pythonapi.PyBuffer_Release
_release_buffer.argtypes = [ctypes.POINTER(_Buffer)]
_release_buffer.restype = None


class _OtherMemory(Memory):
    """The bytes of another object. They stay where they are as long as this exists."""

    def __init__(self, owner: ReadableBuffer):
        buffer = _Buffer()
        _get_buffer(owner, buffer, 0)
        self._buffer = buffer
        self.length = buffer.length

    def at(self, place: int) -> int | bytes:
        return (self._buffer.address or 0) + place if self.length else b""

    def __del__(self):
        if hasattr(self, "_buffer"):
            _release_buffer(self._buffer)


def memory_of(owner: ReadableBuffer) -> Memory:
    """The bytes of an object, of which no copy is made."""
    return Memory(owner) if type(owner) is bytes else _OtherMemory(owner)
