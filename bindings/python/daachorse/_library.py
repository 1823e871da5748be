"""The shared library: its calls, and why it refuses one."""

from __future__ import annotations

import ctypes
import enum
import os
import types


class Kind(enum.IntEnum):
    """The kinds of automata, by the searches that they serve."""

    STANDARD = 0
    LEFTMOST_LONGEST = 1
    LEFTMOST_FIRST = 2


class Search(enum.IntEnum):
    """The searches of streams."""

    FIND = 0
    OVERLAPPING = 1
    NO_SUFFIX = 2
    LEFTMOST = 3


class Refusal(enum.IntEnum):
    """Why a call was refused."""

    OUT_OF_MEMORY = 1
    EMPTY_HANDLE = 2
    UNKNOWN_KIND = 3
    WRONG_KIND = 4
    WRONG_PATTERNS = 5
    PATTERN_TOO_LONG = 6
    TOO_MANY_STATES = 7
    TOO_MANY_PATTERNS = 8
    TOO_MANY_ELEMENTS = 9
    INVALID_AUTOMATON = 10
    NO_ROOM = 11
    NO_STREAM = 12
    STREAM_TOO_LONG = 13
    UNKNOWN_OPTION = 14
    WRONG_PLACE = 15
    UNKNOWN_SEARCH = 16
    STREAM_ENDED = 17
    INVALID_UTF8 = 18


_SENTENCES = {
    Refusal.EMPTY_HANDLE: "the automaton was closed",
    Refusal.PATTERN_TOO_LONG: "a pattern has more than 4294967295 bytes",
    Refusal.TOO_MANY_STATES: "the patterns have more than 4294967295 prefixes",
    Refusal.TOO_MANY_PATTERNS: "there are more than 16777215 patterns",
    Refusal.TOO_MANY_ELEMENTS: "the double array would pass 4294967295 elements",
    Refusal.INVALID_AUTOMATON: "the bytes do not begin with an automaton",
    Refusal.STREAM_TOO_LONG: "a place in the stream or the number of its matches would pass 64 bits",
    Refusal.STREAM_ENDED: "the stream was finished",
    Refusal.INVALID_UTF8: "the bytes are no UTF-8",
}


class Refused(ValueError):
    """A call was refused. If memory ran out, MemoryError is raised instead."""

    def __init__(self, refusal: Refusal, sentence: str | None = None):
        super().__init__(sentence or _SENTENCES.get(refusal) or refusal.name.lower().replace("_", " "))
        self.refusal = refusal


# Addresses are numbers here. One of bytes may also be a `bytes`.
_HANDLE = _SIZE = _FOUND = ctypes.c_void_p
_MEMORY = [ctypes.c_void_p, ctypes.c_size_t]
_SEARCH = [_HANDLE, *_MEMORY, *_MEMORY, _SIZE]
_PATTERNS = [*_MEMORY, *_MEMORY, *_MEMORY]
_EXPORTS = {
    "build": [_HANDLE, ctypes.c_uint32, ctypes.c_bool, ctypes.c_bool, *_PATTERNS],
    "share": [_HANDLE, _HANDLE],
    "accelerate": [_HANDLE, _HANDLE],
    "find_on": [_HANDLE, *_MEMORY, ctypes.c_void_p, *_MEMORY, _SIZE],
    "find_overlapping": _SEARCH,
    "find_overlapping_no_suffix": _SEARCH,
    "is_match": [_HANDLE, *_MEMORY, _FOUND],
    "begin": [_HANDLE, ctypes.c_uint32],
    "consume": [_HANDLE, *_MEMORY, *_MEMORY, _SIZE, _SIZE],
    "end": [_HANDLE],
    "write": [_HANDLE, *_MEMORY, _SIZE],
    "list": [_HANDLE, *_PATTERNS, _SIZE, _SIZE],
    "read": [_HANDLE, *_MEMORY, _SIZE],
    "to_characters": [*_MEMORY, *[ctypes.c_size_t] * 3, *_MEMORY],
    "free": [_HANDLE],
}


def _load() -> ctypes.CDLL:
    beside = os.path.join(os.path.dirname(os.path.abspath(__file__)), "libdaachorse.so")
    name = os.environ.get("DAACHORSE_LIBRARY") or (beside if os.path.exists(beside) else "libdaachorse.so.1")
    try:
        return ctypes.CDLL(name)
    except OSError as error:
        raise ImportError(f"{error}: DAACHORSE_LIBRARY may name the library, or it may be {beside}") from None


def _exports() -> types.SimpleNamespace:
    """The exports, each under its name without `daachorse_`."""
    loaded, exports = _load(), types.SimpleNamespace()
    for name, parameters in _EXPORTS.items():
        export = getattr(loaded, f"daachorse_{name}")
        export.argtypes = parameters
        export.restype = None if name in ("free", "to_characters") else ctypes.c_uint32
        setattr(exports, name, export)
    return exports


library = _exports()


def need_done(answer: int) -> None:
    """Raises what the answer of a call says, unless it was done."""
    if answer == Refusal.OUT_OF_MEMORY:
        raise MemoryError
    if answer != 0:
        raise Refused(Refusal(answer))
