"""What may be searched: bytes-like objects, with places in bytes, and `str`, in code points.

An automaton over `str` searches its UTF-8.
"""

from __future__ import annotations

import mmap
from collections.abc import Iterable, Mapping
from typing import TYPE_CHECKING, Any, Union

if TYPE_CHECKING:
    from _typeshed import ReadableBuffer

    Text = Union[str, ReadableBuffer]
else:
    Text = object

_ONE_TEXT = (str, bytes, bytearray, memoryview, mmap.mmap)


def unit_of(text: Any) -> type | None:
    """`str`, `bytes` for a bytes-like object, and None for what is no text."""
    if isinstance(text, str):
        return str
    if isinstance(text, bytes):
        return bytes
    try:
        with memoryview(text) as view:
            return bytes if view.ndim else None  # A number of numpy has no dimension.
    except TypeError:
        return None


def utf8(text: str) -> bytes:
    """Encodes a text, and raises ValueError if it has a lone surrogate."""
    try:
        return text.encode()
    except UnicodeEncodeError as error:
        raise ValueError(f"the code point {error.start} of a text is a lone surrogate, which no UTF-8 has") from None


def _utf8_steps() -> list[bytes]:
    """For each step in a character of UTF-8, the step that each byte leads to.

    Between characters the step is 0, and behind a wrong byte it is the last one.
    """
    # A step, the first and the last of some bytes, and the next step. The steps from 4 on are behind
    # bytes that not all may follow, since the character would be longer than needed or no scalar value.
    ways = [
        *[(0, 0x00, 0x7F, 0), (0, 0xC2, 0xDF, 1), (0, 0xE1, 0xEF, 2), (0, 0xF1, 0xF3, 3)],
        *[(1, 0x80, 0xBF, 0), (2, 0x80, 0xBF, 1), (3, 0x80, 0xBF, 2)],
        *[(0, 0xE0, 0xE0, 4), (0, 0xED, 0xED, 5), (0, 0xF0, 0xF0, 6), (0, 0xF4, 0xF4, 7)],
        *[(4, 0xA0, 0xBF, 1), (5, 0x80, 0x9F, 1), (6, 0x90, 0xBF, 2), (7, 0x80, 0x8F, 2)],
    ]
    steps = [bytearray([8]) * 256 for _ in range(9)]
    for step, first, last, next_step in ways:
        steps[step][first : last + 1] = bytes([next_step]) * (last + 1 - first)
    return [bytes(step) for step in steps]


UTF8_STEPS = _utf8_steps()


def encoded(text: Text, unit: type) -> ReadableBuffer:
    """The bytes of a text that an automaton over this unit is to take."""
    if isinstance(text, bytes) and unit is bytes:
        return text
    own, name = unit_of(text), type(text).__name__
    if own is None:
        wanted = "a str" if unit is str else "a bytes-like object"
        raise TypeError(f"{wanted} is wanted, and this is of the type {name}")
    if own is not unit:
        way = "text.encode()" if unit is bytes else "data.decode()"
        raise TypeError(f"the automaton is over {unit.__name__}, and this is of the type {name}: pass {way}")
    return utf8(text) if isinstance(text, str) else text


def need_unit(unit: Any) -> None:
    """Raises TypeError for what an automaton is not over."""
    if unit not in (str, bytes):
        raise TypeError(f"the unit is str or bytes, and not {unit!r}")


def need_list(patterns: Any, what: str) -> None:
    """Raises TypeError for what is no list of patterns, though Python may iterate over it."""
    if isinstance(patterns, _ONE_TEXT):
        way = ": pass a list with it"
    elif isinstance(patterns, Mapping):
        way = ": pass list(words) for the patterns, and values=words.values()"
    elif isinstance(patterns, Iterable):
        return
    else:
        way = ""
    raise TypeError(f"a list of {what} is wanted, and this is of the type {type(patterns).__name__}{way}")


def read_patterns(patterns: Iterable[Text], unit: type | None) -> tuple[list[bytes], type]:
    """Returns the patterns as bytes, and what they are of."""
    need_list(patterns, "patterns")
    if unit is not None:
        need_unit(unit)
    texts = []
    for number, pattern in enumerate(patterns):
        own, name = unit_of(pattern), type(pattern).__name__
        if own is None:
            raise TypeError(f"pattern {number} is of the type {name}, and not a str or a bytes-like object")
        unit = unit or own
        if own is not unit:
            raise TypeError(f"pattern {number} is of the type {name}, and the automaton is over {unit.__name__}")
        texts.append(utf8(pattern) if isinstance(pattern, str) else bytes(memoryview(pattern)))
    return texts, unit or bytes
