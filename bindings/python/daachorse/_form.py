"""What a written form says of its automaton."""

from __future__ import annotations

import struct
from array import array
from typing import NamedTuple

from ._library import Kind
from ._texts import UTF8_STEPS

_NUMBER = struct.Struct("<I")
_OUTPUT = struct.Struct("<III")

# How many bytes an item takes in each list: elements of the standard searches and of the leftmost
# ones, their links, and outputs.
_ITEMS = (12, 8, 4, _OUTPUT.size)


class Facts(NamedTuple):
    """What is known of an automaton beside its handle."""

    kind: Kind
    ignores_ascii_case: bool
    longest: int
    """No pattern has more bytes."""
    has_empty: bool
    """Whether the empty text is a pattern."""


def described(form: memoryview) -> tuple[Facts, int]:
    """The facts of a form that was read, and its greatest value, or -1."""
    (*_, outputs), end = _lists(form)
    longest, greatest, has_empty = 0, -1, False
    for value, length, _parent in _OUTPUT.iter_unpack(outputs):
        longest, greatest, has_empty = max(longest, length), max(greatest, value), has_empty or length == 0
    mark = form[end] if form[end] & 127 in tuple(Kind) else 0
    return Facts(Kind(mark & 127), mark >= 128, longest, has_empty), greatest


def is_utf8(form: memoryview) -> bool:
    """Whether each pattern of a form that was read is UTF-8.

    It looks at each element once. The patterns may be many more, since texts may share outputs.
    """
    (standard, leftmost, _links, outputs), _end = _lists(form)
    elements = _columns(standard, 3) if standard else _columns(leftmost, 2)
    bases, marks, lengths = elements[0], elements[-1], _columns(outputs, 3)[1]
    first, others = _children(marks)
    # Elements to look at, each with the length of its text, and the step of UTF-8 behind it.
    rest = [(0, 0, 0)]
    while rest:
        element, length, step = rest.pop()
        output = marks[element] >> 8
        if step and output and lengths[output - 1] == length:
            return False
        child = first[bases[element]] if bases[element] else 0
        while child:
            rest.append((child, length + 1, UTF8_STEPS[step][marks[child] & 255]))
            child = others[child]
    return True


def _lists(form: memoryview) -> tuple[list[memoryview], int]:
    """The items of each list, and where the lists end."""
    lists, end = [], 0
    for size in _ITEMS:
        at = end + 4
        end = at + size * _NUMBER.unpack_from(form, end)[0]
        lists.append(form[at:end])
    return lists, end


def _columns(items: memoryview, width: int) -> list[array]:
    """The numbers of items that are so many numbers each, by their places in the item.

    Numbers are little-endian, as on each machine that the library is for.
    """
    numbers = items.cast("I")
    return [array("I", numbers[place::width].tobytes()) for place in range(width)]


def _children(marks: array) -> tuple[array, array]:
    """For each base its first child, and for each element the next child of the same base, or 0."""
    first, others = array("I", bytes(4 * (len(marks) | 255) + 4)), array("I", bytes(4 * len(marks)))
    for element in range(1, len(marks)):
        base = element ^ marks[element] & 255
        others[element], first[base] = first[base], element
    return first, others
