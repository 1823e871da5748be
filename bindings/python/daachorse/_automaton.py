"""Automata over `str` or over bytes."""

from __future__ import annotations

import ctypes
import functools
import itertools
from typing import TYPE_CHECKING, Any, Callable, Iterable, Iterator

from ._form import Facts, described, is_utf8
from ._handles import FIRST_ROOM, Handles
from ._library import Kind, Refusal, Refused, Search, library, need_done
from ._lookups import Words
from ._matches import Match, valued
from ._memory import Memory, Place, memory_of
from ._places import CodePoints, Places, at_characters
from ._search import Found, apart, overlapping, read_found, streamed
from ._stream import Feed, Stream
from ._texts import Text, encoded, need_list, need_unit, read_patterns

if TYPE_CHECKING:
    from _typeshed import ReadableBuffer


class Automaton:
    """An automaton over patterns that are all `str`, or all bytes-like objects.

    Pattern i, counted from 0, has the value values[i], any object, or i if no values are given. The
    kind selects the searches that may be called. With ascii_case_insensitive, A to Z are read as a
    to z in patterns and haystacks. `unit`, `str` or `bytes`, is needed only if there is no pattern.
    Haystacks are of the patterns' unit. Places are in code points, or in bytes. Threads may search
    an automaton at once.

    >>> automaton = Automaton(["he", "she", "hers"])
    >>> [value for start, end, value in automaton.find_overlapping("ushers")]
    [1, 0, 2]

    Raises Refused if the library refuses the patterns.
    """

    def __init__(
        self,
        patterns: Iterable[Text],
        values: Iterable | None = None,
        kind: Kind = Kind.STANDARD,
        use_prefilter: bool = True,
        ascii_case_insensitive: bool = False,
        unit: type | None = None,
    ):
        texts, unit = read_patterns(patterns, unit)
        stored, beside = _read_values(values, len(texts))
        if kind not in tuple(Kind):
            raise Refused(Refusal.UNKNOWN_KIND, f"{kind!r} is no kind: pass a member of Kind")
        ends = (ctypes.c_size_t * len(texts))(*itertools.accumulate(map(len, texts)))
        numbers = (ctypes.c_uint32 * len(texts))(*stored)
        joined = b"".join(texts)
        words = joined, len(joined), ends, len(ends), numbers, len(numbers)
        handles = Handles(library.build, kind, use_prefilter, ascii_case_insensitive, *words)
        facts = Facts(Kind(kind), bool(ascii_case_insensitive), max(map(len, texts), default=0), b"" in texts)
        self._become(handles, facts, unit, beside)

    @classmethod
    def read(cls, written: ReadableBuffer, unit: type = bytes, values: Iterable | None = None) -> tuple[Automaton, bytes]:
        """Reads the automaton that the bytes begin with, and returns it with the remaining bytes.

        The bytes may be untrusted: reading takes time and memory linear in them. But an automaton may
        have many patterns for each of its bytes, and `accelerate`, leftmost streams, `len`, `items` and
        lookups go over all of them. The bytes say neither what the automaton is over nor what objects
        its values stand for. Raises Refused if no automaton begins the bytes, if a pattern is no UTF-8
        but the unit is `str`, or if a pattern's value is no index of the values.
        """
        need_unit(unit)
        memory, taken = memory_of(encoded(written, bytes)), ctypes.c_size_t()
        handles = Handles(library.read, memory.at(0), memory.length, ctypes.addressof(taken))
        form = memoryview(written).cast("B")
        facts, greatest = described(form)
        beside = None if values is None else list(values)
        if beside is not None and greatest >= len(beside):
            sentence = f"a pattern has the value {greatest}, and there are {len(beside)} values"
            raise Refused(Refusal.INVALID_AUTOMATON, sentence)
        if unit is str and not is_utf8(form):
            raise Refused(Refusal.INVALID_AUTOMATON, "a pattern is no UTF-8: read the automaton with unit=bytes")
        automaton = cls.__new__(cls)
        automaton._become(handles, facts, unit, beside)
        return automaton, bytes(form[taken.value :])

    def write(self) -> bytes:
        """Returns the automaton as bytes, for `read`.

        They have no values but numbers below 2 ** 32: if another was given, each pattern's index.
        """
        room, size = (ctypes.c_uint8 * 0)(), ctypes.c_size_t()
        answer = self._handles.ask(library.write, room, 0, ctypes.addressof(size))
        if answer == Refusal.NO_ROOM:
            room = (ctypes.c_uint8 * size.value)()
            answer = self._handles.ask(library.write, room, size.value, ctypes.addressof(size))
        need_done(answer)
        return bytes(room)

    def accelerate(self) -> Automaton:
        """Returns a copy that finds the same, faster if patterns are few and short.

        It has rows of the states near the root, if there is room for them. Streams are no faster,
        and what is written of it has no rows.
        """
        copy = type(self).__new__(type(self))
        handles = Handles(lambda other: self._handles.ask(library.accelerate, other))
        copy._become(handles, self._facts, self._unit, self._beside)
        return copy

    def __reduce__(self):
        return _read_back, (type(self), self.write(), self._unit, self._beside)

    def __repr__(self) -> str:
        return f"<Automaton over {self._unit.__name__} of the kind {self.kind.name}>"

    @property
    def kind(self) -> Kind:
        """The searches that it serves."""
        return self._facts.kind

    @property
    def ignores_ascii_case(self) -> bool:
        """Whether A to Z are read as a to z."""
        return self._facts.ignores_ascii_case

    @property
    def unit(self) -> type:
        """What it is over: `str` or `bytes`."""
        return self._unit

    def find(self, haystack: Text) -> Iterator[tuple[int, int, Any]]:
        """Finds matches that do not overlap, each ending as early as possible.

        The haystack is searched as the matches are asked for, here and in the next three.

        >>> list(Automaton(["ab", "abcd"]).find("xabcd"))
        [(1, 3, 0)]
        """
        return self._search("find", haystack)

    def find_overlapping(self, haystack: Text) -> Iterator[tuple[int, int, Any]]:
        """Finds every match, by ascending ends, the longest first of those that end together.

        >>> list(Automaton(["ab", "b"]).find_overlapping("abb"))
        [(0, 2, 0), (1, 2, 1), (2, 3, 1)]
        """
        return self._search("find_overlapping", haystack)

    def find_overlapping_no_suffix(self, haystack: Text) -> Iterator[tuple[int, int, Any]]:
        """Finds the longest match at each end.

        >>> list(Automaton(["ab", "b"]).find_overlapping_no_suffix("abb"))
        [(0, 2, 0), (2, 3, 1)]
        """
        return self._search("find_overlapping_no_suffix", haystack)

    def leftmost_find(self, haystack: Text) -> Iterator[tuple[int, int, Any]]:
        """Finds leftmost matches, which do not overlap, if the automaton is of a leftmost kind.

        >>> list(Automaton(["ab", "abcd"], kind=Kind.LEFTMOST_LONGEST).leftmost_find("xabcd"))
        [(1, 5, 1)]
        """
        return self._search("leftmost_find", haystack)

    def find_first(self, haystack: Text) -> Match | None:
        """Returns the first match of `find`, or of `leftmost_find` if that is what it serves.

        >>> Automaton(["b", "ab"]).find_first("cab")
        Match(start=1, end=3, value=1)
        """
        return next(map(Match._make, self._apart(haystack, 1)), None)

    def is_match(self, haystack: Text) -> bool:
        """Returns whether some pattern occurs."""
        memory, found = memory_of(encoded(haystack, self._unit)), ctypes.c_bool()
        need_done(self._handles.ask(library.is_match, memory.at(0), memory.length, ctypes.addressof(found)))
        return found.value

    def replace(self, haystack: Text, replacement: Text | Callable[[Match], Text]) -> Any:
        """Returns the haystack, as `str` or `bytes`, with a replacement for each match.

        The matches are those of `find`, or of `leftmost_find` if that is what the automaton serves.
        The replacement is a text, or a function that makes one of a match.

        >>> animals = Automaton(["cat", "dog"], values=["Katze", "Hund"])
        >>> animals.replace("a cat, a dog", lambda match: match.value)
        'a Katze, a Hund'
        """
        if not callable(replacement):
            encoded(replacement, self._unit)
        text: Any = haystack if self._unit is str else memoryview(encoded(haystack, bytes)).cast("B")
        parts: list = []
        behind = 0
        for match in map(Match._make, self._apart(haystack)):
            parts += text[behind : match.start], replacement(match) if callable(replacement) else replacement
            behind = match.end
        return self._unit().join([*parts, text[behind:]])

    def stream(self, overlapping: bool = False, no_suffix: bool = False) -> Stream:
        """Begins a stream. There may be any number at once.

        Its matches are those of `find`, or of `leftmost_find` if that is what the automaton serves;
        with overlapping those of `find_overlapping`, and with no_suffix those of
        `find_overlapping_no_suffix`.

        >>> stream = Automaton(["ab"]).stream()
        >>> stream.feed("xa"), stream.feed("b")
        ([], [(1, 3, 0)])
        >>> stream = Automaton(["ab", "abcd"], kind=Kind.LEFTMOST_LONGEST).stream()
        >>> stream.feed("xab"), stream.feed("c"), stream.finish()
        ([], [], [(1, 3, 0)])
        """
        feed = Feed(self._handles, self._streamed(overlapping, no_suffix))
        return Stream(feed, self._unit, self._places(), self._facts.has_empty, self._beside)

    def items(self) -> list[tuple[Any, Any]]:
        """Returns the patterns of the automaton, each with its value.

        They are in byte order, equal ones in order of registration. An automaton of the kind
        LEFTMOST_FIRST holds no pattern that extends one registered before it, and one that ignores
        ASCII case holds a to z in place of A to Z.

        >>> Automaton(["b", "ab"]).items()
        [('ab', 1), ('b', 0)]
        """
        return [(self._decoded(text), value) for text, value in self._listed()]

    def __len__(self) -> int:
        """How many patterns it holds, as `items` lists them."""
        answer, _size, count, _room = self._list(0, 0)
        if answer != Refusal.NO_ROOM:
            need_done(answer)
        return count

    def __contains__(self, text: Text) -> bool:
        return bool(self._lookup().values(self._bytes(text)))

    def get(self, text: Text, default: Any = None) -> Any:
        """Returns the value of the pattern that equals the text, the first registered.

        >>> Automaton(["he", "she"]).get("she")
        1
        """
        values = self._lookup().values(self._bytes(text))
        return values[0] if values else default

    def common_prefixes(self, text: Text) -> Iterator[tuple[int, int, Any]]:
        """Finds each pattern that begins the text, the shortest first.

        >>> list(Automaton(["ab", "abcd", "b"]).common_prefixes("abcde"))
        [(0, 2, 0), (0, 4, 1)]
        """
        data = self._bytes(text)
        for length, values in self._lookup().prefixes(data):
            end = len(self._decoded(data[:length]))
            yield from ((0, end, value) for value in values)

    def longest_prefix(self, text: Text) -> Match | None:
        """Returns the longest pattern that begins the text, with the value registered first.

        >>> Automaton(["ab", "abcd", "b"]).longest_prefix("abcde")
        Match(start=0, end=4, value=1)
        """
        longest = None
        for match in self.common_prefixes(text):
            if longest is None or match[1] > longest.end:
                longest = Match._make(match)
        return longest

    def close(self) -> None:
        """Frees the memory, but for what streams use. A later call raises Refused."""
        self._handles.close()

    def __enter__(self) -> Automaton:
        return self

    def __exit__(self, *_raised) -> None:
        self.close()

    def _become(self, handles: Handles, facts: Facts, unit: type, beside: list | None) -> None:
        self._handles, self._facts, self._unit, self._beside = handles, facts, unit, beside
        self._words: Words | None = None

    def _bytes(self, text: Text) -> bytes:
        return bytes(memoryview(encoded(text, self._unit)))

    def _decoded(self, text: bytes):
        return text.decode() if self._unit is str else text

    def _need_kind(self, name: str) -> None:
        if name == "leftmost_find" and self.kind == Kind.STANDARD:
            wanted = "a leftmost kind, and this is of the kind STANDARD: use find, or build it with another kind"
        elif name != "leftmost_find" and self.kind != Kind.STANDARD:
            wanted = f"the kind STANDARD, and this is of the kind {self.kind.name}: use leftmost_find"
        else:
            return
        raise Refused(Refusal.WRONG_KIND, f"{name} wants an automaton of {wanted}")

    def _streamed(self, overlapping: bool, no_suffix: bool) -> Search:
        """The search of a stream."""
        if not overlapping and not no_suffix:
            return Search.FIND if self.kind == Kind.STANDARD else Search.LEFTMOST
        self._need_kind("find_overlapping_no_suffix" if no_suffix else "find_overlapping")
        return Search.NO_SUFFIX if no_suffix else Search.OVERLAPPING

    def _apart(self, haystack: Text, size: int = FIRST_ROOM) -> Iterator[tuple[int, int, Any]]:
        return self._search("find" if self.kind == Kind.STANDARD else "leftmost_find", haystack, size)

    def _search(self, name: str, haystack: Text, size: int = FIRST_ROOM) -> Iterator[tuple[int, int, Any]]:
        self._need_kind(name)
        data = encoded(haystack, self._unit)
        in_code_points = isinstance(haystack, str) and not haystack.isascii()
        memory, places = memory_of(data), self._places() if in_code_points else Places()
        places.add(data)

        parts = self._parts(name, memory, places, size)
        # The first call is made here, so that what it refuses is raised here.
        matches: Iterator[tuple] = itertools.chain(next(parts), itertools.chain.from_iterable(parts))
        if in_code_points and self._facts.has_empty:
            matches = at_characters(matches)
        return valued(matches, self._beside)

    def _parts(self, name: str, memory: Memory, places: Places, size: int) -> Iterator[Iterable[tuple]]:
        """Yields the matches of a search in parts, of which the first has room for so many."""
        read = functools.partial(read_found, places)
        if not name.startswith("find_overlapping"):
            place = Place()
            yield from apart(lambda size: self._handles.find_on(memory, place, size, read), size)
            return

        def call(place: int, size: int) -> Found:
            read_there = functools.partial(read, origin=place)
            return self._handles.search(getattr(library, name), memory, place, size, read_there)

        found = call(0, size)
        yield found.matches
        if len(found.matches) == size and name == "find_overlapping" and found.is_dense():
            yield from streamed(Feed(self._handles, Search.OVERLAPPING), memory, places, size)
        else:
            yield from overlapping(call, self._reach(), found, size)

    def _places(self) -> Places:
        return CodePoints(self._reach()) if self._unit is str else Places()

    def _reach(self) -> int:
        """How many bytes before the end of a match another may start that has the same end in code points."""
        return self._facts.longest + 3

    def _lookup(self) -> Words:
        if self._words is None:
            self._words = Words(self._listed(), self.ignores_ascii_case)
        return self._words

    def _listed(self) -> list[tuple[bytes, Any]]:
        """The patterns as bytes, each with its value."""
        answer, size, count, room = self._list(0, 0)
        if answer == Refusal.NO_ROOM:
            answer, size, count, room = self._list(size, count)
        need_done(answer)
        joined, ends, values = bytes(room[0]), list(room[1]), list(room[2])
        if self._beside is not None:
            values = [self._beside[number] for number in values]
        return [(joined[start:end], value) for start, end, value in zip([0, *ends], ends, values)]

    def _list(self, size: int, count: int):
        """Returns the answer of a listing, its numbers of bytes and patterns, and its arrays."""
        room = (ctypes.c_uint8 * size)(), (ctypes.c_size_t * count)(), (ctypes.c_uint32 * count)()
        told = ctypes.c_size_t(), ctypes.c_size_t()
        words = room[0], size, room[1], count, room[2], count
        answer = self._handles.ask(library.list, *words, *map(ctypes.addressof, told))
        return answer, told[0].value, told[1].value, room


def _read_back(cls, written: bytes, unit: type, values: list | None) -> Automaton:
    return cls.read(written, unit, values)[0]


def _read_values(values: Iterable | None, count: int) -> tuple[Iterable[int], list | None]:
    """The values that the library stores, and the list of which they are indices, if any."""
    if values is None:
        return range(count), None
    need_list(values, "values")
    values = list(values)
    if len(values) != count:
        raise Refused(Refusal.WRONG_PATTERNS, f"there are {count} patterns, and {len(values)} values")
    if all(type(value) is int and 0 <= value < 2**32 for value in values):
        return values, None
    return range(count), values
