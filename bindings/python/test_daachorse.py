"""Tests of the package: by hand, over the table of crates/daachorse_table, and beside the definitions."""

import array
import copy
import doctest
import hashlib
import importlib
import mmap
import pickle
import random
import statistics
import struct
import sys
import tempfile
import threading
import time
import tracemalloc
import unittest

import definitions
import running
import table
from daachorse import Automaton, Kind, Refusal, Refused

STANDARD, LONGEST, FIRST = Kind
PATTERNS = [b"ab", b"abcd", b"bc", b"cd"]
WORDS = ["é", "é€", ""]

# What each search finds: name, kind, whether ASCII case is ignored, patterns, haystack, matches.
ROWS = [
    ("find", STANDARD, False, PATTERNS, b"abcd", [(0, 2, 0), (2, 4, 3)]),
    ("find_overlapping", STANDARD, False, PATTERNS, b"abcd", [(0, 2, 0), (1, 3, 2), (0, 4, 1), (2, 4, 3)]),
    ("find_overlapping_no_suffix", STANDARD, False, PATTERNS, b"abcd", [(0, 2, 0), (1, 3, 2), (0, 4, 1)]),
    ("leftmost_find", LONGEST, False, PATTERNS, b"abcd", [(0, 4, 1)]),
    ("leftmost_find", FIRST, False, PATTERNS, b"abcd", [(0, 2, 0), (2, 4, 3)]),
    ("find_overlapping", STANDARD, False, PATTERNS, b"", []),
    ("find_overlapping", STANDARD, False, [], b"abcd", []),
    ("find", STANDARD, False, [b""], b"ab", [(0, 0, 0), (1, 1, 0), (2, 2, 0)]),
    ("find_overlapping", STANDARD, False, [b"\x00\xff", b"\xff"], b"a\x00\xff", [(1, 3, 0), (2, 3, 1)]),
    ("find_overlapping", STANDARD, False, [b"a", b"a"], b"a", [(0, 1, 0), (0, 1, 1)]),
    ("find", STANDARD, False, [b"Ab"], b"abAb", [(2, 4, 0)]),
    ("find", STANDARD, True, [b"Ab"], b"abAb", [(0, 2, 0), (2, 4, 0)]),
    ("find_overlapping", STANDARD, True, [b"a", b"A"], b"A", [(0, 1, 0), (0, 1, 1)]),
    ("find_overlapping_no_suffix", STANDARD, True, PATTERNS, b"ABCD", [(0, 2, 0), (1, 3, 2), (0, 4, 1)]),
    ("leftmost_find", LONGEST, True, PATTERNS, b"aBcD", [(0, 4, 1)]),
    ("leftmost_find", FIRST, True, [b"[", b"Z"], b"{z[@", [(1, 2, 1), (2, 3, 0)]),
    ("find", STANDARD, False, ["é", "É"], "aÉé", [(1, 2, 1), (2, 3, 0)]),
    ("find", STANDARD, True, ["éA", "É"], "aéaÉÉa", [(1, 3, 0), (3, 4, 1), (4, 5, 1)]),
    ("find", STANDARD, False, WORDS, "aé€b", [(0, 0, 2), (1, 1, 2), (2, 2, 2), (3, 3, 2), (4, 4, 2)]),
    ("find_overlapping", STANDARD, False, WORDS[:2], "😀é€é", [(1, 2, 0), (1, 3, 1), (3, 4, 0)]),
    (
        "find_overlapping",
        STANDARD,
        False,
        WORDS,
        "aé€b",
        [(0, 0, 2), (1, 1, 2), (1, 2, 0), (2, 2, 2), (1, 3, 1), (3, 3, 2), (4, 4, 2)],
    ),
    ("find_overlapping_no_suffix", STANDARD, False, WORDS, "aé€b", [(0, 0, 2), (1, 1, 2), (1, 2, 0), (1, 3, 1), (4, 4, 2)]),
    ("leftmost_find", LONGEST, False, WORDS, "aé€b", [(0, 0, 2), (1, 3, 1), (4, 4, 2)]),
    ("leftmost_find", FIRST, False, WORDS, "aé€b", [(0, 0, 2), (1, 2, 0), (3, 3, 2), (4, 4, 2)]),
]

# What streams of leftmost automata tell: kind, patterns, pieces, what is certain with each, what the end tells.
SECRETS = [b"secret", b"secretary"]
CERTAIN = [
    (LONGEST, SECRETS, [b"a sec", b"ret", b"s, secretar", b"y"], [[], [], [(2, 8, 0)], [(11, 20, 1)]], []),
    (LONGEST, SECRETS, [b"secreta"], [[]], [(0, 6, 0)]),
    (FIRST, SECRETS, [b"secret", b"ary"], [[(0, 6, 0)], []], []),
    (LONGEST, [b"a", b"aaab"], [b"aaa", b"c"], [[], [(0, 1, 0), (1, 2, 0), (2, 3, 0)]], []),
    (LONGEST, ["世界", "世"], ["é世", "世", "界"], [[], [(1, 2, 1)], [(2, 4, 0)]], []),
    (LONGEST, ["", "é"], ["a", "éb"], [[(0, 0, 0)], [(1, 2, 1)]], [(3, 3, 0)]),
    (LONGEST, [], [b"ab"], [[]], []),
]

# Calls that are refused with a sentence, and words of it.
SENTENCES = [
    (TypeError, "the type bytes: pass a list with it", lambda: Automaton(b"ab")),
    (TypeError, "the type str: pass a list with it", lambda: Automaton("ab")),
    (TypeError, "pass list(words) for the patterns, and values=words.values()", lambda: Automaton({b"a": 5})),
    (TypeError, "a list of patterns is wanted, and this is of the type int", lambda: Automaton(5)),
    (TypeError, "a list of values is wanted, and this is of the type str", lambda: Automaton([b"a"], values="5")),
    (TypeError, "pattern 1 is of the type int", lambda: Automaton([b"a", 3])),
    (TypeError, "pattern 1 is of the type str", lambda: Automaton([b"a", "a"])),
    (TypeError, "pattern 0 is of the type bytes", lambda: Automaton([b"a"], unit=str)),
    (TypeError, "str or bytes, and not", lambda: Automaton([], unit=int)),
    (TypeError, "str or bytes, and not", lambda: Automaton.read(b"", unit="str")),
    (TypeError, "pass text.encode()", lambda: Automaton([b"a"]).find("a")),
    (TypeError, "pass data.decode()", lambda: Automaton(["a"]).is_match(b"a")),
    (TypeError, "a bytes-like object is wanted, and this is of the type int", lambda: Automaton([b"a"]).stream().feed(5)),
    (TypeError, "a str is wanted, and this is of the type NoneType", lambda: Automaton(["a"]).replace("a", None)),
    (ValueError, "code point 1 of a text is a lone surrogate", lambda: Automaton(["a\ud800"])),
    (ValueError, "code point 0 of a text is a lone surrogate", lambda: Automaton(["a"]).find("\udfff")),
    (Refusal.UNKNOWN_KIND, "a member of Kind", lambda: Automaton(PATTERNS, kind=3)),
    (Refusal.WRONG_PATTERNS, "there are 4 patterns, and 1 values", lambda: Automaton(PATTERNS, values=[0])),
    (Refusal.WRONG_KIND, "leftmost_find wants an automaton of a leftmost kind", lambda: Automaton(PATTERNS).leftmost_find(b"")),
    (Refusal.WRONG_KIND, "this is of the kind LEFTMOST_FIRST", lambda: Automaton(PATTERNS, kind=FIRST).find(b"")),
    (Refusal.WRONG_KIND, "find_overlapping wants", lambda: Automaton(PATTERNS, kind=LONGEST).stream(overlapping=True)),
    (Refusal.WRONG_KIND, "no_suffix wants", lambda: Automaton(PATTERNS, kind=FIRST).stream(no_suffix=True)),
    (Refusal.INVALID_AUTOMATON, "do not begin with", lambda: Automaton.read(b"no automaton")),
    (Refusal.INVALID_AUTOMATON, "the value 3, and there are 3 values", lambda: Automaton.read(Automaton(PATTERNS).write(), values=[1, 2, 3])),
    (Refusal.INVALID_AUTOMATON, "no UTF-8", lambda: Automaton.read(Automaton([b"\xff"]).write(), unit=str)),
]

# Patterns that are UTF-8, and patterns that are not.
TEXTS = [b"\x7f", b"\xc2\x80", b"\xdf\xbf", b"\xe0\xa0\x80", b"\xec\xbf\xbf", b"\xed\x9f\xbf", b"\xee\x80\x80", b"\xef\xbf\xbf"]
TEXTS += [b"\xf0\x90\x80\x80", b"\xf1\x80\x80\x80", b"\xf3\xbf\xbf\xbf", b"\xf4\x8f\xbf\xbf", b""]
NO_TEXTS = [b"\x80", b"\xbf", b"\xc2", b"\xc1\xbf", b"\xc2\x7f", b"\xc2\xc0", b"\xe2\x82", b"\xe2\x82a", b"\xe0\x9f\xbf", b"\xed\xa0\x80"]
NO_TEXTS += [b"\xf0\x9f\x98", b"\xf0\x8f\xbf\xbf", b"\xf4\x90\x80\x80", b"\xf5\x80\x80\x80", b"\xff"]

# Patterns, a text, the longest pattern that begins it, and all these.
PREFIXES = [
    ([b"ab", b"abcd", b"b"], b"abcde", (0, 4, 1), [(0, 2, 0), (0, 4, 1)]),
    ([b"ab", b"ab", b""], b"ab", (0, 2, 0), [(0, 0, 2), (0, 2, 0), (0, 2, 1)]),
    (["é", "é€"], "é€é", (0, 2, 1), [(0, 1, 0), (0, 2, 1)]),
    ([b"b"], b"ab", None, []),
    ([b"abc"], b"ab", None, []),
    ([], b"ab", None, []),
]


def drawn_rows(count):
    """Yields rows of drawn bytes, and of characters that stand for them: name, kind, patterns,
    haystack, matches. Haystacks are dense with matches, or have none in the long stretches
    between equal parts.
    """
    chance = random.Random(5)
    characters = {ord("a"): "a", ord("b"): "é", ord("c"): "€", ord("d"): "😀"}
    draw = lambda most: bytes(chance.choices(b"aabcd", k=chance.randrange(most + 1)))
    for _ in range(count):
        patterns, part = [draw(4) for _ in range(chance.randint(1, 6))], draw(12)
        haystacks = {draw(400): 1}
        if b"" not in patterns:
            haystacks[part + b"x" * 1000] = 40
        for haystack, times in haystacks.items():
            for name, kind in definitions.SEARCHES:
                valued = [(it, value) for value, it in enumerate(patterns)]
                matches = definitions.found_by(name, kind, valued, haystack if times == 1 else part)
                offsets = range(0, len(haystack) * times, len(haystack) or 1) if times > 1 else [0]
                matches = [(start + at, end + at, value) for at in offsets for start, end, value in matches]
                yield name, Kind(kind), patterns, haystack * times, matches
                translated = [it.decode().translate(characters) for it in patterns]
                yield name, Kind(kind), translated, (haystack * times).decode().translate(characters), matches


class TableTest(unittest.TestCase):
    def test_rows(self):
        counts, told_apart = {True: 0, None: 0}, 0
        for line, is_wrong in table.lines():
            with self.subTest(line=line):
                holds = running.holds(line)
                self.assertIsNot(holds, is_wrong)
                if is_wrong:
                    told_apart += holds is False
                else:
                    counts[holds] += 1
        counted = f"{counts[True]} rows hold, {counts[None]} are skipped, and {told_apart} are wrong as they should be"
        print(counted, file=sys.stderr)
        self.assertGreaterEqual(counts[True], 1000)
        self.assertGreater(told_apart, 0)


class SearchTest(unittest.TestCase):
    def test_rows(self):
        for name, kind, any_case, patterns, haystack, matches in ROWS:
            for use_prefilter in (False, True):
                settings = dict(kind=kind, use_prefilter=use_prefilter, ascii_case_insensitive=any_case)
                with self.subTest(name=name, patterns=patterns, haystack=haystack, **settings):
                    with Automaton(patterns, **settings) as automaton:
                        self.assertEqual(list(getattr(automaton, name)(haystack)), matches)
                        unit = automaton.unit
                        for again in (Automaton.read(automaton.write(), unit)[0], automaton.accelerate()):
                            self.assertEqual(list(getattr(again, name)(haystack)), matches)
                            self.assertEqual((again.kind, again.ignores_ascii_case, again.unit), (kind, any_case, unit))

    def test_rows_in_pieces(self):
        for name, kind, any_case, patterns, haystack, matches in ROWS:
            with Automaton(patterns, kind=kind, ascii_case_insensitive=any_case) as automaton:
                for size in (1, 2, 3):
                    with self.subTest(name=name, patterns=patterns, haystack=haystack, size=size):
                        stream = automaton.stream(name == "find_overlapping", name == "find_overlapping_no_suffix")
                        pieces = [haystack[at : at + size] for at in range(0, len(haystack), size)]
                        told = [match for piece in [*pieces, haystack[:0]] for match in stream.feed(piece)]
                        self.assertEqual(told + stream.finish(), matches)

    def test_more_matches_than_room(self):
        for name, kind, patterns, haystack, matches in drawn_rows(40):
            with self.subTest(name=name, kind=kind, patterns=patterns, haystack=haystack):
                self.assertEqual(list(getattr(Automaton(patterns, kind=kind), name)(haystack)), matches)
        found = list(Automaton([b"a", b"aa"]).find_overlapping(b"a" * 200000))
        self.assertEqual((len(found), found[-1]), (399999, (199999, 200000, 0)))

    def test_searches_go_on_as_they_are_asked(self):
        haystack = bytearray(b"a" * 1000)
        found = Automaton([b"a"]).find_overlapping(haystack)
        next(found)
        haystack[500:] = b"b" * 500
        self.assertLess(len(list(found)), 500)

    def test_haystacks_are_bytes_like(self):
        automaton, data = Automaton([b"cd", bytearray(b"ab"), memoryview(b"bc")]), b"xabcd" * 100
        wanted = list(automaton.find_overlapping(data))
        self.assertEqual(len(wanted), 300)
        with tempfile.TemporaryFile() as file:
            file.write(data)
            file.flush()
            with mmap.mmap(file.fileno(), 0, access=mmap.ACCESS_READ) as mapped:
                self.assertEqual(list(automaton.find_overlapping(mapped)), wanted)
        haystacks = [bytearray(data), memoryview(data), memoryview(b"ab" + data)[2:], array.array("B", data)]
        try:
            haystacks.append(importlib.import_module("numpy").frombuffer(data, "uint8"))
        except ImportError:
            pass
        for haystack in haystacks:
            with self.subTest(type=type(haystack)):
                self.assertEqual(list(automaton.find_overlapping(haystack)), wanted)
                self.assertTrue(automaton.is_match(haystack))
                self.assertEqual(automaton.stream(True).feed(haystack), wanted)
        found = automaton.find(haystacks[0])
        next(found)
        with self.assertRaises(BufferError):
            haystacks[0].clear()
        del found
        haystacks[0].clear()

    def test_first_and_replaced(self):
        for name, kind, any_case, patterns, haystack, matches in ROWS:
            if name not in ("find", "leftmost_find"):
                continue
            with self.subTest(name=name, kind=kind, patterns=patterns, haystack=haystack):
                automaton = Automaton(patterns, kind=kind, ascii_case_insensitive=any_case)
                self.assertEqual(automaton.find_first(haystack), matches[0] if matches else None)
                self.assertEqual(automaton.is_match(haystack), bool(matches))
        dogs = Automaton([b"cat", b"dog"], values=[b"Katze", b"Hund"])
        self.assertEqual(dogs.replace(b"cat, dog", lambda match: match.value), b"Katze, Hund")
        self.assertEqual(dogs.replace(bytearray(b"a cat"), b"-"), b"a -")
        longest = Automaton(["é", "é€", ""], kind=LONGEST, ascii_case_insensitive=True)
        self.assertEqual(longest.replace("Aé€b", "*"), "*A*b*")


class StreamTest(unittest.TestCase):
    def test_streams_stand_apart(self):
        with Automaton([b"a", b"aa"]) as automaton:
            stream = automaton.stream(overlapping=True)
            found = [match for _ in range(2) for match in stream.feed(b"a" * 500)]
            self.assertEqual(found, list(automaton.find_overlapping(b"a" * 1000)))
            another = automaton.stream()
            self.assertEqual(another.feed(b"a"), [(0, 1, 0)])
            self.assertEqual(stream.feed(b"xa"), [(1001, 1002, 0)])
        self.assertEqual(another.feed(b"a"), [(1, 2, 0)])

    def test_leftmost_matches_are_told_when_they_are_certain(self):
        for kind, patterns, pieces, certain, left in CERTAIN:
            with self.subTest(kind=kind, patterns=patterns, pieces=pieces):
                stream = Automaton(patterns, kind=kind).stream()
                self.assertEqual([stream.feed(piece) for piece in pieces], certain)
                self.assertEqual(stream.finish(), left)

    def test_finished_streams_take_no_piece(self):
        stream = Automaton(SECRETS, kind=LONGEST).stream()
        self.assertEqual((stream.finish(), stream.finish()), ([], []))
        with self.assertRaisesRegex(Refused, "the stream was finished"):
            stream.feed(b"a")

    def test_more_leftmost_matches_than_room(self):
        automaton, haystack = Automaton([b"a", b"a" * 3000], kind=LONGEST), b"a" * 2999
        stream = automaton.stream()
        self.assertEqual((stream.feed(haystack), stream.finish()), ([], list(automaton.leftmost_find(haystack))))

    def test_feeding_takes_linear_time(self):
        stream, pieces, times = Automaton([b"a"]).stream(), [b"a" * 50000, b"a" * 800000], []
        for piece in pieces:
            rounds = []
            for _ in range(3):
                began = time.perf_counter()
                stream.feed(piece)
                rounds.append(time.perf_counter() - began)
            times.append(min(rounds))
        # Sixteen times as much. Its square would take 256 times as long.
        self.assertLess(times[1], 64 * times[0])


class DictionaryTest(unittest.TestCase):
    def test_items(self):
        self.assertEqual(Automaton(["é", "b"]).items(), [("b", 1), ("é", 0)])
        many = [number.to_bytes(2, "big") for number in range(1000)]
        automaton = Automaton(reversed(many), values=range(2**32 - 1, 2**32 - 1001, -1))
        self.assertEqual(automaton.items(), [(it, 2**32 - 1000 + at) for at, it in enumerate(many)])

    def test_lookups(self):
        for patterns, text, longest, prefixes in PREFIXES:
            with self.subTest(patterns=patterns, text=text):
                automaton = Automaton(patterns)
                self.assertEqual(automaton.longest_prefix(text), longest)
                self.assertEqual(list(automaton.common_prefixes(text)), prefixes)
        automaton = Automaton(["Ab", "aB"], ascii_case_insensitive=True)
        self.assertEqual(("AB" in automaton, "a" in automaton, automaton.get("ab"), automaton.get("b", 7)), (True, False, 0, 7))

    def test_values(self):
        for values in ([2**32 - 1, 5, 5, 0], ["x", None, (1, 2), 2**32]):
            automaton = Automaton(PATTERNS, values=values)
            for again in (automaton, automaton.accelerate(), pickle.loads(pickle.dumps(automaton))):
                found = [value for _, _, value in again.find_overlapping(b"abcd")]
                self.assertEqual(found, [values[0], values[2], values[1], values[3]])
                self.assertEqual([value for _, _, value in again.stream().feed(b"abcd")], [values[0], values[3]])
                self.assertEqual((again.get(b"bc"), dict(again.items())[b"cd"]), (values[2], values[3]))

    def test_copies(self):
        for patterns in (PATTERNS, ["é", "e"], []):
            for kind in Kind:
                facts = lambda it: (it.kind, it.unit, it.ignores_ascii_case, it.items())
                with Automaton(patterns, kind=kind, ascii_case_insensitive=True) as automaton:
                    again, another, wanted = copy.copy(automaton), pickle.loads(pickle.dumps(automaton)), facts(automaton)
                self.assertEqual((facts(again), facts(another)), (wanted, wanted))

    def test_read_leaves_the_rest(self):
        again, rest = Automaton.read(bytearray(Automaton(PATTERNS).write() + b"rest"))
        self.assertEqual((rest, len(again)), (b"rest", 4))


def crowded_form(first, second, count):
    """A form in which each text of a byte of `first` and one of `second` has the same outputs, so many."""
    blocks = 2 + len(first)
    checks = [(at & 255) ^ 1 for at in range(256 * blocks)]  # These make no element a child.
    elements = [[0, 0, check] for check in checks]
    elements[0] = [256, 0, 0]
    for number, byte in enumerate(first):
        elements[256 + byte] = [256 * (2 + number), 0, byte]
        for after in second:
            link = 256 + after if after in first else 0
            elements[256 * (2 + number) + after] = [0, link, after | count << 8]
    lists = [elements, [], [], [[value, 2, value] for value in range(count)]]
    parts = [struct.pack(f"<I{3 * len(it)}I", len(it), *(number for item in it for number in item)) for it in lists]
    return b"".join(parts) + struct.pack("<BIB", STANDARD, 1 + len(first) + len(first) * len(second), 0)


class RefusalTest(unittest.TestCase):
    def test_a_form_may_have_more_patterns_than_memory_holds(self):
        letters, outputs = bytes(range(1, 128)), 60000
        few = Automaton.read(crowded_form(b"ab", b"cd", 3), str)[0]
        self.assertEqual(few.items(), [(text, value) for text in ("ac", "ad", "bc", "bd") for value in (2, 1, 0)])
        form = crowded_form(letters, letters, outputs)
        tracemalloc.start()
        automaton, _rest = Automaton.read(form, str)
        _held, most = tracemalloc.get_traced_memory()
        tracemalloc.stop()
        self.assertLess(most, 4 * len(form))
        self.assertEqual(automaton.find_first("€zz"), (1, 3, outputs - 1))
        for first, second in ((letters, b"a\x80"), (b"a\xc3", b"\xa9"), (b"\xe2", b"\x82")):
            self.refused(Refusal.INVALID_AUTOMATON, lambda: Automaton.read(crowded_form(first, second, outputs), str))
        self.assertTrue(Automaton.read(crowded_form(b"\xc3", b"\xa9", outputs), str)[0].is_match("é"))

    def test_patterns_of_texts_are_utf8(self):
        for kind in Kind:
            written = Automaton([b"a", *TEXTS], kind=kind).write()
            self.assertEqual(Automaton.read(written, str)[0].items(), [(it.decode(), value) for it, value in Automaton.read(written)[0].items()])
            for pattern in NO_TEXTS:
                with self.subTest(kind=kind, pattern=pattern):
                    written = Automaton(["é".encode(), b"z" + pattern, b"zz"], kind=kind).write()
                    self.refused(Refusal.INVALID_AUTOMATON, lambda: Automaton.read(written, str))

    def test_sentences(self):
        for number, (wanted, words, call) in enumerate(SENTENCES):
            with self.subTest(row=number, words=words):
                with self.assertRaises(Refused if isinstance(wanted, Refusal) else wanted) as raised:
                    call()
                self.assertIn(words, str(raised.exception))
                self.assertEqual(getattr(raised.exception, "refusal", wanted), wanted)

    def test_closed_and_cut(self):
        automaton = Automaton(PATTERNS)
        written = automaton.write()
        for end in range(len(written)):
            if end < 50 or end % 97 == 0:
                self.refused(Refusal.INVALID_AUTOMATON, lambda: Automaton.read(written[:end]))
        automaton.close()
        automaton.close()
        for call in (automaton.find, automaton.get, automaton.is_match, lambda _: automaton.stream(), lambda _: automaton.items()):
            self.refused(Refusal.EMPTY_HANDLE, lambda: call(b"abcd"))

    def refused(self, refusal, call):
        with self.assertRaises(Refused) as raised:
            call()
        self.assertEqual(raised.exception.refusal, refusal)


class ThreadTest(unittest.TestCase):
    def test_threads_search_one_automaton(self):
        automaton, counts = Automaton(PATTERNS), []
        at_once(4, lambda: counts.append(sum(1 for _ in range(200) for _ in automaton.find_overlapping(b"abcd"))))
        self.assertEqual(counts, [800] * 4)

    def test_a_search_holds_no_lock(self):
        automaton, haystack = Automaton([b"ab", b"cdc"], use_prefilter=False), b"acbd" * 4000000
        works = [lambda: hashlib.sha256(haystack).digest(), lambda: list(automaton.find_overlapping(haystack))]
        # Hashing, which is known to hold no lock, says whether two cores are free.
        rounds = [[at_once(2, work) / at_once(1, work) for work in works] for _ in range(7)]
        hashing, searching = zip(*rounds)
        if statistics.median(hashing) > 1.2:
            self.skipTest("only one core is free")
        self.assertLessEqual(statistics.median(searching), 1.4)


def at_once(count, work):
    """Returns the seconds that so many threads take that do the same."""
    threads = [threading.Thread(target=work) for _ in range(count)]
    began = time.perf_counter()
    for thread in threads:
        thread.start()
    for thread in threads:
        thread.join()
    return time.perf_counter() - began


def load_tests(_loader, tests, _pattern):
    for name in ("daachorse", "daachorse._automaton"):
        tests.addTests(doctest.DocTestSuite(name))
    return tests


if __name__ == "__main__":
    unittest.main()
