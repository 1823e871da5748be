#!/usr/bin/env python3
"""cases.py CASES EXPECTED COUNT SEED: random cases, and what the plain definitions find in them.

Writes COUNT cases to the file CASES, one a line: the kind (s, l or f: standard, leftmost-longest or
leftmost-first), the unit (b or c: bytes or characters), whether the haystack serves as a corpus,
whether the automaton is written and read back (0 no, 1 unchecked, 2 checked), whether this
repository's may have a prefilter, whether ASCII case is ignored, the patterns, and the haystack.
Texts are in hexadecimal; `_` is the empty text, and `-` an empty list. The expected results go to
the file EXPECTED, one search a line: the case, the search, and the start, end and value of each
match, and of a stream how many units were read when it is certain.
"""
import random
import sys

SEARCHES = {
    "s": ["overlapping", "no_suffix", "find"],
    "l": ["leftmost"],
    "f": ["leftmost"],
}
FORMS = {
    "overlapping": ["slice", "source", "stepper"],
    "no_suffix": ["slice", "source"],
    "find": ["slice", "source", "stepper"],
    "leftmost": ["slice", "stream"],
}
ALPHABETS = {
    "b": [b"ab", b"abc", b"aAbB", b"@AZ[`az{", bytes([0, 255]), bytes(range(256))],
    "c": ["ab", "aé", "aé日𝄞", "aAbéÉ", "kK\u212asS\u017f", "abcdefé\u0000\ud7ff\ue000\U0010ffff日本𝄞"],
}
LETTERS = {"b": (bytes.maketrans(b"ABCDEFGHIJKLMNOPQRSTUVWXYZ", b"abcdefghijklmnopqrstuvwxyz")),
           "c": {c: c + 32 for c in range(65, 91)}}


def bytes_of(text):
    return text if isinstance(text, bytes) else text.encode()


def dictionary(kind, patterns):
    """The values of each kept text, in order of registration."""
    values = {}
    for i, p in enumerate(patterns):
        if kind == "f" and any(len(q) < len(p) and p.startswith(q) for q in patterns[:i]):
            continue
        values.setdefault(p, []).append(i)
    return values


def places(haystack):
    """The offset of each boundary, in bytes."""
    return [len(bytes_of(haystack[:i])) for i in range(len(haystack) + 1)]


def ending_at(values, haystack, at, first, e):
    """The matches that start at the boundary `first` or later and end at e, the longest first."""
    return [(at[s], at[e], v) for s in range(first, e + 1) for v in values.get(haystack[s:e], [])]


def overlapping(values, haystack):
    at = places(haystack)
    return [m for e in range(len(haystack) + 1) for m in ending_at(values, haystack, at, 0, e)]


def no_suffix(values, haystack):
    at = places(haystack)
    return [m for e in range(len(haystack) + 1) for m in ending_at(values, haystack, at, 0, e)[:1]]


def find(values, haystack):
    at = places(haystack)
    empty = values.get(haystack[:0], [])
    if empty:
        return [(p, p, empty[0]) for p in at]
    found, resumed = [], 0
    for e in range(1, len(haystack) + 1):
        here = ending_at(values, haystack, at, resumed, e)
        if here:
            found.append(here[0])
            resumed = e
    return found


def leftmost(values, haystack):
    at, found, s, after = places(haystack), [], 0, False
    while s <= len(haystack):
        ends = [e for e in range(len(haystack), s - 1, -1) if haystack[s:e] in values]
        if not ends:
            s, after = s + 1, False
        elif ends[0] > s:
            found.append((at[s], at[ends[0]], values[haystack[s:ends[0]]][0]))
            s, after = ends[0], True
        else:
            if not after:
                found.append((at[s], at[s], values[haystack[s:s]][0]))
            s, after = s + 1, False
    return found


def certain(values, read):
    """How many matches of what was read each haystack that goes on from there begins with. Those that could change one go
    on from some end of it to a pattern, or leave it as it is."""
    rests = [p[k:] for p in values for k in range(len(p)) if read.endswith(p[:k])]
    lists = [leftmost(values, read + rest) for rest in [read[:0], *rests]]
    count = 0
    while all(len(found) > count and found[count] == lists[0][count] for found in lists):
        count += 1
    return count


def told(values, haystack):
    """The leftmost matches, each with how many units were read when it is certain, or one more than there are."""
    found, when, count = leftmost(values, haystack), [], len(haystack)
    for read in range(count + 1):
        when += [read] * (certain(values, haystack[:read]) - len(when))
    when += [count + 1] * (len(found) - len(when))
    return [(*m, w) for m, w in zip(found, when)]


def digits(text):
    return bytes_of(text).hex() or "_"


def random_text(random, alphabet, most):
    letters = [random.choice(alphabet) for _ in range(random.randrange(most + 1))]
    return bytes(letters) if isinstance(alphabet, bytes) else "".join(letters)


def random_case(random):
    unit = random.choice("bc")
    alphabet = random.choice(ALPHABETS[unit])
    # No pattern is shorter than this: a prefilter is made only if all are long enough.
    least = random.choice([0, 1, 2, 3])
    patterns = [random_text(random, alphabet, random.choice([2, 3, 6, 40])) for _ in range(random.choice([0, 1, 2, 3, 5, 8, 30]))]
    patterns = [p for p in patterns if len(p) >= least]
    haystack = random_text(random, alphabet, random.choice([0, 3, 10, 30, 80, 300]))
    if patterns and random.random() < 0.5:
        for _ in range(random.randrange(4)):
            at = random.randrange(len(haystack) + 1)
            haystack = haystack[:at] + random.choice(patterns) + haystack[at:]
    flags = random.choice("01"), random.choice("012"), random.choice("01"), random.choice("01")
    return random.choice("slf"), unit, *flags, patterns, haystack


def main(cases, expected, count, seed):
    source = random.Random(int(seed))
    with open(cases, "w") as given, open(expected, "w") as wanted:
        for number in range(int(count)):
            kind, unit, corpus, read, filter, folds, patterns, haystack = random_case(source)
            texts = ",".join(map(digits, patterns)) or "-"
            print(kind, unit, corpus, read, filter, folds, texts, digits(haystack), file=given)
            if folds == "1":
                patterns = [p.translate(LETTERS[unit]) for p in patterns]
                haystack = haystack.translate(LETTERS[unit])
            values = dictionary(kind, patterns)
            for search in SEARCHES[kind]:
                found = globals()[search](values, haystack)
                for form in FORMS[search]:
                    matches = told(values, haystack) if form == "stream" else found
                    line = "".join(" " + ",".join(map(str, m)) for m in matches)
                    print(f"{number} {search} {form}{line}", file=wanted)
            listed = sorted((bytes_of(p), v) for p in values for v in values[p])
            print(f"{number} iter" + "".join(f" {p.hex() or '_'},{v}" for p, v in listed), file=wanted)


if __name__ == "__main__":
    main(*sys.argv[1:])
