"""What each search finds by its definition, in bytes or in a str, and which patterns an automaton holds.

A pattern is a pair of a text and a value. A match is its start, its end and its value.
"""


def ending(patterns, haystack, end):
    """The matches that end there, the longest first, equal ones as registered."""
    return [
        (start, end, value) for start in range(end + 1) for pattern, value in patterns if haystack[start:end] == pattern
    ]


def find_overlapping(patterns, haystack):
    return [match for end in range(len(haystack) + 1) for match in ending(patterns, haystack, end)]


def find_overlapping_no_suffix(patterns, haystack):
    return [match for end in range(len(haystack) + 1) for match in ending(patterns, haystack, end)[:1]]


def find(patterns, haystack):
    empty = [value for pattern, value in patterns if not pattern]
    if empty:
        return [(end, end, empty[0]) for end in range(len(haystack) + 1)]
    found, behind = [], 0
    for end in range(len(haystack) + 1):
        matches = [match for match in ending(patterns, haystack, end) if match[0] >= behind]
        if matches:
            found.append(matches[0])
            behind = end
    return found


def leftmost_find(patterns, haystack, is_first):
    found, start, behind = [], 0, None
    while start <= len(haystack):
        here = [it for it in patterns if haystack.startswith(it[0], start)]
        if not is_first:
            here.sort(key=lambda it: -len(it[0]))
        if here and (here[0][0] or behind != start):
            behind = start + len(here[0][0])
            found.append((start, behind, here[0][1]))
        start = max(start + 1, start + len(here[0][0])) if here else start + 1
    return found


def found_by(name, kind, patterns, haystack):
    """The matches of the search of this name by an automaton of this kind, which is 2 for the first registered."""
    standard = {
        "find": find,
        "find_overlapping": find_overlapping,
        "find_overlapping_no_suffix": find_overlapping_no_suffix,
    }
    if name in standard:
        return standard[name](patterns, haystack)
    return leftmost_find(patterns, haystack, kind == 2)


# The searches, and the kind of automaton that each is by.
SEARCHES = [
    ("find", 0),
    ("find_overlapping", 0),
    ("find_overlapping_no_suffix", 0),
    ("leftmost_find", 1),
    ("leftmost_find", 2),
]


def lower(it):
    """Reads A to Z as a to z, and everything else as it is."""
    if isinstance(it, str):
        return "".join(chr(ord(each) + 32) if "A" <= each <= "Z" else each for each in it)
    return bytes(each + 32 if ord("A") <= each <= ord("Z") else each for each in it)
