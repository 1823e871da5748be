#!/usr/bin/env python3
"""by_grep.py CASES FOUND: compares leftmost-longest searches with `grep -i -F -o -b`.

It takes the cases of CASES, a file of `cases.py`, that are leftmost-longest over bytes, ignore
ASCII case and have texts that grep accepts: no empty pattern, line feed or zero byte. FOUND has
what this repository found in them. In the C locale grep finds leftmost-longest matches, and prints
the offset and the text of each. The last line is the number of cases.
"""
import os
import subprocess
import sys


def text_of(digits):
    return b"" if digits == "_" else bytes.fromhex(digits)


def by_grep(patterns, haystack):
    """The start and the end of each match that grep finds."""
    words = [word for pattern in patterns for word in (b"-e", pattern)]
    run = subprocess.run(["grep", "-i", "-F", "-o", "-b", "-a", *words], input=haystack, stdout=subprocess.PIPE, env={**os.environ, "LC_ALL": "C"})
    lines = [line.split(b":", 1) for line in run.stdout.split(b"\n") if line]
    return [(int(start), int(start) + len(text)) for start, text in lines]


def main(cases, found):
    ours = {line.split(" ")[0]: line.split()[3:] for line in open(found) if line.split(" ")[1] == "leftmost"}
    number_of_cases, differing = 0, 0
    for number, line in enumerate(open(cases)):
        kind, unit, _corpus, _read, _filter, folds, texts, digits = line.split()
        if (kind, unit, folds) != ("l", "b", "1") or texts == "-":
            continue
        patterns, haystack = [text_of(t) for t in texts.split(",")], text_of(digits)
        if any(not p for p in patterns) or any(b in t for b in (b"\n", b"\0") for t in [*patterns, haystack]):
            continue
        here = [tuple(int(n) for n in m.split(",")[:2]) for m in ours[str(number)]]
        number_of_cases += 1
        if here != by_grep(patterns, haystack):
            differing += 1
            print(f"case {number} differs from what grep finds")
    print(f"{number_of_cases} cases beside grep: {differing or 'none'} differ" + ("" if differing else "s"))
    return 1 if differing else 0


if __name__ == "__main__":
    sys.exit(main(*sys.argv[1:]))
