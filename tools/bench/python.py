"""python.py SETS [ROUNDS]: prints the speed from Python beside pyahocorasick and `re`.

SETS is a folder that sets.py made. Each library makes the list of its matches ROUNDS times (7), in
turn, and the medians of the processor time count. pyahocorasick searches the text as `str`, since
it takes no bytes. `re` is compared with the leftmost search, over the first bytes alone, as it
tries the words one by one.
"""

import re
import statistics
import sys
import time

import ahocorasick
from daachorse import Automaton, Kind

PAIRS = [("rules.50", "log.txt"), ("rules.300", "log.txt"), ("rules.3000", "log.txt")]
PAIRS += [("words.50", "text.txt"), ("words.1000", "text.txt"), ("words.20000", "text.txt")]
TRIED_BY_RE = 20000

# Letters of two bytes each for those of one.
GREEK = {ord("a") + number: chr(0x3B1 + number) for number in range(26)}


def pyahocorasick_of(words):
    automaton = ahocorasick.Automaton()
    for number, word in enumerate(words):
        automaton.add_word(word, number)
    automaton.make_automaton()
    return automaton


def medians(searches, rounds):
    """The median of the seconds that each search takes, and how many matches it finds."""
    times, counts = [[] for _ in searches], []
    for _ in range(rounds):
        counts = []
        for search, taken in zip(searches, times):
            began = time.process_time()
            found = list(search())
            taken.append(time.process_time() - began)
            counts.append(len(found))
            del found
    return list(map(statistics.median, times)), counts


def row(name, words, text, rounds):
    encoded, data = [word.encode() for word in words], text.encode()
    over_bytes, over_text, theirs = Automaton(encoded), Automaton(words), pyahocorasick_of(words)
    fast = over_bytes.accelerate()
    seconds, counts = medians(
        [
            lambda: theirs.iter(text),
            lambda: over_bytes.find_overlapping(data),
            lambda: fast.find_overlapping(data),
            lambda: over_text.find_overlapping(text),
        ],
        rounds,
    )
    assert len(set(counts)) == 1, counts
    few, longest = text[:TRIED_BY_RE], Automaton(words, kind=Kind.LEFTMOST_LONGEST)
    pattern = re.compile("|".join(map(re.escape, sorted(words, key=len, reverse=True))))
    small, counts_of_few = medians([lambda: pattern.finditer(few), lambda: longest.leftmost_find(few)], rounds)
    assert len(set(counts_of_few)) == 1, counts_of_few
    apart = f"{len(data) / max(counts[0], 1):.0f}"
    speeds = [f"{it * 1e9 / len(data):.2f}" for it in seconds]
    ratios = [f"{it / seconds[0]:.2f}" for it in seconds[1:]]
    print("|", " | ".join([name, apart, *speeds, *ratios, f"{small[1] / small[0]:.4f}"]), "|", flush=True)


def main():
    folder, rounds = sys.argv[1], int(sys.argv[2]) if len(sys.argv) > 2 else 7
    print("| set | bytes a match | pyahocorasick, ns a byte | bytes | accelerated | `str` | bytes: ratio | accelerated | `str` | to `re` |")
    print("|---" * 10 + "|")
    for list_name, text_name in PAIRS:
        with open(f"{folder}/{list_name}") as file:
            words = file.read().splitlines()
        with open(f"{folder}/{text_name}") as file:
            text = file.read()
        row(list_name, words, text, rounds)
    row(f"{list_name}, Greek", [word.translate(GREEK) for word in words], text.translate(GREEK), rounds)


main()
