"""pyahocorasick.py WORDS TEXT ROUNDS: makes the list of all matches in a `str` by pyahocorasick. It
prints how many there are, and the median of the rounds in nanoseconds a byte."""
import statistics
import sys
import time

import ahocorasick


def main():
    with open(sys.argv[1], encoding="utf-8", newline="\n") as file:
        words = [word for word in file.read().split("\n") if word]
    with open(sys.argv[2], encoding="utf-8", newline="\n") as file:
        text = file.read()
    automaton = ahocorasick.Automaton()
    for number, word in enumerate(words):
        automaton.add_word(word, number)
    automaton.make_automaton()
    times = []
    for _ in range(int(sys.argv[3])):
        began = time.perf_counter()
        matches = list(automaton.iter(text))
        times.append(time.perf_counter() - began)
    print(len(matches), statistics.median(times) * 1e9 / len(text.encode()), sep="\t")


main()
