#!/usr/bin/env python3
"""sets.py OUT SEED [BYTES]

Makes sets of words, each with a text, for a run of the benchmark. The same SEED makes the same
sets. rules.50, rules.300 and rules.3000 are lists of rules for a log, one a line. log.txt is a log
of BYTES bytes (1000000): one line in fifty has a rule of the smallest list, and one in ten a rule
of the largest. words.50, words.1000 and words.20000 are lists of made-up words, one a line.
text.txt is a text of BYTES bytes of the words of the largest list, each rarer than those listed
before it.
"""
import itertools
import os
import random
import sys

SERVICES = ["sshd", "nginx", "kernel", "systemd", "postgres", "cron", "dockerd", "kubelet", "haproxy", "named"]
PLAIN = [
    "session opened for user {user} by (uid=0)",
    "GET /static/{word}/{number}.js HTTP/1.1 200 {number} {number}ms",
    "checkpoint complete: wrote {number} buffers, {number} kB",
    "started container {hex} of {word}-{word}",
    "accepted connection from {address} port {number}",
    "query took {number} ms: select {word} from {word} where id = {number}",
    "health check of {word}:{number} passed in {number} ms",
    "rotated /var/log/{word}/{word}.log, kept {number} files",
]
SUBJECTS = ["connection", "password", "certificate", "checksum", "deadline", "segment", "replica", "quota", "lease", "handshake"]
FAULTS = ["refused", "expired", "mismatch", "exceeded", "not found", "denied", "corrupt", "timed out", "lost", "reset by peer"]
LETTERS = "abcdefghijklmnopqrstuvwxyz"
ONSETS = ["", "b", "c", "d", "f", "g", "l", "m", "n", "p", "r", "s", "st", "t", "tr", "v"]
VOWELS = ["a", "e", "i", "o", "u", "ea"]
ENDS = ["", "", "n", "r", "s", "t"]


def word(chance, least=3, most=9):
    return "".join(chance.choice(LETTERS) for _ in range(chance.randint(least, most)))


def rule(chance, number):
    """A phrase, an error code, a host name or a path."""
    kind = number % 4
    if kind == 0:
        return f"{chance.choice(SUBJECTS)} {chance.choice(FAULTS)}"
    if kind == 1:
        return f"{chance.choice(['ERR', 'E', 'FATAL', 'CVE'])}-{chance.randint(1000, 99999)}"
    if kind == 2:
        return f"{word(chance)}-{chance.randint(1, 99)}.{chance.choice(['prod', 'stage'])}.internal"
    return f"/{chance.choice(['etc', 'var', 'opt', 'srv'])}/{word(chance)}/{word(chance)}"


def rules(chance, count):
    made = {}
    number = 0
    while len(made) < count:
        made[rule(chance, number)] = True
        number += 1
    return list(made)


def filled(chance, line, words):
    for name, value in (
        ("{user}", lambda: chance.choice(words)),
        ("{word}", lambda: chance.choice(words)),
        ("{number}", lambda: str(chance.randint(1, 65535))),
        ("{hex}", lambda: f"{chance.getrandbits(48):012x}"),
        ("{address}", lambda: ".".join(str(chance.randint(1, 254)) for _ in range(4))),
    ):
        while name in line:
            line = line.replace(name, value(), 1)
    return line


def log(chance, size, few, many):
    words = [word(chance) for _ in range(400)]
    lines, length, second = [], 0, 0
    while length < size:
        second += chance.randint(0, 3)
        line = filled(chance, chance.choice(PLAIN), words)
        drawn = chance.random()
        if drawn < 0.02:
            line += f": {chance.choice(few)}"
        elif drawn < 0.1:
            line += f": {chance.choice(many)}"
        clock = f"{second // 3600 % 24:02}:{second // 60 % 60:02}:{second % 60:02}"
        line = f"2026-03-{1 + second // 86400 % 28:02}T{clock}Z host-{chance.randint(1, 40)} {chance.choice(SERVICES)}[{chance.randint(100, 32000)}]: {line}\n"
        lines.append(line)
        length += len(line)
    return "".join(lines)[:size]


def vocabulary(chance, count):
    """Words of one to five syllables."""
    made = {}
    while len(made) < count:
        syllables = [chance.choice(ONSETS) + chance.choice(VOWELS) + chance.choice(ENDS) for _ in range(chance.randint(1, 5))]
        made["".join(syllables)] = True
    return list(made)


def text(chance, size, words):
    """Lines of words. The n-th word is drawn in proportion to 1 / n."""
    weights = list(itertools.accumulate(1 / (rank + 1) for rank in range(len(words))))
    lines, length = [], 0
    while length < size:
        line = " ".join(chance.choices(words, cum_weights=weights, k=12)) + "\n"
        lines.append(line)
        length += len(line)
    return "".join(lines)[:size]


def write(path, text):
    with open(path, "w") as file:
        file.write(text)


def main():
    out, seed = sys.argv[1], int(sys.argv[2])
    size = int(sys.argv[3]) if len(sys.argv) > 3 else 1000000
    chance = random.Random(seed)
    os.makedirs(out, exist_ok=True)
    many = rules(chance, 3000)
    for count in (50, 300, 3000):
        write(f"{out}/rules.{count}", "".join(f"{line}\n" for line in many[:count]))
    write(f"{out}/log.txt", log(chance, size, many[:50], many))
    words = vocabulary(chance, 20000)
    for count in (50, 1000, 20000):
        write(f"{out}/words.{count}", "".join(f"{it}\n" for it in words[:: len(words) // count]))
    write(f"{out}/text.txt", text(chance, size, words))


main()
