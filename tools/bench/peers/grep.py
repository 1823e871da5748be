"""grep.py WORDS TEXT ROUNDS: `grep -oF`, which prints the leftmost and longest matches. It prints
how many there are, and the median of the rounds in nanoseconds a byte. The text is searched ten
times over in one run of the command, and the time over an empty file is taken off."""
import os
import statistics
import subprocess
import sys
import tempfile
import time


TIMES = 10


def seconds(words, text, out):
    """The time of one run of the command, to a file: to /dev/null it stops at the first match."""
    out.seek(0)
    out.truncate()
    began = time.perf_counter()
    subprocess.run(["grep", "-oF", "-f", words, text], stdout=out, env={**os.environ, "LC_ALL": "C"})
    return time.perf_counter() - began


def main():
    words, text, rounds = sys.argv[1], sys.argv[2], int(sys.argv[3])
    with (tempfile.TemporaryFile() as out, tempfile.NamedTemporaryFile() as empty,
          tempfile.NamedTemporaryFile() as texts, open(text, "rb") as file):
        texts.write((file.read() + b"\n") * TIMES)
        texts.flush()
        starts = statistics.median(seconds(words, empty.name, out) for _ in range(rounds))
        whole = statistics.median(seconds(words, texts.name, out) for _ in range(rounds))
        out.seek(0)
        count = sum(1 for _ in out)
        size = texts.tell()
    print(count // TIMES, (whole - starts) * 1e9 / size, sep="\t")


main()
