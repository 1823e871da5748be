#!/usr/bin/env python3
"""slowest.py FOLDER [N]: prints the functions that took longest in a check of a crate from nothing.

FOLDER is where the check kept its work, as `crates/NAME/out/incremental` after `rt check --jobs 1`
in `crates/NAME`, begun with no `out` there. A check with one job saves each module as it ends, so
the time between two files is what the later one took. The N (20) slowest functions are printed with
their seconds, and the parts that these went to: `Lts` is the borrow checker's output, `Tie` joins
it with the contracts of callees, `Proof` is the search of tactics, and `Goals` and `Answers` are
what is written in `proofs/`.

If the check worked in batches, as that of a large crate may, the first function of each batch also
has the time to load the libraries.
"""
import collections
import os
import re
import sys

PARTS = ("Lts", "Tie", "Proof", "Goals", "Answers", "Code", "Kinds", "Layout", "Mir", "Named", "Reads", "Statement")


def saved(folder):
    """The files below the folder, in the order in which they were saved."""
    files = [os.path.join(at, name) for at, _, names in os.walk(folder) for name in names]
    return sorted((os.stat(it).st_mtime_ns / 1e9, os.path.basename(it)) for it in files)


def part_of(name):
    """The function of a file, or `None`, and its part."""
    words = re.sub(r"^Rattle-\w+-(proofs|specs)\.", "", name).split(".")
    for index, word in enumerate(words):
        if word.split("-")[0] in PARTS:
            return ".".join(words[:index]), word.split("-")[0]
    return None


def main(folder, most=20):
    files = saved(folder)
    took = collections.defaultdict(collections.Counter)
    for (before, _), (after, name) in zip(files, files[1:]):
        if found := part_of(name):
            function, part = found
            took[function][part] += after - before
    parts = sum(took.values(), collections.Counter())
    print("all:", ", ".join(f"{part} {seconds:.0f}" for part, seconds in parts.most_common()))
    for function, seconds in sorted(took.items(), key=lambda it: -it[1].total())[: int(most)]:
        told = ", ".join(f"{part} {it:.1f}" for part, it in seconds.most_common(4))
        print(f"{seconds.total():6.1f}  {function}  ({told})")


if __name__ == "__main__":
    if len(sys.argv) not in (2, 3):
        sys.exit(__doc__)
    main(*sys.argv[1:])
