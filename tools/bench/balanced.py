#!/usr/bin/env python3
"""balanced.py WORK UNIT

Prints the ratio of each search, balanced over where functions begin, from the times in WORK/times
of the links WORK/driver-1 and on. Our function and the Rust crate's each begin at a multiple of 32
bytes or at 16 past one, which gives four cases. The mean of the cases is printed, and then the
median of each case's links. A case that no link has is left out of the mean. A small loop may take
half as long again if one of its jumps crosses or ends a line of 32 bytes, and where the linker puts
a function is chance.
"""
import re
import statistics
import subprocess
import sys

# The functions of modes that are named otherwise.
FUNCTIONS = {"longest": ("leftmost", "leftmost"), "first": ("leftmost", "leftmost"), "tokens": ("tokens", "leftmost")}
WITH_ROWS = "rows_"
OURS = re.compile(r"bench_c::over_(bytes|chars)::(\w+)")
THEIRS = re.compile(r"_ZN6driver6theirs5(bytes|chars)\d+([a-z_]+)17h")


def functions(mode):
    """The functions of a mode, ours and theirs. The Rust crate has none with rows."""
    without = mode.removeprefix(WITH_ROWS)
    ours, theirs = FUNCTIONS.get(without, (without, without))
    return (f"{ours}_with_rows", theirs) if mode.startswith(WITH_ROWS) else (ours, theirs)


def places(driver, unit):
    """Whether each function of either side begins at a multiple of 32."""
    found = {}
    for line in subprocess.run(["nm", driver], capture_output=True, text=True, check=True).stdout.splitlines():
        at, _, name = (line.split(maxsplit=2) + ["", ""])[:3]
        for side, pattern in (("ours", OURS), ("theirs", THEIRS)):
            match = pattern.match(name)
            if match and match.group(1) == unit:
                found[side, match.group(2)] = int(at, 16) % 32 == 0
    return found


def ratios(path):
    """The ratio of the medians of each mode, link by link."""
    links = []
    for line in open(path):
        fields = line.rstrip("\n").split("\t")
        if line.startswith("link "):
            links.append({})
        elif links and len(fields) > 1 and re.match(r"\d", fields[1]):
            links[-1][fields[0]] = float(fields[-1])
    return links


def main():
    work, unit = sys.argv[1:]
    cases = {}
    for number, link in enumerate(ratios(f"{work}/times"), 1):
        begins = places(f"{work}/driver-{number}", unit)
        for mode, ratio in link.items():
            ours, theirs = functions(mode)
            case = begins.get(("ours", ours)), begins.get(("theirs", theirs))
            if None not in case:
                cases.setdefault(mode, {}).setdefault(case, []).append(ratio)
    print("balanced\tmean\tours at 32, theirs at 32\t32, 16\t16, 32\t16, 16")
    for mode, found in cases.items():
        middles = [statistics.median(found[case]) if case in found else None
                   for case in ((True, True), (True, False), (False, True), (False, False))]
        known = [middle for middle in middles if middle is not None]
        print(mode, f"{statistics.mean(known):.3f}", *("-" if it is None else f"{it:.3f}" for it in middles), sep="\t")


main()
