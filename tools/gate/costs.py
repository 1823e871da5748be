#!/usr/bin/env python3
"""costs.py [--record RECORD] [NAME..]: runs the gate, and prints what each crate costs.

It runs `rt ci NAME..` at the top of the repository, and passes on its output. This gives the
numbers of functions, tests and wrong bodies of each crate, and the processes that the gate starts
give the processor seconds of its proof, tests and wrong bodies. A table is printed at the end. If
the gate passed with no NAME, or with a RECORD, the table is also written to COSTS.md beside this
file, between the lines `<!-- costs -->` and `<!-- end of costs -->`, and the time on two cores to
the README's row of `rt ci`. The exit status is the gate's.

The gate skips what is kept from an earlier run on the machine. With RECORD, a file that this
program makes, the table covers all runs with the same RECORD: what a run did replaces its entry,
and what it skipped keeps it. So the gate may be run in stages.

The seconds of a process are read twice a second, so a crate's are a little less than it took.
Without RECORD the sum in the last line is what the system counted.
"""
import json
import math
import os
import re
import resource
import subprocess
import sys
import threading
import time

HERE = os.path.dirname(os.path.abspath(__file__))
TOP = os.path.dirname(os.path.dirname(HERE))
COSTS = os.path.join(HERE, "COSTS.md")
README = os.path.join(TOP, "README.md")
# What a check takes alone of its seconds beside others, as COSTS.md says.
ALONE = 0.6
BEGIN, END = "<!-- costs -->", "<!-- end of costs -->"
TICKS = os.sysconf("SC_CLK_TCK")


def text_of(path):
    """The text of a file of /proc, or nothing after its process has ended."""
    try:
        with open(path, errors="replace") as it:
            return it.read()
    except OSError:
        return ""


def below(pid):
    """The process and all its descendants."""
    found, left = [], [pid]
    while left:
        at = left.pop()
        found.append(at)
        try:
            tasks = os.listdir(f"/proc/{at}/task")
        except OSError:
            continue
        for task in tasks:
            left += [int(it) for it in text_of(f"/proc/{at}/task/{task}/children").split()]
    return found


def work_of(pid):
    """The crate that a process checks and its part of the work, if it is a check."""
    words = text_of(f"/proc/{pid}/cmdline").split("\0")
    if "--crate-name" not in words:
        return None
    try:
        folder = os.path.basename(os.readlink(f"/proc/{pid}/cwd"))
    except OSError:
        return None
    part = 2 if folder.startswith("rt-edit-") else 1 if "--test" in words else 0
    return words[words.index("--crate-name") + 1], part


def seconds_of(pid):
    """The processor seconds of a process, without those of its children."""
    fields = text_of(f"/proc/{pid}/stat").rpartition(")")[2].split()
    return (int(fields[11]) + int(fields[12])) / TICKS if len(fields) > 12 else 0


def watch(gate, taken):
    """Notes the seconds of each check while the gate runs."""
    works = {}
    while gate.poll() is None:
        for pid in below(gate.pid):
            works[pid] = works.get(pid) or work_of(pid)
            if works[pid]:
                key = pid, works[pid]
                taken[key] = max(taken.get(key, 0), seconds_of(pid))
        time.sleep(0.5)


def counted(lines):
    """The numbers of functions, tests and wrong bodies of each crate, from the gate's output."""
    counts, name, part = {}, None, 0
    for line in lines:
        begun = re.match(r"== (\w+)(: its tests)?$", line)
        if begun:
            name, part = begun[1], 1 if begun[2] else 0
        number = re.match(rf"logic=proved .*?\b{('functions', 'tests')[part]}=(\d+)", line)
        if name and number:
            counts.setdefault(name, [0, 0, 0])[part] = int(number[1])
        tried = re.match(r"rt: (\w+): trying its must-fail edits \((\d+)\)", line)
        if tried:
            counts.setdefault(tried[1], [0, 0, 0])[2] = int(tried[2])
    return counts


def in_order():
    """The crates in the order of crates.txt."""
    with open(f"{TOP}/crates.txt") as it:
        lines = [line.partition("#")[0].strip() for line in it]
    return [re.split(r"[ :]", line)[0] for line in lines if line]


def by_crate(taken):
    """The seconds of each crate's proof, tests and wrong bodies."""
    sums = {}
    for (_, (name, part)), seconds in taken.items():
        sums.setdefault(name, [0.0, 0.0, 0.0])[part] += seconds
    return sums


def recorded(path, lines, counts, sums):
    """The numbers and the seconds of all runs with this record, which is updated."""
    runs = {}
    if os.path.exists(path):
        with open(path) as it:
            runs = json.load(it)
    kept = [re.match(r"rt: (\w+): (\d+) of its \d+ must-fail edits were tried by an earlier run", line) for line in lines]
    kept = {it[1]: int(it[2]) for it in kept if it}
    for name in {*counts, *sums}:
        run = runs.setdefault(name, [[0, 0, 0], [0.0, 0.0, 0.0]])
        for part in range(3):
            number, seconds = counts.get(name, [0] * 3)[part], sums.get(name, [0.0] * 3)[part]
            if part == 2 and name in kept and number:
                # Wrong bodies that an earlier run tried stay in the record.
                run[0][2], run[1][2] = kept[name] + number, run[1][2] + seconds
            elif seconds:
                run[0][part], run[1][part] = number, seconds
    with open(path, "w") as it:
        json.dump(runs, it, indent=1, sort_keys=True)
    return {name: run[0] for name, run in runs.items()}, {name: run[1] for name, run in runs.items()}


def table(counts, sums):
    rows = ["| crate | functions | tests | wrong bodies | proof, s | tests, s | wrong bodies, s |", "|---|---|---|---|---|---|---|"]
    for name in in_order():
        numbers, seconds = counts.get(name, [0, 0, 0]), sums.get(name, [0.0, 0.0, 0.0])
        rows.append(f"| `{name}` | " + " | ".join([*map(str, numbers), *(f"{it:.0f}" for it in seconds)]) + " |")
    numbers = [sum(it[part] for it in counts.values()) for part in range(3)]
    seconds = [sum(it[part] for it in sums.values()) for part in range(3)]
    rows.append("| all | " + " | ".join([*map(str, numbers), *(f"{it:.0f}" for it in seconds)]) + " |")
    return "\n".join(rows), sum(seconds)


def put(text):
    """Writes the table between the two lines of COSTS.md."""
    with open(COSTS) as it:
        before, begin, rest = it.read().partition(BEGIN)
    _, end, after = rest.partition(END)
    if not begin or not end:
        sys.exit(f"{COSTS} lacks the lines {BEGIN} and {END}")
    with open(COSTS, "w") as it:
        it.write(f"{before}{BEGIN}\n{text}\n{END}{after}")


def put_time(seconds):
    """Writes the minutes on two quiet cores, in steps of five, to the README's row of the gate."""
    minutes = 5 * math.ceil(seconds * ALONE / 2 / 300)
    with open(README) as it:
        text, number = re.subn(r"(?m)^(\| `rt ci`, at the top \|.*\|) [^|]* \|$", rf"\1 {minutes} minutes |", it.read())
    if number != 1:
        sys.exit(f"{README} has {number} rows of rt ci")
    with open(README, "w") as it:
        it.write(text)


def main(words):
    record = words[1] if words[:1] == ["--record"] else None
    names = words[2:] if record else words
    began, lines, taken = time.monotonic(), [], {}
    gate = subprocess.Popen(["rt", "ci", *names], cwd=TOP, stdout=subprocess.PIPE, stderr=subprocess.STDOUT, text=True, errors="replace")
    watcher = threading.Thread(target=watch, args=(gate, taken))
    watcher.start()
    for line in gate.stdout:
        print(line, end="", flush=True)
        lines.append(line.rstrip("\n"))
    status = gate.wait()
    watcher.join()
    used = resource.getrusage(resource.RUSAGE_CHILDREN)
    counts, sums = counted(lines), by_crate(taken)
    if record:
        counts, sums = recorded(record, lines, counts, sums)
    text, whole = table(counts, sums)
    if record:
        text += f"\n\nThe whole takes {whole:.0f} processor seconds."
    else:
        wall, processors = time.monotonic() - began, len(os.sched_getaffinity(0))
        text += f"\n\nThe whole took {used.ru_utime + used.ru_stime:.0f} processor seconds, and {wall:.0f} s on {processors} processors."
    print(f"\n{text}")
    if status == 0 and (record or not names):
        put(text)
        put_time(whole)
    return status


if __name__ == "__main__":
    sys.exit(main(sys.argv[1:]))
