#!/usr/bin/env python3
"""tables.py RESULTS PAGE PICTURE

Writes the tables of PAGE, each between the lines `<!-- NAME -->` and `<!-- /NAME -->`, and the bars
of PICTURE, from the results of tables.sh in RESULTS. What was not measured is left empty.
"""
import math
import os
import re
import statistics
import sys

SETS = ["English", "Japanese", "50 words", "1,000 words", "20,000 words", "50 rules", "3,000 rules"]
# The sets that are only searched after `accelerate` come last.
ALL_SETS = [*SETS, "1,000 English", "5,000 English", "300 rules"]
SEARCHES = {
    "find": "`find_iter`",
    "overlapping": "`find_overlapping_iter`",
    "no_suffix": "`.._no_suffix_iter`",
    "longest": "`leftmost_find_iter`",
    "find_source": "`find_iter_from_iter`",
    "overlapping_source": "`find_overlapping_iter_from_iter`",
    "no_suffix_source": "`.._no_suffix_iter_from_iter`",
    "find_stepper": "`find_stepper`",
    "overlapping_stepper": "`find_overlapping_stepper`",
}
OTHERS = {
    "list": "`iter`",
    "depths": "`cache_depths`",
    "write": "`serialize`",
    "read_unchecked": "`deserialize_unchecked`",
    "read": "`deserialize`",
    "build standard": "build, standard",
    "build longest": "build, longest",
    "build first": "build, first",
}
WITH_ROWS = ["find", "overlapping", "longest", "find_source", "find_stepper"]
# The names of builds whose instructions or memory are counted.
COUNTED = {
    "build standard": "build for find",
    "build longest": "build for longest",
    "build first": "build for first",
}
# The parts of run.sh's output, by the first words of their headings.
PARTS = {
    "link": "links",
    "middle of the links": "times",
    "balanced": "balanced",
    "ours instructions a byte": "instructions",
    "ours most bytes": "memory",
}
PEERS = {
    "aho-corasick": "aho-corasick, DFA",
    "Hyperscan": "Hyperscan",
    "pyahocorasick": "pyahocorasick",
    "grep": "`grep -oF`",
}


def lines_of(results, name):
    path = os.path.join(results, name)
    if not os.path.exists(path):
        return []
    with open(path) as file:
        return file.read().splitlines()


def sections(results, name):
    """The sections of run.sh's output, by unit: the fields of each line, by part and name."""
    found = {"bytes": [], "chars": []}
    part = None
    for line in lines_of(results, name):
        head, *fields = line.split("\t")
        if line.startswith("# "):
            section = {}
            found[line.rsplit(", ", 1)[1]].append(section)
        elif head == "what":
            part = PARTS.get(fields[0], part)
        elif re.sub(r" \d+$", "", head) in PARTS:
            part = PARTS[re.sub(r" \d+$", "", head)]
        else:
            section.setdefault(part, {})[head] = fields
    return found


class Results:
    """What tables.sh measured."""

    def __init__(self, folder):
        self.ran = lines_of(folder, "ran")
        self.times = sections(folder, "times")
        self.counts = {
            (unit, name): (sections(folder, f"counts.{name}.{unit}")[unit] or [{}])[0]
            for unit in self.times for name in SETS[:2]
        }
        sizes = [int(line.split()[0]) for line in lines_of(folder, "sizes")]
        self.sizes = list(zip(sizes[0::3], sizes[1::3]))
        self.peers = self.read_peers(folder)

    @staticmethod
    def read_peers(folder):
        """The nanoseconds a byte of each peer, in sets where it finds as many matches as ours."""
        found = []
        for line in lines_of(folder, "peers"):
            if line == "set":
                found.append({})
                continue
            name, ours, theirs, nanoseconds = line.split("\t")
            where = f"tables.py: {ALL_SETS[len(found) - 1]}: {name}"
            if ours != theirs:
                print(f"{where} finds {theirs} matches, not {ours}", file=sys.stderr)
            elif float(nanoseconds) <= 0:
                print(f"{where} is too fast to time", file=sys.stderr)
            else:
                found[-1][name] = float(nanoseconds)
        return found

    def part(self, unit, number, part):
        if number >= len(self.times[unit]):
            return {}
        return self.times[unit][number].get(part, {})

    def milliseconds(self, unit, number, mode, side=0):
        """The median of the rounds of the middle link: ours, or with side 1 the Rust crate's."""
        fields = self.part(unit, number, "times").get(mode)
        return float(fields[1 + 2 * side]) if fields else None

    def nanoseconds(self, unit, number, mode, side=0):
        """The same for each byte of the text, or of the words if the mode is no search."""
        found = self.milliseconds(unit, number, mode, side)
        return found and found * 1e6 / self.sizes[number][0 if mode in OTHERS else 1]

    def ratio(self, unit, number, mode):
        """Our time divided by the Rust crate's, balanced if that is known."""
        balanced = self.part(unit, number, "balanced").get(mode)
        fields = balanced or self.part(unit, number, "times").get(mode)
        return float(fields[0 if balanced else -1]) if fields else None

    def instructions(self, unit, name, mode):
        """Our instructions divided by the Rust crate's."""
        fields = self.counts[unit, name].get("instructions", {}).get(COUNTED.get(mode, mode))
        return float(fields[-1]) if fields else None

    def memory(self, unit, name):
        """The most bytes that a standard build holds, ours and the Rust crate's."""
        fields = self.counts[unit, name].get("memory", {}).get(COUNTED["build standard"])
        return [int(it) for it in fields[:2]] if fields else None

    def has_room(self, unit, number, mode):
        return self.part(unit, number, "links").get(mode) != ["no room for rows"]


def ratio_cell(ratio):
    """A ratio, bold where the Rust crate needs less."""
    if ratio is None:
        return ""
    return f"**{ratio:.2f}**" if round(ratio, 2) > 1 else f"{ratio:.2f}"


def number_cell(number):
    if number is None:
        return ""
    return f"{number:.0f}" if number >= 100 else f"{number:.{2 if number < 1 else 1}f}"


def table(heading, rows):
    yield "| " + " | ".join(heading) + " |"
    yield "|" + "-|" * len(heading)
    for row in rows:
        yield "| " + " | ".join(row) + " |"


def of_unit(results, unit):
    """All modes over bytes or over characters."""
    for mode, label in {**SEARCHES, **OTHERS}.items():
        ratios = [results.ratio(unit, number, mode) for number in range(len(SETS))]
        known = [ratio for ratio in ratios if ratio is not None]
        counted = [results.instructions(unit, name, mode) for name in SETS[:2]]
        yield [
            label,
            number_cell(results.nanoseconds(unit, 0, mode)),
            *map(ratio_cell, ratios),
            ratio_cell(statistics.median(known) if known else None),
            ", ".join(map(ratio_cell, counted)) if any(counted) else "",
        ]


def with_rows(results):
    """The searches after `accelerate`, and the time that it takes."""
    def ratio(unit, number, mode):
        if not results.has_room(unit, number, mode):
            return "none"
        return ratio_cell(results.ratio(unit, number, mode))

    def milliseconds(unit, number, mode):
        return number_cell(results.milliseconds(unit, number, mode))

    def cells(cell, mode):
        for number in range(len(ALL_SETS)):
            yield ", ".join(filter(None, (cell(unit, number, mode) for unit in results.times)))

    for mode in WITH_ROWS:
        yield [SEARCHES[mode], *cells(ratio, f"rows_{mode}")]
    yield ["`accelerate`, milliseconds", *cells(milliseconds, "accelerate")]


def bars(results, number):
    """The nanoseconds a byte of everything compared in a set, over bytes."""
    def of(mode, side=0):
        return results.nanoseconds("bytes", number, mode, side)

    peers = results.peers[number] if number < len(results.peers) else {}
    return {
        "`find_overlapping_iter`": of("overlapping"),
        "after `accelerate`": of("rows_overlapping"),
        "the Rust crate": of("overlapping", 1),
        **{label: peers.get(name) for name, label in PEERS.items() if name != "grep"},
        "leftmost, after `accelerate`": of("rows_longest"),
        PEERS["grep"]: peers.get("grep"),
    }


def beside(theirs, ours):
    """Their time, and ours divided by it."""
    return f"{number_cell(theirs)} ({ours / theirs:.2f})" if ours and theirs else number_cell(theirs)


def beside_peers(results):
    for number, name in enumerate(ALL_SETS):
        plain, fast, *others, longest, grep = bars(results, number).values()
        cells = [number_cell(plain), number_cell(fast), *(beside(it, fast) for it in others)]
        yield [name, *cells, number_cell(longest), beside(grep, longest)]


def memory(results):
    """A sentence on the memory that builds hold."""
    cells = []
    for unit, label in (("bytes", "bytes"), ("chars", "characters")):
        for name in SETS[:2]:
            found = results.memory(unit, name)
            if found:
                ours, theirs = found
                cells.append(f"{name}, {label}, {ours / 1e6:.1f} MB ({ours / theirs:.2f})")
    if not cells:
        return []
    return [f"The most that a standard build holds beside the words: {'; '.join(cells)}."]


def tables(results):
    counted = [*SETS, "middle", "instructions"]
    return {
        "ran": ["![Nanoseconds a byte of each library](speed.svg)", "", f"Run: {'; '.join(results.ran)}."] if results.ran else [],
        "bytes": table(["bytes", "ns", *counted], of_unit(results, "bytes")),
        "chars": table(["characters", "ns", *counted], of_unit(results, "chars")),
        "rows": table(["with rows", *ALL_SETS], with_rows(results)),
        "peers": table(["ns a byte", *bars(results, 0)], beside_peers(results)),
        "memory": memory(results),
    }


def write_page(path, results):
    with open(path) as file:
        page = file.read()
    for name, lines in tables(results).items():
        text = "".join(f"{re.sub(' +', ' ', line)}\n" for line in lines)
        before, begin, rest = page.partition(f"<!-- {name} -->\n")
        _, end, after = rest.partition(f"<!-- /{name} -->\n")
        page = before + begin + text + end + after
        if not end:
            sys.exit(f"tables.py: {path} has no place for the table {name}")
    with open(path, "w") as file:
        file.write(page)


# Where bars begin, the width of the picture, the height of a bar, and the space between groups.
LEFT, WIDTH, BAR, GROUP = 250, 720, 11, 10
BOLD = ' font-weight="bold"'
COLOURS = ["#1b4f8f", "#4b8fd6", "#d9822b", "#8a8a8a", "#8a8a8a", "#8a8a8a", "#4b8fd6", "#8a8a8a"]


def svg_text(x, y, text, more=""):
    return f'<text x="{x:.1f}" y="{y}"{more}>{text.replace("`", "")}</text>'


def picture(results):
    """Bars of nanoseconds a byte, each set by itself, on a scale of powers of ten."""
    groups = [bars(results, number) for number in range(len(ALL_SETS))]
    known = [value for group in groups for value in group.values() if value] or [1, 100]
    least, most = math.floor(math.log10(min(known))), math.ceil(math.log10(max(known) * 1.01))
    height = 40 + sum(GROUP + BAR * len(group) for group in groups)

    def place(value):
        return LEFT + (math.log10(value) - least) * (WIDTH - LEFT - 50) / (most - least)

    yield (f'<svg xmlns="http://www.w3.org/2000/svg" width="{WIDTH}" height="{height}" '
           'font-family="sans-serif" font-size="10">')
    yield f'<rect width="{WIDTH}" height="{height}" fill="white"/>'
    yield svg_text(8, 14, "Nanoseconds a byte, by powers of ten: shorter is faster", BOLD)
    for power in range(least, most + 1):
        x = place(10**power)
        yield f'<path d="M{x:.1f} 34V{height}" stroke="#dddddd"/>'
        yield svg_text(x, 30, f"{10.0**power:g} ns", ' text-anchor="middle"')
    y = 40
    for name, group in zip(ALL_SETS, groups):
        yield svg_text(8, y + 9, name, BOLD)
        for colour, (label, value) in zip(COLOURS, group.items()):
            end = place(value) if value else LEFT
            yield svg_text(LEFT - 6, y + 9, label, ' text-anchor="end"')
            yield f'<path d="M{LEFT} {y}H{end:.1f}v{BAR - 2}H{LEFT}z" fill="{colour}"/>'
            yield svg_text(end + 4, y + 9, number_cell(value) or "-")
            y += BAR
        y += GROUP
    yield "</svg>"


def main():
    folder, page, path = sys.argv[1:]
    results = Results(folder)
    write_page(page, results)
    with open(path, "w") as file:
        file.writelines(f"{line}\n" for line in picture(results))


main()
