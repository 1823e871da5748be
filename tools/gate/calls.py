#!/usr/bin/env python3
"""calls.py: writes CALLS.md, the page of the public calls; with --check it fails where the page is not up to date.

A call is shown by its signature, without its clauses. What it promises stands at it in the source.
"""
import pathlib
import re
import sys

TOP = pathlib.Path(__file__).resolve().parents[2]
PAGE = TOP / "CALLS.md"

# The path under which users find what these files have.
FILES = {
    "daachorse::bytewise": [
        "daachorse/src/bytewise.rt", "daachorse/src/bytewise/builder.rt",
        "daachorse/src/bytewise/lookup.rt", "daachorse/src/bytewise/written.rt",
        "daachorse/src/bytewise/accelerated.rt"],
    "daachorse::charwise": [
        "daachorse/src/charwise.rt", "daachorse/src/charwise/builder.rt",
        "daachorse/src/charwise/lookup.rt", "daachorse/src/charwise/written.rt",
        "daachorse/src/charwise/accelerated.rt"],
    "daachorse::automaton": [
        "daachorse/src/automaton.rt", "daachorse/src/automaton/searches.rt",
        "daachorse/src/automaton/by_kind.rt", "daachorse/src/automaton/streams.rt",
        "daachorse/src/automaton/readers.rt", "daachorse/src/automaton/replacing.rt",
        "daachorse/src/automaton/rewriting.rt", "daachorse/src/automaton/gathers.rt"],
    "daachorse::bytewise::iter, daachorse::charwise::iter": [
        "daachorse_search/src/stepper.rt",
        "daachorse_search/src/find_stepper.rt", "daachorse_search/src/overlapping_stepper.rt",
        "daachorse_search/src/matches.rt", "daachorse_search/src/matches_from.rt",
        "daachorse_search/src/matches_from_reader.rt", "daachorse_search/src/leftmost.rt",
        "daachorse_streams/src/leftmost_stream.rt",
        "daachorse_streams/src/leftmost_from_reader.rt"],
    "daachorse": ["daachorse_model/src/lib.rt", "daachorse_streams/src/searched.rt", "daachorse_streams/src/stream_marks.rt",
                  "daachorse_streams/src/leftmost_standing.rt"],
    "daachorse::errors": ["daachorse_core/src/errors.rt"],
    "daachorse::laws": ["daachorse_model/src/laws.rt"],
    "daachorse::serializer": ["daachorse_serializer/src/serializer.rt", "daachorse_serializer/src/lists.rt"],
    "daactok": ["daactok/src/lib.rt"],
}
CLAUSE = re.compile(r"\s*(requires|ensures|ghost)\b")
ITEM = re.compile(r"\s*pub (const )?(fn|struct|enum|trait|type) ")


def signature(lines, at):
    """The item that begins at a line, in one line, up to its clauses or its body."""
    said = []
    for line in lines[at:]:
        if CLAUSE.match(line) or line.strip() == "{":
            break
        said.append(line.strip())
        if line.rstrip().endswith(("{", ";")):
            break
    text = " ".join(said).rstrip("{;, ")
    return re.sub(r"([(<\[]) | (?=[)>\]])", r"\1", text).replace(",)", ")").replace(",>", ">")


def items(path):
    """The public items of a file, those of each `impl` under its head."""
    lines = path.read_text().splitlines()
    for at, line in enumerate(lines):
        if line.startswith("impl") and " for " not in line:
            yield signature(lines, at)
        elif ITEM.match(line):
            yield ("    " if line.startswith(" ") else "") + signature(lines, at)


def block(paths):
    """The items of some files, without the heads of blocks that have no public call."""
    said = [it for path in paths for it in items(TOP / "crates" / path)]
    return [it for at, it in enumerate(said)
            if not it.startswith("impl") or said[at + 1:at + 2] and said[at + 1].startswith(" ")]


page = "# The public calls\n\nMade by `tools/gate/calls.py`. What each call promises stands at it in the source.\n"
for path, files in FILES.items():
    page += f"\n## `{path}`\n\n```rust\n" + "\n".join(block(files)) + "\n```\n"
if sys.argv[1:] == ["--check"]:
    sys.exit(0 if PAGE.exists() and PAGE.read_text() == page else f"{PAGE} is not what tools/gate/calls.py writes")
PAGE.write_text(page)
