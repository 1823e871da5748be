#!/usr/bin/env python3
"""strength.py [--record FILE] [CRATE..]: tries wrong bodies that the gate does not try.

An edit CRATE/NAME.edit beside this program has the lines `file:`, `old:` and `new:` of one in
must-fail. ⏎ stands for a line's end in a text. A line `note:` says of an edit that is proved what
promise is not carried, or why it is none.

This runs in a clone in which `rt ci` has passed, over the libraries in crates/*/out/rlib. Each CRATE,
or each with edits, is proved once, and each edit is checked over what this kept. What it came to is
printed: `refused` at a goal, `proved`, or `not tried` and why. With --record the rows are also put
into the last table of FILE, as of RESULTS.md. Rows of crates that were not run stay, and so does the
row of an edit that this run could not try.
"""
import os
import re
import shutil
import subprocess
import sys
import tempfile

HERE = os.path.dirname(os.path.abspath(__file__))
KIT = os.path.dirname(os.path.dirname(os.path.realpath(shutil.which("rt") or sys.exit("there is no rt"))))
sys.dont_write_bytecode = True
sys.path.insert(0, f"{KIT}/bin")

import rtlib  # noqa: E402

HEAD = "| crate | edit | came to | note |\n|---|---|---|---|\n"
PLACE = re.compile(r"(?:note: )?(?:\./)?(\S+):\d+:\d+: (.*)")
GOAL = re.compile(r"error: `([^`]+)`|it is not proved that .*?\(`([^`]+)`\)")
LOST_NAME = re.compile(r"is not in scope|has no field|has no `|was not admitted")


def lines_of(path):
    """The lines of an edit, as pairs of a word and a text."""
    with open(path, encoding="utf-8") as it:
        pairs = re.findall(r"^(file|old|new|note): ?(.*)$", it.read(), re.M)
    return [(word, text.replace("⏎", "\n")) for word, text in pairs]


def edited(lines, folder):
    """The texts of the files that an edit changes, or why it does not apply."""
    file, old, texts = "", "", {}
    for word, text in lines:
        if word == "file":
            file = text
            if not os.path.isfile(f"{folder}/{file}"):
                return {}, f"there is no file {file}"
            if file not in texts:
                with open(f"{folder}/{file}", encoding="utf-8") as it:
                    texts[file] = it.read()
        elif word == "old":
            old = text
        elif word == "new":
            if texts[file].count(old) != 1:
                return {}, f"its old text stands {texts[file].count(old)} times in {file}"
            texts[file] = texts[file].replace(old, text)
    return texts, ""


def checked(crate, texts, seed):
    """Checks a copy of the crate with these texts over the seed: the status and the lines."""
    with tempfile.TemporaryDirectory(prefix="strength-") as room:
        for part in rtlib.PARTS:
            if os.path.isdir(f"{crate.folder}/{part}"):
                shutil.copytree(f"{crate.folder}/{part}", f"{room}/{part}")
        for path, text in texts.items():
            with open(f"{room}/{path}", "w", encoding="utf-8") as it:
                it.write(text)
        words = [*rtlib.guarded(), rtlib.RATTLE, "check", *crate.words(["--jobs", "2"], keeps=False), "--incremental", seed]
        how = {"stdin": subprocess.DEVNULL, "stdout": subprocess.PIPE, "stderr": subprocess.STDOUT, "errors": "replace"}
        ran = subprocess.run(words, cwd=room, check=False, **how)
    return ran.returncode, ran.stdout.rstrip("\n").split("\n")


def goal_of(lines):
    """The goal that failed first, and its file. A proof that only lost a name comes last."""
    whole = map(PLACE.match, re.sub(r"\n {2}", " ", "\n".join(lines)).split("\n"))
    told = [it for it in whole if it and re.search(r"\d: error|it is not proved that", it[0])]
    told.sort(key=lambda it: (bool(LOST_NAME.search(it[2])), not GOAL.search(it[2])))
    if not told:
        return "no goal is named"
    file, said = told[0].groups()
    goal, lost = GOAL.search(said), ", by a lost name alone" if LOST_NAME.search(said) else ""
    return (f"`{goal[1] or goal[2]}`" if goal else said[:100]) + f" in {file}{lost}"


def came_to(crate, lines, seed, usual):
    """What an edit comes to. `usual` are the lines of the check without it."""
    texts, why = edited(lines, crate.folder)
    if why:
        return f"not tried: {why}"
    with tempfile.TemporaryDirectory(prefix="strength-seed-") as room:
        shutil.copytree(seed, f"{room}/seed", symlinks=True)
        status, said = checked(crate, texts, f"{room}/seed")
    if status == 0:
        return "proved"
    if status == 1 and said[-1].startswith("logic=not-proved"):
        return f"refused: {goal_of([it for it in said if it not in usual])}"
    if status == 1 and any(re.search(r"\berror\[", it) for it in said):
        return "not tried: it does not compile"
    return f"not tried: its check ended with status {status}"


def rows_of(crate):
    """The rows of a crate's edits, each printed once it is known."""
    folder, rows = f"{HERE}/{crate.name}", []
    # A stamp is written by other commands than the gate, whose libraries do not fit.
    lacking = [it.name for it in crate.below() if not os.path.isdir(it.rlib) or os.path.exists(f"{it.rlib}/../stamp")]
    with tempfile.TemporaryDirectory(prefix="strength-seed-") as seed:
        status, usual = (1, []) if lacking else checked(crate, {}, seed)
        why = f"there is no library of the gate of {lacking[0]}" if lacking else "the crate is not proved without it"
        for name in sorted(it for it in os.listdir(folder) if it.endswith(".edit")):
            lines = lines_of(f"{folder}/{name}")
            came = f"not tried: {why}" if status else came_to(crate, lines, seed, usual)
            rows.append([crate.name, name.removesuffix(".edit"), came, dict(lines).get("note", "")])
            print(row(rows[-1]), flush=True)
    return rows


def row(cells):
    return "| " + " | ".join(it.replace("|", "\\|") for it in cells) + " |"


def record(path, rows):
    """Puts the rows of one crate into the last table of a file, in the place of its rows there."""
    with open(path, encoding="utf-8") as it:
        before, head, table = it.read().rpartition(HEAD)
    assert head, f"{path} lacks the table"
    old, new = ({tuple(it.split(" | ", 2)[:2]): it for it in given if it} for given in (table.split("\n"), map(row, rows)))
    new = {key: old.get(key, it) if " | not tried" in it else it for key, it in new.items()}
    kept = {key: it for key, it in old.items() if key[0] != f"| {rows[0][0]}"}
    with open(path, "w", encoding="utf-8") as it:
        it.write(before + head + "".join(f"{it}\n" for _, it in sorted({**kept, **new}.items())))


def main(words):
    path = words[1] if words[:1] == ["--record"] else None
    names = words[2 if path else 0 :] or os.listdir(HERE)
    print(HEAD, end="")
    for crate in rtlib.crates_below(os.path.dirname(os.path.dirname(HERE))):
        if crate.name in names and os.path.isdir(f"{HERE}/{crate.name}"):
            rows = rows_of(crate)
            if path and rows:
                record(path, rows)


if __name__ == "__main__":
    main(sys.argv[1:])
