#!/usr/bin/env python3
"""readme.py: fails if the programs of the README and of doc comments differ from crates/quick_start.

The README has its program, the tokenizer aside, and the library's documentation the statements of
that. The tokenizer's documentation builds and cuts the same in other functions, so its calls and
texts are compared, in any order.
"""
import difflib
import pathlib
import re
import sys

CRATES = pathlib.Path(__file__).resolve().parents[2] / "crates"
README, MAIN, CUT = CRATES.parent / "README.md", CRATES / "quick_start/src/main.rt", CRATES / "quick_start/src/cut.rt"


def block_of(path, mark=""):
    """The lines of the file's first block of code, without the mark before each."""
    text = re.sub(rf"^{mark} ?", "", path.read_text(), flags=re.M) if mark else path.read_text()
    return re.search(r"```(?:rust)?\n(.*?)```", text, re.DOTALL)[1].splitlines()


def parts_of(lines):
    """The calls and texts of code, sorted, without those of imports, contracts and comments."""
    code = (it.partition("//")[0] for it in lines if not re.match(r"\s*(use|ghost|ensures) ", it))
    return sorted(re.findall(r'"[^"]*"|\b(?:new|match_kind|build|tokens)\(', "\n".join(code)))


def differ(shown, run, name):
    lines = list(difflib.unified_diff(shown, run, name, "crates/quick_start", lineterm=""))
    if lines:
        sys.exit("\n".join(lines))


run = re.sub(r"//!.*\n", "", MAIN.read_text()).replace("mod cut;\n\n", "").replace("cut::cut(&rt)", "Ok(())").splitlines()
differ(block_of(README), run, "README.md")
statements = [it.strip() for it in block_of(CRATES / "daachorse/src/lib.rt", "//!")]
begin = next(at for at, it in enumerate(run) if it.strip().startswith("let words"))
differ(statements, [it.strip() for it in run[begin:begin + len(statements)]], "crates/daachorse/src/lib.rt")
differ(parts_of(block_of(CRATES / "daactok/src/lib.rt", "//!")), parts_of(CUT.read_text().splitlines()), "crates/daactok/src/lib.rt")
