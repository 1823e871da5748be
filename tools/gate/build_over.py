"""Builds a static library or a program over the libraries of `rt ci` in crates/*/out/rlib.

    build_over.py KIT ROOT CRATE

`rt lib` and `rt run` take no library of the gate's, and would prove each again. This proves the
crate alone. It leaves out/libCRATE.a or the program out/CRATE. Status 3 means that some library is
not the gate's: use `rt lib` or `rt run` then. TOOLCHAIN names a folder of compilers other than the
kit's.
"""

import os
import sys

kit, root, name = sys.argv[1:]
sys.dont_write_bytecode = True
sys.path.insert(0, f"{kit}/bin")

import rtlib

crate = next(it for it in rtlib.crates_below(root) if it.name == name)
# Libraries of the gate do not fit those of other commands, which alone write a stamp.
if not all(os.path.isdir(it.rlib) and not os.path.exists(f"{os.path.dirname(it.rlib)}/stamp") for it in crate.below()):
    sys.exit(3)
os.makedirs(f"{crate.folder}/out", exist_ok=True)
toolchain = os.environ.get("TOOLCHAIN", f"{kit}/toolchain")
made = f"out/{name}.o" if crate.is_program else f"out/lib{name}.a"
# After the gate nothing else runs.
jobs = min(4, len(os.sched_getaffinity(0)))
words = crate.words(["--jobs", str(jobs)], keeps=False)
failed = crate.call(rtlib.RATTLE, "build", *words, "--toolchain", toolchain, "--backend", "llvm", "-o", made)
if not failed and crate.is_program:
    words = ["--target", "x86_64-unknown-linux-gnu", "--toolchain", toolchain, "-o", f"out/{name}", made]
    failed = crate.call(f"{kit}/bin/rattle-link", *words, f"{kit}/c/libos_c.a", f"{kit}/c/liblibc_c.a")
sys.exit(1 if failed else 0)
