#!/bin/sh
# Builds the library for C, Python and Rust in this clone, runs the examples and tests of each, and
# packs them by package.sh.
#
#     bindings/build.sh [--after-gate] [FOLDER]
#
# The output goes to FOLDER, else to bindings/out: libdaachorse.so.1 with the link libdaachorse.so,
# the example in C, and tests in C: over the table crates/daachorse_table/stdin, of the other calls, of
# automata over characters, of each allocation refused in turn, of the memory that a hostile form
# takes, of the steps of a stream over many equal patterns, and of threads that search an automaton at
# once.
#
# It needs the Rattle kit (its command rt), which first proves what is not proved yet, and a C
# compiler, CC or cc, with a linker that has --wrap. Without nm, valgrind, python3, numpy, Dask,
# objcopy or a cargo that runs, it skips what needs it, and its last lines count and name what was
# skipped; tools/debian.sh installs them. With --after-gate, which .ci/run passes right after rt ci,
# it uses the libraries that the gate proved, and succeeds without a C compiler and after warnings.
set -eu
here=$(CDPATH= cd -- "$(dirname -- "$0")" && pwd)
crate="$here/../crates/daachorse_c"
table="$here/../crates/daachorse_table/stdin"
after_gate=no warnings=-Werror
if [ "${1:-}" = --after-gate ]; then
    after_gate=yes warnings=
    shift
fi
out=${1:-"$here/out"}
compiler=${CC:-cc}
command -v rt >/dev/null || { echo "build.sh: there is no rt, the command of the Rattle kit" >&2; exit 2; }
kit=$(dirname -- "$(rt doc)")
mkdir -p "$out"
out=$(CDPATH= cd -- "$out" && pwd)
skipped="$out/skipped"
: > "$skipped"

# skip TEXT: notes a test that is not run, and why.
skip() {
    echo "$1" >> "$skipped"
}

printf '#include <stdlib.h>\nint main(void) { return 0; }\n' > "$out/trial.c"
if ! { "$compiler" -o "$out/trial" "$out/trial.c" && "$out/trial"; } 2>/dev/null; then
    echo "build.sh: skipped: the library for C and all its tests: there is no C compiler $compiler that makes a program"
    [ "$after_gate" = yes ] && exit 0
    exit 2
fi

status=3
if [ "$after_gate" = yes ]; then
    status=0
    python3 "$here/../tools/gate/build_over.py" "$kit" "$(dirname -- "$here")" daachorse_c || status=$?
fi
if [ "$status" = 3 ]; then
    status=0
    (cd "$crate" && rt lib) || status=$?
fi
[ "$status" = 0 ] || { echo "build.sh: the library was not built" >&2; exit 1; }
library="$crate/out/libdaachorse_c.a"
# The kit's archive has the calls of malloc, realloc and free.
heap="$kit/c/liblibc_c.a"
"$compiler" -shared -o "$out/libdaachorse.so.1" -Wl,-soname,libdaachorse.so.1 -Wl,--version-script="$here/c/exports" \
    -Wl,--whole-archive "$library" -Wl,--no-whole-archive "$heap"
ln -sf libdaachorse.so.1 "$out/libdaachorse.so"
if ! command -v nm >/dev/null; then
    skip "the names that the library exports: there is no nm"
elif nm -D --defined-only "$out/libdaachorse.so" | grep -v ' daachorse_'; then
    echo "build.sh: the library exports more than its own names" >&2
    exit 1
fi

compile() {
    name=$1
    shift
    "$compiler" -std=c11 -O2 -Wall -Wextra $warnings -I "$here/c" -o "$out/$name" "$here/c/$name.c" "$library" "$heap" "$@"
}
compile example
compile rows
compile calls
compile characters
compile refusals -Wl,--wrap=malloc,--wrap=realloc
compile memory -Wl,--wrap=malloc,--wrap=realloc,--wrap=free
compile threads -pthread
compile steps

"$out/example" > "$out/example.stdout"
diff "$here/c/example.stdout" "$out/example.stdout"
echo "build.sh: the example in C wrote what it should"
"$out/rows" < "$table"
echo "build.sh: in C the rows of the table hold"
"$out/calls"
echo "build.sh: in C the other calls did what their rows say"
"$out/characters"
echo "build.sh: in C automata over characters did what their rows say"
"$out/refusals"
echo "build.sh: each request for memory may be refused"
"$out/memory"
echo "build.sh: a listing without room held no patterns"
"$out/threads" 200
echo "build.sh: threads searched shared automata at once"

# steps WHAT NUMBER: the steps that a stream over so many equal patterns takes, that searches for each
# match take in a text of so many characters, or that a form of so many texts with so many values takes.
steps() {
    valgrind --tool=callgrind --callgrind-out-file=/dev/null "$out/steps" "$@" 2>&1 | sed -n 's/.*Collected : \([0-9]*\).*/\1/p'
}

if valgrind -q "$out/trial" >/dev/null 2>&1; then
    for program in example rows calls characters refusals memory; do
        valgrind -q --leak-check=full --show-leak-kinds=all --errors-for-leak-kinds=all --error-exitcode=1 "$out/$program" quick < "$table" >/dev/null
    done
    valgrind -q --tool=helgrind --error-exitcode=1 "$out/threads" 2 >/dev/null
    echo "build.sh: valgrind found no bad access, no leak and no race"
    few=$(steps patterns 4000) many=$(steps patterns 8000)
    [ "$many" -lt $((few * 5 / 2)) ] || { echo "build.sh: a stream takes $few steps for 4000 matches and $many for 8000" >&2; exit 1; }
    echo "build.sh: twice the matches at a place took a stream no more than twice the steps"
    few=$(steps text 16000) many=$(steps text 32000)
    [ "$many" -le $((few * 5 / 2)) ] || { echo "build.sh: a search for each match takes $few steps in 16000 characters and $many in 32000" >&2; exit 1; }
    echo "build.sh: twice the text took a search for each match no more than two and a half times the steps"
    few=$(steps form 1000) many=$(steps form 2000)
    [ "$many" -le $((few * 5 / 2)) ] || { echo "build.sh: a form of 1000 texts with 1000 values takes $few steps and one of 2000 texts $many" >&2; exit 1; }
    echo "build.sh: a form twice as long took no more than two and a half times the steps"
else
    skip "the programs in C under valgrind: there is none that runs"
fi

# Debian's Python has Debian's packages; another may come first on the path.
python=python3
if /usr/bin/python3 -c 'import ctypes, unittest' 2>/dev/null; then
    python=/usr/bin/python3
fi
if "$python" -c 'import ctypes, unittest' 2>/dev/null; then
    export PYTHONDONTWRITEBYTECODE=1 PYTHONPATH="$here/python:$here/../examples" DAACHORSE_LIBRARY="$out/libdaachorse.so"
    "$python" "$here/python/test_daachorse.py"
    echo "build.sh: the tests in Python passed"
    "$python" -c 'import numpy' 2>/dev/null || skip "a haystack of numpy in Python: $python has no numpy"
    if /usr/bin/python3 -c 'import distributed' 2>/dev/null; then
        timeout 900 /usr/bin/python3 "$here/../examples/dask_search_test.py"
        echo "build.sh: the search by Dask passed its test"
    else
        skip "the search by Dask: /usr/bin/python3 has no distributed"
    fi
else
    skip "the tests in Python: there is no python3 with ctypes"
fi

if cargo --version >/dev/null 2>&1 && rustc --version >/dev/null 2>&1; then
    (cd "$here/rust" && DAACHORSE_LIBRARY_FOLDER="$out" LD_LIBRARY_PATH="$out" CARGO_TARGET_DIR="$out/rust" cargo test --quiet --offline)
    echo "build.sh: the tests in Rust passed"
else
    skip "the tests in Rust: there is no cargo that runs"
fi

if command -v objcopy >/dev/null; then
    "$here/package_test.sh" "$out"
else
    skip "the packages: there is no objcopy"
fi

echo "build.sh: $(wc -l < "$skipped") tests were skipped"
sed 's/^/build.sh: skipped: /' "$skipped"
