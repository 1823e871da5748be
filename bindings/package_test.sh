#!/bin/sh
# package_test.sh [FOLDER]
#
# Installs what bindings/package.sh packs in an empty folder, and there builds and runs a program in
# C by pkg-config alone, one in Rust by the crate alone, and one in Python by the wheel alone. What is
# skipped since something is missing is noted in FOLDER/skipped, a line each.
set -eu
here=$(CDPATH= cd -- "$(dirname -- "$0")" && pwd)
work=$(mktemp -d)
trap 'rm -rf "$work"' EXIT
out=${1:-"$here/out"}
package="$out/package"

# skip TEXT: notes a test that is not run, and why.
skip() {
    echo "$1" >> "$out/skipped"
}

"$here/package.sh" --prefix "$work/prefix" "$out"
(cd "$package" && sha256sum --quiet -c SHA256SUMS)
if ! command -v nm >/dev/null; then
    skip "the names of the packed archive: there is no nm"
elif nm -g --defined-only "$work/prefix/lib/libdaachorse.a" | grep ' [A-Z] ' | grep -v ' daachorse_'; then
    echo "package_test.sh: the archive has more global names than its own" >&2
    exit 1
fi
mkdir "$work/program"
cd "$work/program"

if command -v pkg-config >/dev/null; then
    cp "$here/c/example.c" program.c
    flags=$(PKG_CONFIG_PATH="$work/prefix/lib/pkgconfig" pkg-config --cflags --libs daachorse)
    # shellcheck disable=SC2086
    "${CC:-cc}" program.c $flags -o program
    LD_LIBRARY_PATH="$work/prefix/lib" ./program | diff "$here/c/example.stdout" -
    echo "package_test.sh: a program in C was built by pkg-config alone"
else
    skip "a program in C by pkg-config: there is none"
fi

if cargo --version >/dev/null 2>&1 && rustc --version >/dev/null 2>&1; then
    mkdir -p rust/src
    cat > rust/Cargo.toml <<END
[package]
name = "program"
version = "0.1.0"
edition = "2021"
[dependencies]
daachorse_c = { path = "$package/rust" }
END
    cat > rust/src/main.rs <<'END'
use daachorse_c::{Automaton, Kind};

fn main() -> Result<(), Box<dyn std::error::Error>> {
    let patterns: [&[u8]; 2] = [b"ab", b"abcd"];
    for found in Automaton::new(Kind::LeftmostLongest, true, patterns)?.leftmost_find(b"xabcd")? {
        println!("{} {} {}", found.start, found.end, found.value);
    }
    Ok(())
}
END
    (cd rust && cargo run --quiet --offline) | grep -x '1 5 1' >/dev/null
    echo "package_test.sh: a program in Rust was built by the crate alone"
else
    skip "a program in Rust by the crate alone: there is no cargo that runs"
fi

if /usr/bin/python3 -m venv "$work/venv" >/dev/null 2>&1; then
    "$work/venv/bin/pip" install --quiet --no-index --disable-pip-version-check "$package"/daachorse-*.whl
    program='import daachorse; print(*daachorse.Automaton(["é"]).find_first("né"))'
    env -u DAACHORSE_LIBRARY "$work/venv/bin/python" -I -c "$program" | grep -x '1 2 0' >/dev/null
    echo "package_test.sh: the wheel was installed in an empty environment"
else
    skip "the wheel: /usr/bin/python3 makes no virtual environment"
fi
