#!/bin/sh
# run.sh CRATE WORK [COUNT [SEED]]
#
# Runs COUNT random cases (1000) from the seed SEED (1) through both automata of this repository,
# those of the Rust crate daachorse in the folder CRATE, and the plain definitions, and reports any
# difference. WORK is a folder to work in. The same seed gives the same cases.
set -eu
here=$(CDPATH= cd -- "$(dirname -- "$0")" && pwd)
top=$(CDPATH= cd -- "$here/../.." && pwd)
crate=$(CDPATH= cd -- "$1" && pwd)
mkdir -p "$2"
work=$(CDPATH= cd -- "$2" && pwd)
count=${3:-1000}
seed=${4:-1}

# The Rust crate's program.
mkdir -p "$work/theirs"
cp -r "$here/theirs/src" "$work/theirs/"
sed "s|@DAACHORSE@|$crate|" "$here/theirs/Cargo.toml.in" > "$work/theirs/Cargo.toml"
(cd "$work/theirs" && cargo build --quiet --offline --release)

# This repository's, over a copy of its crates.
mkdir -p "$work/ours/crates/differ/src"
for folder in "$top"/crates/*; do
    mkdir -p "$work/ours/crates/$(basename "$folder")"
    for part in src specs proofs; do
        [ ! -d "$folder/$part" ] || cp -r "$folder/$part" "$work/ours/crates/$(basename "$folder")/"
    done
done
# The gate expects each .rt file to be in a crate of crates.txt, so these sources have other names.
for source in "$here"/ours/src/*.rt.in; do
    cp "$source" "$work/ours/crates/differ/src/$(basename "${source%.in}")"
done
cat "$top/crates.txt" "$here/crate_line" > "$work/ours/crates.txt"

python3 "$here/cases.py" "$work/cases" "$work/expected" "$count" "$seed"
"$work/theirs/target/release/theirs" "$work/cases" 0 > "$work/found.theirs"
"$work/theirs/target/release/theirs" "$work/cases" 1 > "$work/found.filtered"
(cd "$work/ours/crates/differ" &&
    rt try --steps "$((1000000000 + count * 4000000))" --seconds "$((1000 + count * 4))" --data "cases=$work/cases" > "$work/printed") || true
grep -E '^[0-9]+ (overlapping|no_suffix|find|leftmost|iter)' "$work/printed" > "$work/found.ours" || true

# The Rust crate's lines lack what it is not asked for.
status=0
for other in theirs filtered; do
    if grep -v -x -F -f "$work/expected" "$work/found.$other" > "$work/differs.$other"; then
        echo "the Rust crate ($other) differs from the definitions in $(wc -l < "$work/differs.$other") lines: $work/differs.$other"
        status=1
    fi
done
if ! cmp -s "$work/expected" "$work/found.ours"; then
    diff "$work/expected" "$work/found.ours" > "$work/differs.ours" || true
    echo "this repository differs from the definitions: $work/differs.ours"
    status=1
fi
python3 "$here/by_grep.py" "$work/cases" "$work/found.ours" || status=1
[ "$status" -ne 0 ] || echo "$count cases from seed $seed, $(wc -l < "$work/expected") lines: none differs"
exit "$status"
