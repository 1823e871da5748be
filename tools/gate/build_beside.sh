#!/bin/sh
# build_beside.sh FOLDER WORK [VERB]
#
# Builds the crate in FOLDER, a tool's, in a copy of the repository's crates in WORK. The file
# crate_line in FOLDER is its line of crates.txt. The gate expects each source to be in a crate of
# crates.txt, so the names of those in FOLDER end in `.in`.
#
# If `rt ci` has left its libraries in this clone, the crate alone is proved, over these. Otherwise
# `rt VERB` also proves the crates below it, in the copy, which keeps the proofs. VERB is lib, or
# run for a program.
set -eu
here=$(CDPATH= cd -- "$(dirname -- "$0")" && pwd)
top=$(CDPATH= cd -- "$here/../.." && pwd)
folder=$(CDPATH= cd -- "$1" && pwd)
mkdir -p "$2/crates"
work=$(CDPATH= cd -- "$2" && pwd)
kit=${KIT:-$(dirname -- "$(rt doc)")}
name=$(sed -n 's/^\([a-z_]*\)[ :].*/\1/p' "$folder/crate_line")

# copy_sources FROM TO
copy_sources() {
    mkdir -p "$2"
    for part in src specs proofs c; do
        rm -rf "${2:?}/$part"
        [ ! -d "$1/$part" ] || cp -rp "$1/$part" "$2/"
    done
}

# is_of_gate CRATE: whether the gate left its library there, and no source changed since. The gate
# writes no stamp.
is_of_gate() {
    [ -d "$1/out/rlib" ] && [ ! -e "$1/out/rlib/stamp" ] &&
        [ -z "$(find "$1/src" "$1/specs" "$1/proofs" -newer "$1/out/rlib" 2>/dev/null)" ]
}

for crate in "$top"/crates/*; do
    copy=$work/crates/$(basename "$crate")
    copy_sources "$crate" "$copy"
    [ -e "$copy/out/rlib/stamp" ] || rm -rf "$copy/out/rlib"
    if is_of_gate "$crate"; then
        mkdir -p "$copy/out"
        rm -rf "$copy/out/rlib"
        cp -rp "$crate/out/rlib" "$copy/out/"
    fi
done
copy_sources "$folder" "$work/crates/$name"
find "$work/crates/$name" -name '*.in' | while read -r source; do
    mv "$source" "${source%.in}"
done
cat "$top/crates.txt" "$folder/crate_line" > "$work/crates.txt"

status=0
python3 "$here/build_over.py" "$kit" "$work" "$name" || status=$?
case $status in
    0) ;;
    3) (cd "$work/crates/$name" && rt "${3:-lib}") ;;
    *) exit 1 ;;
esac
