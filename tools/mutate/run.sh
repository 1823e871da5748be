#!/bin/sh
# run.sh WORK [COUNT [SEED]]
#
# Mutates COUNT written automata (1000000) at random from the seed SEED (1), reads each with
# `deserialize`, and compares the searches of accepted ones with the plain definitions over the
# patterns that they list. WORK is a folder to work in; what an earlier run proved there is kept.
set -eu
here=$(CDPATH= cd -- "$(dirname -- "$0")" && pwd)
top=$(CDPATH= cd -- "$here/../.." && pwd)
mkdir -p "$1"
work=$(CDPATH= cd -- "$1" && pwd)
kit=${KIT:-$(dirname -- "$(rt doc)")}

"$top/tools/gate/build_beside.sh" "$here/mutate_c" "$work/rattle"
mkdir -p "$work/driver"
cp -r "$here/driver/src" "$work/driver/"
cp "$here/driver/Cargo.toml.in" "$work/driver/Cargo.toml"
(cd "$work/driver" && touch src/main.rs && cargo rustc --quiet --offline --release -- \
    -C link-arg="$work/rattle/crates/mutate_c/out/libmutate_c.a" -C link-arg="$kit/c/liblibc_c.a")
"$work/driver/target/release/mutate" "${2:-1000000}" "${3:-1}"
