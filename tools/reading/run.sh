#!/bin/sh
# run.sh WORK EXPONENT..
#
# Times the checked read over automata of hostile shapes with about 2^EXPONENT elements, for each
# exponent. WORK is a folder to work in. What an earlier run proved there is kept.
set -eu
here=$(CDPATH= cd -- "$(dirname -- "$0")" && pwd)
top=$(CDPATH= cd -- "$here/../.." && pwd)
mkdir -p "$1"
work=$(CDPATH= cd -- "$1" && pwd)
shift

"$top/tools/gate/build_beside.sh" "$here" "$work" run
cd "$work/crates/reading"
rm -rf data
mkdir data
python3 "$here/shapes.py" data "$@"
cd data
exec ../out/reading *
