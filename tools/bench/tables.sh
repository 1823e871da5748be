#!/bin/sh
# tables.sh DAACHORSE WORK WORDS TEXT OTHER_WORDS OTHER_TEXT
#
# Measures the sets of docs/SPEED.md, and writes its tables and docs/speed.svg. DAACHORSE is
# the folder of the Rust crate, WORK a folder to work in, WORDS and TEXT a list of English words and
# a text to search, and the last two the same in Japanese. sets.py makes the other sets.
#
# It takes some 25 minutes on four cores, which should be idle. LINKS is the number of links that
# are timed (8), ROUNDS that of rounds in each (5), and BYTES the length of the text for counting
# instructions (65536). A peer that is not installed leaves its cells empty.
set -eu
here=$(CDPATH= cd -- "$(dirname -- "$0")" && pwd)
top=$(CDPATH= cd -- "$here/../.." && pwd)
crate=$1
mkdir -p "$2/peers"
work=$(CDPATH= cd -- "$2" && pwd)
results=$work/results
sets=$work/sets
words=$3 text=$4 other_words=$5 other_text=$6
export SEEDS="${LINKS:-8}" ROUNDS="${ROUNDS:-5}" FILTER=1
counted="find overlapping no_suffix longest find_source overlapping_source no_suffix_source
find_stepper overlapping_stepper list depths"
timed="$counted write read_unchecked read accelerate rows_find rows_overlapping rows_longest
rows_find_source rows_find_stepper"
more="find overlapping longest accelerate rows_find rows_overlapping rows_longest"

# for_sets COMMAND..: runs the command with each set's words and text, in the order of tables.py.
for_sets() {
    "$@" "$words" "$text"
    "$@" "$other_words" "$other_text"
    for size in 50 1000 20000; do "$@" "$sets/words.$size" "$sets/text.txt"; done
    for size in 50 3000; do "$@" "$sets/rules.$size" "$sets/log.txt"; done
}

# for_more COMMAND..: the same with the sets that are only searched after `accelerate`.
for_more() {
    for size in 1000 5000; do "$@" "$sets/english.$size" "$text"; done
    "$@" "$sets/rules.300" "$sets/log.txt"
}

# say_what_ran: prints the state, the programs and the machine.
say_what_ran() {
    echo "commit $(git -C "$top" describe --always --dirty), $(rt version | cut -d ' ' -f 1)"
    rustc --version | cut -d ' ' -f 1,2
    echo "$(sed -n '/^model name/{s/.*: //p;q}' /proc/cpuinfo), $(nproc) cores"
    echo "$SEEDS links, $ROUNDS rounds"
    dpkg-query -W -f '${Package} ${Version}\n' librust-aho-corasick-dev libhyperscan-dev \
        python3-ahocorasick grep | sed 's/librust-//; s/-dev//; s/-[^-]*$//' || :
}

# build_peers: compiles the programs over aho-corasick and Hyperscan, which are Debian's.
build_peers() {
    cc -O3 -march=x86-64-v2 "$here/peers/hyperscan.c" -o "$work/peers/hyperscan" -lhs || :
    cp "$here/peers/Cargo.toml" "$here/peers/aho_corasick.rs" "$work/peers/"
    (cd "$work/peers" && RUSTFLAGS="-C target-cpu=x86-64-v2" cargo build --quiet --offline --release \
        --config 'source.crates-io.replace-with="debian"' \
        --config 'source.debian.directory="/usr/share/cargo/registry"') || :
}

# matches MODE WORDS TEXT: prints how many matches this library finds.
matches() {
    "$work/driver-1" rounds bytes "$1" "$2" "$3" "$(wc -c < "$3")" 1 0 | sed 's/.*count: \([0-9]*\).*/\1/'
}

# peers WORDS TEXT: a line for each peer: its name, our matches, its matches, nanoseconds a byte.
peers() {
    echo "set"
    all=$(matches overlapping "$1" "$2")
    longest=$(matches longest "$1" "$2")
    peer aho-corasick "$all" "$work/peers/target/release/aho_corasick" "$1" "$2"
    peer Hyperscan "$all" "$work/peers/hyperscan" "$1" "$2"
    peer pyahocorasick "$all" /usr/bin/python3 "$here/peers/pyahocorasick.py" "$1" "$2"
    peer grep "$longest" /usr/bin/python3 "$here/peers/grep.py" "$1" "$2"
}

# peer NAME MATCHES COMMAND..
peer() {
    name=$1 ours=$2
    shift 2
    if found=$("$@" "$ROUNDS"); then
        printf '%s\t%s\t%s\n' "$name" "$ours" "$found"
    else
        echo "tables.sh: $name did not run" >&2
    fi
}

# count UNIT NAME WORDS TEXT: counts the instructions and the memory of a set.
count() {
    UNITS=$1 PARTS="counts memory" BYTES="${BYTES:-65536}" MODES="$counted" \
        "$here/run.sh" "$crate" "$work" "$3" "$4" > "$results/counts.$2.$1"
}

rm -rf "$results"
mkdir -p "$results"
python3 "$here/sets.py" "$sets" 7
for size in 1000 5000; do
    awk -v size="$size" 'NR % (20000 / size) == 1' "$words" > "$sets/english.$size"
done
build_peers
PARTS=build "$here/run.sh" "$crate" "$work"
say_what_ran > "$results/ran"
{ for_sets wc -c && for_more wc -c; } > "$results/sizes"
for_sets env PARTS=times MODES="$timed" "$here/run.sh" "$crate" "$work" > "$results/times"
for_more env PARTS=times MODES="$more" BUILDS= "$here/run.sh" "$crate" "$work" >> "$results/times"
{ for_sets peers && for_more peers; } > "$results/peers"
for unit in bytes chars; do
    count "$unit" English "$words" "$text" &
    count "$unit" Japanese "$other_words" "$other_text" &
done
wait
python3 "$here/tables.py" "$results" "$top/docs/SPEED.md" "$top/docs/speed.svg"
