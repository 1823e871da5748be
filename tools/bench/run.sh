#!/bin/sh
# run.sh CRATE WORK WORDS TEXT [WORDS TEXT ..]
#
# Measures the automata of this repository beside those of the Rust crate daachorse in the folder
# CRATE, with the words of each file WORDS in its TEXT. WORK is a folder to work in; what an earlier
# run built there is kept.
#
# UNITS=bytes or UNITS=chars measures one of the automata.
# PARTS=build, PARTS=counts, PARTS=memory or PARTS=times does one part alone. SEEDS is the number of
# links that are timed (5), ROUNDS that of rounds in each (15), and BYTES the length of the text for
# counting instructions (262144). MODES names the modes that are counted and timed, and BUILDS the
# kinds of builds. FILTER=1 turns on the prefilter of both sides.
set -eu
here=$(CDPATH= cd -- "$(dirname -- "$0")" && pwd)
top=$(CDPATH= cd -- "$here/../.." && pwd)
crate=$(CDPATH= cd -- "$1" && pwd)
mkdir -p "$2"
work=$(CDPATH= cd -- "$2" && pwd)
shift 2
parts=${PARTS:-build counts memory times}
kit=${KIT:-$(dirname -- "$(rt doc)")}
bytes=${BYTES:-262144}
rounds=${ROUNDS:-15}
seeds=${SEEDS:-5}
units=${UNITS:-bytes chars}
searches="find overlapping no_suffix longest first tokens find_source overlapping_source no_suffix_source find_stepper overlapping_stepper"
rows="rows_find rows_overlapping rows_no_suffix rows_longest rows_first rows_find_source rows_overlapping_source rows_no_suffix_source rows_find_stepper rows_overlapping_stepper"
others="list depths write read_unchecked read accelerate"

# The static library, over a copy of the repository's crates, and the driver, linked SEEDS times,
# each with its sections in another order.
build_links() {
    mkdir -p "$work/driver"
    # It calls a function of C that marks where each build and each round begins and ends.
    RT_ALLOW_C=bench_c "$top/tools/gate/build_beside.sh" "$here/bench_c" "$work/rattle"
    cp -r "$here/driver/src" "$work/driver/"
    sed "s|@DAACHORSE@|$crate|" "$here/driver/Cargo.toml.in" > "$work/driver/Cargo.toml"
    seed=1
    while [ "$seed" -le "$seeds" ]; do
        (cd "$work/driver" && touch src/main.rs &&
            RUSTFLAGS="-C target-cpu=x86-64-v2" cargo rustc --quiet --offline --release -- \
            -C link-arg="$work/rattle/crates/bench_c/out/libbench_c.a" \
            -C link-arg="$kit/c/liblibc_c.a" \
            -C link-arg="-Wl,--shuffle-sections=*=$seed")
        cp "$work/driver/target/release/driver" "$work/driver-$seed"
        seed=$((seed + 1))
    done
}

# The instructions of one run of the driver.
instructions() {
    valgrind --tool=callgrind --callgrind-out-file=/dev/null "$work/driver-1" "$@" 2>&1 >/dev/null |
        sed -n 's/.*Collected : //p'
}

# The peak memory of one run of the driver, in bytes.
memory() {
    valgrind --tool=dhat --dhat-out-file=/dev/null "$work/driver-1" "$@" 2>&1 >/dev/null |
        sed -n 's/.*At t-gmax: *\([0-9,]*\) bytes.*/\1/p' | tr -d ,
}

# memory_all UNIT WORDS: the peak memory of a build of either side, without the words.
memory_all() {
    printf 'what\tours most bytes\ttheirs\tratio\n'
    for mode in ${BUILDS-find longest first}; do
        words=$(memory builds "$1" "$mode" "$2" 0 0)
        ours=$(($(memory builds "$1" "$mode" "$2" 1 0) - words))
        theirs=$(($(memory builds "$1" "$mode" "$2" 0 1) - words))
        awk -v n="build for $mode" -v o="$ours" -v t="$theirs" \
            'BEGIN { printf "%s\t%d\t%d\t%.3f\n", n, o, t, o / t }'
    done
}

# count NAME SIZE HEAD..: the instructions of a round or build of either side, divided by SIZE.
count() {
    name=$1 size=$2
    shift 2
    ours=$(($(instructions "$@" 2 0) - $(instructions "$@" 1 0)))
    theirs=$(($(instructions "$@" 0 2) - $(instructions "$@" 0 1)))
    awk -v n="$name" -v o="$ours" -v t="$theirs" -v u="$size" \
        'BEGIN { printf "%s\t%.2f\t%.2f\t%.3f\n", n, o / u, t / u, o / t }'
}

# count_all UNIT WORDS TEXT
count_all() {
    part=$(wc -c < "$3")
    [ "$part" -lt "$bytes" ] || part=$bytes
    printf 'what\tours instructions a byte\ttheirs\tratio\n'
    for mode in ${MODES-$searches $rows $others}; do
        case "$1 $mode" in "bytes tokens") continue ;; esac
        case " $others " in *" $mode "*) size=$(wc -c < "$2") ;; *) size=$part ;; esac
        count "$mode" "$size" rounds "$1" "$mode" "$2" "$3" "$bytes"
    done
    for mode in ${BUILDS-find longest first}; do
        count "build for $mode" "$(wc -c < "$2")" builds "$1" "$mode" "$2"
    done
}

# time_links UNIT WORDS TEXT: the lines of all links, the median of each column, and the ratios
# balanced over where functions begin.
time_links() {
    seed=1
    while [ "$seed" -le "$seeds" ]; do
        echo "link $seed"
        "$work/driver-$seed" time "$1" "$2" "$3" "$rounds" "${MODES-$searches $rows $others}" \
            "${BUILDS-find longest first}"
        seed=$((seed + 1))
    done | tee "$work/times"
    echo "middle of the links"
    awk -F '\t' '
        $2 !~ /^[0-9]/ { next }
        !($1 in n) { names[++total] = $1 }
        { n[$1]++; for (c = 2; c <= NF; c++) value[$1, c, n[$1]] = $c; columns = NF }
        function middle(name, c,    i, j, t, a) {
            for (i = 1; i <= n[name]; i++) {
                t = value[name, c, i] + 0
                for (j = i - 1; j > 0 && a[j] > t; j--) a[j + 1] = a[j]
                a[j + 1] = t
            }
            return a[int((n[name] + 1) / 2)]
        }
        END {
            for (k = 1; k <= total; k++) {
                line = names[k]
                for (c = 2; c <= columns; c++) line = line "\t" middle(names[k], c)
                print line
            }
        }' "$work/times"
    python3 "$here/balanced.py" "$work" "$1"
}

case " $parts " in *" build "*) build_links ;; esac
while [ $# -ge 2 ]; do
    for unit in $units; do
        echo "# $(basename "$1") in $(basename "$2"), $unit"
        case " $parts " in *" counts "*) count_all "$unit" "$1" "$2" ;; esac
        case " $parts " in *" memory "*) memory_all "$unit" "$1" ;; esac
        case " $parts " in *" times "*) time_links "$unit" "$1" "$2" ;; esac
    done
    shift 2
done
