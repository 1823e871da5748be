#!/bin/sh
# pieces.sh DAACINDEX PATTERNS HAYSTACK BYTES [JOBS]
#
# Writes what `daacfind overlapping PATTERNS HAYSTACK` writes, in parallel: the haystack is cut into
# pieces of BYTES bytes, and JOBS of them, by default one for each processor, are searched at once,
# by GNU parallel if it is installed, else by xargs. The program `daacindex` writes the automaton of
# the patterns once, and searches each piece with it. A piece is searched together with as many
# bytes before it as the longest pattern has, less one, and keeps the matches that end in it.
set -eu
export LC_ALL=C

# The length of the longest line in bytes, which may be any.
longest_line() {
    od -An -v -t u1 "$1" | tr -s ' ' '\n' |
        awk '$1 == "10" { n = 0; next } NF { n++; if (n > most) most = n } END { printf "%d\n", most }'
}

# Searches piece number $1, and writes its lines to a file of that number.
search_piece() {
    at=$(($1 * PIECES_BYTES))
    start=$((at - PIECES_CARRIED))
    [ "$start" -ge 0 ] || start=0
    piece="$PIECES_WORK/piece.$1"
    tail -c "+$((start + 1))" "$PIECES_HAYSTACK" | head -c "$((at - start + PIECES_BYTES))" > "$piece"
    "$PIECES_DAACINDEX" search overlapping "$PIECES_WORK/automaton" "$piece" > "$piece.found"
    # The first piece keeps all its matches, even an empty one at offset 0.
    awk -v start="$start" -v carried="$((at - start))" -v first="$1" \
        'first == 0 || $2 > carried { printf "%.0f %.0f %s\n", $1 + start, $2 + start, $3 }' \
        "$piece.found" > "$PIECES_WORK/lines.$1"
    rm "$piece" "$piece.found"
}

if [ "$1" = --piece ]; then
    search_piece "$2"
    exit
fi

PIECES_DAACINDEX=$1 PIECES_PATTERNS=$2 PIECES_HAYSTACK=$3 PIECES_BYTES=$4
jobs=${5:-$(getconf _NPROCESSORS_ONLN)}
longest=$(longest_line "$PIECES_PATTERNS")
PIECES_CARRIED=$((longest > 0 ? longest - 1 : 0))
PIECES_WORK=$(mktemp -d)
trap 'rm -rf "$PIECES_WORK"' EXIT
export PIECES_DAACINDEX PIECES_HAYSTACK PIECES_BYTES PIECES_CARRIED PIECES_WORK
"$PIECES_DAACINDEX" write overlapping "$PIECES_PATTERNS" > "$PIECES_WORK/automaton"

size=$(wc -c < "$PIECES_HAYSTACK")
count=$(((size + PIECES_BYTES - 1) / PIECES_BYTES))
[ "$count" -gt 0 ] || count=1
numbers() { awk -v count="$count" 'BEGIN { for (i = 0; i < count; i++) printf "%d\n", i }'; }

if command -v parallel > /dev/null; then
    numbers | parallel -j "$jobs" sh "$0" --piece '{}'
else
    numbers | xargs -P "$jobs" -n 1 sh "$0" --piece
fi
numbers | while read -r number; do cat "$PIECES_WORK/lines.$number"; done
