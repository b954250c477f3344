#!/usr/bin/env bash
# Times sets of code points, code point tries and unit tries by the program of crates/speed,
# and prints a line a measurement: bench/libraries.sh.
set -eu
cd "$(dirname "$(readlink -f "${BASH_SOURCE[0]}")")/../crates/speed"
rt run >/dev/null 2>&1 || true # proves and builds it, outside the times

# Prints the time of a task, given by its words, under the heading $1.
measure() {
    local heading=$1 began ended
    shift
    began=$(date +%s%N)
    out/speed collections "$@" >/dev/null
    ended=$(date +%s%N)
    printf '%-50s %8d ms\n' "$heading" $(((ended - began) / 1000000))
}

measure "10,000 ranges added in rising order" add_rising
measure "10,000 ranges added in random order" add_random
measure "10,000,000 times contains32, of 10,000 ranges" contains
measure "a trie of 12,000 different small blocks built" build
measure "the same and 111,411,200 reads, type Fast" fast
measure "the same and 111,411,200 reads, type Small" small
measure "the same by a typed trie, type Fast" typed_fast
measure "the same by a typed trie, type Small" typed_small
measure "12,000 blocks that differ in their last cell" last
measure "two blocks that alternate, 12,000 times" two
measure "100 maps of one written range made and built" range 100
measure "111,411,200 reads at random up to FFFF" low
measure "111,411,200 reads at random" random
measure "1,000 walks over the ranges of a map of one" ranges 1000
measure "10,000 keys made, written and followed" units 10000 1
measure "the same, and 100 times more written and followed" units 10000 101
