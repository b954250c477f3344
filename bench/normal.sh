#!/usr/bin/env bash
# Times normal forms by the program of crates/speed beside ICU4C's, a line a measurement: bench/normal.sh [FILE:TASK..]
# The files: names, 5 MB of random names of 150 Latin letters and marks, one name a call; names16, the same in UTF-16;
# nfc, the names in NFC; ascii, 5 MB of ASCII in one call. The tasks are those of the program. With no word all are timed.
# SPEED names another executable than that of the crate, which is proved and built first where it has to be.
set -eu
cd "$(dirname "$(readlink -f "${BASH_SOURCE[0]}")")/.."
program=${SPEED:-crates/speed/out/speed}
work=$(mktemp -d)
trap 'rm -rf "$work"' EXIT

[ -n "${SPEED:-}" ] || (cd crates/speed && rt run -- collator >/dev/null 2>&1) || true # outside the times
g++ -O2 bench/icu4c.cpp -o "$work/icu4c" -licui18n -licuuc
python3 bench/names.py records >"$work/records"
python3 bench/names.py texts 5000000 >"$work/names"
python3 bench/names.py ascii 5000000 >"$work/ascii"
iconv -f UTF-8 -t UTF-16LE "$work/names" >"$work/names16"
"$program" normal "$work/records" "$work/names" show_nfc 1 | head -n -1 >"$work/nfc"

if [ $# -eq 0 ]; then
    for form in nfc nfkc nfd nfkd; do
        set -- "$@" names:"$form" names:"$form"_utf8 names16:"$form"_utf16 names:is_"$form" names:is_"$form"_utf8
        set -- "$@" names16:is_"$form"_utf16 nfc:"$form" nfc:is_"$form" ascii:"$form" ascii:is_"$form"
    done
    set -- "$@" names:try_new names:try_new_k
fi
python3 bench/turns.py "$program" "$work/icu4c" "$work" "$@"
