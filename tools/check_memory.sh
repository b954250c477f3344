#!/usr/bin/env bash
# Runs programs on their stored input under valgrind, beside the gate: tools/check_memory.sh [NAME..]
# NAME is a crate with a `main` whose executable is built (`rt run` in its folder); without a name it is the crates of `usual`.
# Each run has to write what is stored and end with the stored status, with 0 errors, and with 0 bytes in use at its end, so
# that none are lost; and valgrind has to see it allocate. A line is printed for each; the status is 1 where one is otherwise.
# PROGRAMS names a folder that has other executables, by the crates' names.
set -uo pipefail
top=$(cd "$(dirname "$(readlink -f "$0")")/.." && pwd)
usual=(collate tests_collation_rows tests_refused_memory examples_address_book)
[ $# != 0 ] || set -- "${usual[@]}"
command -v valgrind >/dev/null || { echo "check_memory.sh: no valgrind: apt-get install valgrind" >&2; exit 1; }
status=0
work=$(mktemp -d)
trap 'rm -rf "$work"' EXIT

# A stored file of a crate, or none.
stored() {
    if [ -e "$1/$2" ]; then cat "$1/$2"; fi
}

# What is wrong with the run of a crate; nothing where it is as it has to be.
faults_of() {
    local folder=$top/crates/$1 program=${PROGRAMS:-$top/crates/$1/out}/$1 given wanted words=()
    [ -x "$program" ] || { echo "no executable $program"; return; }
    program=$(readlink -f "$program")
    rm -rf "$work/run" && mkdir "$work/run"
    if [ -d "$folder/data" ]; then cp -r "$folder/data/." "$work/run"; fi
    if [ -e "$folder/args" ]; then mapfile -t words <"$folder/args"; fi
    wanted=$(stored "$folder" status)
    stored "$folder" stdin >"$work/stdin"
    (cd "$work/run" && valgrind --leak-check=full --show-leak-kinds=all --errors-for-leak-kinds=all --log-file="$work/log" \
        "$program" "${words[@]}" <"$work/stdin" >"$work/stdout" 2>"$work/stderr")
    given=$?
    [ "$given" = "${wanted:-0}" ] || echo "status $given"
    stored "$folder" stdout | cmp - "$work/stdout" || echo 'other output'
    grep -q 'in use at exit: 0 bytes in 0 blocks' "$work/log" || grep 'in use at exit' "$work/log" || echo 'no summary'
    ! grep -q 'total heap usage: 0 allocs' "$work/log" || echo 'no allocation is seen'
    grep -q 'ERROR SUMMARY: 0 errors' "$work/log" || grep -A 12 '^==[0-9]*== [A-Z][a-z].*' "$work/log" | tail -n 20
}

for name; do
    faults=$(faults_of "$name" 2>&1)
    if [ -z "$faults" ]; then
        echo "$name: $(grep -o 'total heap usage: [0-9,]* allocs' "$work/log"), 0 errors, 0 bytes lost"
    else
        printf '%s: %s\n' "$name" "$faults"
        status=1
    fi
done
exit "$status"
