#!/usr/bin/env bash
# Times the program on made inputs and prints a line a measurement: bench/run.sh [ADDS [BAD]].
set -eu
cd "$(dirname "$(readlink -f "${BASH_SOURCE[0]}")")/.."
adds=${1:-10000}
bad=${2:-100000}
records=examples/latin.records
work=$(mktemp -d)
trap 'rm -rf "$work"' EXIT

python3 bench/names.py adds "$adds" >"$work/adds"
python3 bench/names.py bad "$bad" >"$work/bad"
python3 bench/names.py marks 32000 >"$work/marks"
./collate "$records" </dev/null # builds it where it has to, outside the times

# Runs the program on the input $1 and prints its time under the heading $2; the replies must be $3 lines.
measure() {
    local began ended replies
    began=$(date +%s%N)
    ./collate "$records" <"$work/$1" >"$work/replies"
    ended=$(date +%s%N)
    replies=$(wc -l <"$work/replies")
    [ "$replies" -eq "$3" ] || { echo "bench: $replies replies in place of $3" >&2; exit 1; }
    printf '%-45s %8d ms\n' "$2" $(((ended - began) / 1000000))
}

measure adds "$adds adds of names of 20 characters" "$adds"
measure bad "$bad lines that are no command" "$bad"
measure marks "one add of a name of 32,000 marks" 1
