#!/usr/bin/env bash
# Names with their sort keys in PostgreSQL, in `bytea` columns with a btree:
#     examples/postgresql.sh [--language TAG | RECORDS] [NAMES]
# TAG is that of a language (fr), RECORDS a records file, NAMES a file of names, a line each, no two of them the same (those
# that examples/latin.commands adds). A name is any bytes; names and keys go to the server as hexadecimal digits alone.
# Debian's package is `postgresql`. The server is one of its own (examples/servers.bash), in a temporary folder that is
# removed at the end. The order of the table, a range of it and what is found by letters alone are compared with the answers
# of `collate`; the status is 1 where one differs. COLLATE names another executable than ./collate, for RECORDS.
set -euo pipefail
top=$(cd "$(dirname "$(readlink -f "$0")")/.." && pwd)
collate=${COLLATE:-$top/collate}
records=(--language fr) order=(--language fr) names=''
export LC_ALL=C
case ${1:-} in
--language)
    records=(--language "${2:?postgresql.sh [--language TAG | RECORDS] [NAMES]}") order=("${records[@]}") names=${3:-}
    ;;
?*) records=("$(readlink -f "$1")") order=(--records "${records[@]}") names=${2:-} ;;
esac

work=$(mktemp -d)
trap 'stop_server "$work/server"; rm -rf "$work"' EXIT
. "$top/examples/servers.bash"

sql() {
    sql_in "$work/server" "$@"
}

# The sort keys of the names of standard input, in hexadecimal digits; the options of `collate` are given.
keys() {
    sed 's/^/key /' | "$collate" "${records[@]}" "$@"
}

# The names that `collate` answers to the command in a file behind its additions, in hexadecimal digits; the options of
# `collate` are given.
answer() {
    { sed 's/^/add /' "$work/names"; cat "$work/command"; } | "$collate" "${records[@]}" "$@" |
        tail -n +$(($(wc -l <"$work/names") + 2)) | digits
}

# Compares standard input with what `collate` answers; $1 says what it is.
check() {
    local title=$1
    shift
    diff - <(answer "$@") || { echo "postgresql.sh: $title differs" >&2; exit 1; }
    echo "$title: as collate answers"
}

[ -z "$names" ] || cat -- "$names" >"$work/names"
[ -n "$names" ] || sed -n 's/^add //p' "$top/examples/latin.commands" | awk '!seen[$0]++' >"$work/names"
"$collate" "${records[@]}" </dev/null # built where it has to be
start_server "$work/server"

sql <<'SQL'
CREATE TABLE person (id bigint GENERATED ALWAYS AS IDENTITY, name bytea NOT NULL, sort_key bytea NOT NULL, letters bytea NOT NULL);
SQL
paste <(digits <"$work/names" | as_bytes) <(keys <"$work/names" | as_bytes) <(keys strength=primary <"$work/names" | as_bytes) |
    sql --command='COPY person (name, sort_key, letters) FROM STDIN'
sql <<'SQL'
CREATE INDEX person_by_sort_key ON person (sort_key, id);
CREATE INDEX person_by_letters ON person (letters);
ANALYZE person;
SQL

echo list >"$work/command"
sql --command="SELECT encode(name, 'hex') FROM person ORDER BY sort_key, id" | check 'the order'

# a range between two of the names: a third and two thirds down, of those without TAB, which `between` splits at
grep --text --invert-match $'\t' "$work/names" >"$work/plain"
count=$(wc -l <"$work/plain")
sed -n "$((count / 3 + 1))p; $((count * 2 / 3 + 1))p" "$work/plain" | "$top/sort_names" --keys "${order[@]}" >"$work/ends"
mapfile -t ends < <(cut -f 1 "$work/ends")
{ printf 'between ' && cut -f 2- "$work/ends" | paste -s; } >"$work/command"
range="SELECT encode(name, 'hex') FROM person WHERE sort_key BETWEEN '\\x${ends[0]}' AND '\\x${ends[1]}' ORDER BY sort_key, id"
sql --command="$range" | check 'a range'
sql --command='SET enable_seqscan = off; SET enable_sort = off' --command="EXPLAIN $range" | grep -o 'Index.* Scan using [a-z_]*'

cut -f 2- "$work/ends" | sed -n '1s/^/find /p' >"$work/command"
wanted=$(cut -f 2- "$work/ends" | head -n 1 | keys strength=primary)
sql --command="SELECT encode(name, 'hex') FROM person WHERE letters = '\\x$wanted' ORDER BY id" |
    check 'a name by its letters' strength=primary
