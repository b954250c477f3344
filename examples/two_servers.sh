#!/usr/bin/env bash
# Names in the order of a language on two PostgreSQL servers: examples/two_servers.sh [--language TAG] [NAMES]
# TAG is that of a language (sv), NAMES a file of names, a line each (a million that are made up). Each half of them gets its
# keys by itself, as on a machine of its own, and goes to a server of its own; on the first a table has both, the other one's
# part as a foreign table, and puts them in order by the bytes of the keys. That order is compared with the one of
# sort_names; the status is 1 where it differs.
set -euo pipefail
top=$(cd "$(dirname "$(readlink -f "$0")")/.." && pwd)
export LC_ALL=C
language=sv
if [ "${1:-}" = --language ]; then
    language=${2:?two_servers.sh [--language TAG] [NAMES]}
    shift 2
fi
work=$(mktemp -d)
trap 'stop_server "$work/one"; stop_server "$work/two"; rm -rf "$work"' EXIT
. "$top/examples/servers.bash"

# A million names of several scripts: half a million twice, spelled in another way the second time if they have an accent.
made_up() {
    local half
    # the marks are U+030A, 0308, 0301 and 0306
    for half in 'Åke Ärla Öst Zoë Ωμέγα Юрий Ada ada Ädel é 東 יוסי' \
        $'A\xCC\x8Ake A\xCC\x88rla O\xCC\x88st Zoe\xCC\x88 Ωμε\xCC\x81γα Юрии\xCC\x86 Ada ada A\xCC\x88del e\xCC\x81 東 יוסי'; do
        seq 500000 | awk -v names="$half" '
            BEGIN { count = split(names, first, " ") }
            { print first[$1 % count + 1] " " $1 * 7919 % 500009 }'
    done
}
if [ $# != 0 ]; then cat -- "$1"; else made_up; fi >"$work/names"
split --number=l/2 --numeric-suffixes=1 --suffix-length=1 "$work/names" "$work/part."

# The names of a part behind their keys, in its server.
fill() {
    start_server "$work/$1"
    sql_in "$work/$1" --command='CREATE TABLE part (id bigint GENERATED ALWAYS AS IDENTITY, name bytea, sort_key bytea)'
    "$top/sort_names" --keys --language "$language" <"$work/part.$2" |
        perl -ne 'chomp; my ($key, $name) = split /\t/, $_, 2; print "\\\\x", unpack("H*", $name), "\t\\\\x$key\n"' |
        sql_in "$work/$1" --command='COPY part (name, sort_key) FROM STDIN'
    sql_in "$work/$1" --command='CREATE INDEX part_by_sort_key ON part (sort_key, id); ANALYZE part'
}
fill one 1
fill two 2

sql_in "$work/one" <<SQL
CREATE EXTENSION postgres_fdw;
CREATE SERVER two FOREIGN DATA WRAPPER postgres_fdw OPTIONS (host '$work/two', dbname 'postgres', fetch_size '10000');
CREATE USER MAPPING FOR book SERVER two OPTIONS (user 'book', password_required 'false');
CREATE TABLE person (machine int, id bigint, name bytea, sort_key bytea) PARTITION BY LIST (machine);
CREATE TABLE person_one PARTITION OF person FOR VALUES IN (1);
INSERT INTO person_one SELECT 1, id, name, sort_key FROM part;
CREATE INDEX person_one_by_sort_key ON person_one (sort_key, machine, id);
CREATE FOREIGN TABLE person_two PARTITION OF person FOR VALUES IN (2) SERVER two OPTIONS (table_name 'part_two');
SQL
sql_in "$work/two" --command='CREATE VIEW part_two AS SELECT 2 AS machine, id, name, sort_key FROM part'

sql_in "$work/one" --command="COPY (SELECT encode(name, 'hex') FROM person ORDER BY sort_key, machine, id) TO STDOUT" |
    perl -ne 'chomp; print pack("H*", $_), "\n"' >"$work/given"
"$top/sort_names" --language "$language" <"$work/names" >"$work/wanted"
cmp "$work/given" "$work/wanted" || { echo "two_servers.sh: another order than that of sort_names" >&2; exit 1; }
echo "$(wc -l <"$work/given") names on two servers: in the order of sort_names"
