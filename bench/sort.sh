#!/usr/bin/env bash
# Times sorting a file of names on one processor: bench/sort.sh [NAMES]
# There are 200,000 random names unless NAMES says otherwise, of 5 to 30 letters and marks, and the records of
# bench/collator.py. Printed are seconds by the clock, and those of a processor, starts included, the least of three rounds
# in turn, of what is there of
#   sort_names     the program, over the records (SORT_NAMES, or what ./sort_names runs, which is built first)
#   ICU4C          the same commands over keys that ICU4C makes in its root order (bench/keys.cpp; g++, libicu-dev)
#   glibc          `sort` under en_US.UTF-8, which is made here (Debian's package `locales`)
#   PostgreSQL     an index by ICU's root order over a table of the names, the one statement (`postgresql`)
#   PyICU, node, ICU4J, JDK, Perl    bench/sorts (`python3-icu`; `nodejs`; `libicu4j-java`; a JDK; `perl`)
#   bytes          `sort` by bytes
# Then what the program alone takes, the least of five rounds: ten names, 100,000 in order, a million, and five million in
# at most 500 MB (`-S 500M`), with the most memory that it held. ICU4J names another jar.
set -euo pipefail
cd "$(dirname "$(readlink -f "$0")")/.."
count=${1:-200000}
work=$(mktemp -d)
trap 'stop_server; rm -rf "$work"' EXIT
export SORT_NAMES=${SORT_NAMES:-$PWD/crates/sort_names/out/sort_names} TMPDIR=$work LOCPATH=$work TIMEFORMAT='%R %U %S' ICU4J=${ICU4J:-/usr/share/java/icu4j.jar}
postgres=$(printf '%s\n' /usr/lib/postgresql/*/bin | sort -V | tail -n 1)

PYTHONPATH=bench python3 - "$count" "$work" <<'PY'
import sys
from sets import latin as names, latin_records as records
for name, lines in (('records', records()), ('names', names(int(sys.argv[1])))):
    with open(f'{sys.argv[2]}/{name}', 'w', encoding='utf-8') as file:
        file.writelines(line + '\n' for line in lines)
PY

# Each way: what it asks for, made outside the times (`has_`), and its sorting.
has_sort_names() { [ -x "$SORT_NAMES" ] || ./sort_names --records "$work/records" </dev/null; }
by_sort_names() { "$SORT_NAMES" --records "$work/records"; }
has_ICU4C() { g++ -O2 bench/keys.cpp -o "$work/keys" -licui18n -licuuc; }
by_ICU4C() {
    "$work/keys" | paste - "$work/names" |
        LC_ALL=C sort --stable --field-separator=$'\t' --key=1,1 --buffer-size=400M | LC_ALL=C cut -f 2-
}
has_glibc() {
    localedef --inputfile=en_US --charmap=UTF-8 "$work/en_US.UTF-8" 2>/dev/null || [ -d "$work/en_US.UTF-8" ] # it warns
}
by_glibc() { LC_ALL=en_US.UTF-8 sort; }
has_PyICU() { /usr/bin/python3 -c 'import icu' 2>/dev/null; }
by_PyICU() { /usr/bin/python3 bench/sorts/pyicu_keys.py; }
has_node() { command -v node >/dev/null; }
by_node() { node bench/sorts/sort.js; }
has_ICU4J() { command -v javac >/dev/null && [ -e "$ICU4J" ] && javac -cp "$ICU4J" -d "$work/icu4j" bench/sorts/Sort.java; }
by_ICU4J() { java -cp "$ICU4J:$work/icu4j" Sort; }
has_JDK() {
    sed 's/com\.ibm\.icu\.text/java.text/' bench/sorts/Sort.java >"$work/Sort.java"
    command -v javac >/dev/null && javac -d "$work/jdk" "$work/Sort.java"
}
by_JDK() { java -cp "$work/jdk" Sort; }
has_Perl() { perl -MUnicode::Collate -e 1 2>/dev/null; }
by_Perl() { perl bench/sorts/sort.pl; }
has_bytes() { :; }
by_bytes() { LC_ALL=C sort; }

# The commands behind, as a user who may run a server.
as_server() {
    if [ "$(id -u)" = 0 ]; then setpriv --reuid=postgres --regid=postgres --clear-groups "$@"; else "$@"; fi
}
sql() { "$postgres/psql" --host="$work/server" --username=book --dbname=postgres --no-psqlrc --quiet --tuples-only --no-align; }
has_PostgreSQL() {
    [ -x "$postgres/initdb" ] || return 1
    install -d -m 700 "$work/server"
    chmod 711 "$work"
    [ "$(id -u)" != 0 ] || chown postgres "$work/server"
    as_server "$postgres/initdb" --pgdata="$work/server/data" --username=book --auth=trust --encoding=UTF8 --locale=C --no-sync
    as_server "$postgres/pg_ctl" --pgdata="$work/server/data" --wait --log="$work/server/log" --options="-k $work/server \
        -c listen_addresses= -c fsync=off -c max_parallel_maintenance_workers=0 -c maintenance_work_mem=400MB" start
    { echo 'create table names (name text); copy names from stdin;'; cat "$work/names"; echo '\.'; } | sql
} >"$work/said" 2>&1
stop_server() {
    [ ! -d "$work/server/data" ] || as_server "$postgres/pg_ctl" --pgdata="$work/server/data" --mode=immediate stop >"$work/said"
}
# The seconds of the statement by the clock, and those of the server's process.
postgres_seconds() {
    sql <<'SQL'
select pg_backend_pid() as pid \gset
\setenv PID :pid
\! awk '{ print "before", ($14 + $15) / 100 }' "/proc/$PID/stat"
\timing on
create index sorted on names (name collate "und-x-icu");
\timing off
\! awk '{ print "after", ($14 + $15) / 100 }' "/proc/$PID/stat"
drop index sorted;
SQL
}

# Runs $1 on one processor and notes its times; it must write as many lines as there are names.
measure() {
    local seconds
    if [ "$1" = PostgreSQL ]; then
        postgres_seconds | awk '/^before/ { b = $2 } /^after/ { a = $2 } /^Time/ { t = $2 / 1000 }
            END { print "PostgreSQL", t, a - b }' >>"$work/times"
        return
    fi
    seconds=$({ time "by_$1" <"$work/names" >"$work/sorted"; } 2>&1)
    [ "$(wc -l <"$work/sorted")" = "$count" ] || { echo "bench: $1 lost lines: $seconds" >&2; exit 1; }
    awk -v name="$1" '{ print name, $1, $2 + $3 }' <<<"$seconds" >>"$work/times"
}

ways=()
for way in sort_names ICU4C glibc PostgreSQL PyICU node ICU4J JDK Perl bytes; do
    if "has_$way"; then ways+=("$way"); else echo "$way is not there"; fi
done
taskset --all-tasks --cpu-list --pid 0 $$ >/dev/null
for _round in 1 2 3; do
    for way in "${ways[@]}"; do measure "$way"; done
done
awk '{
    if (!($1 in wall)) order[++n] = $1
    if (!($1 in wall) || $2 < wall[$1]) wall[$1] = $2
    if (!($1 in own) || $3 < own[$1]) own[$1] = $3
} END { for (i = 1; i <= n; i++) printf "%-12s %6.2f s, %6.2f s of a processor\n", order[i], wall[order[i]], own[order[i]] }' "$work/times"

# The program alone: $1 says what it sorts, the file $2, by the words behind.
alone() {
    python3 - "$@" <<'PY'
import os, resource, subprocess, sys
title, file, *words = sys.argv[1:]
least = most = None
for _ in range(1 if os.path.getsize(file) > 50_000_000 else 5):
    before = resource.getrusage(resource.RUSAGE_CHILDREN)
    with open(file, 'rb') as names, open(file + '.sorted', 'wb') as out:
        subprocess.run(words, stdin=names, stdout=out, check=True)
    after = resource.getrusage(resource.RUSAGE_CHILDREN)
    spent = after.ru_utime + after.ru_stime - before.ru_utime - before.ru_stime
    least, most = min(spent, least or spent), after.ru_maxrss
print(f'{title:32} {least:7.3f} s of a processor, {most / 1024:5.0f} MiB at most')
PY
}

PYTHONPATH=bench python3 - "$work" <<'PY'
import sys
from sets import latin as names
made = names(5_000_000)
for name, lines in (('ten', made[:10]), ('million', made[:1_000_000]), ('five', made)):
    with open(f'{sys.argv[1]}/{name}', 'w', encoding='utf-8') as file:
        file.writelines(line + '\n' for line in lines)
PY
head -n 100000 "$work/million" | "$SORT_NAMES" --records "$work/records" >"$work/ordered"
alone 'ten names' "$work/ten" "$SORT_NAMES" --records "$work/records"
alone '100,000 names in order' "$work/ordered" "$SORT_NAMES" --records "$work/records"
alone '1,000,000 names' "$work/million" "$SORT_NAMES" --records "$work/records"
alone '5,000,000 names, -S 500M' "$work/five" "$SORT_NAMES" --records "$work/records" -S 500M
"$SORT_NAMES" --records "$work/records" <"$work/five" | cmp - "$work/five.sorted" || { echo "bench: parts in another order" >&2; exit 1; }
