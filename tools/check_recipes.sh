#!/usr/bin/env bash
# Runs the recipes of docs/DATABASES.md, examples/postgresql.sh and examples/two_servers.sh over names that are made to
# break out of them, beside the gate: quotes, NULs, damaged bytes, SQL, commands of the engines' shells and of this one,
# an empty name, a very long one.
#     tools/check_recipes.sh
# What SQLite and PostgreSQL give back has to be what sort_names and collate answer, byte by byte; no other file may be
# there, nor any other table; and where this runs as root another user must not reach the server. Then a million names go
# into SQLite, within a minute on a quiet machine. A line each is printed of what is otherwise, and the status is 1 then.
# COLLATE names another executable than ./collate, for PostgreSQL, RECIPES another page, POSTGRESQL and TWO_SERVERS other
# scripts, RECIPES_NAMES another number of names, RECIPES_SECONDS how long they may take.
set -uo pipefail
export LC_ALL=C
top=$(cd "$(dirname "$(readlink -f "$0")")/.." && pwd)
page=$(readlink -f "${RECIPES:-$top/docs/DATABASES.md}")
script=$(readlink -f "${POSTGRESQL:-$top/examples/postgresql.sh}")
two_servers=$(readlink -f "${TWO_SERVERS:-$top/examples/two_servers.sh}")
words=(--language fr)
if [ -n "${COLLATE:-}" ]; then
    export COLLATE=$(readlink -f "$COLLATE")
    words=("$top/examples/latin.records") # an executable by itself knows no languages
fi
status=0
work=$(mktemp -d)
trap 'rm -rf "$work"' EXIT
chmod 711 "$work"

complain() {
    echo "check_recipes.sh: $*"
    status=1
}

# The names, a line each, no two of them the same; a line feed alone can't stand in one.
hostile_names() {
    printf '%s\n' '' ' ' "O'Brien" "'" "''" '"' '`' '\' '\\' '\n' '\x41' '\N' '\.' '%s' '&' ';' '-- a' '/* a' "X'41'" \
        "'); DROP TABLE person; --" "\"); DROP TABLE person; --" "x', X'00'); DROP TABLE person; --" \
        '.shell touch escaped' '.output escaped' '.quit' "ATTACH DATABASE 'escaped' AS p; CREATE TABLE p.q (r);" \
        '\! touch escaped' '\o escaped' "COPY person TO PROGRAM 'touch escaped';" '$(touch escaped)' '`touch escaped`'
    printf 'a\0b\n'
    printf "x\\0'); DROP TABLE person; --\n"
    printf "x\\0\n"
    printf ".output escaped\\0\nDROP TABLE person;\\0\n"
    printf 'tab\tstop\n\tfirst\ncarriage\rreturn\n\033[2J\n\177\n'
    printf 'Zo\303\251\nZoe\314\201\n\377\n\303\n\303(\nZo\303\n\360\237\230\n\355\240\200\nZ\300\257\n\302\233\n'
}

# The lines of the recipe, as the page has them.
recipe() {
    sed -n '/^    /!{/./d}; s/^    //p' "$page" | sed -n '/^set -o pipefail\|^sqlite3 names.db .CREATE/,/SELECT/p'
}

# Runs the recipe in a folder of its own, over the names of a file.
run_recipe() {
    rm -rf "$work/run" && mkdir "$work/run" && cd "$work/run" || exit 1
    ln -s "$top/examples" "$top/sort_names" "$top/collate" .
    cp "$1" names
    timeout "$limit" bash "$work/recipe" >"$work/given" 2>"$work/told"
}

check_sqlite() {
    local files
    run_recipe "$work/names" || complain "SQLite: the recipe ended with $?: $(head -c 500 "$work/told")"
    "$top/sort_names" --language fr <"$work/names" >"$work/wanted" || complain 'sort_names failed'
    cmp "$work/wanted" "$work/given" || complain 'SQLite: other names, or another order'
    files=$(find "$work/run" -mindepth 1 -printf '%f\n' | sort | tr '\n' ' ')
    [ "$files" = 'collate examples names names.db sort_names ' ] || complain "SQLite: files are there: $files"
    files=$(sqlite3 "$work/run/names.db" "SELECT group_concat(name, ' ') FROM sqlite_schema")
    [ "$files" = 'person person_by_sort_key' ] || complain "SQLite: in the database there are: $files"
}

# Tries to reach the server in the folder of a socket, as another user, and looks at the modes of both.
try_server() {
    local folder=${1%/*} modes
    modes=$(stat -c '%a' "$folder" "$1" | tr '\n' ' ')
    [ "$modes" = '700 700 ' ] || complain "PostgreSQL: folder and socket have the modes $modes"
    [ "$(id -u)" = 0 ] || return 0
    if setpriv --reuid=54321 --regid=54321 --clear-groups \
        psql --host="$folder" --username=book --dbname=postgres --no-psqlrc --command='SELECT 1' >"$work/told" 2>&1; then
        complain 'PostgreSQL: another user reaches the server'
    fi
}

check_postgresql() {
    local child socket=''
    mkdir -m 711 "$work/tmp" "$work/here"
    cd "$work/here" || exit 1
    TMPDIR=$work/tmp "$script" "${words[@]}" "$work/names" >"$work/given" 2>&1 &
    child=$!
    while kill -0 "$child" 2>/dev/null; do
        if [ -z "$socket" ] && socket=$(compgen -G "$work/tmp/*/server/.s.PGSQL.[0-9]*[0-9]"); then
            try_server "$socket"
        fi
        sleep 0.05
    done
    wait "$child" || complain "PostgreSQL: the script ended with $?: $(tail -c 500 "$work/given")"
    [ -n "$socket" ] || complain 'PostgreSQL: no socket was seen'
    [ "$(grep -c ': as collate answers$' "$work/given")" = 3 ] || complain 'PostgreSQL: not all was compared'
    [ -z "$(find "$work/here" -mindepth 1)" ] || complain 'PostgreSQL: files are there'
}

# Half of the names is kept by each of two servers.
check_two_servers() {
    cd "$work/here" || exit 1
    TMPDIR=$work/tmp "$two_servers" --language fr "$work/names" >"$work/given" 2>&1 || complain "two servers: it ended with $?"
    [ "$(cat "$work/given")" = "$(wc -l <"$work/names") names on two servers: in the order of sort_names" ] ||
        complain "two servers: $(tail -c 500 "$work/given")"
    [ -z "$(find "$work/here" -mindepth 1)" ] || complain 'two servers: files are there'
}

# A great many names go into SQLite.
check_many() {
    local count=${RECIPES_NAMES:-1000000} began=$SECONDS
    limit=$((10 * ${RECIPES_SECONDS:-60}))
    seq "$count" | sed 's/\(.*\)\(.\)$/Z\2o\1 \2/' >"$work/many"
    run_recipe "$work/many" || complain "SQLite: $count names: the recipe ended with $?: $(head -c 500 "$work/told")"
    [ "$(wc -l <"$work/given")" = "$count" ] || complain "SQLite: other than $count names"
    echo "SQLite: $count names in $((SECONDS - began)) s"
    [ $((SECONDS - began)) -le "${RECIPES_SECONDS:-60}" ] || complain 'SQLite: that is too long'
}

limit=600
hostile_names >"$work/names"
[ "$(sort -u "$work/names" | wc -l)" = "$(wc -l <"$work/names")" ] || complain 'two names are the same'
recipe >"$work/recipe"
[ "$(grep -c sqlite3 "$work/recipe")" -ge 3 ] || complain "no recipe in $page"
"${COLLATE:-$top/collate}" "${words[@]}" </dev/null || complain 'collate failed'
check_sqlite
check_postgresql
check_two_servers
check_many
[ "$status" != 0 ] || echo "SQLite and PostgreSQL: $(wc -l <"$work/names") hostile names came back as they were"
exit "$status"
