# PostgreSQL servers of one's own, for examples/postgresql.sh and examples/two_servers.sh, which set `work` to a folder that
# is removed at the end. A server asks for no password, so its folder and its socket have the mode 0700 and it listens
# nowhere else: none but the user who it runs as, and root, can reach it. Where this runs as root that is the user postgres,
# or nobody. Names and keys go to a server as hexadecimal digits alone.
bin=$(printf '%s\n' /usr/lib/postgresql/*/bin | sort -V | tail -n 1)
[ -x "$bin/initdb" ] || { echo "${0##*/}: no PostgreSQL below /usr/lib/postgresql: apt-get install postgresql" >&2; exit 1; }

# A server refuses to run as root.
as_user=()
if [ "$(id -u)" = 0 ]; then
    user=postgres
    id "$user" >/dev/null 2>&1 || user=nobody
    as_user=(setpriv --reuid="$user" --regid="$(id -g "$user")" --clear-groups env HOME="$work")
    chmod 711 "$work"
fi

# Runs SQL of standard input on the server in the folder $1; its rows, a line each with TABs between columns, go to
# standard output. Words of psql stand behind.
sql_in() {
    "$bin/psql" --host="$1" --username=book --dbname=postgres --no-psqlrc --quiet --tuples-only --no-align \
        --field-separator=$'\t' --set=ON_ERROR_STOP=1 "${@:2}"
}

# Starts a server in the new folder $1.
start_server() {
    mkdir -m 700 "$1"
    [ ${#as_user[@]} = 0 ] || chown "$user" "$1"
    (
        cd "$1" || exit 1
        "${as_user[@]}" "$bin/initdb" --pgdata=data --username=book --auth=trust --encoding=UTF8 --locale=C --no-sync \
            >"$work/log"
        "${as_user[@]}" "$bin/pg_ctl" --pgdata=data --wait --log=server.log \
            --options="-k '$1' -c unix_socket_permissions=0700 -c listen_addresses= -c fsync=off" start >/dev/null
    )
}

stop_server() {
    (cd "$1" && "${as_user[@]}" "$bin/pg_ctl" --pgdata=data --mode=immediate stop) >"$work/log" 2>&1 || true
}

# The lines of standard input in hexadecimal digits.
digits() {
    perl -ne 'chomp; print unpack("H*", $_), "\n"'
}

# Lines of such digits, as COPY reads bytes.
as_bytes() {
    sed 's/^/\\\\x/'
}
