#!/usr/bin/env bash
# The lines of crates.txt for these crates and for all of this repository that they stand on, lowest first:
#     tools/below.sh NAME..
set -eu
cd "$(dirname "$(readlink -f "${BASH_SOURCE[0]}")")/.."
exec awk -F : -v wanted="$*" '
    function visit(name,    used, count, place) {
        if (!(name in uses) || name in seen) return
        seen[name]
        count = split(uses[name], used, " ")
        for (place = 1; place <= count; place++) visit(used[place])
        print line[name]
    }
    /^[^#]/ { name = $1; sub(/ .*/, "", name); uses[name] = $2; line[name] = $0 }
    END {
        count = split(wanted, names, " ")
        for (place = 1; place <= count; place++) {
            if (!(names[place] in uses)) { print "below.sh: no crate " names[place] > "/dev/stderr"; exit 1 }
            visit(names[place])
        }
    }' crates.txt
