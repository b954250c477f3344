#!/usr/bin/env bash
# Walks what a new user does, in a bare checkout, and looks at each message:
#     tools/check_first_minute.sh [--quick | --part PART] [EXECUTABLE [UNICODE [SORT_NAMES]]]
# EXECUTABLE stands for the proved program `collate`, UNICODE for `collate_unicode`, SORT_NAMES for that of its name; left
# out, they are those in out of their crates, proved or not. First there is no `rt` on the path, then a stand-in that proves nothing, and at the end,
# without --quick, the real one, which builds the unproved programs and those of README.md and docs/CALLING.md. PART is
# one of the functions walk_PART, in a checkout without proofs but for with_rt. A line for each thing that isn't as it
# should be; the status is 0 only where there is none, else 1, and 2 where it could not be walked. EDIT='FILE
# SED-COMMAND' changes the checkout first, as tools/wrong_first_minutes.sh does; the walk then ends with the first line.
set -u
here=$(cd "$(dirname "$(readlink -f "${BASH_SOURCE[0]}")")/.." && pwd) || exit 1
parts='without_executable foreign_executable with_executable faults languages broken_records room installed with_stand_in'
parts+=' pages with_rt programs'
left_out='^$' # nothing
case ${1:-} in
--quick)
    parts=${parts% with_rt programs}
    shift
    ;;
--part)
    parts=$2
    [ "$2" = with_rt ] || left_out='^crates/[a-z0-9_]*/(proofs|specs|must-fail|wrong-bodies)/|^bench/'
    shift 2
    ;;
esac
# The executable of the crate $1: $2, or what a build left.
find_executable() {
    local file
    for file in "${2:-$here/crates/$1/out/$1}" "$here/crates/$1/out/$1.unproved"; do
        [ ! -f "$file" ] || [ ! -x "$file" ] || { readlink -f "$file" && return; }
    done
    echo "no executable of $1: tools/build_unproved.sh $1 crates/$1/out/$1.unproved" >&2
    return 1
}
declare -A executable
executable[collate]=$(find_executable collate "${1:-}") || exit 2
executable[collate_unicode]=$(find_executable collate_unicode "${2:-}") || exit 2
executable[sort_names]=$(find_executable sort_names "${3:-}") || exit 2
real_path=$PATH
rt_folder=$(dirname "$(command -v rt || echo /)")
export PATH=/usr/bin:/bin LC_ALL=C.UTF-8
! command -v rt >/dev/null || { echo "rt lies in /usr/bin or /bin: this can't be walked without it" >&2; exit 2; }
work=$(mktemp -d)
trap 'rm -rf "$work"' EXIT
top=$work/checkout
mkdir "$top"
(cd "$here" && git ls-files --cached --others --exclude-standard | grep -vE "$left_out" |
    tar -cf - --no-recursion -T - | tar -xf - -C "$top") || exit 2
cd "$top" || exit 2
if [ -n "${EDIT:-}" ]; then
    cp "${EDIT%% *}" "$work/before"
    sed -i "${EDIT#* }" "${EDIT%% *}" && ! cmp -s "$work/before" "${EDIT%% *}" || exit 2
fi
out=crates/collate/out large=crates/collate_unicode/out sorting=crates/sort_names/out
status=0 looks=0

complain() {
    echo "$1"
    [ -z "${2:-}" ] || sed 's/^/    /' <<<"$2"
    status=1
    [ -z "${EDIT:-}" ] || exit 1
}

# Runs the command behind -- and looks whether its status is $1 and whether what it says, on both outputs, has each
# TEXT: $1 TEXT.. -- COMMAND..; a TEXT that begins with ! may not stand there, and a single = asks for silence.
says() {
    local wanted=$1 texts=() text said got=0
    shift
    while [ "$1" != -- ]; do
        texts+=("$1")
        shift
    done
    shift
    said=$("$@" 2>&1 </dev/null | tr -d '\0'; exit "${PIPESTATUS[0]}") || got=$?
    looks=$((looks + 1))
    [ "$got" = "$wanted" ] || complain "status $got, not $wanted: $*" "$said"
    for text in "${texts[@]}"; do
        case $text in
        =) [ -z "$said" ] || complain "not silent: $*" "$said" ;;
        '!'*) [[ $said != *"${text#!}"* ]] || complain "says '${text#!}': $*" "$said" ;;
        *) [[ $said == *"$text"* ]] || complain "doesn't say '$text': $*" "$said" ;;
        esac
    done
}

# The text $1 as standard input of the command behind.
given() {
    local input=$1
    shift
    printf '%b' "$input" | "$@"
}

# Puts executables where builds would leave them, $1 and so on, with notes of the sources as they are.
put() {
    local file
    for file in "$@"; do
        (
            script=put
            . tools/launcher.sh
            [[ $file != *.unproved ]] || unproved=unproved
            crate=$(basename "$file" .unproved)
            mkdir -p "$(dirname "$file")"
            cp "${executable[$crate]}" "$file"
            below=$(tools/below.sh "$crate")
            : >"$work/began"
            note_sources "$file" "$(sum_of_sources)" "$work/began"
        )
    done
}

nothing='NOTHING is proved of this run'
latin=examples/latin.records
swedish='Öberg\nZetterlund\nÅkesson\n'

walk_without_executable() {
    local word name
    for word in '' '--unicode'; do
        name=collate${word:+_unicode}
        says 1 "collate: no 'rt' on the path to build $name with" "make dist" -- ./collate $word $latin
        says 1 "collate: unproved: $nothing" "to build $name with" -- ./collate --unproved $word $latin
        says 0 "collate $(cat VERSION)" -- ./collate $word --version
        says 0 "collate FILE" -- ./collate $word -h
    done
    for word in --records=$latin "--records $latin" '--language sv'; do
        says 2 "sort_names: no 'rt' on the path to build sort_names with" -- ./sort_names $word
        says 2 "sort_names: unproved: $nothing" "to build sort_names with" -- ./sort_names -u $word --unproved
    done
    says 0 "sort_names $(cat VERSION)" -- ./sort_names -u --version
    # what stands behind a word that takes a value, or behind --, is no word
    says 2 "to build sort_names with" "!sort_names $(cat VERSION)" -- ./sort_names -uo --version
    says 2 "to build sort_names with" "!sort_names $(cat VERSION)" -- ./sort_names -u -- --version
    for word in -h --help; do
        says 0 "--unproved" "--unicode" "proved and built" "strength=primary" "$top/docs/RECORDS.md" "!'rt'" -- \
            ./collate $word
        says 0 "--language TAG" "--records FILE" "--unproved" "proved and built" "$top/records" -- ./sort_names $word
    done
    mv crates/collate_unicode "$work"
    says 1 "the program collate_unicode is not there yet" -- ./collate --unicode $latin
    mv "$work/collate_unicode" crates
    says 2 "usage: collate FILE" "no FILE is given" -- ./collate
    says 2 "sort_names: no 'rt' on the path to build sort_names with" -- ./sort_names
    mv crates/sort_names "$work"
    says 2 "the program sort_names is not there yet" -- ./sort_names
    mv "$work/sort_names" crates
    says 1 "cannot read nothing" "there is no such file" "!'rt'" -- ./collate nothing
    says 2 "no 'rt' on the path to build collate with" -- make install PREFIX="$work/none"
    put $out/collate
    says 2 "no 'rt' on the path to build collate_unicode with" -- make install PREFIX="$work/none"
    put $large/collate_unicode
    says 2 "no 'rt' on the path to build sort_names with" -- make install PREFIX="$work/none"
    rm -r $large
    [ ! -e "$work/none" ] || complain "something was installed without a program"
    rm -r $out
}

# An executable that nobody vouches for is taken for no proved one, and none for the unproved one.
walk_foreign_executable() {
    mkdir -p $out
    cp "${executable[collate]}" $out/collate
    says 1 "no 'rt' on the path" -- ./collate $latin
    rm $out/collate
    put $large/collate_unicode.unproved
    says 0 "collate: unproved: $nothing" added -- given 'add a\n' ./collate --unicode --unproved $latin
    says 1 "no 'rt' on the path to build collate_unicode" -- ./collate --unicode $latin
    says 1 "no 'rt' on the path to build collate with" -- ./collate --unproved $latin
    rm -r $large
    put $out/collate.unproved
    says 1 "no 'rt' on the path" -- ./collate $latin
    cp $out/collate.unproved $out/collate
    cp $out/collate.unproved.sources $out/collate.sources
    says 1 "no 'rt' on the path" -- ./collate $latin
    rm $out/collate $out/collate.sources
    put $out/collate
    says 0 = -- ./collate $latin
    echo >>$out/collate
    says 1 "no 'rt' on the path" -- ./collate $latin
    rm $out/collate $out/collate.sources
    says 0 "collate: unproved: $nothing" "names 1" -- given 'add a\nlist\n' ./collate --unproved $latin
    put $sorting/sort_names.unproved
    says 0 "sort_names: unproved: $nothing" $'a\nb' -- given 'b\na\n' ./sort_names --unproved --records $latin
    says 2 "no 'rt' on the path to build sort_names with" -- ./sort_names --records $latin
    echo '// one more line' >>crates/collate_lists/src/lib.rt
    says 1 "$nothing" "no 'rt' on the path" -- ./collate --unproved $latin
    sed -i '$d' crates/collate_lists/src/lib.rt
    says 0 "$nothing" "added" -- given 'add a\n' ./collate --unproved $latin
    rm -r $out
}

walk_with_executable() {
    put $out/collate $large/collate_unicode $sorting/sort_names
    says 0 $'names 2\na\nb' "!$nothing" -- given 'add b\nadd a\nlist\n' ./collate $latin
    says 0 "$(cat examples/latin.expected)" "!$nothing" -- given "$(cat examples/latin.commands)\n" ./collate $latin
    says 0 $'Zetterlund\nÅkesson\nÖberg' '!:' -- given "$swedish" ./sort_names --records records/swedish.records
    says 0 = -- ./sort_names --records records/swedish.records
    says 0 $'Öberg\nÅkesson\nZetterlund' '!:' -- given "$swedish" ./sort_names -r - --records=records/swedish.records
    says 0 $'Zetterlund\nÅkesson\nÖberg' '!:' -- \
        given "$swedish" ./sort_names --over records/root.records records/languages/sv.records
    # times alone change nothing, nor does a crate of one's own
    find crates -name '*.rt' -exec touch {} +
    says 0 added -- given 'add a\n' ./collate $latin
    mkdir -p crates/own/src
    echo 'fn main(rt: HostRuntime) {}' >crates/own/src/main.rt
    echo 'own: collate_index' >>crates.txt
    says 0 added -- given 'add a\n' ./collate $latin
    echo '// one more line' >>crates/collate_lists/src/lib.rt
    says 1 "no 'rt' on the path" -- ./collate $latin
    sed -i '$d' crates/collate_lists/src/lib.rt
    sed -i '$d' crates.txt
    rm -r crates/own
    says 0 added -- given 'add a\n' ./collate $latin
    (cd "$work" && says 0 added -- given 'add a\n' checkout/collate checkout/$latin; exit $status) || status=1
    ln -s "$top/collate" "$work/link"
    says 0 added -- given 'add a\n' "$work/link" $latin
    # a file of 206 code points
    { small && seq -f 'w %.0f ;' 3001 3200; } >"$work/more.records"
    says 1 "refused 153 limit" "these are 151 code points" "150 may be (1114112 with --unicode)" -- \
        ./collate "$work/more.records"
    says 0 $'names 2\na\nb' "!$nothing" -- given 'add b\nadd a\nlist\n' ./collate --unicode "$work/more.records"
    says 0 $'a\nb' '!:' -- given 'b\na\n' ./sort_names --records "$work/more.records"
    says 2 "sort_names: cannot read --version: " -- ./sort_names --records $latin -- --version
    ln -s "$top/sort_names" "$work/sorts"
    says 0 $'a\nb' '!:' -- given 'b\na\n' "$work/sorts" --records $latin
    ln -s "$top/collate" "$work/collate_unicode"
    says 0 added -- given 'add a\n' "$work/collate_unicode" "$work/more.records"
    says 0 "collate_unicode $(cat VERSION)" -- "$work/collate_unicode" --version
    says 0 "--unicode" -- "$work/collate_unicode" -h
    says 2 "usage: collate_unicode FILE" "no FILE is given" -- "$work/collate_unicode"
}

walk_faults() {
    local word
    put $out/collate $sorting/sort_names
    says 2 "usage: collate FILE" "not understood: strenght=on" "options: strength" -- ./collate $latin strenght=on
    says 2 "usage: collate FILE" "not understood: strength=on" "values of strength: primary" -- \
        ./collate $latin strength=on
    says 2 "usage: collate FILE" "given twice: numeric" -- ./collate $latin numeric=on numeric=off
    says 2 "sort_names: not understood: strength=none" "values of strength: primary" -- \
        given 'b\n' ./sort_names --records $latin strength=none
    # at once, whether names come or not
    says 2 "sort_names: given twice: numeric" -- \
        timeout 10 bash -c './sort_names --records "$1" numeric=on numeric=off < <(exec sleep 15 2>/dev/null)' - $latin
    says 2 "sort_names: not understood: --sorted" -- ./sort_names --sorted
    says 2 "a records file is given by --records $latin (./NAME is" -- ./sort_names $latin
    says 2 "an option is given by --numeric=on (./NAME is" -- ./sort_names numeric=on
    says 2 "sort_names: cannot read docs: " '!it is a folder' -- ./sort_names --records $latin docs
    says 2 "sort_names: given twice: --records or --language" -- ./sort_names --language sv --records $latin
    says 2 "not understood: examples" -- ./collate strength=primary $latin
    says 2 "not understood: --numeric; before FILE stand --unproved, --unicode," -- ./collate --numeric $latin
    says 1 "cannot read --numeric" "no such file; before FILE stand --unproved, --unicode," -- ./collate --numeric
    for word in '1 ./collate' '2 ./sort_names --records'; do
        set -- ${word#* }
        says ${word%% *} "cannot read nothing" "there is no such file" -- "$@" nothing
        says ${word%% *} "cannot read swedish" "there is no such file; there is $top/records/swedish.records" -- "$@" swedish
        says ${word%% *} "cannot read $work/no/file" "there is no folder $work/no" -- "$@" "$work/no/file"
        says ${word%% *} "cannot read docs" "it is a folder" -- "$@" docs
        ln -sf nowhere "$work/nowhere"
        ln -sf nothing "$work/nowhere"
        says ${word%% *} "cannot read $work/nowhere" "it is a link that leads nowhere" -- "$@" "$work/nowhere"
        if [ "$(id -u)" != 0 ]; then # root reads all
            cp -f $latin "$work/closed" && chmod 0 "$work/closed"
            says ${word%% *} "cannot read $work/closed" "it may not be read by" -- "$@" "$work/closed"
        fi
    done
    head -c 70000 /dev/zero | tr '\0' a >"$work/long"
    says 0 aaaa '!:' -- given "$(cat "$work/long")\n" ./sort_names --records $latin
    says 1 "collate: line too long" "at most 65,536 bytes" -- given "add $(cat "$work/long")\n" ./collate $latin
    says 1 "collate: reload cut" "standard input ended before" -- given 'reload 2\n\n' ./collate $latin
    says 0 "refused 1 grammar" '!  ' -- given 'reload 1\nw 61 ;\n' ./collate $latin
    says 1 "collate: write" -- full_disk
    says 0 = -- reader_away ./collate 'add a'
    says 2 "sort_names: cannot write: " -- bash -c 'yes | head -n 100000 | ./sort_names --records "$1" >/dev/full' - $latin
    says 0 = -- reader_away './sort_names --records' a
}

full_disk() {
    yes 'add a' | head -n 100000 | ./collate $latin >/dev/full
    return "${PIPESTATUS[2]}"
}

reader_away() {
    yes "$2" | head -n 100000 | $1 $latin | head -n 1 >/dev/null
}

. "$here/tools/walk_broken_records.sh"
. "$here/tools/walk_languages.sh"

walk_installed() {
    local prefix=$work/usr name
    # what is not proved isn't installed, nor packed
    rm -rf $out $large $sorting
    put $out/collate.unproved $large/collate_unicode.unproved $sorting/sort_names.unproved
    says 2 "no 'rt' on the path to build collate with" -- make install PREFIX="$prefix"
    says 2 "no 'rt' on the path to build collate with" -- make dist
    [ -z "$(find "$prefix" dist ! -type d 2>/dev/null)" ] || complain "what is not proved was installed or packed"
    rm -r $out $large $sorting
    put $out/collate $large/collate_unicode $sorting/sort_names
    { small && seq -f 'w %.0f ;' 3001 3200; } >"$work/more.records"
    says 0 -- make
    says 0 -- make install PREFIX="$prefix"
    says 0 $'a\nb' "!'rt'" -- \
        given 'b\na\n' "$prefix/bin/sort_names" --records "$prefix/share/leekclamp/records/latin.records"
    says 0 "names 1" -- given 'add b\nlist\n' "$prefix/bin/collate" "$prefix/share/leekclamp/records/latin.records"
    says 0 "$prefix/share/leekclamp/records" "$prefix/share/doc/leekclamp/RECORDS.md" "!proved and built" -- \
        "$prefix/bin/collate" -h
    says 0 "$prefix/share/leekclamp/records" "!proved and built" "!--unproved" -- "$prefix/bin/sort_names" -h
    says 0 "names 1" -- given 'add b\nlist\n' "$prefix/bin/collate" --unicode "$work/more.records"
    says 0 "names 1" -- given 'add b\nlist\n' "$prefix/bin/collate_unicode" "$work/more.records"
    says 0 $'a\nb' -- given 'b\na\n' "$prefix/bin/sort_names" --records "$work/more.records"
    says 0 "collate_unicode $(cat VERSION)" -- "$prefix/bin/collate_unicode" --version
    says 1 "refused 153 limit" "150 may be (1114112 with --unicode)" -- "$prefix/bin/collate" "$work/more.records"
    look_at_languages "$prefix"
    says 0 "$(cat VERSION)" -- "$prefix/bin/sort_names" --version
    says 2 "there is $prefix/share/leekclamp/records/greek.records" -- "$prefix/bin/sort_names" --records greek
    mv "$prefix/lib/leekclamp/programs/collate_unicode" "$work"
    says 1 "the program collate_unicode is not installed here" -- "$prefix/bin/collate" --unicode $latin
    mv "$work/collate_unicode" "$prefix/lib/leekclamp/programs"
    says 0 "for a repository" "added" -- given 'add a\n' "$prefix/bin/collate" --unproved $latin
    # what can be read once is told by its rule alone
    says 1 "refused 1 grammar" "each line has one of the forms" -- "$prefix/bin/collate" <(echo x)
    { small; echo 'w 0063 ; [2A200200.0500.0.0500.0]'; } >"$work/my.records"
    says 1 "refused 9 V5" "no weight's bytes" "begins 2A2002" -- "$prefix/bin/collate" "$work/my.records"
    for name in collate collate_unicode sort_names; do
        [ -s "$prefix/share/man/man1/$name.1" ] || complain "no manual page of $name"
        command -v man >/dev/null && says 0 "SYNOPSIS" -- man -l "$prefix/share/man/man1/$name.1"
    done
    says 0 -- make uninstall PREFIX="$prefix"
    [ -z "$(find "$prefix" ! -type d)" ] || complain "left by uninstall:" "$(find "$prefix" ! -type d)"
    says 0 -- make install PREFIX=/usr DESTDIR="$work/staged"
    says 0 $'a\nb' -- given 'b\na\n' "$work/staged/usr/bin/sort_names" --records $latin
    says 0 "packed dist/leekclamp-$(cat VERSION)-" -- make dist
    mkdir "$work/unpacked"
    (cd dist && sha256sum --check --quiet ./*.sha256) || complain "the checksum is another"
    tar -C "$work/unpacked" -xzf dist/*.tar.gz
    name=$work/unpacked/leekclamp-$(cat VERSION)-$(uname -m)-linux
    mv "$top" "$top.away" # nothing of the repository is needed
    cd "$work" || exit 2
    says 0 $'a\nb' -- given 'b\na\n' "$name/bin/sort_names" --records "$name/share/leekclamp/records/latin.records"
    says 0 "names 1" -- given 'add b\nlist\n' "$name/bin/collate" --unicode "$work/more.records"
    look_at_languages "$name"
    for file in LICENSE LICENSE-UNICODE.txt NOTICE.md; do
        [ -s "$name/$file" ] && [ -s "$name/share/doc/leekclamp/$file" ] || complain "$file isn't packed"
    done
    mv "$top.away" "$top"
    cd "$top" || exit 2
}

# The root and what languages put over it lie in the prefix $1, and are joined there.
look_at_languages() {
    local folder=$1/share/leekclamp/records
    [ -s "$folder/languages/list.tsv" ] || complain "no list of languages"
    says 0 = -- bash -c '"$1/bin/join_records" "$2/languages/sv.records" >"$3"' - "$1" "$folder" "$work/joined.records"
    [ "$(grep -vc '^#' "$work/joined.records")" -gt 60000 ] || complain "the languages are not joined to the root"
    says 0 $'Zetterlund\nÅkesson\nÖberg' -- given "$swedish" "$1/bin/sort_names" --language sv
    says 0 $'names 1\na' -- given 'add a\nlist\n' "$1/bin/collate_unicode" --language de
}

# A stand-in for rt, which proves nothing: `run` leaves behind what a build does, slowly.
make_stand_in() {
    mkdir -p "$work/fake"
    cat >"$work/fake/rt" <<TEXT
#!/usr/bin/env bash
[ "\$1" = run ] || exit 1
[ ! -e "$work/fails" ] || { cat "$work/fails"; exit 1; }
crate=\$(basename "\$PWD")
for name in \$("$top/tools/below.sh" "\$crate" | sed 's/:.*//'); do
    [ "\$name" != "\$crate" ] || continue
    mkdir -p "$top/crates/\$name/out/rlib"
    [ -e "$top/crates/\$name/out/rlib/stamp" ] || { sleep 0.1; echo >"$top/crates/\$name/out/rlib/stamp"; }
done
[ ! -e "$work/edits" ] || echo '// while it is built' >>"$top/crates/collate_lists/src/lib.rt"
case \$crate in
collate) cp "${executable[collate]}" out/collate ;;
collate_unicode) cp "${executable[collate_unicode]}" out/collate_unicode ;;
sort_names) [ "\$*" != 'run -- --records /dev/null' ] || cp "${executable[sort_names]}" out/sort_names ;;
esac
TEXT
    chmod +x "$work/fake/rt"
    PATH=$work/fake:$PATH
}

walk_with_stand_in() {
    local count
    rm -rf crates/*/out
    make_stand_in
    count=$(($(tools/below.sh collate | wc -l) - 1))
    says 1 "cannot read nothing" "there is no such file" '!building' -- ./collate nothing
    echo 'error: not proved' >"$work/fails"
    says 1 "building, see $out/build.log" "error: not proved" '!all is proved' '!memory' -- ./collate $latin
    echo 'rt: mend these first' >"$work/fails" # as where a process was killed
    says 1 "rt: mend these first" "no error is told: memory may have been short" -- ./collate $latin
    rm "$work/fails"
    : >"$work/edits"
    says 0 "collate: $count libraries to prove, and the program" "icu_packed_vector is proved, $((count - 1)) left" \
        "collate_run is proved, 0 left" "all is proved, and built" added -- given 'add a\n' ./collate $latin
    rm "$work/edits"
    touch crates/*/out/rlib/stamp
    says 0 "building, see" added -- given 'add a\n' ./collate $latin
    says 0 '!building' added -- given 'add a\n' ./collate $latin
    echo '// one more' >>crates/tests_collate_records/src/lib.rt
    says 0 '!building' added -- given 'add a\n' ./collate $latin
    says 0 "collate: 0 libraries to prove, and the program" "see $large/build.log" "all is proved" added -- \
        given 'add a\n' ./collate --unicode $latin
    says 0 '!building' added -- given 'add a\n' ./collate --unicode $latin
    says 0 "libraries to prove, and the program" "see $sorting/build.log" "all is proved" $'a\nb' -- \
        given 'b\na\n' ./sort_names --records $latin
    says 0 '!building' -- make
    # the unproved one, whose builder is a stand-in here
    cp tools/build_unproved.sh "$work/builder"
    printf '#!/bin/sh\ncp "%s" "$2"\n' "${executable[collate]}" >tools/build_unproved.sh
    says 0 "$nothing" "in a minute or two" "kept as $out/collate.unproved" added -- \
        given 'add a\n' ./collate --unproved $latin
    says 0 "$nothing" '!in a minute' added -- given 'add a\n' ./collate --unproved $latin
    echo '// one more' >>crates/collate_lists/src/lib.rt
    says 0 "$nothing" "in a minute or two" added -- given 'add a\n' ./collate --unproved $latin
    cp "$work/builder" tools/build_unproved.sh
    PATH=/usr/bin:/bin
}

# The commands of a page, behind `$ ` in its indented blocks, answer what stands below them.
walk_page() {
    local command='' wanted='' given=''
    while IFS= read -r line || [ -n "$line" ]; do
        if [[ $line == '    '* ]]; then line=${line#    }; else line=''; fi
        if [ -n "$command" ] && [ -z "$given" ] && [[ $line == '    '* ]]; then
            command+=$'\n'$line
        elif [ -n "$command" ] && [[ -z $line || $line == '$ '* ]]; then
            run_of_page "$1" "$command" "$wanted"
            command='' wanted='' given=''
        fi
        if [[ $line == '$ '* ]]; then
            command=${line#\$ }
        elif [ -n "$command" ] && [[ $line != '    '* ]]; then
            wanted+=$line$'\n'
            given=yes
        fi
    done < <(cat "$1"; echo)
}

run_of_page() {
    local said
    looks=$((looks + 1))
    said=$(bash -c "$2" 2>&1 </dev/null)
    [ "$said" = "${3%$'\n'}" ] || complain "$1: another answer: $2" "$said"
}

walk_pages() {
    put $out/collate $large/collate_unicode $sorting/sort_names
    walk_page README.md
    walk_page docs/RECORDS.md
    walk_page docs/CALLING.md
}

# The first program of a page, in a crate of another repository that has the crates below it, as docs/CALLING.md says:
# PAGE CRATE.
make_elsewhere() {
    local other=$work/other line
    line=$(cat README.md docs/CALLING.md | tr '\n' ' ' | grep -oE "$2: [a-z0-9_ ]+" | head -n 1)
    if [ ! -d "$other" ]; then
        mkdir "$other"
        git -C "$other" init -q
        git -C "$here" archive HEAD $(tools/below.sh collate_index | sed 's#^#crates/#; s/:.*//') | tar -x -C "$other"
        tools/below.sh collate_index >"$other/crates.txt"
    fi
    mkdir -p "$other/crates/$2/src"
    awk '/^```rust$/ { inside = 1; next } inside && /^```$/ { exit } inside' "$1" >"$other/crates/$2/src/main.rt"
    echo "$line" >>"$other/crates.txt"
    cd "$other/crates/$2" || exit 2
}

# The real rt comes to the path.
need_rt() {
    [ "$rt_folder" != / ] || { echo "no rt to walk with: --quick" >&2; exit 2; }
    PATH=$rt_folder:$real_path
}

# With it: unproved builds.
walk_with_rt() {
    local began
    need_rt
    rm -rf crates/*/out
    says 0 "collate: unproved: $nothing" "in a minute or two" $'names 1\na' -- \
        given 'add a\nlist\n' ./collate --unproved $latin
    began=$(date +%s%N)
    says 0 "collate: unproved: $nothing" '!in a minute' added -- given 'add a\n' ./collate --unproved $latin
    [ $(($(date +%s%N) - began)) -lt 5000000000 ] || complain "the kept program took over five seconds"
    says 0 "sort_names: unproved: $nothing" "kept as $sorting/sort_names.unproved" $'a\nb' -- \
        given 'b\na\n' ./sort_names --unproved --records $latin
}

# With it: the programs of the pages, which are compiled and run.
walk_programs() {
    need_rt
    make_elsewhere "$top/README.md" sorted_names
    says 0 $'Zetterlund\nÅkesson\nÖberg' "status=0" -- \
        given "$swedish" rt try --data "swedish.records=$top/records/swedish.records"
    cd "$top" || exit 2
    make_elsewhere "$top/docs/CALLING.md" compared
    says 0 Zetterlund "status=0" -- rt try --data "swedish.records=$top/records/swedish.records"
    cd "$top" || exit 2
}

# in braces, so that an edit of this file during a walk changes nothing
{
    for part in $parts; do
        [ "$(type -t "walk_$part")" = function ] || { echo "no part $part" >&2; exit 2; }
        "walk_$part"
    done
    echo "$looks looked at, $([ "$status" = 0 ] && echo "all as it should be" || echo "some not as they should be")"
    exit "$status"
}
