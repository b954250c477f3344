# What ./collate and ./sort_names share: the words for which program runs, where it lies, how it is built, proved or
# not, and what is said of its faults. They set `script`, the word that messages begin with, and `top`, the folder that
# they lie in: the repository, or what `make install` made, in which no source is.

# The programs, a line each: the word that chooses it (- if none does), its crate, and the bytes, code points and lines
# that a file of records may have.
programs='
-         collate          1048576   150      1000
--unicode collate_unicode  67108864  1114112  1114112
-         sort_names       67108864  1114112  1114112
'
crate=collate unproved='' trouble=1 # the status of a fault

say() {
    echo "$script: $*" >&2
}

. "$top/tools/languages.sh"

fail() {
    say "$*"
    exit "$trouble"
}

# Takes a word that chooses a program, or says how it is built; no other.
take_word() {
    local word name rest
    case $1 in
    --unproved)
        unproved=unproved
        return 0
        ;;
    esac
    while read -r word name rest; do
        if [ "$word" = "$1" ] && [ "$word" != - ]; then
            crate=$name
            return 0
        fi
    done <<<"$programs"
    return 1
}

# The limits of the program, as tools/explain.awk takes them.
limits() {
    local word name rest
    while read -r word name rest; do
        [ "$name" != "$crate" ] || echo "$rest"
    done <<<"$programs"
}

# The word that chooses a program whose files may be larger, and its limits; nothing where none is.
larger_limits() {
    local word name rest size own
    read -r own _ < <(limits)
    while read -r word name rest; do
        size=${rest%% *}
        if [ -n "$name" ] && [ "$size" -gt "$own" ]; then
            echo "$word $rest"
            return
        fi
    done <<<"$programs"
}

version() {
    echo "$script $(cat "$top/VERSION")"
}

is_installed() {
    [ ! -e "$top/crates.txt" ]
}

# Where records files lie.
records_folder() {
    if is_installed; then
        readlink -f "$top/../../share/leekclamp/records"
    elif [ -d "$top/records" ]; then
        echo "$top/records"
    else
        echo "$top/crates/examples_alphabets/data"
    fi
}

# Where the page $1 lies.
page() {
    if is_installed; then
        readlink -f "$top/../../share/doc/leekclamp/$1"
    else
        echo "$top/docs/$1"
    fi
}

# Whether `rt` is there.
has_rt() {
    command -v rt >/dev/null && return
    say "no 'rt' on the path to build $crate with: it is Rattle's; a release that 'make dist' packed needs none"
    return 1
}

# ## Whether an executable is of the sources as they are

# The folders of sources below the program.
source_folders() {
    local name rest part
    while read -r name rest; do
        for part in src specs proofs; do
            [ ! -d "crates/${name%:}/$part" ] || echo "crates/${name%:}/$part"
        done
    done <<<"$below"
}

# A checksum of the sources below the program, and of what crates.txt says of these crates.
sum_of_sources() {
    {
        echo "$below"
        source_folders | xargs -I {} find {} -type f -print0 | LC_ALL=C sort -z | xargs -0 sha256sum
    } | sha256sum | cut -c 1-64
}

sum_of() {
    sha256sum <"$1" | cut -c 1-64
}

# Whether the executable $1 is what a build by this file left, or by rt, and of the sources as they are. Beside it lies
# a note: the checksum of the sources, its own, and whether it is proved. Copying or restoring files changes times, and
# so does no harm.
is_current() {
    local note=$1.sources folders began sources sum kind
    [ -x "$1" ] || return 1
    mapfile -t folders < <(source_folders)
    if [ ! -e "$note" ]; then
        # rt's own note ends with the checksum of what it proved and built
        [[ -z $unproved && $(cat "$1.stamp" 2>/dev/null) == *"$(sum_of "$1")" ]] &&
            [ -z "$(find "${folders[@]}" crates.txt -newer "$1" -print -quit)" ]
        return
    fi
    read -r sources sum kind <"$note"
    [ "$sum $kind" = "$(sum_of "$1") ${unproved:-proved}" ] || return 1
    [ -n "$(find "${folders[@]}" crates.txt -newer "$note" -print -quit)" ] || return 0
    began=$(date +@%s.%N)
    [ "$sources" = "$(sum_of_sources)" ] || return 1
    touch -d "$began" "$note" 2>/dev/null || true # so that the next start needs no checksum of the sources
}

# Notes of which sources the executable $1 is: those with the checksum $2, read when the file $3 was made. An edit
# during the build is seen the next time.
note_sources() {
    echo "$2 $(sum_of "$1") ${unproved:-proved}" >"$1.sources"
    touch -r "$3" "$1.sources"
}

# ## Building it with every proof

# What `rt` leaves behind a library that is proved.
proof_of() {
    proof=crates/$1/out/rlib/stamp
}

# The libraries that a build has to prove: where a source changed, or one that they use is among them.
unproved_libraries() {
    local line name uses used changed=' '
    while read -r line; do
        name=${line%%:*} uses=${line#*:}
        [ "$name" != "$crate" ] || continue
        proof_of "$name"
        for used in $name $uses; do
            if [[ $changed == *" $used "* ]] || { [ "$used" = "$name" ] && is_changed "$name"; }; then
                changed+="$name "
                echo "$name"
                break
            fi
        done
    done <<<"$below"
}

# Whether a source of the library is newer than its proof, or there is none.
is_changed() {
    [ ! -e "$proof" ] || [ -n "$(find "crates/$1" -path '*/out' -prune -o \
        -type f \( -name '*.rt' -o -name '*.antt' \) -newer "$proof" -print -quit)" ]
}

# Says of each library when it is proved, and how many are left, as long as this script runs and no signal comes, and
# then once more. $1 was made at the start.
report() {
    local left place is_over='' was_over
    trap 'is_over=yes' TERM
    mapfile -t left < <(unproved_libraries)
    say "${#left[@]} libraries to prove, and the program"
    while kill -0 $$ 2>/dev/null; do
        was_over=$is_over
        for place in "${!left[@]}"; do
            proof_of "${left[place]}"
            [ "$proof" -nt "$1" ] || continue
            echo -n "$script: ${left[place]} is proved, " >&2
            unset "left[$place]"
            echo "${#left[@]} left" >&2
        done
        [ -z "$was_over" ] || return 0
        sleep 1
    done
}

# The words by which the program takes the records file $1.
words_for() {
    [ "$crate" != sort_names ] || echo --records
    echo "$1"
}

# Proves and builds the program, and runs it once on an empty records file, which is accepted.
build() {
    has_rt || return 1
    local out=crates/$crate/out reporter status=0 sum words
    mapfile -t words < <(words_for /dev/null)
    mkdir -p "$out" || return 1
    say "building, see crates/$crate/out/build.log"
    : >"$out/build.began"
    sum=$(sum_of_sources)
    report "$out/build.began" &
    reporter=$!
    (cd "crates/$crate" && rt run -- "${words[@]}" </dev/null) >"$out/build.log" 2>&1 || status=1
    kill "$reporter"
    wait "$reporter"
    if [ "$status" != 0 ]; then
        tail -n 20 "$out/build.log" >&2
        grep -q error "$out/build.log" ||
            say "no error is told: memory may have been short, as the first build takes over 7 GB"
        return 1
    fi
    note_sources "$program" "$sum" "$out/build.began"
    say "all is proved, and built"
}

# ## Building it with none

# Builds the program without proofs, under a name that says so.
build_unproved() {
    has_rt || return 1
    local out=crates/$crate/out sum
    mkdir -p "$out" || return 1
    say "compiling it, in a minute or two; it is kept as crates/$crate/out/$crate.unproved"
    : >"$out/unproved.began"
    sum=$(sum_of_sources)
    "$top/tools/build_unproved.sh" "$crate" "$program" || return 1
    note_sources "$program" "$sum" "$out/unproved.began"
}

# ## Having it

is_current_here() {
    (cd "$top" && is_current "$program")
}

# Sets `program` to the executable that the words ask for. It is built where it has to be, if the file $1 can be read.
prepare() {
    if is_installed; then
        program=$top/programs/$crate
        [ -x "$program" ] || fail "the program $crate is not installed here"
        [ -z "$unproved" ] || say "--unproved is for a repository: the program that is installed runs"
        return
    fi
    [ -d "$top/crates/$crate" ] || fail "the program $crate is not there yet: no folder crates/$crate"
    below=$("$top/tools/below.sh" "$crate") || exit "$trouble"
    program=$top/crates/$crate/out/$crate
    if [ -n "$unproved" ]; then
        program+=.unproved
        say "unproved: NOTHING is proved of this run"
        is_current_here || { can_read "$1" && (cd "$top" && build_unproved); } || exit "$trouble"
    else
        is_current_here || { can_read "$1" && (cd "$top" && build); } || exit "$trouble"
    fi
}

# ## Faults

# A word as it is, or, where a character of it can't be printed, as a shell would write it.
shown() {
    case $1 in
    *[![:print:]]*) printf '%q' "$1" ;;
    *) printf '%s' "$1" ;;
    esac
}

# Why the file $1 can't be read, with what may be meant.
why_unreadable() {
    local folder name
    folder=$(dirname -- "$1") name=$(basename -- "$1")
    if [ -L "$1" ] && [ ! -e "$1" ]; then
        echo "it is a link that leads nowhere"
    elif [ ! -d "$folder" ]; then
        echo "there is no folder $(shown "$folder")"
    elif [ ! -e "$1" ]; then
        echo "there is no such file$(meant_by "$name")"
    elif [ -d "$1" ]; then
        echo "it is a folder"
    elif [ ! -r "$1" ]; then
        echo "it may not be read by $(id -un)"
    else
        echo "reading it failed"
    fi
}

# What $1 may mean where no file is called so: a records file, or a word of the script.
meant_by() {
    local file
    file=$(records_folder)/${1%.records}.records
    if [[ $1 == -* && $script != sort_names ]]; then
        echo "; before FILE stand --unproved, --unicode, --help or --version, --language TAG in its place, and options" \
            "behind it, as numeric=on"
    elif [ -e "$file" ]; then
        echo "; there is $file"
    fi
}

# Whether the file $1 can be read; says so else, as the program does, and why.
can_read() {
    { [ -r "$1" ] && [ ! -d "$1" ]; } && return
    say "cannot read $(shown "$1")"
    echo "  $(why_unreadable "$1")" >&2
    return 1
}

option_names='strength, alternate, maxvariable, caselevel, casefirst, numeric'
values_of() {
    case $1 in
    strength) echo "primary, secondary, tertiary, quaternary, identical" ;;
    alternate) echo "nonignorable, shifted" ;;
    maxvariable) echo "space, punctuation, symbol, currency" ;;
    caselevel | numeric) echo "off, on" ;;
    casefirst) echo "off, lower, upper" ;;
    esac
}

# Says which of the words behind FILE is no option, or is given twice.
explain_words() {
    local word values seen=' '
    if [ $# = 0 ]; then
        echo "  no FILE is given: a records file, as $(records_folder)/swedish.records, or --language TAG" >&2
        return
    elif [[ $1 == -* && ! -e $1 ]]; then
        echo "  not understood: $(shown "$1")$(meant_by "$1")" >&2
        return
    fi
    shift
    for word in "$@"; do
        values=$(values_of "${word%%=*}")
        if [ -z "$values" ]; then
            echo "  not understood: $(shown "$word") (options: $option_names)" >&2
            return
        elif [[ $word != *=* || ", $values," != *", ${word#*=},"* ]]; then
            echo "  not understood: $(shown "$word") (values of ${word%%=*}: $values)" >&2
            return
        elif [[ $seen == *" ${word%%=*} "* ]]; then
            echo "  given twice: ${word%%=*}" >&2
            return
        fi
        seen+="${word%%=*} "
    done
}

# Says more of what the program said, $1, over its words behind: the line of the records, its rule and what helps, the
# word that wasn't understood, why a file can't be read. The file that they name is read as `file_read`, if that is set. Over
# a root the program names the file.
explain() {
    local said=$1 line rule file
    shift
    [ "${1:-}" != --over ] || shift 2
    case $said in
    *': refused '*)
        said=${said#*: refused } # LINE RULE, and over a root FILE, any bytes
        line=${said%% *} said=${said#* }
        rule=${said%% *} file=''
        [ "$said" = "$rule" ] || file=${said#* }
        LC_ALL=C LINE=$line RULE=$rule SHOWN=${file:-$1} LIMITS=$(limits) LARGER=$(larger_limits) \
            awk -f "$top/tools/explain_limit.awk" -f "$top/tools/explain.awk" \
            "$top/docs/rules.tsv" "${file:-${file_read:-$1}}" >&2
        ;;
    'usage: '*) explain_words "$@" ;;
    'collate: cannot read '*) echo "  $(why_unreadable "${said#collate: cannot read }")" >&2 ;;
    'collate: line too long') echo "  a line of standard input has at most 65,536 bytes" >&2 ;;
    'collate: reload cut') echo "  standard input ended before the lines that 'reload' counts" >&2 ;;
    esac
}
