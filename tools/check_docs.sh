#!/usr/bin/env bash
# Looks over all pages: tools/check_docs.sh. A line each, and the status is 0 only where there is none, of
#   a name that exists nowhere in the crates (what stands in backquotes and is one word of code), a path or link that leads nowhere
#   a module of a crate's lib.rt that the crate's README doesn't name, and a crate without README
#   a line of over 120 columns, and a cell of a table of over 30 words
#   a page that code, a tool or a manual page names and that isn't there
#   a table of rules in docs/RECORDS.md that isn't docs/rules.tsv, a picture that isn't that of its figures
#   a word of ./collate or ./sort_names that its manual page leaves out, a version that CHANGELOG.md or README.md lacks
#   a line on a word in the help of the program sort_names that the script's help doesn't have
#   an edit whose old text doesn't stand once in its file (tools/edits_stand.py)
#   a call that docs/PROMISES.md doesn't list with what it asks of callers, or lists otherwise (tools/asked_of_callers.py)
set -eu
cd "$(dirname "$(readlink -f "${BASH_SOURCE[0]}")")/.."
mapfile -t documents < <(git ls-files '*.md')
words=$(mktemp)
trap 'rm -f "$words"' EXIT
# every word of code, of file names and of crates
{
    git ls-files | tr '/.' '\n\n'
    git grep -hoE '[A-Za-z_][A-Za-z0-9_-]*' -- '*.rt' '*.antt' '*.edit' '*.py' '*.sh' '*.cpp' collate sort_names crates.txt .ci
} | sort -u >"$words"
# names of the kit and of ICU4X, of wrong bodies that tests refuse, and how tests are named
others=" always_memory compile_gives_up_on_large run_stops_at_first_line rattle-kit-13b rattle-kit-13f VarZeroVec ZeroVec Cow serde Write16 utf8_iter utf16_iter DataProvider non_exhaustive yoke zerofrom icu_normalizer icu_collections harfbuzz CanonicalCombiningClass RangeBounds ok_ "
status=0
complain() {
    echo "$1"
    status=1
}
is_path() {
    compgen -G "$1" >/dev/null || compgen -G "$2/$1" >/dev/null || compgen -G "docs/$1" >/dev/null
}
# A path is one from the top, from the page's folder, or from a crate's folder, its src or its specs.
check_path() {
    local path=${1//NAME/*} folder place
    folder=$(dirname "$2")
    for place in "$folder" "$folder/src" "$folder/data" 'crates/*' 'crates/*/src' 'crates/*/specs'; do
        if is_path "$path" "$place"; then return; fi
    done
    complain "$2: no file $1"
}
check_names() {
    local name word
    while IFS= read -r name; do
        case $name in
        */*.* | crates/* | records/* | docs/* | tools/* | bench/* | examples/* | *.md | *.sh | *.py | *.txt | *.rt | *.antt | *.svg | NAME.* | ./* | .ci/*) check_path "$name" "$1" ;;
        *)
            word=${name##*[:.]}
            [[ $name == *\** || $name == *.. || $others == *" $word "* ]] || grep -qxF -- "$word" "$words" || complain "$1: no such name: $name"
            ;;
        esac
    done < <(grep -v '^    ' "$1" | grep -oE '`[A-Za-z_.][A-Za-z0-9_./:*-]*`' | tr -d '`' | sort -u)
}
check_links() {
    local link
    while IFS= read -r link; do
        [ -e "$(dirname "$1")/$link" ] || complain "$1: a link to $link leads nowhere"
    done < <(grep -oE '\]\([^)#]+' "$1" | sed 's/^](//' | grep -v '://' | sort -u)
}
check_modules() {
    local page=crates/$1/README.md module
    [ -e "$page" ] || { complain "crates/$1 has no README.md"; return; }
    [ -e "crates/$1/src/lib.rt" ] || return 0
    while IFS= read -r module; do
        grep -qF "\`$module\`" "$page" || complain "$page: the module $module is not named"
    done < <(sed -nE 's/^(pub )?mod ([a-z0-9_]+);.*/\2/p; s/^pub use [a-z0-9_]+ as ([a-z0-9_]+);.*/\1/p' "crates/$1/src/lib.rt")
}
check_lengths() {
    local found
    found=$(LC_ALL=C.UTF-8 grep -nE '^.{121,}' "$1" | sed -E "s#^([0-9]+):.*#$1:\\1: a line of over 120 columns#"
        awk -v page="$1" '/^\|/ {
            count = split($0, cells, "|")
            for (place = 2; place < count; place++)
                if (split(cells[place], unused, " ") > 30) print page ":" FNR ": a cell of over 30 words"
        }' "$1")
    [ -z "$found" ] || complain "$found"
}
check_pages_named() {
    local found
    while IFS= read -r found; do
        [ -e "${found#*:}" ] || complain "${found%%:*}: no page ${found#*:}"
    done < <(git grep -oE '\bdocs/[A-Za-z_]+\.(md|1|tsv)\b|\bCONTRIBUTING\.md\b' -- ':!*.md' | sort -u)
}
# The table of rules in the page, as docs/rules.tsv has it: a rule and a sentence, the rule again where a line has none. What
# stands two columns further in belongs to the line before.
rules_of_page() {
    awk '
        /^## / { inside = $0 == "## Rules" }
        !inside || !/^    / { next }
        /^               / { sub(/^ +/, ""); says[count] = says[count] " " $0; next }
        { count++ }
        /^    [A-Za-z0-9]/ { rule = $1; sub(/^ +[A-Za-z0-9]+/, "") }
        { sub(/^ +/, ""); says[count] = rule "\t" $0 }
        END { for (place = 1; place <= count; place++) print says[place] }' docs/RECORDS.md
}
check_rules() {
    local found
    found=$(diff <(rules_of_page) docs/rules.tsv | sed -n 's#^< #docs/RECORDS.md, not docs/rules.tsv: #p; s#^> #docs/rules.tsv, not docs/RECORDS.md: #p')
    [ -z "$found" ] || complain "$found"
}
check_pictures() {
    local tool found
    for tool in tools/draw_crates.py tools/draw_ratios.py; do
        found=$("$tool" --check 2>&1) || complain "$found"
    done
}
# The words of a script are those that its help begins a line with.
check_words() {
    local script word
    for script in collate sort_names; do
        while IFS= read -r word; do
            sed 's/\\-/-/g' "docs/$script.1" | grep -qwF -e "$word" || complain "docs/$script.1: the word $word is not there"
        done < <("./$script" --help | grep -oE '^(collate|    |sort_names) *(--[a-z]+)|, (-h)\b' | grep -oE -e '-?-[a-z]+' | sort -u)
    done
}
# What the program sort_names says of its words, the script says of them too.
check_help() {
    local line
    while IFS= read -r line; do
        grep -qxF -e "$line" sort_names || complain "crates/sort_names/src/help.rt: ./sort_names says otherwise:$line"
    done < <(grep '^    -' crates/sort_names/src/help.rt | grep -v -e '^    --default-')
}
# The limits that ./collate tells of a file are those of the page.
check_limits() {
    local bytes points lines number
    read -r bytes points lines < <(sed -n 's/^- *collate *\([0-9]\)/\1/p' tools/launcher.sh)
    for number in "$bytes bytes" "$points different code points" "$lines lines"; do
        number=$(sed -E ':again; s/([0-9])([0-9]{3})\b/\1,\2/; t again' <<<"$number")
        grep -qF "at most $number" docs/RECORDS.md || complain "docs/RECORDS.md: not at most $number, as tools/launcher.sh has it"
    done
}
# The records files that the gate runs are those of records/. The root of its languages is lines of the root alone.
check_copies() {
    local file root=crates/examples_alphabets/data/languages/root.records
    for file in crates/examples_alphabets/data/*.records crates/collate_unicode/data/*.records; do
        cmp -s "$file" "records/${file##*/}" || complain "$file: not the file of records/"
    done
    for file in crates/examples_alphabets/data/languages/*.records; do
        [ "$file" = "$root" ] || cmp -s "$file" "records/languages/${file##*/}" ||
            complain "$file: not the file of records/languages/"
    done
    file=$(grep -n . "$root" | grep -vE '^[0-9]+:#' | awk -F : '
        FNR == NR { stands[$0]; next }
        !(substr($0, length($1) + 2) in stands) { print $1; exit }' records/root.records -)
    [ -z "$file" ] || complain "$root:$file: no line of records/root.records"
}
check_version() {
    grep -q "^## $(cat VERSION)," CHANGELOG.md || complain "CHANGELOG.md: no heading of version $(cat VERSION)"
    grep -qF "Version $(cat VERSION) " README.md || complain "README.md: not version $(cat VERSION)"
}
for document in "${documents[@]}"; do
    check_names "$document"
    check_links "$document"
    check_lengths "$document"
done
for folder in crates/*/; do
    check_modules "$(basename "$folder")"
done
check_pages_named
check_rules
check_pictures
check_words
check_help
check_limits
check_copies
check_version
edits=$(tools/edits_stand.py) || complain "$edits"
tools/asked_of_callers.py --check || status=1
exit "$status"
