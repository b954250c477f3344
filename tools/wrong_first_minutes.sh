#!/usr/bin/env bash
# Shows that tools/check_first_minute.sh sees what is wrong:
#     tools/wrong_first_minutes.sh [--part PART] [EXECUTABLE [UNICODE [SORT_NAMES]]]
# Each line below names a part of the walk, a file, and how it is changed in the checkout that is walked; the part has to
# complain. What passed is printed; the status is 0 only where nothing did. PART is the one that is tried alone.
set -u
cd "$(dirname "$(readlink -f "${BASH_SOURCE[0]}")")/.." || exit 2
status=0 count=0 alone=''
tried=' '
if [ "${1:-}" = --part ]; then
    alone=$2
    shift 2
fi
while read -r part file edit; do
    [ "${alone:-$part}" = "$part" ] || continue
    # a part that complains of what is right sees nothing
    if [[ $tried != *" $part "* ]]; then
        tried+="$part "
        tools/check_first_minute.sh --part "$part" "$@" >/dev/null 2>&1 || { echo "complains: $part" && status=1; }
    fi
    count=$((count + 1))
    EDIT="$file $edit" tools/check_first_minute.sh --part "$part" "$@" >/dev/null 2>&1
    case $? in
    1) ;;
    0) echo "passed: $part: $file: $edit" && status=1 ;;
    *) echo "not tried: $part: $file: $edit" && status=1 ;;
    esac
done <<'TEXT'
without_executable tools/launcher.sh s/NOTHING is proved of this run/nothing/
without_executable tools/launcher.sh s/^--unicode collate_unicode/--unicode collate/
without_executable tools/launcher.sh s/to build $crate with/to build it with/
without_executable tools/install.sh s/made+=("$program")/[ $# = 0 ] || copy 755 "$1" "$program"/
without_executable collate s/-h | --help)/--help)/
without_executable sort_names s/^    -h | --help)/    --help)/
without_executable sort_names s/trouble=2/trouble=1/
without_executable sort_names s/^    --\*) return 1 ;;/    -*) return 1 ;;/
foreign_executable tools/launcher.sh s/\[ "$sum $kind" = .* \] || return 1/true/
foreign_executable tools/launcher.sh s/= "$(sum_of "$1") ${unproved:-proved}"/= "$(sum_of "$1") $kind"/
foreign_executable tools/launcher.sh s/&& $(cat "$1.stamp" 2>.dev.null) == .*"$(sum_of "$1")" \]\]/]]/
with_executable tools/launcher.sh s/below=$(.*) || exit 1/below=$(grep ^[^#] "$top\/crates.txt")/
with_executable tools/launcher.sh s/\[ "$sources" = .* || return 1/return 1/
with_executable tools/launcher.sh s/\[ "$sources" = .* || return 1/true/
with_executable tools/launcher.sh s/ LARGER=$(larger_limits)//
with_executable collate s/^    take_word --unicode$/    true/
with_executable examples/latin.expected s/^names /name /
with_executable sort_names s/^        words+=("$@")$/        words+=("$1")/
faults collate s/ && writes_to_pipe; then/; then/
faults collate s/ && writes_to_pipe; then/ \&\& false; then/
faults tools/launcher.sh s/not understood: $word (values/(values/
faults tools/launcher.sh s/echo "it is a folder"/echo "reading it failed"/
faults tools/launcher.sh s/; there is $file//
faults tools/launcher.sh s/^    -.) echo "; before/    --numeric=on) echo "; before/
faults sort_names s/^    source_words default-$/    source_words ''/
faults sort_names s/^            echo "  $(why_unreadable "$file")" >&2$//
languages tools/languages.sh s/^nb     no$//
languages tools/languages.sh s/name=${name%-\*}/break/
languages tools/languages.sh s/^phonebk   phonebook$//
languages tools/languages.sh s/LC_ALL LC_COLLATE LANG; do/LANG LC_COLLATE LC_ALL; do/
languages tools/languages.sh s/tag=${1%%\[.@\]\*}/tag=$1/
languages tools/languages.sh s/C | POSIX | '') echo und/POSIX | '') echo und/
languages tools/languages.sh s/^        \*=\*) ;;$/        *) ;;/
languages tools/languages.sh s/|| refuse_language "$2: $(shown "$1") has no order.*/|| return 0/
languages tools/launcher.sh s/SHOWN=${file:-$1}/SHOWN=$1/
languages tools/launcher.sh s/"${file:-${file_read:-$1}}"/"${file_read:-$1}"/
languages sort_names s/find_language_of_environment$/find_language und LANG/
languages sort_names s/^    --language=\*) .*//
languages sort_names s/^    \[ ${#sources\[@\]} = 0 \] || refuse_language .*//
languages sort_names s/ ${over:+"$over"}//
languages collate s/find_language "$2" --language/find_language sv --language/
languages tools/languages.sh s/^zh-hant  stroke$//
languages tools/languages.sh s/^zh-tw  zh-hant$//
languages tools/languages.sh s/kinds\[und-$type\]/kinds[$type]/
languages tools/languages.sh s/^    .@latin) .*//
languages tools/languages.sh s/ka | kb | kc | kf | kh | kk | kn | kr/ka | kb | kc | kf | kh | kk | kr/
languages tools/languages.sh s/${COLLATE_RECORDS:-\($(records_folder)\)}/\1/
languages tools/languages.sh s/.t.2.t.3.p' "$list"/\\t\\2\/p' "$list"/
languages tools/languages.sh s/|| refuse_language "there is no root.*/|| true/
languages tools/languages.sh s/$(known_types .*)"$/"/
broken_records sort_names s/|| explain "$said"$/|| true/
broken_records tools/launcher.sh s/^    \*': refused '\*)$/    'collate: refused '*)/
broken_records docs/rules.tsv /^V5/d
broken_records tools/explain.awk s/^FNR <= line || is_whole/FNR < line || is_whole/
broken_records tools/explain.awk s/show_line(first_of\[key\[line\]\])/show_line(line)/
broken_records tools/explain.awk s/if (!(key\[at\] in first_of)) first_of/first_of/
broken_records tools/explain.awk s/while (weight ~ .00$. .*/;/
broken_records tools/launcher.sh s/echo "$word $rest"/echo "$word 1 1 1"/
broken_records tools/explain_limit.awk s/total."names".++; total."wide"/total["wide"]/
room tools/explain_limit.awk s/total."wide". += 3/total["wide"]++/
room tools/explain_limit.awk s/total."elements".++$/;/
room tools/explain_limit.awk s/at <= lines; at++) note/at <= line; at++) note/
room tools/explain_limit.awk s/ || is_built_in(.*)) return/) return/
broken_records tools/explain_limit.awk s/larger.place + 1./larger[place]/
broken_records tools/explain.awk s/else if (one < " " /else if (one < "" /
broken_records tools/explain.awk s/bare != it/0/
broken_records collate s/as_printed "$said" >&2/printf "%s\\n" "$said" >\&2/
broken_records collate s/echo "collate: cannot read .*;;/printf '%s\\n' "$1" ;;/
broken_records collate s/$(shown "${rest#\* }")"$/${rest#* }"/
broken_records tools/explain.awk s/printable(ENVIRON\["SHOWN"\])/ENVIRON["SHOWN"]/
broken_records tools/explain.awk s/printable(found)/found/
installed tools/install.sh s/ LICENSE-UNICODE.txt NOTICE.md$//
installed tools/install.sh s/docs.collate.1 docs.sort_names.1/docs\/collate.1/
installed tools/install.sh s/rm -rf "$prefix.lib.leekclamp"/rm -rf/
installed tools/install.sh s/tools.languages.sh tools.explain.awk/tools\/languages.sh/
installed tools/install.sh s/tools.languages.sh tools.explain.awk/tools\/explain.awk/
installed tools/install.sh s/ tools.explain_limit.awk//
installed tools/install.sh s/ tools.root_data.py$//
installed tools/install.sh s/^cd "$top"$/cd "$top"; unproved=unproved/
installed tools/install.sh s/^    copy 644 "$home" VERSION$//
installed tools/install.sh s/^    copy 644 "$home.docs" docs.rules.tsv$//
installed tools/install.sh s/^    ln -sf collate.1 .*//
installed tools/install.sh s/ | gzip -n >"$1/ >"$1/
installed tools/install.sh s/sha256sum "$name.tar.gz"/& | sed s,^.....,00000,/
installed tools/install.sh s/-name '.\.records' -o/-name root.records -o/
installed tools/launcher.sh s/if is_installed; then/if false; then/
installed tools/launcher.sh s/^        readlink -f "$top.*share.doc.*/        echo "$top\/docs\/$1"/
installed tools/install.sh s/"${made\[@\]}"/"$made"/
installed tools/install.sh s/^collate_unicode .*//
installed tools/install.sh s/^    ln -sfn .*/    true/
installed tools/install.sh s/ -o -name list.tsv//
installed collate s/if is_installed; then/if false; then/
installed sort_names s/is_installed || echo 'The/echo 'The/
installed tools/install.sh s/^sort_names       sort_names$//
installed tools/launcher.sh s/^-         sort_names .*//
with_stand_in tools/launcher.sh s/^    \[ "$crate" != sort_names \] || echo --records$//
with_stand_in tools/launcher.sh s/is proved, " /proved, " /
with_stand_in tools/launcher.sh s/cd "crates.$crate" && rt run/cd crates\/collate \&\& rt run/
with_stand_in tools/launcher.sh s/note_sources "$program" "$sum"/note_sources "$program" "$(sum_of_sources)"/
with_stand_in tools/launcher.sh s/can_read "$1" && (cd "$top" && build)/(cd "$top" \&\& build)/
with_stand_in tools/launcher.sh s/is_current_here || \(.*build_unproved\)/\1/
with_stand_in tools/launcher.sh s/tail -n 20 .*/true/
with_stand_in tools/launcher.sh s/grep -q error .*/true ||/
pages docs/RECORDS.md s/echo 'w 002B ; .05550000/echo 'w 002B ; [2B550000/
pages docs/RECORDS.md s/      00F1 decomposes/      it decomposes/
pages README.md s/    Ärlig$/    Arlig/
TEXT
echo "$count wrong ones tried"
[ "$count" != 0 ] || status=2
exit "$status"
