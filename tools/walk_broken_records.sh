# Two parts of tools/check_first_minute.sh: what is said of broken records files, of tools/broken_records.tsv and others.

# The file of the broken ones: eight lines.
small() {
    printf 'class %s\n' '0302 230' '0323 220'
    echo 'map 00E1 0061 0301'
    printf 'w %s.0500.0.0500.0]\n' '0061 ; [2A100000' '0062 ; [2A200000'
    printf 'w %s.0.0500.0]\n' '0301 ; [0.8800' '0302 ; [0.8A00' '0323 ; [0.8C00'
}

walk_broken_records() {
    local add fault texts text command=() said count=0 broken=$work/my.records
    put $out/collate $large/collate_unicode $sorting/sort_names
    small >"$work/small.records"
    says 0 = -- ./collate "$work/small.records"
    while IFS=$'\t' read -r add fault texts; do
        [ -n "$fault" ] || continue
        {
            case $add in
            ^*) printf '%b' "${add#^}" && small ;;
            =*) printf '%b' "${add#=}" ;;
            *) small && printf '%b' "$add" ;;
            esac
        } >"$broken"
        count=$((count + 1))
        text=()
        while [ -n "$texts" ]; do
            text+=("${texts%% & *}")
            [[ $texts == *' & '* ]] || break
            texts=${texts#* & }
        done
        # sort_names says it by the same function, over names and over none, but for what is past the limits of collate alone
        command=(1 "collate: refused $fault"$'\n' -- ./collate "$broken")
        if [[ $fault != *' limit' ]]; then
            said="sort_names: refused $fault $broken"$'\n'
            [ $((count % 8)) != 0 ] || command=(2 "$said" -- ./sort_names --records "$broken")
            [ $((count % 16)) != 0 ] || command=(2 "$said" -- given 'b\na\n' ./sort_names --records "$broken")
        fi
        says "${command[@]:0:2}" "  $broken, line ${fault% *}: " "  ${fault#* }: " "${text[@]}" "${command[@]:2}"
    done <tools/broken_records.tsv
    [ "$count" -ge 60 ] || complain "only $count broken files"
    seq -f 'class %05.0f 230' 10001 10151 >"$broken"
    says 1 "refused 151 limit" "these are 151 code points, each range counted as one, and 150 may be" -- \
        ./collate "$broken"
    says 0 = -- ./sort_names --records "$broken"
    { small && seq -f 'set numeric %02.0f' 11 11 && yes 'range 4E00 4E00 E0020200 1' | head -n 1000; } >"$broken"
    says 1 "refused 154 limit" "these are 151 code points" -- ./collate "$broken"
    { small && for count in $(seq 1000); do echo "w$(combination "$count") ;"; done; } >"$broken"
    says 1 "refused 1001 limit" "these are 1001 lines that say something, and 1000 may be (1114112 with --unicode)" -- \
        ./collate "$broken"
    says 0 = -- ./collate --unicode "$broken"
    { echo -n '# ' && head -c 1024 /dev/zero | tr '\0' a; } >"$broken"
    says 1 "refused 1 grammar" "it has 1026 bytes; a line has at most 1024" -- ./collate "$broken"
    yes '# a line of a comment, 32 bytes' | head -n 32769 >"$broken"
    says 1 "refused 32769 grammar" "here the file passes 1048576 bytes (67108864 with --unicode)" -- ./collate "$broken"
    says 0 = -- ./collate --unicode "$broken"
    printf '# \033[31m\n%s\n' x >"$broken"
    says 1 "refused 2 grammar" '!\x1B' -- ./collate "$broken"
    printf '\033[31m\n' >"$broken"
    says 1 "refused 1 grammar" '\x1B[31m' $'!\033' -- ./collate "$broken"
    printf 'w 0061 ; \033\n' >"$broken"
    says 1 "refused 1 grammar" '  \x1B is no element' $'!\033' -- ./collate "$broken"
    # the name of a file too
    cp "$broken" "$work"/$'\033[31m.records'
    says 1 "refused 1 grammar" '/\x1B[31m.records, line 1: ' $'!\033' -- ./collate "$work"/$'\033[31m.records'
    says 1 "cannot read \$'\\E[31m'" $'!\033' -- ./collate $'\033[31m'
    says 1 "refused 1 grammar \$'" $'!\033' -- ./collate --unicode --over "$work/small.records" "$work"/$'\033[31m.records'
}

# What tables have room for, of files for all of Unicode.
walk_room() {
    local element='[2A100000.0500.0.0500.0]' broken=$work/my.records
    put $large/collate_unicode
    over_room 701 '703 blocks of 512 code points, each range counted as three, and 700' \
        < <(lines_of 700 512 'w & ;'; echo 'range F0000 F0001 E0020200 1')
    over_room 11001 '11001 blocks of 16 code points from 10000 on, each range counted as three, and 11000' \
        < <(lines_of 11001 16 'w & ;')
    over_room 3601 '3601 texts of several characters or with a prefix, and 3600' < <(lines_of 3601 1 'w & & ;')
    over_room 2001 '16008 characters of full lists, by map lines, and 16000' < <(lines_of 2001 1 'map & 0344')
    # 0061 is mapped behind the fault
    over_room 2001 '16008 characters of full lists, by map and kmap lines, and 16000' \
        < <(lines_of 2001 1 'map & 0061 0301'; echo 'kmap 0061 0062')
    over_room 57778 '520002 elements, one more for each w, t, range and digit line, and 520000' \
        < <(lines_of 57778 1 "w & ;$(printf ' %s' "$element"{,,,,,,,})")
}

# The file of standard input is refused at the line $1, and it is said what is passed: $2.
over_room() {
    cat >"$broken"
    says 1 "refused $1 limit" "these are $2 may be" '!with --unicode' -- ./collate --unicode "$broken"
}

# Lines by the form $3, in which & is a code point: as many as $1, from 10000 on, $2 apart.
lines_of() {
    seq 65536 "$2" $((65535 + $1 * $2)) | xargs printf '%X\n' | sed "s/.*/$3/"
}

# Five letters of a to d, by the digits of a number: texts that differ.
combination() {
    local power
    for power in 1 4 16 64 256; do printf ' 006%d' $((1 + ($1 / power) % 4)); done
}
