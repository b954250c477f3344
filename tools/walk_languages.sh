# A part of tools/check_first_minute.sh: languages by their tags.

phonebook='Afra\nÄbte\nAdler\n'

walk_languages() {
    local word made=$work/made
    put $out/collate $large/collate_unicode $sorting/sort_names
    says 0 $'Zetterlund\nÅkesson\nÖberg' '!:' -- given "$swedish" ./sort_names --language sv
    says 0 $'Zetterlund\nÅkesson\nÖberg' -- given "$swedish" ./sort_names --language SV-fi
    says 0 $'Zetterlund\nÖberg\nÅkesson' -- given "$swedish" ./sort_names --language nb
    says 0 $'Åkesson\nÖberg\nZetterlund' -- given "$swedish" ./sort_names --language fr-CA
    says 0 $'Äbte\nAdler\nAfra' -- given "$phonebook" ./sort_names --language de-AT
    for word in de-u-co-phonebk de-phonebook de-CH-u-co-phonebk; do
        says 0 $'Adler\nÄbte\nAfra' -- given "$phonebook" ./sort_names --language $word
    done
    # an order of no language, that any has; Chinese by readings and by strokes
    says 0 $'😀\n❤\n☎' -- given '☎\n😀\n❤\n' ./sort_names --language fr-u-co-emoji
    says 0 $'安\n八' -- given '八\n安\n' ./sort_names --language zh
    says 0 $'八\n安' -- given '安\n八\n' ./sort_names --language zh-TW
    says 0 $'names 3\nZetterlund\nÅkesson\nÖberg' '!:' -- \
        given 'add Öberg\nadd Zetterlund\nadd Åkesson\nlist\n' ./collate --language sv
    says 0 $'a2\na10' -- given 'a10\na2\n' ./sort_names --language sv numeric=on
    says 0 $'a2\na10' -- given 'a10\na2\n' ./sort_names --numeric
    says 0 $'Öberg\nÅkesson\nZetterlund' -- given "$swedish" ./sort_names -ru - --language=sv
    says 0 $'3d\ta' -- bash -c 'printf "a\n" | ./sort_names --keys --language fr | sed "s/^[0-9a-f]*/3d/"'
    for word in collate sort_names; do
        says 0 $'sv\tSwedish\treformed' $'zh-stroke\tChinese\tstroke' -- ./$word --list-languages
        says 2 "$word: --language: no tag of a language: sv_SE" -- ./$word --language sv_SE
        says 2 "$word: --language: sv-u-co-phonebk has no order 'phonebook'; there are: sv-standard" -- \
            ./$word --language sv-u-co-phonebk
        says 2 "$word: in a tag -u-kn is not understood" -- ./$word --language sv-u-kn
        says 2 "values of strength: primary" -- ./$word --language sv strength=on
        says 2 "there is no root.records in docs" -- env COLLATE_RECORDS=docs ./$word --language sv
    done
    says 2 "usage: collate" "no TAG is given" -- ./collate --language
    says 2 "usage: collate" "no FILE is given: $latin" -- ./collate --language sv $latin
    says 2 "no value is given behind --language" -- ./sort_names --language
    says 2 "given twice: --records or --language" -- ./sort_names --language sv --language sv
    # by a language each operand is a list
    says 0 "class" -- ./sort_names --quiet --language sv $latin
    # the environment, by the first variable that is set
    for word in 'LC_ALL=sv_SE.UTF-8@x LANG=de_DE' 'LC_ALL= LC_COLLATE=sv_FI LANG=de_DE' 'LC_ALL= LANG=sv'; do
        says 0 $'Zetterlund\nÅkesson\nÖberg' -- given "$swedish" env $word ./sort_names
    done
    says 0 $'Cuk\nČab' -- given 'Čab\nCuk\n' env LC_ALL=sr_RS.UTF-8@latin ./sort_names
    says 0 $'Čab\nCuk' -- given 'Čab\nCuk\n' env LC_ALL=sr_RS.UTF-8 ./sort_names
    for word in LC_ALL=C LC_ALL=POSIX 'LC_ALL= LANG=C.UTF-8 LC_MESSAGES=sv' 'LC_ALL= LC_COLLATE= LANG=' LC_ALL=en_US.UTF-8; do
        says 0 $'Åkesson\nÖberg\nZetterlund' -- given "$swedish" env $word ./sort_names
    done
    says 2 "sort_names: LC_ALL: no tag of a language: s" -- env LC_ALL=s ./sort_names
    # a folder of one's own, and faults by the file that has the line
    mkdir -p "$made/languages"
    small >"$made/root.records"
    printf 'sv\tSwedish\tstandard\n' >"$made/languages/list.tsv"
    printf '# without 0301\nt 0062 ; [2A080000.0500.0.0500.0]\n' >"$made/languages/sv.records"
    says 0 $'b\na' -- given 'a\nb\n' env COLLATE_RECORDS="$made" ./sort_names --language sv
    says 0 $'a\nb' -- given 'b\na\n' env COLLATE_RECORDS="$made" ./sort_names --language de
    printf '\n# without 0303\n' >"$made/languages/sv.records"
    says 2 "sort_names: refused 2 without $made/languages/sv.records" "line 2: # without 0303" "  without: a line" -- \
        env COLLATE_RECORDS="$made" ./sort_names --language sv
    printf '# without 0301 |\n' >"$made/languages/sv.records"
    says 1 "collate: refused 1 without $made/languages/sv.records" "line 1: # without 0301 |" -- \
        env COLLATE_RECORDS="$made" ./collate --language sv
    printf 't 0301 0062 ; [2A080000.0500.0.0500.0]\n' >"$made/languages/sv.records"
    says 1 "collate: refused 1 V8 $made/languages/sv.records" "line 1: t 0301 0062 ;" "  V8: after a mark" -- \
        env COLLATE_RECORDS="$made" ./collate --language sv
    printf 'class 0302 9\n# without 0323\n' >"$made/languages/sv.records"
    { small; echo 'w 0301 0061 ; [2A300000.0500.0.0500.0]'; } >"$made/root.records"
    says 1 "collate: refused 9 V8 $made/root.records" "root.records, line 9: w 0301 0061 ;" -- \
        env COLLATE_RECORDS="$made" ./collate --language sv
    rm "$made/languages/sv.records"
    says 1 "collate: cannot read $made/languages/sv.records" "there is no such file" -- \
        env COLLATE_RECORDS="$made" ./collate --language sv
}
