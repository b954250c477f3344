# For tools/explain.awk: the number that is passed, by what docs/RECORDS.md counts ("Limits"). `says`, `own`, `prefix`,
# `rest` and `elements` are what lines say.

function explain_limit(    at, chars, parts, part) {
    for (at = 1; at <= lines; at++) note_mapping(at)
    for (at = 1; at <= line; at++) if (says[at] != "") count_line(at)
    tell_passed(total["lines"], limits[3], "lines that say something", 3)
    tell_passed(total["names"], limits[2], "code points, each range counted as one", 2)
    tell_passed(total["wide"], 700, "blocks of 512 code points, each range counted as three")
    tell_passed(total["narrow"], 11000, "blocks of 16 code points from 10000 on, each range counted as three")
    tell_passed(total["elements"], 520000, "elements, one more for each w, t, range and digit line")
    tell_passed(total["beside"], 3600, "texts of several characters or with a prefix")
    tell_passed(total["map"], 16000, "characters of full lists, by map lines")
    tell_passed(total["kmap"], 16000, "characters of full lists, by map and kmap lines")
    chars = split(says[line] == "kmap" ? rest[line] : own[line], part, " ")
    if (chars > 8) print "  it has " chars " characters, and 8 may be"
    parts = split(elements[line], part, " ")
    if (parts > 8) print "  it has " parts " elements, and 8 may be"
}

function tell_passed(number, most, what, place) {
    if (number > most) print "  these are " number " " what ", and " most " may be" with_larger(place)
}

# What a program of larger limits takes of what a limit bounds. Room in tables is for all alike, and no file of the
# smaller limits passes it.
function with_larger(place) {
    return larger[1] == "" ? "" : " (" larger[place + 1] " with " larger[1] ")"
}

# Counts what a line names and gives.
function count_line(at,    place, parts, part, kind) {
    kind = says[at]
    total["lines"]++
    if (kind == "range") { total["names"]++; total["wide"] += 3; total["narrow"] += 3 }
    if (kind == "w" || kind == "t") total["elements"] += split(elements[at], part, " ")
    if (kind ~ /^(w|t|range|digit)$/) total["elements"]++
    if (prefix[at] != "" || ((kind == "w" || kind == "t") && index(own[at], " "))) total["beside"]++
    if (kind == "map") total["map"] += list_room("map", targets(at))
    if (kind == "map" || kind == "kmap") total["kmap"] += list_room("kmap", targets(at))
    if (kind == "range" || kind == "set") return
    parts = split(prefix[at] " " own[at] " " (kind ~ /map/ ? targets(at) : ""), part, " ")
    for (place = 1; place <= parts; place++) {
        count_once("names", part[place])
        # what is below 10000 counts as 10000 does
        count_once("narrow", length(part[place]) == 4 ? "1000" : substr(part[place], 1, length(part[place]) - 1))
        count_once("wide", int(value_of(substr(part[place], 1, length(part[place]) - 2)) / 2))
    }
}

function count_once(what, it) {
    if (!((what, it) in counted)) { counted[what, it]; total[what]++ }
}

# What a line maps to.
function targets(at,    made) {
    made = rest[at]
    sub(/ x$/, "", made)
    return made
}

# Notes which character a line maps: canonically, or by either kind.
function note_mapping(at) {
    if (says[at] == "map") is_mapped["map", own[at]]
    if (says[at] == "map" || says[at] == "kmap") is_mapped["kmap", own[at]]
}

# How many characters of full lists a line takes that maps to these, by mappings of `map` lines or of both kinds.
function list_room(kind, listed,    place, parts, part) {
    parts = split(listed, part, " ")
    for (place = 1; place <= parts; place++)
        if ((kind, part[place]) in is_mapped || is_built_in(kind, part[place])) return 8
    return parts == 1 && length(part[1]) == 4 && part[1] > "0001" ? 0 : parts
}

function is_built_in(kind, it) {
    if (length(it) == 4 && it >= "AC00" && it <= "D7A3") return 1
    if (kind == "kmap" && (it == "FF9E" || it == "FF9F")) return 1
    return it ~ /^(034[0134]|0F73|0F75|0F81)$/
}
