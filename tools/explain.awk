# Says more of a fault of a records file:
#     LINE=163 RULE=V5 SHOWN=name LIMITS='1048576 150 1000' \
#         awk -f tools/explain_limit.awk -f tools/explain.awk docs/rules.tsv FILE
# It prints the line, what the rule says (docs/rules.tsv), the line that it clashes with, and what helps. The program
# judges; this only looks for what it may have meant, so it prints less where it finds nothing. LIMITS are the bytes,
# code points and lines that the program takes; LARGER='WORD BYTES ..' is a word that chooses one of larger limits.

BEGIN {
    FS = "\t"
    line = ENVIRON["LINE"] + 0
    rule = ENVIRON["RULE"]
    split(ENVIRON["LIMITS"], limits, " ")
    split(ENVIRON["LARGER"], larger, " ")
    hex = "0123456789ABCDEF"
    for (place = 0; place < 16; place++) digit_value[substr(hex, place + 1, 1)] = place
    for (place = 1; place < 256; place++) byte_value[sprintf("%c", place)] = place
    # what these want recorded, or maps what a line maps to, may stand behind the line
    is_whole = rule == "V9" || rule == "V10" || rule == "V11" || rule == "limit"
    split("class map kmap w t range digit set", words, " ")
    form["class"] = "class CP N"
    form["map"] = "map CP CP [CP] [x]"
    form["kmap"] = "kmap CP CP .."
    form["w"] = "w [CP .. |] CP .. ; [P.S.C.T.Q] .."
    form["t"] = "t [CP .. |] CP .. ; [P.S.C.T.Q] .."
    form["range"] = "range CP CP PRIMARY STEP"
    form["digit"] = "digit CP N"
    form["set"] = "set NAME VALUE .."
    values["alternate"] = "nonignorable shifted"
    values["backward"] = values["dotabove"] = "off on"
    values["casefirst"] = "off lower upper"
    values["maxvariable"] = "space punctuation symbol currency"
    values["numeric"] = values["groups"] = values["compress"] = values["reorder"] = ""
}

# the rules
FNR == NR {
    if ($1 == rule) sentence[++sentences] = $2
    next
}

# the lines of the file, up to the one at fault or all
FNR <= line { size += length($0) + 1 }
FNR <= line || is_whole { text[FNR] = $0; lines = FNR; next }
{ exit }

END {
    if (line in text) print "  " printable(ENVIRON["SHOWN"]) ", line " line ": " shown(text[line])
    for (place = 1; place <= sentences; place++) print "  " rule ": " sentence[place]
    if (!(line in text)) exit
    if (rule == "grammar") explain_grammar(text[line])
    else {
        for (place = 1; place <= lines; place++) parse(place)
        if (rule == "V14") show_line(first_of[key[line]])
        else if (rule == "limit") explain_limit()
        else if (rule == "C1") explain_mapped()
        else if (rule == "C5") explain_pairs()
        else if (rule == "V1" || rule == "V2" || rule == "V3" || rule == "V4") explain_element()
        else if (rule == "V5") explain_begun()
        else if (rule == "V6") explain_range()
        else if (rule == "V7") explain_undecomposed()
        else if (rule == "V9" || rule == "V10" || rule == "V11") explain_lacking()
        else if (rule == "V15") print "  the marks 0300 to 0307 each need a w line of their own, with one element"
    }
}

# ## Texts

# A line as it may be printed, and not more than 160 bytes of it.
function shown(it) {
    return printable(substr(it, 1, 160)) (length(it) > 160 ? " .. (" length(it) " bytes)" : "")
}

# A text as it may be printed: bytes of control as \r, \t or \x1B, and both of U+0080 to U+009F.
function printable(it,    place, one, next_one, made) {
    for (place = 1; place <= length(it); place++) {
        one = substr(it, place, 1)
        next_one = substr(it, place + 1, 1)
        if (one == "\t") made = made "\\t"
        else if (one == "\r") made = made "\\r"
        else if (one < " " || one == "\177") made = made sprintf("\\x%02X", byte_value[one])
        else if (one == "\302" && "\200" <= next_one && next_one <= "\237") {
            made = made sprintf("\\xC2\\x%02X", byte_value[next_one])
            place++
        } else made = made one
    }
    return made
}

# The number that upper-case hexadecimal digits spell.
function value_of(digits,    place, number) {
    for (place = 1; place <= length(digits); place++) number = number * 16 + digit_value[substr(digits, place, 1)]
    return number + 0
}

# The character of UTF-8 that begins at a place, as a code point of four to six digits; empty where it is damaged.
function code_point_at(it, place,    lead, more, number, step) {
    lead = byte_value[substr(it, place, 1)]
    if (lead >= 240) { more = 3; number = lead - 240 }
    else if (lead >= 224) { more = 2; number = lead - 224 }
    else if (lead >= 192) { more = 1; number = lead - 192 }
    else return ""
    for (step = 1; step <= more; step++) {
        lead = byte_value[substr(it, place + step, 1)]
        if (lead < 128 || lead > 191) return ""
        number = number * 64 + lead - 128
    }
    width = more + 1
    return sprintf("%04X", number)
}

function number_of(count, one, many) {
    return count " " (count == 1 ? one : many)
}

# A text as in a line: the fields behind the first of them.
function joined(from, to,    place, made) {
    for (place = from; place <= to; place++) made = made (place > from ? " " : "") field[place]
    return made
}

# ## grammar

function explain_grammar(it,    found) {
    found = fault_of_bytes(it)
    if (found == "") found = fault_of_spaces(it)
    if (found == "") found = fault_of_fields(it)
    if (found != "") print "  " printable(found)
    if (form_used != "") print "  its form: " form_used
}

function fault_of_bytes(it,    place, one, code) {
    if (size > limits[1] && size - 1 > limits[1]) return "here the file passes " limits[1] " bytes" with_larger(1)
    if (substr(it, 1, 3) == "\357\273\277")
        return "a byte order mark stands at its beginning: save the file without one"
    if (index(it, "\000") || substr(it, 1, 2) == "\377\376" || substr(it, 1, 2) == "\376\377")
        return "bytes 00, FE or FF: is it UTF-16? Save the file as plain ASCII"
    if (substr(it, length(it), 1) == "\r")
        return "a CR stands at its end, as in files of Windows: lines end in LF alone (tr -d '\\r' takes them out)"
    if (index(it, "\r")) return "a CR stands in it: lines end in LF"
    if (length(it) > 1024) return "it has " length(it) " bytes; a line has at most 1024"
    for (place = 1; place <= length(it); place++) {
        one = substr(it, place, 1)
        if (one < "\200") continue
        code = code_point_at(it, place)
        if (substr(it, 1, 1) == "#")
            return "a letter past ASCII stands in a comment" (code == "" ? "" : ": " substr(it, place, width)) \
                ", at byte " place "; comments are ASCII too"
        if (code == "") return "a byte past 7F, at byte " place ": a file is plain ASCII"
        return "the character " substr(it, place, width) " is written by its code point, " code
    }
    return ""
}

function fault_of_spaces(it,    place) {
    place = index(it, "\t")
    if (place) return "a tab stands at byte " place ": fields are split by one space"
    if (it ~ /^ +$/) return "it holds spaces alone: an empty line has none"
    if (it ~ /^ /) return "a space stands at its beginning"
    if (it ~ /.#/) return "a comment stands behind a line: it has a line of its own, with # at its beginning"
    if (it ~ / $/) return "a space stands at its end"
    place = index(it, "  ")
    if (place) return "two spaces stand at byte " place ": fields are split by one"
    return ""
}

function fault_of_fields(it,    word) {
    count = split(it, field, " ")
    word = field[1]
    if (!(word in form)) {
        if (tolower(word) in form) return "the word is written small: " tolower(word)
        return "it begins with none of the words class, map, kmap, w, t, range, digit, set, and not with #"
    }
    form_used = form[word]
    if (word == "w" || word == "t") return fault_of_weights(it)
    if (word == "set") return fault_of_setting()
    return fault_of_numbers(word)
}

function fault_of_numbers(word,    place, last, found, number) {
    last = count
    if (word == "map" && field[count] == "x") last--
    if (word == "class" || word == "digit") { if (count != 3)
        return "it has " number_of(count - 1, "field", "fields") " behind the word, not 2" }
    if (word == "range" && count != 5)
        return "it has " number_of(count - 1, "field", "fields") " behind the word, not 4"
    if (word == "map" && (last < 3 || last > 4)) return "a mapping is to one or two characters"
    if (word == "kmap" && count < 3) return "no character is given that it is mapped to"
    for (place = 2; place <= (word == "class" || word == "digit" ? 2 : word == "range" ? 3 : last); place++) {
        found = fault_of_code_point(field[place])
        if (found != "") return found
    }
    number = field[3]
    if (word == "class" && number !~ /^(0|[1-9][0-9]?[0-9]?)$/)
        return number " is no class: one to three digits without leading zero"
    if (word == "digit" && number !~ /^[0-9]$/) return number " is no digit's value: 0 to 9"
    if (word != "range") return ""
    if (field[4] ~ /[a-f]/) return "digits are upper case: " toupper(field[4])
    if (field[4] !~ /^[0-9A-F]+$/ || length(field[4]) != 8) return field[4] " is no primary: eight hexadecimal digits"
    if (field[5] !~ /^[0-9][0-9]?[0-9]?$/) return field[5] " is no step: one to three decimal digits"
    return ""
}

function fault_of_code_point(it,    bare) {
    if (it ~ /^[0-9A-F]+$/) {
        if (length(it) < 4) return "a code point has at least four digits: " substr("000" it, length(it))
        if (length(it) > 4 && it ~ /^0/) return "past four digits no zero leads: " it
        if (length(it) > 6 || value_of(it) > 1114111) return it " is past 10FFFF"
        if (it ~ /^D[89A-F]..$/) return it " is a surrogate, half a character"
        return ""
    }
    bare = it
    sub(/^(U\+|u\+|0x|\\u)/, "", bare)
    if (toupper(bare) ~ /^[0-9A-F]+$/ && length(bare) >= 4) {
        if (bare != it) return "a code point is its digits alone: " toupper(bare)
        return "digits are upper case: " toupper(it)
    }
    if (toupper(it) ~ /^[0-9A-F]+[,.:]$/)
        return "a " substr(it, length(it)) " stands behind a code point: fields are split by one space"
    if (length(it) == 1) return "the character " it " is written by its code point, " sprintf("%04X", byte_value[it])
    if (it ~ /^\[/) return "an element stands before ;"
    return it " is no code point: four to six upper-case hexadecimal digits"
}

function fault_of_weights(it,    place, middle, bar, found) {
    for (place = 2; place <= count; place++) {
        if (field[place] == ";") { middle = place; break }
        if (field[place] == "|" && bar) return "two | stand in it"
        if (field[place] == "|") bar = place
    }
    if (!middle)
        return index(it, ";") ? "no space stands on both sides of ;" : "no ; stands between the text and its elements"
    for (place = 2; place < middle; place++) {
        if (place == bar) continue
        if (length(field[place]) > 1 && index(field[place], "|")) return "no space stands on both sides of |"
        found = fault_of_code_point(field[place])
        if (found != "") return found
    }
    if (bar == 2) return "no prefix stands before |"
    if (bar > 5) return "a prefix has at most three characters"
    if (middle == (bar ? bar : 1) + 1) return "it has no text"
    for (place = middle + 1; place <= count; place++) {
        found = fault_of_written(field[place])
        if (found != "") return found
    }
    return ""
}

function fault_of_written(it,    parts, part, place, names) {
    if (it == ";") return "two ; stand in it"
    if (it !~ /^\[.*\]$/) return it " is no element: [P.S.C.T.Q], without spaces"
    if (index(it, "][")) return "no space stands between two elements"
    if (it ~ /[a-f]/) return "digits are upper case: " toupper(it)
    parts = split(substr(it, 2, length(it) - 2), part, ".")
    if (parts != 5) return it " has " number_of(parts, "part", "parts") ", not five: [P.S.C.T.Q]"
    if (part[1] !~ /^[0-9A-F]+$/ || (part[1] != "0" && length(part[1]) != 8))
        return part[1] " is no primary: 0 or eight digits"
    if (part[2] !~ /^[0-9A-F]+$/ || length(part[2]) != 4) return part[2] " is no secondary: four digits"
    if (part[3] !~ /^[012]$/) return part[3] " is no case: 0, 1 or 2"
    if (part[4] !~ /^[0-9A-F]+$/ || length(part[4]) != 4) return part[4] " is no tertiary: four digits"
    if (part[5] !~ /^[0-3]$/) return part[5] " is no quaternary: 0 to 3"
    return ""
}

function fault_of_setting(    name, place, kinds, kind) {
    name = field[2]
    if (!(name in values))
        return "no setting is called " (name == "" ? "so" : name) ": alternate, backward, casefirst, maxvariable," \
            " dotabove, numeric, groups, compress, reorder"
    if (count < 3) return "no value stands behind " name
    if (values[name] != "") {
        if (count > 3) return name " has one value"
        kinds = split(values[name], kind, " ")
        for (place = 1; place <= kinds; place++) if (kind[place] == field[3]) return ""
        gsub(/ /, ", ", values[name])
        return name " has the values " values[name]
    }
    if (name == "groups" && count != 6) return "groups has four values, of four digits each"
    if (name == "numeric" && count != 3) return "numeric has one value, of two digits"
    if (name == "reorder" && count % 2) return "reorder has pairs of values"
    for (place = 3; place <= count; place++) {
        if (field[place] ~ /[a-f]/) return "digits are upper case: " toupper(field[place])
        if (field[place] !~ /^[0-9A-F]+$/ || length(field[place]) != (name == "groups" ? 4 : 2))
            return field[place] " is no value: " (name == "groups" ? "four" : "two") " hexadecimal digits"
    }
    return ""
}

# ## What lines say

# Notes what a line says: its word, what a second line may not be for, its text and prefix, where its elements stand.
function parse(at,    it, place, middle, bar) {
    it = text[at]
    if (it == "" || substr(it, 1, 1) == "#") return
    count = split(it, field, " ")
    says[at] = field[1]
    if (field[1] == "w" || field[1] == "t") {
        for (place = 2; place <= count; place++) {
            if (field[place] == ";") { middle = place; break }
            if (field[place] == "|") bar = place
        }
        prefix[at] = bar ? joined(2, bar - 1) : ""
        own[at] = joined((bar ? bar : 1) + 1, middle - 1)
        elements[at] = joined(middle + 1, count)
        key[at] = field[1] "|" prefix[at] "|" own[at]
        if (prefix[at] == "") recorded[own[at]] = at
        else prefixed[own[at]] = at
    } else if (field[1] == "range") {
        first[at] = field[2]
        last[at] = field[3]
        start[at] = field[4]
    } else {
        own[at] = field[2]
        key[at] = field[1] " " field[2]
        rest[at] = joined(3, count)
    }
    if (!(key[at] in first_of)) first_of[key[at]] = at
}

function show_line(at) {
    if (at != line) print "  line " at ": " shown(text[at])
}

# C1: the class or the other mapping of the character
function explain_mapped(    at) {
    for (at = 1; at <= line; at++)
        if (own[at] == own[line] && at != line && says[at] ~ /^(class|map|kmap)$/) show_line(at)
}

# C5
function explain_pairs(    at) {
    for (at = 1; at < line; at++) if (says[at] == "map" && rest[at] == rest[line]) show_line(at)
}

# ## Weights

# A weight's bytes, without trailing 00; empty where it is none.
function bytes_of(weight) {
    if (weight ~ /^0+$/) return ""
    while (weight ~ /00$/ && length(weight) > 2) weight = substr(weight, 1, length(weight) - 2)
    return weight
}

# V1 to V4: the element of the line that is meant
function explain_element(    parts, part, place, found) {
    parts = split(elements[line], part, " ")
    if (says[line] == "range") { parts = 1; part[1] = "[" start[line] ".0500.0.0500.0]" }
    for (place = 1; place <= parts; place++) {
        found = fault_of_element(part[place])
        if (found != "") { print "  " found " in " part[place]; return }
    }
}

function fault_of_element(it,    one) {
    split(substr(it, 2, length(it) - 2), one, ".")
    if (rule == "V1") return fault_of_kind(one[1] !~ /^0+$/, one[2] !~ /^0+$/, one[4] !~ /^0+$/, one[3], one[4])
    if (rule == "V2") return one[1] ~ /^0+$/ ? "" : fault_of_primary(one[1])
    if (rule == "V3") return fault_of_short(one[2], "secondary")
    return fault_of_short(one[4], "tertiary")
}

function fault_of_kind(has_primary, has_secondary, has_tertiary, case_bits, tertiary) {
    if (has_secondary && has_tertiary) return ""
    if (has_primary) return "beside a primary the secondary and the tertiary are not 0, as in 0500.0.0500,"
    if (has_secondary) return "beside a secondary the tertiary is not 0, as in 0500,"
    if (!has_tertiary) return "all is 0; an ignorable text has no element,"
    if (case_bits != 2 || substr(tertiary, 1, 2) < "06") return "alone, a tertiary has the case 2 and a lead from 06,"
    return ""
}

# The last value that lines before set, or the default.
function set_to(name, fallback) {
    return ("set " name) in first_of ? rest[first_of["set " name]] : fallback
}

function fault_of_primary(it,    bytes, place, lead) {
    bytes = bytes_of(it)
    lead = substr(it, 1, 2)
    if (lead < "03" || lead > "FC") return "the lead " lead " is not from 03 to FC"
    if (lead == set_to("numeric", "10")) return "the lead " lead " is that of numbers"
    if (length(bytes) < 4) return "the primary has one byte, and two to four may be,"
    for (place = 3; place < length(bytes); place += 2)
        if (substr(bytes, place, 2) < "02") return "the byte " substr(bytes, place, 2) " stands inside the primary"
    if ((lead == "FE" || index(" " set_to("compress", "") " ", " " lead " ")) && \
        (substr(it, 3, 2) < "04" || substr(it, 3, 2) > "FE"))
        return "the second byte " substr(it, 3, 2) " is not from 04 to FE, under the compressible lead " lead ","
    return ""
}

function fault_of_short(it, level,    lead, second) {
    lead = substr(it, 1, 2)
    second = substr(it, 3, 2)
    if (it ~ /^0+$/ || it == "0500") return ""
    if (level == "secondary" && (lead == "03" || lead == "04" || lead >= "46") && second != "01") return ""
    if (level == "tertiary" && ((lead >= "02" && lead <= "04") || (lead >= "06" && lead <= "3F")) && \
        second != "01" && second <= "3F") return ""
    return "the " level " " it " is none that may be,"
}

# V5: a weight of the line that begins another, or the other way round
function explain_begun(    at, level) {
    split("primary secondary case tertiary", level_name, " ")
    for (level = 1; level <= 4; level++) {
        if (level == 3) continue
        split("", seen)
        for (at = 1; at <= line; at++) note_weights(at, level)
        for (at = 1; at <= line; at++) if (find_begun(at, level)) return
    }
}

# Notes at which line each weight of a level stands first.
function note_weights(at, level,    parts, part, place, one, bytes) {
    parts = split(elements[at], part, " ")
    for (place = 1; place <= parts; place++) {
        split(substr(part[place], 2, length(part[place]) - 2), one, ".")
        bytes = bytes_of(one[level])
        if (bytes != "" && !(bytes in seen)) seen[bytes] = at
    }
}

# Whether a weight of the line begins with one that was noted; of both one stands in the line at fault.
function find_begun(at, level,    parts, part, place, one, bytes, head, width) {
    parts = split(elements[at], part, " ")
    for (place = 1; place <= parts; place++) {
        split(substr(part[place], 2, length(part[place]) - 2), one, ".")
        bytes = bytes_of(one[level])
        for (width = 2; width < length(bytes); width += 2) {
            head = substr(bytes, 1, width)
            if (!(head in seen)) continue
            show_line(seen[head])
            show_line(at)
            print "  the " level_name[level] " " head " of line " seen[head] " begins " bytes " of line " at
            return 1
        }
    }
    return 0
}

# V6: what a range meets
function explain_range(    at, other, parts, part, place) {
    for (other = 1; other <= line; other++) {
        if (says[other] != "range") continue
        if (value_of(first[other]) > value_of(last[other])) {
            if (other == line) print "  " first[other] " is above " last[other]
            continue
        }
        for (at = other + 1; at <= line; at++) {
            if (says[at] == "range" && value_of(first[at]) <= value_of(last[other]) && \
                value_of(first[other]) <= value_of(last[at])) { show_line(other); return }
        }
        for (at = 1; at <= line; at++) {
            if (at != line && other != line) continue
            parts = split(elements[at], part, " ")
            for (place = 1; place <= parts; place++) {
                if (substr(part[place], 2, 2) != substr(start[other], 1, 2) || length(part[place]) < 20) continue
                show_line(other)
                show_line(at)
                print "  the lead " substr(start[other], 1, 2) " of the range is that of " part[place]
                return
            }
        }
    }
}

# V7: the mapping, or the two marks that stand in another order
function explain_undecomposed(    parts, part, place, at) {
    parts = split(prefix[line] " " own[line], part, " ")
    for (place = 1; place <= parts; place++) {
        at = first_of["map " part[place]]
        if (at) {
            show_line(at)
            print "  " part[place] " decomposes, so the text is written with " rest[at]
            return
        }
        if (value_of(part[place]) >= 44032 && value_of(part[place]) <= 55203)
            print "  " part[place] " is a Hangul syllable, and decomposes to its jamo"
    }
}

# V9, V10, V11: the record that lacks
function explain_lacking(    it, cut) {
    it = own[line]
    if (rule == "V9") { cut = it; sub(/ [0-9A-F]+$/, "", cut); it = cut }
    if (!(it in recorded)) print "  there is no line w " it " ; .."
    else if (rule == "V11" && it in prefixed) show_line(prefixed[it])
}
