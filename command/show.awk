# Lays out what the program showform prints, for ./oskuramos show. The Blob's name is ENVIRON["file"], and `mode` one of these:
#   text    the lines, with doubles as decimals; painted where `colour` is set
#   only    a line for each property that is `want`: unmapped, a name, or (`by_id` is set) an id; how many they were goes to the file ENVIRON["count"]
#   json    one object; docs/FORMAT.md says which fields it has
#   no      the object of a Blob that isn't shown: `answer`, `controls` and `properties` where they are known, and ENVIRON["why"]
# Lines of `showform` are read where `part` is shown. Before them, where part is rows, come those of the listing: its P lines and the lines
# of properties are of the same rows, in the same order, and so are its C lines and the lines of controls.

# ---- doubles
function number(hex,    i, n) {
    for (i = 1; i <= length(hex); i++) n = 16 * n + index("0123456789ABCDEF", substr(hex, i, 1)) - 1
    return n
}

# A double, by its 16 hex digits, as a decimal that reads back as the same double; nothing where it isn't finite.
function decimal(hex,    high, sign, exponent, fraction, value, digits, text) {
    high = number(substr(hex, 1, 8))
    sign = high >= 2147483648
    if (sign) high -= 2147483648
    exponent = int(high / 1048576)
    if (exponent == 2047) return ""
    fraction = (high % 1048576) * 4294967296 + number(substr(hex, 9))
    value = exponent ? (fraction + 4503599627370496) * 2 ^ (exponent - 1075) : fraction * 2 ^ -1074
    for (digits = 15; digits <= 17; digits++) {
        text = sprintf("%." digits "g", value)
        if (text + 0 == value) break
    }
    return (sign ? "-" : "") text
}

# The same for a reader, with the bits after it.
function readable(hex,    text) {
    text = decimal(hex)
    if (text == "") text = substr(hex, 4) ~ /[^0]/ ? "not a number" : hex ~ /^F/ ? "-infinity" : "infinity"
    return text " (double " hex ")"
}

# ---- JSON
# How many bytes the UTF-8 character at i has; 0 where there is none.
function utf8(s, i,    c, d, n, j) {
    c = code[substr(s, i, 1)]
    d = code[substr(s, i + 1, 1)]
    n = c < 194 || c > 244 ? 0 : c < 224 ? 2 : c < 240 ? 3 : 4
    for (j = 1; j < n; j++) if (int(code[substr(s, i + j, 1)] / 64) != 2) return 0
    if ((c == 224 && d < 160) || (c == 237 && d > 159) || (c == 240 && d < 144) || (c == 244 && d > 143)) return 0
    return n
}

# A name of any bytes; those that aren't UTF-8 become U+FFFD.
function string_of(s,    i, c, n, out) {
    for (i = 1; i < 256; i++) code[sprintf("%c", i)] = i
    for (i = 1; i <= length(s); i += n) {
        n = 1
        c = code[substr(s, i, 1)]
        if (c == 34 || c == 92) out = out "\\" substr(s, i, 1)
        else if (c < 32 || c == 127) out = out sprintf("\\u%04x", c)
        else if (c < 128) out = out substr(s, i, 1)
        else if (utf8(s, i)) { n = utf8(s, i); out = out substr(s, i, n) }
        else out = out "\\ufffd"
    }
    return quote(out)
}

function quote(s) { return "\"" s "\"" }
function or_null(s) { return s == "-" ? "null" : s }

# `K bytes HEX ..`
function bytes(s,    part) {
    split(s, part, " ")
    return "null,\"bytes\":" part[1] ",\"hex\":" quote(part[3])
}

# What stands after "value": by the kind of value.
function value_of(kind, s,    text) {
    if (kind == "bool") return s == "yes" ? "true" : "false"
    if (kind == "notdefault") return "null"
    if (kind == "guid") return quote(s)
    if (kind == "binary" || kind == "loose") return bytes(substr(s, length(kind) + 2))
    if (kind != "double") return s
    text = decimal(substr(s, 8))
    if (text == "-0") text = "-0.0"
    return (text == "" ? "null" : text) ",\"bits\":" quote(substr(s, 8))
}

function json_head(    part, count) {
    split($0, part, ", ")
    split(part[2] " " part[3] " " part[4], count, " ")
    print "{\"file\":" string_of(ENVIRON["file"]) ",\"answer\":0,\"reading\":" quote(part[1])
    print ",\"counts\":{\"controls\":" count[1] ",\"properties\":" count[3] ",\"unmapped\":" count[5] "}"
}

function json_control(s,    n, type, name) {
    n = substr(s, 2) + 0
    sub(/^#[0-9]+ /, "", s)
    type = s ~ /^type / ? "null" : quote(substr(s, 1, index(s, " ") - 1))
    sub(/^(type )?[^ ]+ /, "", s)
    if (s ~ /^"/) name = s ",\"named\":\"text\""
    else if (s ~ /^loose /) name = bytes(substr(s, 7)) ",\"named\":\"loose\""
    else name = quote(s) ",\"named\":\"numbered\""
    print (n ? "]}," : "]},\"controls\":[") "{\"number\":" n ",\"code\":" quote(type_code[n]) ",\"type\":" type
    print ",\"level\":" level[n] ",\"parent\":" or_null(parent[n]) ",\"name\":"
    print name
    print ",\"properties\":["
    controls = n + 1
    comma = ""
}

function json_property(key, value,    part) {
    print comma "{\"row\":" row ",\"id\":" quote(id[row]) ",\"name\":" (name[row] == "-" ? "null" : quote(name[row])) ",\"kind\":" quote(kind[row]) ",\"value\":"
    print value_of(kind[row], value)
    if (key ~ /^!! /) {
        split(key, part, " ")
        print ",\"unmapped\":{\"code\":" quote(part[4]) ",\"scope\":" quote(part[6] (part[7] == "" ? "" : " " part[7])) "}"
    }
    print "}"
    comma = ","
}

# ---- lines
function paint(s, how) { return colour ? "\033[" how "m" s "\033[0m" : s }

# Ids such as 00E1 are compared as text: as numbers 00E1 and 00E4 are both 0.
function wanted(key) {
    if (want == "unmapped") return key ~ /^!! /
    return by_id ? id[row] "" == want "" : key "" == want ""
}

BEGIN {
    strong = "1"
    loud = "1;31"
    row = 0
    if (mode == "json") ORS = ""
    if (mode == "no") {
        line = "{\"file\":" string_of(ENVIRON["file"]) ",\"answer\":" answer
        if (controls != "") line = line ",\"counts\":{\"controls\":" controls ",\"properties\":" properties "}"
        print line ",\"why\":" string_of(ENVIRON["why"]) "}"
        exit
    }
}

part == "rows" {
    if ($1 == "P") { id[$2] = $3; name[$2] = $4; kind[$2] = $5 }
    if ($1 == "C") { type_code[$2] = $3; level[$2] = $8; parent[$2] = $9 }
    next
}

FNR == 1 {
    match($0, /[^,]*$/)
    if (mode == "text") print paint(substr($0, 1, RSTART - 1), strong) paint(substr($0, RSTART), / 0 unmapped$/ ? strong : loud)
    if (mode == "json") json_head()
    next
}

{
    blanks = match($0, /[^ ]/) - 1
    line = substr($0, blanks + 1)
    margin = substr($0, 1, blanks)
}

# the object, and the controls
FNR == 2 || line ~ /^#/ {
    place = line
    if (mode == "text") print margin paint(line, strong)
    if (mode == "json" && FNR == 2) print ",\"object\":{\"kind\":" quote(line) ",\"properties\":["
    if (mode == "json" && FNR > 2) json_control(line)
    next
}

# properties
{
    at = index(line, " = ")
    key = substr(line, 1, at - 1)
    value = substr(line, at + 3)
    if (mode == "json") json_property(key, value)
    else {
        if (value ~ /^double /) line = key " = " readable(substr(value, 8))
        if (key ~ /^!! /) line = paint(line, loud)
        if (mode == "text") print margin line
        else if (wanted(key)) { found++; print ENVIRON["file"] ": " place ": " line }
    }
    row++
}

END {
    if (mode == "json") print (controls ? "]}]}" : "]},\"controls\":[]}") "\n"
    if (mode == "only") print found + 0 >ENVIRON["count"]
}
