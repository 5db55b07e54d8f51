# A random text of edits of the number `number`. Writes the text to the file `text`, what `edit` prints for it to `due`, and the batch
# that the journal then ends with to `batch`, in hexadecimal digits; that is empty where nothing is written. Each line is made from
# what it says, and not read back, so nothing here reads a text of edits.

function one_of(list,    parts, n) { n = split(list, parts, "|"); return parts[1 + int(rand() * n)] }

# A whole number from the least to the greatest.
function between(least, greatest) { return least + int(rand() * (greatest - least + 1)) }

# The low bytes of a whole number, the high one first, as digits; of a number below 0 its complement.
function bytes(value, count,    low, high) {
    if (value >= 0) { high = int(value / 4294967296); low = value - high * 4294967296 }
    else {
        high = int(-value / 4294967296); low = -value - high * 4294967296
        if (low > 0) { low = 4294967296 - low; high = 4294967295 - high } else high = 4294967296 - high
        if (value == 0) high = 0
    }
    return substr(sprintf("%08x%08x", high, low), 17 - 2 * count)
}

# A length: sets `length_text` and `increments`, in 0.001 mm.
function make_length(    whole, part) {
    increments = between(0, 3) == 0 ? between(0, 99999999) : between(0, 400000)
    if (between(0, 9) == 0) increments = 99999999
    whole = int(increments / 1000); part = increments - whole * 1000
    if (between(0, 3) == 0) length_text = increments ""
    else if (part == 0 && between(0, 1)) length_text = whole "."
    else if (whole == 0 && between(0, 1)) length_text = sprintf(".%03d", part)
    else length_text = sprintf("%d.%03d%s", whole, part, one_of("|0|4|49|499"))
    if (increments > 0 && between(0, 1)) { length_text = "-" length_text; increments = -increments }
    else if (between(0, 4) == 0) length_text = "+" length_text
}

# A value: sets `value_text` and `millionths`.
function make_value(    whole, part) {
    whole = between(0, 2) == 0 ? between(0, 99999999) : between(0, 99)
    part = between(0, 1) ? 0 : between(0, 999999)
    millionths = whole * 1000000 + part
    if (part == 0) value_text = whole one_of("||.|.0")
    else value_text = (whole == 0 && between(0, 1) ? "" : whole) sprintf(".%06d", part)
    if (value_text ~ /^[0-9]/ && between(0, 5) == 0) value_text = "00" value_text
    if (millionths > 0 && between(0, 2) == 0) { value_text = "-" value_text; millionths = -millionths }
}

# The line of an edit: sets `line` and `record`.
function make_edit(    path, kind, n, x, at_x) {
    path = between(1, 2)
    kind = between(1, 4)
    if (kind == 4) {
        n = between(0, 1) ? between(100, 199) : between(500, 999)
        record = bytes(path, 1) "06" "04" bytes(n, 2)
        if (between(0, 3) == 0) { line = "var " path " " n " vacant"; record = record bytes(0, 8) bytes(0, 8) }
        else { make_value(); line = "var " path " " n " " value_text; record = record bytes(1, 8) bytes(millionths, 8) }
    } else {
        make_length(); x = length_text; at_x = increments
        make_length()
        n = kind == 1 ? between(0, 6) : between(1, 64)
        line = substr("work tool wear ", 5 * kind - 4, 5) path " " (kind == 1 && n > 0 ? 53 + n : n) " X" x " Z" length_text
        record = bytes(path, 1) "06" bytes(kind, 1) bytes(n, 2) bytes(at_x, 8) bytes(increments, 8)
    }
}

# The line with blanks where they count for nothing, and with what may stand before its line feed.
function spaced(line) {
    if (between(0, 4) == 0) gsub(/ /, "  ", line)
    if (between(0, 9) == 0) line = "  " line
    if (between(0, 9) == 0) line = line " "
    if (between(0, 9) == 0) line = line "\r"
    return line
}

BEGIN {
    srand(number)
    bad = "work 1 53 X0 Z0|work 1 60 X0 Z0|work 1 1 X0 Z0|work 3 54 X0 Z0|work 1 54 X0|work 1 54 Z0 X0|work 1 054 X0 Z0|work 1 54 X0 Z0 X0"
    bad = bad "|tool 1 0 X0 Z0|tool 1 65 X0 Z0|wear 0 1 X0 Z0|wear 1 064 X0 Z0|wear 1 -1 X0 Z0|Work 1 54 X0 Z0|work 1 54 x0 z0|work 1 54 X Z0"
    bad = bad "|work 1 54 X100000. Z0|work 1 54 X0 Z-100000000|tool 2 1 X99999.9995 Z0|tool 2 1 X0.0000001 Z0|geometry 1 1 X0 Z0"
    bad = bad "|var 1 99 0|var 1 200 0|var 1 499 0|var 1 1000 0|var 1 0 0|var 1 33 0|var 3 500 0|var 1 500|var 1 500 1 2|var 1 500 Vacant|var 1 500 123456789"
    bad = bad "|var 1 500 0.0000001|var 1 500 1e3|var 1 500 #1|var 1 500 -|var 1 500 .|var 1 500 1.2.3|var 1 #500 1|VAR 1 500 1|var 1 0500 1"
    bad = bad "|place 1 X0 Z0|home 1 X0 Z0|skip 1 1|records 5|wait 100 101|shared500 5|paths bits|frame 1 X0 Z0|x|%|)|G10|;"
    lines = between(0, 3) == 0 ? between(60, 80) : between(0, 12)
    badness = one_of("0|0|0|0.02|0.1")
    edits = 0
    refused = 0
    records = ""
    for (l = 1; l <= lines; l++) {
        if (rand() < badness) { line = one_of(bad); if (!refused) refused = l }
        else if (between(0, 7) == 0) line = one_of("|  |(a comment|( a comment )| (work 1 54 X0|()")
        else {
            make_edit()
            line = spaced(line)
            if (!refused) { if (++edits > 64) refused = l; else records = records record }
        }
        printf "%s%s", line, (l == lines && line !~ /\r$/ && between(0, 1) ? "" : "\n") > text
    }
    if (lines == 0) printf "" > text
    printf "%s\n", (refused ? "refused 91 BadEdit line " refused : "edited " edits) > due
    printf "%s", (refused || edits == 0 ? "" : bytes(edits, 1) records) > batch
}
