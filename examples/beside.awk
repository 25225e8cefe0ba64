# What busline or cardline (-v program=NAME) said, beside the comments of its script: each line of the
# script's text without its bytes, and below it what was said of the records that end in that line. The
# first file is what the program said, a line for each record; the second is the script in hex.

# A byte of what is left of the script, and 0 behind its end.
function byte(i) { return 16 * digit(2 * i + 1) + digit(2 * i + 2) }
function digit(i,    d) { d = index("0123456789ABCDEF", substr(hex, i, 1)); return d ? d - 1 : 0 }

# The length of the record at the front, by its kind and the lengths in it. As long as a length in it
# is not there, this is more than there is.
function size(    kind) {
    kind = byte(0)
    if (program == "busline") return kind == 1 ? 16 : kind == 2 ? 7 : 1
    if (kind == 1) return 43 + byte(5) + byte(42 + byte(5))
    if (kind == 2 || kind == 14) return 2 + byte(1)
    if (kind == 3 || kind == 13) return 3 + 256 * byte(1) + byte(2)
    if (kind == 12) return 5 + 256 * byte(1) + byte(2)
    return kind in fixed ? fixed[kind] : 1
}

BEGIN { fixed[4] = 3; fixed[8] = 6; fixed[9] = 5; fixed[10] = 3; fixed[11] = 7 }
FILENAME == ARGV[1] { said[++lines] = $0; next }
{
    sub(/\r$/, "")
    note = code = $0
    sub(/#.*/, "", code)
    gsub(/[ \t]/, "", code)
    hex = hex toupper(code)
    if (sub(/^[^#]*# ?/, "", note) || code == "") print note
    while (length(hex) && 2 * size() <= length(hex)) {
        hex = substr(hex, 2 * size() + 1)
        if (n < lines) print "    " said[++n]
    }
}
# What is left over: the line of a record that is cut, or too big.
END { while (n < lines) print "    " said[++n] }
