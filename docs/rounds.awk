# The picture of a bus, round by round, from a script of busline and what the program said of it. The
# first file is what it said, a line for each record; the second the script, in hex without comments.
# What a unit did is told from the identifier that the script gave it and the one that the line showed.

function hex(digits,    i, n) {
    for (i = 1; i <= length(digits); i++) n = 16 * n + index("0123456789ABCDEF", substr(digits, i, 1)) - 1
    return n + 0
}

# An identifier without the zeros at its front.
function brief(identifier) { sub(/^(00)*/, "", identifier); return identifier == "" ? "00" : identifier }

function fail(what) { print "rounds.awk: " what > "/dev/stderr"; failed = 1; exit 1 }

FILENAME == ARGV[1] { sub(/^ */, ""); said[++lines] = $0; next }
{ gsub(/[ \t\r]/, ""); script = script toupper($0) }

# The script, record by record, each with its line.
function play(    kind, answer) {
    while (script != "") {
        kind = substr(script, 1, 2)
        if (++record > lines || kind !~ /^0[12]$/) fail("record " record " is not one of a card or a frame with its line")
        split(said[record], word, " ")
        answer = word[2] == "line" ? word[3] : ""
        if (kind == "01") dock(word[1] == "card" ? word[2] : 0, substr(script, 3, 30))
        else heard(hex(substr(script, 3, 2)) - 64, hex(substr(script, 5, 4)), answer)
        script = substr(script, kind == "01" ? 33 : 15)
    }
}

# A unit is docked: the first that had its identifier gives the colour.
function dock(number, identifier,    first) {
    if (number != units + 1) fail("record " record " added no card")
    units++
    identifier_of[units] = identifier
    for (first = 1; identifier_of[first] != identifier; first++) { }
    same_as[units] = first
}

# A frame for all: a round is CMD2 and the CMD3 that follows; CMD13 asks a number afterwards.
function heard(command, number, answer,    u) {
    if (command == 2) {
        shown[++rounds] = substr(answer, 3, 30)
        sent[rounds] = "CMD2"
        for (u = 1; u <= units; u++)
            cell[rounds, u] = number_of[u] ? "has " number_of[u] : shown[rounds] == identifier_of[u] ? "won" : "lost"
    }
    if (command == 3 && answer != "") {
        sent[rounds] = "CMD2, CMD3"
        for (u = 1; u <= units; u++) if (cell[rounds, u] == "won") number_of[u] = given[rounds] = number
    }
    if (command == 13 && answer != "") {
        asked[++questions] = number
        state_of[number] = states[int(hex(substr(answer, 7, 2)) / 2) % 16 + 1]
        reply[questions] = answer
    }
}

# What a unit with a number is: its state where a CMD13 told it.
function standing(number) { return (number in state_of ? state_of[number] ", n" : "n") "umber " number }

# The place, from 1, of the first bit in which two identifiers differ; the second must be the lower there.
function parting(own, lower,    i, a, b, bit) {
    for (i = 1; substr(own, i, 1) == substr(lower, i, 1); i++) { }
    a = hex(substr(own, i, 1)); b = hex(substr(lower, i, 1))
    if (a < b) fail("the line shows " lower ", and " own " is lower")
    for (bit = 8; int(a / bit) % 2 == int(b / bit) % 2; bit /= 2) { }
    return 4 * i - (bit == 8 ? 3 : bit == 4 ? 2 : bit == 2 ? 1 : 0)
}

function text(x, y, class, line) { printf "<text x='%d' y='%d' class='%s'>%s</text>\n", x, y, class, line }

function rect(x, y, w, h, fill, stroke, more) {
    printf "<rect x='%d' y='%d' width='%d' height='%d' rx='8' ", x, y, w, h
    printf "fill='%s' stroke='%s' stroke-width='1.6'%s/>\n", fill, stroke, more
}

# The left edge of a unit's column, and the colours of its identifier.
function left(u) { return 132 + 200 * (u - 1) }
function dark(u) { return substr("#1d4ed8#b45309#047857#7e22ce#be123c#0f766e", 7 * ((same_as[u] - 1) % 6) + 1, 7) }
function light(u) { return substr("#dbe7ff#fdebd0#d3f3e4#efdffd#fddfe5#d5f1ee", 7 * ((same_as[u] - 1) % 6) + 1, 7) }

# A unit's part in a round.
function draw_cell(r, u, y,    x, own) {
    x = left(u)
    own = identifier_of[u]
    if (cell[r, u] == "won") {
        rect(x, y, 184, 72, light(u), dark(u), "")
        text(x + 92, y + 29, "strong", "says " brief(own) ": heard")
        text(x + 92, y + 52, "cell", given[r] ? standing(given[r]) : "gets no number")
    } else if (cell[r, u] == "lost" && shown[r] != "") {
        rect(x, y, 184, 72, "#ffffff", dark(u), " stroke-dasharray='5 4'")
        text(x + 92, y + 29, "cell", "says " brief(own))
        text(x + 92, y + 52, "cell", "falls silent at bit " parting(own, shown[r]))
    } else {
        rect(x, y, 184, 72, "#f3f4f6", "#d1d5db", "")
        text(x + 92, y + 41, "quiet", cell[r, u] == "lost" ? "keeps silent" : standing(substr(cell[r, u], 5)))
    }
}

function from(who) { return "from " who (who == 1 ? " unit" : " units") }

function draw_line(y, what, below, class) {
    text(left(units + 1) + 100, y + 29, class, what)
    text(left(units + 1) + 100, y + 52, "cell", below)
}

# The units, and a bracket over those that have one identifier.
function draw_head(    u, first) {
    text(left(units + 1) + 100, 82, "head", "the line shows")
    for (u = 1; u <= units; u++) {
        first = same_as[u]
        if (first != u) {
            printf "<path d='M%d 48 V28 H%d V48' ", left(first) + 92, left(u) + 92
            printf "fill='none' stroke='%s' stroke-width='2'/>\n", dark(u)
            text((left(first) + left(u)) / 2 + 92, 20, "cell", "the same identifier")
        }
        rect(left(u), 48, 184, 62, dark(u), dark(u), "")
        text(left(u) + 92, 73, "unit", "Unit " u)
        text(left(u) + 92, 97, "identifier", brief(identifier_of[u]))
    }
}

function draw_round(r, y,    u, who) {
    text(66, y + 33, "strong", "Round " r)
    text(66, y + 53, "quiet", sent[r])
    for (u = 1; u <= units; u++) {
        draw_cell(r, u, y)
        who += cell[r, u] == "won"
    }
    if (shown[r] == "") draw_line(y, "silence", "nobody answers", "silence")
    else draw_line(y, brief(shown[r]), from(who), "shown")
}

# A number asked afterwards: all that have it answer, and the line shows one answer.
function draw_question(q, y,    u, who) {
    text(66, y + 33, "strong", "To number " asked[q])
    text(66, y + 53, "quiet", "CMD13")
    for (u = 1; u <= units; u++) {
        if (number_of[u] == asked[q]) {
            rect(left(u), y, 184, 72, light(u), dark(u), "")
            text(left(u) + 92, y + 41, "strong", "answers")
            who++
        } else {
            rect(left(u), y, 184, 72, "#f3f4f6", "#d1d5db", "")
            text(left(u) + 92, y + 41, "quiet", "keeps silent")
        }
    }
    draw_line(y, reply[q], state_of[asked[q]] ", " from(who), "reply")
}

# What the dock can count: fewer rounds answered than units docked, and then silence.
function draw_verdict(y,    answered, r, words, fill, edge) {
    for (r = 1; r <= rounds; r++) answered += shown[r] != ""
    words = "the roll is not over"
    fill = "#f3f4f6"; edge = "#6b7280"
    if (shown[rounds] == "" && answered < units) { words = "there is a clone on the bus"; fill = "#fde2e2"; edge = "#b91c1c" }
    if (shown[rounds] == "" && answered == units) { words = "there is no clone on the bus"; fill = "#e2f5e8"; edge = "#047857" }
    rect(24, y, left(units + 1) + 176, 50, fill, edge, "")
    text(24 + (left(units + 1) + 176) / 2, y + 31, "strong", units " units docked, " answered " rounds answered: " words)
}

function header(width, height) {
    printf "<svg xmlns='http://www.w3.org/2000/svg' viewBox='0 0 %d %d' width='%d' height='%d'", width, height, width, height
    print " font-family='Helvetica, Arial, DejaVu Sans, sans-serif' text-anchor='middle'>"
    print "<!-- Made by docs/pictures from examples/night_of_two_clones.hex and what busline prints of it. -->"
    print "<title>A bus with clones, round by round</title>"
    print "<style>"
    print ".unit { font-size: 15px; font-weight: bold; fill: #ffffff }"
    print ".identifier { font-size: 18px; font-weight: bold; fill: #ffffff }"
    print ".shown { font-size: 18px; font-weight: bold; fill: #111827 }"
    print ".silence { font-size: 18px; font-weight: bold; fill: #b91c1c }"
    print ".strong { font-size: 15px; font-weight: bold; fill: #111827 }"
    print ".cell { font-size: 14px; fill: #1f2937 }"
    print ".quiet { font-size: 14px; fill: #6b7280 }"
    print ".head { font-size: 15px; fill: #374151 }"
    print ".reply { font-size: 15px; font-family: DejaVu Sans Mono, Menlo, Consolas, monospace; fill: #111827 }"
    print "</style>"
    printf "<rect width='%d' height='%d' fill='#ffffff'/>\n", width, height
}

END {
    if (failed) exit 1
    split("Idle Ready Identification Stand-by Transfer Sending-data Receive-data Programming Disconnect", states, " ")
    play()
    rows = rounds + questions
    header(left(units + 1) + 224, 128 + 88 * rows + 78)
    draw_head()
    for (r = 1; r <= rounds; r++) draw_round(r, 128 + 88 * (r - 1))
    for (q = 1; q <= questions; q++) draw_question(q, 128 + 88 * (rounds + q - 1))
    draw_verdict(128 + 88 * rows + 4)
    print "</svg>"
}
