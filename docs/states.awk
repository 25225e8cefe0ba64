# A picture of a card's states, from the entries of the tables (crates/moves/src/entries.rt) and a table of
# moves (a crate's src/table.rt): each move of the table is an
# arrow, or a word in the box of a state that stays. A second program says what is this picture's own, and
# the places: mmc_states.awk or spi_states.awk. A move that has no place, and a place that has no move, is
# an error.

# A box, by its centre.
function box(state, name, x, y) { name_of[state] = name; box_x[state] = x; box_y[state] = y; boxes[++box_count] = state }

# Where the arrow from a state to another goes, and its label: its place, its anchor, its characters to a line.
function way(from, to, path, x, y, anchor, wide) {
    ways[++way_count] = from SUBSEP to
    path_of[from, to] = path
    place[from, to] = x " " y " " anchor " " wide
}

# One arrow for a command that leads to a state from each of these.
function all_of(sources, to, words, path, x, y, anchor, wide) {
    group[to] = sources
    words_of[to] = words
    way("all", to, path, x, y, anchor, wide)
}

# What is no command, and so not in the table.
function no_command(label, path, x, y, anchor, wide) {
    calls[++call_count] = path
    call_label[call_count] = label
    call_place[call_count] = x " " y " " anchor " " wide
}

# The picture's size and title, its table and what that table has: its rows, the entries that are no state,
# and the columns of states that have no box, since no card reaches them.
function picture(width, height, title, table, total, marks, unreached,    names, i) {
    picture_width = width; picture_height = height; picture_title = title; table_path = table; row_total = total
    for (i = split(marks, names, " "); i > 0; i--) is_mark[names[i]]
    for (i = split(unreached, names, " "); i > 0; i--) no_box[names[i]]
}

# Labels put together: CMD7, CMD9, 10 make CMD7, 9, 10.
function joined(a, b) {
    if (a == "") return b
    sub(/^CMD/, "", b)
    return a ", " b
}

function fail(what) { print "states.awk: " what > "/dev/stderr"; failed = 1; exit 1 }

# The table: its entries by name, the columns, the rows.
/^pub const [A-Z]+: Move = Move::/ { entry = $0; gsub(/.*::|\)?;.*/, "", entry); entry_of[substr($3, 1, 3)] = entry }
/^ *\/\/ idl / { for (i = 2; i <= 11; i++) column[i - 1] = boxed(substr($i, 1, 3)) }
/^ *\[.*\], *\/\/ / { row($0) }

# The state of a column, or nothing for one that has no box.
function boxed(key,    state) {
    if (key in no_box) return ""
    state = entry_of[toupper(key)]
    if (!(state in name_of)) fail("no box for the column " key)
    return state
}

# A row: where it leads from each state that has a box.
function row(line,    label, cells, cell, count, i, to, sources) {
    label = cells = line
    sub(/.*\/\/ /, "", label)
    gsub(/^ *\[|\].*/, "", cells)
    count = split(cells, cell, ", ")
    if (count != 10) fail("a row of " count " states: " line)
    for (i = 1; i <= 10; i++) {
        if (column[i] == "") continue
        to = entry_of[cell[i]]
        if (to in is_mark) continue
        if (!(to in name_of)) fail("no box for " cell[i] ", where this leads from " column[i] ": " line)
        sources[to] = sources[to] (sources[to] == "" ? "" : " ") column[i]
    }
    for (to in sources) move(sources[to], to, label)
    rows++
}

# A row that leads to a state from these.
function move(sources, to, label,    count, from, i) {
    if (sources == group[to]) { label_of["all", to] = joined(label_of["all", to], label); return }
    count = split(sources, from, " ")
    for (i = 1; i <= count; i++) {
        if (from[i] == to) stays[to] = joined(stays[to], label)
        else if ((from[i], to) in path_of) label_of[from[i], to] = joined(label_of[from[i], to], label)
        else fail("no place for the arrow from " from[i] " to " to)
    }
}

# A text in lines of at most so many characters, about the place given.
function text(label, where, class,    at, words, count, i, line, out, y) {
    split(where, at, " ")
    count = split(label, words, " ")
    y = at[2]
    for (i = 1; i <= count; i++) {
        if (line != "" && length(line " " words[i]) > at[4]) { out = out one_line(at[1], y, at[3], class, line); line = ""; y += 16 }
        line = line (line == "" ? "" : " ") words[i]
    }
    return out one_line(at[1], y, at[3], class, line)
}

function one_line(x, y, anchor, class, line) {
    return sprintf("<text x='%d' y='%d' text-anchor='%s' class='%s'>%s</text>\n", x, y, anchor, class, line)
}

# The commands of a label in the order of their indices, where it has nothing but commands.
function in_order(label,    index_of, count, i, k, held, out) {
    if (label !~ /^CMD[0-9, ]+$/) return label
    count = split(substr(label, 4), index_of, ", ")
    for (i = 2; i <= count; i++) {
        held = index_of[i]
        for (k = i - 1; k > 0 && index_of[k] + 0 > held + 0; k--) index_of[k + 1] = index_of[k]
        index_of[k + 1] = held
    }
    for (i = 1; i <= count; i++) out = out (i == 1 ? "CMD" : ", ") index_of[i]
    return out
}

# A box by its centre: a name, a line below it, and what stays there.
function draw_box(x, y, name, below, stay) {
    printf "<rect x='%d' y='%d' width='170' height='84' rx='8' class='box'/>\n", x - 85, y - 42
    if (stay != "") stay = "stays: " in_order(stay)
    y -= stay == "" ? 3 : length(stay) <= 22 ? 13 : 20
    printf "%s", one_line(x, y, "middle", "name", name) one_line(x, y + 18, "middle", "short", below)
    if (stay != "") printf "%s", text(stay, x " " y + 37 " middle 22", "stay")
}

function draw_arrow(path, class) { printf "<path d='%s' class='%s' marker-end='url(#%s)'/>\n", path, class, class }

function marker(name, fill) {
    printf "<marker id='%s' viewBox='0 0 10 10' refX='5' refY='5' markerWidth='7' markerHeight='7' orient='auto'>", name
    printf "<path d='M0 0 L10 5 L0 10 z' fill='%s'/></marker>\n", fill
}

function style() {
    print "<style>"
    print ".box { fill: #ffffff; stroke: #1f2937; stroke-width: 1.6 }"
    print ".panel { fill: #eef3f9; stroke: #b6c4d6 }"
    print ".frame { fill: none; stroke: #6b7a90; stroke-width: 1.2 }"
    print ".title { font-size: 20px; font-weight: bold; fill: #111827 }"
    print ".name { font-size: 16px; font-weight: bold; fill: #111827 }"
    print ".short { font-size: 13px; font-weight: normal; fill: #4b5563 }"
    print ".stay { font-size: 13px; fill: #111827 }"
    print ".command, .call { fill: none; stroke-width: 1.6; stroke-linejoin: round }"
    print ".command { stroke: #1f2937 }"
    print ".call { stroke: #b45309; stroke-dasharray: 6 4 }"
    print ".label, .called, .head { font-size: 14px; fill: #111827 }"
    print ".called { fill: #9a4a06 }"
    print ".head { fill: #4b5f7a }"
    print "</style>"
}

function ground_box(class, x, y, width, height, round) {
    printf "<rect x='%d' y='%d' width='%d' height='%d' rx='%d' class='%s'/>\n", x, y, width, height, round, class
}

function header() {
    printf "<svg xmlns='http://www.w3.org/2000/svg' viewBox='0 0 %d %d' width='%d' height='%d'", picture_width, picture_height, picture_width, picture_height
    print " font-family='Helvetica, Arial, DejaVu Sans, sans-serif'>"
    print "<!-- Made by docs/pictures from " table_path ". -->"
    print "<title>" picture_title "</title>"
    style()
    print "<defs>"
    marker("command", "#1f2937")
    marker("call", "#b45309")
    print "</defs>"
    printf "<rect width='%d' height='%d' fill='#ffffff'/>\n", picture_width, picture_height
    printf "%s", one_line(picture_width - 16, 58, "end", "title", picture_title)
}

# What the two arrows are, and more words below, so many characters to a line.
function legend(x, y, command, called, words, wide) {
    draw_arrow("M" x " " y " H" x + 48, "command")
    printf "%s", one_line(x + 66, y + 5, "start", "label", command)
    draw_arrow("M" x " " y + 26 " H" x + 48, "call")
    printf "%s", one_line(x + 66, y + 31, "start", "called", called)
    printf "%s", text(words, x " " y + 64 " start " wide, "label")
}

END {
    if (failed) exit 1
    if (rows != row_total) fail("the table has " rows + 0 " rows")
    header()
    ground()
    for (i = 1; i <= 10; i++) {
        state = column[i]
        if (state == "") continue
        draw_box(box_x[state], box_y[state], name_of[state], tolower(state) ", state " i - 1, stays[state])
    }
    for (i = 1; i <= way_count; i++) {
        split(ways[i], ends, SUBSEP)
        if (!(ways[i] in label_of)) fail("the table has no move from " ends[1] " to " ends[2])
        draw_arrow(path_of[ways[i]], "command")
        more = ends[1] == "all" ? ", " words_of[ends[2]] : ""
        printf "%s", text(label_of[ways[i]] more, place[ways[i]], "label")
    }
    for (i = 1; i <= call_count; i++) {
        draw_arrow(calls[i], "call")
        printf "%s", text(call_label[i], call_place[i], "called")
    }
    footer()
    print "</svg>"
}
