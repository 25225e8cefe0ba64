# With states.awk: the states that a card reaches in SPI, from crates/spi_moves/src/table.rt. Of the entries
# that are no state these states have Illegal alone, so that one note tells of every command without a move.

BEGIN {
    picture(1164, 780, "The states of a card in SPI, and what moves it", "crates/spi_moves/src/table.rt", 10, "Illegal", "rdy idt stb dis ina")
    box("Idle", "Idle", 480, 370)
    box("Tran", "Transfer", 750, 370)
    box("Data", "Sending-data", 750, 200)
    box("Rcv", "Receive-data", 1042, 370)
    box("Prg", "Programming", 750, 540)
    way("Idle", "Tran", "M565 370 H661", 613, 361, "middle", 20)
    way("Tran", "Data", "M712 328 V246", 704, 291, "end", 20)
    way("Tran", "Rcv", "M835 356 H953", 895, 347, "middle", 20)
    way("Tran", "Prg", "M712 412 V494", 704, 457, "end", 20)
    all_of("Idle Tran Data Rcv Prg", "Idle", "from each of the five states", "M480 126 V324", 490, 176, "start", 20)
    no_command("CMD0 with the select line low, from each state but Inactive", "M210 370 H391", 291, 313, "middle", 16)
    no_command("power-on, from each of the five", "M372 540 H202", 291, 515, "middle", 16)
    no_command("block out", "M788 242 V324", 796, 288, "start", 20)
    no_command("block refused 16 to 20", "M957 384 H839", 897, 403, "middle", 14)
    no_command("block taken", "M1042 412 V540 H839", 940, 531, "middle", 20)
    no_command("work done", "M788 498 V416", 796, 457, "start", 20)
}

# What stands below the boxes, and where power-on leads.
function ground() {
    ground_box("panel", 16, 126, 194, 484, 10)
    ground_box("panel", 372, 126, 764, 484, 10)
    printf "%s", one_line(198, 148, "end", "head", "MMC mode")
    printf "%s", one_line(1122, 148, "end", "head", "SPI")
    draw_box(113, 540, "Idle", "idle, state 0", "")
}

function footer(    words) {
    words = "Every other command, in every state: R1 with bit 22. A command moves nothing where its argument is "
    words = words "wrong, where the lock forbids it or where the select line is high."
    legend(372, 660, "a command: from the table of moves in SPI", "not in the table: from document 01 and request 1 of document 02", words, 92)
}
