# With states.awk: the states of a card in MMC mode, from crates/moves/src/table.rt.

BEGIN {
    picture(1164, 830, "The states of a card, and what moves it", "crates/moves/src/table.rt", 20, "Ignored Silent Illegal", "")
    box("Idle", "Idle", 140, 200)
    box("Ready", "Ready", 140, 370)
    box("Ident", "Identification", 140, 540)
    box("Stby", "Stand-by", 480, 370)
    box("Tran", "Transfer", 750, 370)
    box("Data", "Sending-data", 750, 200)
    box("Rcv", "Receive-data", 1042, 370)
    box("Prg", "Programming", 750, 540)
    box("Dis", "Disconnect", 480, 540)
    box("Ina", "Inactive", 480, 750)
    way("Idle", "Ready", "M140 242 V324", 150, 279, "start", 20)
    way("Idle", "Ina", "M55 200 H20 V750 H391", 34, 741, "start", 40)
    way("Ready", "Ident", "M140 412 V494", 150, 457, "start", 20)
    way("Ident", "Stby", "M225 540 H348 V370 H391", 284, 531, "middle", 20)
    way("Stby", "Tran", "M565 356 H661", 613, 347, "middle", 20)
    way("Tran", "Stby", "M665 384 H569", 617, 403, "middle", 20)
    way("Data", "Stby", "M665 200 H480 V324", 575, 191, "middle", 20)
    way("Tran", "Data", "M692 328 V246", 684, 291, "end", 20)
    way("Data", "Tran", "M738 242 V324", 745, 288, "start", 20)
    way("Tran", "Rcv", "M835 356 H953", 895, 347, "middle", 20)
    way("Rcv", "Prg", "M1002 412 V526 H839", 920, 517, "middle", 20)
    way("Tran", "Prg", "M712 412 V494", 704, 457, "end", 20)
    way("Prg", "Dis", "M665 526 H569", 617, 517, "middle", 20)
    way("Dis", "Prg", "M565 554 H661", 613, 573, "middle", 20)
    six = "Stby Tran Data Rcv Prg Dis"
    all_of("Idle Ready Ident " six, "Idle", "from each state in the outer frame", "M170 92 V154", 182, 114, "start", 60)
    all_of(six, "Ina", "from each state of data transfer", "M480 610 V704", 490, 660, "start", 22)
    no_command("power-on, from each of the ten states", "M110 50 V154", 124, 54, "start", 60)
    no_command("block out (CMD17, 30)", "M808 242 V324", 816, 280, "start", 12)
    no_command("block refused 16 to 20 (CMD24, 42)", "M957 384 H839", 897, 403, "middle", 14)
    no_command("block taken (CMD24, 42)", "M1082 412 V554 H839", 956, 573, "middle", 40)
    no_command("work done", "M788 498 V416", 796, 457, "start", 20)
    no_command("work done", "M480 498 V416", 490, 457, "start", 20)
}

# What stands below the boxes.
function ground() {
    ground_box("frame", 36, 92, 1112, 530, 14)
    ground_box("panel", 48, 126, 276, 484, 10)
    ground_box("panel", 372, 126, 764, 484, 10)
    printf "%s", one_line(312, 148, "end", "head", "card identification")
    printf "%s", one_line(1122, 148, "end", "head", "data transfer")
}

function footer(    words) {
    words = "own: for this card's address; other: for another's; won: this card's identifier won the line. "
    words = words "A command moves nothing where it is on no arrow and in no box, nor where its argument is wrong or the lock forbids it."
    legend(690, 660, "a command: from the table of moves", "no command, not in the table: from document 01", words, 57)
}
