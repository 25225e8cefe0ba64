//! Everything that a card can reach in scripts of `cardline`, as points with names.

use crate::card::State;
use crate::{opening_cover, reset_cover, spi_points};
use std::collections::BTreeSet;

pub const STATES: [&str; 10] = ["idle", "ready", "ident", "stby", "tran", "data", "rcv", "prg", "dis", "ina"];

pub fn name(state: State) -> &'static str {
    STATES[state.number() as usize]
}

/// The bits of a status word that are not state or bit 8.
pub const BITS: [u32; 12] = [31, 30, 29, 28, 27, 26, 25, 24, 23, 22, 15, 13];

/// The commands that only an unlocked card carries out.
pub const LOCKABLE: [u8; 12] = [17, 18, 24, 25, 28, 29, 30, 32, 33, 35, 36, 38];

/// The commands that one card answers to and another does not.
pub const ADDRESSED: [u8; 5] = [7, 9, 10, 13, 15];

/// Which bits a command's own R1 can show that were not pending before it.
const BITS_SET: [(u8, &[u32]); 15] = [
    (3, &[31]),
    (16, &[29, 13]),
    (17, &[31, 30, 13]),
    (18, &[31, 30, 13]),
    (24, &[31, 30, 29, 13]),
    (25, &[31, 30, 29, 13]),
    (28, &[31, 13]),
    (29, &[31, 13]),
    (30, &[31, 13]),
    (32, &[31]),
    (33, &[31, 28, 27]),
    (35, &[31]),
    (36, &[31, 28, 27]),
    (38, &[28]),
    (42, &[13]),
];

/// A table of legal moves: command, states on reception, states after (none: the same).
pub type Moves = &'static [(u8, &'static [usize], &'static [usize])];

const MOVES: Moves = &[
    (0, &[0, 1, 2, 3, 4, 5, 6, 7, 8], &[0]),
    (1, &[0], &[0, 1, 9]),
    (2, &[1], &[2]),
    (3, &[2], &[2, 3]),
    (7, &[3], &[3, 4]),
    (7, &[4, 5], &[3]),
    (7, &[7], &[7, 8]),
    (7, &[8], &[7, 8]),
    (7, &[6], &[6]),
    (9, &[3], &[3]),
    (10, &[3], &[3]),
    (12, &[5], &[4]),
    (12, &[6], &[7]),
    (15, &[3, 4, 5, 6, 7, 8], &[9]),
    (16, &[4], &[4]),
    (17, &[4], &[4, 5]),
    (18, &[4], &[4, 5]),
    (30, &[4], &[4, 5]),
    (24, &[4], &[4, 6]),
    (25, &[4], &[4, 6]),
    (42, &[4], &[6]),
    (28, &[4], &[4, 7]),
    (29, &[4], &[4, 7]),
    (38, &[4], &[4, 7]),
    (13, &[3, 4, 5, 6, 7, 8], &[]),
];

pub fn expected() -> BTreeSet<String> {
    let mut points = BTreeSet::new();
    for state in STATES {
        points.extend((0..64).map(|index| format!("pair {state} CMD{index}")));
        // A locked card sends no data, so it is never in data.
        points.extend((0..64).filter(|_| state != "data").map(|index| format!("locked {state} CMD{index}")));
        for whose in ["own", "other"] {
            points.extend(ADDRESSED.map(|index| format!("addressed {state} CMD{index} {whose}")));
        }
        points.extend([12, 1, 2, 3].map(|refusal| format!("refusal frame {refusal} in {state}")));
        points.extend(["block_in", "block_out"].map(|call| format!("refusal {call} 12 in {state}")));
        points.extend(["power-on", "work-done"].map(|call| format!("call {call} in {state}")));
    }
    for state in STATES {
        points.extend((state != "rcv").then(|| format!("refusal block_in 15 in {state}")));
        points.extend((state != "data").then(|| format!("refusal block_out 15 in {state}")));
    }
    for (index, bits) in BITS_SET {
        points.extend(bits.iter().map(|bit| format!("set-by CMD{index} bit {bit}")));
    }
    points.extend(LOCKABLE.map(|index| format!("set-by CMD{index} bit 24")));
    points.extend(BITS.map(|bit| format!("r1 bit {bit}")));
    points.extend([2, 3, 4, 5, 6, 7, 8].map(|state| format!("r1 state {}", STATES[state])));
    points.extend(moves().iter().map(|(index, from, to)| format!("move CMD{index} {from} to {to}")));
    // 13 and 14 are a bus's.
    points.extend((1..=21).filter(|number| !matches!(number, 13 | 14)).map(|number| format!("number {number}")));
    for index in [32, 33, 35, 36, 38] {
        points.extend(["no tags", "a start", "a range"].map(|tags| format!("tags CMD{index} meets {tags}")));
        points.extend((index != 38).then(|| format!("tags CMD{index} meets tags of the other kind")));
    }
    for index in [28, 29, 30, 32, 33, 35, 36] {
        points.insert(format!("border last address CMD{index}"));
        points.insert(format!("border first address past the end CMD{index}"));
    }
    points.extend(NAMED.trim().lines().map(|point| point.trim().to_string()));
    points.extend(lock_requests());
    points.extend(spi_points::expected());
    points.extend(reset_cover::expected());
    points.extend(opening_cover::expected());
    points
}

/// The moves of MMC mode's table one by one.
pub fn moves() -> Vec<(u8, &'static str, &'static str)> {
    moves_of(MOVES)
}

pub fn moves_of(table: Moves) -> Vec<(u8, &'static str, &'static str)> {
    let mut moves = Vec::new();
    for (index, from, to) in table {
        for before in *from {
            let ends = if to.is_empty() { std::slice::from_ref(before) } else { to };
            moves.extend(ends.iter().map(|&after| (*index, STATES[*before], STATES[after])));
        }
    }
    moves
}

pub fn lock_requests() -> Vec<String> {
    let mut points = Vec::new();
    for request in ["0", "1", "2", "4", "5", "8", "other"] {
        for locked in ["locked", "unlocked"] {
            points.push(format!("lock {request} {locked} refused 20"));
            if request != "other" && (locked == "locked") == matches!(request, "0" | "8") {
                points.push(format!("lock {request} {locked} taken"));
            }
        }
    }
    points
}

/// The points that no rule lists.
const NAMED: &str = "
    refusal make 7
    refusal make 8
    refusal make 9 CID
    refusal make 9 CSD
    refusal make 10
    refusal make 11
    refusal block_in one 16
    refusal block_in one 17
    refusal block_in one 19
    refusal block_in many 16
    refusal block_in many 17
    refusal block_in many 18
    refusal block_in many 19
    refusal block_in lock 16
    refusal block_in lock 17
    refusal block_in lock 20
    refusal block_out one 6
    refusal block_out many 6
    refusal block_out many 18
    refusal block_out many 21
    refusal block_out protection 6
    refusal write_frame 4
    refusal write_frame 6
    refusal write_block 5
    refusal write_block 6
    refusal check_block 5
    refusal check_block 17
    answer block_in one
    answer block_in many
    answer block_in lock
    answer block_out one
    answer block_out many
    answer block_out protection
    answer write_frame
    answer write_block
    answer check_block
    lent too little memory
    lent too much memory
    lent too short a map
    lent too long a map
    lent a map entry over 1
    dropped by CMD32 bit 31
    dropped by CMD33 bit 31
    dropped by CMD33 bit 28
    dropped by CMD33 bit 27
    dropped by CMD35 bit 31
    dropped by CMD36 bit 31
    dropped by CMD36 bit 28
    dropped by CMD36 bit 27
    tags CMD33 before its start
    tags CMD33 in another erase group
    border read ends with the memory
    border read goes one byte past the end
    border read begins at the end
    border read ends at a multiple of 2,048
    border read goes one byte past a multiple of 2,048
    border write of the last sector
    border write begins in memory and ends past it
    border write begins at the end
    border CMD30 shows its highest bit
    stop at the end
    stop bad kind
    stop cut
    stop no card
    stop too big
    erase by sector, all filled
    erase by sector, all spared
    erase by group, all filled
    erase by group, all spared
    erase by group, some spared
    stopped block_in one
    stopped block_in many
    stopped block_in lock
    stopped block_out one
    stopped block_out many
    stopped block_out protection
    flag CMD0 keeps locked
    flag CMD0 keeps unlocked with a password
    flag power-on locks
    flag bit 13 left by CMD15
    flag bit 13 left by CMD7
    password prefix refused
    password one byte more refused
    password of the same length refused
    password set of 16 bytes
    password set of 17 bytes refused
    password block without byte 1 refused
    password block shorter than its length refused
    password forced erase with byte 1 past the block
    password forced erase refused by CSD";
