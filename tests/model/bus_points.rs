//! Everything that a bus can reach in scripts of `busline`, as points with names.

use crate::card_points::{moves, ADDRESSED};
use std::collections::BTreeSet;

/// "14 | index on the bus outside 0-4, 7, 9, 10, 13, 15"
pub const CARRIED: [u8; 10] = [0, 1, 2, 3, 4, 7, 9, 10, 13, 15];

/// The states on a bus: no data command comes over it, so no card is in data, rcv, prg or dis.
const STATES: [&str; 6] = ["idle", "ready", "ident", "stby", "tran", "ina"];

pub fn expected() -> BTreeSet<String> {
    let mut points = BTreeSet::new();
    for state in STATES {
        points.extend((0..64).map(|index| format!("pair {state} CMD{index}")));
        for whose in ["own", "other"] {
            points.extend(ADDRESSED.map(|index| format!("addressed {state} CMD{index} {whose}")));
        }
        points.extend([2, 3].map(|refusal| format!("damaged {refusal} in {state}")));
    }
    points.extend((0..64).filter(|index| !CARRIED.contains(index)).map(|index| format!("refusal 14 CMD{index}")));
    for (index, from, to) in moves() {
        if CARRIED.contains(&index) && STATES.contains(&from) && STATES.contains(&to) {
            points.insert(format!("move CMD{index} {from} to {to}"));
        }
    }
    // The last byte of an identifier follows from the others, so no card loses there.
    points.extend((0..15).map(|byte| format!("lost in byte {byte}")));
    points.extend(NAMED.trim().lines().map(|point| point.trim().to_string()));
    points
}

/// The points that no rule lists.
const NAMED: &str = "
    number 13
    number 14
    refusal 13 frame
    refusal 13 card
    order 13 before 2
    order 13 before 3
    order 13 before 14
    order 2 before 14
    order 3 before 14
    framing start bit
    framing transmission bit
    framing end bit
    cards 1
    cards 30
    answer none
    answer R1 of one
    answer R1 of several
    answer R2 of one
    answer R2 of several
    answer R3 of one
    answer R3 of several
    shown R1 of no card
    shown R1 with a wrong CRC7
    shown R2 of no card
    r1 bit 31
    r1 bit 23
    r1 bit 22
    r1 state ident
    r1 state stby
    r1 state tran
    move CMD2 ready to ready
    winner alone
    winner beside a loser
    winner with a clone
    address given to clones
    address given twice
    stop at the end
    stop bad kind
    stop cut card
    stop cut frame";
