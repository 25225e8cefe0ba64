//! Everything that a card in SPI can reach in scripts of `cardline`, as points with names.

use crate::card_points::{lock_requests, moves_of, Moves, STATES};
use std::collections::BTreeSet;

/// The states of SPI, by number: idle, tran, data, rcv, prg.
const IN_SPI: [usize; 5] = [0, 4, 5, 6, 7];

/// What a card in SPI sends or awaits.
const WORK: [&str; 6] =
    ["block_out one", "block_out protection", "block_out CSD", "block_out CID", "block_in one", "block_in lock"];

/// The bits that no R1 shows.
pub const R2_ONLY: [u32; 4] = [27, 26, 24, 15];

/// Which bits a command sets at once.
const BITS_SET: [(u8, &[u32]); 18] = [
    (9, &[13]),
    (10, &[13]),
    (16, &[29, 13]),
    (17, &[31, 30, 24, 13]),
    (24, &[31, 30, 29, 24, 13]),
    (28, &[31, 24, 13]),
    (29, &[31, 24, 13]),
    (30, &[31, 24, 13]),
    (32, &[31, 24]),
    (33, &[31, 28, 27, 24]),
    (35, &[31, 24]),
    (36, &[31, 28, 27, 24]),
    (38, &[28, 24]),
    (42, &[13]),
    (58, &[13]),
    (59, &[13]),
    (1, &[22]),
    (13, &[22]),
];

/// The table of moves in SPI, as that of MMC mode.
const MOVES: Moves = &[
    (0, &IN_SPI, &[0]),
    (1, &[0], &[4]),
    (58, &IN_SPI, &[]),
    (59, &IN_SPI, &[]),
    (13, &[4, 5, 6, 7], &[]),
    (9, &[4], &[5]),
    (10, &[4], &[5]),
    (16, &[4], &[4]),
    (17, &[4], &[4, 5]),
    (30, &[4], &[4, 5]),
    (24, &[4], &[4, 6]),
    (42, &[4], &[6]),
    (28, &[4], &[4, 7]),
    (29, &[4], &[4, 7]),
    (32, &[4], &[4]),
    (33, &[4], &[4]),
    (35, &[4], &[4]),
    (36, &[4], &[4]),
    (38, &[4], &[4, 7]),
];

pub fn expected() -> BTreeSet<String> {
    let mut points = BTreeSet::new();
    for state in IN_SPI.map(|number| STATES[number]) {
        for how in ["low", "high", "locked"] {
            points.extend((0..64).map(|index| format!("spi-{how} {state} CMD{index}")));
        }
        for line in ["low", "high"] {
            points.extend([12, 1, 2, 3].map(|refusal| format!("spi-refusal frame {refusal} {line} in {state}")));
        }
        points.extend(["block_in", "block_out"].map(|call| format!("spi-refusal {call} 12 in {state}")));
        points.extend((state != "rcv").then(|| format!("spi-refusal block_in 15 in {state}")));
        points.extend((state != "data").then(|| format!("spi-refusal block_out 15 in {state}")));
        points.extend(["power-on", "work-done"].map(|call| format!("spi-call {call} in {state}")));
    }
    points.extend((0..64).map(|index| format!("spi-checked CMD{index}")));
    // "CMD0 is always checked."
    points.extend((1..64).map(|index| format!("spi-unchecked CMD{index}")));
    points.extend((0..64).map(|index| format!("mmc-low CMD{index}")));
    points.extend(STATES.map(|state| format!("mmc-low in {state}")));
    points.extend([12, 1, 2, 3].map(|refusal| format!("mmc-low refused {refusal}")));
    points.extend(STATES.iter().filter(|&&state| state != "ina").map(|state| format!("spi-enter from {state}")));
    points.extend(moves_of(MOVES).iter().map(|(index, from, to)| format!("spi-move CMD{index} {from} to {to}")));
    for (index, bits) in BITS_SET {
        points.extend(bits.iter().map(|bit| format!("spi-set-by CMD{index} bit {bit}")));
    }
    points.extend(shown());
    points.extend(WORK.map(|work| format!("spi-answer {work}")));
    points.extend(lock_requests().iter().map(|request| format!("spi-{request}")));
    points.extend(NAMED.trim().lines().map(|point| point.trim().to_string()));
    points
}

/// What an answer shows, and what it keeps since it can't show it. A bit of the first byte is cleared
/// by the R1 of the command that set it, so only 29, of a block, waits for an R2 or R3.
fn shown() -> Vec<String> {
    let mut points = vec!["spi-shown R1 idle".to_string(), "spi-shown R3 idle".to_string()];
    points.extend([31, 30, 29, 28, 23, 22, 13].map(|bit| format!("spi-shown R1 bit {bit}")));
    points.extend([29, 13].map(|bit| format!("spi-shown R3 bit {bit}")));
    points.extend([29, 27, 26, 24, 15].map(|bit| format!("spi-shown R2 bit {bit}")));
    points.extend(["spi-shown R2 locked".to_string(), "spi-shown R2 no bit".to_string()]);
    for answer in ["R1", "R3"] {
        points.extend(R2_ONLY.map(|bit| format!("spi-kept by {answer} bit {bit}")));
    }
    points
}

/// The points that no rule lists.
const NAMED: &str = "
    spi-enter locked
    spi-enter with tags
    spi-enter with error bits
    spi-enter not from ina
    spi-leave with checking on
    spi-leave and lock
    spi-again with checking on
    spi-again with tags
    spi-again with error bits
    spi-show 0 0
    spi-show 1 0
    spi-show 1 1
    spi-crc CMD59 switches on
    spi-crc CMD59 switches off
    spi-crc CMD59 reads bit 0 alone
    spi-crc CMD0 switches off
    spi-crc CMD0 damaged, checking off, low
    spi-crc CMD0 damaged, checking off, high
    spi-crc CMD0 damaged, checking on, low
    spi-crc other damaged, checking on, high
    spi-crc 3 beside bit 29, which is then gone
    spi-tags erase what outlived CMD13
    spi-tags erase what outlived an illegal command
    spi-tags erase what outlived a wrong CRC7
    spi-tags erase what outlived a frame with the line high
    spi-erase by sector, all filled
    spi-erase by sector, all spared
    spi-erase by group, all filled
    spi-erase by group, all spared
    spi-erase by group, some spared
    spi-refusal block_out one 6
    spi-refusal block_out protection 6
    spi-refusal block_out CSD 6
    spi-refusal block_out CID 6
    spi-border block_out one short by a byte
    spi-border block_out protection short by a byte
    spi-border block_out CSD short by a byte
    spi-border block_out CID short by a byte
    spi-border block_out one exact
    spi-border block_out protection exact
    spi-border block_out CSD exact
    spi-border block_out CID exact
    spi-refusal block_in one 16
    spi-refusal block_in one 17
    spi-refusal block_in one 19
    spi-refusal block_in lock 16
    spi-refusal block_in lock 17
    spi-refusal block_in lock 20
    spi-block_in one, another start byte
    spi-block_in one, no start byte
    spi-block_in one, wrong length behind FE
    spi-block_in one, CRC16 wrong, checking off
    spi-block_in one, CRC16 right, checking on
    spi-block_in lock, another start byte
    spi-block_in lock, no start byte
    spi-block_in lock, wrong length behind FE
    spi-block_in lock, CRC16 wrong, checking off
    spi-block_in lock, CRC16 right, checking on";
