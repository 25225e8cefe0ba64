//! A random script for `cardline`, from a seed.

use crate::bench::Bench;
use crate::dice::Dice;
use crate::script::{Making, Record};
use crate::spi_walk::{Given, Habits};
use crate::walk::Walk;
use crate::wire;

pub fn script(seed: u64, records: usize) -> Vec<u8> {
    let mut dice = Dice(seed);
    let making = making(&mut dice);
    let script = if dice.percent(1) { Record::ShowCard.written() } else { Record::Make(making.clone()).written() };
    let Ok(bench) = Bench::make(&making) else {
        return cut_sometimes(&mut dice, script);
    };
    let habits = Habits::of(&mut dice);
    let mut walk = Walk { dice, bench, script, left: records, given: Given::default(), habits };
    while walk.left > 0 {
        walk.step();
    }
    [walk.script, ending(&mut walk.dice)].concat()
}

/// A script whose make is refused: mostly followed by a record that must not be reached.
fn cut_sometimes(dice: &mut Dice, mut script: Vec<u8>) -> Vec<u8> {
    match dice.below(4) {
        0 => script.truncate(dice.below(script.len() as u64) as usize),
        1 => (),
        _ => script.extend(Record::ShowCard.written()),
    }
    script
}

fn making(dice: &mut Dice) -> Making {
    let sizes = [8_192, 8_192, 8_192, 8_192, 16_384, 16_384, 16_384, 24_576, 24_576, 65_536, 65_536, 524_288];
    let memory_length = dice.pick(&sizes);
    let protected = dice.pick(&[0, 0, 0, 0, 0, 0, 0, 0x10, 0x20, 0x30]);
    let mut csd = [0; 15];
    csd[14] = protected | dice.byte() & 0xCF;
    let cid = std::array::from_fn(|_| dice.byte());
    let letters = dice.pick(&[0, 0, 0, 1, 2, 8, 16]);
    let map_chance = dice.pick(&[0, 20, 60]);
    let mut making = Making {
        memory_length,
        filled_with: dice.byte(),
        map: (0..memory_length / 8_192).map(|_| dice.percent(map_chance) as u8).collect(),
        cid: wire::register(&cid),
        csd: wire::register(&csd),
        ocr: dice.pick(&[0x00FF_8000, 0x80FF_8000, 0x0000_0001, 0x0080_0000, 0x5500_0100, 0x00FF_FFFF]),
        password: vec![dice.pick(b"AB"); letters],
    };
    if dice.percent(15) {
        spoil(&mut making, dice);
        if dice.percent(30) {
            spoil(&mut making, dice);
        }
    }
    making
}

/// One thing for which a make is refused, or is too big.
fn spoil(making: &mut Making, dice: &mut Dice) {
    match dice.below(9) {
        0 => making.memory_length = dice.pick(&[0, 1, 512, 4_096, 8_191, 8_193, 12_288, 524_287]),
        1 => making.memory_length = dice.pick(&[524_289, 532_480, 0xFF_FFFF]),
        2 => making.map.push(0),
        3 => drop(making.map.pop()),
        4 => making.map = making.map.iter().map(|_| dice.pick(&[2, 3, 0x80, 0xFF])).collect(),
        5 => making.cid[15] ^= 1 << dice.below(8),
        6 => making.csd[dice.below(16) as usize] ^= 1 << dice.below(8),
        7 => making.ocr = dice.pick(&[0, 0xFF00_0000, 0x8000_0000]),
        _ => making.password = vec![b'A'; dice.pick(&[17, 18, 32, 255])],
    }
}

/// How a script ends: cleanly, or with a record that stops it, and one more that must not be reached.
fn ending(dice: &mut Dice) -> Vec<u8> {
    let long = dice.pick(&[4_097u16, 0x2000, 0xFFFF]).to_be_bytes();
    let stops = [
        vec![dice.pick(&[0x00, 0x01, 0x7F, 0x80, 0xFF])],
        vec![0x03, long[0], long[1]],
        vec![0x04, long[0], long[1]],
        vec![0x08, 0, 0, 0, long[0], long[1]],
        vec![0x0C, long[0], long[1]],
        vec![0x0C, 0, 1, 0x80, long[0], long[1]],
        vec![0x0D, long[0], long[1]],
        // The longest lengths that are allowed: the card is asked for one more answer.
        [&[0x04, 0x10, 0x00, 0x0D, 0x10, 0x00][..], &[0; 4_096], &[0x08, 0, 0, 0, 0x10, 0x00]].concat(),
        [&[0x09, 0, 0, 0, 0, 0x02, 6][..], &wire::command(13, 0)].concat(),
    ];
    if dice.percent(30) {
        return Vec::new();
    }
    let mut ending = stops[dice.below(stops.len() as u64) as usize].clone();
    ending.extend(Record::ShowCard.written());
    if dice.percent(40) {
        let cuts = [
            vec![0x02], vec![0x02, 6, 0x40], vec![0x03, 0], vec![0x03, 0, 5, 1], vec![0x04, 0], vec![0x08, 0, 0, 0, 0],
            vec![0x09, 0, 0, 0], vec![0x0A, 0], vec![0x0B, 0, 0, 0, 0, 0], vec![0x0C, 0, 1, 0x80, 0], vec![0x0D, 0],
            vec![0x0E], vec![0x0E, 6, 0x40],
        ];
        ending = cuts[dice.below(cuts.len() as u64) as usize].clone();
    }
    ending
}
