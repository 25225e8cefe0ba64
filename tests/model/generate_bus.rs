//! A random script for `busline`, from a seed.

use crate::bus_bench::{BusBench, BusRecord};
use crate::bus_walk::BusWalk;
use crate::dice::Dice;
use crate::wire;

pub fn script(seed: u64, records: usize) -> Vec<u8> {
    let mut dice = Dice(seed);
    let identifiers = identifiers(&mut dice);
    let few = dice.pick(&[1, 2, 4, 8]);
    let mut addresses: Vec<u16> = (0..few).map(|_| dice.pick(&[1, 2, 3, 0x0100, 0x1234, 0x8000, 0xFFFF])).collect();
    addresses.extend((0..dice.pick(&[0, 0, 30])).map(|place| place + 1));
    let at_first = dice.pick(&[0, 0, 1, 1, 2, 2, 3, 4, 6, 10, 29, 30, 31]);
    let adding = dice.pick(&[0, 1, 3, 8, 20]);
    let bench = BusBench::default();
    let (script, left, heard) = (Vec::new(), records, [0; 10]);
    let mut walk = BusWalk { dice, bench, script, left, identifiers, addresses, adding, heard };
    for _ in 0..at_first {
        walk.add();
    }
    // On a bus that stays empty, few refusals say it all.
    let empty = at_first == 0 && adding == 0;
    walk.left = walk.left.min(if empty { 8 } else { records });
    while walk.left > 0 {
        walk.step();
    }
    [walk.script, ending(&mut walk.dice)].concat()
}

/// One to four identifiers that may lie anywhere, and some that differ from one of them in one bit.
fn identifiers(dice: &mut Dice) -> Vec<[u8; 15]> {
    let count = dice.pick(&[1, 1, 2, 3, 4]);
    let mut identifiers: Vec<[u8; 15]> = (0..count).map(|_| one_identifier(dice)).collect();
    for _ in 0..dice.pick(&[0, 1, 2, 4, 12]) {
        let mut near = dice.pick(&identifiers);
        let any = dice.below(120);
        let bit = dice.pick(&[0, 1, 7, 8, 118, 119, any, any, any]) as usize;
        near[bit / 8] ^= 0x80 >> (bit % 8);
        identifiers.push(near);
    }
    identifiers
}

fn one_identifier(dice: &mut Dice) -> [u8; 15] {
    match dice.below(6) {
        0 => [0; 15],
        1 => [0xFF; 15],
        _ => std::array::from_fn(|_| dice.byte()),
    }
}

/// How a script ends: cleanly, or with a record that stops it. After a bad kind come records that
/// must not be reached.
fn ending(dice: &mut Dice) -> Vec<u8> {
    let card = BusRecord::Add([0; 15]).written();
    let frame = BusRecord::Frame(wire::command(13, 0x0001_0000)).written();
    match dice.below(6) {
        0 => card[..1 + dice.below(15) as usize].to_vec(),
        1 => frame[..1 + dice.below(6) as usize].to_vec(),
        2 => {
            let kind = dice.pick(&[0x00, 0x03, 0x10, 0x42, 0x80, 0x81, 0x82, 0xFF]);
            [&[kind], &card[..], &frame].concat()
        }
        3 => vec![dice.pick(&[0x00, 0x03, 0xFF])],
        _ => Vec::new(),
    }
}
