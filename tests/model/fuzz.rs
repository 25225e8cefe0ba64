//! Scripts that nobody meant: random bytes, and good scripts damaged.

use crate::compare::{self, Comparison};
use crate::dice::Dice;
use crate::program::Program;
use crate::{wire, Outcome};

pub fn run(count: u64, seed: u64, launcher: &[&str]) -> Outcome {
    for program in [Program::Cardline, Program::Busline] {
        let stored = compare::stored(program)?;
        let mut comparison = Comparison::new(program, launcher);
        for seed in seed..seed + count {
            let mut fuzz = Fuzz { program, dice: Dice(seed), stored: &stored };
            comparison.play(&format!("seed {seed}"), &fuzz.script())?;
        }
        comparison.tell("fuzzed");
    }
    Ok(())
}

struct Fuzz<'a> {
    program: Program,
    dice: Dice,
    stored: &'a [(String, Vec<u8>)],
}

impl Fuzz<'_> {
    fn script(&mut self) -> Vec<u8> {
        match self.dice.below(8) {
            0 => self.random_bytes(),
            // Random bytes where a card or a bus already is.
            1 => {
                let good = self.good();
                let front = self.some_place(&good);
                [&good[..front], &self.random_bytes()].concat()
            }
            _ => self.damaged(),
        }
    }

    /// Up to 3,000 random bytes; half of them begin with the kind that a good script begins with.
    fn random_bytes(&mut self) -> Vec<u8> {
        let length = self.dice.pick(&[1, 8, 64, 512, 3_000]);
        let mut bytes: Vec<u8> = (0..self.dice.below(length + 1)).map(|_| self.dice.byte()).collect();
        if self.dice.percent(50) {
            bytes.insert(0, 0x01);
        }
        bytes
    }

    /// A stored script or a random walk.
    fn good(&mut self) -> Vec<u8> {
        if self.dice.percent(50) {
            let place = self.dice.below(self.stored.len() as u64) as usize;
            return self.stored[place].1.clone();
        }
        let records = self.dice.pick(&[5, 20, 60, 150]);
        self.program.generate(self.dice.word() as u64, records)
    }

    /// Where some record of a script begins, or its end.
    fn some_place(&mut self, script: &[u8]) -> usize {
        let places = self.program.places(script);
        places.get(self.dice.below(places.len() as u64 + 1) as usize).copied().unwrap_or(script.len())
    }

    /// A good script, damaged one to five times.
    fn damaged(&mut self) -> Vec<u8> {
        let mut script = self.good();
        for _ in 0..=self.dice.below(5) {
            self.damage(&mut script);
        }
        script
    }

    fn damage(&mut self, script: &mut Vec<u8>) {
        let any = self.dice.below(script.len() as u64 + 1) as usize;
        let few = 1 + self.dice.below(8) as usize;
        match self.dice.below(11) {
            0 | 1 => script.get_mut(any).into_iter().for_each(|byte| *byte ^= 1 << self.dice.below(8)),
            2 => {
                let strange = self.dice.pick(&[0x00, 0x01, 0x02, 0x09, 0x0D, 0x0E, 0x0F, 0x10, 0x7F, 0x80, 0xFF]);
                script.get_mut(any).into_iter().for_each(|byte| *byte = strange);
            }
            3 => drop(script.splice(any..any, (0..few).map(|_| self.dice.byte()))),
            4 => drop(script.drain(any..(any + few).min(script.len()))),
            5 => script.truncate(any),
            6 => {
                let other = self.good();
                let (front, back) = (self.some_place(script), self.some_place(&other));
                *script = [&script[..front], &other[back..]].concat();
            }
            7 => self.repeat(script),
            8 if self.program == Program::Cardline => self.turn_line(script),
            _ => self.change_frame(script),
        }
    }

    /// One or two records, or more, once more at another place.
    fn repeat(&mut self, script: &mut Vec<u8>) {
        let (one, other, to) = (self.some_place(script), self.some_place(script), self.some_place(script));
        let part = script[one.min(other)..one.max(other)].to_vec();
        script.splice(to..to, part.into_iter().take(2_000));
    }

    /// The other level of the select line for a frame.
    fn turn_line(&mut self, script: &mut [u8]) {
        let place = self.some_place(script);
        if let Some(kind @ (0x02 | 0x0E)) = script.get_mut(place) {
            *kind ^= 0x02 ^ 0x0E;
        }
    }

    /// Another command in a frame, with its CRC7 right: damage that is not seen as such.
    fn change_frame(&mut self, script: &mut [u8]) {
        let place = self.some_place(script);
        let heads: &[&[u8]] = if self.program == Program::Cardline { &[&[0x02, 6], &[0x0E, 6]] } else { &[&[0x02]] };
        let Some(head) = heads.iter().find(|head| script[place..].starts_with(head)) else { return };
        let Some(frame) = script[place + head.len()..].first_chunk::<6>() else { return };
        let mut argument = [frame[1], frame[2], frame[3], frame[4]];
        argument[self.dice.below(4) as usize] = self.dice.pick(&[0x00, 0x01, 0x02, 0x10, 0x80, 0xFF]);
        let index = if self.dice.percent(50) { frame[0] & 0x3F } else { self.dice.below(64) as u8 };
        let changed = wire::command(index, u32::from_be_bytes(argument));
        script[place + head.len()..][..6].copy_from_slice(&changed);
    }
}
