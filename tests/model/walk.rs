//! A walk of one card through its states. The walk keeps the card itself, so that it knows which
//! address, password and length are right; most steps use the right ones and lead on.

use crate::bench::Bench;
use crate::card::*;
use crate::dice::Dice;
use crate::script::Record;
use crate::spi_walk::{Given, Habits};

pub struct Walk {
    pub dice: Dice,
    pub bench: Bench,
    pub script: Vec<u8>,
    /// How many records may still be written.
    pub left: usize,
    pub given: Given,
    pub habits: Habits,
}

impl Walk {
    pub fn say(&mut self, record: Record) {
        if self.left > 0 {
            self.left -= 1;
            self.script.extend(record.written());
            self.bench.line(&record);
        }
    }

    pub fn command(&mut self, index: u8, argument: u32) {
        let select = self.line();
        self.frame(select, index, argument);
    }

    pub fn card(&self) -> &Card {
        &self.bench.card
    }

    pub fn own(&self) -> u32 {
        (self.card().address as u32) << 16
    }

    pub fn other(&mut self) -> u32 {
        let address = self.dice.pick(&[0, 1, 2, 0xFFFF, self.bench.card.address ^ 1, self.bench.card.address ^ 0x8000]);
        let other = if address == self.card().address { address ^ 2 } else { address };
        (other as u32) << 16 | self.dice.word() & 0xFFFF
    }

    /// One step, or a few that belong together.
    pub fn step(&mut self) {
        if self.changes_mode() {
            return;
        }
        match self.dice.below(100) {
            0..=4 => self.damaged_frame(),
            5..=11 => self.any_command(),
            12 => self.say(Record::ShowMode),
            13..=17 => self.say(Record::ShowCard),
            18..=19 => self.show_memory(),
            20 => self.lend_wrong(),
            21 => self.poke_wrong(),
            22 => self.reset(),
            23 => self.say(Record::WorkDone),
            24..=25 => self.stray_block(),
            26 => self.free_standing(),
            _ => self.lead_on(),
        }
    }

    fn reset(&mut self) {
        match self.dice.below(3) {
            0 => self.command(0, 0),
            1 => self.say(Record::PowerOn),
            _ => self.command(13, self.own()),
        }
    }

    /// A reset, and the way back to tran: what must not outlive the reset is asked for there.
    fn restart(&mut self) {
        self.command(0, 0);
        self.command(1, self.card().ocr & 0xFF_FFFF);
        self.command(2, 0);
        self.command(3, 0x0003_0000);
        self.command(7, 0x0003_0000);
    }

    /// A likely next step of a card in its state.
    fn lead_on(&mut self) {
        if self.is_in_spi() && self.dice.percent(30) {
            return self.step_of_spi();
        }
        let Card { state, locked, .. } = *self.card();
        match state {
            // These states are left at the first right command, so the walk lingers in them, above all
            // with a locked card, which seldom comes far.
            State::Dis if locked && self.dice.percent(50) => self.linger(),
            State::Idle | State::Ready | State::Ident | State::Dis if self.dice.percent(40) => self.linger(),
            State::Stby | State::Prg if self.dice.percent(25) => self.linger(),
            State::Idle => self.identify(),
            State::Ready => self.command(2, 0),
            State::Ident => {
                let address = self.dice.pick(&[0, 1, 1, 2, 0x0100, 0xFFFF, 0x1234]) << 16;
                let rest = self.dice.word() & 0xFFFF;
                self.command(3, address | rest);
            }
            State::Stby => self.lead_on_in_stby(),
            State::Tran if locked => self.lead_on_locked(),
            State::Tran => self.lead_on_in_tran(),
            State::Data(sending) => self.lead_on_in_data(sending),
            State::Rcv(awaited) => self.lead_on_in_rcv(awaited),
            State::Prg | State::Dis => self.lead_on_at_work(),
            State::Ina if self.dice.percent(75) => self.linger(),
            State::Ina => self.say(Record::PowerOn),
        }
    }

    pub fn linger(&mut self) {
        match self.dice.below(10) {
            0 => self.damaged_frame(),
            1 => self.stray_block(),
            2 => self.lend_wrong(),
            _ => (0..5).for_each(|_| self.any_command()),
        }
    }

    fn identify(&mut self) {
        let ocr = self.card().ocr;
        let high = self.dice.pick(&[0, 0, 0xFF00_0000, 0x8000_0000]);
        match self.dice.below(20) {
            0 => self.command(1, high),
            1 => self.command(1, high | !ocr & 0xFF_FFFF),
            2 => self.command(1, high | ocr & ocr.wrapping_neg()),
            3 => self.command(1, high | 0xFF_FFFF),
            _ => self.command(1, high | ocr & 0xFF_FFFF),
        }
    }

    fn lead_on_in_stby(&mut self) {
        match self.dice.below(14) {
            0 => self.command(9, self.own()),
            1 => self.command(10, self.own()),
            2 => self.command(13, self.own()),
            3 if self.dice.percent(20) => self.command(15, self.own()),
            _ => self.command(7, self.own()),
        }
    }

    fn lead_on_at_work(&mut self) {
        match self.dice.below(8) {
            0 => self.command(13, self.own()),
            1 => self.command(7, self.own()),
            2 | 3 => {
                let other = self.other();
                self.command(7, other);
            }
            _ => self.say(Record::WorkDone),
        }
    }

    fn lead_on_in_tran(&mut self) {
        match self.dice.below(24) {
            0..=2 => self.set_block_length(),
            3..=5 => self.read(),
            6..=9 => self.write(),
            10..=12 => self.protect(),
            13..=16 => self.erase(),
            17..=19 => self.command(42, 0),
            20 => self.command(13, self.own()),
            21 => {
                let length = self.dice.pick(&[1, 2, 3, 6, 10, 18, 19, 20, 34]);
                self.command(16, length);
                self.command(42, 0);
            }
            22 => {
                let other = self.other();
                self.command(7, other);
            }
            _ if self.dice.percent(10) => self.command(15, self.own()),
            _ => self.any_command(),
        }
    }

    /// A locked card grants little: mostly it is asked to unlock or to erase all, in a block whose length is set for that.
    fn lead_on_locked(&mut self) {
        match self.dice.below(8) {
            0 => self.command(13, self.own()),
            1 => {
                let index = self.dice.pick(&[17, 18, 24, 25, 28, 29, 30, 32, 33, 35, 36, 38]);
                let argument = self.address();
                self.command(index, argument);
            }
            2 => self.command(42, 0),
            _ => {
                self.set_request_length();
                self.command(42, 0);
            }
        }
    }

    /// The length of an unlock request or one near it; seldom one that is good for something else, or for nothing.
    fn set_request_length(&mut self) {
        let whole = 2 + self.card().password.len() as u32;
        let near = self.dice.pick(&[whole, whole, whole, whole + 1, whole + 3, whole - 1, 1, 2]);
        let other = self.dice.pick(&[0, 512, 512, 2_049, 0x1_0000 | whole]);
        let length = if self.dice.percent(80) { near } else { other };
        self.command(16, length);
    }

    fn set_block_length(&mut self) {
        let small = self.dice.pick(&[0, 1, 2, 3, 4, 7, 16, 18, 64, 100]);
        let large = self.dice.pick(&[512, 512, 513, 1_000, 1_024, 2_047, 2_048, 2_049, 0x10200, 0x8000_0200]);
        let length = if self.dice.percent(60) { small } else { large };
        self.command(16, length);
    }

    /// The block of a reset is long to print, and shows little more than a shorter one: mostly another
    /// length is set first.
    fn read(&mut self) {
        if self.card().block_length == LENGTH_AFTER_RESET && self.dice.percent(70) {
            self.set_block_length();
        }
        let index = self.dice.pick(&[17, 18, 18]);
        let length = self.card().block_length as u32;
        let address = match self.dice.below(4) {
            0 => self.address(),
            1 => (self.card().size as u32).wrapping_sub(length.wrapping_mul(self.dice.pick(&[1, 2, 3]))),
            2 => self.border().wrapping_sub(length),
            _ => self.border(),
        };
        let one_more = self.dice.percent(15) as u32;
        self.command(index, address.wrapping_add(one_more));
    }

    fn write(&mut self) {
        if self.card().block_length != 512 && !self.dice.percent(10) {
            self.command(16, 512);
        }
        let index = self.dice.pick(&[24, 25]);
        let sectors = self.card().size as u32 / 512;
        let address = match self.dice.below(6) {
            0 => self.address(),
            1 => (sectors - 1) * 512,
            2 => self.border().saturating_sub(512),
            _ => self.dice.below(sectors as u64) as u32 * 512,
        };
        self.command(index, address);
    }

    fn protect(&mut self) {
        let index = self.dice.pick(&[28, 29, 29, 30, 30]);
        let address = if self.dice.percent(80) { self.address() % self.card().size as u32 } else { self.address() };
        self.command(index, address);
    }

    /// A start, an end, now and then one more of either, and the erase; each may be missing or wrong.
    fn erase(&mut self) {
        let size = self.card().size as u32;
        let by_sector = self.dice.percent(50);
        let start = if self.dice.percent(92) { self.address() % size } else { self.address() };
        let reach = if by_sector { 4_096 - start % 4_096 } else { size.saturating_sub(start).max(1) };
        let near = start.wrapping_add(self.dice.below(reach as u64) as u32);
        let end = if self.dice.percent(85) { near } else { self.address() };
        let (first, second) = if by_sector { (32, 33) } else { (35, 36) };
        let second = if self.dice.percent(6) { 69 - second } else { second };
        let (again, elsewhere) = (self.dice.pick(&[32, 33, 35, 36]), self.address());
        for (index, argument, chance) in [(first, start, 95), (second, end, 93), (again, elsewhere, 25), (38, 0, 90)] {
            if self.dice.percent(chance) {
                self.command(index, argument);
            }
            match self.dice.below(50) {
                0 => self.restart(),
                1..=4 => self.step(),
                5..=14 if self.is_in_spi() => self.leave_alone(),
                _ => (),
            }
        }
    }

    /// A border of memory, of one of its parts, or of what an address can hold.
    pub fn border(&mut self) -> u32 {
        let size = self.card().size;
        let part = self.dice.pick(&[512, 2_048, 4_096, 8_192]);
        match self.dice.below(12) {
            0 => size as u32,
            1 => 0,
            2 => 0xFFFF_FE00,
            _ => (self.dice.below(size / part + 1) * part) as u32,
        }
    }

    /// An address at a border, beside it, or anywhere.
    pub fn address(&mut self) -> u32 {
        if self.dice.percent(10) {
            return self.dice.pick(&[0xFFFF_FFFF, self.dice.0 as u32, 0x8000_0000, self.bench.card.size as u32 - 1]);
        }
        let beside = self.dice.pick(&[0, 0, 0, 1, 511, 512, 0xFFFF_FFFF, 0xFFFF_FE00, 0xFFFF_FE01]);
        self.border().wrapping_add(beside)
    }
}
