//! What a walk does with the select line and in SPI.

use crate::card::*;
use crate::dice::Dice;
use crate::script::Record;
use crate::walk::Walk;
use crate::wire;

/// How a walk deals with SPI, in cases of a hundred; some walks never enter it.
pub struct Habits {
    /// At a step in MMC mode: it enters SPI.
    enters: u64,
    /// At a step in SPI: it leaves.
    leaves: u64,
    /// At any frame in MMC mode: the line is low.
    low: u64,
}

impl Habits {
    pub fn of(dice: &mut Dice) -> Habits {
        Habits { enters: dice.pick(&[0, 0, 2, 5, 40]), leaves: dice.pick(&[0, 1, 5]), low: dice.pick(&[0, 0, 10, 30]) }
    }
}

/// The commands that were given so far, by mode, line, lock and state: a bit for each index.
#[derive(Default)]
pub struct Given([[u64; 10]; 5]);

impl Given {
    /// Of a card in MMC mode the line does not tell, of one in SPI whose line is high the lock does not.
    fn to(&mut self, card: &Card, select: Select) -> &mut u64 {
        let situation = match (card.mode, select, card.locked) {
            (Mode::Mmc, _, locked) => locked as usize,
            (_, Select::Low, locked) => 2 + locked as usize,
            (_, Select::High, _) => 4,
        };
        &mut self.0[situation][card.state.number() as usize]
    }
}

impl Walk {
    pub fn is_in_spi(&self) -> bool {
        self.card().mode != Mode::Mmc
    }

    /// The line for a frame: a card in SPI hears little with the line high.
    pub fn line(&mut self) -> Select {
        let chance = if self.is_in_spi() { 90 } else { self.habits.low };
        if self.dice.percent(chance) { Select::Low } else { Select::High }
    }

    /// A command, now and then with a wrong CRC7 where a card in SPI does not look at it.
    pub fn frame(&mut self, select: Select, index: u8, argument: u32) {
        *self.given.to(&self.bench.card, select) |= 1 << index;
        let mut frame = wire::command(index, argument).to_vec();
        if !self.card().checks_crc() && index != 0 && self.dice.percent(25) {
            frame[5] ^= 2 << self.dice.below(7);
        }
        self.say(Record::Frame(select, frame));
    }

    /// An index that was not yet given to the card as it is, if there is one.
    pub fn new_index(&mut self, select: Select) -> u8 {
        let any = self.dice.below(64);
        let given = *self.given.to(&self.bench.card, select);
        (any..any + 64).map(|index| index % 64).find(|index| given >> index & 1 == 0).unwrap_or(any) as u8
    }

    /// Enters SPI or leaves it, as is the walk's habit.
    pub fn changes_mode(&mut self) -> bool {
        let chance = if self.is_in_spi() { self.habits.leaves } else { self.habits.enters };
        let changes = self.dice.percent(chance);
        if changes && self.is_in_spi() {
            self.say(Record::PowerOn);
        } else if changes {
            let argument = self.dice.pick(&[0, 0, self.dice.0 as u32]);
            self.frame(Select::Low, 0, argument);
        }
        changes
    }

    /// A step that MMC mode has not. Most commands are illegal in SPI and leave the card in its state,
    /// so it is given many.
    pub fn step_of_spi(&mut self) {
        match self.dice.below(14) {
            0 => self.say(Record::ShowMode),
            1 | 2 => self.switch_checking(),
            3 => self.command(58, 0),
            4 => self.command(9, 0),
            5 => self.command(10, self.own()),
            6 | 7 => self.command(13, 0),
            8 => self.ignored(),
            9 => self.damaged_frame(),
            10 => self.damage_after_a_block(),
            _ => (0..12).for_each(|_| self.any_command()),
        }
    }

    /// Something that leaves tags alone.
    pub fn leave_alone(&mut self) {
        let argument = self.address();
        let illegal = self.dice.pick(&[1, 2, 3, 4, 7, 11, 12, 15, 18, 25]);
        match self.dice.below(4) {
            0 => self.damaged_frame(),
            1 => self.frame(Select::High, 16, argument),
            2 => self.frame(Select::Low, 13, argument),
            _ => self.frame(Select::Low, illegal, argument),
        }
    }

    /// A bit that waits from a block, and then a frame whose CRC7 is wrong: its answer shows both.
    fn damage_after_a_block(&mut self) {
        self.frame(Select::Low, 59, 1);
        self.frame(Select::Low, 42, 0);
        self.say(Record::BlockIn(Vec::new()));
        self.damaged_frame();
        self.say(Record::ShowCard);
    }

    /// CMD59, whose argument has one bit that is read.
    fn switch_checking(&mut self) {
        let argument = self.dice.pick(&[0, 1, 1, 2, 3, 0xFFFF_FFFE, 0xFFFF_FFFF, 0x8000_0000, 0x8000_0001]);
        self.command(59, argument);
    }

    /// Some frames that the card ignores, since its line is high.
    fn ignored(&mut self) {
        for _ in 0..12 {
            let index = self.new_index(Select::High);
            let argument = self.address();
            self.frame(Select::High, index, argument);
        }
    }

    /// A block with its start byte: one in four has another, or none, or a wrong CRC16.
    pub fn perhaps_damaged_in_spi(&mut self, mut block: Vec<u8>) -> Vec<u8> {
        let length = block.len();
        match self.dice.below(24) {
            0 => block[0] = self.dice.pick(&[0xFC, 0xFD, 0xFF, 0x7E, 0x00]),
            1 => drop(block.remove(0)),
            2 | 3 => block[length - 1 - self.dice.below(2) as usize] ^= 1 << self.dice.below(8),
            4 => block[1] ^= 1 << self.dice.below(8),
            _ => return self.perhaps_damaged(block),
        }
        block
    }
}
