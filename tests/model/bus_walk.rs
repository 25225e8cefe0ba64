//! A walk of a bus. It keeps the model's bus, so it knows where each card stands and which
//! addresses are taken; most steps lead a card on, the others disturb.

use crate::bus_bench::{BusBench, BusRecord};
use crate::card::State;
use crate::dice::Dice;
use crate::wire;

/// The OCR of every card that `busline` adds.
const OCR: u32 = 0x00FF_8000;

pub struct BusWalk {
    pub dice: Dice,
    pub bench: BusBench,
    pub script: Vec<u8>,
    /// How many records may still be written.
    pub left: usize,
    /// The identifiers of this script: few, so that clones are common.
    pub identifiers: Vec<[u8; 15]>,
    /// The addresses of this script: few, so that cards come to share them.
    pub addresses: Vec<u16>,
    /// How many steps of a hundred add a card.
    pub adding: u64,
    /// The commands that the cards have heard, by state: a bit for each index.
    pub heard: [u64; 10],
}

impl BusWalk {
    pub fn say(&mut self, record: BusRecord) {
        if self.left > 0 {
            self.left -= 1;
            self.script.extend(record.written());
            self.bench.line(&record);
        }
    }

    pub fn add(&mut self) {
        let identifier = self.dice.pick(&self.identifiers);
        self.say(BusRecord::Add(identifier));
    }

    fn command(&mut self, index: u8, argument: u32) {
        for card in &self.bench.bus.cards {
            self.heard[card.state.number() as usize] |= 1 << index;
        }
        self.say(BusRecord::Frame(wire::command(index, argument)));
    }

    /// A command whose argument is an address; the low half of the argument says nothing.
    fn command_to(&mut self, index: u8, address: u16) {
        let rest = if self.dice.percent(70) { 0 } else { self.dice.word() & 0xFFFF };
        self.command(index, (address as u32) << 16 | rest);
    }

    /// One step, or a few that belong together.
    pub fn step(&mut self) {
        if self.dice.percent(self.adding) {
            return self.add();
        }
        match self.dice.below(100) {
            0..=7 => self.damaged_frame(),
            8..=11 => self.any_commands(),
            12 => self.command(0, 0),
            13 => {
                let argument = self.dice.word();
                self.command(4, argument);
            }
            14..=29 => self.addressed_command(),
            _ => self.lead_on(),
        }
    }

    /// A likely next step of one of the cards.
    fn lead_on(&mut self) {
        let cards = &self.bench.bus.cards;
        if cards.is_empty() {
            return self.addressed_command();
        }
        // Nothing leads on from Inactive: another card is needed.
        if cards.iter().all(|card| card.state == State::Ina) && self.dice.percent(60) {
            return self.add();
        }
        let (state, address) = self.some_card();
        match state {
            State::Idle => self.operation_conditions(),
            State::Ready => self.round(),
            State::Ident => self.assign(),
            State::Stby => {
                let index = self.dice.pick(&[7, 7, 7, 9, 10, 13, 13]);
                self.command_to(index, address);
            }
            State::Tran => self.lead_on_in_tran(address),
            _ => self.addressed_command(),
        }
    }

    /// A selected card is let go, or asked, rightly or wrongly.
    fn lead_on_in_tran(&mut self, address: u16) {
        let index = self.dice.pick(&[7, 7, 7, 13, 13, 9, 10, 0]);
        if index == 0 {
            return self.command(0, 0);
        }
        let other = if index == 7 && self.dice.percent(70) { self.dice.pick(&[0, 1, 2, address ^ 1]) } else { address };
        self.command_to(index, other);
    }

    fn some_card(&mut self) -> (State, u16) {
        let place = self.dice.below(self.bench.bus.cards.len() as u64) as usize;
        let card = &self.bench.bus.cards[place];
        (card.state, card.address)
    }

    /// CMD1: windows that share bits with the OCR, window 0, and rarely one that shares none.
    fn operation_conditions(&mut self) {
        let high = self.dice.pick(&[0, 0, 0xFF00_0000, 0x8000_0000]);
        let shared = OCR & self.dice.word();
        let window = match self.dice.below(40) {
            0..=3 => 0,
            4..=6 => shared,
            7 => 0x0000_7FFF,
            8 => 0x0000_8000,
            9 => 0x0080_0000,
            10 => 0x00FF_FFFF,
            11 => self.dice.word() & 0x7FFF,
            _ => OCR,
        };
        self.command(1, high | window);
    }

    /// CMD2 and CMD3, either of which may be missing, with now and then a step between them.
    fn round(&mut self) {
        if self.dice.percent(97) {
            let argument = if self.dice.percent(80) { 0 } else { self.dice.word() };
            self.command(2, argument);
        }
        match self.dice.below(20) {
            0 => self.add(),
            1 => self.damaged_frame(),
            2 => self.step(),
            3 => return,
            _ => (),
        }
        self.assign();
    }

    /// CMD3: an address of the script's few, and now and then address 0.
    fn assign(&mut self) {
        let address = if self.dice.percent(8) { 0 } else { self.dice.pick(&self.addresses) };
        self.command_to(3, address);
    }

    /// A command that one card answers to and another does not, to any address of any card.
    fn addressed_command(&mut self) {
        let index = self.dice.pick(&[1, 2, 3, 7, 7, 7, 7, 9, 9, 10, 10, 13, 13, 13, 13, 15]);
        if index == 15 && self.dice.percent(60) {
            return;
        }
        let strange = self.dice.pick(&[0, 1, 2, 0xFFFF, 0x8000]);
        let script_address = self.dice.pick(&self.addresses);
        let address = if self.dice.percent(75) { script_address } else { strange };
        self.command_to(index, address);
    }

    /// Wrong CRC7, or wrong framing bits; also where the index is none of the bus's, for damage is
    /// looked at first.
    fn damaged_frame(&mut self) {
        let index = self.dice.pick(&[0, 1, 2, 3, 4, 7, 9, 10, 13, 15, 5, 12, 16, 63]);
        let address = self.dice.pick(&self.addresses);
        let mut frame = wire::command(index, (address as u32) << 16);
        match self.dice.below(10) {
            0 => frame[0] ^= 0x80,
            1 => frame[0] ^= 0x40,
            2 => frame[5] ^= 0x01,
            3 => frame[5] ^= 0x03,
            4 => frame = std::array::from_fn(|_| self.dice.byte()),
            5 | 6 => frame[self.dice.below(6) as usize] ^= 1 << self.dice.below(8),
            _ => frame[5] ^= 2 << self.dice.below(7),
        }
        self.say(BusRecord::Frame(frame));
    }

    /// Some whole frames, of any index that a card has not yet heard in its state: most are none of
    /// the bus's. Then, often, what a card says of it.
    fn any_commands(&mut self) {
        for _ in 0..self.dice.below(8) {
            let index = self.new_index();
            let address = self.dice.pick(&self.addresses);
            self.command_to(index, address);
        }
        if self.dice.percent(50) {
            let address = self.dice.pick(&self.addresses);
            self.command_to(13, address);
        }
    }

    /// An index that no card has heard in the state of some card, if there is one.
    fn new_index(&mut self) -> u8 {
        let any = self.dice.below(64);
        let heard = if self.bench.bus.cards.is_empty() { 0 } else { self.heard[self.some_card().0.number() as usize] };
        (any..any + 64).map(|index| index % 64).find(|index| heard >> index & 1 == 0).unwrap_or(any) as u8
    }
}
