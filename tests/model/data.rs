//! The walk's blocks, lock requests and damage.

use crate::card::*;
use crate::script::Record;
use crate::walk::Walk;
use crate::wire;

impl Walk {
    pub fn lead_on_in_data(&mut self, sending: Sending) {
        let needed = self.card().sent_length(sending);
        match self.dice.below(12) {
            0 => self.command(12, 0),
            1 => self.command(13, self.own()),
            2 => {
                let other = self.other();
                self.command(7, other);
            }
            3 => {
                let length = self.dice.pick(&[0, needed - 1, needed.min(6), needed.min(514)]);
                self.say(Record::BlockOut(length));
            }
            4 => self.say(Record::BlockOut(needed + 3)),
            _ => self.say(Record::BlockOut(needed)),
        }
    }

    pub fn lead_on_in_rcv(&mut self, awaited: Awaited) {
        match self.dice.below(14) {
            0 => self.command(12, 0),
            1 => self.command(13, self.own()),
            // A locked card seldom comes here, and most blocks lead away.
            2 | 3 if self.card().locked => self.linger(),
            _ => {
                let payload = if awaited == Awaited::Lock { self.lock_request() } else { self.simple_payload(512) };
                let whole = self.card().framed(&payload);
                let in_spi = self.is_in_spi();
                let block = if in_spi { self.perhaps_damaged_in_spi(whole) } else { self.perhaps_damaged(whole) };
                self.say(Record::BlockIn(block));
            }
        }
    }

    fn simple_payload(&mut self, length: usize) -> Vec<u8> {
        let mut payload = vec![self.dice.byte(); length];
        if let Some(last) = payload.last_mut() {
            *last = self.dice.byte();
        }
        payload
    }

    /// One block in eight is of a wrong length or has a wrong CRC16.
    pub fn perhaps_damaged(&mut self, mut block: Vec<u8>) -> Vec<u8> {
        let length = block.len();
        match self.dice.below(40) {
            0 => block.truncate(length - 1),
            1 => block.push(0),
            2 => block.truncate(self.dice.below(4) as usize),
            3 => block[length - 1] ^= 1 << self.dice.below(8),
            4 => block[0] ^= 1 << self.dice.below(8),
            _ => (),
        }
        block
    }

    /// A lock request that fills the block length: a right one more often than not.
    fn lock_request(&mut self) -> Vec<u8> {
        let request = if self.dice.percent(8) {
            self.dice.byte()
        } else if self.card().locked {
            self.dice.pick(&[0, 0, 0, 0, 0, 8, 1, 2, 4, 5])
        } else {
            self.dice.pick(&[1, 1, 1, 5, 5, 2, 4, 4, 0, 8, 6])
        };
        let mut passwords = self.perhaps_wrong_password();
        if matches!(request, 1 | 5) {
            let count = self.dice.pick(&[0, 1, 1, 2, 3, 8, 15, 16, 16, 17]);
            let letter = self.dice.pick(b"ABC");
            passwords.extend(vec![letter; count]);
        }
        let length = self.dice.pick(&[0, 0, 0, 0, 0, 0, 0, 0, 1, 2]);
        let given = (passwords.len() + length).min(255) as u8;
        // Forced erase does not read byte 1.
        let given = if request == 8 { self.dice.pick(&[0, 3, 0xFF]) } else { given };
        let mut payload = [&[request, given][..], &passwords].concat();
        payload.resize(self.card().block_length as usize, 0);
        payload
    }

    /// The stored password, or one near it: a prefix, one byte more, one bit off.
    fn perhaps_wrong_password(&mut self) -> Vec<u8> {
        let mut password = self.card().password.clone();
        match self.dice.below(16) {
            0 => password.push(b'A'),
            1 => drop(password.pop()),
            2 => {
                if let Some(last) = password.last_mut() {
                    *last ^= 1;
                }
            }
            3 => password.clear(),
            _ => (),
        }
        password
    }

    /// Wrong CRC7, wrong framing bits, or a length from 0 to 9.
    pub fn damaged_frame(&mut self) {
        let index = self.dice.pick(&[0, 1, 2, 3, 7, 12, 13, 13, 16, 17, 24, 38, 42, 63]);
        let mut frame = wire::command(index, self.own()).to_vec();
        match self.dice.below(8) {
            0 => frame[0] ^= 0x80,
            1 => frame[0] ^= 0x40,
            2 => frame[5] ^= 0x01,
            3 => frame.resize(self.dice.below(10) as usize, 0xFF),
            4 => frame[self.dice.below(6) as usize] ^= 1 << self.dice.below(8),
            _ => frame[5] ^= 2 << self.dice.below(7),
        }
        let select = self.line();
        self.say(Record::Frame(select, frame));
    }

    /// An index that is new here, with an argument that some command finds likely.
    pub fn any_command(&mut self) {
        let select = self.line();
        let addressed = self.dice.pick(&[7, 9, 10, 13, 15]);
        let index = if self.dice.percent(15) { addressed } else { self.new_index(select) };
        let argument = match self.dice.below(4) {
            0 => self.own(),
            1 => self.other(),
            _ => self.address(),
        };
        self.frame(select, index, argument);
    }

    pub fn show_memory(&mut self) {
        let from = (self.address() as usize) % (self.card().size as usize + 3);
        let length = self.dice.pick(&[0, 1, 4, 16, 32, 32, 32, 600]);
        self.say(Record::ShowMemory(from.saturating_sub(8), length));
    }

    /// A call while the wrong lengths are lent; then the right ones again.
    pub fn lend_wrong(&mut self) {
        let (memory, map) = (self.bench.memory.len(), self.bench.map.len());
        let wrong_memory = self.dice.pick(&[0, 8_192, memory - 1, memory + 1, memory + 8_192, 0xFF_FFFF]);
        let wrong = self.dice.pick(&[(wrong_memory, map), (memory, map - 1), (memory, map + 1), (memory, 0)]);
        self.say(Record::Lend(wrong.0, wrong.1));
        for _ in 0..1 + self.dice.below(3) {
            self.any_call();
        }
        self.say(Record::Lend(memory, map));
    }

    /// A call while an entry of the map is neither 0 nor 1; also an entry past the end.
    pub fn poke_wrong(&mut self) {
        let entries = self.bench.map.len();
        let place = self.dice.below(entries as u64 + 1) as usize;
        let entry = self.dice.pick(&[0, 1, 2, 3, 0x80, 0xFF]);
        self.say(Record::Poke(place, entry));
        for _ in 0..self.dice.below(3) {
            self.any_call();
        }
        let right = self.dice.below(2) as u8;
        self.say(Record::Poke(place, right));
    }

    fn any_call(&mut self) {
        match self.dice.below(8) {
            0 => self.damaged_frame(),
            1 => self.stray_block(),
            2 => self.say(Record::ShowCard),
            3 => self.say(Record::WorkDone),
            4 => self.free_standing(),
            5 => self.say(Record::BlockOut(514)),
            _ => self.command(13, self.own()),
        }
    }

    /// A block in or out in whatever state the card is.
    pub fn stray_block(&mut self) {
        if self.dice.percent(50) {
            let length = self.dice.pick(&[0, 1, 2, 3, 6, 7, 19, 514, 515, 2_050]);
            return self.say(Record::BlockOut(length));
        }
        let length = self.dice.pick(&[0, 1, 2, 16, 512]);
        let payload = self.simple_payload(length);
        let block = if self.dice.percent(20) { payload } else { self.card().framed(&payload) };
        self.say(Record::BlockIn(block));
    }

    /// The routines that concern no card: 0B, 0C and 0D.
    pub fn free_standing(&mut self) {
        let output = self.dice.pick(&[0, 1, 5, 6, 6, 7, 9]);
        let length = self.dice.pick(&[0, 1, 1, 2, 4, 4, 16, 2_048, 2_049]);
        let payload = self.simple_payload(length);
        let record = match self.dice.below(3) {
            0 => Record::WriteFrame(self.dice.pick(&[0, 13, 38, 63, 64, 127, 255]), self.dice.word(), output),
            1 if length > 100 => Record::WriteBlock(payload, self.dice.pick(&[6, 2_049, 2_050])),
            1 => Record::WriteBlock(payload, output),
            _ => Record::CheckBlock(self.perhaps_damaged(wire::block(&payload))),
        };
        self.say(record);
    }
}
