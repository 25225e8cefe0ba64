//! What a taken command does: the rows of document 01's table of legal moves, with the
//! argument errors of "Reading, writing, erasing, locking".

use crate::card::*;
use crate::wire::Command;

/// A command that is answered by R1 either goes through or is stopped by one bit:
/// "6. Argument errors: R1 with the bit, no move."
pub type Checked = Result<State, u32>;

/// "Check 5 reads from now on: class 0, CMD16 and CMD42" (request 4): class 0 is 0 to 15 and, of the two of SPI, 58 and 59.
fn goes_on_locked(index: u8) -> bool {
    matches!(index, 0..=15 | 16 | 42 | 58 | 59)
}

impl Card {
    /// What a taken command does, in either mode: tags, the lock, then the command itself.
    pub fn carry_out(&mut self, command: Command, memory: &mut [u8], map: &mut [u8]) -> Answer {
        self.drop_tags_unless_erasing(command.index);
        // "5. [..] others answer R1 with bit 24, no move."
        if self.locked && !goes_on_locked(command.index) {
            self.tags = None;
            return Answer::Status { at_once: LOCK_UNLOCK_FAILED, waiting: 0 };
        }
        match self.mode {
            Mode::Mmc => self.execute(command, memory, map),
            Mode::Spi { .. } => self.execute_in_spi(command, memory, map),
        }
    }

    /// Carries out a command that has a legal move and is not stopped by the lock.
    pub fn execute(&mut self, command: Command, memory: &mut [u8], map: &mut [u8]) -> Answer {
        match command.index {
            1 => self.send_op_cond(command.argument),
            // "2 | ready to ident if it wins". "In its own call a card is alone on the line, so CMD2 wins."
            2 => {
                self.state = State::Ident;
                Answer::Register(self.cid)
            }
            7 if !self.is_own(command) => self.deselect(),
            // "9, 10 | stby stays | R2 CSD, CID"
            9 => Answer::Register(self.csd),
            10 => Answer::Register(self.cid),
            // "15 | those six to ina | none"
            15 => {
                self.state = State::Ina;
                Answer::Nothing
            }
            38 => self.erase(memory, map),
            _ => match self.checked_move(command, map) {
                Ok(next) => {
                    self.state = next;
                    Answer::Status { at_once: 0, waiting: 0 }
                }
                Err(bit) => Answer::Status { at_once: bit, waiting: 0 },
            },
        }
    }

    /// "1 | idle: window 0 stays; window shares a bit with OCR, to ready; else to ina, silent | R3".
    /// "Window means argument bits 23..0."
    fn send_op_cond(&mut self, argument: u32) -> Answer {
        let window = argument & 0xFF_FFFF;
        if window == 0 {
            return Answer::OperationConditions;
        }
        if window & self.ocr != 0 {
            self.state = State::Ready;
            return Answer::OperationConditions;
        }
        self.state = State::Ina;
        Answer::Nothing
    }

    /// "7 other | tran or data to stby, prg to dis | none"
    fn deselect(&mut self) -> Answer {
        self.state = if self.state == State::Prg { State::Dis } else { State::Stby };
        Answer::Nothing
    }

    /// The rows that are answered by R1, CMD38 apart.
    fn checked_move(&mut self, command: Command, map: &mut [u8]) -> Checked {
        let address = command.argument as u64;
        match command.index {
            3 => self.set_relative_address(command.argument),
            // "7 own | stby to tran, dis to prg | R1"
            7 => Ok(if self.state == State::Dis { State::Prg } else { State::Tran }),
            // "12 | data to tran, rcv to prg | R1"
            12 => Ok(if matches!(self.state, State::Data(_)) { State::Tran } else { State::Prg }),
            16 => self.set_block_length(address),
            // "17, 18, 30 | tran to data"
            17 => self.check_read(address).map(|()| State::Data(Sending::One(address))),
            18 => self.check_read(address).map(|()| State::Data(Sending::Many(address))),
            30 => self.in_range(address).map(|()| State::Data(Sending::Protection(address))),
            // "24, 25, 42 | tran to rcv"
            24 => self.check_write(address).map(|()| State::Rcv(Awaited::One(address))),
            25 => self.check_write(address).map(|()| State::Rcv(Awaited::Many(address))),
            42 => Ok(State::Rcv(Awaited::Lock)),
            // "CMD28, 29: set, clear the addressed group."
            28 => self.protect(address, map, 1),
            29 => self.protect(address, map, 0),
            32 | 33 | 35 | 36 => self.tag(command.index, address),
            // "13 | stby, tran, data, rcv, prg, dis stay | R1"
            _ => Ok(self.state),
        }
    }

    /// "3 | ident to stby, address taken; address 0: bit 31, stays | R1"
    fn set_relative_address(&mut self, argument: u32) -> Checked {
        let address = (argument >> 16) as u16;
        if address == 0 {
            return Err(OUT_OF_RANGE);
        }
        self.address = address;
        Ok(State::Stby)
    }

    /// "CMD16: length 1 to 2,048, else bit 29."
    fn set_block_length(&mut self, length: u64) -> Checked {
        if !(1..=2_048).contains(&length) {
            return Err(BLOCK_LEN_ERROR);
        }
        self.block_length = length;
        Ok(State::Tran)
    }

    /// "For CMD28 to 30 an address past the end: bit 31." The same range holds for CMD32 to 36.
    pub fn in_range(&self, address: u64) -> Result<(), u32> {
        if address < self.size { Ok(()) } else { Err(OUT_OF_RANGE) }
    }

    /// "CMD17, 18: block past the end, bit 31; else crossing a multiple of 2,048, bit 30."
    pub fn check_read(&self, address: u64) -> Result<(), u32> {
        let last = address + self.block_length - 1;
        if last >= self.size {
            return Err(OUT_OF_RANGE);
        }
        if address / READ_BLOCK != last / READ_BLOCK {
            return Err(ADDRESS_ERROR);
        }
        Ok(())
    }

    /// "CMD24, 25: length must be 512 (bit 29), then in range (31), then aligned to 512 (30)."
    fn check_write(&self, address: u64) -> Result<(), u32> {
        if self.block_length != SECTOR {
            return Err(BLOCK_LEN_ERROR);
        }
        if address + SECTOR > self.size {
            return Err(OUT_OF_RANGE);
        }
        if address % SECTOR != 0 {
            return Err(ADDRESS_ERROR);
        }
        Ok(())
    }

    /// "28, 29, 38 | tran to prg"
    fn protect(&mut self, address: u64, map: &mut [u8], entry: u8) -> Checked {
        self.in_range(address)?;
        map[(address / PROTECTION_GROUP) as usize] = entry;
        Ok(State::Prg)
    }

    /// "CSD bit 13 (permanent) or 12 (temporary) protects the whole card."
    pub fn is_wholly_protected(&self) -> bool {
        // Bits 15..8 of a register of 128 bits are its byte 14.
        self.csd[14] & 0x30 != 0
    }

    /// Whether the byte at an address in memory is protected, by its group or with the whole card.
    pub fn is_protected(&self, address: u64, map: &[u8]) -> bool {
        self.is_wholly_protected() || map[(address / PROTECTION_GROUP) as usize] == 1
    }
}
