//! One card: its record, making, power-on, work done, and how it takes a frame.
//! Every comment in quotation marks is a sentence of document 01 or of one of the requests of document
//! 02 (1 is SPI, 2 the block length after a reset), and the code under it says the same.

use crate::erase::Tags;
pub use crate::state::*;
use crate::wire::{self, Command, Refusal};

/// "Sector 512, erase group 4,096, protection group 8,192, physical read block 2,048 bytes."
pub const SECTOR: u64 = 512;
pub const ERASE_GROUP: u64 = 4_096;
pub const PROTECTION_GROUP: u64 = 8_192;
pub const READ_BLOCK: u64 = 2_048;

/// "Power-on and CMD0 now leave 2,048 where 01 says 512": a number, and not what the card's CSD says.
pub const LENGTH_AFTER_RESET: u64 = 2_048;

/// The error bits of the card status, by the standard's names.
pub const OUT_OF_RANGE: u32 = 1 << 31;
pub const ADDRESS_ERROR: u32 = 1 << 30;
pub const BLOCK_LEN_ERROR: u32 = 1 << 29;
pub const ERASE_SEQ_ERROR: u32 = 1 << 28;
pub const ERASE_PARAM: u32 = 1 << 27;
pub const WP_VIOLATION: u32 = 1 << 26;
pub const CARD_IS_LOCKED: u32 = 1 << 25;
pub const LOCK_UNLOCK_FAILED: u32 = 1 << 24;
pub const COM_CRC_ERROR: u32 = 1 << 23;
pub const ILLEGAL_COMMAND: u32 = 1 << 22;
pub const WP_ERASE_SKIP: u32 = 1 << 15;
pub const ERASE_RESET: u32 = 1 << 13;
pub const READY_FOR_DATA: u32 = 1 << 8;

#[derive(Clone, PartialEq, Debug)]
pub struct Card {
    pub size: u64,
    pub cid: [u8; 16],
    pub csd: [u8; 16],
    pub ocr: u32,
    /// "A password is 0 to 16 bytes; 0 means none."
    pub password: Vec<u8>,
    pub locked: bool,
    pub state: State,
    pub address: u16,
    pub block_length: u64,
    /// The error bits that wait for an R1.
    pub errors: u32,
    pub tags: Option<Tags>,
    pub mode: Mode,
}

/// What a frame is refused with: a number and, in SPI "beside number 3", the answer that goes out.
#[derive(PartialEq, Debug)]
pub struct Refused {
    pub number: Refusal,
    pub answer: Option<Vec<u8>>,
}

impl From<Refusal> for Refused {
    fn from(number: Refusal) -> Refused {
        Refused { number, answer: None }
    }
}

/// What a taken command answers with.
pub enum Answer {
    /// An R1: the bits its command sets at once, and those it leaves for the next R1.
    Status { at_once: u32, waiting: u32 },
    Register([u8; 16]),
    OperationConditions,
    Nothing,
}

impl Card {
    /// "Making a card checks 7, 8, 9 (CID, then CSD), 10, 11; a made card is as after power-on,
    /// its memory and map untouched."
    pub fn make(
        memory: &[u8], map: &[u8], cid: [u8; 16], csd: [u8; 16], ocr: u32, password: &[u8],
    ) -> Result<Card, Refusal> {
        let size = memory.len() as u64;
        // "8,192 to 33,554,432 bytes, a multiple of 8,192."
        if !(8_192..=33_554_432).contains(&size) || size % PROTECTION_GROUP != 0 {
            return Err(7);
        }
        // "The map has one byte per protection group, 0 or 1."
        if map.len() as u64 != size / PROTECTION_GROUP || map.iter().any(|&entry| entry > 1) {
            return Err(8);
        }
        // "CID and CSD end in the CRC7 of their first 15 bytes, then a 1."
        if [cid, csd].iter().any(|register| register[15] != wire::last_byte(&register[..15])) {
            return Err(9);
        }
        // "10 | OCR bits 23..0 all zero"
        if ocr & 0xFF_FFFF == 0 {
            return Err(10);
        }
        // "11 | password over 16 bytes"
        if password.len() > 16 {
            return Err(11);
        }
        let mut card = Card {
            size, cid, csd, ocr,
            password: password.to_vec(),
            locked: false,
            state: State::Idle,
            address: 1,
            block_length: LENGTH_AFTER_RESET,
            errors: 0,
            tags: None,
            mode: Mode::Mmc,
        };
        card.power_on();
        Ok(card)
    }

    /// "Power-on, from any state: Idle, address 1 (003), block length [2,048], no tags or error bits,
    /// locked exactly if a password is stored." A card "leaves [SPI] by power-on only".
    pub fn power_on(&mut self) {
        self.reset();
        self.locked = !self.password.is_empty();
        self.mode = Mode::Mmc;
    }

    /// "CMD0 [..] does the same but keeps the lock flag."
    fn reset(&mut self) {
        self.state = State::Idle;
        self.address = 1;
        self.block_length = LENGTH_AFTER_RESET;
        self.errors = 0;
        self.tags = None;
    }

    /// "Work done takes prg to tran and dis to stby, and changes no other state; it is never refused."
    pub fn work_done(&mut self) {
        self.state = match self.state {
            State::Prg => State::Tran,
            State::Dis => State::Stby,
            other => other,
        };
    }

    /// "12 | lent memory or map differs in length from the card's, or a map entry is not 0 or 1"
    pub fn check_lent(&self, memory: &[u8], map: &[u8]) -> Result<(), Refusal> {
        let lengths_fit = memory.len() as u64 == self.size && map.len() as u64 == self.size / PROTECTION_GROUP;
        if lengths_fit && map.iter().all(|&entry| entry <= 1) { Ok(()) } else { Err(12) }
    }

    /// "Frame: 1, 2, 3; at a card 12 comes first". None is silence.
    pub fn frame(
        &mut self, frame: &[u8], select: Select, memory: &mut [u8], map: &mut [u8],
    ) -> Result<Option<Vec<u8>>, Refused> {
        self.check_lent(memory, map)?;
        // "1 and 2 change nothing".
        let (command, crc7_is_right) = wire::unframe(frame)?;
        // "CMD0 is always checked."
        if !crc7_is_right && (self.checks_crc() || command.index == 0) {
            return Err(Refused { number: 3, answer: self.hear_damaged(select) });
        }
        Ok(self.hear(command, select, memory, map))
    }

    /// "3 (CMD0 apart) and 17 come only with CRC on": always on in MMC mode.
    pub fn checks_crc(&self) -> bool {
        self.mode != Mode::Spi { checks_crc: false }
    }

    /// "1. Inactive: silent, unchanged." In SPI "a frame with the line high is ignored".
    fn is_deaf(&self, select: Select) -> bool {
        self.state == State::Ina || self.mode != Mode::Mmc && select == Select::High
    }

    /// "3 sets bit 23 of the card [..] unless Inactive". "Illegal commands are answered here and,
    /// beside number 3, a wrong CRC7", where here is SPI.
    pub fn hear_damaged(&mut self, select: Select) -> Option<Vec<u8>> {
        if self.is_deaf(select) {
            return None;
        }
        self.errors |= COM_CRC_ERROR;
        (self.mode != Mode::Mmc).then(|| self.send_r1())
    }

    /// The "checks in order" of a command whose frame is not refused. None is silence.
    pub fn hear(
        &mut self, command: Command, select: Select, memory: &mut [u8], map: &mut [u8],
    ) -> Option<Vec<u8>> {
        if self.is_deaf(select) {
            return None;
        }
        if command.index == 0 {
            return self.go_idle(select);
        }
        match self.mode {
            Mode::Mmc => self.hear_in_mmc(command, memory, map),
            Mode::Spi { .. } => Some(self.hear_in_spi(command, memory, map)),
        }
    }

    /// "CMD0, legal and silent in every state but Inactive". "A card enters SPI when CMD0 comes with
    /// its select line low": it answers there, as every command is answered. A card that is in SPI
    /// already, and so heard this only with its line low, enters it again.
    fn go_idle(&mut self, select: Select) -> Option<Vec<u8>> {
        self.reset();
        if select == Select::High {
            return None;
        }
        self.mode = Mode::Spi { checks_crc: false };
        Some(self.send_r1())
    }

    fn hear_in_mmc(&mut self, command: Command, memory: &mut [u8], map: &mut [u8]) -> Option<Vec<u8>> {
        if self.is_passed_over(command) {
            return None;
        }
        if !self.has_legal_move(command) {
            self.note_illegal(command);
            return None;
        }
        self.take(command, memory, map)
    }

    /// Own: "argument bits 31..16" are the card's address.
    pub fn is_own(&self, command: Command) -> bool {
        command.argument >> 16 == self.address as u32
    }

    /// "3. CMD9, 10, 13, 15 for another address (argument bits 31..16): silent, unchanged.
    /// CMD4 always; CMD1, 2, 3 outside their state: the same."
    fn is_passed_over(&self, command: Command) -> bool {
        match command.index {
            9 | 10 | 13 | 15 => !self.is_own(command),
            4 => true,
            1 => self.state != State::Idle,
            2 => self.state != State::Ready,
            3 => self.state != State::Ident,
            _ => false,
        }
    }

    /// "The legal moves stand as one fixed table": the states in which a command has a row.
    pub fn has_legal_move(&self, command: Command) -> bool {
        use self::State::*;
        match command.index {
            1 => self.state == Idle,
            2 => self.state == Ready,
            3 => self.state == Ident,
            7 if self.is_own(command) => matches!(self.state, Stby | Dis),
            7 => matches!(self.state, Tran | Data(_) | Prg),
            9 | 10 => self.state == Stby,
            12 => matches!(self.state, Data(_) | Rcv(_)),
            13 | 15 => matches!(self.state, Stby | Tran | Data(_) | Rcv(_) | Prg | Dis),
            16..=18 | 24 | 25 | 28..=30 | 32 | 33 | 35 | 36 | 38 | 42 => self.state == Tran,
            _ => false,
        }
    }

    /// "4. No legal move: in tran, data, rcv or prg, silent with bit 22; elsewhere silent, unchanged (H).
    /// CMD7 for another address in rcv is silent, unchanged."
    fn note_illegal(&mut self, command: Command) {
        use self::State::*;
        let excused = command.index == 7 && !self.is_own(command) && matches!(self.state, Rcv(_));
        if matches!(self.state, Tran | Data(_) | Rcv(_) | Prg) && !excused {
            self.errors |= ILLEGAL_COMMAND;
        }
    }

    /// "A command is taken if it passes checks 1 to 4".
    fn take(&mut self, command: Command, memory: &mut [u8], map: &mut [u8]) -> Option<Vec<u8>> {
        let on_reception = self.state;
        let answer = self.carry_out(command, memory, map);
        // "R1 reports pending bits and those its command sets at once, then clears them."
        if let Answer::Status { at_once, waiting } = answer {
            let status = self.errors | at_once | self.status_of(on_reception);
            self.errors = waiting;
            return Some(wire::r1(command.index, status));
        }
        // "Other taken commands clear bits 23 and 22 only."
        self.errors &= !(COM_CRC_ERROR | ILLEGAL_COMMAND);
        match answer {
            Answer::Register(register) => Some(wire::r2(&register)),
            Answer::OperationConditions => Some(wire::r3(self.ocr)),
            _ => None,
        }
    }

    /// "25 locked; 12..9 the state on reception, idle 0 to dis 8; bit 8 is 0 in prg and dis, else 1."
    fn status_of(&self, state: State) -> u32 {
        let ready = if matches!(state, State::Prg | State::Dis) { 0 } else { READY_FOR_DATA };
        let locked = if self.locked { CARD_IS_LOCKED } else { 0 };
        locked | state.number() << 9 | ready
    }
}
