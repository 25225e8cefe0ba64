//! SPI: how a card whose select line is low takes a command there, and what it sends. Every comment in
//! quotation marks is a sentence of request 1 of document 02, and the code under it says the same.

use crate::card::*;
use crate::wire::{self, Command};

/// The status bits of a byte that is sent, from bit 7 down to bit 1: each place shows any of its own.
type Places = [u32; 7];

/// "R1 as one byte (from bit 6 down: status 31 or 29, 30, 28, 23, 22, 13, idle after the command)"
const FIRST: Places = [
    0,
    OUT_OF_RANGE | BLOCK_LEN_ERROR,
    ADDRESS_ERROR,
    ERASE_SEQ_ERROR,
    COM_CRC_ERROR,
    ILLEGAL_COMMAND,
    ERASE_RESET,
];

/// "R2 as two (second: 31, 27, 26, three 0, 15 or 24, locked)"
const SECOND: Places =
    [OUT_OF_RANGE, ERASE_PARAM, WP_VIOLATION, 0, 0, 0, WP_ERASE_SKIP | LOCK_UNLOCK_FAILED];

/// A byte of status: the places, and in bit 0 a flag.
fn byte(places: Places, errors: u32, flag: bool) -> u8 {
    places.iter().map(|place| errors & place != 0).chain([flag]).fold(0, |byte, bit| byte << 1 | bit as u8)
}

impl Card {
    /// Checks 4 to 6 and the answer, for a frame with the line low: "no address is compared".
    pub fn hear_in_spi(&mut self, command: Command, memory: &mut [u8], map: &mut [u8]) -> Vec<u8> {
        // "Illegal commands are answered here".
        if !self.has_legal_move_in_spi(command) {
            self.errors |= ILLEGAL_COMMAND;
            return self.send_r1();
        }
        let Answer::Status { at_once, waiting } = self.carry_out(command, memory, map) else {
            unreachable!("in SPI every taken command is answered by its status")
        };
        self.errors |= at_once;
        let sent = match command.index {
            13 => self.send_r2(),
            58 => self.send_r3(),
            _ => self.send_r1(),
        };
        self.errors |= waiting;
        sent
    }

    /// "Idle allows only CMD0, 1, 58 and 59"; "CMD9 and 10 [..] with CMD17's moves"; "CMD2, 3, 4, 7, 11,
    /// 12, 15, 18 and 25 are illegal." The others move as in MMC mode.
    fn has_legal_move_in_spi(&self, command: Command) -> bool {
        use self::State::*;
        match command.index {
            1 => self.state == Idle,
            2 | 3 | 4 | 7 | 11 | 12 | 15 | 18 | 25 => false,
            9 | 10 => self.state == Tran,
            58 | 59 => matches!(self.state, Idle | Tran | Data(_) | Rcv(_) | Prg),
            _ => self.has_legal_move(command),
        }
    }

    /// The commands that do something else than in MMC mode, or are of SPI alone. "Reads, writes,
    /// erase, protection and lock are shared".
    pub fn execute_in_spi(&mut self, command: Command, memory: &mut [u8], map: &mut [u8]) -> Answer {
        self.state = match command.index {
            // "CMD1 with any argument takes Idle to Transfer"
            1 => State::Tran,
            // "CMD9 and 10 send the register as a block with CMD17's moves"
            9 => State::Data(Sending::Csd),
            10 => State::Data(Sending::Cid),
            // CMD59 (002): argument bit 0 switches CRC checking, 1 on and 0 off.
            59 => {
                self.mode = Mode::Spi { checks_crc: command.argument & 1 == 1 };
                self.state
            }
            _ => return self.execute(command, memory, map),
        };
        Answer::Status { at_once: 0, waiting: 0 }
    }

    pub fn send_r1(&mut self) -> Vec<u8> {
        self.send(&[(FIRST, self.state == State::Idle)])
    }

    fn send_r2(&mut self) -> Vec<u8> {
        self.send(&[(FIRST, self.state == State::Idle), (SECOND, self.locked)])
    }

    /// "R3 as five": R1's byte, then the four OCR bytes of document 01's R3.
    fn send_r3(&mut self) -> Vec<u8> {
        [&self.send_r1()[..], &wire::r3(self.ocr)[1..5]].concat()
    }

    /// Bytes of status with their flags: "an answer clears the bits it shows".
    fn send(&mut self, bytes: &[(Places, bool)]) -> Vec<u8> {
        let sent = bytes.iter().map(|&(places, flag)| byte(places, self.errors, flag)).collect();
        self.errors &= !bytes.iter().flat_map(|(places, _)| places).fold(0, |shown, place| shown | place);
        sent
    }
}
