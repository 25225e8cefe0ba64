//! Block in and block out: the data that follow CMD17, 18, 30, 24, 25 and 42, and in SPI CMD9 and 10.

use crate::card::*;
use crate::wire::{self, Refusal};

impl Card {
    /// "Block in: 12, 15, 16, 17, 18, 19 or 20."
    pub fn block_in(&mut self, block: &[u8], memory: &mut [u8], map: &mut [u8]) -> Result<(), Refusal> {
        self.check_lent(memory, map)?;
        // "15 | no block is expected"
        let State::Rcv(awaited) = self.state else { return Err(15) };
        let result = self.store(awaited, block, memory, map);
        self.state = match (awaited, result) {
            // "A good block is stored; CMD24 goes to prg, CMD25 stays and moves on 512."
            // CMD42: "Granted goes to prg".
            (Awaited::Many(address), Ok(())) => State::Rcv(Awaited::Many(address + SECTOR)),
            (_, Ok(())) => State::Prg,
            // "CMD24 then goes to tran, CMD25 stays at its address." CMD42: "16, 17, 20 go to tran".
            (Awaited::Many(_), Err(_)) => self.state,
            (_, Err(_)) => State::Tran,
        };
        // "Refused 16, 18 and 19 set bits 29, 31, 26; 17 sets none." CMD42: "16 sets bit 29, 20 sets 24."
        self.errors |= match result {
            Err(16) => BLOCK_LEN_ERROR,
            Err(18) => OUT_OF_RANGE,
            Err(19) => WP_VIOLATION,
            Err(20) => LOCK_UNLOCK_FAILED,
            _ => 0,
        };
        result
    }

    /// Checks the block and puts it where it belongs.
    fn store(&mut self, awaited: Awaited, block: &[u8], memory: &mut [u8], map: &mut [u8]) -> Result<(), Refusal> {
        // CMD42: "one block of the block length".
        let expected = if awaited == Awaited::Lock { self.block_length } else { SECTOR };
        let payload = self.payload_of(block, expected as usize)?;
        let (Awaited::One(address) | Awaited::Many(address)) = awaited else {
            // "20 | lock request failed"
            return if self.lock_request(payload, memory, map) { Ok(()) } else { Err(20) };
        };
        // "18 | block past the end of memory"
        if address + SECTOR > self.size {
            return Err(18);
        }
        // "19 | block in protected memory"
        if self.is_protected(address, map) {
            return Err(19);
        }
        memory[address as usize..][..payload.len()].copy_from_slice(payload);
        Ok(())
    }

    /// The payload of a block that comes in, by the framing of the card's mode.
    fn payload_of<'a>(&self, block: &'a [u8], length: usize) -> Result<&'a [u8], Refusal> {
        // "start byte FE (another is 16)"
        let rest = match self.mode {
            Mode::Mmc => block,
            Mode::Spi { .. } => block.strip_prefix(&[wire::START_BYTE]).ok_or(16)?,
        };
        // "16 | block in has the wrong length"
        if rest.len() != length + 2 {
            return Err(16);
        }
        // "17 | block CRC16 wrong"
        if self.checks_crc() && !wire::crc16_is_right(rest) {
            return Err(17);
        }
        Ok(&rest[..length])
    }

    /// "data responses 05 accepted and 0B for a bad CRC"; "A block refused 16, 19 or 20 sends no data
    /// response." What goes out beside the answer to a block, which does not change the mode.
    pub fn data_response(&self, result: Result<(), Refusal>) -> Option<u8> {
        match (self.mode, result) {
            (Mode::Spi { .. }, Ok(())) => Some(0x05),
            (Mode::Spi { .. }, Err(17)) => Some(0x0B),
            _ => None,
        }
    }

    /// "Block out: 12, 15, 6, 18, 21." The answer is the count of bytes written to the output.
    pub fn block_out(&mut self, output: &mut [u8], memory: &[u8], map: &[u8]) -> Result<usize, Refusal> {
        self.check_lent(memory, map)?;
        // "15 | [..] none is to be read"
        let State::Data(sending) = self.state else { return Err(15) };
        // "6 | lent output too short"
        if output.len() < self.sent_length(sending) {
            return Err(6);
        }
        let written = match sending {
            Sending::Protection(address) => self.framed(&protection_bits(address, map)),
            Sending::Csd => self.framed(&self.csd),
            Sending::Cid => self.framed(&self.cid),
            Sending::One(address) | Sending::Many(address) => {
                self.check_sent(address)?;
                self.framed(&memory[address as usize..][..self.block_length as usize])
            }
        };
        output[..written.len()].copy_from_slice(&written);
        self.state = match sending {
            // "CMD18 moves on by one block"
            Sending::Many(address) => State::Data(Sending::Many(address + self.block_length)),
            // "After CMD17's block the card is in tran." CMD30: "then as CMD17". CMD9 and 10 come
            // "with CMD17's moves".
            _ => State::Tran,
        };
        Ok(written.len())
    }

    /// How long the block is that waits to be sent, with all that is around its payload.
    pub fn sent_length(&self, sending: Sending) -> usize {
        let payload = match sending {
            Sending::Protection(_) => 4,
            Sending::Csd | Sending::Cid => 16,
            Sending::One(_) | Sending::Many(_) => self.block_length as usize,
        };
        payload + if self.mode == Mode::Mmc { 2 } else { 3 }
    }

    /// A block as the card sends it: in SPI behind its start byte.
    pub fn framed(&self, payload: &[u8]) -> Vec<u8> {
        match self.mode {
            Mode::Mmc => wire::block(payload),
            Mode::Spi { .. } => wire::spi_block(payload),
        }
    }

    /// "a later block out that fails sets bit 31 (18) or 30 (21) and stays in data."
    fn check_sent(&mut self, address: u64) -> Result<(), Refusal> {
        self.check_read(address).map_err(|bit| {
            self.errors |= bit;
            // "21 | read block crosses 2,048"
            if bit == OUT_OF_RANGE { 18 } else { 21 }
        })
    }
}

/// "CMD30: 32 bits as 4 bytes, highest first; the lowest bit is the addressed group, groups past
/// the end read 0, the map read as the block goes out".
fn protection_bits(address: u64, map: &[u8]) -> [u8; 4] {
    let first = (address / PROTECTION_GROUP) as usize;
    let mut bits = 0u32;
    for (place, &entry) in map[first..].iter().take(32).enumerate() {
        bits |= (entry as u32) << place;
    }
    bits.to_be_bytes()
}
