//! A script of `cardline`: one byte of kind, then a body, all numbers high byte first.
//! Quoted sentences are from docs/CARDLINE.md.

use crate::card::Select;

#[derive(Clone)]
pub enum Record {
    Make(Making),
    Frame(Select, Vec<u8>),
    BlockIn(Vec<u8>),
    BlockOut(usize),
    WorkDone,
    PowerOn,
    ShowCard,
    ShowMemory(usize, usize),
    Lend(usize, usize),
    Poke(usize, u8),
    WriteFrame(u8, u32, usize),
    WriteBlock(Vec<u8>, usize),
    CheckBlock(Vec<u8>),
    ShowMode,
}

#[derive(Clone)]
pub struct Making {
    pub memory_length: usize,
    pub filled_with: u8,
    pub map: Vec<u8>,
    pub cid: [u8; 16],
    pub csd: [u8; 16],
    pub ocr: u32,
    pub password: Vec<u8>,
}

/// Why a script stops before its end; the line that says so.
pub type Stop = &'static str;
pub const NO_CARD: Stop = "no card";
pub const BAD_KIND: Stop = "bad kind";
pub const CUT: Stop = "cut";
pub const TOO_BIG: Stop = "too big";

/// What is left of a script.
pub struct Script<'a>(pub &'a [u8]);

impl Script<'_> {
    /// The next record, or none at the end of the script.
    pub fn next(&mut self, is_first: bool) -> Option<Result<Record, Stop>> {
        let (&kind, rest) = self.0.split_first()?;
        self.0 = rest;
        Some(match (kind, is_first) {
            (1, true) => self.making(),
            (_, true) => Err(NO_CARD),
            (_, false) => self.body(kind),
        })
    }

    fn making(&mut self) -> Result<Record, Stop> {
        let memory_length = self.number(3)?;
        if memory_length > 524_288 {
            return Err(TOO_BIG);
        }
        let filled_with = self.number(1)? as u8;
        let map_length = self.number(1)?;
        let map = self.bytes(map_length)?;
        let cid = self.register()?;
        let csd = self.register()?;
        let ocr = self.number(4)? as u32;
        let password_length = self.number(1)?;
        let password = self.bytes(password_length)?;
        Ok(Record::Make(Making { memory_length, filled_with, map, cid, csd, ocr, password }))
    }

    fn body(&mut self, kind: u8) -> Result<Record, Stop> {
        Ok(match kind {
            0x02 => Record::Frame(Select::High, self.short_bytes()?),
            0x03 => Record::BlockIn(self.long_bytes()?),
            0x04 => Record::BlockOut(self.length()?),
            0x05 => Record::WorkDone,
            0x06 => Record::PowerOn,
            0x07 => Record::ShowCard,
            0x08 => Record::ShowMemory(self.number(3)?, self.length()?),
            0x09 => Record::Lend(self.number(3)?, self.number(1)?),
            0x0A => Record::Poke(self.number(1)?, self.number(1)? as u8),
            0x0B => Record::WriteFrame(self.number(1)? as u8, self.number(4)? as u32, self.number(1)?),
            0x0C => Record::WriteBlock(self.long_bytes()?, self.length()?),
            0x0D => Record::CheckBlock(self.long_bytes()?),
            0x0E => Record::Frame(Select::Low, self.short_bytes()?),
            0x0F => Record::ShowMode,
            _ => return Err(BAD_KIND),
        })
    }

    fn bytes(&mut self, count: usize) -> Result<Vec<u8>, Stop> {
        if self.0.len() < count {
            return Err(CUT);
        }
        let (taken, rest) = self.0.split_at(count);
        self.0 = rest;
        Ok(taken.to_vec())
    }

    fn number(&mut self, count: usize) -> Result<usize, Stop> {
        Ok(self.bytes(count)?.iter().fold(0, |number, &byte| number << 8 | byte as usize))
    }

    fn register(&mut self) -> Result<[u8; 16], Stop> {
        let bytes = self.bytes(16)?;
        Ok(std::array::from_fn(|place| bytes[place]))
    }

    /// A length of two bytes: "over 4,096 [..] prints `too big`", as soon as its bytes are read.
    fn length(&mut self) -> Result<usize, Stop> {
        let length = self.number(2)?;
        if length > 4_096 { Err(TOO_BIG) } else { Ok(length) }
    }

    /// Bytes behind a length of one byte.
    fn short_bytes(&mut self) -> Result<Vec<u8>, Stop> {
        let length = self.number(1)?;
        self.bytes(length)
    }

    fn long_bytes(&mut self) -> Result<Vec<u8>, Stop> {
        let length = self.length()?;
        self.bytes(length)
    }
}

impl Record {
    /// The record as a script carries it.
    pub fn written(&self) -> Vec<u8> {
        match self {
            Record::Make(making) => making.written(),
            Record::Frame(select, bytes) => [&[kind_of_frame(*select), bytes.len() as u8], &bytes[..]].concat(),
            Record::BlockIn(block) => [&[0x03][..], &number(block.len(), 2), block].concat(),
            Record::BlockOut(length) => [&[0x04][..], &number(*length, 2)].concat(),
            Record::WorkDone => vec![0x05],
            Record::PowerOn => vec![0x06],
            Record::ShowCard => vec![0x07],
            Record::ShowMemory(from, length) => [&[0x08][..], &number(*from, 3), &number(*length, 2)].concat(),
            Record::Lend(memory, map) => [&[0x09][..], &number(*memory, 3), &number(*map, 1)].concat(),
            Record::Poke(place, entry) => vec![0x0A, *place as u8, *entry],
            Record::WriteFrame(index, argument, length) => {
                [&[0x0B, *index][..], &argument.to_be_bytes(), &number(*length, 1)].concat()
            }
            Record::WriteBlock(payload, output) => {
                [&[0x0C][..], &number(payload.len(), 2), payload, &number(*output, 2)].concat()
            }
            Record::CheckBlock(block) => [&[0x0D][..], &number(block.len(), 2), block].concat(),
            Record::ShowMode => vec![0x0F],
        }
    }
}

impl Making {
    fn written(&self) -> Vec<u8> {
        let head = [&[0x01][..], &number(self.memory_length, 3), &[self.filled_with, self.map.len() as u8]].concat();
        let registers = [&self.cid[..], &self.csd, &self.ocr.to_be_bytes()].concat();
        [&head[..], &self.map, &registers, &[self.password.len() as u8], &self.password].concat()
    }
}

/// The record of a frame tells by its kind how the select line is.
fn kind_of_frame(select: Select) -> u8 {
    match select {
        Select::High => 0x02,
        Select::Low => 0x0E,
    }
}

/// A number in so many bytes, high byte first.
fn number(value: usize, count: usize) -> Vec<u8> {
    (0..count).rev().map(|place| (value >> (8 * place)) as u8).collect()
}
