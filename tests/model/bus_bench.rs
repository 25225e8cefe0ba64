//! What `busline` reads and prints. Quoted sentences are from document 01's "The shared line".

use crate::bus::Bus;
use crate::card::Card;
use crate::wire::{self, hex, Refusal};

/// "records are one byte of kind, then a body whose length the kind fixes"
#[derive(Clone)]
pub enum BusRecord {
    /// "01, 15 CID bytes"
    Add([u8; 15]),
    /// "02, a 6-byte frame"
    Frame([u8; 6]),
}

#[derive(Default)]
pub struct BusBench {
    pub bus: Bus,
    frames: usize,
}

/// Runs a whole script and hands each line on.
pub fn run(script: &[u8], mut print: impl FnMut(&str)) {
    let mut rest = script;
    let mut bench = BusBench::default();
    while let Some(next) = next(&mut rest) {
        match next {
            Ok(record) => print(&bench.line(&record)),
            // "Another kind prints `bad kind`, a short body `cut`, and it stops."
            Err(stop) => return print(stop),
        }
    }
}

/// The next record, or none at the end of the script.
pub fn next(rest: &mut &[u8]) -> Option<Result<BusRecord, &'static str>> {
    let (&kind, body) = rest.split_first()?;
    *rest = body;
    let record = match kind {
        0x01 => body_of(rest).map(BusRecord::Add),
        0x02 => body_of(rest).map(BusRecord::Frame),
        _ => return Some(Err("bad kind")),
    };
    Some(record.ok_or("cut"))
}

fn body_of<const LENGTH: usize>(rest: &mut &[u8]) -> Option<[u8; LENGTH]> {
    let (body, after) = rest.split_first_chunk()?;
    *rest = after;
    Some(*body)
}

impl BusBench {
    /// Carries out one record and gives its line.
    pub fn line(&mut self, record: &BusRecord) -> String {
        match record {
            // "`card N` for the N-th card added [..] or `refused R`"
            BusRecord::Add(cid) => match made(cid).and_then(|card| self.bus.add(card)) {
                Ok(number) => format!("card {number}"),
                Err(refusal) => format!("refused {refusal}"),
            },
            BusRecord::Frame(frame) => {
                // "A refused frame still counts in N."
                self.frames += 1;
                match self.bus.frame(frame) {
                    // "`N line HEX` or `N silent` for frame N, or `refused R`"
                    Ok(Some(answer)) => format!("{} line {}", self.frames, hex(&answer)),
                    // "Refusals 1, 2, 3 in a frame print silent."
                    Ok(None) | Err(1..=3) => format!("{} silent", self.frames),
                    Err(refusal) => format!("refused {refusal}"),
                }
            }
        }
    }
}

/// "it adds the last, CSD is 15 zero bytes and 01, OCR 00FF8000, one erased 8,192-byte memory,
/// map entry 0, no password"
fn made(cid: &[u8; 15]) -> Result<Card, Refusal> {
    let mut csd = [0; 16];
    csd[15] = 0x01;
    Card::make(&[0xFF; 8_192], &[0], wire::register(cid), csd, 0x00FF_8000, &[])
}

impl BusRecord {
    /// The record as a script carries it.
    pub fn written(&self) -> Vec<u8> {
        match self {
            BusRecord::Add(cid) => [&[0x01], &cid[..]].concat(),
            BusRecord::Frame(frame) => [&[0x02], &frame[..]].concat(),
        }
    }
}
