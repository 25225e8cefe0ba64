//! The bench: one card with its caller's memory and map, and the line each record prints.
//! Quoted sentences are from docs/CARDLINE.md.

use crate::card::{Card, Mode, Refused};
use crate::script::*;
use crate::wire::{self, hex, Refusal};

/// What a lent output holds before the call.
const UNTOUCHED: u8 = 0xA5;

pub struct Bench {
    pub card: Card,
    pub memory: Vec<u8>,
    pub map: Vec<u8>,
    /// How many bytes of memory and of map the calls are lent.
    pub lent: (usize, usize),
    records: usize,
}

/// Runs a whole script and hands each line on.
pub fn run(script: &[u8], mut print: impl FnMut(&str)) {
    let mut script = Script(script);
    let mut bench = None;
    while let Some(next) = script.next(bench.is_none()) {
        match (next, &mut bench) {
            (Err(stop), _) => return print(stop),
            (Ok(Record::Make(making)), _) => match Bench::make(&making) {
                Ok(made) => {
                    bench = Some(made);
                    print("made");
                }
                Err(refusal) => return print(&format!("refused {refusal}")),
            },
            (Ok(record), Some(bench)) => print(&bench.line(&record)),
            (Ok(_), None) => unreachable!("the first record is a make or stops the script"),
        }
    }
}

impl Bench {
    pub fn make(making: &Making) -> Result<Bench, Refusal> {
        let memory = vec![making.filled_with; making.memory_length];
        let map = making.map.clone();
        let card = Card::make(&memory, &map, making.cid, making.csd, making.ocr, &making.password)?;
        let lent = (memory.len(), map.len());
        Ok(Bench { card, memory, map, lent, records: 0 })
    }

    /// Carries out one record and gives its line: "N counts the records after the make, from 1."
    pub fn line(&mut self, record: &Record) -> String {
        self.records += 1;
        let told = match record {
            Record::Frame(select, bytes) => {
                heard(self.lending(|card, memory, map| card.frame(bytes, *select, memory, map)))
            }
            Record::BlockIn(block) => {
                let result = self.lending(|card, memory, map| card.block_in(block, memory, map));
                // "In SPI a data response follows on the line".
                let response = self.card.data_response(result);
                plain(result, "taken") + &response.map_or(String::new(), |byte| format!(" response {byte:02X}"))
            }
            Record::BlockOut(length) => {
                let mut output = vec![UNTOUCHED; *length];
                let result = self.lending(|card, memory, map| card.block_out(&mut output, memory, map));
                with_output(result.map(|count| format!("block {count}")), &output)
            }
            other => self.without_lending(other),
        };
        format!("{} {told}", self.records)
    }

    /// The records whose call is lent nothing, or that call nothing.
    fn without_lending(&mut self, record: &Record) -> String {
        match record {
            Record::WorkDone => {
                self.card.work_done();
                "done".to_string()
            }
            Record::PowerOn => {
                self.card.power_on();
                "power".to_string()
            }
            Record::ShowCard => self.shown_card(),
            Record::ShowMode => self.shown_mode(),
            Record::ShowMemory(from, length) => {
                let rest = self.memory.get(*from..).unwrap_or(&[]);
                words("mem", &rest[..rest.len().min(*length)])
            }
            Record::Lend(memory, map) => {
                self.lent = ((*memory).min(528_384), *map);
                "lent".to_string()
            }
            Record::Poke(place, entry) => {
                if let Some(old) = self.map.get_mut(*place) {
                    *old = *entry;
                }
                "poked".to_string()
            }
            other => free_standing(other),
        }
    }

    /// "S AAAA BBBB L EEEEEEEE MAP"
    fn shown_card(&self) -> String {
        let Card { state, address, block_length, locked, errors, .. } = &self.card;
        let map = hex(&self.map);
        format!("card {} {address:04X} {block_length:04X} {} {errors:08X} {map}", state.number(), *locked as u8)
    }

    /// "shows mode and CRC checking": checking is shown in SPI alone, where it can be switched.
    fn shown_mode(&self) -> String {
        match self.card.mode {
            Mode::Mmc => "spi 0 0".to_string(),
            Mode::Spi { checks_crc } => format!("spi 1 {}", checks_crc as u8),
        }
    }

    /// Lends "the first ones of each and, past the end, surplus bytes that hold 00"; "Surplus bytes
    /// that a call changed are not kept."
    fn lending<T>(&mut self, call: impl FnOnce(&mut Card, &mut [u8], &mut [u8]) -> T) -> T {
        if self.lent == (self.memory.len(), self.map.len()) {
            return call(&mut self.card, &mut self.memory, &mut self.map);
        }
        let mut memory = self.memory.clone();
        let mut map = self.map.clone();
        memory.resize(self.lent.0, 0);
        map.resize(self.lent.1, 0);
        let answer = call(&mut self.card, &mut memory, &mut map);
        keep(&mut self.memory, &memory);
        keep(&mut self.map, &map);
        answer
    }
}

fn keep(own: &mut [u8], lent: &[u8]) {
    let shared = own.len().min(lent.len());
    own[..shared].copy_from_slice(&lent[..shared]);
}

/// The routines that concern no card.
fn free_standing(record: &Record) -> String {
    match record {
        Record::WriteFrame(index, argument, length) => {
            let mut output = vec![UNTOUCHED; *length];
            let result = wire::write_command(*index, *argument, &mut output);
            with_output(result.map(|()| "frame".to_string()), &output)
        }
        Record::WriteBlock(payload, length) => {
            let mut output = vec![UNTOUCHED; *length];
            let result = wire::write_block(payload, &mut output);
            with_output(result.map(|_| "data".to_string()), &output)
        }
        Record::CheckBlock(block) => plain(wire::check_block(block), "good"),
        _ => unreachable!("every other record is the card's"),
    }
}

/// What a frame came to; "where an answer goes out beside the number, `N refused 3 line HEX`".
fn heard(result: Result<Option<Vec<u8>>, Refused>) -> String {
    match result {
        Ok(Some(answer)) => format!("line {}", hex(&answer)),
        Ok(None) => "silent".to_string(),
        Err(Refused { number, answer: Some(answer) }) => format!("refused {number} line {}", hex(&answer)),
        Err(Refused { number, answer: None }) => format!("refused {number}"),
    }
}

fn plain(result: Result<(), Refusal>, granted: &str) -> String {
    match result {
        Ok(()) => granted.to_string(),
        Err(refusal) => format!("refused {refusal}"),
    }
}

/// A word or a refusal, then the whole lent output.
fn with_output(result: Result<String, Refusal>, output: &[u8]) -> String {
    words(&result.unwrap_or_else(|refusal| format!("refused {refusal}")), output)
}

/// "Where HEX is of no bytes, the line ends after the word or number before it."
fn words(word: &str, bytes: &[u8]) -> String {
    if bytes.is_empty() { word.to_string() } else { format!("{word} {}", hex(bytes)) }
}
