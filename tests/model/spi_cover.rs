//! What a script of `cardline` reaches of SPI.

use crate::card::*;
use crate::card_cover::{erased, refusal, told, work};
use crate::card_points::name;
use crate::cover::{Cover, Seen};
use crate::erase::Tags;
use crate::script::Record;
use crate::spi_points::R2_ONLY;
use crate::wire::{self, Command};

/// The status bits of R1's byte from bit 6 down, but that 29 shares the place of 31.
const FIRST: [u32; 6] = [31, 30, 28, 23, 22, 13];

fn word(select: Select) -> &'static str {
    if select == Select::Low { "low" } else { "high" }
}

impl Cover {
    /// A frame with the line low at a card in MMC mode, which reads the line for CMD0 alone.
    pub fn watch_low_in_mmc(&mut self, frame: &[u8], seen: &Seen) {
        let Seen { before, after, .. } = *seen;
        if let Some(number) = refusal(seen.line) {
            return self.met(format!("mmc-low refused {number}"));
        }
        self.met(format!("mmc-low CMD{}", frame[0] & 0x3F));
        self.met(format!("mmc-low in {}", name(before.state)));
        if after.mode != Mode::Mmc {
            self.met(format!("spi-enter from {}", name(before.state)));
            self.met_if(before.locked, "spi-enter locked");
            self.met_if(before.tags.is_some(), "spi-enter with tags");
            self.met_if(before.errors != 0, "spi-enter with error bits");
        }
        let is_go_idle = frame[0] & 0x3F == 0;
        self.met_if(is_go_idle && before.state == State::Ina, "spi-enter not from ina");
    }

    pub fn watch_in_spi(&mut self, seen: &Seen) {
        let Seen { record, before, after, line, .. } = *seen;
        let state = name(before.state);
        self.watch_shown_beside_3(seen);
        match record {
            Record::Frame(select, frame) => self.watch_frame_in_spi(*select, frame, seen),
            Record::BlockIn(block) => self.watch_block_in_of_spi(block, seen),
            Record::BlockOut(length) => self.watch_block_out_of_spi(*length, seen),
            Record::WorkDone => self.met(format!("spi-call work-done in {state}")),
            Record::PowerOn => {
                self.met(format!("spi-call power-on in {state}"));
                self.met_if(before.checks_crc(), "spi-leave with checking on");
                self.met_if(!before.locked && after.locked, "spi-leave and lock");
            }
            Record::ShowMode => self.watch_mode(line),
            _ => (),
        }
        if after.tags != before.tags {
            self.outlived.clear();
        }
    }

    /// Mode and CRC checking as they are shown.
    pub fn watch_mode(&mut self, line: &str) {
        if let Some((_, shown)) = line.split_once(" spi ") {
            self.met(format!("spi-show {shown}"));
        }
    }

    fn watch_frame_in_spi(&mut self, select: Select, frame: &[u8], seen: &Seen) {
        let (Seen { before, after, .. }, line) = (*seen, word(select));
        let state = name(before.state);
        if let Some(number) = refusal(seen.line) {
            self.met(format!("spi-refusal frame {number} {line} in {state}"));
            if number == "3" {
                self.watch_damaged_in_spi(select, frame[0] & 0x3F, before);
            }
        } else if select == Select::High {
            self.met(format!("spi-high {state} CMD{}", frame[0] & 0x3F));
            self.watch_tags_kept("a frame with the line high", before);
        } else if let Ok((command, crc7_is_right)) = wire::unframe(frame) {
            self.watch_command_in_spi(command, crc7_is_right, seen);
        }
        if let Some(answer) = seen.line.split("line ").nth(1) {
            self.watch_answer(frame[0] & 0x3F, answer, before, after);
        }
    }

    fn watch_damaged_in_spi(&mut self, select: Select, index: u8, before: &Card) {
        let who = if index == 0 { "CMD0" } else { "other" };
        let checking = if before.checks_crc() { "on" } else { "off" };
        self.met(format!("spi-crc {who} damaged, checking {checking}, {}", word(select)));
        if select == Select::Low {
            self.watch_tags_kept("a wrong CRC7", before);
            self.shown_beside_3 = before.errors & BLOCK_LEN_ERROR != 0;
        }
    }

    /// Whether a bit that was shown beside number 3 is gone, as the next answer or the record tells.
    fn watch_shown_beside_3(&mut self, seen: &Seen) {
        let tells = seen.line.contains(" line ") || matches!(seen.record, Record::ShowCard);
        self.met_if(self.shown_beside_3 && tells, "spi-crc 3 beside bit 29, which is then gone");
        self.shown_beside_3 = false;
    }

    /// A range of tags that something left alone: CMD38 tells whether it did.
    fn watch_tags_kept(&mut self, by: &'static str, before: &Card) {
        if matches!(before.tags, Some(Tags { end: Some(_), .. })) {
            self.outlived.insert(by);
        }
    }

    /// A command that a card in SPI hears.
    fn watch_command_in_spi(&mut self, command: Command, crc7_is_right: bool, seen: &Seen) {
        let (Seen { before, after, map, .. }, index) = (*seen, command.index);
        let (from, to) = (name(before.state), name(after.state));
        self.met(format!("spi-low {from} CMD{index}"));
        self.met_if(before.locked, &format!("spi-locked {from} CMD{index}"));
        self.met_if(before.checks_crc(), &format!("spi-checked CMD{index}"));
        self.met_if(!crc7_is_right, &format!("spi-unchecked CMD{index}"));
        self.met(format!("spi-move CMD{index} {from} to {to}"));
        if after.tags == before.tags && !matches!(index, 32 | 33 | 35 | 36) {
            self.watch_tags_kept(if index == 13 { "CMD13" } else { "an illegal command" }, before);
        }
        match index {
            0 => self.watch_reset_in_spi(before),
            59 => self.watch_switch(command.argument, before, after),
            38 if to == "prg" && from != "prg" => {
                let tags = before.tags.expect("CMD38 needs both");
                self.met(format!("spi-{}", erased(tags, before, after, map)));
                for what in self.outlived.clone() {
                    self.met(format!("spi-tags erase what outlived {what}"));
                }
            }
            _ => (),
        }
    }

    fn watch_reset_in_spi(&mut self, before: &Card) {
        self.met_if(before.checks_crc(), "spi-again with checking on");
        self.met_if(before.checks_crc(), "spi-crc CMD0 switches off");
        self.met_if(before.tags.is_some(), "spi-again with tags");
        self.met_if(before.errors != 0, "spi-again with error bits");
    }

    fn watch_switch(&mut self, argument: u32, before: &Card, after: &Card) {
        let (was_on, is_on) = (before.checks_crc(), after.checks_crc());
        self.met_if(!was_on && is_on, "spi-crc CMD59 switches on");
        self.met_if(was_on && !is_on, "spi-crc CMD59 switches off");
        self.met_if(was_on && !is_on && argument != 0, "spi-crc CMD59 reads bit 0 alone");
    }

    /// What an answer in SPI shows, and what it leaves for an R2.
    fn watch_answer(&mut self, index: u8, answer: &str, before: &Card, after: &Card) {
        let (form, first) = match answer.len() {
            2 => ("R1", answer),
            4 => ("R2", &answer[..2]),
            _ => ("R3", &answer[..2]),
        };
        let first = u8::from_str_radix(first, 16).expect("an answer in HEX");
        self.met_if(first & 1 == 1, &format!("spi-shown {form} idle"));
        for (place, bit) in (1..7).rev().zip(FIRST).filter(|(place, _)| first >> place & 1 == 1) {
            let bit = if place == 6 { range_or_length(index, before) } else { bit };
            self.met(format!("spi-shown {form} bit {bit}"));
            self.met_if(before.errors >> bit & 1 == 0, &format!("spi-set-by CMD{index} bit {bit}"));
        }
        for bit in R2_ONLY {
            let (was, is) = (before.errors >> bit & 1 == 1, after.errors >> bit & 1 == 1);
            self.met_if(form == "R2" && was, &format!("spi-shown R2 bit {bit}"));
            self.met_if(was && is, &format!("spi-kept by {form} bit {bit}"));
            self.met_if(!was && is, &format!("spi-set-by CMD{index} bit {bit}"));
        }
        self.met_if(form == "R2" && before.locked, "spi-shown R2 locked");
        self.met_if(answer == "0000", "spi-shown R2 no bit");
    }

    fn watch_block_out_of_spi(&mut self, length: usize, seen: &Seen) {
        self.watch_block_of_spi("block_out", seen);
        if let State::Data(sending) = seen.before.state {
            let (needed, work) = (seen.before.sent_length(sending), work(seen.before.state));
            let is_short = length + 1 == needed && refusal(seen.line) == Some("6");
            self.met_if(is_short, &format!("spi-border {work} short by a byte"));
            self.met_if(length == needed && refusal(seen.line).is_none(), &format!("spi-border {work} exact"));
        }
    }

    /// 12 and 15 are told by the state, the others by what is sent or awaited.
    fn watch_block_of_spi(&mut self, call: &str, seen: &Seen) {
        match refusal(seen.line) {
            Some(number @ ("12" | "15")) => {
                self.met(format!("spi-refusal {call} {number} in {}", name(seen.before.state)))
            }
            _ => self.met(format!("spi-{}", told(work(seen.before.state), seen.line))),
        }
    }

    fn watch_block_in_of_spi(&mut self, block: &[u8], seen: &Seen) {
        self.watch_block_of_spi("block_in", seen);
        let State::Rcv(awaited) = seen.before.state else { return };
        let number = refusal(seen.line);
        let (is_lock, checks) = (awaited == Awaited::Lock, seen.before.checks_crc());
        let length = if is_lock { seen.before.block_length as usize } else { 512 };
        let (is_started, is_long) = (block.first() == Some(&wire::START_BYTE), block.len() == length + 3);
        let what = match number {
            Some("16") if is_long => "another start byte",
            Some("16") if is_started => "wrong length behind FE",
            Some("16") if block.len() == length + 2 => "no start byte",
            None if !wire::crc16_is_right(&block[1..]) => "CRC16 wrong, checking off",
            None if checks => "CRC16 right, checking on",
            _ => "nothing to note",
        };
        self.met(format!("spi-{}, {what}", work(seen.before.state)));
        if is_lock && matches!(number, None | Some("20")) {
            self.watch_lock_request(&block[1..block.len() - 2], "spi-", seen);
        }
    }
}

/// Which of the two bits that share a place a command shows: 29 waits from a block, or is the length
/// that CMD16 was given or CMD24 met.
fn range_or_length(index: u8, before: &Card) -> u32 {
    let is_length = index == 16 || index == 24 && before.block_length != SECTOR;
    if before.errors & BLOCK_LEN_ERROR != 0 || is_length { 29 } else { 31 }
}
