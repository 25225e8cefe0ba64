//! What a script of `cardline` reaches.

use crate::bench::Bench;
use crate::card::*;
use crate::card_points::{name, ADDRESSED, BITS, LOCKABLE, STATES};
use crate::cover::{Cover, Seen};
use crate::erase::{Tags, Unit};
use crate::script::{Making, Record, Script};
use crate::wire::{self, Refusal};

/// What a state sends or awaits, as a call and what it is for.
pub fn work(state: State) -> &'static str {
    match state {
        State::Data(Sending::One(_)) => "block_out one",
        State::Data(Sending::Many(_)) => "block_out many",
        State::Data(Sending::Protection(_)) => "block_out protection",
        State::Data(Sending::Csd) => "block_out CSD",
        State::Data(Sending::Cid) => "block_out CID",
        State::Rcv(Awaited::One(_)) => "block_in one",
        State::Rcv(Awaited::Many(_)) => "block_in many",
        State::Rcv(Awaited::Lock) => "block_in lock",
        _ => "nothing",
    }
}

/// The number after `refused` in a line, if it is a refusal.
pub fn refusal(line: &str) -> Option<&str> {
    line.split("refused ").nth(1).and_then(|rest| rest.split(' ').next())
}

/// A refusal of a call is one point, its answer another.
pub fn told(call: &str, line: &str) -> String {
    match refusal(line) {
        Some(number) => format!("refusal {call} {number}"),
        None => format!("answer {call}"),
    }
}

/// What an erase filled and spared of its range.
pub fn erased(tags: Tags, before: &Card, after: &Card, map: &[u8]) -> String {
    let (unit, bytes) = if tags.unit == Unit::Sector { ("sector", SECTOR) } else { ("group", ERASE_GROUP) };
    let end = tags.end.expect("CMD38 needs both");
    let mut sectors = (tags.start * bytes..(end + 1) * bytes).step_by(SECTOR as usize);
    let filled = sectors.any(|address| !before.is_protected(address, map));
    let spared = after.errors & WP_ERASE_SKIP != 0;
    let how = if !spared { "all filled" } else if filled { "some spared" } else { "all spared" };
    format!("erase by {unit}, {how}")
}

impl Cover {
    pub fn watch_card(&mut self, script: &[u8]) {
        self.failed = None;
        self.outlived.clear();
        self.shown_beside_3 = false;
        self.unset_since = Some("make");
        let mut script = Script(script);
        let mut bench = None;
        while let Some(next) = script.next(bench.is_none()) {
            self.records += 1;
            match (next, &mut bench) {
                (Err(stop), _) => return self.met(format!("stop {stop}")),
                (Ok(Record::Make(making)), _) => match Bench::make(&making) {
                    Ok(made) => bench = Some(made),
                    Err(number) => return self.watch_refused_make(number, &making),
                },
                (Ok(record), Some(bench)) => self.watch_record(&record, bench),
                (Ok(_), None) => unreachable!("the first record is a make or stops the script"),
            }
        }
        self.met("stop at the end".to_string());
    }

    fn watch_refused_make(&mut self, number: Refusal, making: &Making) {
        self.met(format!("number {number}"));
        let is_cid_right = making.cid[15] == wire::last_byte(&making.cid[..15]);
        let register = if is_cid_right { " CSD" } else { " CID" };
        self.met(format!("refusal make {number}{}", if number == 9 { register } else { "" }));
    }

    fn watch_record(&mut self, record: &Record, bench: &mut Bench) {
        let before = bench.card.clone();
        let map = bench.map.clone();
        let line = bench.line(record);
        if let Some(number) = refusal(&line) {
            self.met(format!("number {number}"));
            self.watch_lent(number, bench);
        }
        let seen = Seen { record, line: &line, before: &before, after: &bench.card, map: &map };
        self.watch_reset(&seen);
        self.watch_opening(&seen);
        match (record, before.mode) {
            (Record::WriteFrame(..), _) => self.met(told("write_frame", &line)),
            (Record::WriteBlock(..), _) => self.met(told("write_block", &line)),
            (Record::CheckBlock(..), _) => self.met(told("check_block", &line)),
            (_, Mode::Mmc) => self.watch_in_mmc(&seen),
            (_, Mode::Spi { .. }) => self.watch_in_spi(&seen),
        }
    }

    fn watch_in_mmc(&mut self, seen: &Seen) {
        let Seen { record, line, before, after, .. } = *seen;
        let state = name(before.state);
        match record {
            Record::Frame(select, frame) => {
                match refusal(line) {
                    Some(number) => self.met(format!("refusal frame {number} in {state}")),
                    None => self.watch_frame(frame, seen),
                }
                if *select == Select::Low {
                    self.watch_low_in_mmc(frame, seen);
                }
            }
            Record::BlockIn(block) => self.watch_block_in(block, seen),
            Record::BlockOut(_) => {
                self.watch_block("block_out", line, before);
                self.watch_protection(seen);
            }
            Record::WorkDone => self.met(format!("call work-done in {state}")),
            Record::PowerOn => {
                self.met(format!("call power-on in {state}"));
                self.met_if(!before.locked && after.locked, "flag power-on locks");
            }
            Record::ShowMode => self.watch_mode(line),
            _ => (),
        }
    }

    /// Why a call was refused 12.
    fn watch_lent(&mut self, number: &str, bench: &Bench) {
        let (memory, map) = bench.lent;
        let is_12 = number == "12";
        self.met_if(is_12 && memory < bench.memory.len(), "lent too little memory");
        self.met_if(is_12 && memory > bench.memory.len(), "lent too much memory");
        self.met_if(is_12 && map < bench.map.len(), "lent too short a map");
        self.met_if(is_12 && map > bench.map.len(), "lent too long a map");
        self.met_if(is_12 && bench.map.iter().any(|&entry| entry > 1), "lent a map entry over 1");
    }

    /// 12 and 15 are told by the state, the others by what is sent or awaited.
    fn watch_block(&mut self, call: &str, line: &str, before: &Card) {
        match refusal(line) {
            Some(number @ ("12" | "15")) => self.met(format!("refusal {call} {number} in {}", name(before.state))),
            _ => self.met(told(work(before.state), line)),
        }
    }

    /// The protection bits that went out: the highest of the 32 is the group 31 places on.
    fn watch_protection(&mut self, seen: &Seen) {
        if let (State::Data(Sending::Protection(address)), None) = (seen.before.state, refusal(seen.line)) {
            let highest = seen.map.get((address / PROTECTION_GROUP) as usize + 31);
            self.met_if(highest == Some(&1), "border CMD30 shows its highest bit");
        }
    }

    fn watch_frame(&mut self, frame: &[u8], seen: &Seen) {
        let Seen { line, before, after, map, .. } = *seen;
        let index = frame[0] & 0x3F;
        let failed = self.failed.take();
        let (from, to) = (name(before.state), name(after.state));
        self.met(format!("pair {from} CMD{index}"));
        self.met_if(before.locked, &format!("locked {from} CMD{index}"));
        let is_own = frame[1..3] == before.address.to_be_bytes();
        let whose = if is_own { "own" } else { "other" };
        self.met_if(ADDRESSED.contains(&index), &format!("addressed {from} CMD{index} {whose}"));
        if index == 0 && before.state != State::Ina {
            self.met_if(after.locked, "flag CMD0 keeps locked");
            self.met_if(!after.locked && !after.password.is_empty(), "flag CMD0 keeps unlocked with a password");
        }
        self.met(format!("move CMD{index} {from} to {to}"));
        let left = after.errors & !before.errors;
        self.met_if(left & ERASE_RESET != 0, &format!("flag bit 13 left by CMD{index}"));
        if index == 12 {
            self.met(format!("stopped {}", work(before.state)));
        }
        if before.state == State::Tran && !before.locked {
            let address = u32::from_be_bytes([frame[1], frame[2], frame[3], frame[4]]) as u64;
            self.watch_border(index, address, before);
            self.watch_tags(index, address, before);
        }
        // Of the answers that are as long as an R1, only R3 begins with 3F.
        if let Some(answer) = line.split("line ").nth(1) {
            if answer.len() == 12 && !answer.starts_with("3F") {
                let status = u32::from_str_radix(&answer[2..10], 16).expect("an R1 in HEX");
                self.watch_status(index, status, before);
                self.watch_failed(index, status, before, failed);
            }
        }
        if let (38, "prg", Some(tags)) = (index, to, before.tags) {
            self.met(erased(tags, before, after, map));
        }
    }

    /// Addresses at the borders of memory and of its parts.
    fn watch_border(&mut self, index: u8, from: u64, before: &Card) {
        let (size, end) = (before.size, from + before.block_length);
        let begins_inside = from < size;
        match index {
            17 | 18 => {
                self.met_if(end == size, "border read ends with the memory");
                self.met_if(begins_inside && end == size + 1, "border read goes one byte past the end");
                self.met_if(from == size, "border read begins at the end");
                self.met_if(end < size && end % READ_BLOCK == 0, "border read ends at a multiple of 2,048");
                self.met_if(end < size && end % READ_BLOCK == 1, "border read goes one byte past a multiple of 2,048");
            }
            24 | 25 if before.block_length == SECTOR => {
                self.met_if(end == size, "border write of the last sector");
                self.met_if(begins_inside && end > size, "border write begins in memory and ends past it");
                self.met_if(from == size, "border write begins at the end");
            }
            28..=30 | 32 | 33 | 35 | 36 => {
                self.met_if(from + 1 == size, &format!("border last address CMD{index}"));
                self.met_if(from == size, &format!("border first address past the end CMD{index}"));
            }
            _ => (),
        }
    }

    /// What a tag command and CMD38 meet: no tags, a start or a range, of their kind or of the other.
    fn watch_tags(&mut self, index: u8, address: u64, before: &Card) {
        if !matches!(index, 32 | 33 | 35 | 36 | 38) {
            return;
        }
        let by_sector = index <= 33;
        let met = match before.tags {
            None => "no tags",
            Some(Tags { unit, .. }) if index != 38 && by_sector != (unit == Unit::Sector) => "tags of the other kind",
            Some(Tags { end: None, .. }) => "a start",
            Some(_) => "a range",
        };
        self.met(format!("tags CMD{index} meets {met}"));
        if let (33, Some(Tags { unit: Unit::Sector, start, .. })) = (index, before.tags) {
            let (sector, in_group) = (address / SECTOR, address / ERASE_GROUP == start * SECTOR / ERASE_GROUP);
            self.met_if(sector < start && in_group, "tags CMD33 before its start");
            self.met_if(sector > start && !in_group && address < before.size, "tags CMD33 in another erase group");
        }
    }

    /// A tag command that failed where a range stood, and then at once CMD38, which tells whether the
    /// range was dropped.
    fn watch_failed(&mut self, index: u8, status: u32, before: &Card, failed: Option<String>) {
        if let (38, Some(failed)) = (index, failed) {
            self.met(format!("dropped {failed}"));
        }
        let error = status & !before.errors & (OUT_OF_RANGE | ERASE_SEQ_ERROR | ERASE_PARAM);
        let had_a_range = matches!(before.tags, Some(Tags { end: Some(_), .. }));
        if had_a_range && index != 38 && error != 0 {
            self.failed = Some(format!("by CMD{index} bit {}", error.ilog2()));
        }
    }

    fn watch_status(&mut self, index: u8, status: u32, before: &Card) {
        self.watch_shown(status);
        for bit in BITS.into_iter().filter(|&bit| bit != 25 && (status & !before.errors) >> bit & 1 == 1) {
            self.met(format!("set-by CMD{index} bit {bit}"));
        }
        let stopped_by_lock = before.locked && LOCKABLE.contains(&index);
        assert!(!stopped_by_lock || status & LOCK_UNLOCK_FAILED != 0, "a locked card went on");
    }

    /// The state and the bits of a status word that was sent.
    pub fn watch_shown(&mut self, status: u32) {
        self.met(format!("r1 state {}", STATES[(status >> 9 & 0xF) as usize]));
        for bit in BITS.into_iter().filter(|bit| status >> bit & 1 == 1) {
            self.met(format!("r1 bit {bit}"));
        }
    }

    fn watch_block_in(&mut self, block: &[u8], seen: &Seen) {
        self.watch_block("block_in", seen.line, seen.before);
        if seen.before.state == State::Rcv(Awaited::Lock) && matches!(refusal(seen.line), None | Some("20")) {
            let payload = &block[..block.len() - 2];
            self.watch_lock_request(payload, "", seen);
            self.watch_password(payload, refusal(seen.line).is_none(), seen.before);
        }
    }
}
