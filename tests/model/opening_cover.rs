//! What a script of `cardline` reaches of request 4 of document 02: a locked card whose block length the host sets, to open it.

use crate::card::*;
use crate::card_cover::refusal;
use crate::cover::{Cover, Seen};
use crate::reset_cover::{heard, sets};
use crate::script::Record;
use crate::wire::Command;

/// What can happen with such a length, in either mode.
const HAPPENS: [&str; 11] = [
    "CMD16 taken",
    "CMD16 of 0",
    "CMD16 over 2,048",
    "unlock that fills its block",
    "unlock with surplus",
    "unlock in a block too short",
    "unlock by byte 0 alone refused",
    "forced erase by byte 0 alone",
    "failed and asked again",
    "write behind it",
    "read behind it",
];

pub fn expected() -> Vec<String> {
    ["MMC", "SPI"].iter().flat_map(|mode| HAPPENS.map(|what| format!("opening {what} in {mode}"))).collect()
}

impl Cover {
    /// Notes what happens to a locked card and its block length; then whether that is one that was set while it was locked.
    pub fn watch_opening(&mut self, seen: &Seen) {
        let heard = heard(seen);
        let happened = match heard {
            Some(Command { index: 16, argument }) if seen.before.locked => asked(argument, seen),
            _ if self.set_while_locked => done(seen, heard),
            _ => None,
        };
        if let Some(what) = happened {
            let mode = if seen.before.mode == Mode::Mmc { "MMC" } else { "SPI" };
            self.met(format!("opening {what} in {mode}"));
        }
        self.set_while_locked = match (seen.record, heard) {
            (Record::PowerOn, _) | (_, Some(Command { index: 0, .. })) => false,
            (_, Some(Command { index: 16, argument })) if sets(argument, seen) => seen.before.locked,
            _ => self.set_while_locked,
        };
    }
}

/// What became of a locked card's CMD16, in tran: "length 1 to 2,048".
fn asked(argument: u32, seen: &Seen) -> Option<&'static str> {
    match argument {
        _ if seen.before.state != State::Tran => None,
        _ if sets(argument, seen) => Some("CMD16 taken"),
        0 => Some("CMD16 of 0"),
        2_049.. => Some("CMD16 over 2,048"),
        _ => None,
    }
}

fn done(seen: &Seen, heard: Option<Command>) -> Option<&'static str> {
    let taken = refusal(seen.line).is_none();
    match (seen.before.state, seen.record, heard) {
        (State::Tran, _, Some(Command { index: 24, .. })) if seen.after.state != State::Tran => Some("write behind it"),
        (State::Tran, _, Some(Command { index: 42, .. })) if seen.before.locked && seen.before.errors & LOCK_UNLOCK_FAILED != 0 => {
            Some("failed and asked again")
        }
        (State::Data(Sending::One(_) | Sending::Many(_)), Record::BlockOut(_), _) if taken => Some("read behind it"),
        (State::Rcv(Awaited::Lock), Record::BlockIn(block), _) if taken || refusal(seen.line) == Some("20") => {
            let start = (seen.before.mode != Mode::Mmc) as usize;
            requested(&block[start..block.len() - 2], taken, seen.before)
        }
        _ => None,
    }
}

/// A lock request that a locked card judged.
fn requested(payload: &[u8], taken: bool, before: &Card) -> Option<&'static str> {
    let whole = 2 + before.password.len();
    match (payload, taken) {
        _ if !before.locked => None,
        ([8], true) => Some("forced erase by byte 0 alone"),
        ([0], false) => Some("unlock by byte 0 alone refused"),
        ([0, ..], true) if payload.len() == whole => Some("unlock that fills its block"),
        ([0, ..], true) => Some("unlock with surplus"),
        ([0, length, ..], false) if payload.len() < whole && *length as usize + 2 == whole => Some("unlock in a block too short"),
        _ => None,
    }
}
