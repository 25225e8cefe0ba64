//! What a script of `cardline` reaches of request 2 of document 02: what a card does whose block length
//! is still that of its last reset.

use crate::card::*;
use crate::card_cover::refusal;
use crate::cover::{Cover, Seen};
use crate::script::Record;
use crate::wire::{self, Command};

/// The resets, by which the points are named.
const RESETS: [&str; 4] = ["make", "power-on", "CMD0", "CMD0 in SPI"];

pub fn expected() -> Vec<String> {
    let mut points = Vec::new();
    for reset in RESETS {
        points.extend(["CMD24", "read", "lock request"].map(|what| format!("unset {what} after {reset}")));
    }
    // CMD25 is illegal in SPI.
    points.extend(RESETS[..3].iter().map(|reset| format!("unset CMD25 after {reset}")));
    points
}

impl Cover {
    /// Notes what happens before a CMD16 is taken; then whether one was, or a reset.
    pub fn watch_reset(&mut self, seen: &Seen) {
        let heard = heard(seen);
        if let Some(reset) = self.unset_since {
            if let Some(what) = done(seen, heard) {
                self.met(format!("unset {what} after {reset}"));
            }
        }
        self.unset_since = match (seen.record, heard) {
            (Record::PowerOn, _) => Some("power-on"),
            (_, Some(Command { index: 0, .. })) if seen.after.mode == Mode::Mmc => Some("CMD0"),
            (_, Some(Command { index: 0, .. })) => Some("CMD0 in SPI"),
            (_, Some(Command { index: 16, argument })) if sets(argument, seen) => None,
            _ => self.unset_since,
        };
    }
}

/// The command of a frame that the card takes note of.
pub fn heard(seen: &Seen) -> Option<Command> {
    let Record::Frame(select, frame) = seen.record else { return None };
    let is_deaf = seen.before.state == State::Ina || seen.before.mode != Mode::Mmc && *select == Select::High;
    if is_deaf || refusal(seen.line).is_some() {
        return None;
    }
    wire::unframe(frame).ok().map(|(command, _)| command)
}

/// Whether a CMD16 of this argument is taken without an error.
pub fn sets(argument: u32, seen: &Seen) -> bool {
    seen.before.state == State::Tran && seen.after.block_length == argument as u64
}

/// What the block length matters for: a write that is asked of an unlocked card, a block of memory that
/// is sent, a lock request that is granted.
fn done(seen: &Seen, heard: Option<Command>) -> Option<&'static str> {
    match (seen.before.state, heard) {
        (State::Tran, Some(Command { index: 24, .. })) if !seen.before.locked => Some("CMD24"),
        (State::Tran, Some(Command { index: 25, .. })) if !seen.before.locked && seen.before.mode == Mode::Mmc => Some("CMD25"),
        _ if refusal(seen.line).is_some() => None,
        (State::Data(Sending::One(_) | Sending::Many(_)), _) => matches!(seen.record, Record::BlockOut(_)).then_some("read"),
        (State::Rcv(Awaited::Lock), _) => matches!(seen.record, Record::BlockIn(_)).then_some("lock request"),
        _ => None,
    }
}
