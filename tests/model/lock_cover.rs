//! What a script of `cardline` reaches of lock requests.

use crate::card::Card;
use crate::card_cover::refusal;
use crate::cover::{Cover, Seen};

impl Cover {
    /// A lock request that was granted or failed; the points of SPI have a word before theirs.
    pub fn watch_lock_request(&mut self, payload: &[u8], before: &str, seen: &Seen) {
        let is_listed = matches!(payload[0], 0 | 1 | 2 | 4 | 5 | 8);
        let request = if is_listed { payload[0].to_string() } else { "other".to_string() };
        let locked = if seen.before.locked { "locked" } else { "unlocked" };
        let end = if refusal(seen.line).is_none() { "taken" } else { "refused 20" };
        self.met(format!("{before}lock {request} {locked} {end}"));
    }

    /// The ways in which a lock request's password is nearly right.
    pub fn watch_password(&mut self, payload: &[u8], taken: bool, before: &Card) {
        if payload[0] == 8 {
            let past_the_block = payload.get(1).is_none_or(|&length| length as usize + 2 > payload.len());
            self.met_if(taken && past_the_block, "password forced erase with byte 1 past the block");
            return self.met_if(before.locked && !taken, "password forced erase refused by CSD");
        }
        let Some(&length) = payload.get(1) else {
            return self.met_if(!taken, "password block without byte 1 refused");
        };
        let Some(sent) = payload[2..].get(..length as usize) else {
            return self.met_if(!taken, "password block shorter than its length refused");
        };
        let stored = &before.password[..];
        if matches!(payload[0], 1 | 5) {
            let new = sent.len() as i64 - stored.len() as i64;
            self.met_if(taken && new == 16, "password set of 16 bytes");
            return self.met_if(!taken && new == 17 && !before.locked, "password set of 17 bytes refused");
        }
        let refused = !taken && before.locked == (payload[0] == 0) && !stored.is_empty();
        let prefix = sent.len() < stored.len() && stored.starts_with(sent);
        let one_more = stored.len() + 1 == sent.len() && sent.starts_with(stored);
        self.met_if(refused && prefix, "password prefix refused");
        self.met_if(refused && one_more, "password one byte more refused");
        self.met_if(refused && sent.len() == stored.len(), "password of the same length refused");
    }
}
