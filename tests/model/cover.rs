//! What scripts reach, as points with names: how often, and which are missing.

use crate::card::Card;
use crate::script::Record;
use std::collections::{BTreeMap, BTreeSet};

/// How many points that were never met are named.
const SHOWN: usize = 40;

#[derive(Default)]
pub struct Cover {
    pub points: BTreeMap<String, Met>,
    /// How many records were watched.
    pub records: usize,
    /// The last command, if it was a tag command that failed where a range stood.
    pub failed: Option<String>,
    /// What the tags of a card in SPI have outlived so far.
    pub outlived: BTreeSet<&'static str>,
    /// How the card was last reset, if no CMD16 was taken since.
    pub unset_since: Option<&'static str>,
    /// Whether the block length is one that was set while the card was locked.
    pub set_while_locked: bool,
    /// Whether the last record was a frame in SPI whose R1, beside number 3, showed a bit of a block.
    pub shown_beside_3: bool,
}

/// A record of `cardline` that was played: its line, the card before and after it, and the map before.
#[derive(Clone, Copy)]
pub struct Seen<'a> {
    pub record: &'a Record,
    pub line: &'a str,
    pub before: &'a Card,
    pub after: &'a Card,
    pub map: &'a [u8],
}

/// How often a point was met, and at which record first.
pub struct Met {
    pub times: usize,
    pub first: usize,
}

impl Cover {
    pub fn met(&mut self, point: String) {
        let first = self.records;
        self.points.entry(point).or_insert(Met { times: 0, first }).times += 1;
    }

    pub fn met_if(&mut self, happened: bool, point: &str) {
        if happened {
            self.met(point.to_string());
        }
    }

    /// Prints, for each kind of point (its first word), how many of the expected ones were met and
    /// how often, and then those never met; gives the count of these.
    pub fn report(&self, expected: &BTreeSet<String>) -> usize {
        let mut kinds: BTreeMap<&str, (usize, usize, usize)> = BTreeMap::new();
        for point in expected {
            let kind = kinds.entry(point.split(' ').next().unwrap_or("")).or_default();
            let times = self.points.get(point).map_or(0, |met| met.times);
            *kind = (kind.0 + (times > 0) as usize, kind.1 + 1, kind.2 + times);
        }
        for (kind, (met, of, times)) in &kinds {
            println!("{kind}: {met} of {of}, {times} times");
        }
        let missing: Vec<&String> = expected.iter().filter(|point| !self.points.contains_key(*point)).collect();
        for point in missing.iter().take(SHOWN) {
            println!("never reached: {point}");
        }
        if missing.len() > SHOWN {
            println!("and {} more", missing.len() - SHOWN);
        }
        missing.len()
    }
}
