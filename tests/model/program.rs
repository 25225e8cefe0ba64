//! The two programs, and what can be asked of each.

use crate::cover::Cover;
use crate::script::Script;
use crate::{bench, bus_bench, bus_points, card_points, generate, generate_bus};
use std::collections::BTreeSet;

#[derive(Clone, Copy, PartialEq)]
pub enum Program {
    Cardline,
    Busline,
}

impl Program {
    pub fn named(name: &str) -> Result<Program, String> {
        match name {
            "cardline" => Ok(Program::Cardline),
            "busline" => Ok(Program::Busline),
            _ => Err(format!("no program is called {name}")),
        }
    }

    pub fn name(self) -> &'static str {
        match self {
            Program::Cardline => "cardline",
            Program::Busline => "busline",
        }
    }

    /// The folder of its scripts in the data of crates/corpus.
    pub fn folder(self) -> &'static str {
        match self {
            Program::Cardline => "card",
            Program::Busline => "bus",
        }
    }

    /// All that the program prints for a script: a line for each record that it plays.
    pub fn lines(self, script: &[u8]) -> String {
        let mut lines = String::new();
        let print = |line: &str| {
            lines.push_str(line);
            lines.push('\n');
        };
        match self {
            Program::Cardline => bench::run(script, print),
            Program::Busline => bus_bench::run(script, print),
        }
        lines
    }

    /// Where each record of a script begins, the one that stops it last.
    pub fn places(self, script: &[u8]) -> Vec<usize> {
        let mut places = Vec::new();
        let mut rest = script;
        let mut goes_on = true;
        while goes_on && !rest.is_empty() {
            places.push(script.len() - rest.len());
            goes_on = match self {
                Program::Cardline => {
                    let mut at = Script(rest);
                    let read = at.next(places.len() == 1);
                    rest = at.0;
                    matches!(read, Some(Ok(_)))
                }
                Program::Busline => matches!(bus_bench::next(&mut rest), Some(Ok(_))),
            };
        }
        places
    }

    pub fn generate(self, seed: u64, records: usize) -> Vec<u8> {
        match self {
            Program::Cardline => generate::script(seed, records),
            Program::Busline => generate_bus::script(seed, records),
        }
    }

    /// Notes what a script reaches.
    pub fn watch(self, script: &[u8], cover: &mut Cover) {
        match self {
            Program::Cardline => cover.watch_card(script),
            Program::Busline => cover.watch_bus(script),
        }
    }

    /// Everything that scripts can reach and must.
    pub fn points(self) -> BTreeSet<String> {
        match self {
            Program::Cardline => card_points::expected(),
            Program::Busline => bus_points::expected(),
        }
    }
}
