//! What a script of `busline` reaches.

use crate::bus::hear;
use crate::bus_bench::{next, BusBench, BusRecord};
use crate::bus_points::CARRIED;
use crate::card::{Card, State};
use crate::card_points::{name, ADDRESSED};
use crate::cover::Cover;
use crate::wire::{self, Command};

impl Cover {
    pub fn watch_bus(&mut self, script: &[u8]) {
        let mut rest = script;
        let mut bench = BusBench::default();
        while let Some(&kind) = rest.first() {
            self.records += 1;
            match next(&mut rest) {
                Some(Ok(record)) => self.watch_bus_record(&record, &mut bench),
                Some(Err("cut")) => return self.met(format!("stop cut {}", if kind == 1 { "card" } else { "frame" })),
                _ => return self.met("stop bad kind".to_string()),
            }
        }
        self.met("stop at the end".to_string());
    }

    fn watch_bus_record(&mut self, record: &BusRecord, bench: &mut BusBench) {
        let before = bench.bus.cards.clone();
        let line = bench.line(record);
        if let Some(number) = line.strip_prefix("refused ") {
            self.met(format!("number {number}"));
        }
        match record {
            BusRecord::Add(_) => self.met_if(line == "refused 13", "refusal 13 card"),
            BusRecord::Frame(frame) => self.watch_bus_frame(frame, &line, &before, &bench.bus.cards),
        }
    }

    fn watch_bus_frame(&mut self, frame: &[u8; 6], line: &str, before: &[Card], after: &[Card]) {
        let is_carried = CARRIED.contains(&(frame[0] & 0x3F));
        let read = wire::read_command(frame);
        if before.is_empty() {
            self.met("refusal 13 frame".to_string());
            match read {
                Err(refusal) => self.met(format!("order 13 before {refusal}")),
                Ok(_) => self.met_if(!is_carried, "order 13 before 14"),
            }
            return;
        }
        match read {
            Err(refusal) => {
                self.met_if(!is_carried, &format!("order {refusal} before 14"));
                self.watch_damage(frame, refusal, before);
            }
            Ok(command) => self.watch_command(command, line, before, after),
        }
    }

    fn watch_damage(&mut self, frame: &[u8; 6], refusal: u8, before: &[Card]) {
        for card in before {
            self.met(format!("damaged {refusal} in {}", name(card.state)));
        }
        self.met_if(frame[0] & 0xC0 == 0xC0 && frame[5] & 1 == 1, "framing start bit");
        self.met_if(frame[0] & 0xC0 == 0x00 && frame[5] & 1 == 1, "framing transmission bit");
        self.met_if(frame[0] & 0xC0 == 0x40 && frame[5] & 1 == 0, "framing end bit");
    }

    fn watch_command(&mut self, command: Command, line: &str, before: &[Card], after: &[Card]) {
        let index = command.index;
        for card in before {
            let state = name(card.state);
            self.met(format!("pair {state} CMD{index}"));
            let whose = if command.argument >> 16 == card.address as u32 { "own" } else { "other" };
            self.met_if(ADDRESSED.contains(&index), &format!("addressed {state} CMD{index} {whose}"));
        }
        if !CARRIED.contains(&index) {
            return self.met(format!("refusal 14 CMD{index}"));
        }
        self.met(format!("cards {}", before.len()));
        for (card, next) in before.iter().zip(after) {
            self.met(format!("move CMD{index} {} to {}", name(card.state), name(next.state)));
        }
        match index {
            2 => self.watch_round(before, after),
            _ => self.watch_answers(command, line, before),
        }
        if index == 3 {
            self.watch_addresses(before, after);
        }
    }

    /// CMD2: who won, and in which byte the others lost.
    fn watch_round(&mut self, before: &[Card], after: &[Card]) {
        let ready = before.iter().zip(after).filter(|(card, _)| card.state == State::Ready);
        let (winners, losers): (Vec<_>, Vec<_>) = ready.partition(|(_, next)| next.state == State::Ident);
        self.met_if(winners.len() == 1 && losers.is_empty(), "winner alone");
        self.met_if(winners.len() > 1, "winner with a clone");
        self.met_if(!losers.is_empty(), "winner beside a loser");
        for (loser, _) in losers {
            let byte = (0..16).find(|&byte| loser.cid[byte] != winners[0].0.cid[byte]);
            self.met(format!("lost in byte {}", byte.expect("a loser differs from the winner")));
        }
    }

    /// CMD3: cards that come to share an address, clones or not.
    fn watch_addresses(&mut self, before: &[Card], after: &[Card]) {
        let moved = |place: &usize| before[*place].state == State::Ident && after[*place].state == State::Stby;
        for place in (0..after.len()).filter(moved) {
            let sharing = (0..after.len()).filter(|&other| other != place && after[other].address == after[place].address);
            for other in sharing {
                let is_clone = after[other].cid == after[place].cid;
                self.met_if(is_clone && moved(&other), "address given to clones");
                self.met_if(!is_clone && after[other].state == State::Stby, "address given twice");
            }
        }
    }

    /// What each card sent, and what the line showed of it.
    fn watch_answers(&mut self, command: Command, line: &str, before: &[Card]) {
        let answers: Vec<Vec<u8>> = before.iter().filter_map(|card| hear(&mut card.clone(), command)).collect();
        let Some(first) = answers.first() else { return self.met("answer none".to_string()) };
        let kind = if first.len() == 17 { "R2" } else if first[0] == 0x3F { "R3" } else { "R1" };
        self.met(format!("answer {kind} of {}", if answers.len() == 1 { "one" } else { "several" }));
        let shown = line.split("line ").nth(1).expect("a card answered");
        self.met_if(answers.iter().all(|answer| wire::hex(answer) != shown), &format!("shown {kind} of no card"));
        if kind != "R1" {
            return;
        }
        let shown = crate::hex::bytes(shown).expect("a line is in HEX");
        self.met_if(shown[5] != wire::last_byte(&shown[..5]), "shown R1 with a wrong CRC7");
        for answer in answers {
            let status = u32::from_be_bytes([answer[1], answer[2], answer[3], answer[4]]);
            self.watch_shown(status);
        }
    }
}
