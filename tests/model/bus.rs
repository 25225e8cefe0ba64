//! The bus: up to 30 cards on one line, bit by bit. "The shared line" of document 01.

use crate::card::{Card, Mode, Select, State};
use crate::wire::{self, Command, Refusal};

/// "a bus of up to 30 such cards"
const MOST_CARDS: usize = 30;

#[derive(Default)]
pub struct Bus {
    pub cards: Vec<Card>,
}

impl Bus {
    /// Adds a card; the answer is how many there are now. "13 | [..] or a 31st added".
    pub fn add(&mut self, card: Card) -> Result<usize, Refusal> {
        if self.cards.len() == MOST_CARDS {
            return Err(13);
        }
        self.cards.push(card);
        Ok(self.cards.len())
    }

    /// "at a bus 13, 1, 2, 3, 14". None is silence.
    pub fn frame(&mut self, frame: &[u8]) -> Result<Option<Vec<u8>>, Refusal> {
        // "13 | bus of 0 cards asked"
        if self.cards.is_empty() {
            return Err(13);
        }
        let command = wire::read_command(frame).inspect_err(|&refusal| self.hear_damaged(refusal))?;
        // "14 | index on the bus outside 0-4, 7, 9, 10, 13, 15"
        if !matches!(command.index, 0..=4 | 7 | 9 | 10 | 13 | 15) {
            return Err(14);
        }
        Ok(if command.index == 2 { self.identify(command) } else { self.ask_all(command) })
    }

    /// "3 sets bit 23 of the card, and on a bus of every card, unless Inactive"; a card in SPI ignores
    /// the frame.
    fn hear_damaged(&mut self, refusal: Refusal) {
        if refusal == 3 {
            self.cards.iter_mut().for_each(|card| drop(card.hear_damaged(Select::High)));
        }
    }

    /// "Other answers show as the bitwise AND. No sender means no answer."
    fn ask_all(&mut self, command: Command) -> Option<Vec<u8>> {
        let answers = self.cards.iter_mut().filter_map(|card| hear(card, command));
        // Over whole frames, the check byte too: two different R1 may show a wrong CRC7.
        answers.reduce(|line, answer| line.iter().zip(&answer).map(|(shown, sent)| shown & sent).collect())
    }

    /// "In CMD2 every Ready card sends its CID highest bit first and falls silent at a bit where it
    /// sends 1 and the line shows 0." A card in SPI ignores the frame, whatever its state.
    fn identify(&mut self, command: Command) -> Option<Vec<u8>> {
        let sends = |card: &&mut Card| card.state == State::Ready && card.mode == Mode::Mmc;
        let mut sending: Vec<&mut Card> = self.cards.iter_mut().filter(sends).collect();
        // "No sender means no answer."
        if sending.is_empty() {
            return None;
        }
        let mut line = [0; 16];
        for bit in 0..128 {
            // "A 0 beats a 1."
            let shown = sending.iter().map(|card| bit_of(&card.cid, bit)).min()?;
            line[bit / 8] = line[bit / 8] << 1 | shown;
            sending.retain(|card| !(bit_of(&card.cid, bit) == 1 && shown == 0));
        }
        // "2 | ready to ident if it wins; a loser is unchanged and silent | R2 CID". A card that
        // has sent its last bit has won; clones send the same bits and win together.
        for winner in sending {
            assert_eq!(hear(winner, command), Some(wire::r2(&line)), "the line shows the winner's CID");
        }
        Some(wire::r2(&line))
    }
}

/// "Data commands go to the selected card's own call (H)": what the bus carries reads no memory
/// and no map, so none is lent. The select line: "on a bus it is high".
pub fn hear(card: &mut Card, command: Command) -> Option<Vec<u8>> {
    card.hear(command, Select::High, &mut [], &mut [])
}

/// A bit of a register, 0 to 127, highest first.
fn bit_of(register: &[u8; 16], bit: usize) -> u8 {
    register[bit / 8] >> (7 - bit % 8) & 1
}
