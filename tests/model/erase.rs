//! Tags and erase: CMD32, 33, 35, 36 and 38.

use crate::card::*;
use crate::moves::Checked;

/// What a tag names: "CMD32, 35 tag a start; 33, 36 an end", of sectors or of erase groups.
#[derive(Clone, Copy, PartialEq, Debug)]
pub enum Unit {
    Sector,
    Group,
}

/// "An address stands for the sector or group it lies in": start and end are such numbers.
#[derive(Clone, Copy, PartialEq, Debug)]
pub struct Tags {
    pub unit: Unit,
    pub start: u64,
    pub end: Option<u64>,
}

impl Unit {
    fn bytes(self) -> u64 {
        if self == Unit::Sector { SECTOR } else { ERASE_GROUP }
    }
}

impl Card {
    /// "Any other taken command but CMD0 and CMD13 drops existing tags and sets bit 13."
    pub fn drop_tags_unless_erasing(&mut self, index: u8) {
        if !matches!(index, 13 | 32 | 33 | 35 | 36 | 38) && self.tags.take().is_some() {
            self.errors |= ERASE_RESET;
        }
    }

    /// CMD32, 33, 35 and 36. "An error in 32-38 drops tags."
    pub fn tag(&mut self, index: u8, address: u64) -> Checked {
        let unit = if index <= 33 { Unit::Sector } else { Unit::Group };
        let old = self.tags.take();
        // "Order: range (31);"
        self.in_range(address)?;
        let number = address / unit.bytes();
        // "A new start replaces all tags, a new end the old end."
        let tags = if matches!(index, 32 | 35) {
            Tags { unit, start: number, end: None }
        } else {
            Tags { end: Some(number), ..checked_start(old, unit, number)? }
        };
        self.tags = Some(tags);
        Ok(State::Tran)
    }

    /// "CMD38 needs both (28), fills every tagged sector outside protection, sets bit 15 if any
    /// was spared, drops tags." "bit 15 [..] wait[s] for the next R1."
    pub fn erase(&mut self, memory: &mut [u8], map: &[u8]) -> Answer {
        let Some(Tags { unit, start, end: Some(end) }) = self.tags.take() else {
            return Answer::Status { at_once: ERASE_SEQ_ERROR, waiting: 0 };
        };
        let mut spared = false;
        for sector in start * unit.bytes() / SECTOR..(end + 1) * unit.bytes() / SECTOR {
            let address = sector * SECTOR;
            if self.is_protected(address, map) {
                spared = true;
            } else {
                // "An erased sector is 512 bytes of 0xFF."
                memory[address as usize..][..SECTOR as usize].fill(0xFF);
            }
        }
        self.state = State::Prg;
        Answer::Status { at_once: 0, waiting: if spared { WP_ERASE_SKIP } else { 0 } }
    }
}

/// "an end with no start of its kind (28); an end before the start, or a sector in another
/// erase group (27)."
fn checked_start(old: Option<Tags>, unit: Unit, end: u64) -> Result<Tags, u32> {
    let tags = old.filter(|tags| tags.unit == unit).ok_or(ERASE_SEQ_ERROR)?;
    let sectors_in_group = ERASE_GROUP / SECTOR;
    let in_another_group = unit == Unit::Sector && end / sectors_in_group != tags.start / sectors_in_group;
    if end < tags.start || in_another_group { Err(ERASE_PARAM) } else { Ok(tags) }
}
