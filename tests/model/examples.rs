//! The examples that document 01 gives, and the edges it names.
//! Build and run: rustc -O --edition 2021 --test main.rs -o examples && ./examples

use crate::bus::Bus;
use crate::bus_bench::{self, BusRecord};
use crate::card::*;
use crate::wire::{self, register};

const OCR: u32 = 0x00FF_8000;

pub fn made(password: &[u8]) -> Result<Card, u8> {
    let zeros = register(&[0; 15]);
    Card::make(&[0xFF; 8_192], &[0], zeros, zeros, OCR, password)
}

pub fn bytes(hex: &str) -> Vec<u8> {
    (0..hex.len()).step_by(2).map(|place| u8::from_str_radix(&hex[place..place + 2], 16).unwrap()).collect()
}

/// The answer of a fresh 8,192-byte card to the last of these frames.
fn answer(frames: &[&str]) -> Result<Option<Vec<u8>>, u8> {
    let (mut memory, mut map) = (vec![0xFF; 8_192], vec![0]);
    let mut card = made(&[]).unwrap();
    let mut answers = frames.iter().map(|frame| card.frame(&bytes(frame), Select::High, &mut memory, &mut map));
    answers.by_ref().last().unwrap().map_err(|refused| refused.number)
}

/// CMD1, CMD2 and CMD3 with address 1 take a made card to Stand-by; CMD7 to 1 takes it on to tran.
const TO_STBY: [&str; 3] = ["4100FF800099", "42000000004D", "43000100007F"];

#[test]
fn frames() {
    assert_eq!(wire::command(0, 0).to_vec(), bytes("400000000095"));
    assert_eq!(wire::command(13, 0x0001_0000).to_vec(), bytes("4D0001000053"));
    assert_eq!(wire::command(16, 512).to_vec(), bytes("500000020015"));
    assert_eq!(wire::read_command(&bytes("400000000097")).err(), Some(3));
    assert_eq!(wire::read_command(&bytes("400000000095")).map(|c| (c.index, c.argument)), Ok((0, 0)));
}

#[test]
fn blocks() {
    assert_eq!(wire::crc16(&[0x80]), 0x9188);
    assert_eq!(wire::crc16(&[0x00]), 0x0000);
    let lengths = [0, 1, 2_048, 2_049].map(|length| wire::write_block(&vec![7; length], &mut [0; 4_096]));
    assert_eq!(lengths, [Err(5), Ok(3), Ok(2_050), Err(5)]);
}

#[test]
fn a_card_on_its_way_to_tran() {
    assert_eq!(answer(&TO_STBY[..1]), Ok(Some(bytes("3F80FF8000FF"))));
    assert_eq!(answer(&TO_STBY[..2]), Ok(Some(bytes("3F00000000000000000000000000000001"))));
    assert_eq!(answer(&TO_STBY), Ok(Some(bytes("0300000500FB"))));
    let in_stby = [&TO_STBY[..], &["4D0001000053"]].concat();
    assert_eq!(answer(&in_stby), Ok(Some(bytes("0D00000700FB"))));
    let select = wire::command(7, 0x0001_0000).iter().map(|byte| format!("{byte:02X}")).collect::<String>();
    let in_tran = [&TO_STBY[..], &[&select, "500000020015"]].concat();
    assert_eq!(answer(&in_tran), Ok(Some(bytes("10000009000B"))));
    assert_eq!(answer(&["400000000097"]), Err(3));
}

/// "CMD24 and 25 answer bit 29 until then", which is CMD16 of 512 (request 2 of document 02).
#[test]
fn a_write_after_a_reset() {
    let frames = [wire::command(7, 0x0001_0000), wire::command(16, 512), wire::command(25, 512)].map(|frame| wire::hex(&frame));
    let [select, set_length, write] = &frames;
    let straight_away = [&TO_STBY[..], &[select, write]].concat();
    assert_eq!(answer(&straight_away), Ok(Some(wire::r1(25, 0x2000_0900))));
    let then = [&TO_STBY[..], &[select, set_length, write]].concat();
    assert_eq!(answer(&then), Ok(Some(wire::r1(25, 0x0000_0900))));
}

/// "Power-on and CMD0 now leave 2,048 where 01 says 512."
#[test]
fn the_block_length_after_a_reset() {
    let used = Card { block_length: 8, state: State::Tran, ..made(&[]).unwrap() };
    let mut powered = used.clone();
    powered.power_on();
    let idle = [Select::High, Select::Low].map(|select| {
        let mut card = used.clone();
        card.frame(&wire::command(0, 0), select, &mut [0; 8_192], &mut [0]).unwrap();
        card.block_length
    });
    assert_eq!([made(&[]).unwrap().block_length, powered.block_length, idle[0], idle[1]], [2_048; 4]);
}

/// A locked card in tran, with the password 2A: in MMC mode, and in SPI.
fn locked() -> [(Card, Select); 2] {
    let card = Card { state: State::Tran, ..made(&[0x2A]).unwrap() };
    let in_spi = Card { mode: Mode::Spi { checks_crc: false }, ..card.clone() };
    [(card, Select::High), (in_spi, Select::Low)]
}

/// "Check 5 reads from now on: class 0, CMD16 and CMD42" (request 4 of document 02). Of the commands that are legal in tran in a mode, those that
/// leave bit 24 or tell it are the others.
#[test]
fn what_a_locked_card_lets_go_on() {
    let others = [17, 18, 24, 25, 28, 29, 30, 32, 33, 35, 36, 38];
    for (card, select) in locked() {
        for index in 0..64 {
            let mut after = card.clone();
            let answer = after.frame(&wire::command(index, 1), select, &mut [0; 8_192], &mut [0]).unwrap();
            let is_stopped = others.contains(&index) && (select == Select::High || !matches!(index, 18 | 25));
            let told = answer.is_some_and(|r1| r1.len() == 6 && r1[1] & 0x01 != 0) || after.errors & LOCK_UNLOCK_FAILED != 0;
            assert_eq!(told, is_stopped, "CMD{index}");
            assert_eq!(after.block_length, if index == 16 { 1 } else { LENGTH_AFTER_RESET }, "CMD{index}");
        }
    }
}

/// "A handheld sets the block length to the length of its lock request before CMD42": with every length from that of the request on.
#[test]
fn a_handheld_opens_a_card() {
    for (card, select) in locked() {
        for length in [0, 1, 2, 3, 4, 5, 512, 2_047, 2_048, 2_049] {
            let mut card = card.clone();
            let set = card.frame(&wire::command(16, length), select, &mut [0; 8_192], &mut [0]).unwrap().unwrap();
            let bad = !(1..=2_048).contains(&length);
            let status = if bad { 0x2200_0900 } else { 0x0200_0900 };
            assert_eq!(set, if select == Select::High { wire::r1(16, status) } else { vec![(bad as u8) << 6] });
            card.frame(&wire::command(42, 0), select, &mut [0; 8_192], &mut [0]).unwrap();
            let mut request = vec![0, 1, 0x2A];
            request.resize(if bad { 2_048 } else { length as usize }, 0x99);
            let result = card.block_in(&card.framed(&request), &mut [0; 8_192], &mut [0]);
            assert_eq!(result.is_ok(), request.len() >= 3);
            assert_eq!((card.locked, card.block_length), (request.len() < 3, request.len() as u64));
        }
    }
}

#[test]
fn the_second_cid_of_the_shared_line() {
    let mut first = [0; 15];
    first[14] = 1;
    assert_eq!(wire::r2(&register(&first)), bytes("3F00000000000000000000000000000113"));
}

/// An identifier of 14 zero bytes and this one.
fn added(last: u8) -> Vec<u8> {
    BusRecord::Add(std::array::from_fn(|place| if place < 14 { 0 } else { last })).written()
}

/// All that `busline` prints for these cards and then these frames.
fn printed(cards: &[u8], frames: &[&str]) -> Vec<String> {
    let mut script: Vec<u8> = cards.iter().flat_map(|&last| added(last)).collect();
    script.extend(frames.iter().flat_map(|frame| [vec![0x02], bytes(frame)].concat()));
    let mut lines = Vec::new();
    bus_bench::run(&script, |line| lines.push(line.to_string()));
    lines
}

const WHO: &str = "42000000004D";

#[test]
fn the_eight_lines_of_the_shared_line() {
    let frames = ["4100FF800099", WHO, "43000100007F", WHO, "43000200009D", WHO];
    let expected = "
        card 1
        card 2
        1 line 3F80FF8000FF
        2 line 3F00000000000000000000000000000001
        3 line 0300000500FB
        4 line 3F00000000000000000000000000000113
        5 line 0300000500FB
        6 silent";
    let expected: Vec<&str> = expected.trim().lines().map(str::trim).collect();
    assert_eq!(printed(&[1, 0], &frames), expected);
}

#[test]
fn two_clones() {
    let frames = ["4100FF800099", WHO, "43000100007F", WHO, "4D0001000053"];
    let lines = printed(&[0, 0], &frames);
    assert_eq!(lines[3], "2 line 3F00000000000000000000000000000001");
    assert_eq!(lines[4..], ["3 line 0300000500FB", "4 silent", "5 line 0D00000700FB"]);
}

#[test]
fn counts_of_cards() {
    assert_eq!(printed(&[], &["400000000095"]), ["refused 13"]);
    assert_eq!(printed(&[7], &["400000000095"]), ["card 1", "1 silent"]);
    for (count, last) in [(30, "card 30"), (31, "refused 13")] {
        let cards: Vec<u8> = (1..=count).collect();
        let lines = printed(&cards, &["4100FF800099", WHO]);
        let [.., added, _, lowest] = &lines[..] else { panic!("too few lines") };
        assert_eq!(added, last);
        assert_eq!(lowest, "2 line 3F00000000000000000000000000000113");
    }
}

/// Four cards in Stand-by, Ready, Idle and Inactive, all with an identifier of zeros.
fn four_cards() -> Bus {
    let mut bus = Bus::default();
    for state in [State::Stby, State::Ready, State::Idle, State::Ina] {
        let mut card = made(&[]).unwrap();
        card.state = state;
        bus.add(card).unwrap();
    }
    bus
}

#[test]
fn damage_reaches_every_card_but_an_inactive_one() {
    let mut bus = four_cards();
    assert_eq!(bus.frame(&bytes("400000000097")), Err(3));
    let errors: Vec<u32> = bus.cards.iter().map(|card| card.errors).collect();
    assert_eq!(errors, [COM_CRC_ERROR, COM_CRC_ERROR, COM_CRC_ERROR, 0]);
}

#[test]
fn other_refusals_change_no_card() {
    let mut bus = four_cards();
    bus.cards[0].state = State::Tran;
    let before = bus.cards.clone();
    for (frame, refusal) in [("4D00010000", 1), ("CD0001000053", 2), ("4D0001000052", 2), ("500000020015", 14)] {
        assert_eq!(bus.frame(&bytes(frame)), Err(refusal));
        assert_eq!(bus.cards, before);
    }
}

#[test]
fn a_loser_is_unchanged() {
    let mut bus = four_cards();
    let mut loser = bus.cards[1].clone();
    loser.cid = register(&[1; 15]);
    loser.errors = COM_CRC_ERROR | ILLEGAL_COMMAND | ERASE_RESET;
    bus.add(loser).unwrap();
    let mut expected = bus.cards.clone();
    expected[1].state = State::Ident;
    assert_eq!(bus.frame(&bytes(WHO)), Ok(Some(bytes("3F00000000000000000000000000000001"))));
    assert_eq!(bus.cards, expected);
}

#[test]
fn memory_sizes_and_passwords() {
    let zeros = register(&[0; 15]);
    let sizes = [8_191, 8_192, 8_193].map(|size| Card::make(&vec![0; size], &[0], zeros, zeros, OCR, &[]).err());
    assert_eq!(sizes, [Some(7), None, Some(7)]);
    let longest = vec![0; 33_554_432];
    assert_eq!(Card::make(&longest, &vec![0; 4_096], zeros, zeros, OCR, &[]).err(), None);
    assert_eq!(made(&[1; 16]).map(|card| card.locked), Ok(true));
    assert_eq!(made(&[1; 17]).err(), Some(11));
}
