//! What no script of a program reaches of request 1 of document 02: cards in SPI on a bus, and records
//! that no card reaches.

use crate::bus::Bus;
use crate::card::*;
use crate::examples::{bytes, made};
use crate::wire;

/// A card in SPI with these error bits, in this state.
fn in_spi(state: State, errors: u32) -> Card {
    let mode = Mode::Spi { checks_crc: true };
    Card { state, errors, mode, ..made(&[]).unwrap() }
}

fn frame(card: &mut Card, frame: &[u8], select: Select) -> Result<Option<Vec<u8>>, Refused> {
    card.frame(frame, select, &mut [0; 8_192], &mut [0])
}

/// The answer to a good frame with the line low.
fn sent(card: &mut Card, index: u8) -> Option<Vec<u8>> {
    frame(card, &wire::command(index, 0), Select::Low).unwrap()
}

const EVERY_STATE: [State; 10] = [
    State::Idle,
    State::Ready,
    State::Ident,
    State::Stby,
    State::Tran,
    State::Data(Sending::Cid),
    State::Rcv(Awaited::Lock),
    State::Prg,
    State::Dis,
    State::Ina,
];

/// "There a frame with the line high is ignored (on a bus it is high)".
#[test]
fn a_card_in_spi_is_not_there_for_a_bus() {
    let mut bus = Bus::default();
    for state in EVERY_STATE {
        bus.add(in_spi(state, ERASE_PARAM)).unwrap();
    }
    let before = bus.cards.clone();
    for index in [0, 1, 2, 3, 4, 7, 9, 10, 13, 15] {
        assert_eq!(bus.frame(&wire::command(index, 0x0001_0000)), Ok(None));
    }
    assert_eq!(bus.frame(&bytes("400000000097")), Err(3));
    assert_eq!(bus.cards, before);
}

/// A card in MMC mode beside one in SPI: the one is told of the damage and sends its identifier.
#[test]
fn a_card_in_mmc_mode_beside_one_in_spi() {
    let mut bus = Bus::default();
    bus.add(in_spi(State::Ready, 0)).unwrap();
    bus.add(Card { state: State::Ready, cid: wire::register(&[0xFF; 15]), ..made(&[]).unwrap() }).unwrap();
    let before = bus.cards[0].clone();
    assert_eq!(bus.frame(&bytes("400000000097")), Err(3));
    assert_eq!(bus.cards[1].errors, COM_CRC_ERROR);
    assert_eq!(bus.frame(&wire::command(2, 0)), Ok(Some(wire::r2(&wire::register(&[0xFF; 15])))));
    assert_eq!(bus.cards[0], before);
}

/// "No address is compared", and in Ready, Identification, Stand-by and Disconnect, where no card in SPI
/// comes, only CMD0 and document 01's row of CMD13 are left.
#[test]
fn states_that_no_card_in_spi_reaches() {
    for state in [State::Ready, State::Ident, State::Stby, State::Dis] {
        for index in 1..64 {
            let mut card = in_spi(state, 0);
            let is_legal = index == 13 && matches!(state, State::Stby | State::Dis);
            let expected = if is_legal { vec![0x00, 0x00] } else { vec![0x04] };
            assert_eq!(sent(&mut card, index), Some(expected), "CMD{index} in {state:?}");
            assert_eq!(card, in_spi(state, 0));
        }
        assert_eq!(sent(&mut in_spi(state, 0), 0), Some(vec![0x01]));
    }
}

/// "1. Inactive: silent, unchanged" comes before all of SPI, a wrong CRC7 too.
#[test]
fn inactive_in_spi() {
    let mut card = in_spi(State::Ina, WP_VIOLATION);
    for index in 0..64 {
        assert_eq!(sent(&mut card, index), None);
    }
    let damaged = frame(&mut card, &bytes("400000000097"), Select::Low);
    assert_eq!(damaged, Err(Refused { number: 3, answer: None }));
    assert_eq!(card, in_spi(State::Ina, WP_VIOLATION));
}

/// Every error bit alone, in R1 and in both bytes of R2: "from bit 6 down: status 31 or 29, 30, 28, 23,
/// 22, 13, idle after the command", "second: 31, 27, 26, three 0, 15 or 24, locked". "an answer clears
/// the bits it shows".
#[test]
fn each_bit_in_its_place() {
    let places = [
        (31, 0x40, 0x80),
        (30, 0x20, 0),
        (29, 0x40, 0),
        (28, 0x10, 0),
        (27, 0, 0x40),
        (26, 0, 0x20),
        (24, 0, 0x02),
        (23, 0x08, 0),
        (22, 0x04, 0),
        (15, 0, 0x02),
        (13, 0x02, 0),
    ];
    for (bit, first, second) in places {
        let mut card = in_spi(State::Tran, 1 << bit);
        assert_eq!(sent(&mut card, 59), Some(vec![first]), "R1, bit {bit}");
        assert_eq!(card.errors, if first == 0 { 1 << bit } else { 0 });
        let mut card = in_spi(State::Prg, 1 << bit);
        assert_eq!(sent(&mut card, 13), Some(vec![first, second]), "R2, bit {bit}");
        assert_eq!(card.errors, 0);
    }
    let mut card = Card { locked: true, ..in_spi(State::Tran, 0) };
    assert_eq!(sent(&mut card, 13), Some(vec![0x00, 0x01]));
}
