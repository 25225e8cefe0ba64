//! What a card's record says of its state, and of the mode in which it is. Quoted sentences are from
//! document 01 and, of SPI, from request 1 of document 02.

/// What data waits to be sent: after CMD17, CMD18 and CMD30, from which address.
#[derive(Clone, Copy, PartialEq, Debug)]
pub enum Sending {
    One(u64),
    Many(u64),
    Protection(u64),
    /// In SPI "CMD9 and 10 send the register as a block".
    Csd,
    Cid,
}

/// "the rcv state says whether it awaits one block, many or a lock request, and from which address"
#[derive(Clone, Copy, PartialEq, Debug)]
pub enum Awaited {
    One(u64),
    Many(u64),
    Lock,
}

#[derive(Clone, Copy, PartialEq, Debug)]
pub enum State {
    Idle,
    Ready,
    Ident,
    Stby,
    Tran,
    Data(Sending),
    Rcv(Awaited),
    Prg,
    Dis,
    Ina,
}

impl State {
    /// "the state on reception, idle 0 to dis 8"; Inactive, which no R1 shows, is 9.
    pub fn number(self) -> u32 {
        use self::State::*;
        match self {
            Idle => 0,
            Ready => 1,
            Ident => 2,
            Stby => 3,
            Tran => 4,
            Data(_) => 5,
            Rcv(_) => 6,
            Prg => 7,
            Dis => 8,
            Ina => 9,
        }
    }
}

/// "A card enters SPI when CMD0 comes with its select line low and leaves by power-on only."
#[derive(Clone, Copy, PartialEq, Debug)]
pub enum Mode {
    Mmc,
    /// "CRC checking starts off in SPI"; in MMC mode every frame and every block is checked.
    Spi { checks_crc: bool },
}

/// The card's select line while a frame comes: "on a bus it is high".
#[derive(Clone, Copy, PartialEq, Debug)]
pub enum Select {
    Low,
    High,
}
