//! Frames and blocks on the wire: "Frames and blocks" of document 01, and what SPI's blocks have before them.
//!
//! The product works its checks from tables. Here both are a long division, one bit at a time,
//! so that the two share nothing but the generator polynomials.

/// What a refusal gives: "Refusals give a number and no value."
pub type Refusal = u8;

/// A command as its frame carries it.
#[derive(Clone, Copy)]
pub struct Command {
    pub index: u8,
    pub argument: u32,
}

/// The remainder of `message` times x^degree by a generator of that degree, first bit highest.
fn remainder(message: &[u8], degree: u32, generator: u32) -> u32 {
    let mut rest = 0;
    let message_bits = message.iter().flat_map(|&byte| (0..8).rev().map(move |place| byte >> place & 1));
    for bit in message_bits.chain((0..degree).map(|_| 0)) {
        rest = rest << 1 | bit as u32;
        if rest >> degree & 1 == 1 {
            rest ^= generator;
        }
    }
    rest
}

/// "CRC7 divides the first 40 bits times x^7 by x^7+x^3+1"; for a register, its first 15 bytes.
pub fn crc7(message: &[u8]) -> u8 {
    remainder(message, 7, 1 << 7 | 1 << 3 | 1) as u8
}

/// "remainder of the payload times x^16 by x^16+x^12+x^5+1"
pub fn crc16(payload: &[u8]) -> u16 {
    remainder(payload, 16, 1 << 16 | 1 << 12 | 1 << 5 | 1) as u16
}

/// The CRC7, then a 1: how a command, an R1, a CID and a CSD end.
pub fn last_byte(message: &[u8]) -> u8 {
    crc7(message) << 1 | 1
}

/// "Frame: 1, 2, 3".
pub fn read_command(frame: &[u8]) -> Result<Command, Refusal> {
    let (command, crc7_is_right) = unframe(frame)?;
    // "3 | frame CRC7 wrong"
    if crc7_is_right { Ok(command) } else { Err(3) }
}

/// "0, 1, index (6), argument (32), CRC7, 1": the command, and whether its CRC7 is right.
pub fn unframe(frame: &[u8]) -> Result<(Command, bool), Refusal> {
    // "1 | frame is not 6 bytes"
    if frame.len() != 6 {
        return Err(1);
    }
    // "2 | start, transmission or end bit wrong"
    let start_bit = frame[0] >> 7;
    let transmission_bit = frame[0] >> 6 & 1;
    let end_bit = frame[5] & 1;
    if start_bit != 0 || transmission_bit != 1 || end_bit != 1 {
        return Err(2);
    }
    let argument = u32::from_be_bytes([frame[1], frame[2], frame[3], frame[4]]);
    Ok((Command { index: frame[0] & 0x3F, argument }, frame[5] >> 1 == crc7(&frame[..5])))
}

/// Five bytes of content with their last byte.
fn closed(first: u8, middle: u32) -> [u8; 6] {
    let [a, b, c, d] = middle.to_be_bytes();
    [first, a, b, c, d, last_byte(&[first, a, b, c, d])]
}

/// The frame of a command whose index is at most 63.
pub fn command(index: u8, argument: u32) -> [u8; 6] {
    closed(0x40 | index, argument)
}

/// "Writing a frame: 4, 6". "Output past the answer's end is never written."
pub fn write_command(index: u8, argument: u32, output: &mut [u8]) -> Result<(), Refusal> {
    // "4 | index to write is over 63"
    if index > 63 {
        return Err(4);
    }
    // "6 | lent output too short"
    if output.len() < 6 {
        return Err(6);
    }
    output[..6].copy_from_slice(&command(index, argument));
    Ok(())
}

/// "R1: 0, 0, index, status, CRC7, 1."
pub fn r1(index: u8, status: u32) -> Vec<u8> {
    closed(index, status).to_vec()
}

/// "R2, 17 bytes: 3F, then the 16 register bytes."
pub fn r2(register: &[u8; 16]) -> Vec<u8> {
    [&[0x3F], &register[..]].concat()
}

/// "R3: 3F, four OCR bytes with bit 31 set, FF."
pub fn r3(ocr: u32) -> Vec<u8> {
    [&[0x3F], &(ocr | 1 << 31).to_be_bytes()[..], &[0xFF]].concat()
}

/// "Data blocks are 1 to 2,048 bytes, then CRC16, high byte first"
pub fn block(payload: &[u8]) -> Vec<u8> {
    [payload, &crc16(payload).to_be_bytes()].concat()
}

/// Before each block in SPI: document 02's "start byte FE".
pub const START_BYTE: u8 = 0xFE;

/// A block in SPI.
pub fn spi_block(payload: &[u8]) -> Vec<u8> {
    [&[START_BYTE], &block(payload)[..]].concat()
}

/// Whether the last two bytes of a block of at least two are the CRC16 of those before them.
pub fn crc16_is_right(block: &[u8]) -> bool {
    let (payload, sent) = block.split_at(block.len() - 2);
    sent == crc16(payload).to_be_bytes()
}

/// Writing "a block: 5, 6"; the answer is the count of bytes written.
pub fn write_block(payload: &[u8], output: &mut [u8]) -> Result<usize, Refusal> {
    // "5 | payload not 1 to 2,048 bytes"
    if payload.is_empty() || payload.len() > 2_048 {
        return Err(5);
    }
    // "6 | lent output too short"
    if output.len() < payload.len() + 2 {
        return Err(6);
    }
    let written = block(payload);
    output[..written.len()].copy_from_slice(&written);
    Ok(written.len())
}

/// "checking one: 5, 17"
pub fn check_block(block: &[u8]) -> Result<(), Refusal> {
    // "5 | [..] or checked block not 3 to 2,050"
    if block.len() < 3 || block.len() > 2_050 {
        return Err(5);
    }
    // "17 | block CRC16 wrong"
    if !crc16_is_right(block) {
        return Err(17);
    }
    Ok(())
}

/// Bytes as the programs print them: "HEX is upper case with no spaces".
pub fn hex(bytes: &[u8]) -> String {
    bytes.iter().map(|byte| format!("{byte:02X}")).collect()
}

/// A CID or CSD from its first 15 bytes: it ends "in the CRC7 of their first 15 bytes, then a 1".
pub fn register(first: &[u8; 15]) -> [u8; 16] {
    std::array::from_fn(|place| if place < 15 { first[place] } else { last_byte(first) })
}
