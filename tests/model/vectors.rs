//! The program `vectors`: requests to the wire, a line each, with what came of them. The requests are
//! listed in crates/vectors/src/request.rt, and how bytes are written in its parse.rt.

use crate::wire::{self, Refusal};

/// The most bytes that a request names or lends.
const MOST: usize = 4_096;

/// A lent output that is longer is shown by its ends.
const WHOLE: usize = 40;

/// What the program prints for a script: comments and empty lines as they are, requests with their
/// answers.
pub fn transcript(script: &str) -> String {
    let told = |line: &str| match line {
        _ if line.is_empty() || line.starts_with('#') => format!("{line}\n"),
        _ => format!("{line} -> {}\n", answer(line).unwrap_or("bad request".to_string())),
    };
    script.lines().map(told).collect()
}

/// What came of a request that follows the rules.
fn answer(request: &str) -> Option<String> {
    match request.split(' ').collect::<Vec<_>>()[..] {
        [verb, operand] => of_bytes(verb, &bytes(operand)?),
        [verb, operand, "into", room] => into(verb, operand, &mut lent(room)?),
        [verb, index, word, "into", room] => {
            let index = u8::try_from(number(index)?).ok()?;
            index_into(verb, index, word32(word)?, &mut lent(room)?)
        }
        _ => None,
    }
}

fn of_bytes(verb: &str, bytes: &[u8]) -> Option<String> {
    Some(match verb {
        "read" => match wire::read_command(bytes) {
            Ok(command) => told(command.index, command.argument),
            Err(refusal) => refused(refusal),
        },
        "unframe" => match wire::unframe(bytes) {
            Ok((command, crc7_is_right)) => {
                told(command.index, command.argument) + if crc7_is_right { " crc right" } else { " crc wrong" }
            }
            Err(refusal) => refused(refusal),
        },
        "check" => match wire::check_block(bytes) {
            Ok(()) => format!("payload of {} bytes", bytes.len() - 2),
            Err(refusal) => refused(refusal),
        },
        "register" if bytes.len() == 16 => {
            let right = bytes[15] == wire::last_byte(&bytes[..15]);
            if right { "right".to_string() } else { "wrong".to_string() }
        }
        "last" => wire::hex(&[wire::last_byte(bytes)]),
        "crc7" => wire::hex(&[wire::crc7(bytes)]),
        "crc16" => wire::hex(&wire::crc16(bytes).to_be_bytes()),
        _ => return None,
    })
}

fn into(verb: &str, operand: &str, output: &mut [u8]) -> Option<String> {
    let written = match verb {
        "r3" => laid(&wire::r3(word32(operand)?), output),
        "block" => wire::write_block(&bytes(operand)?, output),
        "r2" => laid(&wire::r2(&bytes(operand)?.try_into().ok()?), output),
        _ => return None,
    };
    Some(shown(written, output))
}

fn index_into(verb: &str, index: u8, word: u32, output: &mut [u8]) -> Option<String> {
    let written = match verb {
        "command" => wire::write_command(index, word, output).map(|()| 6),
        // "4 | index to write is over 63"
        "r1" if index > 63 => Err(4),
        "r1" => laid(&wire::r1(index, word), output),
        _ => return None,
    };
    Some(shown(written, output))
}

/// A frame at the front of an output: "6 | lent output too short".
fn laid(frame: &[u8], output: &mut [u8]) -> Result<usize, Refusal> {
    output.get_mut(..frame.len()).ok_or(6)?.copy_from_slice(frame);
    Ok(frame.len())
}

fn told(index: u8, argument: u32) -> String {
    format!("CMD{index} argument {argument:08X}")
}

fn refused(refusal: Refusal) -> String {
    format!("refused {refusal}")
}

/// What a writer answered, and all of the output that it was lent.
fn shown(written: Result<usize, Refusal>, output: &[u8]) -> String {
    let answer = written.map_or_else(refused, |count| format!("{count} bytes"));
    let ends = |n: usize| format!("{}..{}", wire::hex(&output[..n]), wire::hex(&output[output.len() - n..]));
    match output.len() {
        0 => format!("{answer} -"),
        length if length <= WHOLE => format!("{answer} {}", wire::hex(output)),
        _ => format!("{answer} {}", ends(8)),
    }
}

/// A lent output of so many bytes of A5.
fn lent(room: &str) -> Option<Vec<u8>> {
    number(room).filter(|&room| room <= MOST).map(|room| vec![0xA5; room])
}

/// A number of decimal digits: none has more than four.
fn number(word: &str) -> Option<usize> {
    let digits = !word.is_empty() && word.bytes().all(|digit| digit.is_ascii_digit());
    word.parse().ok().filter(|&n| digits && n <= 9_999)
}

/// Eight hex digits.
fn word32(word: &str) -> Option<u32> {
    let bytes: [u8; 4] = pairs(word)?.try_into().ok()?;
    Some(u32::from_be_bytes(bytes))
}

/// `-` for none, or items joined by `+`: pairs of hex digits, or `FF*512`, a byte a number of times.
fn bytes(word: &str) -> Option<Vec<u8>> {
    if word == "-" {
        return Some(Vec::new());
    }
    let item = |item: &str| match item.split_once('*') {
        Some((byte, times)) if byte.len() == 2 => Some(pairs(byte)?.repeat(number(times)?)),
        Some(_) => None,
        None => pairs(item).filter(|bytes| !bytes.is_empty()),
    };
    let items: Option<Vec<Vec<u8>>> = word.split('+').map(item).collect();
    items.map(|items| items.concat()).filter(|bytes| bytes.len() <= MOST)
}

fn pairs(text: &str) -> Option<Vec<u8>> {
    let digits: Option<Vec<u8>> = text.chars().map(|digit| Some(digit.to_digit(16)? as u8)).collect();
    let digits = digits.filter(|digits| digits.len() % 2 == 0)?;
    Some(digits.chunks(2).map(|pair| pair[0] << 4 | pair[1]).collect())
}
