//! Random scripts of `vectors`: requests that are right, nearly right and wrong.

use crate::dice::Dice;
use crate::wire;

/// The program reads no longer script.
const LONGEST: usize = 65_536;

/// Lengths at the borders of frames, registers, blocks and of what a request may name.
const LENGTHS: [usize; 20] = [0, 1, 2, 3, 5, 6, 7, 15, 16, 17, 40, 41, 511, 512, 2_047, 2_048, 2_049, 2_050, 2_051, 4_096];

/// As many requests as fit, a line each.
pub fn script(seed: u64) -> String {
    let mut dice = Dice(seed);
    let mut script = String::new();
    loop {
        let request = request(&mut dice);
        if script.len() + request.len() + 1 > LONGEST {
            return script;
        }
        script += &(request + "\n");
    }
}

fn request(dice: &mut Dice) -> String {
    let request = match dice.below(5) {
        0 => format!("{} {}", dice.pick(&["read", "unframe"]), wire::hex(&frame(dice))),
        1 => format!("{} {}", dice.pick(&["last", "register", "crc7", "crc16", "check"]), bytes(dice)),
        2 => format!("check {}", wire::hex(&block(dice))),
        3 => {
            let (verb, index, word) = (dice.pick(&["command", "r1"]), dice.below(70), dice.word());
            format!("{verb} {index} {word:08X} into {}", dice.below(10))
        }
        _ => match dice.below(3) {
            0 => format!("r3 {:08X} into {}", dice.word(), dice.below(10)),
            1 => format!("r2 {} into {}", wire::hex(&register(dice)), 14 + dice.below(6)),
            _ => format!("block {} into {}", bytes(dice), dice.pick(&LENGTHS)),
        },
    };
    if dice.percent(4) { damaged(request, dice) } else { request }
}

/// A command's frame, often with a bit flipped, a byte more or a byte less.
fn frame(dice: &mut Dice) -> Vec<u8> {
    let mut frame = wire::command(dice.below(64) as u8, dice.word()).to_vec();
    match dice.below(4) {
        0 => frame[dice.below(6) as usize] ^= 1 << dice.below(8),
        1 => frame.resize(1 + dice.below(8) as usize, dice.byte()),
        _ => {}
    }
    frame
}

/// A short block, often with a bit flipped.
fn block(dice: &mut Dice) -> Vec<u8> {
    let payload: Vec<u8> = (0..dice.below(20)).map(|_| dice.byte()).collect();
    let mut block = wire::block(&payload);
    if dice.percent(40) {
        let place = dice.below(block.len() as u64) as usize;
        block[place] ^= 1 << dice.below(8);
    }
    block
}

fn register(dice: &mut Dice) -> Vec<u8> {
    let mut register = wire::register(&std::array::from_fn(|_| dice.byte())).to_vec();
    if dice.percent(20) {
        register.resize(15 + dice.below(3) as usize, dice.byte());
    }
    register
}

/// Bytes as a request names them: hex, a byte a number of times, both, or none.
fn bytes(dice: &mut Dice) -> String {
    let times = format!("{:02X}*{}", dice.byte(), dice.pick(&LENGTHS));
    match dice.below(6) {
        0 => "-".to_string(),
        1 => times,
        2 => format!("{times}+{:04x}", dice.word() as u16),
        3 => wire::hex(&register(dice)),
        _ => wire::hex(&(0..1 + dice.below(30)).map(|_| dice.byte()).collect::<Vec<_>>()),
    }
}

/// A request with one character taken out or made another.
fn damaged(request: String, dice: &mut Dice) -> String {
    let place = dice.below(request.len() as u64) as usize;
    let other = dice.pick(&["", " ", "*", "+", "-", "0", "G", "x"]);
    format!("{}{other}{}", &request[..place], &request[place + 1..])
}
