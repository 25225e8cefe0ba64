//! The model as one program: what it can be asked is listed in `USAGE`.
//! Build: rustc -O --edition 2021 main.rs -o model

mod bench;
mod blocks;
mod bus;
mod bus_bench;
mod bus_cover;
mod bus_points;
mod bus_walk;
mod card;
mod card_cover;
mod card_points;
mod compare;
mod corpus;
mod cover;
mod data;
mod dice;
mod erase;
#[cfg(test)]
mod examples;
mod fuzz;
mod generate;
mod generate_bus;
mod hex;
mod lock;
mod lock_cover;
mod moves;
mod opening_cover;
mod program;
mod requests;
mod reset_cover;
mod script;
mod spi;
mod spi_cover;
#[cfg(test)]
mod spi_examples;
mod spi_points;
mod spi_walk;
mod state;
mod vectors;
mod walk;
mod wire;

use program::Program;
use std::io::{self, Read, Write};
use std::path::Path;
use std::process::ExitCode;

const USAGE: &str = "use, with PROGRAM either cardline or busline:
    model PROGRAM < SCRIPT                          what the program prints for a script
    model vectors < REQUESTS                        the same of the program vectors
    model requests SEED > REQUESTS                  a random script for it
    model generate PROGRAM SEED RECORDS > SCRIPT    a random script
    model unhex < TEXT > SCRIPT                     a script from hex text with comments
    model cover PROGRAM SCRIPT..                    counts what scripts reach; fails if something is never reached
    model corpus CRATE FOLDER                       makes args, data/ and stdout of crates/corpus anew in a folder, and counts what they reach
    model run COUNT RECORDS FIRST -- LAUNCHER..     compares our programs with the model
    model fuzz COUNT SEED -- LAUNCHER..             the same on damaged scripts and on random bytes
LAUNCHER is what starts a program of crates/PROGRAM/out.";

/// What is not as it should be is told in words.
type Outcome = Result<(), String>;

fn main() -> ExitCode {
    let words: Vec<String> = std::env::args().skip(1).collect();
    let words: Vec<&str> = words.iter().map(|word| &word[..]).collect();
    let Err(told) = answer(&words) else { return ExitCode::SUCCESS };
    eprintln!("model: {told}");
    ExitCode::FAILURE
}

fn answer(words: &[&str]) -> Outcome {
    match words {
        [name @ ("cardline" | "busline")] => print(Program::named(name)?.lines(&input()?).as_bytes()),
        ["vectors"] => print(vectors::transcript(&String::from_utf8_lossy(&input()?)).as_bytes()),
        ["requests", seed] => print(requests::script(number(seed)?).as_bytes()),
        ["generate", name, seed, records] => {
            print(&Program::named(name)?.generate(number(seed)?, number(records)? as usize))
        }
        ["unhex"] => print(&hex::bytes(&String::from_utf8_lossy(&input()?))?),
        ["cover", name, files @ ..] => count_reached(Program::named(name)?, files),
        ["corpus", own, folder] => corpus::make(Path::new(own), Path::new(folder)),
        ["run", count, records, first, "--", launcher @ ..] => {
            compare::run(number(count)?, number(records)? as usize, number(first)?, launcher)
        }
        ["fuzz", count, seed, "--", launcher @ ..] => fuzz::run(number(count)?, number(seed)?, launcher),
        _ => Err(USAGE.to_string()),
    }
}

fn count_reached(program: Program, files: &[&str]) -> Outcome {
    let mut cover = cover::Cover::default();
    for file in files {
        program.watch(&hex::script_of(Path::new(file))?, &mut cover);
    }
    println!("{}: {} scripts, {} records", program.name(), files.len(), cover.records);
    match cover.report(&program.points()) {
        0 => Ok(()),
        missing => Err(format!("{missing} points are never reached")),
    }
}

fn number(word: &str) -> Result<u64, String> {
    word.parse().map_err(|_| format!("not a number: {word}"))
}

fn input() -> Result<Vec<u8>, String> {
    let mut bytes = Vec::new();
    io::stdin().read_to_end(&mut bytes).map_err(|error| error.to_string())?;
    Ok(bytes)
}

fn print(bytes: &[u8]) -> Outcome {
    io::stdout().write_all(bytes).map_err(|error| error.to_string())
}
