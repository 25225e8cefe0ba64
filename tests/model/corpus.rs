//! The corpus: scripts written by hand, a fixed set of random ones, and what the model prints for
//! each. The gate plays them by the program crates/corpus.

use crate::cover::{Cover, Met};
use crate::program::Program;
use crate::{hex, Outcome};
use std::cmp::Reverse;
use std::collections::BTreeSet;
use std::fs;
use std::path::Path;

/// The seeds that are tried, from 1 on.
const SEEDS: u64 = 1_000;

/// The records of a script before it is cut.
const RECORDS: usize = 300;

/// The records that a script keeps behind the one that reaches a point: what that one did shows there.
const BEHIND: usize = 3;

/// What a script costs beside its bytes: the more, the fewer and the longer are the scripts.
const COST: usize = 8_000;

/// The program crates/corpus reads no more of a script's text.
const LONGEST_TEXT: usize = 65_536;

/// How the name of a random script begins.
const RANDOM: &str = "random_";

/// A script's name, its text and its bytes.
struct Stored {
    name: String,
    text: String,
    script: Vec<u8>,
}

/// Makes the files of the crate anew in a folder, those by hand as the crate has them, and tells what
/// the random ones reach.
pub fn make(own: &Path, folder: &Path) -> Outcome {
    let told = |error: std::io::Error| format!("{}: {error}", folder.display());
    let (mut args, mut stdout) = (String::new(), String::new());
    let mut missing = 0;
    for program in [Program::Cardline, Program::Busline] {
        let data = Path::new("data").join(program.folder());
        fs::create_dir_all(folder.join(&data)).map_err(told)?;
        let mut cover = Cover::default();
        let chosen = choose(program);
        chosen.iter().for_each(|random| program.watch(&random.script, &mut cover));
        println!("{}: {} random scripts, {} records", program.name(), chosen.len(), cover.records);
        missing += cover.report(&program.points());
        for Stored { name, text, script } in by_hand(&own.join(&data))?.iter().chain(&chosen) {
            if text.len() > LONGEST_TEXT {
                return Err(format!("{name} has more than {LONGEST_TEXT} characters"));
            }
            fs::write(folder.join(&data).join(name), text).map_err(told)?;
            args += &format!("{}/{name}\n", program.folder());
            stdout += &format!("== {}/{name}\n{}", program.folder(), program.lines(script));
        }
    }
    fs::write(folder.join("args"), args).map_err(told)?;
    fs::write(folder.join("stdout"), stdout).map_err(told)?;
    if missing == 0 { Ok(()) } else { Err(format!("the corpus does not reach {missing} points")) }
}

/// The scripts of a folder that are not random.
fn by_hand(folder: &Path) -> Result<Vec<Stored>, String> {
    let told = |error: std::io::Error| format!("{}: {error}", folder.display());
    let mut scripts = Vec::new();
    for entry in fs::read_dir(folder).map_err(told)? {
        let file = entry.map_err(told)?.path();
        let name = file.file_name().unwrap_or_default().to_string_lossy().into_owned();
        if !name.starts_with(RANDOM) {
            let text = fs::read_to_string(&file).map_err(told)?;
            scripts.push(Stored { name, text, script: hex::script_of(&file)? });
        }
    }
    scripts.sort_by(|a, b| a.name.cmp(&b.name));
    Ok(scripts)
}

/// Of the scripts of all seeds, again and again the one that reaches most new points for its cost,
/// until nothing new is reached.
fn choose(program: Program) -> Vec<Stored> {
    let points = program.points();
    let mut missing: BTreeSet<usize> = (0..points.len()).collect();
    let mut candidates: Vec<Candidate> = (1..=SEEDS).map(|seed| candidate(program, seed, &points)).collect();
    let mut chosen = Vec::new();
    while let Some(best) = (0..candidates.len()).max_by_key(|&place| candidates[place].worth(&missing)) {
        let Candidate { seed, mut script, reached } = candidates.swap_remove(best);
        let new = reached.iter().filter(|(point, _)| missing.contains(point));
        // The script ends a little behind the record that first reaches the last of the new points.
        let Some(end) = new.map(|(_, end)| *end).max() else { break };
        script.truncate(end);
        missing.retain(|point| !reached.iter().any(|(reached, needed)| reached == point && *needed <= end));
        chosen.push((seed, script));
    }
    chosen.sort();
    chosen.into_iter().map(|(seed, script)| random(program, seed, script)).collect()
}

struct Candidate {
    seed: u64,
    script: Vec<u8>,
    /// The points that the script reaches, by number, and how many of its bytes are needed for each.
    reached: Vec<(usize, usize)>,
}

fn candidate(program: Program, seed: u64, points: &BTreeSet<String>) -> Candidate {
    let script = program.generate(seed, RECORDS);
    let mut cover = Cover::default();
    program.watch(&script, &mut cover);
    let places = program.places(&script);
    let end = |met: &Met| places.get(met.first + BEHIND).copied().unwrap_or(script.len());
    let numbered = points.iter().enumerate();
    let reached = numbered.filter_map(|(number, point)| Some((number, end(cover.points.get(point)?)))).collect();
    Candidate { seed, script, reached }
}

impl Candidate {
    /// How many missing points the script reaches for a million bytes of its kind; of equal ones the
    /// lowest seed.
    fn worth(&self, missing: &BTreeSet<usize>) -> (usize, Reverse<u64>) {
        let new = self.reached.iter().filter(|(point, _)| missing.contains(point));
        let (count, end) = new.fold((0, 0), |(count, last), (_, end)| (count + 1, last.max(*end)));
        (count * 1_000_000 / (end + COST), Reverse(self.seed))
    }
}

fn random(program: Program, seed: u64, script: Vec<u8>) -> Stored {
    let name = format!("{RANDOM}{seed}.hex");
    let comment = format!("{name}: a random script for {}; tests/corpus makes it.", program.name());
    let text = hex::text(&comment, &script, &program.places(&script));
    Stored { name, text, script }
}
