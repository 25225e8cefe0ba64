//! Our programs beside the model: both play a script, and every line is compared.

use crate::bus_bench::BusRecord;
use crate::dice::Dice;
use crate::program::Program;
use crate::script::{Making, Record};
use crate::{hex, wire, Outcome};
use std::fs;
use std::io::{Read, Write};
use std::path::{Path, PathBuf};
use std::process::{ChildStdin, Command, Stdio};
use std::sync::mpsc;
use std::thread;
use std::time::{Duration, Instant};

/// A program that takes longer for a script hangs.
const LIMIT: Duration = Duration::from_secs(60);

/// The bytes of a long script. A program that kept it whole would have to say how much it keeps.
const LONG: usize = 2_097_152 + 1_000;

/// How often progress is told.
const PAUSE: Duration = Duration::from_secs(5);

/// The script that is being played; it stays there if the programs differ.
const SCRIPT: &str = "target/model/script";

/// The scripts of the corpus for the program, and those of examples/. The latter are each meant for
/// one of the programs, but any bytes are a script, so they are given to both.
pub fn stored(program: Program) -> Result<Vec<(String, Vec<u8>)>, String> {
    let own = format!("crates/corpus/data/{}", program.folder());
    let mut files = Vec::new();
    for folder in [&own[..], "examples"] {
        let entries = fs::read_dir(folder).map_err(|error| format!("{folder}: {error}"))?;
        files.extend(entries.filter_map(|entry| Some(entry.ok()?.path())));
    }
    files.retain(|file: &PathBuf| file.extension().is_some_and(|ending| ending == "hex"));
    files.sort();
    files.iter().map(|file| Ok((file.display().to_string(), hex::script_of(file)?))).collect()
}

/// The stored scripts, a long one, and random ones.
pub fn run(count: u64, records: usize, first: u64, launcher: &[&str]) -> Outcome {
    for program in [Program::Cardline, Program::Busline] {
        let mut comparison = Comparison::new(program, launcher);
        for (name, script) in stored(program)? {
            comparison.play(&name, &script)?;
        }
        let long = long(program);
        comparison.play("a long script", &long)?;
        comparison.play("a long script in pieces", &long)?;
        for seed in first..first + count {
            comparison.play(&format!("seed {seed}"), &program.generate(seed, records))?;
        }
        comparison.tell("compared");
    }
    Ok(())
}

/// A script of more bytes than a program keeps: the longest blocks for a card that is then shown
/// again and again, or identifiers for a bus that is soon full, and frames. It ends within a record.
fn long(program: Program) -> Vec<u8> {
    let register = wire::register(&[0; 15]);
    let (memory_length, map, password) = (8_192, vec![0], Vec::new());
    let making = Making { memory_length, filled_with: 0, map, cid: register, csd: register, ocr: 1, password };
    let (mut script, record, rest) = match program {
        Program::Cardline => (Record::Make(making).written(), Record::CheckBlock(vec![0; 4_096]).written(), 0x07),
        Program::Busline => (Vec::new(), BusRecord::Add([0x5A; 15]).written(), 0x02),
    };
    while script.len() + record.len() <= LONG {
        script.extend(&record);
    }
    script.resize(LONG, rest);
    script.push(0x02);
    script
}

pub struct Comparison<'a> {
    program: Program,
    launcher: &'a [&'a str],
    began: Instant,
    told: Instant,
    scripts: usize,
    records: usize,
    lines: usize,
}

impl<'a> Comparison<'a> {
    pub fn new(program: Program, launcher: &'a [&'a str]) -> Comparison<'a> {
        let now = Instant::now();
        Comparison { program, launcher, began: now, told: now, scripts: 0, records: 0, lines: 0 }
    }

    /// One script, which has a name to be told by.
    pub fn play(&mut self, name: &str, script: &[u8]) -> Outcome {
        let told = |what: String| format!("{}, {name}: {what}; the script is {SCRIPT}", self.program.name());
        let expected = self.program.lines(script);
        let ours = self.ours(script).map_err(told)?;
        if let Some(difference) = difference(&expected, &ours) {
            return Err(told(difference));
        }
        self.scripts += 1;
        self.records += self.program.places(script).len();
        self.lines += expected.lines().count();
        if self.told.elapsed() > PAUSE {
            self.told = Instant::now();
            self.tell(&format!("up to {name}"));
        }
        Ok(())
    }

    /// What our program writes for a script: it reads every other one from a pipe, in pieces of any
    /// length. On standard error it says nothing.
    fn ours(&self, script: &[u8]) -> Result<String, String> {
        let told = |error: std::io::Error| error.to_string();
        fs::write(SCRIPT, script).map_err(told)?;
        let program = Path::new("crates").join(self.program.name()).join("out").join(self.program.name());
        let (first, rest) = self.launcher.split_first().ok_or("no launcher is named")?;
        let mut child = Command::new(first)
            .args(rest)
            .arg(program)
            .stdin(if self.scripts % 2 == 1 { Stdio::piped() } else { fs::File::open(SCRIPT).map_err(told)?.into() })
            .stdout(Stdio::piped())
            .stderr(Stdio::piped())
            .spawn()
            .map_err(told)?;
        if let Some(pipe) = child.stdin.take() {
            let script = script.to_vec();
            thread::spawn(move || feed(pipe, &script));
        }
        let mut errors = child.stderr.take().ok_or("no standard error")?;
        let mut output = child.stdout.take().ok_or("no output")?;
        let (sender, receiver) = mpsc::channel();
        thread::spawn(move || {
            let mut bytes = Vec::new();
            let _ = sender.send(output.read_to_end(&mut bytes).map(|_| bytes));
        });
        let Ok(read) = receiver.recv_timeout(LIMIT) else {
            child.kill().map_err(told)?;
            return Err(format!("our program did not end in {} seconds", LIMIT.as_secs()));
        };
        let mut words = String::new();
        errors.read_to_string(&mut words).map_err(told)?;
        if !words.is_empty() {
            return Err(format!("our program said on standard error: {}", words.trim_end()));
        }
        let status = child.wait().map_err(told)?;
        if !status.success() {
            return Err(format!("our program ended with an error ({status})"));
        }
        String::from_utf8(read.map_err(told)?).map_err(|error| error.to_string())
    }

    /// How far it has come. A record that is played writes one line; those behind a refused make write
    /// none.
    pub fn tell(&self, what: &str) {
        let Comparison { program, scripts, records, lines, .. } = self;
        let seconds = self.began.elapsed().as_secs_f64();
        println!("{}, {what}: {scripts} scripts, {records} records, {lines} lines agree, {seconds:.1} s", program.name());
    }
}

/// A script, handed to a program in pieces of any length. One that stops reads no further.
fn feed(mut pipe: ChildStdin, script: &[u8]) {
    let mut dice = Dice(script.len() as u64);
    let mut rest = script;
    while !rest.is_empty() {
        let longest = dice.pick(&[2, 16, 5_000]);
        let length = rest.len().min(1 + dice.below(longest) as usize);
        let (piece, behind) = rest.split_at(length);
        if pipe.write_all(piece).is_err() {
            return;
        }
        rest = behind;
    }
}

/// The first line in which two transcripts differ.
fn difference(expected: &str, ours: &str) -> Option<String> {
    if expected == ours {
        return None;
    }
    let shared = expected.split('\n').zip(ours.split('\n')).take_while(|(model, our)| model == our).count();
    let line = |transcript: &str| transcript.split('\n').nth(shared).unwrap_or("no such line").to_string();
    Some(format!("line {} differs: the model has `{}`, ours `{}`", shared + 1, line(expected), line(ours)))
}
