//! Scripts as text: pairs of HEX digits; `#` begins a comment that runs to the end of its line.

use crate::wire::hex;
use std::path::Path;

/// The bytes of a text.
pub fn bytes(text: &str) -> Result<Vec<u8>, String> {
    let signs = text.lines().flat_map(|line| line.split('#').next().unwrap_or("").chars());
    let digits: Vec<u8> = signs
        .filter(|sign| !sign.is_whitespace())
        .map(|sign| sign.to_digit(16).map(|digit| digit as u8).ok_or(format!("not a HEX digit: {sign}")))
        .collect::<Result<_, _>>()?;
    if digits.len() % 2 == 1 {
        return Err("an odd count of HEX digits".to_string());
    }
    Ok(digits.chunks(2).map(|pair| pair[0] << 4 | pair[1]).collect())
}

/// The script in a file: text if the file's name ends in .hex, else bytes.
pub fn script_of(file: &Path) -> Result<Vec<u8>, String> {
    let told = |error: &dyn std::fmt::Display| format!("{}: {error}", file.display());
    let read = std::fs::read(file).map_err(|error| told(&error))?;
    if file.extension().is_some_and(|ending| ending == "hex") {
        return bytes(&String::from_utf8_lossy(&read)).map_err(|error| told(&error));
    }
    Ok(read)
}

/// A script as text under one comment: a line for each record, which begin at `places`.
pub fn text(comment: &str, script: &[u8], places: &[usize]) -> String {
    let ends = places.iter().skip(1).copied().chain([script.len()]);
    let lines = places.iter().zip(ends).map(|(&from, to)| hex(&script[from..to]) + "\n");
    format!("# {comment}\n{}", lines.collect::<String>())
}
