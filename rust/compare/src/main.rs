//! The proved library against its twin, on drawn calls from fixed seeds, in one process.
//!
//!     compare [--long] [--seed N] [--times N]     all parts; --long makes forty times the rounds
//!     compare --kept [and the same]               boxes that are kept, call by call
//!     compare --program PATH [--seed N]           the program `replay` there, on long inputs
//!     compare --parkbox PATH [--seed N]           the program `parkbox` there, on long inputs
//!     compare --parkbox-few PATH [--seed N]       the same on short inputs alone
//!     compare --turn PATH [--seed N]              the program `turn` there, on many lines
//!     compare --vectors PATH [--seed N]           the program `vectors` there, on made states
//!     compare --replay < HEX                      one input, both outputs
//!     compare --text < HEX                        one text, both answers
//!     compare --records < HEX                     records on one box, both answers to each
//!
//! Fails at the first difference, or if a number or a kind of place was never met, or if asks
//! were not granted and refused in balance, or if a program does not end with exit status 0.

mod calls;
mod cases;
mod draw;
mod kept;
mod long;
mod longest;
mod made;
mod modes;
mod parkbox;
mod parts;
mod policies;
mod program;
mod records;
mod runner;
mod tally;
mod texts;
mod turn;
mod windows;

#[cfg(test)]
mod tests;

use draw::Draw;
use parts::PARTS;
use runner::{from_hex, Runner, LIBRARY};
use std::process::ExitCode;

/// The least calls that a run makes.
const LEAST: u64 = 200_000;

fn main() -> ExitCode {
    let words: Vec<String> = std::env::args().skip(1).collect();
    let done = match words.first().map(String::as_str) {
        Some(which @ ("--replay" | "--text" | "--records")) => one(which),
        Some("--kept") => options(&words[1..]).and_then(|(seed, times)| kept::compare(seed, times)),
        Some(which @ ("--program" | "--parkbox" | "--parkbox-few" | "--turn" | "--vectors")) => {
            match words.get(1) {
                Some(path) => options(&words[2..]).and_then(|(seed, _)| program(which, path, seed)),
                None => Err(format!("{which} needs a path")),
            }
        }
        _ => options(&words).and_then(|(seed, times)| run(seed, times)),
    };
    match done {
        Ok(said) => {
            println!("{said}");
            ExitCode::SUCCESS
        }
        Err(why) => {
            println!("{why}");
            ExitCode::FAILURE
        }
    }
}

/// The seed, and how many times the rounds of a short run are made.
fn options(words: &[String]) -> Result<(u64, usize), String> {
    let (mut seed, mut times) = (1, 1);
    let mut words = words.iter();
    while let Some(word) = words.next() {
        let mut number = || {
            let number = words.next().and_then(|number| number.parse().ok());
            number.ok_or(format!("{word} needs a number"))
        };
        match word.as_str() {
            "--long" => times = 40,
            "--seed" => seed = number()?,
            "--times" => times = number()? as usize,
            _ => return Err(format!("{word}: no such option")),
        }
    }
    Ok((seed, times))
}

/// A program against the twin.
fn program(which: &str, path: &str, seed: u64) -> Result<String, String> {
    match which {
        "--parkbox" => parkbox::compare(path, seed),
        "--parkbox-few" => parkbox::few(path, seed),
        "--turn" => turn::compare(path, seed),
        "--vectors" => made::compare(path, seed),
        _ => {
            let long = long::compare(path, seed)?;
            Ok(format!("{long}\n{}", windows::compare(path, seed)?))
        }
    }
}

/// All parts, and what was met.
fn run(seed: u64, times: usize) -> Result<String, String> {
    let mut runner = Runner::new(LIBRARY);
    all_parts(&mut runner, seed, times)?;
    println!("{}", runner.tally);
    let mut missing = runner.tally.missing();
    let calls = runner.tally.calls();
    if calls < LEAST {
        missing.push(format!("{calls} calls, under {LEAST}"));
    }
    if !missing.is_empty() {
        return Err(missing.join("\n"));
    }
    Ok(format!(
        "compare: seed {seed}, {calls} calls, no difference"
    ))
}

/// Every round of every part, up to the first difference.
fn all_parts(runner: &mut Runner, seed: u64, times: usize) -> Result<(), String> {
    for (part, (name, rounds, make)) in PARTS.into_iter().enumerate() {
        for round in 0..rounds * times {
            make(&mut Draw::new(seed, part, round), runner).map_err(|why| {
                format!("DIFFERENCE in {name}, seed {seed}, round {round}: {why}")
            })?;
        }
    }
    Ok(())
}

/// One input or text from standard input, in hex.
fn one(which: &str) -> Result<String, String> {
    let hex = std::io::read_to_string(std::io::stdin()).map_err(|why| why.to_string())?;
    if which == "--records" {
        return kept::records(&hex);
    }
    let bytes = from_hex(&hex).ok_or("standard input is not hex")?;
    let mut runner = Runner::new(LIBRARY);
    if which == "--replay" {
        runner.replay(&bytes)?;
        let printed = String::from_utf8_lossy(&gate::replay(&bytes)).into_owned();
        return Ok(format!("{printed}compare: no difference"));
    }
    runner.text(&bytes, gate::MOST_BYTES)?;
    let answer = gate::turn_text(&bytes, &mut [0; gate::MOST_BYTES]);
    Ok(format!("{answer}\ncompare: no difference"))
}
