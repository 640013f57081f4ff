//! A program on an input that comes to it in pieces.

use std::io::{self, Read, Write};
use std::process::{Command, ExitStatus, Stdio};

/// What the program prints for an input that comes to it in pieces of so many bytes. A program that
/// ends with another exit status than 0 has failed, whatever it printed.
pub fn printed(path: &str, input: &[u8], piece: usize) -> Result<Vec<u8>, String> {
    match run(path, input, piece) {
        Err(why) => Err(format!("{path}: {why}")),
        Ok((_, status)) if !status.success() => Err(format!("{path}: {status}")),
        Ok((printed, _)) => Ok(printed),
    }
}

/// Runs the program to its end.
fn run(path: &str, input: &[u8], piece: usize) -> io::Result<(Vec<u8>, ExitStatus)> {
    let mut program = Command::new(path)
        .stdin(Stdio::piped())
        .stdout(Stdio::piped())
        .spawn()?;
    let mut stdin = program.stdin.take().expect("it is piped");
    let mut stdout = program.stdout.take().expect("it is piped");
    let mut printed = Vec::new();
    std::thread::scope(|scope| {
        // a program that has stopped at a cut record reads no more
        scope.spawn(move || {
            input
                .chunks(piece)
                .try_for_each(|part| stdin.write_all(part))
        });
        stdout.read_to_end(&mut printed)
    })?;
    Ok((printed, program.wait()?))
}

/// The first line that differs, in words; nothing where none does.
pub fn difference(printed: &[u8], expected: &[u8]) -> Option<String> {
    let mut theirs = expected.split_inclusive(|&byte| byte == b'\n');
    let mut ours = printed.split_inclusive(|&byte| byte == b'\n');
    for line in 1.. {
        match (ours.next(), theirs.next()) {
            (None, None) => break,
            (a, b) if a == b => {}
            (a, b) => {
                let [a, b] = [a, b].map(|line| line.map(String::from_utf8_lossy));
                return Some(format!("line {line}: program {a:?}, twin {b:?}"));
            }
        }
    }
    None
}

/// How many lines there are.
pub fn lines(printed: &[u8]) -> usize {
    printed.iter().filter(|&&byte| byte == b'\n').count()
}
