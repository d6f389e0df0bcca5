//! The program ringline: what it prints for an input, and the program itself run as a process.
use crate::facts::{self, Facts};
use crate::keys::{self, Key};
use crate::rules::{judge, BASES};
use std::io::{Read, Write};
use std::path::{Path, PathBuf};
use std::process::{Command, Stdio};

/// As many bytes of the input are read.
const READ: usize = 8194;

/// A room of as many bytes holds every report; the call leaves a shorter one alone.
pub const ROOMY: usize = 160_000;

/// What the program prints.
pub fn printed(input: &[u8]) -> Vec<u8> {
    report(&input[..input.len().min(READ)])
}

/// The report on the bytes read.
pub fn report(read: &[u8]) -> Vec<u8> {
    let ring = read.strip_suffix(b"\n").unwrap_or(read);
    match judge(BASES, ring, false) {
        Ok(()) => lines(&facts::of(ring), &keys::key(BASES, ring)),
        Err(refusal) => format!("{} {}\n", refusal.number, refusal.place).into_bytes(),
    }
}

/// The five lines of a base ring that is taken.
pub fn lines(facts: &Facts, key: &Key) -> Vec<u8> {
    let line = |table: &[usize]| table.iter().map(usize::to_string).collect::<Vec<_>>().join(" ");
    let mut text = format!(
        "0 {} {} {} {}\n{}\n{}\n{}\n{} {} ",
        key.letters.len(),
        facts.start,
        facts.repeat,
        facts.pairs,
        line(&facts.factors),
        line(&facts.suffixes),
        line(&facts.starts),
        key.strand,
        key.start,
    )
    .into_bytes();
    text.extend(&key.letters);
    text.push(b'\n');
    text
}

/// The program, where it is built: crates/ringline/out/ringline.
pub fn program() -> Option<PathBuf> {
    let path = Path::new(env!("CARGO_MANIFEST_DIR")).join("../crates/ringline/out/ringline");
    path.exists().then_some(path)
}

/// Runs the program on an input, given in pieces of `piece` bytes: what it prints, and whether it ended with status 0.
pub fn run(program: &Path, input: &[u8], piece: usize) -> (Vec<u8>, bool) {
    let mut child = Command::new(program).stdin(Stdio::piped()).stdout(Stdio::piped()).spawn().expect("ringline starts");
    let mut stdin = child.stdin.take().unwrap();
    let mut stdout = child.stdout.take().unwrap();
    let input = input.to_vec();
    let writer = std::thread::spawn(move || {
        for piece in input.chunks(piece) {
            // the program may end before it has read all
            if stdin.write_all(piece).is_err() {
                break;
            }
            if input.len() < 64 {
                std::thread::sleep(std::time::Duration::from_micros(50));
            }
        }
    });
    let mut printed = Vec::new();
    stdout.read_to_end(&mut printed).expect("ringline's output is read");
    let ended = child.wait().expect("ringline ends");
    writer.join().unwrap();
    (printed, ended.success())
}
