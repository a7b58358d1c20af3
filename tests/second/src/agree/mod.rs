//! What each proved program `agree_*` must print: the same cases, drawn by the same generator, on this engine.
//!
//! A program's stored `stdout` is made here, by `cargo run --release --bin agree -- agree_adder`.

mod adder;
mod apsp;
mod count;
mod cycle;
mod decimal;
mod deck;
mod draw;
mod fields;
mod run;
mod session;
mod signed;
mod trap;
mod word;

use crate::random::{mix, Random};
use crate::state::State;

/// A program's name, and what computes its text.
pub type Program = (&'static str, fn() -> String);

pub const PROGRAMS: [Program; 10] = [
    ("agree_adder", adder::text),
    ("agree_apsp", apsp::text),
    ("agree_cycle", cycle::text),
    ("agree_decimal", decimal::text),
    ("agree_deck", deck::text),
    ("agree_run", run::text),
    ("agree_session", session::text),
    ("agree_signed", signed::text),
    ("agree_trap", trap::text),
    ("agree_word", word::text),
];

/// The text that a program must print, or None where there is no such program.
pub fn text(name: &str) -> Option<String> {
    PROGRAMS.iter().find(|(program, _)| *program == name).map(|(_, text)| text())
}

/// A line: a count of cases, and the digest after them.
fn digest_line(count: u64, digest: u64) -> String {
    format!("{count} {digest:016x}\n")
}

fn drawn_bytes(seed: u64, count: usize) -> Vec<u8> {
    let mut random = Random::new(seed);
    (0..count).map(|_| (random.next() >> 8) as u8).collect()
}

/// The digest after all the bytes.
fn mix_bytes(digest: u64, bytes: &[u8]) -> u64 {
    bytes.iter().fold(digest, |digest, byte| mix(digest, u64::from(*byte)))
}

/// Bytes as one number, the first one high.
fn joined(bytes: &[u8]) -> u64 {
    bytes.iter().fold(0, |number, byte| number << 8 | u64::from(*byte))
}

/// The digest after all of a state: its registers eight at a time, with WX; its latches, the lamps' two first, with the
/// arriving byte; and the latch that a return is owed, with FWX.
fn mix_state(digest: u64, state: &State) -> u64 {
    let record = state.to_bytes();
    let rest = joined(&record[8..13]) << 24 | joined(&record[13..15]);
    let latches = record[22..24].iter().chain(&record[15..21]).fold(0, |number, latch| number << 1 | u64::from(*latch));
    let last = latches << 8 | u64::from(record[21]);
    let saved = u64::from(record[26]) << 16 | joined(&record[24..26]);
    [joined(&record[..8]), rest, last, saved].into_iter().fold(digest, mix)
}
