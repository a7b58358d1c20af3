//! The panel's calls, written from include/panel.h alone: numbers and bytes in, a number and bytes out.

use crate::adder::Work;
use crate::cycle::{cycle, next_work, Answer};
use crate::decimal::Outcome;
use crate::reading::Reading;
use crate::run::{run, Ending};
use crate::session::{self, Fence};
use crate::shipped::{self, APSP, SHIPPED};
use crate::state::State;
use crate::word::{self, Fields};
use crate::{apsp, deck, signed, trap, Refusal};

/// PANEL_STATE: the bytes of a record.
pub use crate::state::RECORD as STATE;

/// PANEL_WORK: the bytes of a cycle's work.
pub const WORK: usize = 8;

/// The fields that a word is taken apart into.
pub const FIELDS: usize = 18;

// enum panel_kind.
pub const RAN: u64 = 0;
pub const STOPPED: u64 = 1;
pub const REFUSED: u64 = 2;
pub const SPENT: u64 = 3;
pub const SUMMED: u64 = 4;
pub const BAD_DIGIT: u64 = 5;

/// kind + 256 * refusal number + 65536 * field of refusal 10, or the carry out, or the overflow.
fn coded(kind: u64, number: Refusal, field: u8) -> u64 {
    kind + 256 * u64::from(number) + 65536 * u64::from(field)
}

/// 2^32 * the cycles that ran.
fn ran(count: u64) -> u64 {
    count << 32
}

/// 0, or the refusal's number.
fn numbered(answer: Result<(), Refusal>) -> u64 {
    answer.map_or_else(u64::from, |()| 0)
}

pub fn take_apart(word: u64, address: u32, fields: &mut [u8]) -> u64 {
    let Some(room) = fields.get_mut(..FIELDS) else {
        return 19;
    };
    numbered(word::take_apart(word, address).map(|taken| room.copy_from_slice(&taken)))
}

pub fn pack(fields: &[u8], address: u32, word: &mut [u64]) -> u64 {
    let lent: Option<&Fields> = fields.first_chunk();
    let (Some(fields), Some(room)) = (lent, word.first_mut()) else {
        return 19;
    };
    numbered(word::pack(fields, address).map(|packed| *room = packed))
}

/// The state of a record, or none where the record is too short.
fn loaded(record: &[u8]) -> Option<State> {
    record.first_chunk::<STATE>().map(State::from_bytes)
}

fn save(state: &State, record: &mut [u8]) {
    record[..STATE].copy_from_slice(&state.to_bytes());
}

/// enum panel_reading: "any other value than 0 is compatibility".
fn reading_by(code: u8) -> Reading {
    match code {
        0 => Reading::Basic,
        _ => Reading::Compatibility,
    }
}

/// What `advance` answers of the record's state, which is written where it ran; 19 comes first.
fn stepped(record: &mut [u8], advance: impl FnOnce(&mut State) -> Answer) -> u64 {
    let Some(mut state) = loaded(record) else {
        return coded(REFUSED, 19, 0);
    };
    match advance(&mut state) {
        Answer::Ran => {
            save(&state, record);
            coded(RAN, 0, 0)
        }
        Answer::Stopped => coded(STOPPED, 0, 0),
        Answer::Refused { number, field } => coded(REFUSED, number, field),
    }
}

pub fn one_cycle(reading: u8, store: &[u64], main: &mut [u8], local: &mut [u8], record: &mut [u8]) -> u64 {
    stepped(record, |state| cycle(reading_by(reading), store, main, local, state))
}

/// A fence by its start and its end, as the header has them one after the other.
fn fence([start, end]: [usize; 2]) -> Fence {
    Fence { start, end }
}

pub fn open(main_len: usize, a: [usize; 2], b: [usize; 2]) -> u64 {
    numbered(session::open(main_len, fence(a), fence(b)))
}

pub fn turn(
    reading: u8,
    store: &[u64],
    main: &mut [u8],
    local: &mut [u8],
    record: &mut [u8],
    own: [usize; 2],
    other: [usize; 2],
) -> u64 {
    let reading = reading_by(reading);
    stepped(record, |state| session::turn(reading, store, main, local, state, fence(own), fence(other)))
}

pub fn run_for(reading: u8, store: &[u64], main: &mut [u8], local: &mut [u8], record: &mut [u8], budget: u32) -> u64 {
    let Some(mut state) = loaded(record) else {
        return coded(REFUSED, 19, 0);
    };
    let (ending, count) = run(reading_by(reading), store, main, local, &mut state, u64::from(budget));
    // "a cycle that ran writes 0 or 1": where none ran, the record is as it was lent
    if count > 0 {
        save(&state, record);
    }
    let code = match ending {
        Ending::Stopped => coded(STOPPED, 0, 0),
        Ending::Refused { number, field } => coded(REFUSED, number, field),
        Ending::Spent => coded(SPENT, 0, 0),
    };
    code + ran(count)
}

/// "a cycle that ran writes 0 or 1", and a trap is none: it writes WX, FWX and its own latch, and no other byte.
pub fn trap(address: u32, record: &mut [u8]) -> u64 {
    let Some(mut state) = loaded(record) else {
        return 19;
    };
    let answer = trap::trap(&mut state, address);
    if answer.is_ok() {
        let after = state.to_bytes();
        record[13..15].copy_from_slice(&after[13..15]);
        record[24..27].copy_from_slice(&after[24..27]);
    }
    numbered(answer)
}

/// enum panel_work.
fn worked(work: &Work) -> [u8; WORK] {
    [
        work.a_chosen,
        work.a_gated,
        work.b_chosen,
        work.b_gated,
        work.b_entering,
        u8::from(work.carry_in),
        work.before,
        work.after,
    ]
}

pub fn next_sum(store: &[u64], record: &[u8], work: &mut [u8]) -> u64 {
    let (Some(state), Some(room)) = (loaded(record), work.first_chunk_mut()) else {
        return 19;
    };
    let Some(next) = next_work(store, &state) else {
        return 1;
    };
    *room = worked(&next);
    0
}

/// The record of a state, where there is room for it.
fn started(state: &State, record: &mut [u8]) -> u64 {
    if record.len() < STATE {
        return 19;
    }
    save(state, record);
    0
}

pub fn start(first: u16, second: u16, length: u8, carry_in: u8, record: &mut [u8]) -> u64 {
    started(&shipped::start(first, second, length, carry_in != 0), record)
}

pub fn start_signed(first: u16, second: u16, length: u8, subtract: u8, record: &mut [u8]) -> u64 {
    started(&shipped::start_apsp(first, second, length, subtract != 0), record)
}

/// All of a program's words, where there is room for them.
fn handed(program: &[u64], words: &mut [u64]) -> u64 {
    let Some(room) = words.get_mut(..program.len()) else {
        return moved(Err(19));
    };
    room.copy_from_slice(program);
    moved(Ok(program.len()))
}

pub fn shipped(words: &mut [u64]) -> u64 {
    handed(&SHIPPED, words)
}

pub fn shipped_signed(words: &mut [u64]) -> u64 {
    handed(&APSP, words)
}

/// What an entry answers: a sum with its carry out or overflow, none for a bad digit or sign, or a refusal. Cycles ran
/// where it is not refused.
fn added(outcome: Result<Option<bool>, Refusal>, count: impl FnOnce() -> u64) -> u64 {
    match outcome {
        Ok(Some(flag)) => coded(SUMMED, 0, u8::from(flag)) + ran(count()),
        Ok(None) => coded(BAD_DIGIT, 0, 0) + ran(count()),
        Err(number) => coded(REFUSED, number, 0),
    }
}

/// In a fence round all of main storage.
pub fn add(main: &mut [u8], local: &mut [u8], first: usize, second: usize, length: usize, carry_in: u8) -> u64 {
    let all = [0, main.len()];
    add_in(main, local, first, second, length, carry_in, all)
}

pub fn add_in(
    main: &mut [u8],
    local: &mut [u8],
    first: usize,
    second: usize,
    length: usize,
    carry_in: u8,
    within: [usize; 2],
) -> u64 {
    let (outcome, count) = session::add_counted(main, local, first, second, length, carry_in != 0, fence(within));
    let outcome = match outcome {
        Outcome::Summed { carry } => Ok(Some(carry)),
        Outcome::BadDigit => Ok(None),
        Outcome::Refused { number } => Err(number),
    };
    added(outcome, || count)
}

/// The sum or difference is by whole numbers too; the count is by the paper's table, of storage as it was before.
fn signed_sum(main: &mut [u8], local: &[u8], first: usize, second: usize, length: usize, subtract: bool) -> u64 {
    let before = main.to_vec();
    let outcome = match apsp::add_signed(main, local, first, second, length, subtract) {
        apsp::Outcome::Done { overflow } => Ok(Some(overflow)),
        apsp::Outcome::Bad => Ok(None),
        apsp::Outcome::Refused { number } => Err(number),
    };
    added(outcome, || apsp::cycles(&before, first, second, length, subtract))
}

pub fn add_signed(main: &mut [u8], local: &mut [u8], first: usize, second: usize, length: usize) -> u64 {
    signed_sum(main, local, first, second, length, false)
}

pub fn sub_signed(main: &mut [u8], local: &mut [u8], first: usize, second: usize, length: usize) -> u64 {
    signed_sum(main, local, first, second, length, true)
}

/// The count of words, or of bytes, and 65536 * refusal number.
fn moved(answer: Result<usize, Refusal>) -> u64 {
    answer.map_or_else(|number| 65536 * u64::from(number), |count| count as u64)
}

pub fn read_deck(bytes: &[u8], words: &mut [u64]) -> u64 {
    moved(deck::read_deck(bytes, words))
}

pub fn write_deck(words: &[u64], bytes: &mut [u8]) -> u64 {
    moved(deck::write_deck(words, bytes))
}

/// The field is judged first, "then 19 where no number is lent".
pub fn read_signed(field: &[u8], number: &mut [i64]) -> u64 {
    let read = signed::read_signed(field);
    numbered(read.and_then(|value| number.first_mut().ok_or(19).map(|room| *room = value)))
}

pub fn write_signed(number: i64, field: &mut [u8]) -> u64 {
    numbered(signed::write_signed(number, field))
}
