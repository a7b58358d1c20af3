//! One cycle: the checks in their order, then steps a to e on a copy of the state.

use crate::adder::{self, Controls, Correction, Work};
use crate::bits::{bit, with_bit};
use crate::branch::{next_address, X6, X7};
use crate::reading::Reading;
use crate::registers::{source_a, source_b, A_SOURCE, DESTINATION};
use crate::session::Fence;
use crate::state::{State, R, S};
use crate::status::STATUS;
use crate::storage::{cu_modelled, Storage, ACTION, STORE};
use crate::word::{
    ca_to_w, fault, returns, split, Word, AA, AK, AS, CA, CC, CD, CF, CG, CH, CL, CM, CS, CU, CV, HIGHEST_ADDRESS,
};
use crate::Refusal;

#[derive(Clone, Copy, Debug, PartialEq, Eq)]
pub enum Answer {
    Ran,
    Stopped,
    /// `field` is the one that 10 names, by its place in the word from 1; with another number it is 0.
    Refused {
        number: Refusal,
        field: u8,
    },
}

pub const MOST_WORDS: usize = 4096;
pub const MOST_MAIN: usize = 65_536;
pub const LOCAL_BYTES: usize = 256;
const STOP: u8 = 4;

/// Whether a field's code has a meaning in its word, under a reading.
type Modelled = fn(Reading, &Word) -> bool;

/// For each field that can lack a meaning, in word order.
static MODELLED: [(usize, Modelled); 10] = [
    (CH, |reading, word| X6[usize::from(word[CH])].under(reading).is_some()),
    (CL, |reading, word| X7[usize::from(word[CL])].under(reading).is_some()),
    (CM, |_, word| ACTION[usize::from(word[CM])].is_some()),
    (CU, |_, word| cu_modelled(word)),
    (CA, |_, word| ca_to_w(word) || A_SOURCE[usize::from(word[CA])].is_some()),
    (AA, |_, word| word[AA] == 0),
    (AK, |_, word| word[AK] == 0),
    (CD, |_, word| DESTINATION[usize::from(word[CD])].is_some()),
    (CS, |reading, word| STATUS[usize::from(word[CS])].under(reading).is_some()),
    (AS, |_, word| word[AS] == 0),
];

/// Refusal 1 of main and local storage alone.
pub fn storage_fits(main: &[u8], local: &[u8]) -> bool {
    (1..=MOST_MAIN).contains(&main.len()) && local.len() == LOCAL_BYTES
}

/// Refusal 1 of all three.
pub fn sizes_fit(store: &[u64], main: &[u8], local: &[u8]) -> bool {
    (1..=MOST_WORDS).contains(&store.len()) && storage_fits(main, local)
}

/// The first field in word order whose code is not modelled, by number, or 0: "10 follows the reading's own list".
pub fn not_modelled(reading: Reading, word: &Word) -> u8 {
    let missing = MODELLED.iter().find(|(_, modelled)| !modelled(reading, word));
    missing.map_or(0, |(place, _)| *place as u8 + 1)
}

/// One cycle of a store under a reading: its fence is round all of main storage. Unless it ran, nothing has changed.
pub fn cycle(reading: Reading, store: &[u64], main: &mut [u8], local: &mut [u8], state: &mut State) -> Answer {
    let all = Fence::round(main);
    cycle_in(reading, store, main, local, state, all)
}

/// The same in a fence: 11 is by it too.
pub fn cycle_in(
    reading: Reading,
    store: &[u64],
    main: &mut [u8],
    local: &mut [u8],
    state: &mut State,
    fence: Fence,
) -> Answer {
    cycle_with(reading, adder::correct_by_rule, store, main, local, state, fence)
}

/// The plain cycle, with decimal sums corrected by the table.
pub fn cycle_by_table(reading: Reading, store: &[u64], main: &mut [u8], local: &mut [u8], state: &mut State) -> Answer {
    let all = Fence::round(main);
    cycle_with(reading, adder::correct_by_table, store, main, local, state, all)
}

fn cycle_with(
    reading: Reading,
    correct: Correction,
    store: &[u64],
    main: &mut [u8],
    local: &mut [u8],
    state: &mut State,
    fence: Fence,
) -> Answer {
    let next = checked_word(reading, store, main, local, state)
        .and_then(|word| steps(reading, correct, &word, &mut Storage { main, local, fence }, state));
    match next {
        Ok(next) => {
            *state = next;
            Answer::Ran
        }
        Err(answer) => answer,
    }
}

/// By a number other than 10.
pub(crate) fn refused(number: Refusal) -> Answer {
    Answer::Refused { number, field: 0 }
}

/// The word at WX, past 1, 2, 3 to 9, the stop and 10.
fn checked_word(reading: Reading, store: &[u64], main: &[u8], local: &[u8], state: &State) -> Result<Word, Answer> {
    if !sizes_fit(store, main, local) {
        return Err(refused(1));
    }
    let bits = *store.get(usize::from(state.wx)).ok_or(refused(2))?;
    let number = fault(bits, u32::from(state.wx));
    if number != 0 {
        return Err(refused(number));
    }
    let word = split(bits);
    if word[CF] == STOP {
        return Err(Answer::Stopped);
    }
    match not_modelled(reading, &word) {
        0 => Ok(word),
        field => Err(Answer::Refused { number: 10, field }),
    }
}

/// Step a: the arriving byte enters R, or is dropped by a Store.
fn after_arrival(word: &Word, state: &State) -> State {
    let mut now = *state;
    if now.arriving && word[CM] != STORE {
        now.registers[R] = now.arriving_byte;
    }
    now.arriving = false;
    now.arriving_byte = 0;
    now
}

/// Steps a to e: the state after them, or refusal 11 with storage as it was.
fn steps(
    reading: Reading,
    correct: Correction,
    word: &Word,
    storage: &mut Storage,
    state: &State,
) -> Result<State, Answer> {
    let now = after_arrival(word, state);
    let sum = arithmetic(correct, word, &now);
    let adder::Answer { ac, bc1, z0, digit_carry, invalid, .. } = sum;
    let mut next = State { ac, bc1, z0, digit_carry, invalid, ..now };
    if let Some(action) = ACTION[usize::from(word[CM])] {
        action(storage, word, &now, &mut next).map_err(refused)?;
    }
    if let Some(put) = DESTINATION[usize::from(word[CD])] {
        put(&mut next, sum.result);
    }
    if let Some(change) = STATUS[usize::from(word[CS])].under(reading) {
        next.registers[S] = change(next.registers[S], sum.result);
    }
    if adder::saves_carry(word[CC]) {
        next.registers[S] = with_bit(next.registers[S], 3, sum.ac);
    }
    next.wx = next_address(reading, word, &now);
    // "The return word closes the trap."
    next.owed &= !returns(word);
    Ok(next)
}

/// Step c, on sources and S as they stand after step a.
fn arithmetic(correct: Correction, word: &Word, now: &State) -> adder::Answer {
    adder::add_with(correct, source_a(word, now), source_b(word, now), &controls(word, now))
}

fn controls(word: &Word, now: &State) -> Controls {
    Controls {
        cf: word[CF],
        cg: word[CG],
        cv: word[CV],
        cc: word[CC],
        s0: bit(now.registers[S], 0),
        s3: bit(now.registers[S], 3),
    }
}

/// The work of the word that would run next; none where WX is not in the store, the word is refused by 3 to 9, or it stops.
/// No reading changes it.
pub fn next_work(store: &[u64], state: &State) -> Option<Work> {
    let bits = *store.get(usize::from(state.wx))?;
    // In a longer store than a cycle takes, an address over 4,095 is refused before the word is looked at.
    if u32::from(state.wx) > HIGHEST_ADDRESS || fault(bits, u32::from(state.wx)) != 0 {
        return None;
    }
    let word = split(bits);
    if word[CF] == STOP {
        return None;
    }
    let now = after_arrival(&word, state);
    Some(adder::work(source_a(&word, &now), source_b(&word, &now), &controls(&word, &now)))
}
