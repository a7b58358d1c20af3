//! Two boards over one word store and one main storage, from request 13: their fences, one turn of a board, and the decimal
//! entry in a fence.

use crate::cycle::{cycle_in, refused, sizes_fit, Answer};
use crate::decimal::{add_decimal_in, Outcome};
use crate::reading::Reading;
use crate::shipped::{self, run_shipped_in};
use crate::state::State;
use crate::Refusal;

/// "a fence, a start and an end not in it": the bytes of main storage that are a board's own.
#[derive(Clone, Copy, Debug, PartialEq, Eq)]
pub struct Fence {
    pub start: usize,
    pub end: usize,
}

impl Fence {
    /// Round all of main storage: what a board has that is alone.
    pub fn round(main: &[u8]) -> Fence {
        Fence { start: 0, end: main.len() }
    }

    pub fn contains(self, address: usize) -> bool {
        (self.start..self.end).contains(&address)
    }

    /// Whether a field of so many bytes lies wholly in it. A start may be as large as the machine's numbers go.
    pub fn holds(self, start: usize, length: usize) -> bool {
        start >= self.start && start.checked_add(length).is_some_and(|end| end <= self.end)
    }

    /// Neither empty nor reaching outside main storage of so many bytes.
    pub fn stands_in(self, main_len: usize) -> bool {
        self.start < self.end && self.end <= main_len
    }

    /// Whether two that are not empty share no byte. They may touch, since an end is in neither.
    fn is_apart_from(self, other: Fence) -> bool {
        self.end <= other.start || other.end <= self.start
    }
}

/// "32 on opening, for a fence that is empty or reaches outside main storage, or two that overlap".
pub fn open(main_len: usize, a: Fence, b: Fence) -> Result<(), Refusal> {
    let stand = [a, b].iter().all(|fence| fence.stands_in(main_len));
    if stand && a.is_apart_from(b) {
        Ok(())
    } else {
        Err(32)
    }
}

/// One turn: a cycle of the board whose local storage, state and fence these are, beside a board with the other fence. Checks
/// 1, then 32, then what a cycle checks. Unless it ran, nothing has changed.
pub fn turn(
    reading: Reading,
    store: &[u64],
    main: &mut [u8],
    local: &mut [u8],
    state: &mut State,
    own: Fence,
    other: Fence,
) -> Answer {
    if !sizes_fit(store, main, local) {
        return refused(1);
    }
    match open(main.len(), own, other) {
        Ok(()) => cycle_in(reading, store, main, local, state, own),
        Err(number) => refused(number),
    }
}

/// The decimal entry in a fence, and how many cycles ran. The sum is by whole numbers; the count is that of this engine's own
/// run of the shipped words in the fence, on a copy.
pub fn add_counted(
    main: &mut [u8],
    local: &[u8],
    first: usize,
    second: usize,
    length: usize,
    carry_in: bool,
    fence: Fence,
) -> (Outcome, u64) {
    let (mut same_main, mut same_local) = (main.to_vec(), local.to_vec());
    let outcome = add_decimal_in(main, local, first, second, length, carry_in, fence);
    if let Outcome::Refused { .. } = outcome {
        return (outcome, 0);
    }
    // What is not refused is small.
    let start = shipped::start(first as u16, second as u16, length as u8, carry_in);
    (outcome, run_shipped_in(&mut same_main, &mut same_local, start, fence).1)
}
