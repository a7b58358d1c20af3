//! A run: cycles until stop, refusal or budget.

use crate::cycle::{cycle_in, sizes_fit, Answer};
use crate::reading::Reading;
use crate::session::Fence;
use crate::state::State;
use crate::Refusal;

#[derive(Clone, Copy, Debug, PartialEq, Eq)]
pub enum Ending {
    Stopped,
    /// As in a cycle's answer.
    Refused {
        number: Refusal,
        field: u8,
    },
    Spent,
}

impl Ending {
    /// That of a run whose last cycle answers so.
    pub fn with(last: Answer) -> Ending {
        match last {
            Answer::Ran => Ending::Spent,
            Answer::Stopped => Ending::Stopped,
            Answer::Refused { number, field } => Ending::Refused { number, field },
        }
    }
}

pub const MOST_BUDGET: u64 = 1_000_000;

/// The ending and how many cycles ran; the state and storage are those after that many. The fence is round all of main
/// storage.
pub fn run(
    reading: Reading,
    store: &[u64],
    main: &mut [u8],
    local: &mut [u8],
    state: &mut State,
    budget: u64,
) -> (Ending, u64) {
    let all = Fence::round(main);
    run_in(reading, store, main, local, state, budget, all)
}

/// The same in a fence, which is not checked here.
pub fn run_in(
    reading: Reading,
    store: &[u64],
    main: &mut [u8],
    local: &mut [u8],
    state: &mut State,
    budget: u64,
    fence: Fence,
) -> (Ending, u64) {
    if !sizes_fit(store, main, local) {
        return (Ending::Refused { number: 1, field: 0 }, 0);
    }
    if budget > MOST_BUDGET {
        return (Ending::Refused { number: 22, field: 0 }, 0);
    }
    for count in 0..budget {
        let answer = cycle_in(reading, store, main, local, state, fence);
        if answer != Answer::Ran {
            return (Ending::with(answer), count);
        }
    }
    (Ending::Spent, budget)
}
