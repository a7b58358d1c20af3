//! How often each answer was given, by the number that stands for it in a digest.

use crate::cycle::Answer;
use crate::run::Ending;

// A refusal is at its number.
pub const TAKEN: usize = 0;
pub const RAN: usize = 100;
pub const STOPPED: usize = 101;
pub const SPENT: usize = 102;

/// The number of a cycle's answer, and the field that 10 names.
pub fn of_cycle(answer: Answer) -> (usize, u8) {
    match answer {
        Answer::Ran => (RAN, 0),
        Answer::Stopped => (STOPPED, 0),
        Answer::Refused { number, field } => (usize::from(number), field),
    }
}

/// The same of a run's ending.
pub fn of_run(ending: Ending) -> (usize, u8) {
    match ending {
        Ending::Stopped => (STOPPED, 0),
        Ending::Refused { number, field } => (usize::from(number), field),
        Ending::Spent => (SPENT, 0),
    }
}

/// How often each number was the answer.
pub struct Counts(pub [u32; 103]);

impl Counts {
    pub fn new() -> Counts {
        Counts([0; 103])
    }

    /// An answer's number, counted.
    pub fn count(&mut self, number: usize) -> u64 {
        self.0[number] += 1;
        number as u64
    }

    /// The same with its field, as it is mixed.
    pub fn count_with(&mut self, (number, field): (usize, u8)) -> u64 {
        self.count(number) * 256 + u64::from(field)
    }

    pub fn line(&self, name: &str, number: usize) -> String {
        format!("{name} {}\n", self.0[number])
    }

    pub fn refused(&self, number: usize) -> String {
        self.line(&format!("refused {number}"), number)
    }
}
