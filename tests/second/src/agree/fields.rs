//! Two fields in storage, as `agree_decimal` and `agree_apsp` both draw them: the ends of storage, one field twice, and each
//! refusal.

use crate::bits::from_digits;

/// How much storage is lent, the two starts, the length, and the carry in or whether to subtract.
pub struct Trial {
    pub main: usize,
    pub local: usize,
    pub first: usize,
    pub second: usize,
    pub length: usize,
    pub on: bool,
}

const MAIN_SIZES: [usize; 8] = [48, 48, 48, 48, 48, 48, 300, 65536];

/// Near the start of storage, or near its end so that a field ends there or runs over.
fn field_start(main: usize, x: u64) -> usize {
    let place = (x / 4 % 34) as usize;
    if x.is_multiple_of(4) {
        main.saturating_sub(place)
    } else {
        place
    }
}

fn drawn_length(x: u64) -> usize {
    if x.is_multiple_of(16) {
        (x / 16 % 20) as usize
    } else {
        (x / 16 % 16 + 1) as usize
    }
}

pub fn drawn(a: u64, b: u64) -> Trial {
    let main = MAIN_SIZES[(a >> 8) as usize % 8];
    let mut trial = Trial {
        main,
        local: 256,
        first: field_start(main, b),
        second: field_start(main, b >> 16),
        length: drawn_length(a >> 16),
        on: a >> 12 & 1 == 1,
    };
    match a % 64 {
        0 => trial.main = 0,
        1 => trial.main = 65537,
        2 => trial.local = 255,
        3 => trial.local = 257,
        4 => trial.length = usize::MAX,
        5 => trial.first = usize::MAX,
        6 => trial.second = usize::MAX - 7,
        7..=14 => trial.second = trial.first,
        _ => (),
    }
    trial
}

/// Two digits, each at most 9.
pub fn digits(x: u64) -> u8 {
    from_digits((x / 16 % 10) as u8, (x % 10) as u8)
}
