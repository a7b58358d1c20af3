//! AP and SP of request 3 by whole-number arithmetic: first field += or -= second field. It runs no microprogram; how
//! many cycles the shipped one takes is by its paper's table.

use crate::bits::both_decimal;
use crate::decimal::numbers;
use crate::session::Fence;
use crate::signed::{put_number, sign_and_size};
use crate::Refusal;

#[derive(Clone, Copy, Debug, PartialEq, Eq)]
pub enum Outcome {
    Done { overflow: bool },
    Bad,
    Refused { number: Refusal },
}

/// Two packed fields with signs, of one length, each start its lowest address. Only where it is done has storage changed.
pub fn add_signed(
    main: &mut [u8],
    local: &[u8],
    first: usize,
    second: usize,
    length: usize,
    subtract: bool,
) -> Outcome {
    let (augend, addend) = match numbers(main, local, Fence::round(main), [first, second], length, value) {
        Ok(Some(numbers)) => numbers,
        Ok(None) => return Outcome::Bad,
        Err(number) => return Outcome::Refused { number },
    };
    // 31 digits are under 103 bits, so nothing here leaves 127.
    let total = if subtract { augend - addend } else { augend + addend };
    // "The exact signed result, on overflow its last digits, .. zero positive unless digits overflowed, in which case the
    // sign is that of the true sum": either way the sign is the total's.
    put_number(total, &mut main[first..first + length]);
    Outcome::Done { overflow: total.abs() >= 10i128.pow(2 * length as u32 - 1) }
}

/// The number in a field, or None where a digit or the sign is bad.
fn value(field: &[u8]) -> Option<i128> {
    let (minus, size) = sign_and_size(field).ok()?;
    Some(if minus { -size } else { size })
}

/// The paper's exact count of cycles for what is not refused, by storage as it was before.
pub fn cycles(main: &[u8], first: usize, second: usize, length: usize, subtract: bool) -> u64 {
    let (first, second) = (&main[first..first + length], &main[second..second + length]);
    let n = length as u64;
    match (sign_and_size(first), sign_and_size(second)) {
        (Ok((minus, size)), Ok((other_minus, other_size))) => {
            // Minus zero counts as minus here: the words compare signs before they know any size.
            let difference = subtract ^ minus ^ other_minus;
            if difference && size < other_size {
                23 * n + 25
            } else {
                14 * n + 16
            }
        }
        _ => until_bad(first, second),
    }
}

/// At each place the second field's byte is tested and then the first field's; the last bytes have a sign and come last.
fn until_bad(first: &[u8], second: &[u8]) -> u64 {
    let last = first.len() - 1;
    for (k, (byte, other)) in (0..).zip(first[..last].iter().zip(second)) {
        if !both_decimal(*other) {
            return 5 * k + 4;
        }
        if !both_decimal(*byte) {
            return 5 * k + 6;
        }
    }
    let n = first.len() as u64;
    if sign_and_size(&second[last..]).is_err() {
        5 * n + 1
    } else {
        5 * n + 7
    }
}
