//! The decimal entry by whole-number arithmetic: first field += second field. It runs no microprogram,
//! so it has no count of cycles.

use crate::bits::{both_decimal, from_digits, high_digit, low_digit};
use crate::cycle::storage_fits;
use crate::session::Fence;
use crate::Refusal;

#[derive(Clone, Copy, Debug, PartialEq, Eq)]
pub enum Outcome {
    Summed { carry: bool },
    BadDigit,
    Refused { number: Refusal },
}

pub const LONGEST_FIELD: usize = 16;

/// Two packed unsigned fields of one length, each start its lowest address. Only a sum changes storage. The fence is round all
/// of main storage, which 1 has found not empty: 32 is not given.
pub fn add_decimal(
    main: &mut [u8],
    local: &[u8],
    first: usize,
    second: usize,
    length: usize,
    carry_in: bool,
) -> Outcome {
    let all = Fence::round(main);
    add_decimal_in(main, local, first, second, length, carry_in, all)
}

/// The same in a fence.
pub fn add_decimal_in(
    main: &mut [u8],
    local: &[u8],
    first: usize,
    second: usize,
    length: usize,
    carry_in: bool,
    fence: Fence,
) -> Outcome {
    let (augend, addend) = match numbers(main, local, fence, [first, second], length, value) {
        Ok(Some(numbers)) => numbers,
        Ok(None) => return Outcome::BadDigit,
        Err(number) => return Outcome::Refused { number },
    };
    // 32 digits are under 107 bits, so no sum here leaves 128.
    let total = augend + addend + u128::from(carry_in);
    let bound = 10u128.pow(2 * length as u32);
    write_value(&mut main[first..first + length], total % bound);
    Outcome::Summed { carry: total >= bound }
}

/// The numbers in both fields, none where one is bad; or what refuses the fields.
pub(crate) fn numbers<T>(
    main: &[u8],
    local: &[u8],
    fence: Fence,
    [first, second]: [usize; 2],
    length: usize,
    value: fn(&[u8]) -> Option<T>,
) -> Result<Option<(T, T)>, Refusal> {
    match refusal(main, local, fence, first, second, length) {
        0 => Ok(value(&main[first..first + length]).zip(value(&main[second..second + length]))),
        number => Err(number),
    }
}

/// The first of 1, 32, 12, 13, 14 that is given, or 0.
fn refusal(main: &[u8], local: &[u8], fence: Fence, first: usize, second: usize, length: usize) -> Refusal {
    let checks = [
        (1, !storage_fits(main, local)),
        (32, !fence.stands_in(main.len())),
        (12, !(1..=LONGEST_FIELD).contains(&length)),
        (13, !fence.holds(first, length) || !fence.holds(second, length)),
        (14, first != second && first.abs_diff(second) < length),
    ];
    checks.iter().find(|(_, given)| *given).map_or(0, |(number, _)| *number)
}

/// The number in a field, or None where a digit is over 9.
fn value(field: &[u8]) -> Option<u128> {
    if !field.iter().all(|byte| both_decimal(*byte)) {
        return None;
    }
    let digits = field.iter().flat_map(|byte| [high_digit(*byte), low_digit(*byte)]);
    Some(digits.fold(0, |number, digit| number * 10 + u128::from(digit)))
}

/// Lowest address last: it holds the highest digits.
fn write_value(field: &mut [u8], number: u128) {
    let mut rest = number;
    for byte in field.iter_mut().rev() {
        let pair = (rest % 100) as u8;
        *byte = from_digits(pair / 10, pair % 10);
        rest /= 100;
    }
}
