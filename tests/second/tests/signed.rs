//! The signed read-out of request 2: every sign digit, both ends of the numbers, each refusal and their order, and what
//! comes back of a number and of a field. The engine works by text; what is expected of it is worked here by arithmetic.

mod common;

use common::{chosen_numbers, each_occurs, one_of, Kind, LEAST, MOST};
use second::random::Random;
use second::signed::{read_signed, write_signed};
use std::collections::BTreeSet;

type Digits = [u8; 15];
type Field = [u8; 8];

/// "A, C, E, F plus, B, D minus": what a sign digit makes of 1, and 0 below A.
const SIGNS: [i64; 16] = [0, 0, 0, 0, 0, 0, 0, 0, 0, 0, 1, -1, 1, -1, 1, 1];

/// Two digits to a byte, and the sign in the last place.
fn field_of(digits: Digits, sign: u8) -> Field {
    std::array::from_fn(|n| 16 * digits[2 * n] + digits.get(2 * n + 1).unwrap_or(&sign))
}

/// The last fifteen digits of a number, with zeros in front.
fn digits_of(number: i64) -> Digits {
    std::array::from_fn(|n| (number.unsigned_abs() / 10u64.pow(14 - n as u32) % 10) as u8)
}

fn is_good(digits: Digits) -> bool {
    digits.iter().all(|digit| *digit <= 9)
}

/// What reading must answer.
fn reading(digits: Digits, sign: u8) -> Result<i64, u8> {
    let size = digits.iter().fold(0, |size, digit| 10 * size + i64::from(*digit));
    match (is_good(digits), SIGNS[usize::from(sign)]) {
        (false, _) => Err(25),
        (true, 0) => Err(26),
        (true, one) => Ok(one * size),
    }
}

/// What writing must answer, with the field after it.
fn writing(number: i64, before: Field) -> (Result<(), u8>, Field) {
    match number {
        0..=MOST => (Ok(()), field_of(digits_of(number), 0xC)),
        LEAST..=-1 => (Ok(()), field_of(digits_of(number), 0xD)),
        _ => (Err(27), before),
    }
}

/// A write to this field, and the field after it.
fn written(number: i64, mut field: Field) -> (Result<(), u8>, Field) {
    (write_signed(number, &mut field), field)
}

/// A number, and what writing it answered.
type Written = (i64, Result<(), u8>);

fn written_and_read(number: i64, before: Field) -> Written {
    let (answer, after) = written(number, before);
    assert_eq!((answer, after), writing(number, before), "{number}");
    if answer.is_ok() {
        assert_eq!(read_signed(&after), Ok(number));
    }
    (number, answer)
}

// ---- fields and numbers chosen

#[test]
fn fields_worked_by_hand() {
    let cases = [
        (0, [0x00, 0x00, 0x00, 0x00, 0x00, 0x00, 0x00, 0x0C]),
        (1, [0x00, 0x00, 0x00, 0x00, 0x00, 0x00, 0x00, 0x1C]),
        (-1, [0x00, 0x00, 0x00, 0x00, 0x00, 0x00, 0x00, 0x1D]),
        (10, [0x00, 0x00, 0x00, 0x00, 0x00, 0x00, 0x01, 0x0C]),
        (-42, [0x00, 0x00, 0x00, 0x00, 0x00, 0x00, 0x04, 0x2D]),
        (123_456_789_012_345, [0x12, 0x34, 0x56, 0x78, 0x90, 0x12, 0x34, 0x5C]),
        (-678_901_234_567_890, [0x67, 0x89, 0x01, 0x23, 0x45, 0x67, 0x89, 0x0D]),
        (100_000_000_000_000, [0x10, 0x00, 0x00, 0x00, 0x00, 0x00, 0x00, 0x0C]),
        (999_999_999_999_999, [0x99, 0x99, 0x99, 0x99, 0x99, 0x99, 0x99, 0x9C]),
        (-999_999_999_999_999, [0x99, 0x99, 0x99, 0x99, 0x99, 0x99, 0x99, 0x9D]),
    ];
    for (number, field) in cases {
        assert_eq!(read_signed(&field), Ok(number));
        assert_eq!(written(number, [0xEE; 8]), (Ok(()), field));
    }
}

#[test]
fn all_sixteen_sign_digits() {
    for size in [0, 1, 9, 10, 100_000_000_000_000, 123_456_789_012_345, MOST - 1, MOST] {
        let of = |sign: u8| read_signed(&field_of(digits_of(size), sign));
        for below_a in 0..=9 {
            assert_eq!(of(below_a), Err(26), "{size} and {below_a}");
        }
        for plus in [0xA, 0xC, 0xE, 0xF] {
            assert_eq!(of(plus), Ok(size), "{size} and {plus:X}");
        }
        for minus in [0xB, 0xD] {
            assert_eq!(of(minus), Ok(-size), "{size} and {minus:X}");
        }
    }
}

#[test]
fn each_digit_in_each_place() {
    for place in 0..15 {
        for digit in 0..=9 {
            let mut digits = [0; 15];
            digits[place] = digit;
            let size = i64::from(digit) * 10i64.pow(14 - place as u32);
            assert_eq!(read_signed(&field_of(digits, 0xC)), Ok(size));
            assert_eq!(read_signed(&field_of(digits, 0xD)), Ok(-size));
            assert_eq!(written(size, [0xEE; 8]), (Ok(()), field_of(digits, 0xC)));
            assert_eq!(written(-size, [0xEE; 8]), (Ok(()), field_of(digits, if digit == 0 { 0xC } else { 0xD })));
        }
    }
}

#[test]
fn numbers_of_at_most_fifteen_digits_are_written_and_read_back() {
    let numbers = chosen_numbers();
    assert!([LEAST - 1, LEAST, -1, 0, 1, MOST, MOST + 1].iter().all(|number| numbers.contains(number)));
    for number in numbers {
        for before in [[0x00; 8], [0xFF; 8], [0x12, 0x34, 0x56, 0x78, 0x9A, 0xBC, 0xDE, 0x5C]] {
            let (_, answer) = written_and_read(number, before);
            assert_eq!(answer.is_ok(), number.unsigned_abs() < 10u64.pow(15), "{number}");
        }
    }
}

#[test]
fn minus_zero_reads_as_0_and_is_written_with_c() {
    for sign in [0xB, 0xD] {
        let field = field_of([0; 15], sign);
        assert_eq!(read_signed(&field), Ok(0));
        assert_eq!(written(0, field), (Ok(()), [0, 0, 0, 0, 0, 0, 0, 0x0C]));
    }
}

// ---- refusals

#[test]
fn a_bad_digit_in_each_place_comes_before_any_sign() {
    for base in [[0; 15], [9; 15], digits_of(123_456_789_012_345)] {
        for place in 0..15 {
            for bad in 10..=15 {
                let mut digits = base;
                digits[place] = bad;
                for sign in 0..=15 {
                    assert_eq!(read_signed(&field_of(digits, sign)), Err(25), "{digits:?} and {sign:X}");
                }
            }
        }
    }
}

/// The bytes of a field of some length, by place and length, and what reading answers where that is 8.
type Filled = (fn(usize, usize) -> u8, Result<i64, u8>);

const FILLED: [Filled; 4] = [
    (|place, length| if place + 1 == length { 0x1C } else { 0x11 }, Ok(111_111_111_111_111)),
    (|place, _| if place == 7 { 0x2D } else { 0x22 }, Ok(-222_222_222_222_222)),
    (|_, _| 0xF1, Err(25)),
    (|_, _| 0x11, Err(26)),
];

#[test]
fn a_field_of_another_length_is_refused_before_all_else() {
    // 264 is 8 in its last eight bits.
    for length in (0..=20).chain([264]) {
        for (byte, answer) in FILLED {
            let before: Vec<u8> = (0..length).map(|place| byte(place, length)).collect();
            assert_eq!(read_signed(&before), if length == 8 { answer } else { Err(33) }, "{before:02X?}");
            for number in [0, 1, -1, MOST, LEAST, MOST + 1, LEAST - 1, i64::MIN, i64::MAX] {
                let mut field = before.clone();
                let answer = write_signed(number, &mut field);
                if length == 8 {
                    assert_eq!(answer, if (LEAST..=MOST).contains(&number) { Ok(()) } else { Err(27) });
                } else {
                    assert_eq!((answer, field), (Err(33), before.clone()), "{number} to {length} bytes");
                }
            }
        }
    }
}

// ---- fields and numbers drawn

/// A field that was read, and the field that its number was written to.
struct Drawn {
    digits: Digits,
    sign: u8,
    answer: Result<i64, u8>,
    again: Option<Field>,
}

/// Zeros and then digits up to 9, or nines; in half of them some are put over 9.
fn draw_digits(random: &mut Random) -> Digits {
    let zeros = one_of(random, &[0, 0, 5, 10, 14, 15]);
    let least = one_of(random, &[0, 0, 9]);
    let mut digits = [0; 15];
    digits[zeros..].fill_with(|| least + random.below(10 - u64::from(least)) as u8);
    for _ in 0..one_of(random, &[0, 0, 0, 1, 2, 15]) {
        digits[random.below(15) as usize] = 10 + random.below(6) as u8;
    }
    digits
}

/// "Writing what was read returns the bytes only for signs C and D, minus zero excepted."
fn returns(digits: Digits, sign: u8) -> bool {
    sign == 0xC || sign == 0xD && digits != [0; 15]
}

fn read_and_written(digits: Digits, sign: u8) -> Drawn {
    let field = field_of(digits, sign);
    let answer = read_signed(&field);
    assert_eq!(answer, reading(digits, sign), "{field:02X?}");
    let again = answer.ok().map(|number| {
        let (answer, after) = written(number, [0xEE; 8]);
        assert_eq!(answer, Ok(()), "{number} was read");
        assert_eq!(after == field, returns(digits, sign), "{field:02X?} to {after:02X?}");
        after
    });
    Drawn { digits, sign, answer, again }
}

fn bad_places(case: &Drawn) -> Vec<usize> {
    (0..15).filter(|place| case.digits[*place] > 9).collect()
}

fn comes_back(case: &Drawn, sign: u8) -> bool {
    case.sign == sign && case.again == Some(field_of(case.digits, sign))
}

fn comes_back_otherwise(case: &Drawn, sign: u8) -> bool {
    case.sign == sign && case.again.is_some_and(|again| again != field_of(case.digits, sign))
}

const FIELDS: [Kind<Drawn>; 19] = [
    ("plus", |case| case.answer.is_ok_and(|number| number > 0)),
    ("minus", |case| case.answer.is_ok_and(|number| number < 0)),
    ("fifteen digits", |case| case.answer.is_ok_and(|number| number.abs() > MOST / 10)),
    ("one digit", |case| case.answer.is_ok_and(|number| (1..10).contains(&number.abs()))),
    ("plus zero", |case| case.answer == Ok(0) && SIGNS[usize::from(case.sign)] == 1),
    ("minus zero of B", |case| case.answer == Ok(0) && case.sign == 0xB),
    ("minus zero of D", |case| case.answer == Ok(0) && case.sign == 0xD),
    ("bad in the first place alone", |case| bad_places(case) == [0]),
    ("bad in the fifteenth place alone", |case| bad_places(case) == [14]),
    ("bad in many places", |case| bad_places(case).len() > 7),
    ("bad, with a good sign", |case| case.answer == Err(25) && case.sign > 9),
    ("bad, with a bad sign", |case| case.answer == Err(25) && case.sign < 10),
    ("a bad sign alone", |case| case.answer == Err(26)),
    ("C comes back", |case| comes_back(case, 0xC)),
    ("D comes back", |case| comes_back(case, 0xD)),
    ("A does not", |case| comes_back_otherwise(case, 0xA)),
    ("B does not", |case| comes_back_otherwise(case, 0xB)),
    ("E does not", |case| comes_back_otherwise(case, 0xE)),
    ("F does not", |case| comes_back_otherwise(case, 0xF)),
];

#[test]
fn drawn_fields_are_read_and_come_back_by_c_and_d_alone() {
    let random = &mut Random::new(29);
    let draw = |_| read_and_written(draw_digits(random), random.below(16) as u8);
    let seen: Vec<Drawn> = (0..10_000).map(draw).collect();
    each_occurs(&FIELDS, &seen);
    let signs: BTreeSet<(u8, bool)> = seen.iter().map(|case| (case.sign, is_good(case.digits))).collect();
    assert_eq!(signs.len(), 32, "each sign with good digits and with bad ones");
}

/// Of every size, or next to a power of ten.
fn draw_number(random: &mut Random) -> i64 {
    let any = random.next() as i64 >> random.below(64);
    let power = one_of(random, &[1, -1]) * 10i64.pow(random.below(19) as u32);
    let near = power + one_of(random, &[-2, -1, 0, 1, 2]);
    one_of(random, &[any, near])
}

const NUMBERS: [Kind<Written>; 7] = [
    ("zero", |case| case.0 == 0),
    ("plus", |case| case.0 > 0 && case.1.is_ok()),
    ("minus", |case| case.0 < 0 && case.1.is_ok()),
    ("the greatest", |case| case.0 == MOST),
    ("the least", |case| case.0 == LEAST),
    ("too large", |case| case.0 > 0 && case.1 == Err(27)),
    ("too large, and minus", |case| case.0 < 0 && case.1 == Err(27)),
];

#[test]
fn drawn_numbers_are_written_and_read_back() {
    let random = &mut Random::new(31);
    let draw = |_| written_and_read(draw_number(random), std::array::from_fn(|_| random.next() as u8));
    let seen: Vec<Written> = (0..10_000).map(draw).collect();
    each_occurs(&NUMBERS, &seen);
    let sizes: BTreeSet<(usize, bool)> =
        seen.iter().map(|(n, _)| (n.unsigned_abs().to_string().len(), *n < 0)).collect();
    assert_eq!(sizes.len(), 38, "1 to 19 digits, plus and minus");
}
