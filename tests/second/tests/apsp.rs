//! AP and SP of request 3: the words on this engine's own cycles beside whole-number arithmetic and the paper's counts,
//! and all three beside answers worked by hand.

mod common;

use common::{draw_bytes, each_occurs, one_of, Kind};
use second::apsp::{add_signed, cycles, Outcome};
use second::decimal::{self, add_decimal};
use second::random::Random;
use second::shipped::{run_apsp, start_apsp};
use std::collections::BTreeSet;
use std::ops::Range;

const SIGNS: [u8; 6] = [0xA, 0xB, 0xC, 0xD, 0xE, 0xF];
const BOTH: [bool; 2] = [false, true];

const DONE: Outcome = Outcome::Done { overflow: false };
const OVERFLOW: Outcome = Outcome::Done { overflow: true };

/// A storage with two fields of one length in it, and which operation is done with them.
#[derive(Clone, Debug)]
struct Case {
    main: Vec<u8>,
    first: usize,
    second: usize,
    length: usize,
    subtract: bool,
}

impl Case {
    /// Two fields with other bytes around them.
    fn apart(a: &[u8], b: &[u8], subtract: bool) -> Case {
        let main = [&[0x5A], a, &[0xC3], b, &[0x99]].concat();
        Case { main, first: 1, second: a.len() + 2, length: a.len(), subtract }
    }

    /// One field for both.
    fn same(a: &[u8], subtract: bool) -> Case {
        Case { main: [&[0x5A], a, &[0x99]].concat(), first: 1, second: 1, length: a.len(), subtract }
    }

    fn field_at(&self, start: usize) -> &[u8] {
        &self.main[start..start + self.length]
    }
}

/// What came of a case: the answer, the count of cycles, and the first field after it.
#[derive(Debug, PartialEq)]
struct Came {
    outcome: Outcome,
    count: u64,
    field: Vec<u8>,
}

fn local() -> Vec<u8> {
    (0..=255).collect()
}

/// The case by whole numbers and the paper's count. Nothing but the first field has changed, nor that where it is bad.
fn worked(case: &Case) -> (Came, Vec<u8>) {
    let Case { ref main, first, second, length, subtract } = *case;
    let mut after = main.clone();
    let outcome = add_signed(&mut after, &local(), first, second, length, subtract);
    let field = after[first..first + length].to_vec();
    let mut kept = after.clone();
    if outcome != Outcome::Bad {
        kept[first..first + length].copy_from_slice(case.field_at(first));
    }
    assert!(kept == *main, "{outcome:?} and other bytes changed");
    (Came { outcome, count: cycles(main, first, second, length, subtract), field }, after)
}

/// The same by the words: answer, count, and all of both storages.
fn compared(case: &Case) -> Came {
    let Case { ref main, first, second, length, subtract } = *case;
    let (came, after) = worked(case);
    let (mut ran_main, mut ran_local) = (main.clone(), local());
    let start = start_apsp(first as u16, second as u16, length as u8, subtract);
    let (outcome, count) = run_apsp(&mut ran_main, &mut ran_local, start);
    let ran = Came { outcome, count, field: ran_main[first..first + length].to_vec() };
    let (a, b) = (case.field_at(first), case.field_at(second));
    assert_eq!(ran, came, "{a:02X?} at {first:04X}, {b:02X?} at {second:04X}, subtract {subtract}");
    assert!(
        ran_main == after && ran_local == local(),
        "other bytes: {a:02X?} at {first:04X}, {b:02X?} at {second:04X}"
    );
    came
}

/// The greatest size of a field.
fn most(length: usize) -> u128 {
    10u128.pow(2 * length as u32 - 1) - 1
}

/// A size and a sign as a field.
fn field_of(size: u128, sign: u8, length: usize) -> Vec<u8> {
    let digit = |place: usize| (size / 10u128.pow(place as u32) % 10) as u8;
    let low = |byte: usize| if byte == 0 { sign } else { digit(2 * byte - 1) };
    (0..length).rev().map(|byte| 16 * digit(2 * byte) + low(byte)).collect()
}

/// A field with another digit at one of its places, of which the sign's is the last.
fn with_digit(field: &[u8], place: usize, digit: u8) -> Vec<u8> {
    let mut field = field.to_vec();
    let byte = &mut field[place / 2];
    *byte = if place.is_multiple_of(2) { *byte % 16 + 16 * digit } else { *byte / 16 * 16 + digit };
    field
}

fn is_minus(sign: u8) -> bool {
    matches!(sign, 0xB | 0xD)
}

/// Every pair of two lists.
fn pairs<A: Copy, B: Copy>(one: impl IntoIterator<Item = A>, other: impl IntoIterator<Item = B>) -> Vec<(A, B)> {
    let others: Vec<B> = other.into_iter().collect();
    one.into_iter().flat_map(|a| others.iter().map(move |b| (a, *b))).collect()
}

// ---- answers worked by hand

/// First field, second field, subtract; the first field after it, the answer and the count.
type Answer<'a> = (&'a [u8], &'a [u8], bool, &'a [u8], Outcome, u64);

fn hold(answers: &[Answer]) {
    for &(a, b, subtract, field, outcome, count) in answers {
        let came = compared(&Case::apart(a, b, subtract));
        assert_eq!(came, Came { outcome, count, field: field.to_vec() }, "{a:02X?} and {b:02X?}, subtract {subtract}");
    }
}

#[test]
fn the_papers_own_sums() {
    hold(&[
        (&[0x13, 0x8C], &[0x11, 0x7C], false, &[0x25, 0x5C], DONE, 44),
        (&[0x19, 0x0C], &[0x20, 0x0C], true, &[0x01, 0x0D], DONE, 71),
        (&[0x5D], &[0x5D], false, &[0x0D], OVERFLOW, 30),
        (&[0x0D], &[0x0D], false, &[0x0C], DONE, 30),
        (&[0x5D], &[0x5D], true, &[0x0C], DONE, 30),
    ]);
}

#[test]
fn sums_worked_by_hand() {
    hold(&[
        // The six signs, and the preferred ones for them.
        (&[0x4A], &[0x3E], false, &[0x7C], DONE, 30),
        (&[0x4F], &[0x3B], true, &[0x7C], DONE, 30),
        (&[0x4B], &[0x3D], false, &[0x7D], DONE, 30),
        // A difference above zero and below, with either sign first.
        (&[0x4C], &[0x3D], false, &[0x1C], DONE, 30),
        (&[0x4D], &[0x3C], false, &[0x1D], DONE, 30),
        (&[0x3C], &[0x4D], false, &[0x1D], DONE, 48),
        (&[0x3D], &[0x4D], true, &[0x1C], DONE, 48),
        // Overflow with no digit left, and with some.
        (&[0x9C], &[0x1C], false, &[0x0C], OVERFLOW, 30),
        (&[0x9D], &[0x1C], true, &[0x0D], OVERFLOW, 30),
        (&[0x99, 0x9D], &[0x99, 0x9D], false, &[0x99, 0x8D], OVERFLOW, 44),
        // Minus zero has another sign than 5, so its sum with 5 is a difference of sizes.
        (&[0x0D], &[0x5C], false, &[0x5C], DONE, 48),
        (&[0x0C], &[0x5C], false, &[0x5C], DONE, 30),
        // A last digit 0 does not make a number zero.
        (&[0x01, 0x0D], &[0x01, 0x0D], false, &[0x02, 0x0D], DONE, 44),
        // A borrow through all digits.
        (&[0x10, 0x00, 0x0C], &[0x00, 0x00, 0x1C], true, &[0x09, 0x99, 0x9C], DONE, 58),
        (&[0x00, 0x00, 0x1C], &[0x10, 0x00, 0x0C], true, &[0x09, 0x99, 0x9D], DONE, 94),
        // Bad in the first field's first byte, and in the second field's last.
        (&[0x1A, 0x0C], &[0x00, 0x1C], false, &[0x1A, 0x0C], Outcome::Bad, 6),
        (&[0x10, 0x0C], &[0x00, 0x19], false, &[0x10, 0x0C], Outcome::Bad, 11),
    ]);
}

#[test]
fn counts_of_the_papers_table() {
    let of = |a: &[u8], b: &[u8]| worked(&Case::apart(a, b, true)).0.count;
    // "n = 1: 30 or 48; n = 16: 240 or 393."
    for (n, once, again) in [(1, 30, 48), (16, 240, 393)] {
        let (one, two) = (field_of(1, 0xC, n), field_of(2, 0xC, n));
        assert_eq!((of(&two, &one), of(&two, &two), of(&one, &two)), (once, once, again));
    }
    let good = field_of(0, 0xC, 16);
    for (k, by_second, by_first) in [(0, 4, 6), (1, 9, 11), (14, 74, 76), (15, 81, 87)] {
        let bad = with_digit(&good, 2 * k, 10);
        assert_eq!((of(&good, &bad), of(&bad, &good), of(&bad, &bad)), (by_second, by_first, by_second));
    }
}

#[test]
fn refusals_are_those_of_the_unsigned_entry() {
    let starts = [0, 1, 7, 8, 9, 15, 16, 17, 32, usize::MAX];
    let sizes = [(0, 256), (16, 255), (16, 256), (32, 256), (65_537, 256), (32, 257)];
    let mut given = BTreeSet::new();
    for ((size, local), (first, second)) in pairs(sizes, pairs(starts, starts)) {
        let local = vec![0; local];
        for length in [0, 1, 2, 8, 16, 17, usize::MAX] {
            let expected = match add_decimal(&mut vec![0; size], &local, first, second, length, false) {
                decimal::Outcome::Refused { number } => number,
                _ => 0,
            };
            // One byte of this is zero, and more are bad, so it never changes.
            let mut main = vec![0x0C; size];
            let number = match add_signed(&mut main, &local, first, second, length, false) {
                Outcome::Refused { number } => number,
                _ => 0,
            };
            assert_eq!(number, expected, "{length} bytes at {first} and {second} of {size}");
            assert!(main == vec![0x0C; size]);
            given.insert(number);
        }
    }
    assert_eq!(given, [0, 1, 12, 13, 14].into());
}

// ---- all of a kind

#[test]
fn every_byte_and_every_other() {
    for (a, b) in pairs(0..=255, 0..=255) {
        for subtract in BOTH {
            compared(&Case::apart(&[a], &[b], subtract));
        }
    }
}

#[test]
fn every_byte_with_itself() {
    for (byte, subtract) in pairs(0..=255, BOTH) {
        let alone = Case { main: vec![byte], first: 0, second: 0, length: 1, subtract };
        assert_eq!(compared(&alone), compared(&Case::same(&[byte], subtract)));
    }
}

#[test]
fn every_pair_of_sign_digits() {
    for length in [1, 2, 3, 16] {
        let top = most(length);
        let sizes = [(0, 0), (0, 7), (7, 0), (7, 7), (4, 3), (3, 4), (top, top), (top, 1), (1, top), (top - 1, top)];
        for ((size, other), (sign, other_sign)) in pairs(sizes, pairs(0..=15, 0..=15)) {
            let (a, b) = (field_of(size, sign, length), field_of(other, other_sign, length));
            for subtract in BOTH {
                let came = compared(&Case::apart(&a, &b, subtract));
                assert_eq!(came.outcome == Outcome::Bad, sign < 10 || other_sign < 10, "{a:02X?} and {b:02X?}");
            }
        }
    }
}

/// The wrong digits of a place: over 9, or below A where it is the sign's.
fn wrong_digits(place: usize, length: usize) -> Range<u8> {
    if place + 1 == 2 * length {
        0..10
    } else {
        10..16
    }
}

/// The counts by the paper where that byte is bad in the second field, and in the first.
fn counts_of_bad(byte: usize, length: usize) -> [u64; 2] {
    let counts = if byte + 1 < length { [5 * byte + 4, 5 * byte + 6] } else { [5 * length + 1, 5 * length + 7] };
    counts.map(|count| count as u64)
}

#[test]
fn a_bad_digit_or_sign_in_any_place() {
    for length in 1..=16 {
        let good = field_of(most(length) / 7, 0xD, length);
        for (place, subtract) in pairs(0..2 * length, BOTH) {
            let [by_second, by_first] = counts_of_bad(place / 2, length);
            for digit in wrong_digits(place, length) {
                let bad = with_digit(&good, place, digit);
                let came = |count, field: &[u8]| Came { outcome: Outcome::Bad, count, field: field.to_vec() };
                assert_eq!(compared(&Case::apart(&good, &bad, subtract)), came(by_second, &good));
                assert_eq!(compared(&Case::apart(&bad, &good, subtract)), came(by_first, &bad));
                assert_eq!(compared(&Case::same(&bad, subtract)), came(by_second, &bad));
            }
        }
    }
}

#[test]
fn of_two_bad_bytes_the_one_tested_first_ends_it() {
    for length in 1..=16 {
        let good = field_of(most(length) / 3, 0xC, length);
        let wrong = |place| with_digit(&good, place, wrong_digits(place, length).start);
        for (place, other) in pairs(0..2 * length, 0..2 * length) {
            let came = compared(&Case::apart(&wrong(place), &wrong(other), false));
            let ([by_second, _], [_, by_first]) = (counts_of_bad(other / 2, length), counts_of_bad(place / 2, length));
            assert_eq!((came.outcome, came.count), (Outcome::Bad, by_second.min(by_first)));
        }
    }
}

/// Every pair of good signs, and either operation.
fn signs_and_operations() -> Vec<((u8, u8), bool)> {
    pairs(pairs(SIGNS, SIGNS), BOTH)
}

/// Whether sizes with these signs are taken one from the other.
fn is_difference((sign, other): (u8, u8), subtract: bool) -> bool {
    subtract ^ is_minus(sign) ^ is_minus(other)
}

#[test]
fn overflow_keeps_the_last_digits_and_the_true_sign() {
    for length in 1..=16 {
        let (top, half) = (most(length), most(length).div_ceil(2));
        // Two sizes, and what is left of their sum.
        let sizes = [(top, 1, 0), (1, top, 0), (half, half, 0), (top, 2, 1), (half, half + 1, 1), (top, top, top - 1)];
        let sums = signs_and_operations().into_iter().filter(|(signs, subtract)| !is_difference(*signs, *subtract));
        for (((sign, other_sign), subtract), (size, other, left)) in pairs(sums, sizes) {
            let (a, b) = (field_of(size, sign, length), field_of(other, other_sign, length));
            let came = compared(&Case::apart(&a, &b, subtract));
            let field = field_of(left, if is_minus(sign) { 0xD } else { 0xC }, length);
            assert_eq!(came, Came { outcome: OVERFLOW, count: 14 * length as u64 + 16, field });
        }
    }
}

#[test]
fn zero_is_plus_from_every_side() {
    for length in 1..=16 {
        let zero = Came { outcome: DONE, count: 14 * length as u64 + 16, field: field_of(0, 0xC, length) };
        let sizes = [0, 1, 9, 10u128.pow(2 * length as u32 - 2), most(length) / 7, most(length)];
        for ((signs, subtract), size) in pairs(signs_and_operations(), sizes) {
            let (a, b) = (field_of(size, signs.0, length), field_of(size, signs.1, length));
            if size == 0 || is_difference(signs, subtract) {
                assert_eq!(compared(&Case::apart(&a, &b, subtract)), zero);
            }
        }
        for (sign, size) in pairs(SIGNS, sizes) {
            assert_eq!(compared(&Case::same(&field_of(size, sign, length), true)), zero);
        }
    }
}

// ---- fields drawn

/// Where two fields lie, in a storage of what size, and what came of them.
struct Drawn {
    storage: usize,
    first: usize,
    second: usize,
    a: Vec<u8>,
    b: Vec<u8>,
    subtract: bool,
    came: Came,
}

/// None, all, or some digits.
fn draw_size(random: &mut Random, length: usize) -> u128 {
    let any = u128::from(random.next()) << 64 | u128::from(random.next());
    let some = 10u128.pow(1 + random.below(2 * length as u64 - 1) as u32);
    one_of(random, &[0, most(length), any % some, any % (most(length) + 1)])
}

/// Two sizes, in half of the cases equal, one apart, or with a sum that just fits or just does not.
fn draw_sizes(random: &mut Random, length: usize) -> [u128; 2] {
    let (size, other, top) = (draw_size(random, length), draw_size(random, length), most(length));
    let near = [size, size.saturating_sub(1), (size + 1).min(top), top - size, (top - size + 1).min(top)];
    let near = one_of(random, &near);
    [size, one_of(random, &[other, near])]
}

/// One digit or the sign is bad in one field of ten.
fn draw_field(random: &mut Random, size: u128, length: usize) -> Vec<u8> {
    let field = field_of(size, one_of(random, &SIGNS), length);
    if random.below(10) != 0 {
        return field;
    }
    // The sign as often as all the digits.
    let any = random.below(2 * length as u64) as usize;
    let place = one_of(random, &[2 * length - 1, any]);
    with_digit(&field, place, one_of(random, &wrong_digits(place, length).collect::<Vec<u8>>()))
}

/// The size of a storage and where the two fields start in it, by their length.
type Places = fn(&mut Random, usize) -> (usize, usize, usize);

fn draw(random: &mut Random, length: usize, places: Places) -> Drawn {
    let (storage, first, second) = places(random, length);
    let mut main = draw_bytes(random, storage);
    let [size, other] = draw_sizes(random, length);
    for (start, size) in [(second, other), (first, size)] {
        main[start..start + length].copy_from_slice(&draw_field(random, size, length));
    }
    let case = Case { main, first, second, length, subtract: random.below(2) == 1 };
    let came = compared(&case);
    let (a, b) = (case.field_at(first).to_vec(), case.field_at(second).to_vec());
    Drawn { storage, first, second, a, b, subtract: case.subtract, came }
}

fn draw_all(seed: u64, count: usize, places: Places) -> Vec<Drawn> {
    let random = &mut Random::new(seed);
    let seen: Vec<Drawn> = (0..count).map(|n| draw(random, 2 + n % 15, places)).collect();
    let ways: BTreeSet<(usize, bool)> = seen.iter().map(|case| (case.a.len(), case.subtract)).collect();
    assert_eq!(ways.len(), 30, "2 to 16 bytes, either operation");
    seen
}

fn sign_of(field: &[u8]) -> u8 {
    field.last().expect("a byte") % 16
}

/// All its digits are 0.
fn is_zero(field: &[u8]) -> bool {
    *field == field_of(0, sign_of(field), field.len())
}

fn has_bad_digit(field: &[u8]) -> bool {
    let digits: Vec<u8> = field.iter().flat_map(|byte| [byte / 16, byte % 16]).collect();
    digits[..digits.len() - 1].iter().any(|digit| *digit > 9)
}

fn has_bad_sign(field: &[u8]) -> bool {
    sign_of(field) < 10
}

/// Done so, with the preferred sign plus or minus.
fn ended(case: &Drawn, outcome: Outcome, sign: u8) -> bool {
    case.came.outcome == outcome && sign_of(&case.came.field) == sign
}

fn complemented_again(case: &Drawn) -> bool {
    case.came.count > 14 * case.a.len() as u64 + 16
}

fn done_zero(case: &Drawn) -> bool {
    case.came.outcome == DONE && is_zero(&case.came.field)
}

/// The kinds that two fields apart must have among them.
const APART: [Kind<Drawn>; 18] = [
    ("plus", |case| ended(case, DONE, 0xC)),
    ("minus", |case| ended(case, DONE, 0xD)),
    ("overflow, plus", |case| ended(case, OVERFLOW, 0xC)),
    ("overflow, minus", |case| ended(case, OVERFLOW, 0xD)),
    ("overflow, plus, no digit left", |case| ended(case, OVERFLOW, 0xC) && is_zero(&case.came.field)),
    ("overflow, minus, no digit left", |case| ended(case, OVERFLOW, 0xD) && is_zero(&case.came.field)),
    ("overflow, digits left", |case| case.came.outcome == OVERFLOW && !is_zero(&case.came.field)),
    ("complemented again to plus", |case| complemented_again(case) && ended(case, DONE, 0xC)),
    ("complemented again to minus", |case| complemented_again(case) && ended(case, DONE, 0xD)),
    ("zero of sizes that are not, plus first", |case| {
        done_zero(case) && !is_zero(&case.a) && !is_minus(sign_of(&case.a))
    }),
    ("zero of sizes that are not, minus first", |case| {
        done_zero(case) && !is_zero(&case.a) && is_minus(sign_of(&case.a))
    }),
    ("zero of two minus zeros", |case| {
        done_zero(case) && [&case.a, &case.b].iter().all(|f| is_zero(f) && is_minus(sign_of(f)))
    }),
    ("bad digit in the first", |case| has_bad_digit(&case.a) && !has_bad_sign(&case.a)),
    ("bad digit in the second", |case| has_bad_digit(&case.b) && !has_bad_sign(&case.b)),
    ("bad sign in the first", |case| has_bad_sign(&case.a)),
    ("bad sign in the second", |case| has_bad_sign(&case.b)),
    ("the first before the second", |case| case.first < case.second),
    ("the second before the first", |case| case.second < case.first),
];

/// The two places in either order.
fn either_way(random: &mut Random, storage: usize, one: usize, other: usize) -> (usize, usize, usize) {
    let [first, second] = one_of(random, &[[one, other], [other, one]]);
    (storage, first, second)
}

/// A field runs over from 00FF to 0100.
fn is_across(start: usize, length: usize) -> bool {
    start < 0x100 && start + length > 0x100
}

const AT_ENDS: [Kind<Drawn>; 2] = [
    ("a storage of the fields alone", |case| case.storage == 2 * case.a.len()),
    ("bytes between them", |case| case.storage > 2 * case.a.len()),
];

#[test]
fn drawn_fields_at_both_ends_of_a_storage() {
    let seen = draw_all(83, 12_000, |random, length| {
        let storage = one_of(random, &[2 * length, 2 * length + 1, 300]);
        either_way(random, storage, 0, storage - length)
    });
    each_occurs(&APART, &seen);
    each_occurs(&AT_ENDS, &seen);
}

const AT_PAGES: [Kind<Drawn>; 7] = [
    ("the first across", |case| is_across(case.first, case.a.len())),
    ("the second across", |case| is_across(case.second, case.a.len())),
    ("the first up to 00FF", |case| case.first + case.a.len() == 0x100),
    ("the second up to 00FF", |case| case.second + case.a.len() == 0x100),
    ("the first from 0100 on", |case| case.first == 0x100),
    ("the second from 0100 on", |case| case.second == 0x100),
    ("one beside the other", |case| case.first.abs_diff(case.second) == case.a.len()),
];

#[test]
fn drawn_fields_across_00ff_and_0100() {
    let seen = draw_all(89, 12_000, |random, length| {
        let [one, far] = [0x100, 0x200].map(|page| page - random.below(length as u64 + 1) as usize);
        let other = one_of(random, &[one - length, one + length, far]);
        either_way(random, 0x240, one, other)
    });
    each_occurs(&APART, &seen);
    each_occurs(&AT_PAGES, &seen);
}

const IN_ALL: [Kind<Drawn>; 4] = [
    ("the first up to FFFF", |case| case.first + case.a.len() == 65_536),
    ("the second up to FFFF", |case| case.second + case.a.len() == 65_536),
    ("the other at 0000", |case| case.first.min(case.second) == 0),
    ("the other in between", |case| (0x100..0xFF00).contains(&case.first.min(case.second))),
];

#[test]
fn drawn_fields_in_65536_bytes() {
    let seen = draw_all(97, 6000, |random, length| {
        let (last, any) = (65_536 - length, random.below(65_000) as usize);
        let other = one_of(random, &[0, any, last - length]);
        either_way(random, 65_536, last, other)
    });
    each_occurs(&APART, &seen);
    each_occurs(&IN_ALL, &seen);
}

const SAME: [Kind<Drawn>; 12] = [
    ("added to plus", |case| ended(case, DONE, 0xC) && !case.subtract),
    ("added to minus", |case| ended(case, DONE, 0xD) && !case.subtract),
    ("added with overflow, plus", |case| ended(case, OVERFLOW, 0xC)),
    ("added with overflow, minus", |case| ended(case, OVERFLOW, 0xD)),
    ("subtracted from plus", |case| done_zero(case) && case.subtract && !is_minus(sign_of(&case.a))),
    ("subtracted from minus", |case| done_zero(case) && case.subtract && is_minus(sign_of(&case.a))),
    ("minus zero added", |case| done_zero(case) && !case.subtract && is_minus(sign_of(&case.a))),
    ("bad digit", |case| has_bad_digit(&case.a)),
    ("bad sign", |case| has_bad_sign(&case.a)),
    ("a storage of the field alone", |case| case.storage == case.a.len()),
    ("across 00FF and 0100", |case| is_across(case.first, case.a.len())),
    ("up to FFFF", |case| case.first + case.a.len() == 65_536),
];

#[test]
fn one_drawn_field_for_both() {
    let seen = draw_all(101, 8000, |random, length| {
        let across = 0x100 - random.below(length as u64 + 1) as usize;
        let places = [(length, 0), (300, 0), (300, across), (300, across), (65_536, 65_536 - length)];
        let (storage, start) = one_of(random, &places);
        (storage, start, start)
    });
    assert!(seen.iter().all(|case| !complemented_again(case) && case.a == case.b));
    each_occurs(&SAME, &seen);
}
