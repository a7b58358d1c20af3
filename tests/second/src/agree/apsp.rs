//! AP and SP: every length, operation and sign, sizes that are equal or nearly so, bad digits and signs in every place, one
//! field twice, the ends of storage, and each refusal. Result, overflow and storage are by whole numbers, and the count of
//! cycles by the paper's table: no words run here.

use super::fields::{digits, drawn, Trial};
use super::{digest_line, drawn_bytes, mix_bytes};
use crate::apsp::{add_signed, cycles, Outcome};
use crate::bits::{from_digits, high_digit};
use crate::random::{mix, Random};

/// The six signs, C and D most often.
const SIGNS: [u8; 8] = [12, 13, 12, 13, 10, 11, 14, 15];

/// Good digits in every byte: one time in eight all nines, in eight all zeros, in four one byte over and over.
fn fill_digits(random: &mut Random, style: u64, bytes: &mut [u8]) {
    for byte in bytes {
        let x = random.next();
        *byte = match style % 8 {
            0 => 0x99,
            1 => 0,
            2 | 3 => digits(style / 8),
            _ => digits(x / 256),
        };
    }
}

/// The last place of a field; a length that no field has is taken as 1 or 16.
fn last_place(length: usize) -> usize {
    length.clamp(1, 16) - 1
}

/// A byte at one place of a field, where storage has that place.
fn put_in(main: &mut [u8], start: usize, place: usize, byte: impl Fn(u8) -> u8) {
    if let Some(at) = start.checked_add(place).and_then(|at| main.get_mut(at)) {
        *at = byte(*at);
    }
}

/// A place of a field, the last one most often.
fn any_place(length: usize, x: u64) -> usize {
    last_place(length).min((x % 16) as usize)
}

/// One byte of the first field drawn anew one time in two, both signs, and in each field one time in six any byte.
fn lay_out(main: &mut [u8], trial: &Trial, e: u64) {
    let Trial { first, second, length, .. } = *trial;
    if e.is_multiple_of(2) {
        put_in(main, first, any_place(length, e / 2), |_| digits(e >> 8));
    }
    for (start, x) in [(first, e >> 16), (second, e >> 20)] {
        put_in(main, start, last_place(length), |byte| from_digits(high_digit(byte), SIGNS[(x % 8) as usize]));
    }
    for (start, x) in [(first, e >> 24), (second, e >> 40)] {
        if x.is_multiple_of(6) {
            put_in(main, start, any_place(length, x / 8), |_| (x >> 8) as u8);
        }
    }
}

/// How often each answer was given, and how often a difference was complemented again.
#[derive(Default)]
struct Counts {
    done: [u32; 2],
    again: u32,
    bad: u32,
    refused: [u32; 15],
}

/// The digest after the answer and its count of cycles.
fn answer(digest: u64, trial: &Trial, main: &mut [u8], local: &[u8], counts: &mut Counts) -> u64 {
    let Trial { first, second, length, on: subtract, .. } = *trial;
    let (main, local) = (&mut main[..trial.main], &local[..trial.local]);
    let before = main.to_vec();
    let count = || cycles(&before, first, second, length, subtract);
    match add_signed(main, local, first, second, length, subtract) {
        Outcome::Done { overflow } => {
            counts.done[usize::from(overflow)] += 1;
            counts.again += u32::from(count() > 14 * length as u64 + 16);
            mix(mix(digest, u64::from(overflow)), count())
        }
        Outcome::Bad => {
            counts.bad += 1;
            mix(mix(digest, 2), count())
        }
        Outcome::Refused { number } => {
            counts.refused[usize::from(number)] += 1;
            mix(digest, u64::from(number) + 16)
        }
    }
}

pub fn text() -> String {
    let (mut main, local) = (drawn_bytes(79, 65537), drawn_bytes(83, 257));
    let (mut random, mut digest) = (Random::new(73), 11);
    let (mut counts, mut text) = (Counts::default(), String::new());
    for k in 1..=40_000 {
        let [a, b, c] = std::array::from_fn(|_| random.next());
        let trial = drawn(a, b);
        let end = main.len() - 64;
        fill_digits(&mut random, c >> 8, &mut main[..300]);
        fill_digits(&mut random, c >> 32, &mut main[end..]);
        lay_out(&mut main, &trial, random.next());
        digest = answer(digest, &trial, &mut main, &local, &mut counts);
        digest = mix_bytes(mix_bytes(mix_bytes(digest, &main[..300]), &main[end..]), &local);
        if k % 4000 == 0 {
            text += &digest_line(k, mix_bytes(digest, &main));
        }
    }
    text += &format!("done {}\ndone with overflow {}\n", counts.done[0], counts.done[1]);
    text += &format!("complemented again {}\nbad {}\n", counts.again, counts.bad);
    for number in [1, 12, 13, 14] {
        text += &format!("refused {number} {}\n", counts.refused[number]);
    }
    text
}
