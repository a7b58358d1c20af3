//! Decimal adds: every length and carry, bad digits in every place, one field twice, the ends of storage, and each
//! refusal; half of them in a fence at the edges of the fields. Result, carry and storage are by whole numbers; the count of
//! cycles is that of this engine's own run of the shipped words, which must end as the whole numbers say.

use super::fields::{digits, drawn, Trial};
use super::{digest_line, drawn_bytes, mix_bytes};
use crate::decimal::{add_decimal, add_decimal_in, Outcome};
use crate::random::{mix, Random};
use crate::session::Fence;
use crate::shipped::{run_shipped, run_shipped_in, start};

/// Good digits in every byte, which one time in four are all nines and one time in four all zeros.
fn fill_digits(random: &mut Random, style: u64, bytes: &mut [u8]) {
    for byte in bytes {
        let x = random.next();
        *byte = match style % 4 {
            1 => 0x99,
            2 => 0,
            _ => digits(x / 256),
        };
    }
}

/// A bad digit in one byte of storage, near the start of a field.
fn spoil(main: &mut [u8], start: usize, x: u64) {
    let at = start.saturating_add((x >> 8) as usize % 18);
    if let Some(byte) = main.get_mut(at) {
        *byte = (x >> 16) as u8;
    }
}

/// The sum of two numbers of which neither is far outside storage, else the first.
fn plus(n: usize, m: usize) -> usize {
    if n < 70_000 && m < 70_000 {
        n + m
    } else {
        n
    }
}

/// A fence that just holds both fields, or is a byte too short or too long at either end, or reaches to an end of storage.
fn fence_for(trial: &Trial, y: u64) -> Fence {
    let [low, high] = [trial.first.min(trial.second), trial.first.max(trial.second)];
    let last = plus(high, trial.length);
    let start = match y % 8 {
        0 => low,
        1 => plus(low, 1),
        2 => low.saturating_sub(1),
        3 => high,
        _ => 0,
    };
    let end = match y / 8 % 8 {
        0 => last,
        1 => last.saturating_sub(1),
        2 => plus(last, 1),
        3 => plus(trial.main, 1),
        _ => trial.main,
    };
    Fence { start, end }
}

/// None where the add is not in a fence.
fn drawn_fence(trial: &Trial, y: u64) -> Option<Fence> {
    (y / 64 % 2 == 1).then(|| fence_for(trial, y))
}

/// How often each answer was given.
struct Counts {
    summed: [u32; 2],
    bad: u32,
    refused: [u32; 33],
}

/// The add by whole numbers.
fn by_numbers(main: &mut [u8], local: &[u8], trial: &Trial, fence: Option<Fence>) -> Outcome {
    let Trial { first, second, length, on, .. } = *trial;
    match fence {
        Some(fence) => add_decimal_in(main, local, first, second, length, on, fence),
        None => add_decimal(main, local, first, second, length, on),
    }
}

/// The add by the shipped words, and how many cycles ran.
fn by_words(main: &mut [u8], local: &mut [u8], trial: &Trial, fence: Option<Fence>) -> (Outcome, u64) {
    let start = start(trial.first as u16, trial.second as u16, trial.length as u8, trial.on);
    match fence {
        Some(fence) => run_shipped_in(main, local, start, fence),
        None => run_shipped(main, local, start),
    }
}

/// The digest after the add by whole numbers, with the count of the shipped words' own run.
fn answer(
    digest: u64,
    trial: &Trial,
    fence: Option<Fence>,
    main: &mut [u8],
    local: &mut [u8],
    counts: &mut Counts,
) -> u64 {
    let (main, local) = (&mut main[..trial.main], &mut local[..trial.local]);
    let (mut ran_main, mut ran_local) = (main.to_vec(), local.to_vec());
    let outcome = by_numbers(main, local, trial, fence);
    if let Outcome::Refused { number } = outcome {
        counts.refused[usize::from(number)] += 1;
        return mix(digest, u64::from(number) + 16);
    }
    let (ran, count) = by_words(&mut ran_main, &mut ran_local, trial, fence);
    assert!(
        ran == outcome && ran_main == main && ran_local == local,
        "the shipped words give {ran:?} where whole numbers give {outcome:?}: {} bytes at {} and {}",
        trial.length,
        trial.first,
        trial.second
    );
    match outcome {
        Outcome::Summed { carry } => {
            counts.summed[usize::from(carry)] += 1;
            mix(mix(digest, u64::from(carry)), count)
        }
        _ => {
            counts.bad += 1;
            mix(mix(digest, 2), count)
        }
    }
}

pub fn text() -> String {
    let (mut main, mut local) = (drawn_bytes(59, 65537), drawn_bytes(61, 257));
    let (mut random, mut digest) = (Random::new(53), 9);
    let (mut counts, mut text) = (Counts { summed: [0; 2], bad: 0, refused: [0; 33] }, String::new());
    for k in 1..=40_000 {
        let [a, b, c, y] = std::array::from_fn(|_| random.next());
        let trial = drawn(a, b);
        let end = main.len() - 64;
        fill_digits(&mut random, c >> 8, &mut main[..300]);
        fill_digits(&mut random, c >> 10, &mut main[end..]);
        match c % 8 {
            0 => spoil(&mut main, trial.first, c >> 3),
            1 => spoil(&mut main, trial.second, c >> 3),
            _ => (),
        }
        digest = answer(digest, &trial, drawn_fence(&trial, y), &mut main, &mut local, &mut counts);
        digest = mix_bytes(mix_bytes(mix_bytes(digest, &main[..300]), &main[end..]), &local);
        if k % 4000 == 0 {
            text += &digest_line(k, mix_bytes(digest, &main));
        }
    }
    text += &format!("summed with no carry {}\nsummed with a carry {}\n", counts.summed[0], counts.summed[1]);
    text += &format!("bad digit {}\n", counts.bad);
    for number in [1, 12, 13, 14, 32] {
        text += &format!("refused {number} {}\n", counts.refused[number]);
    }
    text
}
