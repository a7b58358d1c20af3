//! Taking apart and packing: drawn words, fields and addresses, within their limits and beyond.

use super::draw::{bits, packed, raw, reading_of, word_for};
use super::{digest_line, joined};
use crate::random::{mix, Random};
use crate::word::{fault, index_of, pack, take_apart, Fields};
use crate::Refusal;

/// An address of the store, or one time in 16 any number.
fn drawn_address(x: u64) -> u32 {
    if x.is_multiple_of(16) {
        (x / 16) as u32
    } else {
        (x / 16 % 4097) as u32
    }
}

fn mix_fields(digest: u64, fields: &Fields) -> u64 {
    fields.chunks(8).fold(digest, |digest, some| mix(digest, joined(some)))
}

fn mix_apart(digest: u64, answer: &Result<Fields, Refusal>) -> u64 {
    match answer {
        Ok(fields) => mix_fields(digest, fields),
        Err(number) => mix(digest, u64::from(*number)),
    }
}

/// How often each number was the answer; 0 is none.
struct Counts([u32; 21]);

impl Counts {
    fn count<T>(&mut self, answer: &Result<T, Refusal>) {
        let number = answer.as_ref().err().copied().unwrap_or(0);
        self.0[usize::from(number)] += 1;
    }

    fn report(&self) -> String {
        let refused = |number: usize| format!("refused {number} {}\n", self.0[number]);
        let each: String = (3..10).chain([20]).map(refused).collect();
        format!("answered {}\n{each}", self.0[0])
    }
}

/// 100,000 cases under a name, a digest after every 10,000, and the counts.
fn section(name: &str, seed: u64, digest: u64, mut case: impl FnMut(&mut Random, &mut Counts, u64) -> u64) -> String {
    let (mut random, mut digest, mut counts) = (Random::new(seed), digest, Counts([0; 21]));
    let mut text = format!("{name}\n");
    for k in 1..=100_000 {
        digest = case(&mut random, &mut counts, digest);
        if k % 10_000 == 0 {
            text += &digest_line(k, digest);
        }
    }
    text + &counts.report()
}

fn drawn_word(a: u64, b: u64, x: u64, address: u32) -> u64 {
    if x.is_multiple_of(16) {
        a
    } else {
        word_for(reading_of(b >> 40), a, b, x / 16, address % 4096)
    }
}

fn apart(random: &mut Random, counts: &mut Counts, digest: u64) -> u64 {
    let [a, b, c, e] = std::array::from_fn(|_| random.next());
    let address = drawn_address(e);
    let word = drawn_word(a, b, c, address);
    let answer = take_apart(word, address);
    counts.count(&answer);
    mix(mix_apart(digest, &answer), u64::from(fault(word, address)))
}

/// Fields with PK right, with one of them near its width or any byte, or with PK as it comes.
fn drawn_fields(a: u64, b: u64, x: u64) -> Fields {
    let mut fields = raw(a, b);
    let which = (x / 8 % 18) as usize;
    match x % 8 {
        0..=3 => (),
        4 | 5 => fields[which] = bits(x, 16, 8),
        6 => fields[which] = ((x >> 16) % 72) as u8,
        _ => fields[index_of("PK")] = bits(x, 3, 1),
    }
    fields
}

fn pack_and_again(random: &mut Random, counts: &mut Counts, digest: u64) -> u64 {
    let [a, b, c, e] = std::array::from_fn(|_| random.next());
    let address = drawn_address(e);
    let fields = drawn_fields(a, b, c);
    let answer = pack(&fields, address);
    counts.count(&answer);
    let digest = mix(digest, answer.unwrap_or_else(u64::from));
    mix_apart(digest, &take_apart(packed(&fields, address), address))
}

pub fn text() -> String {
    section("taken apart", 37, 6, apart) + &section("packed", 41, 7, pack_and_again)
}
