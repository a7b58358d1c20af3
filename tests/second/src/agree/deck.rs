//! Decks: written, damaged in each part, read with rooms too small, exact and larger, and listed.

use super::draw::{modelled, packed, reading_of, word_for, PS_AND_CU, PS_AND_PK};
use super::{digest_line, drawn_bytes, mix_bytes};
use crate::deck::{read_deck, write_deck, BLOCK, FULL};
use crate::lister::list;
use crate::random::{mix, Random};
use crate::Refusal;

fn words_of(k: u64, x: u64) -> usize {
    match k % 8 {
        7 if k % 64 == 7 => 0,
        7 if k % 64 == 15 => 4097,
        7 => (x % 4098) as usize,
        place => [1, 61, 62, 63, 124, 4092, 4096][place as usize],
    }
}

fn bytes_of(words: usize) -> usize {
    words.div_ceil(FULL) * BLOCK
}

/// A room for `n`: exact, one too small, none, one more, or the largest.
fn room_for(n: usize, most: usize, x: u64) -> usize {
    match x % 16 {
        0..=9 => n,
        10 | 11 => n.saturating_sub(1),
        12 => 0,
        13 | 14 => (n + 1).min(most),
        _ => most,
    }
}

/// Good words, and where `bad` is a place of the store, one there of any kind.
fn drawn_words(random: &mut Random, bad: u64) -> Vec<u64> {
    let mut word = |place: u64| {
        let [a, b, x] = std::array::from_fn(|_| random.next());
        let (reading, address) = (reading_of(b >> 40), (place % 4096) as u32);
        if place == bad {
            word_for(reading, a, b, (x >> 16) * 64 + 44 + (x >> 8) % 20, address)
        } else {
            packed(&modelled(reading, a, b), address)
        }
    };
    (0..4097).map(&mut word).collect()
}

/// `v` more in the group at `at`, wrapping.
fn raise(deck: &mut [u8], at: usize, v: u64) {
    let bytes: &mut [u8; 8] = (&mut deck[at..at + 8]).try_into().unwrap();
    *bytes = u64::from_be_bytes(*bytes).wrapping_add(v).to_be_bytes();
}

/// The group at `at` with some bits turned, and the check made to hold again.
fn exchange(block: &mut [u8], at: usize, mask: u64) {
    let old = u64::from_be_bytes(block[at..at + 8].try_into().unwrap());
    raise(block, at, (old ^ mask).wrapping_sub(old));
    raise(block, 504, (old ^ mask).wrapping_sub(old));
}

/// A byte turned anywhere or in one part, or groups changed so that the check holds.
fn damage(block: &mut [u8], x: u64) {
    let place = (x >> 8) as usize % 512;
    let mask = ((x >> 20) % 255 + 1) as u8;
    let power = 1u64 << ((x >> 28) % 64);
    match x % 16 {
        0..=2 => block[place] ^= mask,
        3 => block[place % 2] ^= mask,
        4 => block[2 + place % 2] ^= mask,
        5 => block[4 + place % 4] ^= mask,
        6 => block[504 + place % 8] ^= mask,
        7..=9 => {
            raise(block, ((x >> 8) % 62 + 1) as usize * 8, power);
            raise(block, ((x >> 16) % 62 + 1) as usize * 8, power.wrapping_neg());
        }
        10 | 11 => {
            raise(block, 0, power);
            raise(block, 504, power);
        }
        12 => {
            raise(block, 0, 1 << 32);
            raise(block, 504, 1 << 32);
        }
        13 => exchange(block, ((x >> 8) % 62 + 1) as usize * 8, PS_AND_PK),
        14 => exchange(block, ((x >> 8) % 62 + 1) as usize * 8, PS_AND_CU),
        _ => (),
    }
}

/// The block that is damaged: any, or one time in four the last.
fn block_of(words: usize, x: u64) -> usize {
    match (bytes_of(words) / BLOCK, x % 4) {
        (0, _) => 0,
        (blocks, 0) => blocks - 1,
        (blocks, _) => (x / 4 % blocks as u64) as usize,
    }
}

/// How much of the deck is read: all of it, or a byte or a block less or more, or none.
fn length_of(bytes: usize, x: u64) -> usize {
    match x % 32 {
        0 => bytes.saturating_sub(1),
        1 => bytes + 1,
        2 => bytes.saturating_sub(BLOCK),
        3 => bytes + BLOCK,
        4 => 0,
        _ => bytes,
    }
}

/// How often each number was the answer; 0 is none.
struct Counts([u32; 22]);

impl Counts {
    fn count(&mut self, answer: Result<usize, Refusal>) -> u64 {
        let number = answer.err().unwrap_or(0);
        self.0[usize::from(number)] += 1;
        answer.map_or_else(u64::from, |length| length as u64)
    }

    fn report(&self) -> String {
        self.0.iter().enumerate().map(|(number, count)| format!("answer {number} {count}\n")).collect()
    }
}

const LARGEST_ROOM: usize = 34_816;

pub fn text() -> String {
    let mut deck = drawn_bytes(47, LARGEST_ROOM);
    let mut again = vec![0; 4097];
    let (mut random, mut digest, mut text) = (Random::new(43), 8, String::new());
    let (mut written, mut read) = (Counts([0; 22]), Counts([0; 22]));
    for k in 0..2400 {
        let [a, b, c, e] = std::array::from_fn(|_| random.next());
        let words = words_of(k, a >> 16);
        let bad = (b >> 16) % 8 * 4096 + (a >> 8) % 4096;
        let store = drawn_words(&mut random, bad);
        let room = room_for(bytes_of(words), LARGEST_ROOM, b);
        digest = mix(digest, written.count(write_deck(&store[..words], &mut deck[..room])));
        digest = mix_bytes(digest, &deck);
        let at = block_of(words, c >> 16) * BLOCK;
        damage(&mut deck[at..at + BLOCK], e);
        let length = length_of(bytes_of(words), c >> 8).min(LARGEST_ROOM);
        let room = room_for(words, 4097, c);
        digest = mix(digest, read.count(read_deck(&deck[..length], &mut again[..room])));
        digest = again.iter().fold(digest, |digest, word| mix(digest, *word));
        digest = mix_bytes(digest, list(&deck[..length]).as_bytes());
        if k % 100 == 99 {
            text += &digest_line(k + 1, digest);
        }
    }
    text + "written\n" + &written.report() + "read\n" + &read.report()
}
