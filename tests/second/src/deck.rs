//! The deck: blocks of 512 bytes, 64 groups of 8, high byte first.

use crate::cycle::MOST_WORDS;
use crate::word::fault;
use crate::Refusal;

pub const BLOCK: usize = 512;
pub const LONGEST: usize = 34_304;
/// Words in every block but the last.
pub const FULL: usize = 62;
const CHECK: usize = 63;

type Groups = [u64; 64];

fn groups_of(block: &[u8]) -> Groups {
    std::array::from_fn(|n| {
        let bytes = &block[8 * n..8 * n + 8];
        bytes.iter().fold(0, |group, byte| group << 8 | u64::from(*byte))
    })
}

/// The sum of groups 0 to 62, wrapping.
pub fn block_check(groups: &[u64; 64]) -> u64 {
    groups[..CHECK].iter().fold(0, |sum, group| sum.wrapping_add(*group))
}

/// Group 0: block number, count, and four bytes of zero.
fn header(number: usize, count: usize) -> u64 {
    (number as u64) << 48 | (count as u64) << 32
}

/// The count of words in the block at `place` of `blocks`, or 16, 17, 18, or a word's 3 to 9.
fn check_block(groups: &Groups, place: usize, blocks: usize) -> Result<usize, Refusal> {
    if groups[0] >> 48 != place as u64 {
        return Err(16);
    }
    let count = (groups[0] >> 32 & 0xFFFF) as usize;
    let reserved = groups[0] & 0xFFFF_FFFF;
    if !count_right(count, place, blocks) || reserved != 0 || groups[count + 1..CHECK].iter().any(|group| *group != 0) {
        return Err(17);
    }
    if groups[CHECK] != block_check(groups) {
        return Err(18);
    }
    let address = |n: usize| (FULL * place + n) as u32;
    let faults = (0..count).map(|n| fault(groups[1 + n], address(n)));
    faults.into_iter().find(|number| *number != 0).map_or(Ok(count), Err)
}

/// 62 in every block but the last, 1 to 62 there, and at most 4,096 words in all.
fn count_right(count: usize, place: usize, blocks: usize) -> bool {
    let last = place + 1 == blocks;
    let allowed = if last { 1..=FULL } else { FULL..=FULL };
    allowed.contains(&count) && FULL * place + count <= MOST_WORDS
}

/// All the words of a deck, or what refuses it, before any question of room.
pub fn words_of(deck: &[u8]) -> Result<Vec<u64>, Refusal> {
    if deck.is_empty() || !deck.len().is_multiple_of(BLOCK) || deck.len() > LONGEST {
        return Err(15);
    }
    let blocks = deck.len() / BLOCK;
    let mut words = Vec::new();
    for (place, block) in deck.chunks(BLOCK).enumerate() {
        let groups = groups_of(block);
        let count = check_block(&groups, place, blocks)?;
        words.extend_from_slice(&groups[1..=count]);
    }
    Ok(words)
}

/// The number of words, written to the start of `room`; refused, nothing is written.
pub fn read_deck(deck: &[u8], room: &mut [u64]) -> Result<usize, Refusal> {
    let words = words_of(deck)?;
    let written = room.get_mut(..words.len()).ok_or(19)?;
    written.copy_from_slice(&words);
    Ok(words.len())
}

/// The number of bytes, written to the start of `room`; refused, nothing is written.
pub fn write_deck(words: &[u64], room: &mut [u8]) -> Result<usize, Refusal> {
    if words.is_empty() || words.len() > MOST_WORDS {
        return Err(21);
    }
    let faults = words.iter().enumerate().map(|(address, word)| fault(*word, address as u32));
    if let Some(number) = faults.into_iter().find(|number| *number != 0) {
        return Err(number);
    }
    let length = words.len().div_ceil(FULL) * BLOCK;
    let written = room.get_mut(..length).ok_or(19)?;
    for (place, (block, held)) in written.chunks_mut(BLOCK).zip(words.chunks(FULL)).enumerate() {
        write_block(block, place, held);
    }
    Ok(length)
}

fn write_block(block: &mut [u8], place: usize, words: &[u64]) {
    let mut groups: Groups = [0; 64];
    groups[0] = header(place, words.len());
    groups[1..=words.len()].copy_from_slice(words);
    groups[CHECK] = block_check(&groups);
    for (bytes, group) in block.chunks_mut(8).zip(groups) {
        bytes.copy_from_slice(&group.to_be_bytes());
    }
}
