//! Decks written, read, listed and refused.

mod common;

use common::{draw_words, P};
use second::deck::{read_deck, write_deck};
use second::lister::list;
use second::random::Random;
use second::word::build;

fn deck_of(words: &[u64]) -> Vec<u8> {
    let mut deck = vec![0; words.len().div_ceil(62) * 512];
    assert_eq!(write_deck(words, &mut deck), Ok(deck.len()));
    deck
}

fn good_deck(words: usize) -> Vec<u8> {
    deck_of(&draw_words(&mut Random::new(words as u64), words))
}

/// Group 63 of a block made right again after a change.
fn mend(deck: &mut [u8], block: usize) {
    let bytes = &mut deck[block * 512..][..512];
    let mut sum = 0u64;
    for group in bytes[..504].chunks(8) {
        sum = sum.wrapping_add(u64::from_be_bytes(group.try_into().unwrap()));
    }
    bytes[504..].copy_from_slice(&sum.to_be_bytes());
}

/// A deck refused, with nothing written, the same by the lister.
fn refuses(deck: &[u8], number: u8) {
    let mut room = vec![0xEEEE; 4096];
    assert_eq!(read_deck(deck, &mut room), Err(number));
    assert!(room.iter().all(|word| *word == 0xEEEE));
    assert_eq!(list(deck), format!("REFUSED {number}\n"));
}

#[test]
fn words_written_and_read_are_the_same() {
    let mut random = Random::new(62);
    let mut counts: Vec<usize> = vec![1, 2, 61, 62, 63, 123, 124, 125, 4092, 4093, 4095, 4096];
    counts.extend((0..400).map(|_| 1 + random.below(300) as usize));
    for count in counts {
        let words = draw_words(&mut random, count);
        let deck = deck_of(&words);
        let mut room = vec![0xEEEE; count + 3];
        assert_eq!(read_deck(&deck, &mut room), Ok(count));
        assert_eq!(room[..count], words);
        assert_eq!(room[count..], [0xEEEE; 3]);
        // And the deck read and written is the same deck.
        assert_eq!(deck_of(&room[..count]), deck);
    }
}

#[test]
fn the_lister_prints_every_word() {
    let words = draw_words(&mut Random::new(5), 300);
    let text = list(&deck_of(&words));
    assert_eq!(text.len(), 300 * 19);
    for (address, (line, word)) in text.split_terminator('\n').zip(&words).enumerate() {
        assert_eq!(line.len(), 18);
        assert_eq!(usize::from_str_radix(&line[..3], 16), Ok(address));
        assert_eq!(&line[3..4], " ");
        assert_eq!(u64::from_str_radix(&line[4..], 16), Ok(*word));
        assert_eq!(line, line.to_uppercase());
    }
    assert!(text.ends_with('\n'));
    assert!(text.contains("\n0FF "));
}

#[test]
fn fifteen_by_length() {
    for length in [0, 1, 511, 513, 1023, 34_304 - 1, 34_304 + 1, 34_304 + 512] {
        refuses(&vec![0; length], 15);
    }
    // The longest deck is read, and a block more is refused by its length alone.
    let mut longest = good_deck(4096);
    assert_eq!(longest.len(), 34_304);
    assert_eq!(read_deck(&longest, &mut vec![0; 4096]), Ok(4096));
    longest.resize(34_304 + 512, 0);
    refuses(&longest, 15);
}

#[test]
fn sixteen_by_block_number() {
    for block in 0..3 {
        for number in (0..4u16).chain([256, 0xFFFF]).filter(|number| usize::from(*number) != block) {
            let mut deck = good_deck(150);
            deck[block * 512..][..2].copy_from_slice(&number.to_be_bytes());
            mend(&mut deck, block);
            refuses(&deck, 16);
        }
    }
}

fn with_count(words: usize, block: usize, count: u16) -> Vec<u8> {
    let mut deck = good_deck(words);
    deck[block * 512 + 2..][..2].copy_from_slice(&count.to_be_bytes());
    mend(&mut deck, block);
    deck
}

#[test]
fn seventeen_by_count() {
    for count in [0, 1, 61, 63, 64, 256 + 62, 0xFFFF] {
        refuses(&with_count(150, 0, count), 17);
        refuses(&with_count(150, 1, count), 17);
    }
    // The last block: 26 words. More would take in groups of zero, which are bad words.
    for count in [0, 25, 63, 64, 256 + 26, 0xFFFF] {
        refuses(&with_count(150, 2, count), 17);
    }
    refuses(&with_count(150, 2, 27), 4);
    refuses(&with_count(150, 2, 62), 4);
}

#[test]
fn seventeen_for_an_empty_last_block() {
    // Nothing else is wrong with it: a block of zeros adds up to its check.
    refuses(&[0; 512], 17);
    let mut deck = good_deck(62);
    deck.resize(1024, 0);
    deck[512 + 1] = 1;
    mend(&mut deck, 1);
    refuses(&deck, 17);
    deck[512 + 3] = 1;
    deck[512 + 8..512 + 16].copy_from_slice(&build(62, &[]).unwrap().to_be_bytes());
    mend(&mut deck, 1);
    assert_eq!(read_deck(&deck, &mut [0; 63]), Ok(63));
}

#[test]
fn seventeen_by_the_total() {
    // 66 full blocks leave room for 4 words; a fifth, though good, is one too many.
    assert_eq!(read_deck(&with_count(4096, 66, 4), &mut vec![0; 4096]), Ok(4096));
    let mut deck = with_count(4096, 66, 5);
    let fifth = build(0, &[]).unwrap();
    deck[66 * 512 + 40..][..8].copy_from_slice(&fifth.to_be_bytes());
    mend(&mut deck, 66);
    refuses(&deck, 17);
    refuses(&with_count(4096, 66, 62), 17);
}

#[test]
fn seventeen_by_reserved_bytes() {
    for block in 0..3 {
        for byte in 4..8 {
            let mut deck = good_deck(150);
            deck[block * 512 + byte] = 1;
            mend(&mut deck, block);
            refuses(&deck, 17);
        }
    }
}

#[test]
fn seventeen_by_unused_bytes() {
    for byte in 8 * 27..504 {
        let mut deck = good_deck(150);
        deck[1024 + byte] = 0x80;
        mend(&mut deck, 2);
        refuses(&deck, 17);
    }
}

#[test]
fn eighteen_by_the_block_check() {
    for block in 0..3 {
        for byte in 504..512 {
            let mut deck = good_deck(150);
            deck[block * 512 + byte] ^= 1;
            refuses(&deck, 18);
        }
        // A word changed without the check: 18 before the word's own fault.
        let mut deck = good_deck(150);
        deck[block * 512 + 15] ^= 1;
        refuses(&deck, 18);
    }
}

#[test]
fn three_to_nine_by_each_word() {
    for (block, group, bit, number) in [(0, 1, 63, 3), (1, 62, 48, 4), (2, 26, 20, 6), (2, 1, 0, 7)] {
        let mut deck = good_deck(150);
        deck[block * 512 + group * 8 + 7 - bit / 8] ^= 1 << (bit % 8);
        mend(&mut deck, block);
        refuses(&deck, number);
    }
    // A good word of another address: 1 is odd where 0 is even.
    let mut deck = deck_of(&[P, build(1, &[]).unwrap()]);
    deck.copy_within(8..16, 16);
    mend(&mut deck, 0);
    refuses(&deck, 5);
    let pk_wrong = build(0, &[("CU", 2)]).unwrap() ^ 3 << 20;
    deck[8..16].copy_from_slice(&pk_wrong.to_be_bytes());
    mend(&mut deck, 0);
    refuses(&deck, 9);
    // CL 2 beside K to W, and beside a return.
    for turned in [1 << 35 | 1 << 20, 3 << 34] {
        let both = build(0, &[("CL", 2)]).unwrap() ^ turned;
        deck[8..16].copy_from_slice(&both.to_be_bytes());
        mend(&mut deck, 0);
        refuses(&deck, 8);
        assert_eq!(write_deck(&[both], &mut [0; 512]), Err(8));
    }
}

#[test]
fn a_words_address_counts_from_the_decks_start() {
    // The first word of block 1 is word 62, not 64 or 0.
    let mut words = draw_words(&mut Random::new(3), 63);
    words[62] = build(62, &[("CN", 5)]).unwrap();
    let deck = deck_of(&words);
    assert_eq!(list(&deck).lines().last().unwrap(), format!("03E {:014X}", words[62]));
    // 64 has one bit on and 62 five: both odd. 61 too; 63 has six.
    words[62] = build(63, &[("CN", 5)]).unwrap();
    assert_eq!(write_deck(&words, &mut [0; 1024]), Err(5));
}

#[test]
fn an_earlier_block_is_refused_first() {
    let mut deck = good_deck(150);
    deck[512 + 511] ^= 1;
    deck[1024] = 1;
    refuses(&deck, 18);
    // A bad word of block 0 comes before the number of block 1.
    let mut deck = good_deck(150);
    deck[15] ^= 1;
    mend(&mut deck, 0);
    deck[512] = 1;
    refuses(&deck, 7);
    // Within one block: 16, 17, 18, then the words.
    let mut deck = good_deck(150);
    deck[15] ^= 1;
    refuses(&deck, 18);
    deck[7] = 1;
    refuses(&deck, 17);
    deck[1] = 1;
    refuses(&deck, 16);
}

#[test]
fn nineteen_by_room() {
    let deck = good_deck(150);
    let mut room = vec![0xEEEE; 149];
    assert_eq!(read_deck(&deck, &mut room), Err(19));
    assert!(room.iter().all(|word| *word == 0xEEEE));
    assert_eq!(read_deck(&deck, &mut []), Err(19));
    // A fault in the last block comes before the room.
    let mut bad = deck.clone();
    bad[1024 + 511] ^= 1;
    assert_eq!(read_deck(&bad, &mut room), Err(18));
    assert_eq!(read_deck(&bad, &mut []), Err(18));

    let words = draw_words(&mut Random::new(1), 63);
    let mut bytes = vec![0xEE; 1023];
    assert_eq!(write_deck(&words, &mut bytes), Err(19));
    assert!(bytes.iter().all(|byte| *byte == 0xEE));
    bytes.resize(1030, 0xEE);
    assert_eq!(write_deck(&words, &mut bytes), Ok(1024));
    assert_eq!(bytes[1024..], [0xEE; 6]);
}

#[test]
fn twenty_one_by_the_number_of_words() {
    let mut room = vec![0xEE; 40_000];
    assert_eq!(write_deck(&[], &mut room), Err(21));
    // 4,097 words, all bad: the count is looked at first.
    assert_eq!(write_deck(&vec![u64::MAX; 4097], &mut room), Err(21));
    assert_eq!(write_deck(&vec![u64::MAX; 4096], &mut room), Err(3));
    assert_eq!(write_deck(&[], &mut []), Err(21));
    assert!(room.iter().all(|byte| *byte == 0xEE));
}

#[test]
fn the_writer_checks_words_before_room() {
    assert_eq!(write_deck(&[P & !1], &mut []), Err(7));
    assert_eq!(write_deck(&[P], &mut []), Err(19));
    // The first bad word is the one given.
    let mut words = draw_words(&mut Random::new(2), 200);
    words[150] ^= 1;
    assert_eq!(write_deck(&words, &mut [0; 4096]), Err(7));
    words[100] ^= 1 << 48;
    assert_eq!(write_deck(&words, &mut [0; 4096]), Err(4));
}

#[test]
fn the_block_check_wraps() {
    // Words stay below 2^55, so only a header sum can pass 2^64 by hand; the sum is taken there too.
    let mut groups = [0; 64];
    groups[0] = u64::MAX;
    groups[62] = 2;
    groups[63] = 99;
    assert_eq!(second::deck::block_check(&groups), 1);
}
