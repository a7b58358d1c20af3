//! Every line of document 01's "Numbers to check by", and the deck of word P.

mod common;

use common::{draw_words, P, P_FIELDS};
use second::adder::{add, add_by_table, gate_a, Answer, Controls};
use second::decimal::{add_decimal, Outcome};
use second::deck::{read_deck, write_deck};
use second::lister::list;
use second::random::Random;
use second::word::{build, named, pack, take_apart};

/// A sum of whole bytes, the same by rule and by table.
fn sum(a: u8, b: u8, cv: u8, cc: u8, s0: bool) -> Answer {
    let controls = Controls { cf: 3, cg: 3, cv, cc, s0, s3: false };
    let answer = add(a, b, &controls);
    assert_eq!(add_by_table(a, b, &controls), answer);
    answer
}

fn decimal(a: u8, b: u8) -> (u8, bool) {
    let answer = sum(a, b, 3, 0, false);
    (answer.result, answer.ac)
}

#[test]
fn p_packs_to_its_word() {
    assert_eq!(pack(&named(P_FIELDS), 0), Ok(0x0001_8093_988E_6801));
    assert_eq!(build(0, P_FIELDS), Ok(P));
    assert_eq!(take_apart(P, 0), Ok(named(P_FIELDS)));
}

#[test]
fn p_with_its_lowest_bit_0_is_refused_by_7() {
    assert_eq!(take_apart(P & !1, 0), Err(7));
}

#[test]
fn binary_5d_and_99() {
    let answer = sum(0x5D, 0x99, 0, 0, false);
    assert_eq!((answer.result, answer.ac), (0xF6, false));
}

#[test]
fn decimal_38_and_47() {
    assert_eq!(decimal(0x38, 0x47), (0x85, false));
}

#[test]
fn decimal_99_and_01() {
    assert_eq!(decimal(0x99, 0x01), (0x00, true));
    assert!(sum(0x99, 0x01, 3, 0, false).z0);
}

#[test]
fn decimal_85_with_47_complemented_plus_1() {
    let answer = sum(0x85, 0x47, 3, 1, true);
    assert_eq!((answer.result, answer.ac), (0x38, true));
}

#[test]
fn six_applied_twice() {
    assert_eq!(decimal(0x38, 0xAD), (0xD5, false));
}

#[test]
fn the_crossed_gates_of_4b() {
    assert_eq!(gate_a(5, 0x4B), 0x04);
    assert_eq!(gate_a(6, 0x4B), 0xB0);
}

#[test]
fn one_bit_carry_of_7f_and_01() {
    let answer = sum(0x7F, 0x01, 0, 0, false);
    assert_eq!((answer.bc1, answer.ac), (true, false));
}

#[test]
fn zero_with_zero_complemented() {
    let answer = sum(0x00, 0x00, 1, 0, false);
    assert_eq!((answer.result, answer.ac), (0xFF, false));
}

#[test]
fn decimal_lengths() {
    let answer_for = |length| add_decimal(&mut [0; 64], &[0; 256], 0, 32, length, false);
    assert_eq!(answer_for(16), Outcome::Summed { carry: false });
    assert_eq!(answer_for(0), Outcome::Refused { number: 12 });
    assert_eq!(answer_for(17), Outcome::Refused { number: 12 });
}

#[test]
fn a_field_at_the_end_of_65536_bytes() {
    let mut main = vec![0; 65_536];
    for length in 1..=16 {
        let last = 65_536 - length;
        for (first, second) in [(last, 0), (0, last)] {
            let good = add_decimal(&mut main, &[0; 256], first, second, length, false);
            assert_eq!(good, Outcome::Summed { carry: false });
        }
        for (first, second) in [(last + 1, 0), (0, last + 1)] {
            let past = add_decimal(&mut main, &[0; 256], first, second, length, false);
            assert_eq!(past, Outcome::Refused { number: 13 });
        }
    }
}

#[test]
fn blocks_of_4096_words() {
    let words = draw_words(&mut Random::new(4096), 4096);
    let mut deck = vec![0; 34_304];
    assert_eq!(write_deck(&words, &mut deck), Ok(67 * 512));
    let counts: Vec<u8> = deck.chunks(512).map(|block| block[3]).collect();
    assert_eq!(counts.len(), 67);
    assert!(counts[..66].iter().all(|count| *count == 62));
    assert_eq!(counts[66], 4);
    let mut room = vec![0; 4096];
    assert_eq!(read_deck(&deck, &mut room), Ok(4096));
    assert_eq!(room, words);
}

#[test]
fn the_deck_of_p() {
    let mut deck = [0xFF; 512];
    assert_eq!(write_deck(&[P], &mut deck), Ok(512));
    assert_eq!(deck[..8], 0x0000_0001_0000_0000u64.to_be_bytes());
    assert_eq!(deck[8..16], P.to_be_bytes());
    assert!(deck[16..504].iter().all(|byte| *byte == 0));
    assert_eq!(deck[504..], 0x0001_8094_988E_6801u64.to_be_bytes());
    assert_eq!(list(&deck), "000 018093988E6801\n");
}
