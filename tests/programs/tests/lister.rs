//! The lister, on decks of every length and refusal, and the program that ships decks.

#[path = "../../second/tests/common/mod.rs"]
mod common;

use programs::{
    breaking, command, deck_of, failing_reads, file, folder, lesson, mend, run_on, said, said_of_a_folder,
    said_to_full, Said,
};
use second::deck::{words_of, BLOCK, LONGEST};
use second::lister::list;
use second::random::Random;
use second::shipped::{APSP, SHIPPED};
use second::word::build;

fn good_deck(words: usize) -> Vec<u8> {
    deck_of(&common::draw_words(&mut Random::new(3 + words as u64), words))
}

/// A deck is listed as the second engine lists it. Decks of all lengths that fill, or just pass, a block are among them.
#[test]
fn decks_are_listed_to_the_last_word() {
    for words in [1, 2, 61, 62, 63, 124, 125, 4095, 4096] {
        let deck = good_deck(words);
        let said = said("lister", &[], &deck);
        assert!(said.well(), "{words} words: {said:?}");
        assert_eq!(said.text().lines().count(), words);
        assert_eq!(said.text(), list(&deck), "{words} words");
    }
}

fn is_refused(deck: &[u8], number: u8) {
    assert_eq!(words_of(deck), Err(number), "the second engine");
    let said = said("lister", &[], deck);
    assert_eq!(said.text(), format!("REFUSED {number}\n"));
    assert_eq!(said.err, "lister: the deck is refused; docs/NUMBERS.md has the numbers in words\n");
    assert_eq!(said.status, Some(1));
}

#[test]
fn a_wrong_deck_prints_its_refusal_only() {
    is_refused(&[], 15);
    is_refused(&good_deck(63)[..1023], 15);
    let mut deck = good_deck(63);
    deck[BLOCK + 1] = 2;
    is_refused(&deck, 16);
    let mut deck = good_deck(63);
    deck[BLOCK + 3] = 63;
    mend(&mut deck, 1);
    is_refused(&deck, 17);
    let mut deck = good_deck(63);
    deck[BLOCK + 504] ^= 1;
    is_refused(&deck, 18);
    // PC of the last word of a full deck, under a right check.
    let mut deck = good_deck(4096);
    deck[66 * BLOCK + 39] ^= 1;
    mend(&mut deck, 66);
    is_refused(&deck, 7);
    let mut deck = good_deck(2);
    deck[16] = 1;
    mend(&mut deck, 0);
    is_refused(&deck, 3);
}

/// 34,304 bytes are the longest deck; of anything longer no more is read than shows it.
#[test]
fn too_long_an_input_is_refused_by_15() {
    for more in [1, BLOCK, 1 << 20] {
        let mut deck = good_deck(4096);
        deck.resize(LONGEST + more, 0);
        is_refused(&deck, 15);
    }
}

fn told(said: &Said, line: &str) {
    assert_eq!((said.text().as_str(), said.err.as_str(), said.status), ("", line, Some(1)));
}

#[test]
fn a_read_that_fails_is_told() {
    told(&said_of_a_folder("lister"), "lister: the input was not read\n");
}

/// The first block alone would be a deck.
#[test]
fn a_read_that_fails_half_way_is_told() {
    let here = folder("lister");
    let deck = file(&here, "deck", &good_deck(124));
    let Some(library) = failing_reads(&here) else {
        return;
    };
    let of = |reads| run_on(&deck, breaking(&mut command("lister", &[]), &library, &deck, reads));
    told(&of(0), "lister: the input was not read\n");
    told(&of(1), "lister: the input was not read\n");
    told(&of(2), "lister: the input was not read\n");
    // with the read that finds the end, all is well
    assert_eq!((of(3).text(), of(3).status), (list(&good_deck(124)), Some(0)));
}

#[test]
fn a_write_that_fails_is_told() {
    told(&said_to_full("lister", &[], &good_deck(1)), "lister: the text was not written\n");
    for arguments in [&[][..], &["add"], &["apsp"], &["trap"], &["readings"]] {
        told(&said_to_full("ship", arguments, &[]), "ship: the deck was not written\n");
    }
}

#[test]
fn the_shipped_decks_have_the_shipped_words() {
    let lesson = lesson();
    let decks = [(&[][..], &SHIPPED[..]), (&["add"], &SHIPPED), (&["apsp"], &APSP), (&["trap"], &lesson)];
    for (arguments, words) in decks {
        let said = said("ship", arguments, &[]);
        assert!(said.well(), "{said:?}");
        assert_eq!(said.out, deck_of(words), "{arguments:?}");
    }
}

/// Behind the 21 shipped words: G and a carry in go to G, on to 016; and the return word, which lets no bit into its sum.
#[test]
fn the_lesson_has_a_routine_of_two_words() {
    let counts = build(0x15, &[("CN", 5), ("CH", 1), ("CM", 1), ("CA", 10), ("CD", 10), ("CF", 3), ("CC", 1)]);
    let returns = build(0x16, &[("CM", 1), ("CU", 3), ("CA", 4)]);
    let words = words_of(&said("ship", &["trap"], &[]).out).expect("a deck");
    assert_eq!((words.len(), &words[..21]), (23, &SHIPPED[..]));
    assert_eq!([Ok(words[21]), Ok(words[22])], [counts, returns]);
}

/// A word for each of the seven codes on which the readings differ, and stops between them; at 01, 05 and 07 nothing leads there.
#[test]
fn the_lesson_of_the_readings_has_each_of_the_seven_codes() {
    let asks: [(u32, &[(&str, u8)]); 7] = [
        (0x00, &[("CH", 1), ("CL", 6)]),
        (0x03, &[("CN", 1), ("CH", 8)]),
        (0x06, &[("CN", 2), ("CL", 4)]),
        (0x09, &[("CN", 2), ("CH", 1), ("CL", 12)]),
        (0x0B, &[("CN", 3), ("CS", 5)]),
        (0x0C, &[("CN", 3), ("CL", 1), ("CS", 15)]),
        (0x0D, &[("CN", 3), ("CH", 3)]),
    ];
    let words = words_of(&said("ship", &["readings"], &[]).out).expect("a deck");
    assert_eq!(words.len(), 15);
    for (at, word) in (0..).zip(words) {
        let fields = asks.iter().find(|(place, _)| *place == at).map_or(&[("CF", 4)][..], |(_, fields)| *fields);
        let all: Vec<(&str, u8)> = fields.iter().copied().chain([("CM", 1), ("CA", 4)]).collect();
        assert_eq!(Ok(word), build(at, &all), "{at:03X}");
    }
}

#[test]
fn what_ship_does_not_know_is_told() {
    let names = ["", "ad", "adds", "ap", "sp", "APSP", "apsp ", "apspapsp", "apspapspapsp", "help"];
    let traps = ["tra", "traps", "TRAP", " trap", "traptrap", "return"];
    let readings = ["reading", "readingss", "READINGS", "readingsreadings"];
    for name in names.into_iter().chain(traps).chain(readings) {
        told(&said("ship", &[name], &[]), "ship: argument 1 is neither add, apsp, trap nor readings\n");
    }
    for arguments in [&["add", "apsp"][..], &["apsp", ""], &["trap", "add"], &["x", "y", "z"]] {
        told(&said("ship", arguments, &[]), "ship: argument 2 is one too many\n");
    }
}
