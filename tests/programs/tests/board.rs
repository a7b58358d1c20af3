//! The board's program: all that it prints of additions, runs, readings, traps, two boards, lamps and the walk, byte for byte
//! beside the second engine's text; and all that it tells on standard error, with the status that its root command ends with.

#[path = "../../second/tests/common/mod.rs"]
mod common;

use common::fences::{self, draw_fences, draw_seated, fence};
use common::{one_of, running_word, Bench, Codes, SEVEN, STOP};
use programs::{
    breaking, command, deck_of, failing_reads, file, folder, lesson, mend, root, run, said, said_to, said_to_full,
    typed_in, Said,
};
use second::board::{self, in_words, Trap, Two, View};
use second::deck::{words_of, BLOCK, LONGEST};
use second::panel::STATE;
use second::random::Random;
use second::reading::Reading::{self, Basic, Compatibility};
use second::run::Ending;
use second::session::Fence;
use second::shipped;
use second::signed::write_signed;
use second::state::{State, G, I, J, L, M, N, R, S, T, U, V};
use second::word::build;
use std::collections::BTreeSet;
use std::fs::{self, File};
use std::os::unix::fs::symlink;
use std::path::{Path, PathBuf};
use std::process::Command;
use std::time::{Duration, Instant};

// ---- what is compared

fn board(arguments: &[&str]) -> Said {
    said("board", arguments, &[])
}

/// They are the same, or the first line that differs is shown: they may be long.
fn same(got: &[u8], expected: &str, what: &[&str]) {
    if got == expected.as_bytes() {
        return;
    }
    let got = String::from_utf8_lossy(got);
    let (got, expected): (Vec<&str>, Vec<&str>) = (got.split('\n').collect(), expected.split('\n').collect());
    let place = got.iter().zip(&expected).take_while(|(one, other)| one == other).count();
    panic!("line {place} of {what:?}: {:?} for {:?}", got.get(place), expected.get(place));
}

/// It prints this, and nothing is wrong.
fn prints(arguments: &[&str], text: &str) {
    let said = board(arguments);
    same(&said.out, text, arguments);
    assert!(said.well(), "{arguments:?}: {} {:?}", said.err, said.status);
}

/// It prints nothing, and tells this one line.
fn tells(arguments: &[&str], line: &str) {
    let said = board(arguments);
    let told = (said.text(), said.err, said.status);
    assert_eq!(told, (String::new(), format!("board: {line}\n"), Some(1)), "{arguments:?}");
}

fn strs(texts: &[String]) -> Vec<&str> {
    texts.iter().map(String::as_str).collect()
}

/// FROM and TO of a view, where they leave something out.
fn bounds(view: &View) -> Vec<String> {
    let from = (view.from != 0).then(|| format!("FROM={}", view.from));
    let to = (view.to != u64::MAX).then(|| format!("TO={}", view.to));
    from.into_iter().chain(to).collect()
}

/// A command as a view wants it, as lines or as lamps.
fn viewed(mut arguments: Vec<String>, view: &View) -> Vec<String> {
    arguments.extend(bounds(view));
    if view.lamps {
        arguments.insert(0, "lamps".into());
    }
    arguments
}

/// An addition prints what the second engine prints.
fn adds(first: &str, second: &str, carry: Option<bool>, view: &View) {
    let mut arguments: Vec<String> = ["add", first, second].map(str::to_owned).into();
    arguments.extend(carry.map(|carry| u8::from(carry).to_string()));
    prints(&strs(&viewed(arguments, view)), &board::add(first, second, carry == Some(true), view));
}

/// AP and SP, by whether they subtract.
const SIGNED: [(&str, bool); 2] = [("ap", false), ("sp", true)];

/// AP and SP of two numbers print what the second engine prints.
fn sums(first: &str, second: &str, view: &View) {
    for (name, subtract) in SIGNED {
        let arguments = viewed([name, first, second].map(str::to_owned).into(), view);
        prints(&strs(&arguments), &board::signed(first, second, subtract, view));
    }
}

const NAMES: [&str; 13] = ["I", "J", "U", "V", "L", "T", "D", "R", "S", "G", "H", "M", "N"];

/// The registers of a state that are not 0.
fn given(state: &State) -> Vec<String> {
    let mut given: Vec<String> = NAMES
        .iter()
        .zip(state.registers)
        .filter(|(_, byte)| *byte != 0)
        .map(|(name, byte)| format!("{name}={byte:02X}"))
        .collect();
    if state.wx != 0 {
        given.push(format!("WX={:03X}", state.wx));
    }
    given
}

/// A deck and an image in a test's own folder.
struct Files {
    deck: String,
    main: String,
}

fn files(here: &Path, store: &[u64], main: &[u8]) -> Files {
    Files { deck: file(here, "deck", &deck_of(store)), main: file(here, "main", main) }
}

/// What a run tells on standard error: each refused trap, the first of those that it did not come to, and its own refusal.
fn told_of_run(text: &str, ending: Ending, traps: &[Trap]) -> String {
    let lines = |start: &str| text.lines().filter(|line| line.starts_with(start)).count();
    let mut told = "board: a trap was refused\n".repeat(lines("TRAP REFUSED "));
    let cycles: BTreeSet<u64> = traps.iter().map(|trap| trap.before).collect();
    if let Some(missed) = cycles.iter().nth(lines("TRAP ")) {
        told += &format!("board: the run ended before the trap of cycle {missed}\n");
    }
    if matches!(ending, Ending::Refused { .. }) {
        told += "board: the run was refused\n";
    }
    told
}

/// Traps as they are asked for, in this order.
fn asked(traps: &[Trap]) -> Vec<String> {
    traps.iter().map(|Trap { before, address }| format!("TRAP={before}:{address:03X}")).collect()
}

/// How a deck may be asked to be read.
const READINGS: [Option<Reading>; 3] = [None, Some(Basic), Some(Compatibility)];

/// "READING=B is basic, and so is a run without it."
fn in_force(reading: Option<Reading>) -> Reading {
    reading.unwrap_or(Basic)
}

/// A reading as it is asked for.
fn spelt(reading: Reading) -> &'static str {
    match reading {
        Basic => "READING=B",
        Compatibility => "READING=C",
    }
}

/// A run from given registers prints what the second engine prints, and tells what went wrong in it.
fn runs_read(here: &Path, reading: Option<Reading>, bench: &Bench, budget: u64, traps: &[Trap], view: &View) -> Ending {
    let Files { deck, main } = files(here, &bench.store, &bench.main);
    let mut arguments = vec!["run".to_owned(), deck, main, budget.to_string()];
    arguments.extend(given(&bench.state).into_iter().chain(asked(traps)));
    arguments.extend(reading.map(|reading| spelt(reading).to_owned()));
    let arguments = viewed(arguments, view);
    let reading = in_force(reading);
    let (text, ending) = board::run_with_traps(reading, &bench.store, &bench.main, bench.state, budget, traps, view);
    let said = board(&strs(&arguments));
    same(&said.out, &text, &strs(&arguments));
    let told = told_of_run(&text, ending, traps);
    let status = i32::from(!told.is_empty());
    assert_eq!((said.err, said.status), (told, Some(status)), "{arguments:?}");
    ending
}

/// The same with no reading asked for.
fn runs_with(here: &Path, bench: &Bench, budget: u64, traps: &[Trap], view: &View) -> Ending {
    runs_read(here, None, bench, budget, traps, view)
}

/// The same with no trap.
fn runs(here: &Path, bench: &Bench, budget: u64, view: &View) -> Ending {
    runs_with(here, bench, budget, &[], view)
}

/// So many words that stop, over 1,024 bytes.
fn stops(words: usize) -> Bench {
    let mut bench = Bench::new(words);
    for address in 0..words {
        bench.put(address, STOP);
    }
    bench
}

/// Two words that count J up by one and I by three, for ever.
fn endless() -> Bench {
    let mut bench = stops(2);
    bench.then(0, 1, &[("CA", 14), ("CB", 3), ("CK", 1), ("CF", 3), ("CG", 1), ("CD", 14)]);
    bench.then(1, 0, &[("CA", 15), ("CB", 3), ("CK", 3), ("CF", 3), ("CG", 1), ("CD", 15)]);
    bench
}

fn ends_with(said: &Said, line: &str) {
    assert_eq!(said.text().lines().last(), Some(line));
}

// ---- additions

fn drawn_digits(random: &mut Random, count: u64, base: u64) -> String {
    (0..count).map(|_| b"0123456789abcdefABCDEF"[random.below(base) as usize] as char).collect()
}

/// Every count of digits from 1 to 32, as the first and as the second number.
#[test]
fn numbers_of_every_length_are_added() {
    let random = &mut Random::new(91);
    for count in 1..=32 {
        let other = 1 + random.below(32);
        let [long, short] = [count, other].map(|count| drawn_digits(random, count, 10));
        let carry = [None, Some(false), Some(true)][random.below(3) as usize];
        adds(&long, &short, carry, &View::LINES);
        adds(&short, &long, carry, &View::LINES);
    }
}

/// Two digits a byte, as many bytes as the longer number needs: the literal lines, beside the second engine's.
#[test]
fn sums_are_printed_with_all_their_digits() {
    let nines = "9".repeat(32);
    let zeros = "0".repeat(32);
    for (first, second, carry, line) in [
        ("38", "47", None, "38 + 47 = 85 CARRY 0"),
        ("5", "4", None, "5 + 4 = 09 CARRY 0"),
        ("5", "5", Some(false), "5 + 5 = 10 CARRY 0"),
        ("99", "0", Some(true), "99 + 0 = 00 CARRY 1"),
        ("1", "999", None, "1 + 999 = 1000 CARRY 0"),
        ("00001", "0", None, "00001 + 0 = 000001 CARRY 0"),
        (&nines, "0", Some(true), &format!("{nines} + 0 = {zeros} CARRY 1")),
        ("0", &nines, Some(false), &format!("0 + {nines} = {nines} CARRY 0")),
        (&nines, &nines, Some(true), &format!("{nines} + {nines} = {nines} CARRY 1")),
    ] {
        adds(first, second, carry, &View::LINES);
        let carry = carry.map(|carry| u8::from(carry).to_string());
        let arguments: Vec<&str> = ["add", first, second].into_iter().chain(carry.as_deref()).collect();
        ends_with(&board(&arguments), line);
    }
}

/// Digits from A on, large or small, in any place of either number.
#[test]
fn bad_digits_are_shown() {
    for (first, second, line) in [
        ("A", "1", "A + 1: BAD DIGIT"),
        ("1", "a", "1 + a: BAD DIGIT"),
        ("9f99", "1", "9f99 + 1: BAD DIGIT"),
        ("12345678", "B0000000", "12345678 + B0000000: BAD DIGIT"),
    ] {
        adds(first, second, None, &View::LINES);
        ends_with(&board(&["add", first, second]), line);
    }
    let random = &mut Random::new(97);
    for _ in 0..20 {
        let [one, other] = [0; 2].map(|_| 1 + random.below(32));
        let [first, second] = [one, other].map(|count| drawn_digits(random, count, 22));
        adds(&first, &second, Some(true), &View::LINES);
    }
}

/// The fields' starts, the length of the longer number in bytes, and the carry or SP are where the shipped words want them.
#[test]
fn the_state_before_the_first_cycle_is_shown() {
    for (arguments, length, s) in [
        (&["add", "1234567", "1", "1", "TO=0"][..], "04", "10"),
        (&["ap", "1234567", "1", "TO=0"], "04", "00"),
        (&["sp", "1", "12345678", "TO=0"], "05", "80"),
    ] {
        let line = board(arguments).text().lines().nth(1).map(str::to_owned);
        let expected = format!(
            "      0 --- 01 00 02 00 {length} 00 00 00 {s} 00 00 00 00 0000  0   0  0  0  0  0 00  0   0 0000  0"
        );
        assert_eq!(line, Some(expected));
    }
}

// ---- AP and SP

/// A number with its sign, in one of the ways in which one is typed. After : any digit may stand.
fn drawn_sign(random: &mut Random, digits: &str) -> String {
    match random.below(6) {
        0 => format!("+{digits}"),
        1 => format!("-{digits}"),
        2 => format!("{digits}+"),
        3 => format!("{digits}-"),
        4 => format!("{digits}:{}", drawn_digits(random, 1, 22)),
        _ => digits.to_owned(),
    }
}

/// Every count of digits from 1 to 31, as the first and as the second number.
#[test]
fn numbers_of_every_length_are_added_and_subtracted() {
    let random = &mut Random::new(109);
    for count in 1..=31 {
        let other = 1 + random.below(31);
        let base = one_of(random, &[10, 10, 10, 11]);
        let [long, short] = [count, other].map(|count| drawn_digits(random, count, base));
        let [long, short] = [long, short].map(|digits| drawn_sign(random, &digits));
        sums(&long, &short, &View::LINES);
        sums(&short, &long, &View::LINES);
    }
}

/// One digit fewer than two a byte, and the sign: the literal lines, beside the second engine's.
#[test]
fn signed_sums_are_printed_with_all_their_digits() {
    let (nines, zeros) = ("9".repeat(31), "0".repeat(31));
    let (minus, last) = (format!("{nines}-"), format!("{}8-", "9".repeat(30)));
    for (name, first, second, line) in [
        ("ap", "138", "117", "138 AP 117 = 255+"),
        ("sp", "190", "200", "190 SP 200 = 010-"),
        ("ap", "190+", "200-", "190+ AP 200- = 010-"),
        ("sp", "-7", "+07", "-7 SP +07 = 014-"),
        ("ap", "12:F", "3:b", "12:F AP 3:b = 009+"),
        ("sp", "5", "5", "5 SP 5 = 0+"),
        ("ap", "0-", "-0", "0- AP -0 = 0+"),
        ("ap", "5-", "5-", "5- AP 5- = 0- OVERFLOW"),
        ("sp", "999", "1-", "999 SP 1- = 000+ OVERFLOW"),
        ("ap", &nines, &minus, &format!("{nines} AP {minus} = {zeros}+")),
        ("sp", &minus, &nines, &format!("{minus} SP {nines} = {last} OVERFLOW")),
    ] {
        sums(first, second, &View::LINES);
        ends_with(&board(&[name, first, second]), line);
    }
}

/// Digits from A on in any place, and sign digits below A.
#[test]
fn bad_digits_and_signs_are_shown() {
    for (first, second) in [("A", "1"), ("1", "a-"), ("+9f99", "1"), ("190:5", "200"), ("1", "0:0"), ("b:9", "1:c")] {
        sums(first, second, &View::LINES);
        for (name, _) in SIGNED {
            let line = format!("{first} {} {second}: BAD DIGIT OR SIGN", name.to_uppercase());
            ends_with(&board(&[name, first, second]), &line);
        }
    }
}

// ---- runs

/// A shipped program's deck, run over these fields, prints the lines of the command that adds them, but for the last.
fn runs_as(program: &[&str], fields: [&[u8]; 2], start: State, text: &str) {
    let here = folder("board_shipped");
    let mut main = vec![0; 1024];
    for (at, field) in [0x100, 0x200].into_iter().zip(fields) {
        main[at..at + field.len()].copy_from_slice(field);
    }
    let (deck, main) = (file(&here, "deck", &said("ship", program, &[]).out), file(&here, "main", &main));
    let registers = given(&start);
    let arguments = [&["run", &deck, &main, "1000"], &strs(&registers)[..]].concat();
    let (lines, _) = text.trim_end().rsplit_once('\n').expect("a line before the last");
    for reading in READINGS {
        prints(&[&arguments[..], &Vec::from_iter(reading.map(spelt))].concat(), &format!("{lines}\n"));
    }
}

/// They have none of the seven codes, and so the reading of their decks does not matter.
#[test]
fn the_shipped_decks_run_as_the_commands_do() {
    let start = shipped::start(0x100, 0x200, 1, false);
    runs_as(&[], [&[0x38], &[0x47]], start, &board::add("38", "47", false, &View::LINES));
    for (_, subtract) in SIGNED {
        let start = shipped::start_apsp(0x100, 0x200, 2, subtract);
        let fields: [&[u8]; 2] = [&[0x19, 0x0C], &[0x20, 0x0D]];
        runs_as(&["apsp"], fields, start, &board::signed("190", "200-", subtract, &View::LINES));
    }
}

/// A bench of which every part that the command line gives is drawn. Half of the stores have nothing but words that run, and in
/// a quarter of all, one word in eight stops.
fn drawn(random: &mut Random) -> Bench {
    let words = one_of(random, &[1, 62, 63, 256, 1000, 4096, 4096]);
    let (mut bench, stopping) = (common::draw_bench(random, words), random.below(4) == 0);
    if random.below(2) == 0 {
        bench.store = (0..words as u32).map(|address| running_word(random, address)).collect();
    }
    for address in (0..words).step_by(8).filter(|_| stopping) {
        bench.put(address, STOP);
    }
    let size = one_of(random, &[1, 255, 256, 257, 1024, 65_536, 65_536]);
    bench.main = common::draw_bytes(random, size);
    let State { registers, wx, .. } = bench.state;
    let wx = if random.below(16) == 0 { 0xFFF } else { wx };
    bench.state = State { wx, registers, ..State::default() };
    for byte in &mut bench.state.registers {
        *byte *= u8::from(random.below(2) == 0);
    }
    bench
}

/// The ending's kind, and the number and field of a refusal.
fn kind(ending: Ending) -> (&'static str, u8, u8) {
    match ending {
        Ending::Stopped => ("stopped", 0, 0),
        Ending::Spent => ("spent", 0, 0),
        Ending::Refused { number, field } => ("refused", number, field),
    }
}

#[test]
fn drawn_decks_and_images_are_run() {
    let (random, here) = (&mut Random::new(101), folder("board_drawn"));
    let mut seen = BTreeSet::new();
    for _ in 0..120 {
        let bench = drawn(random);
        let budget = one_of(random, &[0, 1, 2, 3, 40, 300, 300, 3000]);
        seen.insert(kind(runs(&here, &bench, budget, &View::LINES)));
    }
    for expected in [("stopped", 0, 0), ("spent", 0, 0), ("refused", 2, 0), ("refused", 11, 0)] {
        assert!(seen.contains(&expected), "{expected:?} of {seen:?}");
    }
    assert!(seen.iter().filter(|(_, number, _)| *number == 10).count() > 3, "{seen:?}");
}

/// A word with this code at 005, after one that ran, is refused by 10 with its field.
fn refuses_code(here: &Path, reading: Option<Reading>, name: &str, code: u8) {
    let mut bench = stops(6);
    bench.then(0, 5, &[]);
    bench.put(5, &[(name, code)]);
    assert_eq!(kind(runs_read(here, reading, &bench, 2, &[], &View::LINES)).1, 10, "{name} {code}, {reading:?}");
    let Files { deck, main } = files(here, &bench.store, &bench.main);
    let line = format!("REFUSED 10 {name} AT 005: a code is not modelled");
    let arguments: Vec<&str> = ["run", &deck, &main, "2"].into_iter().chain(reading.map(spelt)).collect();
    ends_with(&board(&arguments), &line);
}

/// Each field that can have a code that is not modelled, whatever the reading.
#[test]
fn refusal_10_names_its_field() {
    let here = folder("board_fields");
    let codes: [(&str, u8); 10] =
        [("CH", 4), ("CL", 3), ("CM", 6), ("CU", 1), ("CA", 6), ("AA", 1), ("AK", 1), ("CD", 4), ("CS", 14), ("AS", 1)];
    for (name, code) in codes {
        for reading in READINGS {
            refuses_code(&here, reading, name, code);
        }
    }
}

/// What a word's run over so many bytes ends with, as it is written.
fn ends(here: &Path, codes: Codes, main: &[u8], arguments: &[&str], line: &str) {
    let mut bench = stops(4);
    bench.then(0, 1, codes);
    let Files { deck, main } = files(here, &bench.store, main);
    ends_with(&board(&[&["run", &deck, &main], arguments].concat()), line);
}

#[test]
fn endings_name_the_address() {
    let here = folder("board_endings");
    let read: Codes = &[("CM", 3)];
    ends(&here, &[], &[0], &["9"], "STOPPED AT 001");
    ends(&here, &[], &[0], &["1"], "SPENT AT 001");
    ends(&here, &[], &[0], &["0"], "SPENT AT 000");
    ends(&here, &[], &[0], &["0", "WX=abc"], "SPENT AT ABC");
    ends(&here, &[], &[0], &["9", "WX=3"], "STOPPED AT 003");
    ends(&here, &[], &[0], &["9", "WX=4"], "REFUSED 2 AT 004: WX is not in the word store");
    ends(&here, read, &[7], &["9", "J=0"], "STOPPED AT 001");
    ends(
        &here,
        read,
        &[7],
        &["9", "J=1"],
        "REFUSED 11 AT 000: the main address is not in main storage, or not in the fence",
    );
}

/// The first and the last byte of the smallest and the largest image: both are read.
#[test]
fn images_of_every_size_are_read_whole() {
    let here = folder("board_images");
    for (size, at) in [(1, 0), (256, 255), (65_535, 65_534), (65_536, 65_535), (65_536, 0)] {
        let mut bench = stops(2);
        bench.then(0, 1, &[("CM", 3)]);
        bench.main = vec![0; size];
        bench.main[at] = 0xA7;
        let [high, low] = (at as u16).to_be_bytes();
        bench.set(&[(I, high), (J, low)]);
        assert_eq!(runs(&here, &bench, 9, &View::LINES), Ending::Stopped);
        let Files { deck, main } = files(&here, &bench.store, &bench.main);
        let said = board(&["run", &deck, &main, "1", &format!("I={high:X}"), &format!("J={low:X}"), "FROM=1"]);
        assert_eq!(said.text().lines().nth(1).map(|line| &line[73..77]), Some("1 A7"), "{size}");
    }
}

/// Each register by its name, with one digit or two, in large letters and small.
#[test]
fn each_register_is_given_by_its_name() {
    let here = folder("board_registers");
    let bench = endless();
    let Files { deck, main } = files(&here, &bench.store, &bench.main);
    let prints_with = |given: &[String], state: State| {
        let (text, _) = board::run(Basic, &bench.store, &bench.main, state, 1, &View::LINES);
        prints(&[&["run", &deck, &main, "1"], &strs(given)[..]].concat(), &text);
    };
    for (place, name) in NAMES.iter().enumerate() {
        for (text, value) in [("7", 0x07), ("c", 0x0C), ("E0", 0xE0), ("fb", 0xFB), ("00", 0)] {
            let mut state = State::default();
            state.registers[place] = value;
            prints_with(&[format!("{name}={text}")], state);
        }
        let mut state = State::default();
        state.registers[place] = 0xAB;
        prints_with(&[format!("{}=aB", name.to_lowercase())], state);
    }
    for (text, wx) in [("WX=1", 1), ("wx=01", 1), ("Wx=001", 1), ("wX=0", 0)] {
        prints_with(&[text.to_owned()], State { wx, ..State::default() });
    }
    let all: State = State { registers: std::array::from_fn(|place| 0xF1 - place as u8), wx: 1, ..State::default() };
    let mut given = given(&all);
    prints_with(&given, all);
    given.reverse();
    prints_with(&given, all);
}

#[test]
fn a_budget_has_one_to_seven_digits() {
    let here = folder("board_budgets");
    let bench = stops(1);
    let Files { deck, main } = files(&here, &bench.store, &bench.main);
    let (text, _) = board::run(Basic, &bench.store, &bench.main, bench.state, 1, &View::LINES);
    for budget in ["1", "0000001", "999999", "1000000"] {
        prints(&["run", &deck, &main, budget], &text);
    }
}

// ---- readings

const NO_CH: &str = "REFUSED 10 CH AT 000: a code is not modelled";
const NO_CL: &str = "REFUSED 10 CL AT 000: a code is not modelled";
const NO_CS: &str = "REFUSED 10 CS AT 000: a code is not modelled";

/// A word's code, the register that it is run from, and how a run of one cycle ends in basic and in compatibility.
const READ: [(&str, u8, &str, [&str; 2]); 14] = [
    ("CH", 3, "V=FC", ["SPENT AT 002", NO_CH]),
    ("CH", 3, "V=01", ["SPENT AT 000", NO_CH]),
    ("CH", 8, "S=40", ["SPENT AT 002", "SPENT AT 000"]),
    ("CH", 8, "R=20", ["SPENT AT 000", "SPENT AT 002"]),
    ("CL", 4, "G=40", [NO_CL, "SPENT AT 001"]),
    ("CL", 4, "G=BF", [NO_CL, "SPENT AT 000"]),
    ("CL", 6, "R=40", ["SPENT AT 000", "SPENT AT 001"]),
    ("CL", 6, "R=BF", ["SPENT AT 000", "SPENT AT 000"]),
    ("CL", 12, "R=10", [NO_CL, "SPENT AT 001"]),
    ("CL", 12, "R=EF", [NO_CL, "SPENT AT 000"]),
    ("CS", 5, "S=00", [NO_CS, "SPENT AT 000"]),
    ("CS", 5, "S=40", [NO_CS, "SPENT AT 000"]),
    ("CS", 15, "S=FF", [NO_CS, "SPENT AT 000"]),
    ("CS", 15, "S=BF", [NO_CS, "SPENT AT 000"]),
];

/// Each of the seven codes as request 7 has it; a run that is refused under one reading is not under the other.
#[test]
fn a_code_is_read_as_asked() {
    let here = folder("board_read");
    for (name, code, register, lines) in READ {
        let mut bench = stops(1);
        bench.put(0, &[(name, code)]);
        let Files { deck, main } = files(&here, &bench.store, &bench.main);
        for reading in READINGS {
            let line = lines[usize::from(in_force(reading) == Compatibility)];
            let run: Vec<&str> = ["run", &deck, &main, "1", register].into_iter().chain(reading.map(spelt)).collect();
            for arguments in [run.clone(), [&["lamps"], &run[..]].concat()] {
                let said = board(&arguments);
                ends_with(&said, line);
                let refused = line.starts_with("REFUSED");
                let told = if refused { "board: the run was refused\n" } else { "" };
                assert_eq!((said.err.as_str(), said.status), (told, Some(i32::from(refused))), "{arguments:?}");
            }
        }
    }
}

/// All lines of it set out by hand: CS 5 turns S1 on, CL 4 tests G1, CL 12 R3, CL 6 R1, CH 8 R2, CS 15 turns S1 off, and CH 3
/// is not modelled.
#[test]
fn a_run_in_compatibility_is_as_it_was_set_out() {
    let here = folder("board_compatible");
    let mut bench = stops(0x1A);
    for (address, codes) in [
        (0x00, [("CN", 1), ("CS", 5)]),
        (0x04, [("CN", 2), ("CL", 4)]),
        (0x09, [("CN", 3), ("CL", 12)]),
        (0x0D, [("CN", 4), ("CL", 6)]),
        (0x10, [("CN", 5), ("CH", 8)]),
        (0x16, [("CN", 6), ("CS", 15)]),
        (0x18, [("CN", 0), ("CH", 3)]),
    ] {
        bench.put(address, &codes);
    }
    let Files { deck, main } = files(&here, &bench.store, &bench.main);
    let expected = "  CYCLE  AT  I  J  U  V  L  T  D  R  S  G  H  M  N   WX AC 1BC Z0 AW LS AR AB DC INV  FWX OW  A GA  B GB EB CI BEFORE AFTER
      0 --- 00 00 00 00 00 00 00 30 81 40 00 00 00 0000  0   0  0  0  0  0 00  0   0 0000  0
      1 000 00 00 00 00 00 00 00 30 C1 40 00 00 00 0004  0   0  1  0  0  0 00  0   0 0000  0 81 00 30 00 00  0     00    00
      2 004 00 00 00 00 00 00 00 30 C1 40 00 00 00 0009  0   0  1  0  0  0 00  0   0 0000  0 C1 00 30 00 00  0     00    00
      3 009 00 00 00 00 00 00 00 30 C1 40 00 00 00 000D  0   0  1  0  0  0 00  0   0 0000  0 C1 00 30 00 00  0     00    00
      4 00D 00 00 00 00 00 00 00 30 C1 40 00 00 00 0010  0   0  1  0  0  0 00  0   0 0000  0 C1 00 30 00 00  0     00    00
      5 010 00 00 00 00 00 00 00 30 C1 40 00 00 00 0016  0   0  1  0  0  0 00  0   0 0000  0 C1 00 30 00 00  0     00    00
      6 016 00 00 00 00 00 00 00 30 81 40 00 00 00 0018  0   0  1  0  0  0 00  0   0 0000  0 C1 00 30 00 00  0     00    00
REFUSED 10 CH AT 018: a code is not modelled
";
    let said = board(&["run", &deck, &main, "9", "R=30", "S=81", "G=40", "READING=C"]);
    same(&said.out, expected, &["compatibility"]);
    assert_eq!((said.err.as_str(), said.status), ("board: the run was refused\n", Some(1)));
    bench.set(&[(R, 0x30), (S, 0x81), (G, 0x40)]);
    for reading in READINGS {
        runs_read(&here, reading, &bench, 9, &[], &View::LINES);
        runs_read(&here, reading, &bench, 9, &[], &View::LAMPS);
    }
}

/// The carry of 7F + 01 into bit 0 is 1BC, which CL 6 tests in basic alone.
#[test]
fn cl_6_tests_1bc_or_r1() {
    let here = folder("board_1bc");
    let mut bench = stops(6);
    bench.then(0, 1, &[("CA", 14), ("CB", 3), ("CK", 1), ("CF", 3), ("CG", 1), ("CD", 14)]);
    bench.put(1, &[("CN", 1), ("CL", 6)]);
    for (j, r, lines) in [
        (0x7F, 0x00, ["STOPPED AT 005", "STOPPED AT 004"]),
        (0x00, 0x40, ["STOPPED AT 004", "STOPPED AT 005"]),
        (0x7F, 0x40, ["STOPPED AT 005"; 2]),
        (0x00, 0xBF, ["STOPPED AT 004"; 2]),
    ] {
        bench.set(&[(J, j), (R, r)]);
        let Files { deck, main } = files(&here, &bench.store, &bench.main);
        for reading in READINGS {
            runs_read(&here, reading, &bench, 9, &[], &View::LINES);
            let registers = given(&bench.state);
            let run = ["run", &deck, &main, "9"].into_iter().chain(strs(&registers)).chain(reading.map(spelt));
            ends_with(&board(&run.collect::<Vec<_>>()), lines[usize::from(in_force(reading) == Compatibility)]);
        }
    }
}

/// A drawn bench, its store fit for a reading; in half of them one word in sixteen has any of the codes that are told apart.
fn drawn_for(random: &mut Random, reading: Reading) -> Bench {
    let mut bench = drawn(random);
    if reading == Compatibility {
        bench = common::in_compatibility(random, bench);
    }
    let one_in = one_of(random, &[16, u64::MAX]);
    for (address, word) in (0..).zip(&mut bench.store) {
        if random.below(one_in) == 0 {
            *word = common::with_code(*word, address, one_of(random, &SEVEN));
        }
    }
    bench
}

#[test]
fn drawn_decks_are_run_as_they_are_read() {
    let (random, here) = (&mut Random::new(127), folder("board_readings"));
    let mut seen = BTreeSet::new();
    for _ in 0..200 {
        let reading = one_of(random, &READINGS);
        let bench = drawn_for(random, in_force(reading));
        let (budget, lamps) = (one_of(random, &[1, 2, 40, 300]), random.below(4) == 0);
        let ending = runs_read(&here, reading, &bench, budget, &[], &View { lamps, ..View::LINES });
        seen.insert((in_force(reading) == Compatibility, kind(ending)));
    }
    for (compatibility, expected) in [
        (false, ("stopped", 0, 0)),
        (false, ("spent", 0, 0)),
        (false, ("refused", 10, 5)),
        (false, ("refused", 10, 20)),
        (true, ("stopped", 0, 0)),
        (true, ("spent", 0, 0)),
        (true, ("refused", 10, 4)),
    ] {
        assert!(seen.contains(&(compatibility, expected)), "{compatibility} {expected:?} of {seen:?}");
    }
}

#[test]
fn traps_break_in_whatever_the_reading() {
    let (random, here) = (&mut Random::new(131), folder("board_read_traps"));
    for _ in 0..60 {
        let reading = one_of(random, &READINGS);
        let mut bench = drawn_for(random, in_force(reading));
        for address in (1..bench.store.len()).step_by(4) {
            bench.put(address, &[("CU", 3)]);
        }
        let asked = drawn_traps(random, bench.store.len() as u64);
        let view = View { lamps: random.below(4) == 0, ..View::LINES };
        runs_read(&here, reading, &bench, 40, &asked, &view);
    }
}

/// Neither the endless words nor the word P have one of the seven codes.
#[test]
fn a_deck_with_none_of_the_seven_codes_prints_the_same() {
    let here = folder("board_same");
    let p = Bench { store: vec![common::P], ..stops(1) };
    for bench in [endless(), endless_with_routine(), p] {
        let Files { deck, main } = files(&here, &bench.store, &bench.main);
        for arguments in [&["run", &deck, &main, "300", "R=FF"][..], &["lamps", "run", &deck, &main, "30", "G=5A"]] {
            let of = |reading: Option<Reading>| board(&[arguments, &Vec::from_iter(reading.map(spelt))].concat());
            let [none, basic, compatibility] = READINGS.map(of);
            assert!(none.out.len() > 200 && none == basic && none == compatibility, "{none:?}");
        }
    }
}

/// The words of the trap, of which the first branches by CL 6: with R1 on it leads to itself in basic, until 1BC is on.
fn branching() -> Bench {
    let mut bench = endless_with_routine();
    bench.put(0, &[("CL", 6), ("CA", 14), ("CB", 3), ("CK", 1), ("CF", 3), ("CG", 1), ("CD", 14)]);
    bench.set(&[(R, 0x40), (J, 0x7A)]);
    bench
}

#[test]
fn a_reading_is_asked_for_in_large_letters_and_small_among_the_others() {
    let (here, bench) = (folder("board_read_spelt"), branching());
    let Files { deck, main } = files(&here, &bench.store, &bench.main);
    let view = View { from: 1, to: 15, ..View::LINES };
    let asked = traps([(3, 2), (9, 2)]);
    let text = |reading| board::run_with_traps(reading, &bench.store, &bench.main, bench.state, 20, &asked, &view).0;
    assert_ne!(text(Basic), text(Compatibility));
    let others = ["R=40", "TRAP=3:2", "FROM=1", "J=7A", "trap=9:002", "TO=15"];
    let run = ["run", &deck, &main, "20"];
    prints(&[&run, &others[..]].concat(), &text(Basic));
    for (reading, spellings) in [
        (Basic, ["READING=B", "reading=b", "Reading=B", "READING=b", "rEADING=B"]),
        (Compatibility, ["READING=C", "reading=c", "Reading=C", "READING=c", "reAdInG=C"]),
    ] {
        for (place, spelling) in (0..=others.len()).zip(spellings.into_iter().cycle()) {
            let (before, after) = others.split_at(place);
            prints(&[&run, before, &[spelling], after].concat(), &text(reading));
        }
    }
}

/// No letter, no reading, two, or another name.
const NO_READINGS: [&str; 26] = [
    "READING",
    "READING=",
    "READING=X",
    "READING=A",
    "READING=D",
    "READING=0",
    "READING=1",
    "READING=BC",
    "READING=CB",
    "READING=CC",
    "READING=BASIC",
    "READING=C,B",
    "READING==C",
    "READING=C=",
    "READING:C",
    "READING C",
    "READINGC",
    "READING= C",
    "READING=C ",
    " READING=C",
    "READINGS=C",
    "READIN=C",
    "EADING=C",
    "RE=C",
    "B",
    "C",
];

#[test]
fn a_reading_that_is_none_is_told() {
    let given = Files::endless("board_no_reading");
    let long = "READING=C".to_owned() + &"C".repeat(90);
    for argument in NO_READINGS.into_iter().chain([long.as_str()]) {
        given.tells(&[argument], 5, NEITHER);
        given.tells(&["READING=C", "TO=1", argument], 7, NEITHER);
    }
}

// ---- traps

fn traps<const COUNT: usize>(asked: [(u64, u32); COUNT]) -> [Trap; COUNT] {
    asked.map(|(before, address)| Trap { before, address })
}

/// The lesson's words over the fields of 38 and 47: 18 cycles and a stop. Its routine is at 015 and 016.
fn taught() -> Bench {
    let mut bench = Bench { store: lesson(), main: vec![0; 1024], ..stops(1) };
    [bench.main[0x100], bench.main[0x200]] = [0x38, 0x47];
    bench.state = shipped::start(0x100, 0x200, 1, false);
    bench
}

/// The endless words, and a routine at 002 and 003 that counts G up and returns.
fn endless_with_routine() -> Bench {
    let mut bench = endless();
    bench.store.resize(4, 0);
    bench.then(2, 3, &[("CA", 10), ("CB", 3), ("CK", 1), ("CF", 3), ("CG", 1), ("CD", 10)]);
    bench.put(3, &[("CU", 3)]);
    bench
}

/// Cycle 2 is the routine's, and the word broken into runs after its return: all set out by hand.
#[test]
fn a_trap_is_as_it_was_set_out() {
    let (here, bench) = (folder("board_trap"), endless_with_routine());
    let Files { deck, main } = files(&here, &bench.store, &bench.main);
    let expected = "  CYCLE  AT  I  J  U  V  L  T  D  R  S  G  H  M  N   WX AC 1BC Z0 AW LS AR AB DC INV  FWX OW  A GA  B GB EB CI BEFORE AFTER
      1 000 00 01 00 00 00 00 00 00 00 00 00 00 00 0001  0   0  0  0  0  0 00  0   0 0000  0 00 00 11 01 01  0     01    01
TRAP TO 002, FROM 001
      2 002 00 01 00 00 00 00 00 00 00 01 00 00 00 0003  0   0  0  0  0  0 00  0   0 0001  1 00 00 11 01 01  0     01    01
TRAP REFUSED 29 AT 003: a trap is open, and its return is owed
      3 003 00 01 00 00 00 00 00 00 00 01 00 00 00 0001  0   0  1  0  0  0 00  0   0 0001  0 00 00 00 00 00  0     00    00
TRAP REFUSED 30 AT 001: the trap address is over 4095
      4 001 03 01 00 00 00 00 00 00 00 01 00 00 00 0000  0   0  0  0  0  0 00  0   0 0001  0 00 00 33 03 03  0     03    03
SPENT AT 000
";
    let said = board(&["run", &deck, &main, "4", "TRAP=4:1000", "TRAP=2:002", "TRAP=3:FFFF", "FROM=1"]);
    same(&said.out, expected, &["traps"]);
    assert_eq!((said.err.as_str(), said.status), ("board: a trap was refused\nboard: a trap was refused\n", Some(1)));
}

/// Before cycle 19 the lesson stops; from cycle 20 on there is none to break into.
#[test]
fn a_trap_breaks_in_before_each_cycle() {
    let (here, bench) = (folder("board_traps"), taught());
    for before in (1..=22).chain([100, 101, 1_000_000]) {
        for view in [View::LINES, View::LAMPS] {
            assert_eq!(runs_with(&here, &bench, 100, &traps([(before, 0x15)]), &view), Ending::Stopped);
        }
    }
}

/// The routine has two cycles: one later a second trap is refused, whatever its address, and from two later on it is not.
#[test]
fn a_second_trap_is_taken_after_the_return() {
    let (here, bench) = (folder("board_second"), taught());
    for first in [1, 4, 9] {
        for (later, address) in (1..=4).flat_map(|later| [(later, 0x15), (later, 0x1000)]) {
            let mut both = traps([(first, 0x15), (first + later, address)]);
            runs_with(&here, &bench, 100, &both, &View::LINES);
            both.reverse();
            runs_with(&here, &bench, 100, &both, &View::LINES);
        }
    }
}

/// A trap that is refused has its line, and the lines of the run are those of a run without it.
#[test]
fn a_refused_trap_leaves_the_run_as_it_is() {
    let (here, bench) = (folder("board_thirty"), taught());
    let Files { deck, main } = files(&here, &bench.store, &bench.main);
    let registers = given(&bench.state);
    let of = |traps: &[&str]| board(&[&["run", &deck, &main, "100"], &strs(&registers)[..], traps].concat());
    for address in ["1000", "1015", "8000", "FFFF", "ffff"] {
        let said = of(&[&format!("TRAP=3:{address}")]);
        let text = said.text();
        let (trap, others): (Vec<&str>, Vec<&str>) = text.lines().partition(|line| line.starts_with("TRAP"));
        assert_eq!(trap, ["TRAP REFUSED 30 AT 002: the trap address is over 4095"]);
        assert_eq!(others, of(&[]).text().lines().collect::<Vec<_>>());
        assert_eq!((said.err.as_str(), said.status), ("board: a trap was refused\n", Some(1)));
        runs_with(&here, &bench, 100, &traps([(3, u32::from_str_radix(address, 16).unwrap())]), &View::LAMPS);
    }
}

/// From a stop, from a word that is refused and from where there is none; and to each of these, and back to the routine.
#[test]
fn a_trap_breaks_in_before_the_run_would_end() {
    let here = folder("board_ends");
    let mut bench = taught();
    bench.store.push(build(0x17, &[("CM", 6)]).expect("a word"));
    for wx in [0x00, 0x14, 0x16, 0x17, 0x18, 0xFFF] {
        for address in [0x00, 0x14, 0x15, 0x16, 0x17, 0x18, 0xFFF, 0x1000] {
            bench.state.wx = wx;
            let asked = traps([(1, address), (4, 0x15)]);
            runs_with(&here, &bench, 5, &asked[..1], &View::LINES);
            runs_with(&here, &bench, 5, &asked, &View::LINES);
        }
    }
}

/// The budget is spent before a trap, or just not.
#[test]
fn a_trap_that_is_not_reached_is_told_by_its_cycle() {
    let (here, bench) = (folder("board_missed"), endless_with_routine());
    for budget in 0..=4 {
        for before in 1..=5 {
            runs_with(&here, &bench, budget, &traps([(before, 2)]), &View::LINES);
            runs_with(&here, &bench, budget, &traps([(before + 3, 2), (before, 4096)]), &View::LINES);
        }
    }
    let Files { deck, main } = files(&here, &bench.store, &bench.main);
    let said = board(&["run", &deck, &main, "9", "TRAP=1000000:2", "TRAP=12:2", "TRAP=10:2", "TRAP=11:2"]);
    ends_with(&said, "SPENT AT 001");
    assert_eq!(said.err, "board: the run ended before the trap of cycle 10\n");
    assert_eq!(said.status, Some(1));
}

#[test]
fn the_line_of_a_trap_is_shown_whatever_is_left_out() {
    let (here, bench) = (folder("board_trap_edges"), taught());
    let asked = traps([(18, 0x15), (5, 0x15), (6, 0xFFF), (12, 0x15), (40, 0)]);
    for (from, to) in EDGES {
        for lamps in [false, true] {
            runs_with(&here, &bench, 100, &asked, &View { lamps, from, to });
        }
    }
}

/// One to five traps, most of them early: many drawn runs are short.
fn drawn_traps(random: &mut Random, words: u64) -> Vec<Trap> {
    let cycles: BTreeSet<u64> = (0..=random.below(5)).map(|_| one_of(random, &[1, 2, 2, 3, 3, 4, 5, 6, 12])).collect();
    let mut drawn: Vec<Trap> = cycles
        .into_iter()
        .map(|before| {
            let (inside, any) = (random.below(words) as u32, random.below(65_536) as u32);
            Trap { before, address: one_of(random, &[inside, inside, inside, inside, any]) }
        })
        .collect();
    let first = random.below(drawn.len() as u64) as usize;
    drawn.rotate_left(first);
    drawn
}

/// In half of the stores one word in four returns, so that a second trap may be taken.
#[test]
fn drawn_traps_break_into_drawn_runs() {
    let (random, here) = (&mut Random::new(113), folder("board_drawn_traps"));
    let (mut lines, mut again) = (Vec::new(), 0);
    for _ in 0..150 {
        let (mut bench, returning) = (drawn(random), random.below(2) == 0);
        for address in (1..bench.store.len()).step_by(4).filter(|_| returning) {
            bench.put(address, &[("CU", 3)]);
        }
        let asked = drawn_traps(random, bench.store.len() as u64);
        let (budget, lamps) = (one_of(random, &[1, 5, 40, 40, 300]), random.below(4) == 0);
        let view = View { lamps, ..View::LINES };
        let ending = runs_with(&here, &bench, budget, &asked, &view);
        let (text, _) = board::run_with_traps(Basic, &bench.store, &bench.main, bench.state, budget, &asked, &view);
        again += usize::from(text.matches("TRAP TO ").count() > 1);
        lines.extend((text.clone() + &told_of_run(&text, ending, &asked)).lines().map(str::to_owned));
    }
    for start in ["TRAP TO", "TRAP REFUSED 29", "TRAP REFUSED 30", "board: the run ended", "board: the run was refused"]
    {
        let count = lines.iter().filter(|line| line.starts_with(start)).count();
        assert!(count > 4, "{start}: {count}");
    }
    assert!(again > 4, "{again} runs are broken into twice");
}

/// One is made before every other cycle, and each has returned before the next; on the command line the last stands first.
#[test]
fn there_may_be_any_number_of_traps() {
    let (here, mut bench) = (folder("board_many"), endless_with_routine());
    bench.put(2, &[("CU", 3), ("CA", 10), ("CB", 3), ("CK", 1), ("CF", 3), ("CG", 1), ("CD", 10)]);
    let asked: Vec<Trap> = (1..=400).rev().map(|place| Trap { before: 2 * place, address: 2 }).collect();
    assert_eq!(runs_with(&here, &bench, 800, &asked, &View::LINES), Ending::Spent);
}

#[test]
fn a_trap_is_asked_for_in_large_letters_and_small_among_the_others() {
    let (here, bench) = (folder("board_spelt"), endless_with_routine());
    let Files { deck, main } = files(&here, &bench.store, &bench.main);
    let text = |address| {
        let asked = traps([(3, address)]);
        board::run_with_traps(Basic, &bench.store, &bench.main, bench.state, 9, &asked, &View::LINES).0
    };
    for trap in ["TRAP=3:2", "trap=3:02", "Trap=03:002", "tRAP=0000003:0002"] {
        prints(&["run", &deck, &main, "9", trap], &text(2));
    }
    for trap in ["TRAP=3:A5B", "trap=3:a5b", "TRAP=3:0a5B", "TRAP=3:A5b"] {
        same(&board(&["run", &deck, &main, "9", trap]).out, &text(0xA5B), &[trap]);
    }
    let view = View { from: 2, to: 6, ..View::LINES };
    let start = State { registers: bench.state.registers.map(|_| 0x11), ..bench.state };
    let (text, _) = board::run_with_traps(Basic, &bench.store, &bench.main, start, 9, &traps([(7, 2), (3, 2)]), &view);
    let mut arguments: Vec<String> = NAMES.iter().map(|name| format!("{name}=11")).collect();
    for (at, argument) in [(0, "TRAP=7:2"), (3, "TO=6"), (9, "trap=3:002"), (16, "FROM=2")] {
        arguments.insert(at, argument.to_owned());
    }
    prints(&[&["run", &deck, &main, "9"], &strs(&arguments)[..]].concat(), &text);
}

// ---- two boards

/// Two boards at one deck and one image, as they are asked for; of a pair, the first is board A's. The bench's own state is not
/// used.
struct Pair {
    bench: Bench,
    reading: Option<Reading>,
    fences: [Fence; 2],
    order: String,
    starts: [State; 2],
    turns: u64,
}

const BOTH: [&str; 2] = ["A", "B"];

impl Pair {
    /// All that stands before the options, in a test's own folder.
    fn command(&self, here: &Path) -> Vec<String> {
        let Files { deck, main } = files(here, &self.bench.store, &self.bench.main);
        let [a, b] = self.fences.map(|Fence { start, end }| format!("{start:X}:{end:X}"));
        vec!["two".to_owned(), deck, main, self.turns.to_string(), a, b, self.order.clone()]
    }

    /// The registers of each that are not 0, as A.I=01.
    fn registers(&self) -> Vec<String> {
        let named =
            |which: usize| given(&self.starts[which]).into_iter().map(move |each| format!("{}.{each}", BOTH[which]));
        (0..2).flat_map(named).collect()
    }

    fn expected(&self, view: &View) -> Result<(String, [bool; 2]), u8> {
        let Pair { bench: Bench { store, main, .. }, fences, order, starts, turns, .. } = self;
        let (reading, fences, starts, turns) = (in_force(self.reading), *fences, *starts, *turns);
        board::two(&Two { reading, store, main, fences, order, starts, turns }, view)
    }

    /// How many of the turns are a board's, whether they pass or not.
    fn turns_of(&self, letter: &str) -> usize {
        let own = |each: &char| each.to_string().eq_ignore_ascii_case(letter);
        self.order.chars().cycle().take(self.turns as usize).filter(own).count()
    }
}

const NO_FENCES: &str = "the fences are refused by 32: a fence is empty or outside main storage, or the two overlap";

/// What is told of a board that was refused, or of neither.
fn told_of_two(refused: [bool; 2]) -> String {
    let told = |(letter, refused)| if refused { format!("board: board {letter} was refused\n") } else { String::new() };
    BOTH.into_iter().zip(refused).map(told).collect()
}

/// Two boards print what the second engine prints, and it is told which of them were refused. Gives what was printed.
fn takes_turns(here: &Path, pair: &Pair, view: &View) -> String {
    let mut arguments = pair.command(here);
    arguments.extend(pair.registers());
    arguments.extend(pair.reading.map(|reading| spelt(reading).to_owned()));
    let arguments = viewed(arguments, view);
    let (text, told) = match pair.expected(view) {
        Ok((text, refused)) => (text, told_of_two(refused)),
        Err(number) => {
            assert_eq!(number, 32);
            (String::new(), format!("board: {NO_FENCES}\n"))
        }
    };
    let said = board(&strs(&arguments));
    same(&said.out, &text, &strs(&arguments));
    let status = i32::from(!told.is_empty());
    assert_eq!((said.err, said.status), (told, Some(status)), "{arguments:?}");
    text
}

/// The page's: A adds 38 and 47 at 100 and 101, B 99 and 1 at 200 and 201, both by the shipped words.
fn sharing(order: &str, turns: u64) -> Pair {
    let mut bench = Bench { store: shipped::SHIPPED.to_vec(), main: vec![0; 1024], ..stops(1) };
    for (at, byte) in [(0x100, 0x38), (0x101, 0x47), (0x200, 0x99), (0x201, 0x01)] {
        bench.main[at] = byte;
    }
    let starts = [0x100, 0x200].map(|first| shipped::start(first, first + 1, 1, false));
    let fences = [fence(0x100, 0x102), fence(0x200, 0x202)];
    Pair { bench, reading: None, fences, order: order.to_owned(), starts, turns }
}

/// The cycle that adds, and the last one, of each. B's carry out is in S3 and in H, which the last word tries.
#[test]
fn two_additions_are_as_they_were_set_out() {
    let here = folder("board_sharing");
    let head = "    CYCLE  AT  I  J  U  V  L  T  D  R  S  G  H  M  N   WX AC 1BC Z0 AW LS AR AB DC INV  FWX OW  A GA  B GB EB CI BEFORE AFTER";
    let sums = [
        "A      15 011 01 00 01 01 01 01 47 85 00 00 00 01 00 0012  0   0  0  1  0  0 00  1   0 0000  0 38 38 47 47 AD  0     E5    85",
        "B      15 011 02 00 02 01 01 01 01 00 10 00 00 02 00 0012  1   1  1  1  0  0 00  1   0 0000  0 99 99 01 01 67  0     00    00",
    ];
    let last = [
        "A      18 00B 01 00 01 01 01 00 47 85 00 00 00 01 00 0014  0   0  0  0  0  0 00  0   0 0000  0 00 00 FF FF FF  0     FF    FF",
        "B      18 00B 02 00 02 01 01 00 01 00 10 00 01 02 00 0014  1   1  1  0  0  0 00  1   0 0000  0 01 01 FF FF FF  0     00    00",
    ];
    let stopped = ["A STOPPED AT 014", "B STOPPED AT 014"];
    let of = |turns: u64, view: (&str, &str), lines: &[&str]| {
        let pair = sharing("AB", turns);
        let all = [pair.command(&here), pair.registers()].concat();
        let all = [&strs(&all)[..], &[view.0, view.1]].concat();
        prints(&all, &(lines.join("\n") + "\n"));
    };
    of(60, ("FROM=15", "TO=15"), &[&[head], &sums[..], &stopped].concat());
    of(38, ("FROM=18", "TO=18"), &[&[head], &last[..], &stopped].concat());
    // One turn fewer, and B has none left for the stop.
    of(37, ("FROM=18", "TO=18"), &[&[head], &last[..], &stopped[..1], &["B SPENT AT 014"]].concat());
    of(36, ("FROM=99", "TO=99"), &[head, "A SPENT AT 014", "B SPENT AT 014"]);
    for turns in [0, 1, 2, 3, 36, 37, 38, 39, 60, 1_000_000] {
        takes_turns(&here, &sharing("AB", turns), &View::LINES);
    }
}

/// A's second field is at 101. It is refused by 11, and B adds all the same.
#[test]
fn a_fence_that_ends_before_a_field_refuses_its_board() {
    let here = folder("board_short");
    let refused = "REFUSED 11 AT 002: the main address is not in main storage, or not in the fence";
    let all = &View { from: 99, ..View::LINES };
    for (which, short) in [(0, fence(0x100, 0x101)), (1, fence(0x200, 0x201)), (0, fence(0, 0x100))] {
        let mut pair = sharing("AB", 60);
        pair.fences[which] = short;
        let text = takes_turns(&here, &pair, all);
        let (own, other) = (BOTH[which], BOTH[1 - which]);
        let lines: Vec<&str> = text.lines().skip(1).collect();
        assert_eq!(lines, [format!("{own} {refused}"), format!("{other} STOPPED AT 014")]);
    }
    // Both, and then nothing goes on.
    let mut pair = sharing("BA", 60);
    pair.fences = [fence(0x100, 0x101), fence(0x200, 0x201)];
    let text = takes_turns(&here, &pair, all);
    assert_eq!(text.lines().skip(1).collect::<Vec<_>>(), [format!("B {refused}"), format!("A {refused}")]);
}

/// The lines of a board, without its letter.
fn own_lines(text: &str, letter: &str) -> Vec<String> {
    text.lines().filter_map(|line| line.strip_prefix(&format!("{letter} "))).map(str::to_owned).collect()
}

/// What `board run` prints of one of the two, headings apart, for as many cycles as it has turns.
fn alone(here: &Path, pair: &Pair, which: usize) -> Vec<String> {
    let Files { deck, main } = files(here, &pair.bench.store, &pair.bench.main);
    let turns = pair.turns_of(BOTH[which]).to_string();
    let registers = given(&pair.starts[which]);
    let said = board(&[&["run", &deck, &main, &turns], &strs(&registers)[..]].concat());
    said.text().lines().skip(1).map(str::to_owned).collect()
}

/// Where B is at its stop word, at no word at all, or adds like A; and where it has no turn.
#[test]
fn a_board_prints_what_it_prints_alone() {
    let here = folder("board_alone");
    for wx in [0x14, 0xFFF, 0] {
        for (order, turns) in
            [("A", 30), ("AB", 50), ("BA", 50), ("AAB", 20), ("ABBB", 90), ("BBAAABA", 40), ("ba", 21), ("B", 9)]
        {
            let mut pair = sharing(order, turns);
            pair.starts[1].wx = wx;
            let text = takes_turns(&here, &pair, &View::LINES);
            for (which, letter) in BOTH.into_iter().enumerate() {
                assert_eq!(own_lines(&text, letter), alone(&here, &pair, which), "{letter} of {order} at {wx:03X}");
            }
            let lines: usize = BOTH.iter().map(|letter| own_lines(&text, letter).len()).sum();
            assert_eq!(lines + 1, text.lines().count());
        }
    }
}

/// Both add L to the byte 05 of local storage, A one and B seven: neither finds what the other has put there.
#[test]
fn each_board_has_a_local_storage_of_its_own() {
    let here = folder("board_two_local");
    let mut bench = stops(3);
    bench.then(0, 1, &[("CM", 3), ("CU", 1)]);
    bench.then(1, 2, &[("CA", 7), ("CB", 1), ("CF", 3), ("CG", 3), ("CD", 7)]);
    bench.then(2, 0, &[("CM", 0)]);
    bench.set(&[(J, 5), (L, 1)]);
    let mut starts = [bench.state; 2];
    starts[1].registers[L] = 7;
    for order in ["AB", "BBA", "AAABB"] {
        let (fences, order) = ([fence(0, 1), fence(1, 2)], order.to_owned());
        let pair = Pair { bench: bench.clone(), reading: None, fences, order, starts, turns: 60 };
        let text = takes_turns(&here, &pair, &View::LINES);
        for (which, (letter, each)) in BOTH.into_iter().zip([1, 7]).enumerate() {
            let lines = own_lines(&text, letter);
            assert_eq!(lines, alone(&here, &pair, which));
            // R in the third cycle of each three
            let sums = lines.iter().skip(3).step_by(3).take(6).map(|line| line[33..35].to_owned());
            assert!(sums.eq((1..=6).map(|count| format!("{:02X}", count * each))), "{letter} of {text}");
        }
    }
}

/// A stops at its first turn or is refused there: B has every second turn, and no more for it.
#[test]
fn turns_that_pass_are_counted() {
    let here = folder("board_pass");
    for (wx, line) in [(0x14, "A STOPPED AT 014"), (0x15, "A REFUSED 2 AT 015: WX is not in the word store")] {
        for (turns, end) in
            [(20, "B SPENT AT 00D"), (36, "B SPENT AT 014"), (37, "B SPENT AT 014"), (38, "B STOPPED AT 014")]
        {
            let mut pair = sharing("AB", turns);
            pair.starts[0].wx = wx;
            let text = takes_turns(&here, &pair, &View { from: 1, ..View::LINES });
            let lines: Vec<&str> = text.lines().collect();
            assert_eq!((lines[1], lines.last()), (line, Some(&end)), "{turns} turns");
            assert_eq!(lines.len() as u64, 3 + (turns / 2).min(18), "{turns} turns");
        }
    }
}

/// No turn: both are where they began, even at a stop or at no word.
#[test]
fn no_turn_is_two_starts_and_two_endings() {
    let here = folder("board_no_turn");
    let mut pair = sharing("BA", 0);
    for (a, b) in [(0, 0), (0x14, 0xABC)] {
        [pair.starts[0].wx, pair.starts[1].wx] = [a, b];
        let text = takes_turns(&here, &pair, &View::LINES);
        let short: Vec<String> = text.lines().skip(1).map(|line| line.chars().take(14).collect()).collect();
        let [first, second] = [(a, "A"), (b, "B")].map(|(wx, letter)| format!("{letter} SPENT AT {wx:03X}"));
        assert_eq!(short, ["A       0 --- ", "B       0 --- ", &first, &second]);
        let text = takes_turns(&here, &pair, &View { from: 1, ..View::LINES });
        assert_eq!(text.lines().skip(1).collect::<Vec<_>>(), [first, second]);
    }
}

/// Of one letter, of 64, and in small letters; an order is begun again, or not come to its end.
#[test]
fn an_order_has_one_to_64_letters() {
    let here = folder("board_orders");
    let longest = "AABBA".repeat(13)[1..].to_owned();
    assert_eq!(longest.len(), 64);
    for order in ["A", "b", "AB", "aB", "bBa", &longest, &longest.to_lowercase(), &("A".repeat(63) + "B")] {
        for turns in [1, 63, 64, 65, 130] {
            takes_turns(&here, &sharing(order, turns), &View::LINES);
        }
    }
    let of = |order: &str| takes_turns(&here, &sharing(order, 50), &View::LINES);
    assert_eq!(of("AbBa"), of("ABBA"));
    assert_ne!(of("ABBA"), of("ABAB"));
}

/// Each register of each board, the readings, FROM and TO, in large letters and small and in any order.
#[test]
fn a_board_is_given_its_own_registers() {
    let (here, mut pair) = (folder("board_given"), sharing("AB", 4));
    pair.bench = endless();
    let starts: [State; 2] = [0xF1, 0x2E].map(|first| State {
        registers: std::array::from_fn(|place| first - 2 * place as u8),
        wx: u16::from(first == 0x2E),
        ..State::default()
    });
    for (which, start) in starts.into_iter().enumerate() {
        pair.starts = [State::default(); 2];
        pair.starts[which] = start;
        takes_turns(&here, &pair, &View::LINES);
    }
    pair.starts = starts;
    let view = View { from: 1, to: 2, ..View::LINES };
    let text = takes_turns(&here, &pair, &view);
    let mut options = [&pair.registers()[..], &["FROM=1", "READING=B", "TO=2"].map(str::to_owned)].concat();
    let command = pair.command(&here);
    for turn in 0..options.len() {
        options.rotate_left(7);
        let small =
            |(place, each): (usize, &String)| if place % 2 == turn % 2 { each.to_lowercase() } else { each.clone() };
        let spelt: Vec<String> = options.iter().enumerate().map(small).collect();
        prints(&strs(&[&command[..], &spelt].concat()), &text);
    }
    for (spelt, value) in [("A.wX=1", 1), ("a.Wx=01", 1), ("A.WX=fFf", 0xFFF)] {
        pair.starts = [State { wx: value, ..State::default() }, State::default()];
        let (text, _) = pair.expected(&View::LINES).expect("right fences");
        same(&board(&strs(&[&command[..], &[spelt.to_owned()]].concat())).out, &text, &[spelt]);
    }
}

/// CL 6 is 1BC in basic and R1 in compatibility, for either board.
#[test]
fn one_reading_serves_both_boards() {
    let here = folder("board_two_read");
    let bench = branching();
    let starts = [bench.state, State { wx: 1, ..bench.state }];
    let fences = [fence(0, 1), fence(1, 2)];
    let [none, basic, compatibility] = READINGS.map(|reading| {
        let pair = Pair { bench: bench.clone(), reading, fences, order: "AB".to_owned(), starts, turns: 20 };
        takes_turns(&here, &pair, &View::LINES)
    });
    assert!(none == basic && none != compatibility);
    for letter in BOTH {
        assert_ne!(own_lines(&basic, letter), own_lines(&compatibility, letter));
    }
}

/// The addition has 18 cycles; FROM and TO count each board's own.
#[test]
fn each_board_shows_the_cycles_asked_for() {
    let here = folder("board_two_edges");
    for (from, to) in EDGES {
        for (order, turns) in [("AB", 60), ("BAA", 25)] {
            takes_turns(&here, &sharing(order, turns), &View { from, to, ..View::LINES });
        }
    }
}

/// In large letters and small. A adds the last two bytes of its fence, and B its own first and main storage's last.
#[test]
fn a_fence_is_typed_in_one_to_five_digits() {
    let (here, mut pair) = (folder("board_fence_digits"), sharing("AB", 60));
    pair.bench.main = vec![7; 65_536];
    pair.fences = [fence(0xA, 0xFACE), fence(0xFACE, 0x10000)];
    pair.starts = [[0xFACD, 0xFACC], [0xFACE, 0xFFFF]].map(|[one, two]| shipped::start(one, two, 1, false));
    let (text, refused) = pair.expected(&View::LINES).expect("right fences");
    assert_eq!(refused, [false; 2]);
    let (command, registers) = (pair.command(&here), pair.registers());
    for [a, b] in
        [["A:FACE", "FACE:10000"], ["a:face", "fAcE:10000"], ["0A:0FACE", "FACE:10000"], ["0000a:FACE", "0face:10000"]]
    {
        prints(&[&strs(&command[..4])[..], &[a, b, "AB"], &strs(&registers)].concat(), &text);
    }
}

/// Over and over: a read at IJ, UV or LT, one that moves the address, a write there, and one register counts up. What is written
/// is one more than what was read. The kinds of storage are those of CU; one store in four stops somewhere.
fn walking(random: &mut Random, kinds: &[u8]) -> Bench {
    let rounds = one_of(random, &[1, 4, 16]);
    let words = 4 * rounds;
    let mut bench = stops(words);
    let up: Codes = &[("CF", 3), ("CG", 1), ("CB", 3), ("CK", 1)];
    for round in 0..rounds {
        let at = 4 * round;
        let [first, second] = [0; 2].map(|_| one_of(random, &[3, 4, 5]));
        let [cu, moved] = [0; 2].map(|_| one_of(random, kinds));
        let count = one_of(random, &[14, 14, 12, 12, 11, 15]);
        bench.then(at, at + 1, &[("CM", first), ("CU", cu)]);
        bench.then(at + 1, at + 2, &[up, &[("CM", second), ("CU", moved), ("CA", 7), ("CD", 7)]].concat());
        bench.then(at + 2, at + 3, &[("CM", one_of(random, &[0, 0, 2]))]);
        bench.then(at + 3, (at + 4) % words, &[up, &[("CA", count), ("CD", count)]].concat());
    }
    if random.below(4) == 0 {
        bench.put(random.below(words as u64) as usize, STOP);
    }
    bench
}

/// An order of 1 to 64 letters, in which one board may have most turns.
fn drawn_order(random: &mut Random) -> String {
    let count = one_of(random, &[1, 2, 2, 3, 5, 8, 63, 64]);
    let letters = one_of(random, &["AB", "AB", "ab", "AAAB", "abbbB", "AbBa"]).as_bytes();
    (0..count).map(|_| char::from(one_of(random, letters))).collect()
}

/// Words of any codes, or words that walk through their fences; registers at the edges of fences that are mostly right.
fn drawn_pair(random: &mut Random) -> Pair {
    let (reading, local) = (one_of(random, &READINGS), random.below(4) == 0);
    let mut bench = match random.below(2) {
        0 => drawn_for(random, in_force(reading)),
        _ => walking(random, if local { &[1] } else { &[0, 0, 0, 1, 3] }),
    };
    let size = one_of(random, &[2, 3, 16, 255, 256, 257, 1024, 1024, 65_536]);
    bench.main = common::draw_bytes(random, size);
    // No more than five digits can be typed.
    let fences = draw_fences(random, size, 24).map(|Fence { start, end }| fence(start.min(0xFFFFF), end.min(0xFFFFF)));
    let words = bench.store.len();
    let [a, b] = fences;
    let starts = [[a, b], [b, a]].map(|fences| {
        let State { mut registers, wx, .. } = draw_seated(random, words, fences);
        // The two meet at the same few bytes of local storage, each in its own.
        for low in [J, V, T].into_iter().filter(|_| local) {
            registers[low] &= 3;
        }
        State { registers, wx: if random.below(24) == 0 { 0xFFF } else { wx }, ..State::default() }
    });
    let turns = one_of(random, &[0, 1, 2, 3, 12, 40, 40, 100, 100, 400]);
    Pair { bench, reading, fences, order: drawn_order(random), starts, turns }
}

/// All cycles, or some of them.
fn drawn_view(random: &mut Random) -> View {
    if random.below(2) == 0 {
        return View::LINES;
    }
    let from = one_of(random, &[0, 0, 1, 2, 7, 30]);
    let to = one_of(random, &[from, from + 1, from + 9, u64::MAX, u64::MAX]);
    View { from, to, ..View::LINES }
}

/// How each of some texts may end for a board, and how many of them do.
fn count_endings(texts: &[String]) -> Vec<(String, usize)> {
    let starts = ["STOPPED", "REFUSED 11 ", "REFUSED 10 ", "REFUSED 2 ", "SPENT"];
    let all = BOTH.iter().flat_map(|letter| starts.map(|start| format!("{letter} {start}")));
    let count = |start: &String| texts.iter().filter(|text| text.lines().any(|line| line.starts_with(start))).count();
    all.map(|start| (start.clone(), count(&start))).collect()
}

#[test]
fn drawn_boards_take_turns() {
    let (random, here) = (&mut Random::new(137), folder("board_two_drawn"));
    let texts: Vec<String> = (0..400)
        .map(|_| {
            let (pair, view) = (drawn_pair(random), drawn_view(random));
            takes_turns(&here, &pair, &view)
        })
        .collect();
    for (start, count) in count_endings(&texts) {
        assert!(count > 9, "{start}: {count}");
    }
    let empty = texts.iter().filter(|text| text.is_empty()).count();
    assert!(empty > 4, "{empty} pairs of fences are refused");
}

/// A read at an address; or a read at one that is inside, one that moves the address, and a write there.
fn reaching(writes: bool, inside: u16, address: u16) -> Bench {
    let mut bench = stops(4);
    bench.then(0, 1, &[("CM", 3)]);
    bench.then(1, 2, &[("CM", 4)]);
    bench.then(2, 3, if writes { &[("CM", 0)] } else { &[] });
    let [[i, j], [u, v]] = [if writes { inside } else { address }, address].map(u16::to_be_bytes);
    bench.set(&[(I, i), (J, j), (U, u), (V, v)]);
    bench
}

/// In 1,024 bytes, and fences that touch or end with it: at each edge of A's, and beside them. B does the same in the other
/// fence, where most of it is refused.
#[test]
fn a_board_reads_and_writes_in_its_fence_alone() {
    let here = folder("board_two_reach");
    for (fences, inside, beside) in fences::EDGES {
        let all = inside.iter().map(|at| (at, true)).chain(beside.iter().map(|at| (at, false)));
        for ((&address, within), writes) in all.flat_map(|each| [(each, false), (each, true)]) {
            let bench = reaching(writes, inside[0], address);
            let starts = [bench.state; 2];
            let pair = Pair { bench, reading: None, fences, order: "AB".to_owned(), starts, turns: 20 };
            let text = takes_turns(&here, &pair, &View::LINES);
            let line = match (within, writes) {
                (true, _) => "STOPPED AT 003",
                (false, false) => "REFUSED 11 AT 000: the main address is not in main storage, or not in the fence",
                (false, true) => "REFUSED 11 AT 002: the main address is not in main storage, or not in the fence",
            };
            assert_eq!(own_lines(&text, "A").last().map(String::as_str), Some(line), "{address:03X} in {fences:?}");
        }
    }
}

// ---- FROM and TO

const EDGES: [(u64, u64); 12] = [
    (0, 0),
    (0, 1),
    (1, 1),
    (1, u64::MAX),
    (1, 18),
    (5, 7),
    (0, 17),
    (17, 19),
    (18, 18),
    (18, 1_000_000),
    (19, 19),
    (1_000_000, 1_000_000),
];

/// The addition of 38 and 47 has 18 cycles.
#[test]
fn only_the_cycles_asked_for_are_shown() {
    assert!(board(&["add", "38", "47"]).text().lines().any(|line| line.starts_with("     18 00B")));
    let here = folder("board_edges");
    for (from, to) in EDGES {
        for lamps in [false, true] {
            let view = View { lamps, from, to };
            adds("38", "47", None, &view);
            adds("38", "47", Some(true), &view);
            sums("38", "47", &view);
            runs(&here, &endless(), 18, &view);
        }
    }
    runs(&here, &endless(), 0, &View { from: 0, to: 0, ..View::LINES });
    runs(&here, &endless(), 0, &View { from: 1, to: 1, ..View::LINES });
}

#[test]
fn from_and_to_stand_in_either_order_and_in_small_letters() {
    let text = board::add("38", "47", false, &View { from: 5, to: 7, ..View::LINES });
    prints(&["add", "38", "47", "TO=7", "FROM=5"], &text);
    prints(&["add", "38", "47", "from=5", "to=7"], &text);
    let text = board::signed("38", "47", true, &View { from: 5, to: 7, ..View::LINES });
    prints(&["sp", "38", "47", "to=7", "FROM=5"], &text);
    let (here, mut bench) = (folder("board_order"), endless());
    let Files { deck, main } = files(&here, &bench.store, &bench.main);
    bench.set(&[(M, 0x11), (N, 0x22)]);
    let (text, _) =
        board::run(Basic, &bench.store, &bench.main, bench.state, 9, &View { from: 5, to: 7, ..View::LINES });
    prints(&["run", &deck, &main, "9", "TO=7", "N=22", "FROM=5", "m=11"], &text);
}

#[test]
fn from_over_to_is_told() {
    let Files { deck, main } = Files::endless("board_over");
    tells(&["add", "38", "47", "FROM=2", "TO=1"], "FROM is over TO");
    tells(&["add", "38", "47", "TO=0", "FROM=1"], "FROM is over TO");
    tells(&["lamps", "add", "38", "47", "1", "FROM=2", "TO=1"], "FROM is over TO");
    tells(&["ap", "38", "47", "FROM=2", "TO=1"], "FROM is over TO");
    tells(&["lamps", "sp", "38", "47", "TO=1", "FROM=2"], "FROM is over TO");
    tells(&["run", &deck, &main, "9", "FROM=1000000", "TO=999999"], "FROM is over TO");
    for options in [["FROM=2", "A.I=1", "TO=1"], ["TO=0", "READING=C", "FROM=1"]] {
        tells(&[&["two", &deck, &main, "9", "0:1", "1:2", "AB"], &options[..]].concat(), "FROM is over TO");
    }
}

// ---- lamps and the walk

#[test]
fn lamps_show_additions() {
    for (first, second, carry) in [("38", "47", None), ("999", "1", Some(true)), ("7", "c", Some(false))] {
        adds(first, second, carry, &View::LAMPS);
    }
    for (first, second) in [("190", "200"), ("999-", "1-"), ("7:3", "c")] {
        sums(first, second, &View::LAMPS);
    }
}

#[test]
fn lamps_show_runs() {
    let (random, here) = (&mut Random::new(103), folder("board_lamps"));
    let mut seen = BTreeSet::new();
    for _ in 0..40 {
        let bench = drawn(random);
        let budget = one_of(random, &[0, 1, 20, 200]);
        seen.insert(kind(runs(&here, &bench, budget, &View::LAMPS)).0);
    }
    assert_eq!(seen, BTreeSet::from(["refused", "spent", "stopped"]));
}

/// The first picture of P's cycle from J 5D, set out by hand: 5D and 01 are added, and 5E goes to J.
#[test]
fn a_picture_is_as_it_was_set_out() {
    let here = folder("board_picture");
    let main = file(&here, "main", &[0]);
    let deck = file(&here, "deck", &deck_of(&[common::P]));
    let said = board(&["lamps", "run", &deck, &main, "1", "J=5D", "FROM=1"]);
    let expected = "\
CYCLE      1 AT 000
        I        J        U        V        L        T        D        R
 ........ .*.****. ........ ........ ........ ........ ........ ........
        S        G        H        M        N        W        X       AC
 ........ ........ ........ ........ ........ ........ .......*        .
      1BC       Z0    ALLOW    LOCAL ARRIVING     BYTE DIGIT-CY  INVALID
        .        .        .        .        . ........        .        .
       FW       FX     OWED
 ........ ........        .
        A  GATED-A        B  GATED-B ENTERS-B CARRY-IN   BEFORE    AFTER
 .*.***.* .*.***.* ...*...* .......* .......*        . .*.****. .*.****.

SPENT AT 001
";
    same(&said.out, expected, &["lamps"]);
    assert!(said.well());
}

#[test]
fn the_walk_lights_each_lamp_alone() {
    prints(&["walk"], &board::walk());
    let text = board(&["walk"]).text();
    let mut lamps = Vec::new();
    for line in text.lines() {
        let record: Vec<u8> = line[10..].split_whitespace().map(|byte| u8::from_str_radix(byte, 16).unwrap()).collect();
        assert_eq!((line.len(), record.len()), (10 + 3 * STATE, STATE), "{line}");
        assert_eq!(record.iter().map(|byte| byte.count_ones()).sum::<u32>(), 1, "{line}");
        lamps.push((line[..9].trim().to_owned(), record));
    }
    let rows: BTreeSet<&String> = lamps.iter().map(|(name, _)| name).collect();
    let records: BTreeSet<&Vec<u8>> = lamps.iter().map(|(_, record)| record).collect();
    assert_eq!((rows.len(), records.len(), lamps.len()), (STATE, 153, 153));
}

// ---- a million lines

/// For slow machines; elsewhere it takes half a second.
const LONGEST_TIME: Duration = Duration::from_secs(10);

#[test]
fn a_million_lines_are_soon_written() {
    let (here, bench) = (folder("board_million"), endless());
    let Files { deck, main } = files(&here, &bench.store, &bench.main);
    // the programs are proved before the clock starts
    board(&["help"]);
    let (path, start) = (here.join("lines"), Instant::now());
    let out = File::create(&path).expect("a file");
    let said = said_to(out, "board", &["run", &deck, &main, "1000000"], &[]);
    let took = start.elapsed();
    println!("a million lines took {took:?}");
    assert!(said.well(), "{said:?}");
    let (text, ending) = board::run(Basic, &bench.store, &bench.main, bench.state, 1_000_000, &View::LINES);
    assert_eq!((ending, text.lines().count()), (Ending::Spent, 1_000_003));
    same(&fs::read(&path).expect("the lines"), &text, &["a million"]);
    fs::remove_file(&path).expect("the lines");
    assert!(took < LONGEST_TIME, "it took {took:?}");
}

// ---- signed fields

/// A field as it is typed.
fn typed(field: [u8; 8]) -> String {
    format!("{:016X}", u64::from_be_bytes(field))
}

/// A number's field as the second engine writes it.
fn written(number: i64) -> String {
    let mut field = [0; 8];
    write_signed(number, &mut field).expect("at most fifteen digits");
    typed(field)
}

/// Numbers of each length, with both signs, and next to the powers of ten.
fn numbers(random: &mut Random) -> Vec<i64> {
    let powers = (0..15).map(|power| 10_i64.pow(power));
    let sizes = powers.flat_map(|ten| [ten - 1, ten, ten + 1, ten + random.below(9 * ten as u64) as i64]);
    sizes.chain([999_999_999_999_999]).flat_map(|size| [size, -size]).collect()
}

#[test]
fn signed_fields_and_numbers_are_shown_as_each_other() {
    prints(&["signed", "000000000012345D"], "-12345\n");
    prints(&["signed", "-12345"], "000000000012345D\n");
    for number in numbers(&mut Random::new(2)) {
        prints(&["signed", &written(number)], &format!("{number}\n"));
        prints(&["signed", &number.to_string()], &format!("{}\n", written(number)));
    }
}

#[test]
fn each_sign_digit_is_read() {
    for sign in "ACEFacef".chars() {
        prints(&["signed", &format!("000000000012345{sign}")], "12345\n");
        prints(&["signed", &format!("000000000000000{sign}")], "0\n");
    }
    for sign in "BDbd".chars() {
        prints(&["signed", &format!("000000000012345{sign}")], "-12345\n");
        prints(&["signed", &format!("000000000000000{sign}")], "0\n");
    }
}

#[test]
fn numbers_may_have_a_sign_and_zeros_in_front() {
    for (number, field) in [("+7", "7C"), ("007", "7C"), ("-007", "7D"), ("0", "0C"), ("-0", "0C"), ("+0", "0C")] {
        prints(&["signed", number], &format!("{field:0>16}\n"));
    }
    prints(&["signed", "+000000000000001"], "000000000000001C\n");
}

#[test]
fn a_refused_field_is_told_with_its_digit() {
    let told = |field: &str, number: u8, digit: char, place: usize| {
        let words = in_words(number);
        tells(
            &["signed", field],
            &format!("argument 2 is a field refused by {number}: {words}: {digit} in place {place}"),
        );
    };
    for place in 1..=15 {
        for digit in "ABCDEFaf".chars() {
            let mut field: Vec<char> = "111111111111111C".chars().collect();
            field[place - 1] = digit;
            told(&field.iter().collect::<String>(), 25, digit, place);
            field[15] = '5';
            told(&field.iter().collect::<String>(), 25, digit, place);
        }
    }
    told("1A1B11111111111C", 25, 'A', 2);
    for sign in '0'..='9' {
        told(&format!("111111111111111{sign}"), 26, sign, 16);
    }
}

#[test]
fn a_number_of_more_than_fifteen_digits_is_told() {
    for number in ["-1234567890123456", "+1234567890123456", "12345678901234567", "0000000000000000012"] {
        tells(&["signed", number], &format!("argument 2 is a number refused by 27: {}", in_words(27)));
    }
}

#[test]
fn what_is_neither_a_field_nor_a_number_is_told() {
    let long = "1".repeat(64) + "C";
    for text in ["", "-", "+", "--1", "1-", "1D", "12345C", "00000000012345D", "0000000000012345D", " 1", "1.5", &long]
    {
        tells(&["signed", text], "argument 2 is neither a field of 16 digits nor a number");
    }
    tells(&["signed", "1", "2"], "argument 3 is one too many");
}

// ---- usage

#[test]
fn usage_is_shown_in_each_spelling() {
    let usage = board(&[]);
    assert!(usage.well() && !usage.out.is_empty(), "{usage:?}");
    for spelling in ["help", "-h", "--help"] {
        prints(&[spelling], &usage.text());
        tells(&[spelling, "x"], "argument 2 is one too many");
    }
}

#[test]
fn usage_names_all_that_can_be_given() {
    let usage = board(&["help"]).text();
    let words: BTreeSet<&str> = usage.split(|c: char| !c.is_ascii_alphanumeric()).collect();
    let others = [
        "add", "ap", "sp", "run", "two", "lamps", "walk", "signed", "WX", "TRAP", "FENCE", "ORDER", "READING", "FROM",
        "TO",
    ];
    for word in others.iter().chain(&NAMES) {
        assert!(words.contains(word), "{word}");
    }
    for part in ["digits A to F are allowed", "bad-digit ending"] {
        assert!(usage.contains(part), "{part}");
    }
}

/// The line of `run` names the option, and the last line of all tells what it does.
#[test]
fn usage_tells_of_the_readings() {
    let usage = board(&["help"]).text();
    let run = "board run DECK MAIN CYCLES [I=HH ..] [TRAP=n:HHH ..] [READING=B|C] [FROM=n] [TO=n]";
    assert_eq!(usage.lines().filter(|line| line.starts_with("board run ")).collect::<Vec<_>>(), [run]);
    let told = "READING=C reads the deck as the compatibility store: CH 8 is R2, CL 4 G1, CL 6 R1, CL 12 R3, \
                CS 5 turns S1 on, CS 15 turns S1 off, CH 3 is not modelled; READING=B is basic, and so is a run without it";
    let last: Vec<&str> = usage.lines().rev().take(2).collect();
    assert_eq!(last[0], told);
    assert!(last[1].starts_with("FROM=n and TO=n show only those cycles"), "{last:?}");
}

/// A line of `two` names its arguments and options, and those below it tell what they are.
#[test]
fn usage_tells_of_two_boards() {
    let usage = board(&["help"]).text();
    let two = "board two DECK MAIN CYCLES FENCE FENCE ORDER [A.I=HH ..] [B.I=HH ..] [READING=B|C] [FROM=n] [TO=n]";
    let lines: Vec<&str> = usage.lines().skip_while(|line| *line != two).collect();
    let told: Vec<&&str> = lines.iter().skip(1).take_while(|line| line.starts_with("    ")).collect();
    assert!(told.len() > 1, "{usage}");
    for part in ["START:END", "ORDER", "A.I=HH", "B.WX=HHH"] {
        assert!(told.iter().any(|line| line.contains(part)), "{part}: {told:?}");
    }
}

// ---- what is told

#[test]
fn a_missing_argument_is_told_by_its_number() {
    let Files { deck, main } = Files::endless("board_missing");
    let missing = |arguments: &[&str]| {
        let number = arguments.len() + 1;
        tells(arguments, &format!("argument {number} is missing; board help shows what is asked"));
    };
    for all in [
        &["add", "38"][..],
        &["ap", "38"],
        &["sp", "38-"],
        &["signed"],
        &["run", &deck, &main],
        &["two", &deck, &main, "9", "0:1", "1:2"],
        &["lamps", "add", "38"],
        &["lamps", "ap", "38"],
        &["lamps", "sp", "38-"],
        &["lamps", "run", &deck, &main],
    ] {
        for count in 1..=all.len() {
            missing(&all[..count]);
        }
    }
}

#[test]
fn an_argument_too_many_is_told() {
    tells(&["walk", "x"], "argument 2 is one too many");
    tells(&["walk", "walk", "walk"], "argument 2 is one too many");
    tells(&["help", "add"], "argument 2 is one too many");
}

#[test]
fn a_command_that_is_not_there_is_told() {
    let line = "argument 1 is neither add, ap, sp, run, two, lamps, walk, signed nor help";
    for name in ["frob", "", "ad", "adds", "a", "AP", "aps", "apsp", "s", "tw", "twos", "TWO", "2", "1", "-x", "FROM=1"]
    {
        tells(&[name], line);
        tells(&[name, "38", "47"], line);
    }
    for name in ["walk", "help", "lamps", "signed", "two", "", "frob"] {
        tells(&["lamps", name], "argument 2 is neither add, ap, sp nor run");
        tells(&["lamps", name, "38", "47"], "argument 2 is neither add, ap, sp nor run");
    }
}

#[test]
fn a_number_that_is_none_is_told() {
    let long = "1".repeat(33);
    for number in ["", "G", "3 8", "-1", "+1", "0x38", "3.8", " 38", "38 ", "FROM=1", "é", &long, &"0".repeat(5000)] {
        tells(&["add", number, "47"], "argument 2 is not a number of 1 to 32 digits");
        tells(&["add", "38", number], "argument 3 is not a number of 1 to 32 digits");
        tells(&["lamps", "add", "38", number, "1"], "argument 4 is not a number of 1 to 32 digits");
    }
}

/// No digit, no sign digit, two signs, or 32 digits.
#[test]
fn a_signed_number_that_is_none_is_told() {
    let line = "is not a number of 1 to 31 digits, with + or - before or after them, or : and a sign digit";
    let long = "1".repeat(32);
    let [plus, minus, other] = [format!("+{long}"), format!("{long}-"), format!("{long}:F")];
    for number in [
        "",
        "+",
        "-",
        ":",
        "+-",
        "--1",
        "+1-",
        "1--",
        ":C",
        "1:",
        "1:G",
        "1:CC",
        "1::C",
        "+1:C",
        "1:+",
        "1 -",
        "- 1",
        "1-1",
        "G",
        "0x38",
        "3.8",
        " 38",
        "38 ",
        "FROM=1",
        "é",
        &long,
        &plus,
        &minus,
        &other,
        &"0".repeat(5000),
    ] {
        for (name, _) in SIGNED {
            tells(&[name, number, "47"], &format!("argument 2 {line}"));
            tells(&[name, "38", number], &format!("argument 3 {line}"));
            tells(&["lamps", name, "38", number, "TO=1"], &format!("argument 4 {line}"));
        }
    }
}

/// No carry is taken with signs.
#[test]
fn what_ap_and_sp_do_not_know_is_told() {
    for (name, _) in SIGNED {
        for argument in
            ["0", "1", "", "x", "FROM", "TO=", "FROM=x", "I=1", "TRAP=1:0A0", "TRAP=0:0A0", "READING=C", "READING=X"]
        {
            let all = ["lamps", name, "38", "47", "TO=9", argument];
            tells(&[name, "38", "47", argument], "argument 4 is neither FROM=n nor TO=n");
            tells(&all[1..], "argument 5 is neither FROM=n nor TO=n");
            tells(&all, "argument 6 is neither FROM=n nor TO=n");
        }
        tells(&[name, "38", "47", "FROM=1", "FROM=1"], "argument 5 was given before");
    }
}

#[test]
fn what_an_addition_does_not_know_is_told() {
    let neither = |arguments: &[&str], number| {
        let line = format!("argument {number} is neither FROM=n nor TO=n, nor 0 or 1 for a carry before them");
        tells(&[&["add", "38", "47"], arguments].concat(), &line);
        let line = format!("argument {} is neither FROM=n nor TO=n, nor 0 or 1 for a carry before them", number + 1);
        tells(&[&["lamps", "add", "38", "47"], arguments].concat(), &line);
    };
    for argument in [
        "2",
        "",
        "x",
        "01",
        "FROM",
        "FROM=",
        "FROM=x",
        "FROM=-1",
        "TO= 1",
        "FROM=1A",
        "I=1",
        "ROM=1",
        "=1",
        "TRAP=1:0A0",
        "READING=B",
        "READING=C",
        "reading=c",
        "READING=X",
        "READING",
    ] {
        neither(&[argument], 4);
        neither(&["1", argument], 5);
    }
    neither(&["1", "1"], 5);
    neither(&["FROM=1", "1"], 5);
    neither(&["0", "FROM=1", "TO=2", "0"], 7);
}

impl Files {
    /// The endless words and one byte, in a folder of this name.
    fn endless(name: &str) -> Files {
        files(&folder(name), &endless().store, &[0])
    }

    /// What is told of arguments after the number of cycles; with `lamps` before it, an argument has one number more.
    fn tells(&self, arguments: &[&str], number: usize, line: &str) {
        let run = [&["run", &self.deck, &self.main, "9"], arguments].concat();
        tells(&run, &format!("argument {number} {line}"));
        tells(&[&["lamps"], &run[..]].concat(), &format!("argument {} {line}", number + 1));
    }
}

const NEITHER: &str = "is neither a register and its value, as I=HH or WX=HHH, nor TRAP=CYCLE:HHH, \
                       nor READING=B or READING=C, nor FROM=n nor TO=n";

#[test]
fn what_a_run_does_not_know_is_told() {
    let given = Files::endless("board_neither");
    for argument in [
        "I=001", "I=", "I", "=1", "", "I=G", "I=1 ", "I= 1", " I=1", "I:1", "I==1", "I=-1", "IJ=1", "Q=1", "W=1",
        "X=1", "AC=1", "WX=", "WX=0000", "WX=00G", "WX", "1", "0", "FROM", "FROM=", "FROM=A", "TO=-1", "from:1",
    ] {
        given.tells(&[argument], 5, NEITHER);
        given.tells(&["J=1", "FROM=1", argument], 7, NEITHER);
    }
}

/// No cycle, no address, a cycle 0 or over 1,000,000, an address of no or too many digits, and others.
const NO_TRAPS: [&str; 30] = [
    "TRAP=0:0A0",
    "TRAP=0000000:0",
    "TRAP=5",
    "TRAP=5:",
    "TRAP=:0A0",
    "TRAP=:",
    "TRAP=",
    "TRAP",
    "TRAP=5:12345",
    "TRAP=5:00000",
    "TRAP=1000001:0",
    "TRAP=00000005:0",
    "TRAP=5:0G0",
    "TRAP=A:0",
    "TRAP==5:0",
    "TRAP:5:0",
    "TRAP=5:0:0",
    "TRAP=5::0",
    "TRAP=5,0A0",
    "TRAP=5 0A0",
    "TRAP= 5:0",
    "TRAP=5: 0",
    "TRAP=5:0 ",
    " TRAP=5:0",
    "TRAP=-5:0",
    "TRAP=5:-1",
    "TRAP=5:0x0",
    "TRAPS=5:0",
    "RAP=5:0",
    "T=5:0",
];

#[test]
fn a_trap_that_is_none_is_told() {
    let given = Files::endless("board_no_trap");
    let long = "TRAP=5:0A0".to_owned() + &"0".repeat(90);
    for argument in NO_TRAPS.into_iter().chain([long.as_str()]) {
        given.tells(&[argument], 5, NEITHER);
        given.tells(&["TRAP=5:1", "TO=1", argument], 7, NEITHER);
    }
}

#[test]
fn what_is_given_twice_is_told() {
    let given = Files::endless("board_twice");
    let before = "was given before";
    for name in NAMES {
        let small = name.to_lowercase();
        given.tells(&[&format!("{name}=1"), &format!("{name}=1")], 6, before);
        given.tells(&[&format!("{name}=0"), "WX=0", &format!("{small}=7")], 7, before);
    }
    given.tells(&["WX=1", "wx=2"], 6, before);
    given.tells(&["FROM=0", "FROM=0"], 6, before);
    given.tells(&["TO=0", "I=1", "to=9"], 7, before);
    for first in ["READING=B", "READING=C"] {
        given.tells(&[first, "READING=B"], 6, before);
        given.tells(&[first, "READING=C"], 6, before);
        given.tells(&["TRAP=1:0", first, "I=1", "reading=c"], 8, before);
        given.tells(&[first, "TO=1", "R=C", "Reading=b", "READING=X"], 8, before);
    }
    given.tells(&["TRAP=5:1", "TRAP=5:1"], 6, before);
    given.tells(&["TRAP=5:1", "TRAP=6:1", "I=1", "trap=0000005:FFF"], 8, before);
    given.tells(&["TRAP=1:1", "TRAP=1000000:1", "TRAP=1000000:0"], 7, before);
    tells(&["add", "38", "47", "FROM=1", "FROM=1"], "argument 5 was given before");
    tells(&["add", "38", "47", "0", "TO=1", "FROM=1", "TO=1"], "argument 7 was given before");
}

/// All that can be given once, traps, and one more. The first that is wrong is told, however many follow.
#[test]
fn an_argument_has_its_true_number() {
    let given = Files::endless("board_number");
    let mut all: Vec<String> = NAMES.iter().map(|name| format!("{name}=1")).collect();
    all.extend(["WX=1", "READING=C", "FROM=1", "TO=1"].map(str::to_owned));
    let all = strs(&all);
    let hundred = vec!["I=1"; 100];
    given.tells(&[&all[..], &["x"]].concat(), 22, NEITHER);
    given.tells(&[&all[..], &["x"], &hundred].concat(), 22, NEITHER);
    given.tells(&[&all[..], &hundred].concat(), 22, "was given before");
    given.tells(&[&hundred[..], &all].concat(), 6, "was given before");
    let traps: Vec<String> = (1..=100).map(|cycle| format!("TRAP={cycle}:0")).collect();
    let traps = strs(&traps);
    given.tells(&[&traps[..], &all, &["x"]].concat(), 122, NEITHER);
    given.tells(&[&all[..], &traps, &traps].concat(), 122, "was given before");
}

impl Files {
    /// The endless words and 1,024 bytes.
    fn for_two(name: &str) -> Files {
        let Bench { store, main, .. } = endless();
        files(&folder(name), &store, &main)
    }

    /// What is told of two boards in these fences, with these options from argument 8 on.
    fn tells_two(&self, [a, b]: [&str; 2], order: &str, options: &[&str], line: &str) {
        tells(&[&["two", &self.deck, &self.main, "9", a, b, order], options].concat(), line);
    }
}

/// One side, none, too many digits, another character, or too many sides.
const NO_FENCE: [&str; 25] = [
    "",
    ":",
    "100",
    "100:",
    ":102",
    "100:102:",
    ":100:102",
    "100::102",
    "100:102:104",
    "000100:102",
    "100:000102",
    "100000:100001",
    "10G:10H",
    "100:10g",
    "g:102",
    "100-102",
    "100,102",
    "100 102",
    "100 :102",
    " 100:102",
    "100:102 ",
    "0x10:102",
    "-1:102",
    "100:+102",
    "A.I=1",
];

#[test]
fn a_fence_that_is_none_is_told() {
    let given = Files::for_two("board_no_fence");
    let line = "is not a fence START:END of two addresses of 1 to 5 hexadecimal digits";
    let long = format!("100:{}", "1".repeat(90));
    for wrong in NO_FENCE.into_iter().chain([long.as_str()]) {
        given.tells_two([wrong, "200:202"], "AB", &[], &format!("argument 5 {line}"));
        given.tells_two(["200:202", wrong], "AB", &[], &format!("argument 6 {line}"));
        // the first that is wrong is told
        given.tells_two([wrong, wrong], "x", &["x"], &format!("argument 5 {line}"));
        given.tells_two(["0:0", wrong], "", &["FROM=2", "TO=1"], &format!("argument 6 {line}"));
    }
}

#[test]
fn an_order_that_is_none_is_told() {
    let given = Files::for_two("board_no_order");
    let [longer, long] = ["A".repeat(65), "AB".repeat(2000)];
    for order in
        ["", "C", "c", "X", "ABC", "CAB", "A B", " AB", "AB ", "A,B", "A-B", "1", "AB1", "A.I=1", &longer, &long]
    {
        let line = "argument 7 is not an order of 1 to 64 letters A and B";
        given.tells_two(["0:1", "1:2"], order, &[], line);
        given.tells_two(["0:0", "0:0"], order, &["x"], line);
    }
}

/// In 1,024 bytes, either board's: empty, its start over its end, or beyond the last byte; and two with a byte in common.
#[test]
fn fences_that_are_refused_are_told() {
    let given = Files::for_two("board_32");
    for (one, other) in [
        ("100:100", "200:300"),
        ("0:0", "0:400"),
        ("400:400", "0:400"),
        ("101:100", "200:300"),
        ("3FF:0", "200:300"),
        ("3FF:401", "200:300"),
        ("400:401", "200:300"),
        ("300:10400", "200:300"),
        ("10000:10001", "200:300"),
        ("FFFFE:FFFFF", "200:300"),
        ("100:201", "200:300"),
        ("2FF:300", "200:300"),
        ("200:201", "200:300"),
        ("280:281", "200:300"),
        ("200:300", "200:300"),
        ("0:400", "200:300"),
    ] {
        for fences in [[one, other], [other, one]] {
            given.tells_two(fences, "AB", &[], NO_FENCES);
            given.tells_two(fences, "b", &["FROM=9", "A.WX=FFF"], NO_FENCES);
        }
        // what is wrong in an argument is told before it
        given.tells_two([one, other], "AB", &["FROM=2", "TO=1"], "FROM is over TO");
    }
    for (one, other) in [("100:200", "200:300"), ("1FF:200", "200:201"), ("0:1", "1:400"), ("0:200", "200:400")] {
        for [a, b] in [[one, other], [other, one]] {
            let said = board(&["two", &given.deck, &given.main, "9", a, b, "AB", "FROM=9"]);
            assert!(said.well() && said.out.ends_with(b"\nA SPENT AT 001\nB SPENT AT 000\n"), "{said:?}");
        }
    }
}

const NEITHER_OF_TWO: &str = "is neither a register of a board and its value, as A.I=HH or B.WX=HHH, \
                              nor READING=B or READING=C, nor FROM=n nor TO=n";

/// A register of no board or of another, none, or too much of it; a trap; and what belongs to no board.
const NO_OPTION_OF_TWO: [&str; 46] = [
    "",
    "x",
    "1",
    "A",
    "B",
    "A.",
    "A.I",
    "A.I=",
    "A.I=001",
    "A.I=G",
    "A.I=-1",
    "A.I= 1",
    "A.I=1 ",
    " A.I=1",
    "A.I==1",
    "A.I:1",
    "A:I=1",
    "A=1",
    "A.=1",
    "AI=1",
    "A I=1",
    "A..I=1",
    ".I=1",
    "A.B.I=1",
    "AB.I=1",
    "C.I=1",
    "0.I=1",
    "A.Q=1",
    "A.W=1",
    "A.AC=1",
    "A.WX=",
    "A.WX=0000",
    "A.WX=G",
    "B.FWX=1",
    "I=1",
    "WX=1",
    "TRAP=1:0",
    "trap=5:001",
    "A.TRAP=1:0",
    "READING=X",
    "READING",
    "A.READING=C",
    "FROM=",
    "TO=-1",
    "A.FROM=1",
    "B.TO=1",
];

#[test]
fn what_two_boards_do_not_know_is_told() {
    let given = Files::for_two("board_two_neither");
    let long = "A.I=".to_owned() + &"0".repeat(90);
    for option in NO_OPTION_OF_TWO.into_iter().chain([long.as_str()]) {
        given.tells_two(["0:1", "1:2"], "AB", &[option], &format!("argument 8 {NEITHER_OF_TWO}"));
        given.tells_two(["0:0", "0:0"], "A", &["A.I=1", "TO=1", option, "y"], &format!("argument 10 {NEITHER_OF_TWO}"));
    }
}

/// A register of A and the same of B are two. All that can be given is given, and one more.
#[test]
fn what_two_boards_are_given_twice_is_told() {
    let given = Files::for_two("board_two_twice");
    let before = |options: &[&str], number: usize| {
        given.tells_two(["0:1", "1:2"], "AB", options, &format!("argument {number} was given before"));
    };
    let names: Vec<&str> = NAMES.into_iter().chain(["WX"]).collect();
    for name in &names {
        let [a, b, small] = [format!("A.{name}=1"), format!("B.{name}=1"), format!("b.{}=0", name.to_lowercase())];
        before(&[&a, &a], 9);
        before(&[&a, &b, &small], 10);
    }
    before(&["READING=B", "A.I=1", "reading=c"], 10);
    before(&["FROM=1", "from=1"], 9);
    before(&["TO=1", "B.I=1", "A.I=1", "TO=2", "x"], 11);
    let mut all: Vec<String> =
        BOTH.iter().flat_map(|letter| names.iter().map(move |name| format!("{letter}.{name}=1"))).collect();
    all.extend(["READING=C", "FROM=1", "TO=1"].map(str::to_owned));
    let all = strs(&all);
    before(&[&all[..], &all].concat(), 8 + 31);
    given.tells_two(["0:1", "1:2"], "AB", &[&all[..], &["x"]].concat(), &format!("argument 39 {NEITHER_OF_TWO}"));
    let said = board(&[&["two", &given.deck, &given.main, "9", "0:1", "1:2", "AB"], &all[..]].concat());
    assert!(said.well() && !said.out.is_empty(), "{said:?}");
}

#[test]
fn a_number_of_cycles_that_is_none_is_told() {
    let Files { deck, main } = Files::endless("board_cycles");
    for cycles in
        ["", "x", "-1", "+1", " 1", "1 ", "1A", "1000001", "9999999", "00000001", "10000000", "1e3", "I=1", "READING=C"]
    {
        tells(&["run", &deck, &main, cycles], "argument 4 is not a number of cycles up to 1000000");
        tells(&["lamps", "run", &deck, &main, cycles], "argument 5 is not a number of cycles up to 1000000");
        let two = ["two", &deck, &main, cycles, "0:1", "1:2", "AB"];
        tells(&two, "argument 4 is not a number of cycles up to 1000000");
    }
}

/// A deck's path, or an image's, among two that are right.
fn told_of(deck: Option<&str>, main: Option<&str>, given: &Files, line: &str) {
    let run = ["run", deck.unwrap_or(&given.deck), main.unwrap_or(&given.main), "9"];
    let number = if deck.is_some() { 2 } else { 3 };
    tells(&run, &format!("argument {number} {line}"));
    tells(&[&["lamps"], &run[..]].concat(), &format!("argument {} {line}", number + 1));
    tells(&[&["two"], &run[1..], &["0:1", "1:2", "AB"]].concat(), &format!("argument {number} {line}"));
}

#[test]
fn what_cannot_be_read_is_told() {
    let given = Files::endless("board_unread");
    let folder = root().to_string_lossy().into_owned();
    let below_a_file = format!("{}/x", given.main);
    for path in [folder.as_str(), "/", "", "/no such file", &below_a_file, &"x".repeat(300), &"x/".repeat(3000)] {
        told_of(Some(path), None, &given, "cannot be read");
        told_of(None, Some(path), &given, "cannot be read");
    }
}

/// The deck of the endless words with one bit turned, the check right again.
fn turned(bit: usize) -> Vec<u8> {
    let mut deck = deck_of(&endless().store);
    deck[8 + 7 - bit / 8] ^= 1 << (bit % 8);
    mend(&mut deck, 0);
    deck
}

/// A first word of these codes, with these bits turned.
fn deck_with(codes: Codes, bits: u64) -> Vec<u8> {
    let mut deck = deck_of(&[build(0, codes).expect("a word")]);
    let word = build(0, codes).expect("a word") ^ bits;
    deck[8..16].copy_from_slice(&word.to_be_bytes());
    mend(&mut deck, 0);
    deck
}

#[test]
fn a_refused_deck_is_told_in_words() {
    let given = Files::endless("board_refused");
    let here = folder("board_refused_decks");
    let three = deck_of(&common::draw_words(&mut Random::new(107), 3 * 62));
    let with = |at: usize, byte: u8| {
        let mut deck = three.clone();
        deck[at] = byte;
        deck
    };
    let long = vec![0; LONGEST + BLOCK];
    let module: Codes = &[("CL", 2), ("CA", 4), ("CM", 1)];
    let decks: [(u8, Vec<u8>); 17] = [
        (3, turned(63)),
        (3, turned(55)),
        (4, turned(48)),
        (5, turned(47)),
        (6, turned(20)),
        (7, turned(0)),
        // K to W, a return, and PK, with PS right again
        (8, deck_with(module, 1 << 35 | 1 << 20)),
        (8, deck_with(module, 3 << 34)),
        (9, deck_with(module, 1 << 21 | 1 << 20)),
        (15, Vec::new()),
        (15, three[..3 * BLOCK - 1].to_vec()),
        (15, long),
        (15, vec![0; 1 << 20]),
        (16, with(2 * BLOCK + 1, 1)),
        (17, with(2 * BLOCK + 3, 63)),
        (17, with(7, 1)),
        (18, with(3 * BLOCK - 1, three[3 * BLOCK - 1] ^ 1)),
    ];
    for (number, deck) in decks {
        assert_eq!(words_of(&deck), Err(number), "the second engine");
        let deck = file(&here, "deck", &deck);
        told_of(Some(&deck), None, &given, &format!("is a deck refused by {number}: {}", in_words(number)));
    }
}

#[test]
fn an_image_too_small_or_too_large_is_told() {
    let given = Files::endless("board_sizes");
    let here = folder("board_sizes_images");
    for size in [0, 65_537, 65_536 + 512, 1 << 20] {
        let main = file(&here, "main", &vec![0; size]);
        told_of(None, Some(&main), &given, "is not an image of 1 to 65536 bytes");
    }
}

// ---- reads and writes that fail

/// A read that fails half-way is not the end of the file. The first blocks alone would be a deck, and an image.
#[test]
fn a_read_that_fails_half_way_is_told() {
    let here = folder("board_half");
    let Some(library) = failing_reads(&here) else {
        return;
    };
    let mut bench = stops(3 * 62);
    bench.then(0, 1, &[("CM", 3)]);
    bench.main = vec![7; 3 * BLOCK];
    let Files { deck, main } = files(&here, &bench.store, &bench.main);
    let (text, _) = board::run(Basic, &bench.store, &bench.main, bench.state, 9, &View::LINES);
    let of = |path: &str, reads| {
        run(breaking(&mut command("board", &["run", &deck, &main, "9"]), &library, path, reads), &[])
    };
    for (path, number) in [(&deck, 2), (&main, 3)] {
        for reads in 0..4 {
            let said = of(path, reads);
            let told = (said.text(), said.err, said.status);
            let line = format!("board: argument {number} cannot be read\n");
            assert_eq!(told, (String::new(), line, Some(1)), "{reads} reads of argument {number}");
        }
        // with the read that finds the end, all is well
        let said = of(path, 4);
        assert_eq!((said.text(), said.err.as_str(), said.status), (text.clone(), "", Some(0)));
    }
}

/// A write that fails is told once, however much there is to write.
#[test]
fn a_write_that_fails_is_told_once() {
    let Files { deck, main } = Files::endless("board_full");
    let Files { main: two, .. } = Files::for_two("board_full_two");
    for arguments in [
        &[][..],
        &["help"],
        &["walk"],
        &["add", "38", "47"],
        &["add", "38", "A"],
        &["lamps", "add", "38", "47"],
        &["sp", "38", "47"],
        &["ap", "38", "A"],
        &["run", &deck, &main, "0"],
        &["run", &deck, &main, "9"],
        &["run", &deck, &main, "100000"],
        &["lamps", "run", &deck, &main, "20000"],
        &["run", &deck, &main, "100000", "TO=0"],
        &["run", &deck, &main, "9", "TRAP=9:1"],
        &["run", &deck, &main, "9", "READING=C"],
        &["two", &deck, &two, "9", "0:1", "1:2", "AB"],
        &["two", &deck, &two, "0", "0:1", "1:2", "AB"],
        &["two", &deck, &two, "100000", "0:1", "1:2", "AB"],
    ] {
        let said = said_to_full("board", arguments, &[]);
        assert_eq!((said.err.as_str(), said.status), ("board: the output was not written\n", Some(1)), "{arguments:?}");
    }
}

/// The first lines reach a file that may not grow over 64 kilobytes.
#[test]
fn a_write_that_fails_half_way_is_told_once() {
    let (here, bench) = (folder("board_limit"), endless());
    let Files { deck, main } = files(&here, &bench.store, &bench.main);
    let (text, _) = board::run(Basic, &bench.store, &bench.main, bench.state, 100_000, &View::LINES);
    let path = here.join("lines");
    // the programs are proved without the limit
    board(&["help"]);
    let mut limited = Command::new("bash");
    limited.args(["-c", "trap '' XFSZ; ulimit -f 64; exec \"$@\" >\"$0\""]).arg(&path).arg(root().join("board"));
    let said = run(limited.args(["run", &deck, &main, "100000"]), &[]);
    assert_eq!((said.err.as_str(), said.status), ("board: the output was not written\n", Some(1)));
    same(&fs::read(&path).expect("the lines"), &text[..65_536], &["limited"]);
}

/// Both are told: what went wrong in the run, and that its text was not written.
#[test]
fn a_refused_run_that_is_not_written_is_told_twice() {
    let Files { deck, main } = Files::endless("board_both");
    for (argument, line) in [
        ("WX=9", "board: the run was refused"),
        ("TRAP=2:1000", "board: a trap was refused"),
        ("TRAP=10:0", "board: the run ended before the trap of cycle 10"),
    ] {
        let said = said_to_full("board", &["run", &deck, &main, "9", argument], &[]);
        let told: BTreeSet<&str> = said.err.lines().collect();
        assert_eq!(told, BTreeSet::from([line, "board: the output was not written"]));
        assert_eq!((said.err.lines().count(), said.status), (2, Some(1)));
    }
    let Files { deck, main } = Files::for_two("board_both_two");
    let two = ["two", &deck, &main, "9", "0:1", "1:2", "AB", "A.WX=9", "B.WX=9"];
    let said = said_to_full("board", &two, &[]);
    let mut told: Vec<&str> = said.err.lines().collect();
    told.sort_unstable();
    let expected = ["board: board A was refused", "board: board B was refused", "board: the output was not written"];
    assert_eq!((told, said.status), (expected.to_vec(), Some(1)));
}

/// What is wrong on the command line is told all the same where the output takes nothing.
#[test]
fn what_is_told_needs_no_output() {
    let said = said_to_full("board", &["walk", "x"], &[]);
    assert_eq!((said.err.as_str(), said.status), ("board: argument 2 is one too many\n", Some(1)));
}

// ---- the pages

/// A page's commands, each with the lines that the page shows below it.
fn commands_of(page: &str) -> Vec<(String, Vec<String>)> {
    let text = fs::read_to_string(root().join(page)).expect(page);
    let (mut commands, mut inside) = (Vec::new(), false);
    for line in text.lines() {
        if line.starts_with("```") {
            inside = line == "```text";
        } else if let Some(command) = line.strip_prefix("$ ").filter(|_| inside) {
            commands.push((command.to_owned(), Vec::new()));
        } else if let Some((_, shown)) = commands.last_mut().filter(|_| inside) {
            shown.push(line.to_owned());
        }
    }
    commands
}

/// What is printed is what is shown, where `..` stands for lines that are left out.
fn is_shown(printed: &[&str], shown: &[&str]) -> bool {
    match shown {
        [] => printed.is_empty(),
        ["..", rest @ ..] => (0..=printed.len()).any(|left_out| is_shown(&printed[left_out..], rest)),
        [line, rest @ ..] => printed.first() == Some(line) && is_shown(&printed[1..], rest),
    }
}

/// What a line of a page may begin with, to be typed as it stands. Others, as those of a compiler, are left alone.
const TYPED: [&str; 6] = ["./board", "./ship", "./lister", "printf ", "head ", "("];

/// A folder of a page's own, with the root commands, and nothing that the page has not made.
fn desk(page: &str) -> PathBuf {
    let here = folder(&format!("pages/{page}"));
    for name in ["board", "ship", "lister"] {
        symlink(root().join(name), here.join(name)).expect("a link");
    }
    here
}

#[test]
fn the_pages_show_what_is_printed() {
    for (page, least) in [("README.md", 3), ("docs/BOARD.md", 20)] {
        let (here, mut tried) = (desk(page), 0);
        for (line, shown) in commands_of(page) {
            if !TYPED.iter().any(|start| line.starts_with(start)) {
                continue;
            }
            let said = typed_in(&here, &line);
            let printed = said.text() + &said.err;
            assert!(is_shown(&printed.lines().collect::<Vec<_>>(), &strs(&shown)), "{page}: {line}\n{printed}");
            tried += usize::from(line.starts_with("./board"));
        }
        assert!(tried >= least, "{page} shows {tried} commands");
    }
}
