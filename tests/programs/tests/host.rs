//! Programs in C and C++ that stand on include/panel.h and a board's library, compiled as a board's maker compiles them: with
//! the kit's tools by examples/panel/build.sh, and plainly with gcc and g++ where they are on the path.

#[path = "../../second/tests/common/mod.rs"]
mod common;

use programs::{file, folder, lesson, root, run, there, Said};
use second::panel;
use second::word::build;
use std::path::PathBuf;
use std::process::Command;

/// enum panel_reading.
const BASIC: u8 = 0;
const COMPATIBILITY: u8 = 1;

/// What examples/panel prints of the word P: one cycle of it from J 5D, and the record that it leaves.
fn cycle_of_p() -> String {
    let mut record = [0; panel::STATE];
    record[1] = 0x5D;
    let answer = panel::one_cycle(BASIC, &[common::P], &mut [0; 256], &mut [0; 256], &mut record);
    assert_eq!(answer, 0);
    let names = "I J U V L T D R S G H M N WX_high WX_low AC 1BC Z0 allow_write local arriving arriving_byte \
                 digit_carry invalid FWX_high FWX_low owed";
    let lines = names.split(' ').zip(record).map(|(name, byte)| format!("{:<13} {byte:02X}\n", name.replace('_', " ")));
    format!("word {:016X}\nkind 0, refusal 0, field 0\n{}", common::P, lines.collect::<String>())
}

/// What it prints of the shipped words: the cycles that gate A to another byte, or correct their sum, and the sum.
fn cycles_of_the_sum() -> String {
    let (mut words, mut record, mut work) = ([0; 21], [0; panel::STATE], [0; 8]);
    assert_eq!((panel::shipped(&mut words), panel::start(0x10, 0x20, 1, 1, &mut record)), (21, 0));
    let (mut main, mut local) = ([0; 256], [0; 256]);
    [main[0x10], main[0x20]] = [0x38, 0x47];
    let mut text = String::new();
    while panel::next_sum(&words, &record, &mut work) == 0 {
        let [a, gated, .., before, after] = work;
        if a != gated || before != after {
            let at = u16::from_be_bytes([record[13], record[14]]);
            text += &format!("word {at:03X}: A {a:02X}, crossed and gated {gated:02X}; ");
            text += &format!("sum {before:02X}, corrected {after:02X}\n");
        }
        assert_eq!(panel::one_cycle(BASIC, &words, &mut main, &mut local, &mut record), 0);
    }
    text + &format!("38 + 47 + 1 = {:02X}\n", main[0x10])
}

/// What it prints of the two buttons: the cycles of the run alone, and those left of it after seven.
fn buttons() -> String {
    let (mut words, mut record) = ([0; 21], [0; panel::STATE]);
    assert_eq!((panel::shipped(&mut words), panel::start(0x10, 0x20, 1, 1, &mut record)), (21, 0));
    let mut main = [0; 256];
    [main[0x10], main[0x20]] = [0x38, 0x47];
    let number = panel::run_for(BASIC, &words, &mut main, &mut [0; 256], &mut record, 100);
    let (cycles, kind) = (number >> 32, number % 256);
    format!("7 single cycles, then a run of {}: kind {kind}\none run of {cycles}: kind {kind}\n", cycles - 7)
        + "lamps and storage are the same\n"
}

/// What it prints of word 11, with R and D given: the sum and its two lamps.
fn six_by_hand(d: u8) -> String {
    let (mut words, mut record) = ([0; 21], [0; panel::STATE]);
    assert_eq!((panel::shipped(&mut words), panel::start(0, 0, 1, 0, &mut record)), (21, 0));
    [record[6], record[7], record[14]] = [d, 0x38, 0x11];
    assert_eq!(panel::one_cycle(BASIC, &words, &mut [0; 256], &mut [0; 256], &mut record), 0);
    format!("38 + {d:02X} = {:02X}, digit carry {}, invalid {}\n", record[7], record[22], record[23])
}

/// What it prints of signed fields: the number of one, whether that is written as its bytes, and what refuses a bad sign.
fn signed_fields() -> String {
    let [field, bad] = [0x12345D_u64, 0x123455];
    let (mut number, mut written) = ([0], [0; 8]);
    assert_eq!(panel::read_signed(&field.to_be_bytes(), &mut number), 0);
    let mut text = format!("field {field:016X} is {}\n", number[0]);
    assert_eq!(panel::write_signed(number[0], &mut written), 0);
    let which = if written == field.to_be_bytes() { "the same" } else { "OTHER" };
    text += &format!("{} is written as {which} bytes\n", number[0]);
    let refusal = panel::read_signed(&bad.to_be_bytes(), &mut number);
    text + &format!("field {bad:016X} is refused by {refusal}, and the number stays {}\n", number[0])
}

/// What it prints of two fields of two bytes: the first field afterwards, the overflow and the cycles.
fn with_signs() -> String {
    let sum = |name: &str, fields: [u8; 4]| {
        let (mut main, local) = (fields, &mut [0; 256]);
        let of = if name == "SP" { panel::sub_signed } else { panel::add_signed };
        let answer = of(&mut main, local, 0, 2, 2);
        assert_eq!(answer & 0xFFFF, panel::SUMMED);
        let [a, b, c, d] = fields;
        let result = format!("{:02X}{:02X}, overflow {}", main[0], main[1], answer >> 16 & 0xFFFF);
        format!("{a:02X}{b:02X} {name} {c:02X}{d:02X} = {result}, {} cycles\n", answer >> 32)
    };
    sum("SP", [0x19, 0x0C, 0x20, 0x0C]) + &sum("AP", [0x99, 0x9C, 0x00, 0x1C])
}

/// What it prints of an addition that a trap breaks into before its ninth cycle, a second trap while the first is open, and the
/// two cycles of the routine.
fn broken_into() -> String {
    let (words, mut main, local, mut record) = (lesson(), [0; 256], &mut [0; 256], [0; panel::STATE]);
    assert_eq!(panel::start(0x10, 0x20, 1, 1, &mut record), 0);
    [main[0x10], main[0x20]] = [0x38, 0x47];
    let wx = |record: &[u8]| u16::from_be_bytes([record[13], record[14]]);
    assert_eq!(panel::run_for(BASIC, &words, &mut main, local, &mut record, 8), 8 << 32 | panel::SPENT);
    let from = wx(&record);
    let mut text = format!("trap to 015, from {from:03X}: {}\n", panel::trap(0x15, &mut record));
    text += &format!("a second trap: {}\n", panel::trap(0x16, &mut record));
    assert_eq!(panel::run_for(BASIC, &words, &mut main, local, &mut record, 2), 2 << 32 | panel::SPENT);
    text += &format!("two cycles later at {:03X}, G {:02X}, return owed {}\n", wx(&record), record[9], record[26]);
    assert_eq!(panel::run_for(BASIC, &words, &mut main, local, &mut record, 90) & 0xFF, panel::STOPPED);
    text + &format!("38 + 47 + 1 = {:02X}\n", main[0x10])
}

/// What it prints of a word with this CL, from R1 and G1 on and 1BC off: the next address, or the refusal and its field.
fn read_as(reading: u8, name: &str, cl: u8) -> String {
    let word = build(0, &[("CL", cl), ("CM", 1), ("CA", 4)]).expect("a word");
    let mut record = [0; panel::STATE];
    [record[7], record[9]] = [0x40; 2];
    let answer = panel::one_cycle(reading, &[word], &mut [0; 256], &mut [0; 256], &mut record);
    let next = u16::from_be_bytes([record[13], record[14]]);
    let shown = match answer & 0xFF {
        panel::RAN => format!("next word {next:03X}"),
        _ => format!("refused by {}, field {}", answer >> 8 & 0xFF, answer >> 16),
    };
    format!("CL {cl}, read as {name}: {shown}\n")
}

/// What it prints of two words under both readings.
fn two_readings() -> String {
    let both = |cl| read_as(BASIC, "basic", cl) + &read_as(COMPATIBILITY, "compatibility", cl);
    both(6) + &both(4)
}

/// The same as a maker reads it.
#[test]
fn the_readings_by_hand() {
    let text = "CL 6, read as basic: next word 000
CL 6, read as compatibility: next word 001
CL 4, read as basic: refused by 10, field 5
CL 4, read as compatibility: next word 001
";
    assert_eq!(two_readings(), text);
}

/// The record of a board whose two fields, a byte each, stand at the start of its fence and 16 further on.
fn begun(core: &mut [u8], start: u16, fields: [u8; 2]) -> [u8; panel::STATE] {
    let (mut record, at) = ([0; panel::STATE], usize::from(start));
    [core[at], core[at + 0x10]] = fields;
    assert_eq!(panel::start(start, start + 0x10, 1, 0, &mut record), 0);
    record
}

/// A turn on the shipped words. They use no local storage.
fn turn(core: &mut [u8], record: &mut [u8], own: [usize; 2], other: [usize; 2]) -> u64 {
    let mut words = [0; 21];
    assert_eq!(panel::shipped(&mut words), 21);
    panel::turn(BASIC, &words, core, &mut [0; 256], record, own, other)
}

/// What it prints of two boards on one core.
fn one_core() -> String {
    let (core, a, b) = (&mut [0; 256], [0x10, 0x30], [0x80, 0xA0]);
    let mut records = [begun(core, 0x10, [0x38, 0x47]), begun(core, 0x80, [0x99, 0x01])];
    let mut text = format!("fences 10:30 and 80:A0: {}\n", panel::open(256, a, b));
    let (mut turns, mut answers) = (0, [panel::RAN; 2]);
    while answers.contains(&panel::RAN) {
        answers = [turn(core, &mut records[0], a, b), turn(core, &mut records[1], b, a)];
        turns += 1;
    }
    let ([of_a, of_b], sums) = (answers, [core[0x10], core[0x80]]);
    text += &format!(
        "after {turns} turns each, A: kind {of_a}, sum {:02X}; B: kind {of_b}, sum {:02X}\n",
        sums[0], sums[1]
    );
    let (mut record, short) = (begun(core, 0x80, [0x99, 0x01]), [0x80, 0x90]);
    let refused =
        (0..99).map(|_| turn(core, &mut record, short, a)).find(|&answer| answer != panel::RAN).expect("an end");
    text += &format!("B in 80:90: refused by {}, and its field is {:02X}\n", refused >> 8, core[0x80]);
    text + &format!("fences 10:30 and 2F:A0: {}\n", panel::open(256, a, [0x2F, 0xA0]))
}

/// The same as a maker reads it.
#[test]
fn one_core_by_hand() {
    let text = "fences 10:30 and 80:A0: 0
after 19 turns each, A: kind 1, sum 85; B: kind 1, sum 00
B in 80:90: refused by 11, and its field is 99
fences 10:30 and 2F:A0: 32
";
    assert_eq!(one_core(), text);
}

fn shows_the_example(said: &Said) {
    let text = [
        cycle_of_p(),
        cycles_of_the_sum(),
        buttons(),
        six_by_hand(0x47),
        six_by_hand(0xAD),
        signed_fields(),
        with_signs(),
        broken_into(),
        two_readings(),
        one_core(),
    ]
    .concat();
    assert_eq!((said.text(), said.status), (text, Some(0)), "{}", said.err);
}

#[test]
fn the_example_is_built_and_run() {
    shows_the_example(&run(Command::new("sh").arg(root().join("examples/panel/build.sh")), &[]));
}

/// A compiler accepts it, with no warning.
fn compiles(compiler: &str, arguments: &[&str]) {
    let said = run(Command::new(compiler).args(["-Wall", "-Wextra", "-Werror"]).args(arguments), &[]);
    assert!(said.well(), "{compiler} {arguments:?}: {}", said.err);
}

/// The header by itself, in a language and each of its standards.
fn header_compiles(compiler: &str, language: &str, standards: &[&str]) {
    let header = root().join("include/panel.h");
    if !there(compiler) {
        return;
    }
    let plain = ["-fsyntax-only", "-x", language, &header.to_string_lossy()];
    compiles(compiler, &plain);
    for standard in standards {
        compiles(compiler, &[&["-pedantic", &format!("-std={standard}")], &plain[..]].concat());
    }
}

#[test]
fn the_header_compiles_as_c() {
    header_compiles("gcc", "c", &["c99", "c11"]);
}

#[test]
fn the_header_compiles_as_cpp() {
    header_compiles("g++", "c++", &["c++98", "c++11", "c++17"]);
}

/// A board's library, as it is proved from the present files.
fn library(board: &str) -> PathBuf {
    let said = run(Command::new(root().join("tools/library")).arg(board), &[]);
    assert_eq!(said.status, Some(0), "{}", said.err);
    PathBuf::from(said.text().trim())
}

/// The source with the header and a board's library, and nothing else on the command line: what each program then says.
fn linked(compiler: &str, source: &str) -> Vec<Said> {
    if std::env::consts::ARCH != "x86_64" || !there(compiler) {
        return Vec::new();
    }
    let with = |board: &str| {
        let program = folder(&format!("{compiler}_{board}")).join("program");
        let parts = [root().join("include"), library(board), program.clone()];
        let parts = parts.map(|path| path.to_string_lossy().into_owned());
        compiles(compiler, &[source, "-I", &parts[0], &parts[1], "-o", &parts[2]]);
        run(&mut Command::new(program), &[])
    };
    ["small", "large"].map(with).into()
}

#[test]
fn gcc_links_the_example() {
    let source = root().join("examples/panel/example.c");
    linked("gcc", &source.to_string_lossy()).iter().for_each(shows_the_example);
}

/// Every function once, from C++, and what each answers. All but the last four refuse.
const ALL: &str = "#include <panel.h>
#include <cstdio>
int main() {
    uint64_t words[55] = {};
    int64_t number[1] = {};
    uint8_t bytes[18] = {}, main[1] = {}, local[1] = {}, all[256] = {}, state[PANEL_STATE] = {}, work[PANEL_WORK] = {};
    std::printf(\"%u \", panel_take_apart(0, 0, bytes, 17));
    std::printf(\"%u \", panel_pack(bytes, 17, 0, words, 1));
    std::printf(\"%u \", panel_cycle(PANEL_BASIC, words, 21, main, 1, local, 1, state, PANEL_STATE) / 256);
    uint64_t run = panel_run(PANEL_COMPATIBILITY, words, 21, main, 1, local, 1, state, PANEL_STATE - 1, 1);
    std::printf(\"%u \", unsigned(run / 256));
    std::printf(\"%u \", panel_next_sum(words, 21, state, PANEL_STATE, work, PANEL_WORK));
    std::printf(\"%u \", unsigned(panel_add_decimal(main, 1, local, 1, 0, 0, 1, 0) / 256));
    std::printf(\"%u \", panel_read_deck(bytes, 0, words, 1) / 65536);
    std::printf(\"%u \", panel_write_deck(words, 0, bytes, 1) / 65536);
    std::printf(\"%u \", panel_read_signed(bytes, 8, number, 1));
    std::printf(\"%u \", panel_write_signed(1000000000000000, bytes, 8));
    std::printf(\"%u \", unsigned(panel_add_signed(main, 1, local, 1, 0, 0, 1) / 256));
    std::printf(\"%u \", unsigned(panel_sub_signed(main, 1, all, 256, 0, 0, 0) / 256));
    std::printf(\"%u \", panel_trap(4096, state, PANEL_STATE));
    std::printf(\"%u \", panel_open(1, 0, 1, 1, 2));
    uint32_t turn = panel_turn(PANEL_BASIC, words, 21, main, 1, all, 256, state, PANEL_STATE, 0, 1, 1, 2);
    std::printf(\"%u \", turn / 256);
    std::printf(\"%u \", unsigned(panel_add_decimal_in(main, 1, all, 256, 0, 0, 2, 0, 0, 1) / 256));
    std::printf(\"%u \", panel_start(0, 0, 1, 0, state, PANEL_STATE));
    std::printf(\"%u \", panel_shipped(words, 21));
    std::printf(\"%u \", panel_start_signed(0, 0, 1, 0, state, PANEL_STATE));
    std::printf(\"%u\\n\", panel_shipped_signed(words, 55));
}
";

#[test]
fn gpp_links_every_function() {
    let source = file(&folder("gpp_source"), "all.cpp", ALL.as_bytes());
    for said in linked("g++", &source) {
        let text = "19 19 1 19 1 1 15 21 26 27 1 12 30 32 32 13 0 21 0 55\n";
        assert_eq!((said.text().as_str(), said.status), (text, Some(0)), "{}", said.err);
    }
}
