//! The teacher's pages, docs/DECIMAL-ADD.md and docs/AP-SP.md: each word that they list, field by field, and each cycle
//! that they show, lamp by lamp, are those of this engine's own run.

use second::cycle::{cycle, next_work, Answer};
use second::reading::Reading;
use second::shipped::{start, start_apsp, APSP, SHIPPED};
use second::state::State;
use second::word::{take_apart, GIVEN, LAYOUT};
use std::collections::BTreeMap;
use std::fs;
use std::path::Path;

/// The tables of a page that begin with such a cell: each row's cells.
fn tables(page: &str, first: &str) -> Vec<Vec<Vec<String>>> {
    let path = Path::new(env!("CARGO_MANIFEST_DIR")).join("../../docs").join(page);
    let text = fs::read_to_string(path).expect(page);
    let (mut tables, mut open) = (Vec::new(), false);
    for line in text.lines() {
        let cells: Vec<String> = line.trim_matches('|').split('|').map(|cell| cell.trim().to_owned()).collect();
        open = line.starts_with('|') && (open || cells[0] == first);
        if open && cells[0] == first {
            tables.push(Vec::new());
        } else if open && !cells[0].starts_with('-') {
            tables.last_mut().expect("a table").push(cells);
        }
    }
    tables
}

fn hexadecimal(text: &str) -> u64 {
    u64::from_str_radix(text, 16).unwrap_or_else(|_| panic!("{text:?} is no number"))
}

/// A word's fields, by the names above the columns; those of no column are 0, PN, PA, PS and PC left aside.
fn word_is(names: &str, cells: &[String], word: u64) {
    let at = hexadecimal(&cells[0]) as u32;
    assert_eq!(hexadecimal(&cells[1]), word, "at {at:02X}");
    let fields = take_apart(word, at).expect("a word");
    let shown: Vec<u8> =
        cells[2..cells.len() - 1].join(" ").split(' ').map(|code| code.parse().expect("a code")).collect();
    let names: Vec<&str> = names.split(' ').collect();
    assert_eq!(names.len(), shown.len());
    let shown: BTreeMap<&str, u8> = names.into_iter().zip(shown).collect();
    for (code, place) in fields.iter().zip(GIVEN) {
        let name = LAYOUT[place].0;
        assert_eq!(*code, shown.get(name).copied().unwrap_or(0), "{name} at {at:02X}");
    }
}

fn words_are(page: &str, names: &str, words: &[u64]) {
    let tables = tables(page, "At");
    assert_eq!((tables.len(), tables[0].len()), (1, words.len()));
    for (place, (cells, word)) in tables[0].iter().zip(words).enumerate() {
        assert_eq!(hexadecimal(&cells[0]), place as u64);
        word_is(names, cells, *word);
    }
}

#[test]
fn the_words_of_the_pages_are_the_words() {
    words_are("DECIMAL-ADD.md", "CN CH CL CM CA CF CB CK CG CV CC CD", &SHIPPED);
    words_are("AP-SP.md", "CN CH CL CM CA CF CB CK CG CV CC CD CS", &APSP);
}

const NAMES: [&str; 13] = ["I", "J", "U", "V", "L", "T", "D", "R", "S", "G", "H", "M", "N"];

/// What a cell says of the registers: those that it names, and "M N" as a pair.
fn registers_in(lamps: &str) -> BTreeMap<&str, u8> {
    let mut said = BTreeMap::new();
    for part in lamps.split(", ") {
        let (name, value) = part.rsplit_once(' ').expect("a lamp");
        match name {
            "arriving" => {}
            "as" => assert_eq!(part, "as before"),
            "M N" => {
                let [high, low] = (hexadecimal(value) as u16).to_be_bytes();
                said.extend([("M", high), ("N", low)]);
            }
            _ => {
                said.insert(name, hexadecimal(value) as u8);
            }
        }
    }
    said
}

/// The lamps after a cycle: every register that changed is named, and every one that is named is as it is said.
fn lamps_are(lamps: &str, before: &State, after: &State) {
    let said = registers_in(lamps);
    for (place, name) in NAMES.iter().enumerate() {
        let (old, new) = (before.registers[place], after.registers[place]);
        assert_eq!(said.get(name).copied().unwrap_or(old), new, "{name} of {lamps:?}");
    }
    assert!(said.keys().all(|name| NAMES.contains(name)), "{lamps:?}");
    let arriving = lamps.split(", ").find_map(|part| part.strip_prefix("arriving "));
    assert_eq!(
        arriving.map(|byte| hexadecimal(byte) as u8),
        after.arriving.then_some(after.arriving_byte),
        "{lamps:?}"
    );
}

/// A run, cycle by cycle, as a table has it; its last row is the stop. Gives how many sums it has in bold.
fn run_is(table: &[Vec<String>], store: &[u64], main: &mut [u8], from: State) -> usize {
    let (mut local, mut state, mut sums) = ([0; 256], from, 0);
    for (number, cells) in (1..).zip(&table[..table.len() - 1]) {
        let [cycle_number, word, lamps, ac, z0, next] = &cells[..] else { panic!("{cells:?}") };
        assert_eq!((cycle_number.parse(), hexadecimal(word)), (Ok(number), state.wx.into()));
        let (before, work) = (state, next_work(store, &state).expect("a sum"));
        assert_eq!(cycle(Reading::Basic, store, main, &mut local, &mut state), Answer::Ran);
        let lamps = match lamps.split_once("**; ") {
            Some((sum, rest)) => {
                let (a, b, carry) = (work.a_gated, work.b_entering, u8::from(work.carry_in));
                let (sum_before, sum_after) = (work.before, work.after);
                assert_eq!(sum, format!("**{a:02X} + {b:02X} + {carry} = {sum_before:02X}, corrected {sum_after:02X}"));
                sums += 1;
                rest
            }
            None => lamps,
        };
        lamps_are(lamps, &before, &state);
        assert_eq!((ac.as_str(), z0.as_str()), (if state.ac { "1" } else { "0" }, if state.z0 { "1" } else { "0" }));
        assert_eq!(hexadecimal(next), state.wx.into());
    }
    let [dash, word, _, _, _, none] = &table[table.len() - 1][..] else { panic!("no stop") };
    assert_eq!((dash.as_str(), hexadecimal(word), none.as_str()), ("–", state.wx.into(), "–"));
    assert_eq!(cycle(Reading::Basic, store, main, &mut local, &mut state), Answer::Stopped);
    sums
}

#[test]
fn the_cycles_of_the_pages_are_the_runs() {
    let [add] = &tables("DECIMAL-ADD.md", "Cycle")[..] else { panic!("one run") };
    let mut main = [0; 0x30];
    (main[0x10], main[0x20]) = (0x38, 0x47);
    run_is(add, &SHIPPED, &mut main, start(0x10, 0x20, 1, false));
    assert_eq!((add.len(), main[0x10]), (19, 0x85));

    let [ap, sp] = &tables("AP-SP.md", "Cycle")[..] else { panic!("two runs") };
    for (table, cycles, sums, first, second, subtract, result) in [
        (ap, 44, 2, [0x11, 0x7C], [0x13, 0x8C], false, [0x25, 0x5C]),
        (sp, 71, 4, [0x19, 0x0C], [0x20, 0x0C], true, [0x01, 0x0D]),
    ] {
        let mut main = [0; 1024];
        main[0x100..0x102].copy_from_slice(&first);
        main[0x200..0x202].copy_from_slice(&second);
        assert_eq!(run_is(table, &APSP, &mut main, start_apsp(0x100, 0x200, 2, subtract)), sums);
        assert_eq!((table.len(), &main[0x100..0x102]), (cycles + 1, &result[..]));
    }
}
