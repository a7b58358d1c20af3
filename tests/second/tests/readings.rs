//! The readings of a store, from request 7: every code of CH, CL and CS under both, the list that 10 follows, the seven codes
//! that tell the readings apart and the stores that use none of them; and runs, traps, the panel and the board under each.

mod common;

use common::{
    draw_bench, draw_bytes, draw_fields, draw_modelled, draw_state, each_occurs, has_code, in_compatibility, of_cases,
    one_of, running_word, with_code, Bench, Codes, Kind, Lent, SEVEN, STOP,
};
use second::board::{self, View};
use second::cycle::{cycle_by_table, not_modelled, Answer};
use second::panel;
use second::random::Random;
use second::reading::{Reading, READINGS};
use second::run::{Ending, MOST_BUDGET};
use second::shipped::{bound, start, start_apsp, APSP, SHIPPED};
use second::state::{State, D, G, I, J, R, S, V};
use second::trap::trap;
use second::word::{build, index_of, pack, split, with_right_pk, Fields, GIVEN, LAYOUT};
use std::collections::BTreeSet;
use Reading::{Basic, Compatibility};

fn refused_by_10(field: u8) -> Answer {
    Answer::Refused { number: 10, field }
}

/// One word at address 0 under a reading.
fn one(reading: Reading, codes: Codes) -> Bench {
    Bench { reading, ..Bench::one(codes) }
}

// ---- what CH and CL test

/// By CH, what X6 is in the papers' words: in basic, and in compatibility. A dash is a code not modelled.
const CH: [[&str; 2]; 16] = [
    ["zero", "zero"],
    ["one", "one"],
    ["R0", "R0"],
    ["V6 and V7 both 0", "-"],
    ["-", "-"],
    ["-", "-"],
    ["AC", "AC"],
    ["S0", "S0"],
    ["S1", "R2"],
    ["S2", "S2"],
    ["S4", "S4"],
    ["S6", "S6"],
    ["G0", "G0"],
    ["G2", "G2"],
    ["G4", "G4"],
    ["G6", "G6"],
];

/// By CL, what X7 is.
const CL: [[&str; 2]; 16] = [
    ["zero", "zero"],
    ["one", "one"],
    ["one", "one"],
    ["-", "-"],
    ["-", "G1"],
    ["both digits of R at most 9", "both digits of R at most 9"],
    ["1BC", "R1"],
    ["Z0", "Z0"],
    ["G7", "G7"],
    ["S3", "S3"],
    ["S5", "S5"],
    ["S7", "S7"],
    ["-", "R3"],
    ["G3", "G3"],
    ["G5", "G5"],
    ["-", "-"],
];

/// Bit 0 is the high bit.
fn bit_named(said: &str, now: &State) -> bool {
    let (register, bit) = said.split_at(1);
    let register = match register {
        "R" => R,
        "S" => S,
        "G" => G,
        _ => panic!("{said} is no bit that a code tests"),
    };
    let bits = format!("{:08b}", now.registers[register]);
    bits.chars().nth(bit.parse().expect("a bit's number")) == Some('1')
}

/// 1 where it is so, and 0 where it is not; none for a code not modelled.
fn is_so(said: &str, now: &State) -> Option<u16> {
    let so = match said {
        "-" => return None,
        "zero" => false,
        "one" => true,
        "AC" => now.ac,
        "1BC" => now.bc1,
        "Z0" => now.z0,
        "V6 and V7 both 0" => now.registers[V] & 0x03 == 0,
        "both digits of R at most 9" => format!("{:02X}", now.registers[R]).chars().all(|digit| digit <= '9'),
        bit => bit_named(bit, now),
    };
    Some(u16::from(so))
}

/// Each bit that a code may test, alone on among all of them and alone off; and states of any bits.
fn tested_states() -> Vec<State> {
    let mut states = Vec::new();
    for (byte, on) in [(0x00, false), (0xFF, true)] {
        let mut all = State { ac: on, bc1: on, z0: on, ..State::default() };
        for register in [V, R, S, G] {
            all.registers[register] = byte;
        }
        states.extend([State { ac: !on, ..all }, State { bc1: !on, ..all }, State { z0: !on, ..all }]);
        for (register, bit) in [V, R, S, G].into_iter().flat_map(|register| (0..8).map(move |bit| (register, bit))) {
            let mut state = all;
            state.registers[register] ^= 1 << bit;
            states.push(state);
        }
    }
    let random = &mut Random::new(70);
    states.extend((0..40).map(|_| State { arriving: false, ..draw_state(random, 1) }));
    states
}

/// The next address of a word of these codes, and CN 21; CA 4 is W's where CL is 2.
fn goes_as_said(reading: Reading, [ch, cl]: [u8; 2], state: &State) {
    let mut bench = one(reading, &[("CN", 21), ("CH", ch), ("CL", cl)]);
    bench.state = *state;
    let [x6, x7] = [CH[usize::from(ch)], CL[usize::from(cl)]].map(|said| is_so(said[reading as usize], state));
    match (x6, x7) {
        (None, _) => bench.answers(refused_by_10(4)),
        (_, None) => bench.answers(refused_by_10(5)),
        (Some(x6), Some(x7)) => {
            bench.steps(1);
            let module = if cl == 2 { 4 } else { 0 };
            assert_eq!(bench.state.wx, module * 256 + 21 * 4 + x6 * 2 + x7, "{reading:?} CH {ch} CL {cl} {state:X?}");
        }
    }
}

#[test]
fn every_ch_beside_every_cl_under_both_readings() {
    let states = tested_states();
    for reading in READINGS {
        for codes in (0..16).flat_map(|ch| (0..16).map(move |cl| [ch, cl])) {
            states.iter().for_each(|state| goes_as_said(reading, codes, state));
        }
    }
}

/// The control of the states: what is tested is so in some of them, and in others not.
#[test]
fn each_condition_is_met_and_not_met() {
    let states = tested_states();
    for said in CH.iter().chain(&CL).flatten().filter(|said| !["-", "zero", "one"].contains(said)) {
        let met: BTreeSet<_> = states.iter().map(|state| is_so(said, state)).collect();
        assert_eq!(met.len(), 2, "{said}");
    }
}

/// A code that tests R in compatibility, the bit in R, and the next address where it is on.
const OF_R: [((&str, u8), u8, u16); 3] = [(("CH", 8), 0x20, 2), (("CL", 6), 0x40, 1), (("CL", 12), 0x10, 1)];

/// "Branch conditions and all sources are read as they stand after a": but a Store drops the byte.
#[test]
fn r_is_tested_once_a_byte_has_entered_it() {
    for (code, bit, next) in OF_R {
        for (cm, (r, byte)) in (0..6).flat_map(|cm| [(0, bit), (bit, 0), (!bit, 0xFF), (0xFF, !bit)].map(|of| (cm, of)))
        {
            let mut bench = one(Compatibility, &[code, ("CM", cm)]);
            bench.set(&[(R, r)]);
            bench.arrive(byte);
            bench.steps(1);
            let tested = if cm == 2 { r } else { byte };
            assert_eq!(bench.state.wx, if tested & bit == 0 { 0 } else { next }, "{code:?} CM {cm} {r:02X} {byte:02X}");
        }
    }
}

/// 7 is R among the destinations, and 10 is G.
#[test]
fn r_and_g_are_tested_before_the_result_goes_there() {
    let rows = OF_R.map(|(code, bit, next)| (code, R, 7, bit, next));
    for (code, register, cd, bit, next) in rows.into_iter().chain([(("CL", 4), G, 10, 0x40, 1)]) {
        // The result is K twice: all bits, and then none.
        for (before, k) in [(0x00, 15), (bit, 0)] {
            let mut bench = one(Compatibility, &[code, ("CB", 3), ("CK", k), ("CG", 3), ("CD", cd)]);
            bench.set(&[(register, before)]);
            bench.steps(1);
            assert_eq!(bench.get(register), k * 17);
            assert_eq!(bench.state.wx, if before == 0 { 0 } else { next }, "{code:?}");
        }
    }
}

// ---- what CS does

/// The bits of S that CS makes on or off, by the papers' words; none for a code not modelled.
fn changes(reading: Reading, cs: u8, result: u8) -> Option<Vec<(u8, bool)>> {
    let (high_is_0, low_is_0) = (result & 0xF0 == 0, result & 0x0F == 0);
    Some(match (cs, reading) {
        (0, _) => vec![],
        (1, _) => vec![(5, low_is_0)],
        (2, _) => vec![(4, high_is_0)],
        (3, _) => vec![(4, high_is_0), (5, low_is_0)],
        (4, _) => vec![(4, false), (5, false)],
        (5, Compatibility) => vec![(1, true)],
        (6, _) => vec![(0, false)],
        (7, _) => vec![(0, true)],
        (8, _) => vec![(2, false)],
        (9, _) if result == 0 => vec![],
        (9, _) => vec![(2, true)],
        (10, _) => vec![(6, false)],
        (11, _) => vec![(6, true)],
        (12, _) => vec![(7, false)],
        (13, _) => vec![(7, true)],
        (15, Compatibility) => vec![(1, false)],
        _ => return None,
    })
}

fn with_changes(s: u8, changes: &[(u8, bool)]) -> u8 {
    let mut bits: Vec<char> = format!("{s:08b}").chars().collect();
    for (bit, on) in changes {
        bits[usize::from(*bit)] = if *on { '1' } else { '0' };
    }
    u8::from_str_radix(&String::from_iter(bits), 2).expect("eight bits")
}

/// On every S, beside a result that is D.
#[test]
fn every_cs_under_both_readings() {
    for (reading, cs) in READINGS.into_iter().flat_map(|reading| (0..16).map(move |cs| (reading, cs))) {
        for (result, s) in [0x00, 0x07, 0x70, 0x77].into_iter().flat_map(|result| (0..=255).map(move |s| (result, s))) {
            let mut bench = one(reading, &[("CA", 8), ("CF", 3), ("CS", cs)]);
            bench.set(&[(D, result), (S, s)]);
            match changes(reading, cs, result) {
                None => bench.answers(refused_by_10(20)),
                Some(changes) => {
                    bench.steps(1);
                    assert_eq!(bench.get(S), with_changes(s, &changes), "{reading:?} CS {cs} {s:02X} {result:02X}");
                }
            }
        }
    }
}

/// Two of D to S; then S1; then S3 by the carry.
#[test]
fn s1_is_turned_after_the_result_and_before_the_carry() {
    for (cs, d, s) in [(15, 0xFF, 0xBE), (5, 0xFF, 0xFE), (5, 0x0F, 0x4E), (15, 0x7F, 0xAE), (5, 0x80, 0x50)] {
        let codes = [("CA", 8), ("CF", 3), ("CB", 2), ("CG", 3), ("CC", 4), ("CD", 6), ("CS", cs)];
        let mut bench = one(Compatibility, &codes);
        bench.set(&[(D, d), (S, 0x00)]);
        bench.steps(1);
        assert_eq!(bench.get(S), s, "CS {cs} on {d:02X}");
    }
}

// ---- the list that 10 follows

/// A field, its number, and the codes that are not modelled beside CM 1: in basic, and in compatibility.
type Row = (&'static str, u8, [&'static [u8]; 2]);

/// Every code of a field that is not here is modelled.
const NOT_MODELLED: [Row; 10] = [
    ("CH", 4, [&[4, 5], &[3, 4, 5]]),
    ("CL", 5, [&[3, 4, 12, 15], &[3, 15]]),
    ("CM", 6, [&[6, 7], &[6, 7]]),
    ("CU", 7, [&[1], &[1]]),
    ("CA", 8, [&[0, 1, 2, 3, 6], &[0, 1, 2, 3, 6]]),
    ("AA", 9, [&[1], &[1]]),
    ("AK", 12, [&[1], &[1]]),
    ("CD", 15, [&[1, 2, 3, 4], &[1, 2, 3, 4]]),
    ("CS", 20, [&[5, 14, 15], &[14]]),
    ("AS", 21, [&[1], &[1]]),
];

fn is_named(reading: Reading, codes: Codes, field: u8) {
    let mut bench = one(reading, codes);
    assert_eq!(not_modelled(reading, &split(bench.store[0])), field, "{reading:?} {codes:?}");
    match field {
        0 => bench.steps(1),
        field => bench.answers(refused_by_10(field)),
    }
}

#[test]
fn ten_follows_the_readings_own_list() {
    for (name, width) in GIVEN.map(|place| LAYOUT[place]) {
        let row = NOT_MODELLED.iter().find(|row| row.0 == name);
        for (reading, code) in READINGS.into_iter().flat_map(|reading| (0..1 << width).map(move |code| (reading, code)))
        {
            let named = row.filter(|(_, _, lists)| lists[reading as usize].contains(&code));
            // CF 4 is a stop.
            if (name, code) != ("CF", 4) {
                is_named(reading, &[(name, code)], named.map_or(0, |row| row.1));
            }
        }
    }
}

/// Two codes in one word, and the field that 10 names in basic and in compatibility; 0 is none.
type Pair = ([(&'static str, u8); 2], [u8; 2]);

const ORDER: [Pair; 9] = [
    ([("CH", 3), ("CS", 14)], [20, 4]),
    ([("CH", 3), ("CL", 4)], [5, 4]),
    ([("CL", 4), ("CS", 5)], [5, 0]),
    ([("CL", 4), ("CA", 0)], [5, 8]),
    ([("CL", 12), ("CD", 1)], [5, 15]),
    ([("CL", 6), ("CA", 6)], [8, 8]),
    ([("CH", 8), ("CS", 15)], [20, 0]),
    ([("CS", 5), ("AS", 1)], [20, 21]),
    ([("CL", 2), ("CA", 0)], [0, 0]),
];

#[test]
fn ten_names_the_first_field_of_its_reading() {
    for (codes, fields) in ORDER {
        for reading in READINGS {
            is_named(reading, &codes, fields[reading as usize]);
        }
    }
}

/// A stop changes nothing, whatever the codes beside it; and an address outside comes after 10.
#[test]
fn a_stop_comes_before_the_list_and_eleven_after_it() {
    for (code, reading) in SEVEN.into_iter().flat_map(|code| READINGS.map(|reading| (code, reading))) {
        one(reading, &[code, ("CF", 4)]).answers(Answer::Stopped);
        let mut outside = one(reading, &[code, ("CM", 3)]);
        outside.set(&[(I, 0xFF)]);
        if runs_in(code).contains(&reading) {
            outside.refuses(11);
        } else {
            outside.answers(refused_by_10(field_of(code)));
        }
    }
}

/// What 1 to 9 say of a word and whether it stops: no reading changes it.
#[test]
fn what_comes_before_ten_knows_no_reading() {
    let random = &mut Random::new(71);
    let mut seen = BTreeSet::new();
    for code in SEVEN.repeat(3000) {
        let mut bench = Bench { state: draw_state(random, 65), ..Bench::new(64) };
        let mut fields = draw_fields(random);
        fields[index_of(code.0)] = code.1;
        let address = u32::from(bench.state.wx);
        let right = pack(&with_right_pk(fields), address % 64).expect("fields in their widths");
        let bit = random.below(64);
        let turned = one_of(random, &[0, 0, 1 << bit, 1 << 35 | 1 << 20, 1 << 21 | 1 << 20]);
        bench.store.fill(right ^ turned);
        let [(basic, ..), (compatibility, ..)] = cycled(&bench);
        let before_10 = |answer: Answer| match answer {
            Answer::Stopped => Some(0),
            Answer::Refused { number: number @ 1..=9, .. } => Some(number),
            _ => None,
        };
        assert_eq!(before_10(basic), before_10(compatibility), "{code:?}");
        seen.extend(before_10(basic));
    }
    assert_eq!(seen, BTreeSet::from([0, 2, 3, 4, 5, 6, 7, 8, 9]));
}

// ---- the seven codes

/// The readings under which a code of the seven is modelled.
fn runs_in(code: (&str, u8)) -> &'static [Reading] {
    match code {
        ("CH", 3) => &[Basic],
        ("CH", 8) | ("CL", 6) => &READINGS,
        _ => &[Compatibility],
    }
}

/// The number of its field.
fn field_of((name, _): (&str, u8)) -> u8 {
    match name {
        "CH" => 4,
        "CL" => 5,
        _ => 20,
    }
}

/// A cycle's or a run's answer, and all that it leaves.
type After<T> = (T, State, Vec<u8>, Vec<u8>);

/// The same from one bench under both readings.
fn under_both<T>(bench: &Bench, turn: impl Fn(&mut Bench) -> T) -> [After<T>; 2] {
    READINGS.map(|reading| {
        let mut bench = Bench { reading, ..bench.clone() };
        let answer = turn(&mut bench);
        (answer, bench.state, bench.main, bench.local)
    })
}

fn cycled(bench: &Bench) -> [After<Answer>; 2] {
    under_both(bench, Bench::cycle)
}

/// What is seen of a cycle: the field that 10 names, or the next address and S.
#[derive(Debug, PartialEq)]
enum Seen {
    Names(u8),
    Next(u16, u8),
}
use Seen::{Names, Next};

/// A code, what it finds in registers and whether 1BC is on, and what is seen of it in basic and in compatibility.
type Told = ((&'static str, u8), &'static [(usize, u8)], bool, [Seen; 2]);

const TOLD_APART: [Told; 14] = [
    (("CH", 3), &[(V, 0xF0)], false, [Next(2, 0x00), Names(4)]),
    (("CH", 3), &[(V, 0xF2)], false, [Next(0, 0x00), Names(4)]),
    (("CH", 8), &[(S, 0x40)], false, [Next(2, 0x40), Next(0, 0x40)]),
    (("CH", 8), &[(R, 0x20)], false, [Next(0, 0x00), Next(2, 0x00)]),
    (("CL", 4), &[(G, 0x40)], false, [Names(5), Next(1, 0x00)]),
    (("CL", 4), &[(G, 0xBF)], false, [Names(5), Next(0, 0x00)]),
    (("CL", 6), &[], true, [Next(1, 0x00), Next(0, 0x00)]),
    (("CL", 6), &[(R, 0x40)], false, [Next(0, 0x00), Next(1, 0x00)]),
    (("CL", 12), &[(R, 0x10)], false, [Names(5), Next(1, 0x00)]),
    (("CL", 12), &[(R, 0xEF)], false, [Names(5), Next(0, 0x00)]),
    (("CS", 5), &[(S, 0x81)], false, [Names(20), Next(0, 0xC1)]),
    (("CS", 5), &[(S, 0x40)], false, [Names(20), Next(0, 0x40)]),
    (("CS", 15), &[(S, 0xFF)], false, [Names(20), Next(0, 0xBF)]),
    (("CS", 15), &[(S, 0x81)], false, [Names(20), Next(0, 0x81)]),
];

#[test]
fn each_of_the_seven_tells_the_readings_apart() {
    for (code, registers, bc1, expected) in TOLD_APART {
        let mut bench = Bench::one(&[code]);
        bench.set(registers);
        bench.state.bc1 = bc1;
        let seen = cycled(&bench).map(|(answer, state, ..)| match answer {
            Answer::Refused { number: 10, field } => Names(field),
            _ => Next(state.wx, state.registers[S]),
        });
        assert_eq!(seen, expected, "{code:?}");
    }
    let told: Vec<_> = SEVEN.into_iter().filter(|code| TOLD_APART.iter().any(|row| row.0 == *code)).collect();
    assert_eq!(told, SEVEN);
}

/// A word of drawn codes, none of the seven, but for one field.
fn drawn_with(random: &mut Random, (name, code): (&str, u8), address: u32) -> Option<u64> {
    let mut fields: Fields = draw_modelled(random);
    for (field, code) in SEVEN {
        if fields[index_of(field)] == code {
            fields[index_of(field)] = 0;
        }
    }
    fields[index_of(name)] = code;
    // CL 2 beside K to W or a return is 8.
    pack(&with_right_pk(fields), address).ok()
}

/// How many of some drawn cycles with a code differ between the readings.
fn differing(random: &mut Random, code: (&str, u8)) -> usize {
    let differs = |_: &i32| {
        let mut bench = draw_bench(random, 64);
        let address = bench.state.wx;
        let Some(word) = drawn_with(random, code, address.into()) else { return false };
        bench.store[usize::from(address)] = word;
        let [basic, compatibility] = cycled(&bench);
        basic != compatibility
    };
    (0..60).filter(differs).count()
}

#[test]
fn no_other_code_does() {
    let random = &mut Random::new(72);
    for (name, width) in GIVEN.map(|place| LAYOUT[place]) {
        for code in (0..1 << width).map(|code| (name, code)) {
            let count = differing(random, code);
            assert!(if SEVEN.contains(&code) { count > 5 } else { count == 0 }, "{code:?}: {count}");
        }
    }
}

// ---- stores that use none of them

fn uses_one(word: u64) -> bool {
    SEVEN.iter().any(|code| has_code(word, *code))
}

/// The store with another word that runs in the place of each that uses one of the seven.
fn without_the_seven(random: &mut Random, mut bench: Bench) -> Bench {
    for (address, word) in (0..4096).cycle().zip(&mut bench.store) {
        while uses_one(*word) {
            *word = running_word(random, address);
        }
    }
    bench
}

/// A code of each field that 10 names, not modelled under either reading.
const IN_NEITHER: [(&str, u8); 10] =
    [("CH", 4), ("CL", 15), ("CM", 6), ("CU", 1), ("CA", 6), ("AA", 1), ("AK", 1), ("CD", 1), ("CS", 14), ("AS", 1)];

/// The store with one of those in one word of 32, so that 10 names every field.
fn with_some_unmodelled(random: &mut Random, mut bench: Bench) -> Bench {
    for (address, word) in (0..4096).cycle().zip(&mut bench.store) {
        if random.below(32) == 0 {
            *word = with_code(*word, address, one_of(random, &IN_NEITHER));
        }
    }
    bench
}

/// A run's ending, and how many cycles ran.
type Ran = (Ending, u64);

/// The same answer, state and storages under both readings, of a run and of one cycle.
fn ran_alike(bench: &Bench, budget: u64) -> Ran {
    let [basic, compatibility] = cycled(bench);
    assert!(basic == compatibility, "{:?} and {:?}", basic.0, compatibility.0);
    let [basic, compatibility] = under_both(bench, |bench| bench.run(budget));
    assert!(basic == compatibility, "{:?} and {:?} of {budget}", basic.0, compatibility.0);
    basic.0
}

fn refused(ran: &Ran) -> Option<u8> {
    match ran.0 {
        Ending::Refused { number, .. } => Some(number),
        _ => None,
    }
}

const ALIKE: [Kind<Ran>; 9] = [
    ("spent after many cycles", |ran| ran.0 == Ending::Spent && ran.1 > 99),
    ("stopped at once", |ran| *ran == (Ending::Stopped, 0)),
    ("stopped later", |ran| ran.0 == Ending::Stopped && ran.1 > 0),
    ("refused by 1", |ran| refused(ran) == Some(1)),
    ("refused by 2 later", |ran| refused(ran) == Some(2) && ran.1 > 0),
    ("refused by 10 at once", |ran| refused(ran) == Some(10) && ran.1 == 0),
    ("refused by 10 later", |ran| refused(ran) == Some(10) && ran.1 > 0),
    ("refused by 11 later", |ran| refused(ran) == Some(11) && ran.1 > 0),
    ("refused by 22", |ran| refused(ran) == Some(22)),
];

#[test]
fn a_store_of_none_of_the_seven_runs_the_same_under_both() {
    let seen = of_cases(73, 800, |random, case| {
        let plain = without_the_seven(random, case);
        let bench = with_some_unmodelled(random, plain);
        [0, 1, 4, 40, 400, MOST_BUDGET + 1].map(|budget| ran_alike(&bench, budget))
    });
    each_occurs(&ALIKE, &seen);
    let of_10 = |(ending, _): &Ran| match ending {
        Ending::Refused { number: 10, field } => Some(*field),
        _ => None,
    };
    let fields: BTreeSet<u8> = seen.iter().filter_map(of_10).collect();
    assert_eq!(fields, BTreeSet::from([4, 5, 6, 7, 8, 9, 12, 15, 20, 21]));
    let numbers: BTreeSet<u8> = seen.iter().filter_map(refused).collect();
    assert!(numbers.is_superset(&BTreeSet::from([3, 4, 5, 6, 7, 9])), "{numbers:?}");
}

/// The control: with one of the seven in the word at WX, and in no other, runs differ.
#[test]
fn one_word_of_the_seven_in_the_store_shows() {
    let random = &mut Random::new(74);
    for code in SEVEN {
        let differs = |_: &i32| {
            let drawn = draw_bench(random, 256);
            let mut bench = without_the_seven(random, drawn);
            let at = usize::from(bench.state.wx);
            bench.store[at] = with_code(bench.store[at], at as u32, code);
            let [basic, compatibility] = under_both(&bench, |bench| bench.run(40));
            basic != compatibility
        };
        let count = (0..60).filter(differs).count();
        assert!(count > 10, "{code:?}: {count}");
    }
}

#[test]
fn the_shipped_words_use_none_of_the_seven() {
    for word in SHIPPED.iter().chain(&APSP) {
        assert!(!uses_one(*word), "{word:014X}");
    }
    assert!(SEVEN.iter().all(|code| uses_one(build(0, &[*code]).unwrap())));
}

/// Two fields of the same length at 100 and 200: mostly digits, or any bytes.
fn with_fields(random: &mut Random, length: u8) -> Vec<u8> {
    let mut main = draw_bytes(random, 1024);
    for at in [0x100, 0x200] {
        for byte in &mut main[at..at + usize::from(length)] {
            let digits = random.below(100) as u8;
            *byte = if random.below(40) == 0 { *byte } else { digits / 10 * 16 + digits % 10 };
        }
        main[at + usize::from(length) - 1] |= one_of(random, &[0x0C, 0x0D, 0x0F, 0x00]);
    }
    main
}

#[test]
fn the_shipped_programs_would_run_the_same_under_both() {
    let random = &mut Random::new(75);
    for (length, on) in (1..=16).flat_map(|length| [(length, false), (length, true)]).collect::<Vec<_>>().repeat(10) {
        for (words, state) in
            [(&SHIPPED[..], start(0x100, 0x200, length, on)), (&APSP[..], start_apsp(0x100, 0x200, length, on))]
        {
            let main = with_fields(random, length);
            let bench = Bench { store: words.to_vec(), main, state, ..Bench::new(1) };
            assert_eq!(ran_alike(&bench, bound(&state)).0, Ending::Stopped);
        }
    }
}

// ---- runs

/// Three words that count J up, then a word of one code, and stops wherever it goes on to.
fn passing(reading: Reading, code: (&str, u8)) -> Bench {
    let mut bench = Bench { reading, ..Bench::new(8) };
    for at in 0..3 {
        bench.then(at, at + 1, &[("CA", 14), ("CB", 3), ("CK", 1), ("CD", 14), ("CF", 3), ("CG", 1)]);
    }
    bench.put(3, &[("CN", 1), code]);
    (4..8).for_each(|at| bench.put(at, STOP));
    bench
}

#[test]
fn a_run_is_refused_by_10_in_one_reading_and_not_in_the_other() {
    for (code, reading) in SEVEN.into_iter().flat_map(|code| READINGS.map(|reading| (code, reading))) {
        let mut bench = passing(reading, code);
        if runs_in(code).contains(&reading) {
            assert_eq!(bench.run(100), (Ending::Stopped, 4), "{code:?} {reading:?}");
            assert!((4..8).contains(&bench.state.wx));
        } else {
            let refused = Ending::Refused { number: 10, field: field_of(code) };
            assert_eq!(bench.run(100), (refused, 3), "{code:?} {reading:?}");
            assert_eq!(bench.state.wx, 3);
        }
        assert_eq!(bench.get(J), 3);
        // The budget is spent before that word.
        assert_eq!(passing(reading, code).run(3), (Ending::Spent, 3));
    }
}

/// Every cycle of a run is under its reading: R2, R1, G1, S1 on and R3, each in a word of its own.
#[test]
fn a_run_keeps_its_reading_to_its_end() {
    let mut bench = Bench { reading: Compatibility, ..Bench::new(24) };
    bench.put(0, &[("CN", 1), ("CH", 8)]);
    bench.put(6, &[("CN", 2), ("CL", 6)]);
    bench.put(9, &[("CN", 3), ("CL", 4)]);
    bench.put(13, &[("CN", 4), ("CS", 5)]);
    bench.put(16, &[("CN", 5), ("CH", 1), ("CL", 12)]);
    bench.put(23, STOP);
    bench.set(&[(R, 0x70), (G, 0x40)]);
    let mut whole = bench.clone();
    for (at, next, s) in [(0, 6, 0x00), (6, 9, 0x00), (9, 13, 0x00), (13, 16, 0x40), (16, 23, 0x40)] {
        assert_eq!(bench.state.wx, at);
        bench.steps(1);
        assert_eq!((bench.state.wx, bench.get(S)), (next, s));
    }
    assert_eq!(whole.run(100), (Ending::Stopped, 5));
    assert_eq!(whole, bench);
}

#[test]
fn the_cycle_by_table_takes_the_reading_too() {
    for (code, registers, bc1, _) in TOLD_APART {
        for reading in READINGS {
            let mut bench = one(reading, &[code]);
            bench.set(registers);
            bench.state.bc1 = bc1;
            let mut other = bench.clone();
            let by_table = cycle_by_table(reading, &other.store, &mut other.main, &mut other.local, &mut other.state);
            assert_eq!((bench.cycle(), bench), (by_table, other), "{code:?} {reading:?}");
        }
    }
}

// ---- traps

/// Bytes from IJ on are read and put back until one has R2: CH 8 and CL 4 are so in compatibility alone. At 020 a routine
/// that turns S1 on and returns, by a word whose CN, CH and CL would go elsewhere.
fn until_r2() -> Bench {
    let mut bench = Bench { reading: Compatibility, ..Bench::new(0x22) };
    bench.then(0, 1, &[("CM", 3)]);
    bench.put(1, &[("CM", 0), ("CN", 2), ("CH", 8), ("CL", 4)]);
    bench.then(8, 0, &[("CA", 14), ("CB", 3), ("CK", 1), ("CD", 14), ("CF", 3), ("CG", 1)]);
    bench.put(10, STOP);
    bench.then(0x20, 0x21, &[("CS", 5)]);
    bench.put(0x21, &[("CU", 3), ("CN", 7), ("CH", 8), ("CL", 12)]);
    bench.main[0x140..0x144].copy_from_slice(&[0x00, 0x1F, 0xDF, 0x20]);
    bench.set(&[(I, 0x01), (J, 0x40), (S, 0x02)]);
    bench
}

#[test]
fn a_trap_and_its_return_under_compatibility() {
    let mut whole = until_r2();
    assert_eq!(whole.run(1000), (Ending::Stopped, 11));
    assert_eq!((whole.state.wx, whole.get(R), whole.get(J), whole.get(S)), (10, 0x20, 0x43, 0x02));
    for broken_at in 0..=11 {
        let mut bench = until_r2();
        bench.run(broken_at);
        let from = bench.state.wx;
        assert_eq!(trap(&mut bench.state, 0x20), Ok(()));
        assert_eq!(trap(&mut bench.state, 0x20), Err(29));
        assert_eq!(bench.run(1000), (Ending::Stopped, 13 - broken_at), "after {broken_at}");
        let mut expected = State { fwx: from, ..whole.state };
        expected.registers[S] = 0x42;
        assert_eq!(bench.state, expected, "after {broken_at}");
        assert!(common::storage_as_found(&whole, &bench), "after {broken_at}");
    }
}

/// The rest of a return word is under the reading: S1 is turned, and a code that is not modelled keeps the trap open.
#[test]
fn the_rest_of_a_return_word_follows_the_reading() {
    for (code, reading) in SEVEN.into_iter().flat_map(|code| READINGS.map(|reading| (code, reading))) {
        let (before, after) = match code {
            ("CS", 5) => (0xBF, 0xFF),
            ("CS", 15) => (0xFF, 0xBF),
            _ => (0xFF, 0xFF),
        };
        let mut bench = one(reading, &[code, ("CU", 3)]);
        bench.set(&[(R, 0xFF), (S, before), (G, 0xFF)]);
        bench.state = State { fwx: 0x0A4, owed: true, bc1: true, ..bench.state };
        if runs_in(code).contains(&reading) {
            bench.steps(1);
            assert_eq!((bench.state.wx, bench.state.owed, bench.get(S)), (0x0A4, false, after), "{code:?} {reading:?}");
        } else {
            bench.answers(refused_by_10(field_of(code)));
        }
    }
}

// ---- the panel and the board

/// A call's number and what it was lent, after it.
type Called = (u64, Lent);

fn called(case: &Lent, call: impl Fn(&[u64], &mut [u8], &mut [u8], &mut [u8]) -> u64) -> Called {
    let Lent { store, mut main, mut local, mut state } = case.clone();
    let number = call(&store, &mut main, &mut local, &mut state);
    (number, Lent { store, main, local, state })
}

/// What the panel is lent of a bench.
fn lent_of(bench: &Bench) -> Lent {
    let Bench { store, main, local, state, .. } = bench.clone();
    Lent { store, main, local, state: state.to_bytes().to_vec() }
}

/// The calls of a reading by its number.
fn both_calls(reading: u8, case: &Lent, budget: u32) -> [Called; 2] {
    [
        called(case, |store, main, local, state| panel::one_cycle(reading, store, main, local, state)),
        called(case, |store, main, local, state| panel::run_for(reading, store, main, local, state, budget)),
    ]
}

/// "Any other value than 0 is compatibility."
#[test]
fn the_panels_reading_is_basic_at_0_and_compatibility_at_all_others() {
    // S1 and R1 are on, R2 and 1BC off.
    let mut bench = Bench::one(&[("CH", 8), ("CL", 6)]);
    bench.set(&[(S, 0x40), (R, 0x40)]);
    for reading in 0..=255 {
        for (_, after) in both_calls(reading, &lent_of(&bench), 1) {
            assert_eq!(after.state[13..15], [0, if reading == 0 { 2 } else { 1 }], "{reading}");
        }
        let refused = both_calls(reading, &lent_of(&Bench::one(&[("CH", 3)])), 1).map(|(number, _)| number % 65536);
        let (cycle, run) = if reading == 0 { (0, 3) } else { (2 + 256 * 10, 2 + 256 * 10) };
        assert_eq!(refused, [cycle, run], "{reading}");
    }
}

/// The panel's calls are those of the engine under either reading.
#[test]
fn the_panel_hands_the_reading_on() {
    let random = &mut Random::new(76);
    let mut differ = 0;
    for _ in 0..400 {
        let drawn = draw_bench(random, 256);
        let bench = in_compatibility(random, drawn);
        let calls = [0, 1].map(|reading| both_calls(reading, &lent_of(&bench), 40));
        for (reading, calls) in READINGS.into_iter().zip(&calls) {
            let mut alone = Bench { reading, ..bench.clone() };
            let ran = alone.cycle() == Answer::Ran;
            assert_eq!((calls[0].0 % 256 == panel::RAN, &calls[0].1), (ran, &lent_of(&alone)));
            let mut alone = Bench { reading, ..bench.clone() };
            let (_, count) = alone.run(40);
            assert_eq!((calls[1].0 >> 32, &calls[1].1), (count, &lent_of(&alone)));
        }
        differ += u32::from(calls[0] != calls[1]);
    }
    assert!(differ > 100, "{differ}");
}

const TRAP_AT_ONCE: board::Trap = board::Trap { before: 1, address: 0 };

/// The last line that the board prints of one cycle of a word: the same after a trap to it.
fn printed(reading: Reading, code: (&str, u8)) -> String {
    let mut bench = Bench::one(&[code]);
    bench.set(&[(S, 0x40), (R, 0x50), (G, 0x40), (V, 0x01)]);
    let Bench { store, main, state, .. } = &bench;
    let [plain, trapped] = [&[][..], &[TRAP_AT_ONCE]]
        .map(|traps| board::run_with_traps(reading, store, main, *state, 1, traps, &View::LINES).0);
    assert_eq!(plain, board::run(reading, store, main, *state, 1, &View::LINES).0);
    assert!(trapped.contains("TRAP TO 000, FROM 000\n"));
    assert_eq!(plain.lines().last(), trapped.lines().last());
    plain.lines().last().expect("a line").to_owned()
}

#[test]
fn the_board_runs_under_the_reading() {
    let not_modelled = |name: &str| format!("REFUSED 10 {name} AT 000: a code is not modelled");
    let spent = |at: &str| format!("SPENT AT {at}");
    let rows = [
        (("CH", 3), [spent("000"), not_modelled("CH")]),
        (("CH", 8), [spent("002"), spent("000")]),
        (("CL", 4), [not_modelled("CL"), spent("001")]),
        (("CL", 6), [spent("000"), spent("001")]),
        (("CL", 12), [not_modelled("CL"), spent("001")]),
        (("CS", 5), [not_modelled("CS"), spent("000")]),
        (("CS", 15), [not_modelled("CS"), spent("000")]),
    ];
    for (code, expected) in rows {
        assert_eq!(READINGS.map(|reading| printed(reading, code)), expected, "{code:?}");
    }
}

/// Nothing else that is printed follows the reading.
#[test]
fn the_board_prints_the_same_of_a_store_of_none_of_the_seven() {
    let random = &mut Random::new(77);
    for view in [View::LINES, View::LAMPS].repeat(40) {
        let drawn = draw_bench(random, 256);
        let bench = without_the_seven(random, drawn);
        let [basic, compatibility] =
            READINGS.map(|reading| board::run(reading, &bench.store, &bench.main, bench.state, 40, &view));
        assert_eq!(basic, compatibility);
    }
}
