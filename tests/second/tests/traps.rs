//! Traps and returns: the call between two cycles with its refusals, the word that gives WX back, what it leaves to the rest
//! of that word, and runs that a trap breaks into.

mod common;

use common::{
    are_alike, draw_bench, draw_modelled, draw_state, each_occurs, in_either, missing, of_cases, one_of, running_word,
    Bench, Codes, Kind, STOP,
};
use second::cycle::{next_work, not_modelled, Answer};
use second::deck::{block_check, read_deck, write_deck};
use second::panel;
use second::random::Random;
use second::reading::{Reading, READINGS};
use second::run::Ending;
use second::shipped::{start, start_apsp};
use second::state::{State, D, H, M, N, R, S, U, V};
use second::trap::trap;
use second::word::{build, index_of, named, pack, split, take_apart, with_right_pk, Fields, CM, CU};
use std::collections::BTreeSet;

/// A word of no storage and no sum that returns.
const RETURN: Codes = &[("CU", 3)];

fn is_return(word: u64) -> bool {
    split(word)[CM] <= 2 && split(word)[CU] == 3
}

// ---- the call

/// WX, an address, and both as they stand after a trap: FWX and WX.
const TAKEN: [(u16, u32, [u16; 2]); 8] = [
    (0x00E, 0x0A0, [0x00E, 0x0A0]),
    (0x000, 0x000, [0x000, 0x000]),
    (0x7FF, 0x100, [0x7FF, 0x100]),
    (0x3A5, 0xC5A, [0x3A5, 0xC5A]),
    (0xFFF, 0xFFF, [0xFFF, 0xFFF]),
    (0x100, 4095, [0x100, 0xFFF]),
    // All that WX holds is saved, though no store has such a word.
    (0x1234, 0x234, [0x1234, 0x234]),
    (0xFFFF, 0x000, [0xFFFF, 0x000]),
];

#[test]
fn a_trap_saves_wx_and_moves_nothing_else() {
    let random = &mut Random::new(10);
    for (wx, address, [fwx, next]) in TAKEN {
        for _ in 0..20 {
            let before = State { wx, owed: false, ..draw_state(random, 4096) };
            let mut after = before;
            assert_eq!(trap(&mut after, address), Ok(()));
            assert_eq!(after, State { fwx, wx: next, owed: true, ..before }, "to {address:03X} from {wx:03X}");
        }
    }
}

/// It is refused by this number, and nothing of the state moves.
fn refuses_trap(before: State, address: u32, number: u8) {
    let mut after = before;
    assert_eq!(trap(&mut after, address), Err(number), "to {address:X} of {before:X?}");
    assert_eq!(after, before);
}

#[test]
fn thirty_for_an_address_over_4095() {
    let random = &mut Random::new(11);
    for address in [4096, 4097, 8191, 0x1_0000, 0x1_0FFF, 0x8000_0000, u32::MAX] {
        for _ in 0..20 {
            refuses_trap(State { owed: false, ..draw_state(random, 4096) }, address, 30);
        }
    }
}

#[test]
fn twenty_nine_while_a_trap_is_open() {
    let random = &mut Random::new(12);
    for address in [0, 1, 0x0A0, 4095, 4096, 0x1_0000, u32::MAX] {
        for _ in 0..20 {
            refuses_trap(State { owed: true, ..draw_state(random, 4096) }, address, 29);
        }
    }
}

#[test]
fn a_start_has_fwx_0_and_owes_no_return() {
    let starts = [false, true].map(|on| [start(0x1234, 0xABCD, 16, on), start_apsp(0x1234, 0xABCD, 16, on)]);
    for state in starts.into_iter().flatten().chain([State::default()]) {
        assert_eq!((state.fwx, state.owed), (0, false));
    }
}

/// A record of bytes that differ, in so much room, with this byte for the latch.
fn record(room: usize, owed: u8) -> Vec<u8> {
    let mut record: Vec<u8> = (0..room).map(|place| 0x30 + place as u8).collect();
    if let Some(latch) = record.get_mut(26) {
        *latch = owed;
    }
    record
}

/// The latches of these records have values that no cycle writes, and ARRIVING_BYTE is one of them: all stay.
#[test]
fn a_trap_of_the_panel_writes_five_bytes() {
    for room in [27, 28, 40] {
        let (before, mut after) = (record(room, 0), record(room, 0));
        assert_eq!(panel::trap(0xABC, &mut after), 0);
        let changed = |place: usize| match place {
            13 => 0x0A,
            14 => 0xBC,
            24 => 0x30 + 13,
            25 => 0x30 + 14,
            26 => 1,
            _ => before[place],
        };
        assert_eq!(after, (0..room).map(changed).collect::<Vec<u8>>());
    }
}

#[test]
fn a_trap_of_the_panel_is_refused_by_19_then_29_then_30() {
    // Room, latch, address, number.
    let cases = [
        (0, 0, 0, 19),
        (26, 0, 0, 19),
        (26, 0, 4096, 19),
        (27, 1, 0, 29),
        (27, 1, 4096, 29),
        (27, 0x80, 4095, 29),
        (40, 255, u32::MAX, 29),
        (27, 0, 4096, 30),
        (40, 0, u32::MAX, 30),
    ];
    for (room, owed, address, number) in cases {
        let mut after = record(room, owed);
        assert_eq!(panel::trap(address, &mut after), number, "{room} bytes, {owed}, {address}");
        assert_eq!(after, record(room, owed));
    }
}

// ---- a trap and its return

/// What a cycle leaves that adds nothing to nothing, and no more.
fn after_no_sum(before: State) -> State {
    State { ac: false, bc1: false, z0: true, digit_carry: false, invalid: false, ..before }
}

/// From any address, even one in no store: the routine is one word, and a Write and a Store have nothing to put.
#[test]
fn a_trap_and_a_return_resume_at_the_word_broken_into() {
    let random = &mut Random::new(13);
    for (cm, arriving) in (0..3).flat_map(|cm| [(cm, false), (cm, true)]) {
        for wx in [0x000, 0x00E, 0x1FF, 0xFFF, 0x1000, 0xA00E, 0xFFFF] {
            let mut bench = draw_bench(random, 4096);
            bench.put(0x2A0, &[("CM", cm), ("CU", 3), ("CN", 21), ("CH", 1), ("CL", 1), ("CK", 9)]);
            bench.state = State { wx, owed: false, allow_write: false, arriving, ..bench.state };
            let before = bench.clone();
            assert_eq!(trap(&mut bench.state, 0x2A0), Ok(()));
            bench.steps(1);
            let mut expected = State { fwx: wx, arriving: false, arriving_byte: 0, ..after_no_sum(before.state) };
            if arriving && cm != 2 {
                expected.registers[R] = before.state.arriving_byte;
            }
            assert_eq!(bench.state, expected, "CM {cm} from {wx:04X}");
            assert!(common::storage_as_found(&before, &bench));
        }
    }
}

#[test]
fn the_older_address_is_not_lost_and_the_next_trap_is_taken() {
    let mut bench = Bench::new(256);
    bench.then(0x0A0, 0x0A1, &[]);
    bench.put(0x0A1, RETURN);
    for from in [0x00E, 0x0F3] {
        bench.state.wx = from;
        assert_eq!(trap(&mut bench.state, 0x0A0), Ok(()));
        refuses_trap(bench.state, 0x0B0, 29);
        bench.steps(1);
        refuses_trap(bench.state, 0x0B0, 29);
        bench.steps(1);
        assert_eq!((bench.state.wx, bench.state.fwx, bench.state.owed), (from, from, false));
    }
}

/// FWX, and whether the next word is in a store of 4,096.
const LOADED: [(u16, bool); 9] = [
    (0, true),
    (5, true),
    (0x0FF, true),
    (0x7A5, true),
    (0xFFF, true),
    (0x1000, false),
    (0x1005, false),
    (0x8000, false),
    (0xFFFF, false),
];

#[test]
fn a_return_with_none_owed_loads_fwx_as_it_stands() {
    for (fwx, inside) in LOADED {
        let mut bench = Bench::new(4096);
        bench.store = (0..4096).map(|address| build(address, STOP).unwrap()).collect();
        bench.put(0x3C0, RETURN);
        bench.state = State { wx: 0x3C0, fwx, ..State::default() };
        bench.steps(1);
        assert_eq!(bench.state, State { wx: fwx, fwx, ..after_no_sum(State::default()) });
        if inside {
            bench.answers(Answer::Stopped);
        } else {
            bench.refuses(2);
        }
    }
}

/// CN, the branches, K and the module that WX is in would each say something else.
#[test]
fn w_and_x_are_fwxs_own() {
    for (wx, fwx) in [(0x3C0, 0x7A5), (0x7C0, 0x000), (0x0FF, 0xF00), (0xFFF, 0x0FF), (0x5A5, 0x95A)] {
        for (cm, owed) in (0..3).flat_map(|cm| [(cm, false), (cm, true)]) {
            let mut bench = Bench::new(4096);
            bench.put(wx.into(), &[("CM", cm), ("CU", 3), ("CK", 13), ("CN", 33), ("CH", 1), ("CL", 1), ("CA", 15)]);
            bench.state = State { wx, fwx, owed, ..State::default() };
            bench.steps(1);
            assert_eq!((bench.state.wx, bench.state.fwx, bench.state.owed), (fwx, fwx, false), "CM {cm}");
        }
    }
}

#[test]
fn a_return_that_stops_or_is_refused_leaves_the_trap_open() {
    let mut bench = Bench::one(&[("CU", 3), ("CF", 4)]);
    bench.state = State { fwx: 0x0A5, owed: true, allow_write: true, ..bench.state };
    bench.answers(Answer::Stopped);
    bench.put(0, &[("CU", 3), ("CD", 4)]);
    bench.answers(Answer::Refused { number: 10, field: 15 });
    for cm in [0, 2] {
        bench.put(0, &[("CM", cm), ("CU", 3)]);
        bench.set(&[(M, 4)]);
        bench.refuses(11);
    }
    bench.store[0] ^= 1;
    bench.refuses(7);
}

// ---- the rest of a return word

/// A return word's codes, what it finds in registers, and what it leaves in one; with main selected, the latch on, and 33
/// arriving.
type Row = (&'static str, Codes<'static>, &'static [(usize, u8)], (usize, u8));

const ROWS: [Row; 9] = [
    ("a byte enters R", &[], &[(R, 0x11)], (R, 0x33)),
    ("a Store drops it", &[("CM", 2)], &[(R, 0x11)], (R, 0x11)),
    ("D + R to H: 05 + 33", &[("CA", 8), ("CF", 3), ("CG", 3), ("CD", 5)], &[(D, 0x05)], (H, 0x38)),
    ("K twice to D", &[("CB", 3), ("CK", 9), ("CG", 3), ("CD", 8)], &[], (D, 0x99)),
    ("S0 on", &[("CS", 7)], &[(S, 0x02)], (S, 0x82)),
    ("S0 off", &[("CS", 6)], &[(S, 0x82)], (S, 0x02)),
    ("S4 and S5 on by a result of 0", &[("CS", 3)], &[(S, 0x40)], (S, 0x4C)),
    ("S3 takes a carry", &[("CA", 8), ("CF", 3), ("CG", 3), ("CC", 4)], &[(D, 0xE0)], (S, 0x10)),
    ("S3 takes no carry", &[("CA", 8), ("CF", 3), ("CG", 3), ("CC", 5)], &[(D, 0x20), (S, 0x13)], (S, 0x03)),
];

fn returning(codes: Codes, registers: &[(usize, u8)]) -> Bench {
    let mut bench = Bench::one(&[&[("CU", 3)], codes].concat());
    bench.set(registers);
    bench.arrive(0x33);
    bench.state = State { allow_write: true, fwx: 0x0A5, owed: true, ..bench.state };
    bench
}

#[test]
fn the_rest_of_a_return_word_happens() {
    for (shows, codes, registers, (register, byte)) in ROWS {
        let mut bench = returning(codes, registers);
        bench.steps(1);
        assert_eq!((bench.get(register), bench.state.wx), (byte, 0x0A5), "{shows}");
    }
}

#[test]
fn a_return_word_writes_and_stores() {
    for (cm, local, byte) in [(0, false, 0x33), (0, true, 0x33), (2, false, 0x11), (2, true, 0x11)] {
        let mut bench = returning(&[("CM", cm)], &[(R, 0x11), (M, 1), (N, 0x23)]);
        bench.state.local = local;
        let mut expected = bench.clone();
        if local {
            expected.local[0x23] = byte;
        } else {
            expected.main[0x123] = byte;
        }
        bench.steps(1);
        assert_eq!((&bench.main, &bench.local), (&expected.main, &expected.local), "CM {cm}");
        assert!(!bench.state.allow_write && !bench.state.arriving);
        assert_eq!(bench.state.wx, 0x0A5);
    }
}

fn with_codes(mut fields: Fields, codes: Codes) -> Fields {
    for (name, code) in codes {
        fields[index_of(name)] = *code;
    }
    with_right_pk(fields)
}

/// A return word beside the same word under CU 0, from one drawn state: all but WX and the latch is alike. Gives the answer.
fn beside_cu_0(reading: Reading, random: &mut Random, [cm, ch, cl]: [u8; 3], owed: bool) -> Answer {
    let mut bench = Bench { reading, ..draw_bench(random, 256) };
    let (at, fwx) = (bench.state.wx, one_of(random, &[0, 7, 0x0FF, 0xFFF, 0x1000, 0xFFFF]));
    bench.state = State { fwx, owed, ..bench.state };
    let fields = draw_modelled(random);
    let packed = |cu| pack(&with_codes(fields, &[("CM", cm), ("CH", ch), ("CL", cl), ("CU", cu)]), at.into());
    let mut plain = bench.clone();
    plain.store[usize::from(at)] = packed(0).unwrap();
    bench.store[usize::from(at)] = packed(3).unwrap();
    assert_eq!(next_work(&bench.store, &bench.state), next_work(&plain.store, &plain.state));
    let before = bench.clone();
    let answer = bench.cycle();
    assert_eq!(answer, plain.cycle(), "CM {cm} CH {ch} CL {cl}");
    if answer == Answer::Ran {
        assert_eq!(bench.state, State { wx: fwx, fwx, owed: false, ..plain.state }, "CM {cm} CH {ch} CL {cl}");
        assert!(common::storage_as_found(&plain, &bench), "CM {cm} CH {ch} CL {cl}");
    } else {
        assert_eq!(bench, before);
    }
    answer
}

/// Every CM, CH and CL but the module number's, owed or not, under either reading. Codes that are not modelled are named as
/// they are beside CU 0.
#[test]
fn a_return_word_is_the_same_word_but_for_its_address() {
    let random = &mut Random::new(14);
    let codes = (0..3).flat_map(|cm| (0..16).flat_map(move |ch| (0..16).map(move |cl| [cm, ch, cl])));
    let mut answers = Vec::new();
    for (reading, codes) in codes.filter(|[_, _, cl]| *cl != 2).flat_map(|codes| READINGS.map(|read| (read, codes))) {
        let mut ran = false;
        for owed in [false, true].repeat(4) {
            let answer = beside_cu_0(reading, random, codes, owed);
            ran |= answer == Answer::Ran;
            answers.push(answer);
        }
        let ([_, ch, cl], [no_ch, no_cl, _]) = (codes, missing(reading));
        assert_eq!(ran, !no_ch.contains(&ch) && !no_cl.contains(&cl), "{reading:?} {codes:?}");
    }
    let refused_by_11 = |answer: &&Answer| matches!(answer, Answer::Refused { number: 11, .. });
    assert!(answers.iter().filter(refused_by_11).count() > 20);
    assert!(answers.contains(&Answer::Stopped));
    assert!(!answers.contains(&Answer::Refused { number: 10, field: 7 }));
}

// ---- the refusals of words

/// CL = 2, right by CA and AA but for PK where it is turned, with both bits of CU turned: PS stays right.
fn module_return(codes: Codes, pk_wrong: bool) -> u64 {
    let word = build(0, &[&[("CL", 2)], codes].concat()).unwrap() ^ 3 << 34;
    if pk_wrong {
        word ^ 3 << 20
    } else {
        word
    }
}

/// A deck of one word, whatever it is.
fn deck_with(word: u64) -> Vec<u8> {
    let mut groups = [0; 64];
    groups[0] = 1 << 32;
    groups[1] = word;
    groups[63] = block_check(&groups);
    groups.iter().flat_map(|group: &u64| group.to_be_bytes()).collect()
}

/// The word's number in taking apart, in a cycle, and in reading and in writing a deck; 0 where it is accepted.
fn numbers_of(word: u64) -> [u8; 4] {
    let mut bench = Bench::new(256);
    bench.store[0] = word;
    bench.state = State { fwx: 0x0A5, owed: true, ..bench.state };
    let before = bench.clone();
    let cycled = match bench.cycle() {
        Answer::Refused { number, .. } => number,
        _ => 0,
    };
    assert!(cycled == 0 || bench == before);
    let (mut words, mut bytes) = ([0xEEEE], [0xEE; 512]);
    let read = read_deck(&deck_with(word), &mut words).err().unwrap_or(0);
    let written = write_deck(&[word], &mut bytes).err().unwrap_or(0);
    assert!(read == 0 || words == [0xEEEE]);
    assert!(written == 0 || bytes == [0xEE; 512]);
    [take_apart(word, 0).err().unwrap_or(0), cycled, read, written]
}

#[test]
fn eight_for_a_return_with_cl_2_everywhere_and_before_9() {
    for (cm, ca) in (0..3).flat_map(|cm| (0..16).map(move |ca| (cm, ca))) {
        for pk_wrong in [false, true] {
            let codes: Codes = &[("CM", cm), ("CA", ca)];
            assert_eq!(numbers_of(module_return(codes, pk_wrong)), [8; 4], "CM {cm} CA {ca}");
            assert_eq!(numbers_of(module_return(&[codes, STOP].concat(), pk_wrong)), [8; 4]);
            assert_eq!(numbers_of(module_return(&[codes, &[("AA", 1)]].concat(), pk_wrong)), [8; 4]);
            let given = named(&[("CL", 2), ("CU", 3), ("CM", cm), ("CA", ca), ("PK", u8::from(pk_wrong))]);
            assert_eq!(pack(&given, 0), Err(8));
            // What comes before 8 still does.
            assert_eq!(numbers_of(module_return(codes, pk_wrong) ^ 1), [7; 4]);
        }
    }
}

/// A read with CU 3 and a module number is no return: 9 asks for PK, and W takes CA.
#[test]
fn cl_2_beside_cu_3_of_a_read_is_as_it_was() {
    for (cm, ca) in (3..6).flat_map(|cm| (0..16).map(move |ca| (cm, ca))) {
        let codes: Codes = &[("CL", 2), ("CU", 3), ("CM", cm), ("CA", ca), ("CN", 5)];
        let word = build(0, codes).unwrap();
        assert_eq!(numbers_of(word), [0; 4], "CM {cm} CA {ca}");
        assert_eq!(numbers_of(word ^ 3 << 20), [9; 4], "CM {cm} CA {ca}");
        let mut bench = Bench::one(codes);
        bench.state = State { fwx: 0x0A5, owed: true, ..bench.state };
        bench.steps(1);
        let State { wx, fwx, owed, arriving, .. } = bench.state;
        assert_eq!((wx, fwx, owed, arriving), (u16::from(ca) * 256 + 21, 0x0A5, true, true));
    }
}

#[test]
fn pk_is_free_in_a_return_word() {
    for (cm, ck) in (0..3).flat_map(|cm| (0..16).map(move |ck| (cm, ck))) {
        for (pk, ca) in [(0, 4), (1, 4), (0, 7), (1, 7)] {
            let fields = named(&[("CM", cm), ("CU", 3), ("CK", ck), ("CA", ca), ("PK", pk)]);
            let word = pack(&fields, 0).unwrap();
            assert_eq!(take_apart(word, 0), Ok(fields));
            assert_eq!(numbers_of(word), [0; 4], "CM {cm} CK {ck} PK {pk}");
        }
    }
}

/// By CM and CU, the field that 10 names: 6 is CM, 7 is CU.
#[test]
fn ten_names_cu_1_and_not_the_return() {
    for (cm, cu) in (0..8).flat_map(|cm| (0..4).map(move |cu| (cm, cu))) {
        let expected = match (cm, cu) {
            (0..=2, 1) => 7,
            (3..=5, 2) => 7,
            (6..=7, _) => 6,
            _ => 0,
        };
        for reading in READINGS {
            let mut bench = Bench { reading, ..Bench::one(&[("CM", cm), ("CU", cu)]) };
            assert_eq!(not_modelled(reading, &split(bench.store[0])), expected, "CM {cm} CU {cu}");
            match expected {
                0 => bench.steps(1),
                field => bench.answers(Answer::Refused { number: 10, field }),
            }
        }
    }
}

// ---- words that are no return

/// The store with another word that runs in the place of each return. Whether it would be accepted is not asked.
fn without_returns(random: &mut Random, mut bench: Bench) -> Bench {
    for (address, word) in (0..4096).cycle().zip(&mut bench.store) {
        while is_return(*word) {
            *word = running_word(random, address);
        }
    }
    bench
}

/// What was owed, how a run ended, and how many cycles ran.
struct Kept {
    owed: bool,
    ending: Ending,
    count: u64,
}

/// A run of no return keeps FWX and the latch, and another from other ones is alike but for them.
fn ran_keeping(random: &mut Random, found: &Bench, budget: u64) -> Kept {
    let State { fwx, owed, .. } = found.state;
    let mut after = found.clone();
    let (ending, count) = after.run(budget);
    assert_eq!((after.state.fwx, after.state.owed), (fwx, owed), "{ending:?}");
    let mut other = found.clone();
    other.state = State { fwx: random.next() as u16, owed: !owed, ..found.state };
    let kept = other.state;
    assert_eq!(other.run(budget), (ending, count));
    assert_eq!((other.state.fwx, other.state.owed), (kept.fwx, kept.owed));
    other.state = State { fwx, owed, ..other.state };
    are_alike(&after, &other);
    Kept { owed, ending, count }
}

const KEPT: [Kind<Kept>; 7] = [
    ("owed, many cycles", |case| case.owed && case.count > 99),
    ("none owed, many cycles", |case| !case.owed && case.count > 99),
    ("owed, stopped later", |case| case.owed && case.ending == Ending::Stopped && case.count > 0),
    ("none owed, stopped later", |case| !case.owed && case.ending == Ending::Stopped && case.count > 0),
    ("owed, refused later", |case| case.owed && matches!(case.ending, Ending::Refused { .. }) && case.count > 0),
    ("owed, stopped at once", |case| case.owed && case.ending == Ending::Stopped && case.count == 0),
    ("owed, refused at once", |case| case.owed && matches!(case.ending, Ending::Refused { .. }) && case.count == 0),
];

#[test]
fn only_a_return_closes_a_trap_and_reads_fwx() {
    let seen = of_cases(33, 600, |random, case| {
        let plain = without_returns(random, case);
        let bench = in_either(random, plain);
        [1, 40, 400].map(|budget| ran_keeping(random, &bench, budget))
    });
    each_occurs(&KEPT, &seen);
}

/// Cycle by cycle, of any words: FWX stays through all, and the latch goes off by a return that ran and by nothing else.
#[test]
fn a_drawn_run_closes_its_trap_at_the_first_return() {
    let seen = of_cases(35, 400, |random, case| {
        let mut bench = in_either(random, case);
        bench.state.owed = true;
        let (mut closed, fwx) = (0, bench.state.fwx);
        for _ in 0..60 {
            let (at, owed) = (usize::from(bench.state.wx), bench.state.owed);
            let ran = bench.cycle() == Answer::Ran;
            let returned = ran && is_return(bench.store[at]);
            assert_eq!((bench.state.fwx, bench.state.owed), (fwx, owed && !returned));
            assert!(!returned || bench.state.wx == fwx);
            closed += u32::from(returned);
        }
        [closed]
    });
    each_occurs(
        &[("none", |closed| *closed == 0), ("one", |closed| *closed == 1), ("more", |closed| *closed > 1)],
        &seen,
    );
}

// ---- runs broken into

const COUNT_UP: Codes = &[("CB", 3), ("CK", 1), ("CF", 3), ("CG", 1)];

/// Three bytes from UV on, each one more: no word tests AC, 1BC or Z0, and no Store follows a read. At 020 a routine that
/// counts H up and returns.
fn three_bytes() -> Bench {
    let mut bench = Bench::new(0x22);
    bench.then(0, 1, &[("CM", 4)]);
    bench.then(1, 2, &[COUNT_UP, &[("CA", 7), ("CD", 7)]].concat());
    bench.then(2, 3, &[("CM", 0)]);
    bench.then(3, 4, &[COUNT_UP, &[("CA", 12), ("CD", 12)]].concat());
    // V6 and V7 both 0: the bytes are done.
    bench.put(4, &[("CN", 2), ("CH", 3)]);
    bench.then(8, 0, &[]);
    bench.put(10, STOP);
    bench.then(0x20, 0x21, &[COUNT_UP, &[("CA", 5), ("CD", 5)]].concat());
    bench.put(0x21, RETURN);
    bench.set(&[(U, 2), (V, 0x41), (H, 0xFF)]);
    bench
}

#[test]
fn a_run_broken_into_at_any_cycle_goes_on_to_its_end() {
    let mut whole = three_bytes();
    let (ending, total) = whole.run(1000);
    assert_eq!((ending, total, whole.state.wx), (Ending::Stopped, 17, 10));
    let bytes: Vec<u8> = three_bytes().main[0x241..0x244].iter().map(|byte| byte.wrapping_add(1)).collect();
    assert_eq!(whole.main[0x241..0x244], bytes);
    for broken_at in 0..=total {
        let mut bench = three_bytes();
        bench.run(broken_at);
        let from = bench.state.wx;
        assert_eq!(trap(&mut bench.state, 0x20), Ok(()));
        assert_eq!(bench.run(1000), (Ending::Stopped, total - broken_at + 2), "after {broken_at}");
        let mut expected = State { fwx: from, ..whole.state };
        expected.registers[H] = 0x00;
        // The latches are those of the last word that added: at the very end, the return's.
        if broken_at == total {
            expected = after_no_sum(expected);
        }
        assert_eq!(bench.state, expected, "after {broken_at}");
        assert!(common::storage_as_found(&whole, &bench), "after {broken_at}");
    }
}

/// The latches and R are the routine's to change: a carry is gone, and a byte that a Store would drop has entered.
#[test]
fn what_a_routine_changes_stays_changed() {
    let mut bench = Bench::new(0x22);
    bench.then(0, 1, &[("CM", 3), ("CA", 8), ("CB", 2), ("CF", 3), ("CG", 3)]);
    bench.put(1, &[("CM", 2), ("CN", 2), ("CH", 6)]);
    bench.put(0x20, RETURN);
    bench.set(&[(D, 0xFF), (R, 0x77)]);
    let byte = bench.main[0];
    let mut unbroken = bench.clone();
    unbroken.steps(2);
    assert_eq!((unbroken.state.wx, unbroken.main[0], unbroken.get(R)), (10, 0x77, 0x77));
    bench.steps(1);
    assert_eq!(trap(&mut bench.state, 0x20), Ok(()));
    assert!(bench.state.ac && bench.state.arriving && bench.state.arriving_byte == byte);
    bench.steps(2);
    assert_eq!((bench.state.wx, bench.main[0], bench.get(R)), (8, byte, byte));
}

/// Traps wherever a drawn run has come to, open or closed.
#[test]
fn drawn_runs_broken_into() {
    let ended = of_cases(37, 400, |random, case| {
        let mut bench = in_either(random, case);
        for _ in 0..12 {
            let address = one_of(random, &[0, 1, 2, 40, 255, 4095, 4096, u32::MAX]);
            let (before, answer) = (bench.clone(), trap(&mut bench.state, address));
            let expected = match (before.state.owed, address) {
                (true, _) => (Err(29), before.state),
                (false, 4096..) => (Err(30), before.state),
                _ => (Ok(()), State { fwx: before.state.wx, wx: address as u16, owed: true, ..before.state }),
            };
            assert_eq!((answer, bench.state), expected);
            bench.run(random.below(9));
        }
        [bench.state.owed]
    });
    assert_eq!(BTreeSet::from_iter(ended).len(), 2, "open and closed at the end");
}
