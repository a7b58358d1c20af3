//! The lamps of a sum: the carry out of the low digit, and a digit over 9 on either input of a decimal cycle, as gated and
//! before any complement or six. By hand, after drawn cycles by a rule of this file alone, and as what nothing reads.

mod common;

use common::{are_alike, draw_state, each_occurs, in_either, missing, of_cases, Bench, Kind};
use second::adder::{add, add_by_table, Controls};
use second::cycle::Answer;
use second::reading::{Reading, READINGS};
use second::run::Ending;
use second::shipped::{start, start_apsp};
use second::state::{State, D, G, H, I, J, L, R, S, T, U, V};
use second::word::{split, Word, CA, CB, CC, CF, CG, CK, CL, CM, CV};
use std::collections::BTreeSet;

/// The digit carry, and invalid.
type Lamps = [bool; 2];

fn lamps_of(state: &State) -> Lamps {
    [state.digit_carry, state.invalid]
}

// ---- by hand

const DECIMAL: Controls = Controls { cf: 3, cg: 3, cv: 3, cc: 0, s0: false, s3: false };
/// A difference: B complemented, and one more.
const DIFFERENCE: Controls = Controls { cc: 1, s0: true, ..DECIMAL };
const BINARY: Controls = Controls { cv: 0, ..DECIMAL };

/// What a row shows, the controls, A and B, the result, and the digit carry and invalid as 0 or 1.
type Row = (&'static str, Controls, [u8; 2], u8, [u8; 2]);

/// One cycle that adds R and D to L, from lamps that are given.
fn cycled(controls: &Controls, [a, b]: [u8; 2], lamps: Lamps) -> Bench {
    let Controls { cf, cg, cv, cc, s0, s3 } = *controls;
    let mut bench = Bench::one(&[("CA", 7), ("CB", 2), ("CF", cf), ("CG", cg), ("CV", cv), ("CC", cc), ("CD", 9)]);
    bench.set(&[(R, a), (D, b), (S, 0x80 * u8::from(s0) + 0x10 * u8::from(s3))]);
    [bench.state.digit_carry, bench.state.invalid] = lamps;
    bench.steps(1);
    bench
}

/// Each row by rule, by table, and in a cycle that finds both lamps the other way.
fn are_lit(rows: &[Row]) {
    for (shows, controls, inputs, result, lamps) in rows {
        let [a, b] = *inputs;
        for answer in [add(a, b, controls), add_by_table(a, b, controls)] {
            let lit = [answer.digit_carry, answer.invalid].map(u8::from);
            assert_eq!((answer.result, lit), (*result, *lamps), "{shows}");
        }
        let bench = cycled(controls, *inputs, lamps.map(|lamp| lamp == 0));
        assert_eq!((bench.get(L), lamps_of(&bench.state).map(u8::from)), (*result, *lamps), "{shows}");
    }
}

const WITH_ONE: Controls = Controls { cc: 1, ..DECIMAL };
const WITH_S3: Controls = Controls { cc: 6, s3: true, ..DECIMAL };

const SUMS: [Row; 14] = [
    ("AD with sixes is 03: 8 and 3 do not carry, and AD is judged", DECIMAL, [0x38, 0xAD], 0xD5, [0, 1]),
    ("47 with sixes is AD: 8 and 13 carry", DECIMAL, [0x38, 0x47], 0x85, [1, 0]),
    ("01 with sixes is 67: 9 and 7 carry", DECIMAL, [0x99, 0x01], 0x00, [1, 0]),
    ("12 with sixes is 78: 0 and 8 do not carry", DECIMAL, [0x30, 0x12], 0x42, [0, 0]),
    ("60 with sixes is C6: 0 and 6 do not carry, while the high digits do", DECIMAL, [0x50, 0x60], 0x10, [0, 0]),
    ("9 is not over 9", DECIMAL, [0x99, 0x99], 0x98, [1, 0]),
    ("A's low digit is over 9", DECIMAL, [0x3A, 0x12], 0x52, [1, 1]),
    ("A's high digit is over 9", DECIMAL, [0xA3, 0x12], 0x15, [0, 1]),
    ("B's low digit is over 9, and with six it is 0", DECIMAL, [0x10, 0x0A], 0x1A, [0, 1]),
    ("B's high digit is over 9, and with six it is 0", DECIMAL, [0x18, 0xA9], 0xC7, [1, 1]),
    ("04 with sixes is 6A: 5 and 10 do not carry", DECIMAL, [0x05, 0x04], 0x09, [0, 0]),
    ("with one more they do", WITH_ONE, [0x05, 0x04], 0x10, [1, 0]),
    ("and with S3", WITH_S3, [0x05, 0x04], 0x10, [1, 0]),
    ("90 with sixes is F6: 9, 6 and S3 carry", WITH_S3, [0x09, 0x90], 0x00, [1, 0]),
];

#[test]
fn lamps_of_decimal_sums() {
    are_lit(&SUMS);
}

const DIFFERENCES: [Row; 6] = [
    ("47 turned is B8: 5, 8 and 1 do not carry, and 47 is judged", DIFFERENCE, [0x85, 0x47], 0x38, [0, 0]),
    ("42 turned is BD: 5, 13 and 1 carry", DIFFERENCE, [0x85, 0x42], 0x43, [1, 0]),
    ("4A turned is B5: 5, 5 and 1 do not carry, and 4A is judged", DIFFERENCE, [0x85, 0x4A], 0x35, [0, 1]),
    ("FB turned is 04: 5, 4 and 1 do not carry, and FB is judged", DIFFERENCE, [0x85, 0xFB], 0x24, [0, 1]),
    ("A0 turned is 5F: 5, 15 and 1 carry, and A0 is judged", DIFFERENCE, [0x85, 0xA0], 0x85, [1, 1]),
    ("A is judged as in a sum", DIFFERENCE, [0x8A, 0x47], 0x43, [1, 1]),
];

#[test]
fn lamps_of_decimal_differences() {
    are_lit(&DIFFERENCES);
}

/// Decimal, with A gated by CF.
const fn a_by(cf: u8) -> Controls {
    Controls { cf, ..DECIMAL }
}

/// Decimal, with B gated by CG.
const fn b_by(cg: u8) -> Controls {
    Controls { cg, ..DECIMAL }
}

const NOTHING: Controls = Controls { cf: 0, cg: 0, ..DECIMAL };
const LESS_LOW: Controls = Controls { cg: 1, ..DIFFERENCE };
const LESS_HIGH: Controls = Controls { cg: 2, ..DIFFERENCE };
const LESS_NOTHING: Controls = Controls { cg: 0, ..DIFFERENCE };

/// 12 with sixes is 78, and 12 is added to what B is with sixes.
const GATED: [Row; 20] = [
    ("the low digit of B4 is 4", a_by(1), [0xB4, 0x12], 0x16, [0, 0]),
    ("the low digit of 4B is B: 11 and 8 carry", a_by(1), [0x4B, 0x12], 0x23, [1, 1]),
    ("the high digit of 4B is 4", a_by(2), [0x4B, 0x12], 0x52, [0, 0]),
    ("the high digit of B4 is B", a_by(2), [0xB4, 0x12], 0x22, [0, 1]),
    ("4B crossed is B4, and its low digit 4", a_by(5), [0x4B, 0x12], 0x16, [0, 0]),
    ("B4 crossed is 4B, and its low digit B", a_by(5), [0xB4, 0x12], 0x23, [1, 1]),
    ("4B crossed is B4, and its high digit B", a_by(6), [0x4B, 0x12], 0x22, [0, 1]),
    ("B4 crossed is 4B, and its high digit 4", a_by(6), [0xB4, 0x12], 0x52, [0, 0]),
    ("4B crossed is B4", a_by(7), [0x4B, 0x12], 0x26, [0, 1]),
    ("nothing of BB", a_by(0), [0xBB, 0x12], 0x12, [0, 0]),
    ("the low digit of B4, with six 6A", b_by(1), [0x12, 0xB4], 0x16, [0, 0]),
    ("the low digit of 4B, with six 61", b_by(1), [0x12, 0x4B], 0x1D, [0, 1]),
    ("the high digit of 4B, with six A6", b_by(2), [0x12, 0x4B], 0x52, [0, 0]),
    ("the high digit of B4, with six 16", b_by(2), [0x12, 0xB4], 0xC2, [0, 1]),
    ("nothing of BB, with six 66", b_by(0), [0x12, 0xBB], 0x12, [0, 0]),
    ("nothing of either", NOTHING, [0xBB, 0xBB], 0x00, [0, 0]),
    ("less the low digit of B4: FB enters", LESS_LOW, [0x12, 0xB4], 0x08, [0, 0]),
    ("less the low digit of 4B: F4 enters", LESS_LOW, [0x12, 0x4B], 0x01, [0, 1]),
    ("less the high digit of 4B: BF enters, and 2, 15 and 1 carry", LESS_HIGH, [0x52, 0x4B], 0x12, [1, 0]),
    ("less nothing of BB: FF enters, and 2, 15 and 1 carry", LESS_NOTHING, [0x12, 0xBB], 0x12, [1, 0]),
];

#[test]
fn a_digit_that_its_gate_keeps_out_is_not_judged() {
    are_lit(&GATED);
}

const TURNED: Controls = Controls { cv: 1, ..BINARY };
const BY_S0: Controls = Controls { cv: 2, ..BINARY };
const TURNED_BY_S0: Controls = Controls { s0: true, ..BY_S0 };

const BINARIES: [Row; 9] = [
    ("13 and 9 are 22", BINARY, [0x5D, 0x99], 0xF6, [1, 0]),
    ("8 and 13 are 21", BINARY, [0x38, 0xAD], 0xE5, [1, 0]),
    ("11 and 4 are 15", BINARY, [0xBB, 0x44], 0xFF, [0, 0]),
    ("and with one more 16", Controls { cc: 1, ..BINARY }, [0xBB, 0x44], 0x00, [1, 0]),
    ("the high digits carry alone", BINARY, [0xF0, 0x10], 0x00, [0, 0]),
    ("99 turned is 66: 13 and 6 are 19", TURNED, [0x5D, 0x99], 0xC3, [1, 0]),
    ("9D turned is 62: 13 and 2 are 15", TURNED, [0x5D, 0x9D], 0xBF, [0, 0]),
    ("S0 off: 13 and 13 are 26", BY_S0, [0x5D, 0x9D], 0xFA, [1, 0]),
    ("S0 on: 13 and 2 are 15", TURNED_BY_S0, [0x5D, 0x9D], 0xBF, [0, 0]),
];

#[test]
fn lamps_of_binary_sums() {
    are_lit(&BINARIES);
}

/// A logical operation by CC, with CV 3.
const fn logical(cc: u8, s0: bool) -> Controls {
    Controls { cc, s0, ..DECIMAL }
}

/// 11 and 13 would carry in a sum; AD turned is 52.
const LOGICAL: [Row; 7] = [
    ("AND", logical(2, false), [0x3B, 0xAD], 0x29, [0, 0]),
    ("OR", logical(3, false), [0x3B, 0xAD], 0xBF, [0, 0]),
    ("XOR", logical(7, false), [0x3B, 0xAD], 0x96, [0, 0]),
    ("AND with 52", logical(2, true), [0x3B, 0xAD], 0x12, [0, 0]),
    ("OR with 52", logical(3, true), [0x3B, 0xAD], 0x7B, [0, 0]),
    ("XOR with 52", logical(7, true), [0x3B, 0xAD], 0x69, [0, 0]),
    ("CV 0 as well", Controls { cc: 7, ..BINARY }, [0x3B, 0xAD], 0x96, [0, 0]),
];

#[test]
fn a_logical_cycle_puts_both_lamps_out() {
    are_lit(&LOGICAL);
}

#[test]
fn a_start_has_both_lamps_out() {
    for on in [false, true] {
        for state in [start(0x1234, 0xABCD, 16, on), start_apsp(0x1234, 0xABCD, 16, on)] {
            assert_eq!(lamps_of(&state), [false; 2]);
        }
    }
}

// ---- after drawn cycles

/// A byte's high digit and its low one.
type Digits = [u8; 2];

fn digits(byte: u8) -> Digits {
    [byte / 16, byte % 16]
}

/// What a gate lets in: 1 the low digit, 2 the high one, 3 both.
fn let_in([high, low]: Digits, gate: u8) -> Digits {
    [high * (gate / 2), low * (gate % 2)]
}

fn over_9(of: Digits) -> bool {
    of.iter().any(|digit| *digit > 9)
}

/// The registers by CA.
const BY_CA: [(u8, usize); 11] =
    [(4, S), (5, H), (7, R), (8, D), (9, L), (10, G), (11, T), (12, V), (13, U), (14, J), (15, I)];

/// A and B as a word chooses them, from the state before it.
fn chosen(word: &Word, before: &State) -> [Digits; 2] {
    let entered = before.arriving && word[CM] != 2;
    let held =
        |register: usize| if register == R && entered { before.arriving_byte } else { before.registers[register] };
    let by_ca = BY_CA.iter().find(|(code, _)| *code == word[CA] && word[CL] != 2);
    let b = match word[CB] {
        0 => held(R),
        1 => held(L),
        2 => held(D),
        _ => word[CK] * 17,
    };
    [digits(by_ca.map_or(0, |(_, register)| held(*register))), digits(b)]
}

/// What a word adds or connects.
struct Sum {
    /// A and B before their gates, and after them.
    chosen: [Digits; 2],
    gated: [Digits; 2],
    complement: bool,
    /// Means nothing in a logical operation.
    carry: u8,
    cv: u8,
    cc: u8,
}

impl Sum {
    fn of(word: &Word, before: &State) -> Sum {
        let chosen = chosen(word, before);
        let [mut a, b] = chosen;
        if word[CF] > 4 {
            a.reverse();
        }
        let [s0, s3] = [0, 3].map(|bit| before.registers[S] << bit >> 7);
        Sum {
            chosen,
            gated: [let_in(a, word[CF] % 4), let_in(b, word[CG])],
            complement: word[CV] == 1 || word[CV] > 1 && s0 == 1,
            carry: if word[CC] == 6 { s3 } else { word[CC] % 2 },
            cv: word[CV],
            cc: word[CC],
        }
    }

    fn is_logical(&self) -> bool {
        [2, 3, 7].contains(&self.cc)
    }

    /// Of A and B, those that have a digit over 9 as gated.
    fn bad(&self) -> [bool; 2] {
        self.gated.map(over_9)
    }

    /// No digit over 9 is let in, and of A and B those that have one.
    fn kept_out(&self) -> [bool; 2] {
        self.chosen.map(|of| over_9(of) && self.bad() == [false, false])
    }

    fn lamps(&self) -> Lamps {
        if self.is_logical() {
            return [false; 2];
        }
        let [[_, a], [_, b]] = self.gated;
        let entering = match (self.complement, self.cv) {
            (true, _) => 15 - b,
            (false, 3) => (b + 6) % 16,
            (false, _) => b,
        };
        [a + entering + self.carry > 15, self.cv == 3 && self.bad() != [false, false]]
    }
}

/// A cycle: what it answered, the lamps that it found, and its sum where it ran.
struct Cycle {
    answer: Answer,
    found: Lamps,
    sum: Option<Sum>,
}

impl Cycle {
    /// It ran, and its sum is such.
    fn summed(&self, is: impl Fn(&Sum) -> bool) -> bool {
        self.sum.as_ref().is_some_and(is)
    }

    fn decimal(&self, complement: bool, is: impl Fn(&Sum) -> bool) -> bool {
        self.summed(|sum| sum.cv == 3 && !sum.is_logical() && sum.complement == complement && is(sum))
    }

    fn binary(&self, complement: bool, is: impl Fn(&Sum) -> bool) -> bool {
        self.summed(|sum| sum.cv < 3 && !sum.is_logical() && sum.complement == complement && is(sum))
    }

    /// Of this CC, under CV 3, on bad digits from both sides.
    fn logical(&self, cc: u8) -> bool {
        self.summed(|sum| sum.cc == cc && sum.cv == 3 && sum.bad() == [true, true])
    }
}

/// The cycle from where the bench stands. One that does not run leaves the lamps as it found them.
fn cycle_of(bench: &mut Bench) -> Cycle {
    let before = bench.state;
    let answer = bench.cycle();
    let word = || split(bench.store[usize::from(before.wx)]);
    let sum = (answer == Answer::Ran).then(|| Sum::of(&word(), &before));
    let found = lamps_of(&before);
    let expected = sum.as_ref().map_or(found, Sum::lamps);
    assert_eq!(lamps_of(&bench.state), expected, "{answer:?} from {before:X?}");
    Cycle { answer, found, sum }
}

/// True and complement are those of decimal cycles, and a bad digit is one over 9.
const CYCLES: [Kind<Cycle>; 25] = [
    ("true: bad in A alone", |case| case.decimal(false, |sum| sum.bad() == [true, false])),
    ("true: bad in B alone", |case| case.decimal(false, |sum| sum.bad() == [false, true])),
    ("true: bad in both", |case| case.decimal(false, |sum| sum.bad() == [true, true])),
    ("true: bad in neither", |case| case.decimal(false, |sum| sum.chosen.map(over_9) == [false, false])),
    ("true: kept out of A", |case| case.decimal(false, |sum| sum.kept_out() == [true, false])),
    ("true: kept out of B", |case| case.decimal(false, |sum| sum.kept_out() == [false, true])),
    ("true: a carry", |case| case.decimal(false, |sum| sum.lamps()[0])),
    ("true: no carry", |case| case.decimal(false, |sum| !sum.lamps()[0])),
    ("complement: bad in A alone", |case| case.decimal(true, |sum| sum.bad() == [true, false])),
    ("complement: bad in B alone", |case| case.decimal(true, |sum| sum.bad() == [false, true])),
    ("complement: bad in both", |case| case.decimal(true, |sum| sum.bad() == [true, true])),
    ("complement: bad in neither", |case| case.decimal(true, |sum| sum.chosen.map(over_9) == [false, false])),
    ("complement: kept out of A", |case| case.decimal(true, |sum| sum.kept_out() == [true, false])),
    ("complement: kept out of B", |case| case.decimal(true, |sum| sum.kept_out() == [false, true])),
    ("complement: a carry", |case| case.decimal(true, |sum| sum.lamps()[0])),
    ("complement: no carry", |case| case.decimal(true, |sum| !sum.lamps()[0])),
    ("binary true: bad, a carry", |case| case.binary(false, |sum| sum.bad() == [true, true] && sum.lamps()[0])),
    ("binary true: bad, no carry", |case| case.binary(false, |sum| sum.bad() == [true, true] && !sum.lamps()[0])),
    ("binary complement: bad, a carry", |case| case.binary(true, |sum| sum.bad() == [true, true] && sum.lamps()[0])),
    ("binary complement: no carry", |case| case.binary(true, |sum| !sum.lamps()[0])),
    ("AND", |case| case.logical(2)),
    ("OR", |case| case.logical(3)),
    ("XOR", |case| case.logical(7)),
    ("a stop, both lamps on", |case| case.answer == Answer::Stopped && case.found == [true; 2]),
    ("refused, both lamps on", |case| matches!(case.answer, Answer::Refused { .. }) && case.found == [true; 2]),
];

#[test]
fn lamps_after_drawn_cycles() {
    let seen = of_cases(29, 600, |random, case| {
        let mut bench = in_either(random, case);
        // One address more than the store has.
        let addresses = bench.store.len() + 1;
        [0; 40].map(|_| {
            bench.state = draw_state(random, addresses);
            cycle_of(&mut bench)
        })
    });
    each_occurs(&CYCLES, &seen);
    let number = |case: &Cycle| match case.answer {
        Answer::Refused { number, .. } => Some(number),
        _ => None,
    };
    let numbers: BTreeSet<u8> = seen.iter().filter_map(number).collect();
    assert!(numbers.is_superset(&BTreeSet::from([1, 2, 3, 4, 5, 6, 7, 9, 10, 11])), "{numbers:?}");
}

// ---- read by nothing

/// Which lamps differ between two runs, how both ended, and how many cycles each ran.
struct Pair {
    differ: Lamps,
    ending: Ending,
    count: u64,
}

/// A run, and another from a state with other lamps. Where no cycle ran, each keeps its own.
fn run_alike(found: &Bench, differ: Lamps, budget: u64) -> Pair {
    let mut other_found = found.clone();
    other_found.state.digit_carry ^= differ[0];
    other_found.state.invalid ^= differ[1];
    let (mut one, mut other) = (found.clone(), other_found.clone());
    let (ending, count) = one.run(budget);
    assert_eq!(other.run(budget), (ending, count), "{differ:?}");
    if count == 0 {
        assert!(one == *found && other == other_found, "{ending:?} changes something");
    } else {
        are_alike(&one, &other);
    }
    Pair { differ, ending, count }
}

const PAIRS: [Kind<Pair>; 10] = [
    ("the digit carry, none ran", |case| case.differ == [true, false] && case.count == 0),
    ("the digit carry, cycles ran", |case| case.differ == [true, false] && case.count > 0),
    ("invalid, none ran", |case| case.differ == [false, true] && case.count == 0),
    ("invalid, cycles ran", |case| case.differ == [false, true] && case.count > 0),
    ("both, none ran", |case| case.differ == [true, true] && case.count == 0),
    ("both, cycles ran", |case| case.differ == [true, true] && case.count > 0),
    ("stopped at once", |case| case.ending == Ending::Stopped && case.count == 0),
    ("stopped later", |case| case.ending == Ending::Stopped && case.count > 0),
    ("refused at once", |case| matches!(case.ending, Ending::Refused { .. }) && case.count == 0),
    ("refused later", |case| matches!(case.ending, Ending::Refused { .. }) && case.count > 0),
];

#[test]
fn states_with_other_lamps_run_alike() {
    let seen = of_cases(31, 1000, |random, case| {
        let bench = in_either(random, case);
        let most = [1, 2, 2, 40, 400];
        let differ = [[true, false], [false, true], [true, true]];
        most.map(|most| random.below(most)).map(|budget| differ.map(|differ| run_alike(&bench, differ, budget)))
    });
    each_occurs(&PAIRS, &seen.into_iter().flatten().collect::<Vec<_>>());
}

/// Beside every AC, 1BC and Z0.
fn no_lamp_is_read(reading: Reading, ch: u8, cl: u8) {
    let mut bench = Bench { reading, ..Bench::one(&[("CH", ch), ("CL", cl)]) };
    for latches in 0..8 {
        [bench.state.ac, bench.state.bc1, bench.state.z0] = [0, 1, 2].map(|place| latches >> place & 1 == 1);
        let next = |[digit_carry, invalid]: Lamps| {
            let mut bench = bench.clone();
            bench.state = State { digit_carry, invalid, ..bench.state };
            bench.steps(1);
            bench.state.wx
        };
        let nexts = [[false, false], [false, true], [true, false], [true, true]].map(next);
        assert_eq!(nexts, [nexts[0]; 4], "{reading:?} CH {ch} CL {cl}");
    }
}

/// Every CH and CL that is modelled under a reading.
#[test]
fn no_branch_reads_the_lamps() {
    for reading in READINGS {
        let [no_ch, no_cl, _] = missing(reading);
        let codes = (0..16).flat_map(|ch| (0..16).map(move |cl| (ch, cl)));
        for (ch, cl) in codes.filter(|(ch, cl)| !no_ch.contains(ch) && !no_cl.contains(cl)) {
            no_lamp_is_read(reading, ch, cl);
        }
    }
}
