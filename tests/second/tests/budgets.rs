//! Budgets may be divided: a run and another from where it ended are one run of both, and single cycles are a run. And a store
//! with no Write and no Store leaves all storage as found.

mod common;

use common::{
    are_alike, bench_of, draw_budgets, each_occurs, in_either, lent_to_go_on, of_cases, one_of, running_word,
    storage_as_found, Bench, Kind,
};
use second::cycle::Answer;
use second::random::Random;
use second::reading::Reading;
use second::run::{Ending, MOST_BUDGET};
use second::state::{State, J, M, N, R};
use second::word::{split, CM};
use std::collections::BTreeSet;

/// A run's ending, and how many cycles ran.
type Ran = (Ending, u64);

const REFUSED_BY_1: Ending = Ending::Refused { number: 1, field: 0 };

/// At the first word, or, by 2, before it.
fn is_refused_at_once((ending, count): Ran) -> bool {
    matches!(ending, Ending::Refused { number: 2..=11, .. }) && count == 0
}

/// The number of a refusal after a cycle that ran.
fn refused_later((ending, count): Ran) -> Option<u8> {
    match ending {
        Ending::Refused { number, .. } if count > 0 => Some(number),
        _ => None,
    }
}

/// Of the store, and of main and local storage.
fn sizes(bench: &Bench) -> [usize; 3] {
    [bench.store.len(), bench.main.len(), bench.local.len()]
}

/// Not refused by 1, by the paper's numbers.
fn fits([store, main, local]: [usize; 3]) -> bool {
    (1..=4096).contains(&store) && (1..=65_536).contains(&main) && local == 256
}

// ---- a run in two parts

/// Two runs under one reading, the second from where the first ended.
struct Division {
    reading: Reading,
    sizes: [usize; 3],
    budgets: [u64; 2],
    ran: [Ran; 2],
}

/// Both runs, held to one run of their total.
fn divided(bench: &Bench, budgets: [u64; 2]) -> Division {
    let (mut parts, mut whole) = (bench.clone(), bench.clone());
    let ran = budgets.map(|budget| parts.run(budget));
    let [first, second] = ran;
    let ending = if budgets[1] == 0 { first.0 } else { second.0 };
    assert_eq!(whole.run(budgets[0] + budgets[1]), (ending, first.1 + second.1), "{budgets:?}");
    are_alike(&parts, &whole);
    if !fits(sizes(bench)) {
        assert_eq!(ran, [(REFUSED_BY_1, 0); 2]);
    } else if first.0 != Ending::Spent && budgets[1] > 0 {
        assert_eq!(second, (first.0, 0), "the second run meets the word that ended the first");
    }
    Division { reading: bench.reading, sizes: sizes(bench), budgets, ran }
}

fn both_run_long(case: &Division) -> bool {
    case.ran.iter().all(|(_, count)| *count > 99)
}

/// The first run is spent just where the second has no cycle more.
fn is_cut_before_the_end(case: &Division) -> bool {
    case.ran[0].0 == Ending::Spent && case.ran[0].1 > 0 && case.ran[1].0 != Ending::Spent && case.ran[1].1 == 0
}

const DIVISIONS: [Kind<Division>; 22] = [
    ("the first is spent", |case| case.ran[0].0 == Ending::Spent),
    ("the first stops at once", |case| case.ran[0] == (Ending::Stopped, 0)),
    ("the first stops later", |case| case.ran[0].0 == Ending::Stopped && case.ran[0].1 > 0),
    ("the first is refused by 1", |case| case.ran[0].0 == REFUSED_BY_1),
    ("the first is refused at once by another", |case| is_refused_at_once(case.ran[0])),
    ("the first is refused later", |case| refused_later(case.ran[0]).is_some()),
    ("a later refusal is met again", |case| refused_later(case.ran[0]).is_some() && case.budgets[1] > 0),
    ("the first is of 0", |case| case.budgets[0] == 0 && case.ran[1].1 > 0),
    ("the second is of 0", |case| case.budgets[1] == 0 && case.ran[0].1 > 0),
    ("both are of 0", |case| case.budgets == [0, 0]),
    ("cut just before a stop", |case| is_cut_before_the_end(case) && case.ran[1].0 == Ending::Stopped),
    ("cut just before a refusal", |case| is_cut_before_the_end(case) && is_refused_at_once(case.ran[1])),
    ("the second stops later", |case| case.ran[1].0 == Ending::Stopped && case.ran[1].1 > 0),
    ("the second is refused later", |case| refused_later(case.ran[1]).is_some()),
    ("no words", |case| case.sizes[0] == 0),
    ("words over the limit", |case| case.sizes[0] == 4097),
    ("no main storage", |case| case.sizes[1] == 0),
    ("main storage over the limit", |case| case.sizes[1] == 65_537),
    ("local storage one short", |case| case.sizes[2] == 255),
    ("local storage one over", |case| case.sizes[2] == 257),
    ("both run long in basic", |case| both_run_long(case) && case.reading == Reading::Basic),
    ("both run long in compatibility", |case| both_run_long(case) && case.reading == Reading::Compatibility),
];

#[test]
fn budgets_may_be_divided() {
    let seen = of_cases(16, 2000, |random, case| {
        let bench = in_either(random, case);
        [0; 4].map(|_| divided(&bench, draw_budgets(random).map(u64::from)))
    });
    each_occurs(&DIVISIONS, &seen);
    let numbers: BTreeSet<u8> = seen.iter().filter_map(|case| refused_later(case.ran[0])).collect();
    // 8 is drawn too seldom to be asked for.
    assert!(numbers.is_superset(&BTreeSet::from([2, 3, 4, 5, 6, 7, 9, 10, 11])), "{numbers:?}");
}

// ---- at the ends of the budget

/// Words that count a byte of main storage up and go on to the next, for ever.
fn touring() -> Bench {
    let mut bench = Bench::new(4);
    bench.then(0, 1, &[("CM", 3)]);
    bench.then(1, 2, &[("CA", 7), ("CB", 3), ("CK", 1), ("CD", 7), ("CF", 3), ("CG", 1)]);
    bench.then(2, 3, &[("CM", 0)]);
    bench.then(3, 0, &[("CA", 14), ("CB", 3), ("CK", 1), ("CD", 14), ("CF", 3), ("CG", 1)]);
    bench
}

fn cut_at_its_ends(bench: &Bench, total: u64) {
    for cut in [0, 1, total.saturating_sub(1), total].into_iter().filter(|cut| *cut <= total) {
        let Division { ran, .. } = divided(bench, [cut, total - cut]);
        assert_eq!(ran, [(Ending::Spent, cut), (Ending::Spent, total - cut)]);
    }
}

#[test]
fn divided_at_the_ends() {
    for total in [0, 1, MOST_BUDGET - 1, MOST_BUDGET] {
        cut_at_its_ends(&Bench::endless(), total);
        cut_at_its_ends(&touring(), total);
    }
    let mut toured = touring();
    toured.run(2 * 4 * 256);
    assert!(toured.main.iter().zip(touring().main).take(256).all(|(now, found)| *now == found.wrapping_add(2)));
}

#[test]
fn past_the_limit_a_division_shows() {
    let (mut parts, mut whole) = (Bench::endless(), Bench::endless());
    assert_eq!(parts.run(MOST_BUDGET), (Ending::Spent, MOST_BUDGET));
    assert_eq!(parts.run(1), (Ending::Spent, 1));
    assert_eq!(u64::from(parts.get(J)), (MOST_BUDGET + 1) % 256);
    assert_eq!(whole.run(MOST_BUDGET + 1), (Ending::Refused { number: 22, field: 0 }, 0));
    assert_eq!(whole, Bench::endless());
}

// ---- the buttons

fn ending_of(answer: Answer) -> Ending {
    match answer {
        Answer::Ran => Ending::Spent,
        Answer::Stopped => Ending::Stopped,
        Answer::Refused { number, field } => Ending::Refused { number, field },
    }
}

/// So many single cycles, held to one run of as many.
fn pressed(bench: &Bench, presses: u64) -> Ran {
    let (mut single, mut whole) = (bench.clone(), bench.clone());
    let answers: Vec<Answer> = (0..presses).map(|_| single.cycle()).collect();
    let (ending, count) = whole.run(presses);
    are_alike(&single, &whole);
    let ran = answers.iter().filter(|answer| **answer == Answer::Ran).count();
    assert_eq!(ran as u64, count);
    match answers.last() {
        Some(last) => assert_eq!(ending, ending_of(*last)),
        None => assert_eq!(ending, if fits(sizes(bench)) { Ending::Spent } else { REFUSED_BY_1 }),
    }
    (ending, count)
}

const RUNS: [Kind<Ran>; 7] = [
    ("no press", |ran| *ran == (Ending::Spent, 0)),
    ("all ran", |ran| ran.0 == Ending::Spent && ran.1 > 9),
    ("stopped at once", |ran| *ran == (Ending::Stopped, 0)),
    ("stopped later", |ran| ran.0 == Ending::Stopped && ran.1 > 0),
    ("refused by 1", |ran| ran.0 == REFUSED_BY_1),
    ("refused at once by another", |ran| is_refused_at_once(*ran)),
    ("refused later", |ran| refused_later(*ran).is_some()),
];

#[test]
fn single_cycles_are_a_run() {
    let seen = of_cases(17, 2000, |random, case| {
        let bench = in_either(random, case);
        [2, 40].map(|most| pressed(&bench, random.below(most)))
    });
    each_occurs(&RUNS, &seen);
}

// ---- stores that leave storage as found

/// The word, or one that runs in its place where it writes or stores. Whether it would be accepted is not asked.
fn quiet_word(random: &mut Random, mut word: u64, address: u32) -> u64 {
    while [0, 2].contains(&split(word)[CM]) {
        word = running_word(random, address);
    }
    word
}

fn quieted(random: &mut Random, mut bench: Bench) -> Bench {
    for (address, word) in (0..4096).cycle().zip(&mut bench.store) {
        *word = quiet_word(random, *word, address);
    }
    bench
}

/// The state before a run of a quiet store and after it.
struct Quiet {
    before: State,
    after: State,
    ran: Ran,
}

fn ran_quietly(before: &Bench, budget: u64) -> Quiet {
    let mut after = before.clone();
    let ran = after.run(budget);
    assert!(storage_as_found(before, &after), "{ran:?}");
    Quiet { before: before.state, after: after.state, ran }
}

/// Nothing but a read turns the latch on.
fn has_fetched(case: &Quiet) -> bool {
    !case.before.allow_write && case.after.allow_write
}

fn has_moved(case: &Quiet) -> bool {
    [M, N].iter().any(|&register| case.before.registers[register] != case.after.registers[register])
}

const QUIET: [Kind<Quiet>; 11] = [
    ("spent after many cycles", |case| case.ran.0 == Ending::Spent && case.ran.1 > 99),
    ("stopped at once", |case| case.ran == (Ending::Stopped, 0)),
    ("stopped after several cycles", |case| case.ran.0 == Ending::Stopped && case.ran.1 > 3),
    ("refused by 1", |case| case.ran.0 == REFUSED_BY_1),
    ("refused at once by another", |case| is_refused_at_once(case.ran)),
    ("refused after several cycles", |case| refused_later(case.ran).is_some() && case.ran.1 > 3),
    ("refused by 22", |case| case.ran.0 == Ending::Refused { number: 22, field: 0 }),
    ("a fetch, and main selected", |case| has_fetched(case) && !case.after.local),
    ("a fetch, and local selected", |case| has_fetched(case) && case.after.local),
    ("many cycles with the latch on", |case| case.before.allow_write && case.ran.1 > 99),
    ("another address with the latch on", |case| case.before.allow_write && has_moved(case)),
];

#[test]
fn a_quiet_store_leaves_storage_as_found() {
    let seen = of_cases(19, 1500, |random, case| {
        let quiet = quieted(random, case);
        let bench = in_either(random, quiet);
        [0, 1, 4, 40, 400, MOST_BUDGET + 1].map(|budget| ran_quietly(&bench, budget))
    });
    each_occurs(&QUIET, &seen);
}

/// A quiet store but for the word at WX, of this CM: the latch is on, and what it puts is not what stands there.
fn draw_unquiet(random: &mut Random, cm: u8) -> Bench {
    let case = bench_of(lent_to_go_on(random));
    let mut bench = quieted(random, case);
    bench.state.wx %= 4096;
    bench.put(bench.state.wx.into(), &[("CM", cm)]);
    bench.state.allow_write = true;
    bench.main.fill(0);
    bench.local.fill(0);
    bench.set(&[(R, 1)]);
    bench.state.arriving_byte = 2;
    bench
}

/// The control: what holds of quiet stores does not hold with one word of another kind.
#[test]
fn one_write_or_store_changes_a_byte() {
    let random = &mut Random::new(23);
    let mut seen = BTreeSet::new();
    for cm in [0, 2].repeat(60) {
        let before = draw_unquiet(random, cm);
        let mut after = before.clone();
        after.run(one_of(random, &[1, 2, 40]));
        assert!(!storage_as_found(&before, &after), "CM {cm}");
        seen.insert((cm, before.state.local));
    }
    assert_eq!(seen.len(), 4, "a Write and a Store, in main and in local storage");
}
