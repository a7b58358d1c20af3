//! Traps and returns: calls alone, return words beside every CM, CH and CL, and runs that traps break into.

use super::count::{of_cycle, of_run, Counts, RAN, SPENT, STOPPED, TAKEN};
use super::draw::{bits, drawn_state, modelled, packed, reading_of, BOTH_OF_CU};
use super::run::{store_word, RATES};
use super::{digest_line, drawn_bytes, mix_bytes, mix_state};
use crate::cycle::cycle;
use crate::random::{mix, Random};
use crate::reading::Reading;
use crate::run::run;
use crate::state::State;
use crate::trap::trap;
use crate::word::{index_of, with_right_pk, Fields};

/// What the calls came to.
fn traps(counts: &Counts) -> String {
    counts.line("taken", TAKEN) + &counts.refused(29) + &counts.refused(30)
}

/// What goes on from part to part.
struct Course {
    random: Random,
    digest: u64,
    main: Vec<u8>,
    local: Vec<u8>,
}

impl Course {
    fn mix(&mut self, value: u64) {
        self.digest = mix(self.digest, value);
    }

    fn mix_state(&mut self, state: &State) {
        self.digest = mix_state(self.digest, state);
    }

    fn mix_storages(&mut self) {
        self.digest = mix_bytes(mix_bytes(self.digest, &self.main), &self.local);
    }

    /// A trap: its number in the counts and the digest.
    fn trap(&mut self, state: &mut State, address: u32, counts: &mut Counts) {
        let number = trap(state, address).err().map_or(TAKEN, usize::from);
        let value = counts.count(number);
        self.mix(value);
    }
}

// ---- calls

/// The last address and the one past it, any number, one too high, or, one time in two, any that is taken.
fn drawn_address(x: u64) -> u32 {
    match x % 8 {
        0 => 4095,
        1 => 4096,
        2 => (x / 8) as u32,
        3 => 4096 + (x / 8 % 4096) as u32,
        _ => (x / 8 % 4096) as u32,
    }
}

fn calls(course: &mut Course) -> String {
    let (mut counts, mut text) = (Counts::new(), String::new());
    for k in 1..=20_000 {
        let [c, e, f] = std::array::from_fn(|_| course.random.next());
        let mut state = drawn_state(c, e, f as u16);
        course.trap(&mut state, drawn_address(f / 65536), &mut counts);
        course.mix_state(&state);
        if k % 5000 == 0 {
            text += &digest_line(k, course.digest);
        }
    }
    text + &traps(&counts)
}

// ---- return words

/// CM, CH, CL, and whether a return is owed.
type Place = (u8, u8, u8, bool);

fn places() -> impl Iterator<Item = Place> {
    let codes = (0..3).flat_map(|cm| (0..16).flat_map(move |ch| (0..16).map(move |cl| (cm, ch, cl))));
    codes.flat_map(|(cm, ch, cl)| [false, true].map(|owed| (cm, ch, cl, owed)))
}

/// Of these codes beside the others of the fields. Where CL = 2 packing would refuse it, so CU is turned afterwards.
fn return_word(mut fields: Fields, (cm, ch, cl, _): Place, address: u32) -> u64 {
    let cu = if cl == 2 { 0 } else { 3 };
    for (name, code) in [("CM", cm), ("CH", ch), ("CL", cl), ("CU", cu)] {
        fields[index_of(name)] = code;
    }
    let word = packed(&with_right_pk(fields), address);
    if cl == 2 {
        word ^ BOTH_OF_CU
    } else {
        word
    }
}

/// One cycle of a return word at a drawn address of the store.
fn return_at(reading: Reading, course: &mut Course, store: &mut [u64], place: Place, counts: &mut Counts) {
    let [a, b, c, e, f] = std::array::from_fn(|_| course.random.next());
    let wx = (f % 4096) as u16;
    store[usize::from(wx)] = return_word(modelled(reading, a, b), place, u32::from(wx));
    let mut state = State { owed: place.3, ..drawn_state(c, e, wx) };
    let answer = cycle(reading, store, &mut course.main, &mut course.local, &mut state);
    course.mix(counts.count_with(of_cycle(answer)));
    course.mix_state(&state);
}

fn return_words(course: &mut Course) -> String {
    let (mut store, mut counts, mut text) = (vec![0; 4096], Counts::new(), String::new());
    for round in 1..=8 {
        // The first round is in basic, and they take turns.
        let reading = reading_of(round - 1);
        for place in places() {
            return_at(reading, course, &mut store, place, &mut counts);
        }
        course.mix_storages();
        text += &digest_line(round * places().count() as u64, course.digest);
    }
    text += &counts.line("ran", RAN);
    text + &[8, 10, 11].map(|number| counts.refused(number)).concat()
}

// ---- runs broken into

/// Of the runs, of the traps after them, of traps that a run closed, and of cycles.
struct Broken {
    endings: Counts,
    traps: Counts,
    closed: u32,
    cycles: u64,
}

impl Broken {
    fn report(&self) -> String {
        let Broken { endings, traps: called, closed, cycles } = self;
        let refused: u32 = endings.0[..RAN].iter().sum();
        let ended = endings.line("stopped", STOPPED) + &endings.line("spent", SPENT) + &format!("refused {refused}\n");
        ended + &traps(called) + &format!("closed {closed}\ncycles {cycles}\n")
    }
}

/// A run of less than 64 cycles, and then a trap.
fn piece(reading: Reading, course: &mut Course, store: &[u64], state: &mut State, broken: &mut Broken) {
    let x = course.random.next();
    let owed = state.owed;
    let (ending, count) = run(reading, store, &mut course.main, &mut course.local, state, x % 64);
    course.mix(broken.endings.count_with(of_run(ending)));
    course.mix(count);
    course.mix_state(state);
    broken.closed += u32::from(owed && !state.owed);
    broken.cycles += count;
    let y = x / 64;
    let past = if y.is_multiple_of(16) { 4096 } else { 0 };
    course.trap(state, past + (y / 16 % 4096) as u32, &mut broken.traps);
}

fn broken_run(course: &mut Course, broken: &mut Broken) {
    let [a, c, e] = std::array::from_fn(|_| course.random.next());
    let (reading, rate) = (reading_of(a >> 44), RATES[usize::from(bits(a, 18, 3))]);
    let mut state = State { owed: false, ..drawn_state(c, e, u16::from(bits(a, 32, 8))) };
    let store: Vec<u64> = (0..4096).map(|at| store_word(reading, &mut course.random, rate, at)).collect();
    for _ in 0..6 {
        piece(reading, course, &store, &mut state, broken);
    }
    course.mix_storages();
}

fn broken_runs(course: &mut Course) -> String {
    let mut broken = Broken { endings: Counts::new(), traps: Counts::new(), closed: 0, cycles: 0 };
    let mut text = String::new();
    for k in 1..=200 {
        broken_run(course, &mut broken);
        if k % 50 == 0 {
            text += &digest_line(k, course.digest);
        }
    }
    text + &broken.report()
}

pub fn text() -> String {
    let (main, local) = (drawn_bytes(41, 65536), drawn_bytes(43, 256));
    let mut course = Course { random: Random::new(37), digest: 6, main, local };
    calls(&mut course) + &return_words(&mut course) + &broken_runs(&mut course)
}
