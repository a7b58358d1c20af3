//! The panel as other programs drive it, through include/panel.h and each board's library, beside the second engine's calls:
//! what each call answers, and every byte that it was lent, on good and wrong input and on rooms one short.

#[path = "../../second/tests/common/mod.rs"]
mod common;

use common::fences::{
    self, board_at, draw_fences, draw_seated, fence, in_fence, in_the_gap, in_the_others, main_address, opens_by_bytes,
    reading_at, refused, sizes_fit, writes, writing_at, Order, Session, Summed, EDGES, JUST_FIT, MAIN_BY, MAX,
    NOT_WITHIN, OPENINGS, ORDERS, READS, RIGHT, SESSIONS, SUMS, TURNS_TAKEN, WITHIN, WRONG, WRONG_SIZES,
};
use common::{
    any_word, bench_of, chosen_numbers, each_occurs, lent, lent_of, lent_to_go_on, one_of, Bench, Kind, Lent, LEAST,
    MOST, PA_BIT, PC_BIT, PN_BIT, PS_BIT, SEVEN,
};
use programs::{folder, lesson, root, run, Said};
use second::deck::{block_check, write_deck, BLOCK, LONGEST};
use second::panel::{self, BAD_DIGIT, RAN, REFUSED, SPENT, STATE, STOPPED, SUMMED};
use second::random::Random;
use second::session::Fence;
use second::shipped::{APSP, BAD_AT, DONE_AT, SHIPPED, SUMMED_AT};
use second::state::LATCHES;
use second::word::{build, index_of, named, pack, split, with_right_pk, Fields, CA, CK, CL, CM, CU, GIVEN, LAYOUT};
use std::collections::BTreeSet;
use std::path::PathBuf;
use std::process::Command;
use std::sync::LazyLock;

/// A shipped program: the decimal add, or AP and SP.
#[derive(Clone, Copy, Debug)]
enum Program {
    Add,
    Signed,
}

const PROGRAMS: [Program; 2] = [Program::Add, Program::Signed];

impl Program {
    /// What the program does where the last byte of its start is this, "off at 0, on otherwise".
    fn operation(self, on: u8) -> Operation {
        match self {
            Program::Add => Operation::Add { carry: on },
            Program::Signed if on == 0 => Operation::AddSigned,
            Program::Signed => Operation::SubSigned,
        }
    }

    fn words(self) -> &'static [u64] {
        match self {
            Program::Add => &SHIPPED,
            Program::Signed => &APSP,
        }
    }

    /// The word at which a run that summed stops, and those of a bad digit or sign.
    fn stops(self) -> (u16, &'static [u16]) {
        match self {
            Program::Add => (SUMMED_AT, &BAD_AT[..2]),
            Program::Signed => (DONE_AT, &BAD_AT),
        }
    }

    fn start(self, first: u16, second: u16, length: u8, on: u8, state: &mut [u8]) -> u64 {
        match self {
            Program::Add => panel::start(first, second, length, on, state),
            Program::Signed => panel::start_signed(first, second, length, on, state),
        }
    }

    fn shipped(self, words: &mut [u64]) -> u64 {
        match self {
            Program::Add => panel::shipped(words),
            Program::Signed => panel::shipped_signed(words),
        }
    }
}

/// What is done with two fields: added with a carry, in a fence or without, or added or subtracted with signs.
#[derive(Clone, Copy, Debug)]
enum Operation {
    Add { carry: u8 },
    AddIn { carry: u8, within: Fence },
    AddSigned,
    SubSigned,
}

impl Operation {
    fn make(self, main: &mut [u8], local: &mut [u8], first: usize, second: usize, length: usize) -> u64 {
        match self {
            Operation::Add { carry } => panel::add(main, local, first, second, length, carry),
            Operation::AddIn { carry, within } => {
                panel::add_in(main, local, first, second, length, carry, ends_of(&within))
            }
            Operation::AddSigned => panel::add_signed(main, local, first, second, length),
            Operation::SubSigned => panel::sub_signed(main, local, first, second, length),
        }
    }
}

/// A call with all it is lent.
#[derive(Clone, Debug)]
enum Call {
    TakeApart { word: u64, address: u32, fields: Vec<u8> },
    Pack { fields: Vec<u8>, address: u32, word: Vec<u64> },
    Cycle { reading: u8, store: Vec<u64>, main: Vec<u8>, local: Vec<u8>, state: Vec<u8> },
    Run { reading: u8, store: Vec<u64>, main: Vec<u8>, local: Vec<u8>, state: Vec<u8>, budget: u32 },
    Sum { operation: Operation, main: Vec<u8>, local: Vec<u8>, first: usize, second: usize, length: usize },
    ReadDeck { deck: Vec<u8>, words: Vec<u64> },
    WriteDeck { words: Vec<u64>, deck: Vec<u8> },
    NextSum { store: Vec<u64>, state: Vec<u8>, work: Vec<u8> },
    Start { program: Program, first: u16, second: u16, length: u8, on: u8, state: Vec<u8> },
    Shipped { program: Program, words: Vec<u64> },
    ReadSigned { field: Vec<u8>, room: Vec<i64> },
    WriteSigned { number: i64, field: Vec<u8> },
    Trap { address: u32, state: Vec<u8> },
    Open { main_len: usize, fences: [Fence; 2] },
    Turn { reading: u8, store: Vec<u64>, main: Vec<u8>, local: Vec<u8>, state: Vec<u8>, fences: [Fence; 2] },
}

/// As the header has them, one after the other.
fn ends_of(fence: &Fence) -> [usize; 2] {
    [fence.start, fence.end]
}

/// The same bits.
fn unsigned(numbers: &[i64]) -> Vec<u64> {
    numbers.iter().map(|number| *number as u64).collect()
}

/// What driver.c reads and writes.
#[derive(Default)]
struct Message(Vec<u8>);

impl Message {
    fn number(mut self, number: u64) -> Message {
        self.0.extend(number.to_le_bytes());
        self
    }

    fn numbers(self, numbers: impl IntoIterator<Item = u64>) -> Message {
        numbers.into_iter().fold(self, Message::number)
    }

    fn fences(self, fences: &[Fence]) -> Message {
        self.numbers(fences.iter().flat_map(ends_of).map(|end| end as u64))
    }

    fn elements(mut self, bytes: &[u8]) -> Message {
        self.0.extend(bytes);
        self
    }

    fn wide(mut self, words: &[u64]) -> Message {
        self.0.extend(words.iter().flat_map(|word| word.to_le_bytes()));
        self
    }

    fn bytes(self, bytes: &[u8]) -> Message {
        self.number(bytes.len() as u64).elements(bytes)
    }

    fn words(self, words: &[u64]) -> Message {
        self.number(words.len() as u64).wide(words)
    }
}

impl Call {
    /// The call as the driver reads it: its number, and its arguments in order.
    fn asked(&self) -> Vec<u8> {
        let called = |number: u8| Message(vec![number]);
        match self {
            Call::TakeApart { word, address, fields } => {
                called(0).number(*word).number((*address).into()).bytes(fields)
            }
            Call::Pack { fields, address, word } => called(1).bytes(fields).number((*address).into()).words(word),
            Call::Cycle { reading, store, main, local, state } => {
                called(2).number((*reading).into()).words(store).bytes(main).bytes(local).bytes(state)
            }
            Call::Run { reading, store, main, local, state, budget } => {
                let lent = called(3).number((*reading).into()).words(store).bytes(main).bytes(local).bytes(state);
                lent.number((*budget).into())
            }
            Call::Sum { operation, main, local, first, second, length } => {
                let (number, carry, within) = match operation {
                    Operation::Add { carry } => (4, Some(*carry), None),
                    Operation::AddIn { carry, within } => (19, Some(*carry), Some(*within)),
                    Operation::AddSigned => (14, None, None),
                    Operation::SubSigned => (15, None, None),
                };
                let places = [first, second, length].map(|place| *place as u64);
                let lent = called(number).bytes(main).bytes(local).numbers(places);
                lent.numbers(carry.map(u64::from)).fences(within.as_slice())
            }
            Call::ReadDeck { deck, words } => called(5).bytes(deck).words(words),
            Call::WriteDeck { words, deck } => called(6).words(words).bytes(deck),
            Call::NextSum { store, state, work } => called(7).words(store).bytes(state).bytes(work),
            Call::Start { program, first, second, length, on, state } => {
                let number = match program {
                    Program::Add => 8,
                    Program::Signed => 12,
                };
                let places = [first, second].map(|place| u64::from(*place));
                called(number).numbers(places).numbers([length, on].map(|byte| u64::from(*byte))).bytes(state)
            }
            Call::Shipped { program: Program::Add, words } => called(9).words(words),
            Call::Shipped { program: Program::Signed, words } => called(13).words(words),
            Call::ReadSigned { field, room } => called(10).bytes(field).words(&unsigned(room)),
            Call::WriteSigned { number, field } => called(11).number(*number as u64).bytes(field),
            Call::Trap { address, state } => called(16).number((*address).into()).bytes(state),
            Call::Open { main_len, fences } => called(17).number(*main_len as u64).fences(fences),
            Call::Turn { reading, store, main, local, state, fences } => {
                let lent = called(18).number((*reading).into()).words(store).bytes(main).bytes(local).bytes(state);
                lent.fences(fences)
            }
        }
        .0
    }

    /// What the second engine answers. All that is lent is then as it leaves it.
    fn make(&mut self) -> u64 {
        match self {
            Call::TakeApart { word, address, fields } => panel::take_apart(*word, *address, fields),
            Call::Pack { fields, address, word } => panel::pack(fields, *address, word),
            Call::Cycle { reading, store, main, local, state } => panel::one_cycle(*reading, store, main, local, state),
            Call::Run { reading, store, main, local, state, budget } => {
                panel::run_for(*reading, store, main, local, state, *budget)
            }
            Call::Sum { operation, main, local, first, second, length } => {
                operation.make(main, local, *first, *second, *length)
            }
            Call::ReadDeck { deck, words } => panel::read_deck(deck, words),
            Call::WriteDeck { words, deck } => panel::write_deck(words, deck),
            Call::NextSum { store, state, work } => panel::next_sum(store, state, work),
            Call::Start { program, first, second, length, on, state } => {
                program.start(*first, *second, *length, *on, state)
            }
            Call::Shipped { program, words } => program.shipped(words),
            Call::ReadSigned { field, room } => panel::read_signed(field, room),
            Call::WriteSigned { number, field } => panel::write_signed(*number, field),
            Call::Trap { address, state } => panel::trap(*address, state),
            Call::Open { main_len, fences: [a, b] } => panel::open(*main_len, ends_of(a), ends_of(b)),
            Call::Turn { reading, store, main, local, state, fences: [own, other] } => {
                panel::turn(*reading, store, main, local, state, ends_of(own), ends_of(other))
            }
        }
    }

    /// An answer, and all that is lent as it stands: what the driver writes.
    fn told(&self, answer: u64) -> Vec<u8> {
        let message = Message::default().number(answer);
        match self {
            Call::TakeApart { fields, .. } => message.elements(fields),
            Call::Pack { fields, word, .. } => message.elements(fields).wide(word),
            Call::Cycle { store, main, local, state, .. }
            | Call::Run { store, main, local, state, .. }
            | Call::Turn { store, main, local, state, .. } => {
                message.wide(store).elements(main).elements(local).elements(state)
            }
            Call::Sum { main, local, .. } => message.elements(main).elements(local),
            Call::ReadDeck { deck, words } => message.elements(deck).wide(words),
            Call::WriteDeck { words, deck } => message.wide(words).elements(deck),
            Call::NextSum { store, state, work } => message.wide(store).elements(state).elements(work),
            Call::Start { state, .. } | Call::Trap { state, .. } => message.elements(state),
            Call::Shipped { words, .. } => message.wide(words),
            Call::ReadSigned { field, room } => message.elements(field).wide(&unsigned(room)),
            Call::WriteSigned { field, .. } => message.elements(field),
            Call::Open { .. } => message,
        }
        .0
    }

    /// Whether the answer is a refusal, or another that leaves everything as it was.
    fn changes_nothing(&self, answer: u64) -> bool {
        match self {
            Call::TakeApart { .. } | Call::Pack { .. } | Call::NextSum { .. } | Call::Start { .. } => answer != 0,
            Call::ReadSigned { .. } | Call::WriteSigned { .. } | Call::Trap { .. } | Call::Open { .. } => answer != 0,
            Call::Cycle { .. } | Call::Turn { .. } => answer & 0xFF != 0,
            Call::Run { .. } => answer >> 32 == 0,
            Call::Sum { .. } => answer & 0xFF != SUMMED,
            Call::ReadDeck { .. } | Call::WriteDeck { .. } | Call::Shipped { .. } => answer >> 16 != 0,
        }
    }
}

/// The driver of each board's library, built once.
static DRIVERS: LazyLock<[PathBuf; 2]> = LazyLock::new(|| {
    ["small", "large"].map(|board| {
        let program = folder(&format!("panel_{board}")).join("driver");
        let source = root().join("tests/programs/driver.c");
        let built = run(Command::new(root().join("tools/host")).arg(board).arg(&program).arg(source), &[]);
        assert_eq!(built.status, Some(0), "{}", built.err);
        program
    })
});

/// Every call is answered by both boards' libraries as the second engine answers it, and a refusal changes no lent byte. Gives
/// the answers, and the calls with all that was lent as it is left.
fn made(calls: &[Call]) -> Vec<(u64, Call)> {
    let asked: Vec<u8> = calls.iter().flat_map(Call::asked).collect();
    let [small, large] =
        DRIVERS.each_ref().map(|driver| run(Command::new(root().join("tools/x86")).arg(driver), &asked));
    assert!(small == large, "the two boards' libraries differ");
    let Said { out, err, status } = small;
    let mut rest = out.as_slice();
    let mut made = Vec::new();
    for (place, call) in calls.iter().enumerate() {
        let mut after = call.clone();
        let answer = after.make();
        let expected = after.told(answer);
        let (got, others) = rest.split_at(expected.len().min(rest.len()));
        assert!(got == expected, "{}", difference(place, call, got, &expected));
        assert!(
            !call.changes_nothing(answer) || got == call.told(answer),
            "call {place} is refused, and changes {call:?}"
        );
        rest = others;
        made.push((answer, after));
    }
    assert_eq!((rest.len(), status), (0, Some(0)), "{err}");
    made
}

/// The answers alone.
fn agree(calls: &[Call]) -> Vec<u64> {
    made(calls).into_iter().map(|(answer, _)| answer).collect()
}

fn difference(place: usize, call: &Call, got: &[u8], expected: &[u8]) -> String {
    let at = got.iter().zip(expected).take_while(|(one, other)| one == other).count();
    format!("call {place} differs at byte {at}: {:?} for {:?} of {call:?}", got.get(at), expected.get(at))
}

/// The refusal numbers among the answers of calls whose number stands from bit `at` on.
fn refusals(answers: &[u64], at: u32) -> BTreeSet<u64> {
    answers.iter().map(|answer| answer >> at & 0xFF).filter(|number| *number != 0).collect()
}

fn bytes(random: &mut Random, count: usize) -> Vec<u8> {
    common::draw_bytes(random, count)
}

const ADDRESSES: [u32; 6] = [0, 1, 2047, 4095, 4096, u32::MAX];

#[test]
fn words_are_taken_apart() {
    let random = &mut Random::new(71);
    let calls: Vec<Call> = (0..6000)
        .map(|_| {
            let address = one_of(random, &ADDRESSES);
            let room = one_of(random, &[0, 17, 18, 18, 18, 18, 18, 19, 40]);
            Call::TakeApart { word: any_word(random, address), address, fields: bytes(random, room) }
        })
        .collect();
    let answers = agree(&calls);
    assert_eq!(refusals(&answers, 0), BTreeSet::from([3, 4, 5, 6, 7, 8, 9, 19, 20]));
    assert!(answers.contains(&0));
}

/// Fields in their widths, but that one may be one beyond.
fn any_fields(random: &mut Random) -> Fields {
    let mut fields: Fields = GIVEN.map(|place| random.below(1 << LAYOUT[place].1) as u8);
    if random.below(8) == 0 {
        let which = random.below(18) as usize;
        fields[which] = one_of(random, &[1 << LAYOUT[GIVEN[which]].1, 255]);
    }
    fields
}

#[test]
fn words_are_packed() {
    let random = &mut Random::new(73);
    let calls: Vec<Call> = (0..6000)
        .map(|_| {
            let mut fields = any_fields(random).to_vec();
            fields.resize(one_of(random, &[0, 17, 18, 18, 18, 18, 18, 19, 40]), 0xEE);
            let room = one_of(random, &[0, 1, 1, 1, 1, 2]);
            let word = (0..room).map(|_| random.next()).collect();
            Call::Pack { fields, address: one_of(random, &ADDRESSES), word }
        })
        .collect();
    let answers = agree(&calls);
    assert_eq!(refusals(&answers, 0), BTreeSet::from([8, 9, 19, 20]));
    assert!(answers.contains(&0));
}

/// enum panel_reading.
const BASIC: u8 = 0;
const COMPATIBILITY: u8 = 1;

/// "Any other value than 0 is compatibility."
const COMPATIBLE: [u8; 4] = [COMPATIBILITY, 2, 128, 255];

/// Readings to draw from.
const READINGS: [u8; 8] = [BASIC, BASIC, BASIC, BASIC, COMPATIBILITY, 2, 128, 255];

fn cycle_of(reading: u8, case: &Lent) -> Call {
    let Lent { store, main, local, state } = case.clone();
    Call::Cycle { reading, store, main, local, state }
}

fn run_of(reading: u8, case: &Lent, budget: u32) -> Call {
    let Lent { store, main, local, state } = case.clone();
    Call::Run { reading, store, main, local, state, budget }
}

/// The first of the fences is the board's own, and the second the other's.
fn turn_of(reading: u8, case: &Lent, fences: [Fence; 2]) -> Call {
    let Lent { store, main, local, state } = case.clone();
    Call::Turn { reading, store, main, local, state, fences }
}

/// What a cycle, a turn or a run was lent.
fn lent_to(call: Call) -> Lent {
    match call {
        Call::Cycle { store, main, local, state, .. }
        | Call::Run { store, main, local, state, .. }
        | Call::Turn { store, main, local, state, .. } => Lent { store, main, local, state },
        other => panic!("no state is lent to {other:?}"),
    }
}

/// A run that no word ends.
fn endless() -> Lent {
    lent_of(Bench::endless())
}

/// One word in so many gets one of these codes.
fn put_codes(random: &mut Random, one_in: u64, store: &mut [u64], codes: common::Codes) {
    for (address, word) in (0..4096).cycle().zip(store) {
        if random.below(one_in) == 0 {
            *word = common::with_code(*word, address, one_of(random, codes));
        }
    }
}

/// A reading, and a case in whose store one word in three has one of the codes that the readings tell apart.
fn draw_read(random: &mut Random, stray: u64) -> (u8, Lent) {
    let mut case = lent(random, stray);
    put_codes(random, 3, &mut case.store, &SEVEN);
    (one_of(random, &READINGS), case)
}

/// The same for a run that goes on: one word in three has a code of the seven that the reading models, and none another.
fn draw_read_to_go_on(random: &mut Random) -> (u8, Lent) {
    let (reading, mut case) = (one_of(random, &READINGS), lent_to_go_on(random));
    if reading == BASIC {
        put_codes(random, 3, &mut case.store, &[("CH", 3), ("CH", 8), ("CL", 6)]);
    } else {
        case.store = common::in_compatibility(random, Bench { store: case.store, ..Bench::new(0) }).store;
    }
    (reading, case)
}

/// The word that a cycle or a run begins with, where there is one.
fn next_word(store: &[u64], state: &[u8]) -> Option<u64> {
    let wx = u16::from_be_bytes([*state.get(13)?, *state.get(14)?]);
    store.get(usize::from(wx)).copied()
}

/// Each of the seven codes is met under each reading, by words that ran or that 10 refused.
fn meets_each_code(calls: &[Call], answers: &[u64]) {
    for code in SEVEN {
        let mut met = [0; 2];
        for (call, answer) in calls.iter().zip(answers) {
            let Call::Cycle { reading, store, state, .. } = call else { unreachable!() };
            let has = next_word(store, state).is_some_and(|word| common::has_code(word, code));
            met[usize::from(*reading != BASIC)] += usize::from(has && (*answer == RAN || is_refused(*answer, 10)));
        }
        assert!(met[0] > 50 && met[1] > 50, "{code:?} {met:?}");
    }
}

#[test]
fn single_cycles() {
    let random = &mut Random::new(79);
    let draw = |_| {
        let (reading, case) = draw_read(random, 3);
        cycle_of(reading, &case)
    };
    let calls: Vec<Call> = (0..12_000).map(draw).collect();
    let answers = agree(&calls);
    meets_each_code(&calls, &answers);
    assert_eq!(refusals(&answers, 8), BTreeSet::from([1, 2, 3, 4, 5, 6, 7, 8, 9, 10, 11, 19]));
    let kinds: BTreeSet<u64> = answers.iter().map(|answer| answer & 0xFF).collect();
    assert_eq!(kinds, BTreeSet::from([0, 1, 2]));
    let fields: BTreeSet<u64> = answers.iter().map(|answer| answer >> 16).collect();
    assert_eq!(fields, BTreeSet::from([0, 4, 5, 6, 7, 8, 9, 12, 15, 20, 21]));
}

#[test]
fn runs() {
    let random = &mut Random::new(83);
    let budgets = [0, 1, 2, 10, 100, 1000, 1_000_001, u32::MAX];
    let draw = |_| {
        let (reading, case) = draw_read(random, 100);
        run_of(reading, &case, one_of(random, &budgets))
    };
    let mut calls: Vec<Call> = (0..4000).map(draw).collect();
    for budget in [0, 1, 999_999, 1_000_000, 1_000_001] {
        calls.extend([BASIC, COMPATIBILITY].map(|reading| run_of(reading, &endless(), budget)));
    }
    let answers = agree(&calls);
    assert!(refusals(&answers, 8).is_superset(&BTreeSet::from([1, 2, 10, 11, 19, 22])));
    let kinds: BTreeSet<u64> = answers.iter().map(|answer| answer & 0xFF).collect();
    assert_eq!(kinds, BTreeSet::from([1, 2, 3]));
    assert!(answers.contains(&(1_000_000 << 32 | 3)), "the longest run");
}

/// The record that a call is lent.
fn record_lent(call: &Call) -> &[u8] {
    match call {
        Call::Cycle { state, .. } | Call::Run { state, .. } | Call::Turn { state, .. } => state,
        Call::Start { state, .. } | Call::Trap { state, .. } => state,
        other => panic!("no state is lent to {other:?}"),
    }
}

/// A cycle, a turn, a run, a trap and a start write the record, and leave what is lent past it.
#[test]
fn bytes_past_the_record_are_left() {
    for (past, reading) in [(1, BASIC), (2, COMPATIBILITY), (40, 255)] {
        let mut case = endless();
        case.state.resize(STATE + past, 0xEE);
        let starts = PROGRAMS.map(|program| {
            let state = case.state.clone();
            Call::Start { program, first: 1, second: 2, length: 3, on: 1, state }
        });
        let trap = Call::Trap { address: 1, state: case.state.clone() };
        let steps = [cycle_of(reading, &case), turn_of(reading, &case, RIGHT), run_of(reading, &case, 9), trap];
        for (_, call) in made(&[&steps, &starts[..]].concat()) {
            let (written, left) = record_lent(&call).split_at(STATE);
            assert_ne!(written, &case.state[..STATE], "{call:?}");
            assert_eq!(left, vec![0xEE; past], "{call:?}");
        }
    }
}

/// Of any readings, sizes and words, and one in `some` such that its run goes on.
fn draw_cases(random: &mut Random, some: usize) -> Vec<(u8, Lent)> {
    (0..1600).map(|place| if place % some == 0 { draw_read_to_go_on(random) } else { draw_read(random, 30) }).collect()
}

/// A run of each: what it answers, and what it leaves.
fn run_each<'a>(cases: impl Iterator<Item = (u8, &'a Lent, u32)>) -> Vec<(u64, Lent)> {
    let calls: Vec<Call> = cases.map(|(reading, case, budget)| run_of(reading, case, budget)).collect();
    made(&calls).into_iter().map(|(answer, call)| (answer, lent_to(call))).collect()
}

/// A case whose single-cycle button is pressed.
struct Pressed {
    reading: u8,
    found: Lent,
    presses: usize,
    /// As the last press left it, or as it was found.
    now: Lent,
    answers: Vec<u64>,
}

/// A press for each that has one to come, on what the press before has left.
fn press(cases: &mut [Pressed]) {
    let pressed: Vec<&mut Pressed> = cases.iter_mut().filter(|case| case.answers.len() < case.presses).collect();
    let calls: Vec<Call> = pressed.iter().map(|case| cycle_of(case.reading, &case.now)).collect();
    for (case, (answer, call)) in pressed.into_iter().zip(made(&calls)) {
        case.now = lent_to(call);
        case.answers.push(answer);
    }
}

const MOST_PRESSES: usize = 36;

/// Each case pressed as often as is drawn.
fn press_all(random: &mut Random, found: Vec<(u8, Lent)>) -> Vec<Pressed> {
    let begun = |(reading, found): (u8, Lent)| {
        let presses = random.below(MOST_PRESSES as u64 + 1) as usize;
        Pressed { reading, now: found.clone(), found, presses, answers: Vec::new() }
    };
    let mut cases: Vec<Pressed> = found.into_iter().map(begun).collect();
    for _ in 0..MOST_PRESSES {
        press(&mut cases);
    }
    cases
}

/// The kind, the refusal's number and its field.
fn ending(answer: u64) -> u64 {
    answer & 0xFFFF_FFFF
}

fn cycles(answer: u64) -> u64 {
    answer >> 32
}

/// What one run of as many cycles answered and left is what the presses did.
fn are_a_run(case: &Pressed, answer: u64, left: &Lent) {
    assert_eq!(case.answers.len(), case.presses);
    assert!(*left == case.now, "the run leaves other bytes than the presses, which answered {:X?}", case.answers);
    assert_eq!(cycles(answer), case.answers.iter().filter(|answer| **answer == RAN).count() as u64);
    if let Some(&last) = case.answers.last() {
        assert_eq!(ending(answer), if last == RAN { SPENT } else { last });
    }
}

/// Refused by this number.
fn is_refused(answer: u64, number: u64) -> bool {
    answer & 0xFFFF == refused(number)
}

/// A latch byte of the record is neither 0 nor 1.
fn has_odd_latch(case: &Lent) -> bool {
    case.state.len() >= STATE && LATCHES.iter().any(|latch| case.state[*latch] > 1)
}

/// By the case, and what its run answered.
const BUTTONS: [Kind<(Pressed, u64)>; 13] = [
    ("no press", |(case, _)| case.presses == 0),
    ("all ran in basic", |(case, run)| case.reading == BASIC && ending(*run) == SPENT && cycles(*run) > 9),
    ("all ran in compatibility", |(case, run)| case.reading != BASIC && ending(*run) == SPENT && cycles(*run) > 9),
    ("stopped at once", |(_, run)| *run == STOPPED),
    ("stopped later", |(_, run)| ending(*run) == STOPPED && cycles(*run) > 0),
    ("refused by 1", |(case, run)| is_refused(*run, 1) && case.presses > 0),
    ("refused by 19", |(case, run)| is_refused(*run, 19) && case.presses > 0),
    ("refused at once by 10", |(_, run)| is_refused(*run, 10) && cycles(*run) == 0),
    ("refused later by 10", |(case, run)| case.reading == BASIC && is_refused(*run, 10) && cycles(*run) > 0),
    ("the same in compatibility", |(case, run)| case.reading != BASIC && is_refused(*run, 10) && cycles(*run) > 0),
    ("refused later by 11", |(_, run)| is_refused(*run, 11) && cycles(*run) > 0),
    ("an odd latch, and cycles ran", |(case, run)| has_odd_latch(&case.found) && cycles(*run) > 0),
    ("an odd latch, and none ran", |(case, run)| has_odd_latch(&case.found) && cycles(*run) == 0),
];

#[test]
fn buttons() {
    let random = &mut Random::new(137);
    let found = draw_cases(random, 8);
    let cases = press_all(random, found);
    let runs = run_each(cases.iter().map(|case| (case.reading, &case.found, case.presses as u32)));
    for (case, (answer, left)) in cases.iter().zip(&runs) {
        are_a_run(case, *answer, left);
    }
    let answers = runs.into_iter().map(|(answer, _)| answer);
    each_occurs(&BUTTONS, &cases.into_iter().zip(answers).collect::<Vec<_>>());
}

/// Two runs, the second on what the first left: their budgets, and what they answered.
struct Division {
    budgets: [u32; 2],
    answers: [u64; 2],
}

fn is_refused_later(answer: u64) -> bool {
    answer & 0xFF == REFUSED && cycles(answer) > 0
}

const DIVISIONS: [Kind<Division>; 12] = [
    ("both are spent", |case| case.answers.iter().all(|run| ending(*run) == SPENT && cycles(*run) > 0)),
    ("the first stops at once", |case| case.answers[0] == STOPPED),
    ("the first stops later", |case| ending(case.answers[0]) == STOPPED && cycles(case.answers[0]) > 0),
    ("the second stops later", |case| ending(case.answers[1]) == STOPPED && cycles(case.answers[1]) > 0),
    ("the first is refused by 1", |case| is_refused(case.answers[0], 1)),
    ("the first is refused by 19", |case| is_refused(case.answers[0], 19)),
    ("the first is refused at once by 10", |case| is_refused(case.answers[0], 10) && cycles(case.answers[0]) == 0),
    ("the first is refused later", |case| is_refused_later(case.answers[0])),
    ("a later refusal is met again", |case| is_refused_later(case.answers[0]) && case.budgets[1] > 0),
    ("the second is refused later", |case| is_refused_later(case.answers[1])),
    ("the first is of 0", |case| case.budgets[0] == 0 && cycles(case.answers[1]) > 0),
    ("the second is of 0", |case| case.budgets[1] == 0 && cycles(case.answers[0]) > 0),
];

/// What the one run of both budgets answered and left is what the two did.
fn are_one_run(case: &Division, left: &Lent, answer: u64, whole: &Lent) {
    let Division { budgets, answers: [first, second] } = case;
    assert!(left == whole, "divided as {budgets:?}, other bytes are left");
    assert_eq!(cycles(answer), cycles(*first) + cycles(*second), "{budgets:?}");
    assert_eq!(ending(answer), ending(if budgets[1] == 0 { *first } else { *second }), "{budgets:?}");
}

#[test]
fn divided_runs() {
    let random = &mut Random::new(139);
    let mut cases: Vec<(u8, Lent, [u32; 2])> = draw_cases(random, 3)
        .into_iter()
        .map(|(reading, case)| (reading, case, common::draw_budgets(random)))
        .collect();
    cases.extend([0, 1, 999_999, 1_000_000].map(|cut| (one_of(random, &READINGS), endless(), [cut, 1_000_000 - cut])));
    let first = run_each(cases.iter().map(|(reading, case, budgets)| (*reading, case, budgets[0])));
    let again = first.iter().zip(&cases).map(|((_, left), (reading, _, budgets))| (*reading, left, budgets[1]));
    let second = run_each(again);
    let whole = run_each(cases.iter().map(|(reading, case, budgets)| (*reading, case, budgets[0] + budgets[1])));
    let mut divisions = Vec::new();
    for (place, (_, _, budgets)) in cases.into_iter().enumerate() {
        let division = Division { budgets, answers: [first[place].0, second[place].0] };
        are_one_run(&division, &second[place].1, whole[place].0, &whole[place].1);
        divisions.push(division);
    }
    each_occurs(&DIVISIONS, &divisions);
}

/// The codes of CH, CL and CS that are not modelled, in basic and in compatibility.
const NOT_MODELLED: [[&[u8]; 3]; 2] = [[&[4, 5], &[3, 4, 12, 15], &[5, 14, 15]], [&[3, 4, 5], &[3, 15], &[14]]];

/// Refused by 10, with this field.
fn no_code(field: u64) -> u64 {
    refused(10) + 65536 * field
}

/// A word and nothing else, with this record. There is a byte for each of two fences.
fn alone(word: u64, state: &[u8]) -> Lent {
    Lent { store: vec![word], main: vec![0; 2], local: vec![0; 256], state: state.to_vec() }
}

/// The fences of one byte each.
const SMALLEST: [Fence; 2] = [fence(0, 1), fence(1, 2)];

/// What a run of one cycle answers where the cycle answers this.
fn run_of_one(answer: u64) -> u64 {
    if answer == RAN {
        1 << 32 | SPENT
    } else {
        answer
    }
}

/// Every CH, CL and CS beside each other, from any record: 10 names the first that the reading does not model.
#[test]
fn refusal_10_follows_the_reading() {
    let random = &mut Random::new(179);
    let (mut calls, mut expected) = (Vec::new(), Vec::new());
    for case in 0..2 * 4096_u16 {
        let codes = [case % 16, case / 16 % 16, case / 256 % 16].map(|code| code as u8);
        let reading = if case < 4096 { BASIC } else { one_of(random, &COMPATIBLE) };
        let [ch, cl, cs] = codes;
        let word = build(0, &[("CH", ch), ("CL", cl), ("CM", 1), ("CA", 4), ("CS", cs)]).expect("a word");
        let mut state = bytes(random, STATE);
        state[13..15].fill(0);
        calls.push(cycle_of(reading, &alone(word, &state)));
        let fields = [4, 5, 20].into_iter().zip(NOT_MODELLED[usize::from(reading != BASIC)]);
        let first = fields.zip(codes).find(|((_, refused), code)| refused.contains(code));
        expected.push(first.map_or(RAN, |((field, _), _)| no_code(field)));
    }
    assert_eq!(agree(&calls), expected);
}

/// What a reading makes of one of the seven codes.
#[derive(Clone, Copy, Debug)]
enum Meaning {
    NotModelled,
    /// Whether V6 and V7 are both 0.
    NoV67,
    /// Whether a bit of a byte of the record is 1; a latch is on at any value but 0.
    Lit(usize, u8),
    TurnsS1(bool),
}

/// Request 7: each code, the number of its field, and what basic and compatibility make of it.
const MEANINGS: [(&str, u8, u64, [Meaning; 2]); 7] = [
    ("CH", 3, 4, [Meaning::NoV67, Meaning::NotModelled]),
    ("CH", 8, 4, [Meaning::Lit(8, 0x40), Meaning::Lit(7, 0x20)]),
    ("CL", 4, 5, [Meaning::NotModelled, Meaning::Lit(9, 0x40)]),
    ("CL", 6, 5, [Meaning::Lit(16, 0xFF), Meaning::Lit(7, 0x40)]),
    ("CL", 12, 5, [Meaning::NotModelled, Meaning::Lit(7, 0x10)]),
    ("CS", 5, 20, [Meaning::NotModelled, Meaning::TurnsS1(true)]),
    ("CS", 15, 20, [Meaning::NotModelled, Meaning::TurnsS1(false)]),
];

/// What a cycle answers of a word with this code and no work, and then the low byte of WX, and S. An arriving byte is in R
/// before R is tested.
fn by_hand(name: &str, field: u64, meaning: Meaning, record: &[u8]) -> (u64, u8, u8) {
    let x = |on: bool| u8::from(on) << u8::from(name == "CH");
    let tested = |place: usize| record[if place == 7 && record[20] != 0 { 21 } else { place }];
    let s = record[8];
    match meaning {
        Meaning::NotModelled => (no_code(field), 0, s),
        Meaning::NoV67 => (RAN, x(record[3] & 3 == 0), s),
        Meaning::Lit(place, bits) => (RAN, x(tested(place) & bits != 0), s),
        Meaning::TurnsS1(on) => (RAN, 0, s & 0xBF | u8::from(on) << 6),
    }
}

/// Records at word 0: one lamp is lit alone, one is dark alone with nothing arriving, and drawn ones.
fn records(random: &mut Random) -> Vec<Vec<u8>> {
    let mut records: Vec<Vec<u8>> = (0..200).map(|_| bytes(random, STATE)).collect();
    for (place, bit) in (0..STATE).flat_map(|place| (0..8).map(move |bit| (place, 1 << bit))) {
        let [mut lit, mut dark] = [vec![0; STATE], vec![0xFF; STATE]];
        lit[place] = bit;
        dark[place] = if LATCHES.contains(&place) { 0 } else { !bit };
        dark[20] = 0;
        records.extend([lit, dark]);
    }
    for record in &mut records {
        record[13..15].fill(0);
    }
    records
}

/// By one cycle, by a turn, and by a run of one: each of the seven codes tests or turns what request 7 says, and nothing else.
#[test]
fn the_seven_codes_by_hand() {
    let records = records(&mut Random::new(181));
    for (name, code, field, meanings) in MEANINGS {
        let word = build(0, &[("CM", 1), ("CA", 4), (name, code)]).expect("a word");
        for reading in [BASIC, COMPATIBILITY, 2, 128, 255] {
            let meaning = meanings[usize::from(reading != BASIC)];
            let cases: Vec<Lent> = records.iter().map(|record| alone(word, record)).collect();
            let cycles: Vec<Call> = cases.iter().map(|case| cycle_of(reading, case)).collect();
            let turns: Vec<Call> = cases.iter().map(|case| turn_of(reading, case, SMALLEST)).collect();
            let runs = run_each(cases.iter().map(|case| (reading, case, 1)));
            let cycled = made(&cycles).into_iter().zip(made(&turns));
            for ((record, ((answer, after), (turn, turned))), (run, left)) in records.iter().zip(cycled).zip(runs) {
                let what = format!("{name} {code} under {reading} from {record:02X?}");
                let state = record_lent(&after);
                assert_eq!((answer, state[14], state[8]), by_hand(name, field, meaning, record), "{what}");
                assert_eq!((turn, record_lent(&turned)), (answer, state), "{what}");
                assert_eq!((run, &left.state[..]), (run_of_one(answer), state), "{what}");
            }
        }
    }
}

/// R1 and G1 are on, and 1BC is off: CL 6 and CL 4 lead to 001 in compatibility alone.
#[test]
fn every_value_but_0_is_compatibility() {
    let mut record = [0; STATE];
    [record[7], record[9]] = [0x40; 2];
    for (cl, basic) in [(6, RAN), (4, no_code(5))] {
        let case = alone(build(0, &[("CL", cl), ("CM", 1), ("CA", 4)]).expect("a word"), &record);
        let cycles: Vec<Call> = (0..=255).map(|reading| cycle_of(reading, &case)).collect();
        let turns: Vec<Call> = (0..=255).map(|reading| turn_of(reading, &case, SMALLEST)).collect();
        let runs: Vec<Call> = (0..=255).map(|reading| run_of(reading, &case, 1)).collect();
        let cycled = made(&cycles).into_iter().zip(made(&turns));
        for (reading, (both, (run, ran))) in cycled.zip(made(&runs)).enumerate() {
            let expected = if reading == 0 { (basic, 0) } else { (RAN, 1) };
            for (answer, after) in [both.0, both.1] {
                assert_eq!((answer, record_lent(&after)[14]), expected, "CL {cl} under {reading}");
            }
            assert_eq!((run, record_lent(&ran)[14]), (run_of_one(expected.0), expected.1), "CL {cl} under {reading}");
        }
    }
}

/// A cycle in compatibility of a word with these codes, from these R and D, a byte that is arriving, and all else 0.
fn compatible(codes: common::Codes, [r, d]: [u8; 2], [arriving, byte]: [u8; 2]) -> Vec<u8> {
    let word = build(0, codes).expect("a word");
    let call = cycle_of(COMPATIBILITY, &alone(word, &record_of([0, r, d], [arriving, byte])));
    let (answer, after) = made(&[call]).remove(0);
    assert_eq!(answer, RAN, "{codes:?}");
    record_lent(&after).to_vec()
}

/// R2, R1 and R3 are tested with an arriving byte in R, which a Store drops.
#[test]
fn the_bits_of_r_are_those_of_the_arriving_byte() {
    for (name, code, bit, x) in [("CH", 8, 0x20, 2), ("CL", 6, 0x40, 1), ("CL", 12, 0x10, 1)] {
        for (cm, arrives) in [(0, true), (1, true), (2, false)] {
            for (r, byte, lit) in [(bit, !bit, !arrives), (!bit, bit, arrives)] {
                let left = compatible(&[("CM", cm), ("CA", 4), (name, code)], [r, 0], [1, byte]);
                assert_eq!(left[14], x * u8::from(lit), "{name} {code}, CM {cm}, R {r:02X}, arriving {byte:02X}");
            }
        }
    }
}

/// The result, R + D, goes to S; then S1 is turned; then S3 takes the new AC. Worked by hand.
#[test]
fn s1_is_turned_between_the_result_and_the_carry() {
    let plain = [("CM", 1), ("CA", 7), ("CB", 2), ("CD", 6), ("CF", 3), ("CG", 3), ("CC", 4)];
    for (sum, cs, s) in [
        ([0x80, 0x85], 5, 0x55),
        ([0x00, 0x00], 5, 0x40),
        ([0xFF, 0xFF], 5, 0xFE),
        ([0xFF, 0x00], 15, 0xAF),
        ([0xFF, 0x01], 15, 0x10),
        ([0x40, 0x00], 15, 0x00),
    ] {
        let left = compatible(&[&plain[..], &[("CS", cs)]].concat(), sum, [0, 0]);
        assert_eq!(left[8], s, "{sum:02X?}, CS {cs}");
    }
}

/// What one case answers and leaves under both readings.
type Both = [(u64, Lent); 2];

/// A run of each case under both readings; compatibility is any value but 0.
fn run_both(random: &mut Random, cases: &[(Lent, u32)]) -> Vec<Both> {
    let mut run = |readings: &[u8]| {
        let readings: Vec<u8> = cases.iter().map(|_| one_of(random, readings)).collect();
        run_each(readings.into_iter().zip(cases).map(|(reading, (case, budget))| (reading, case, *budget)))
    };
    let (basic, compatibility) = (run(&[BASIC]), run(&COMPATIBLE));
    basic.into_iter().zip(compatibility).map(Both::from).collect()
}

/// One word in eight stops, whatever its codes.
fn put_stops(random: &mut Random, store: &mut [u64]) {
    put_codes(random, 8, store, &[("CF", 4)]);
}

/// No word that 3 to 9 accept has one of the seven codes any more.
fn take_codes_out(store: &mut [u64]) {
    for (address, word) in (0..4096).cycle().zip(store) {
        for (name, code) in SEVEN {
            if common::has_code(*word, (name, code)) {
                *word = common::with_code(*word, address, (name, u8::from(name != "CS")));
            }
        }
    }
}

const SAME: [Kind<u64>; 5] = [
    ("spent", |run| ending(*run) == SPENT && cycles(*run) > 9),
    ("stopped", |run| ending(*run) == STOPPED),
    ("refused at once by 10", |run| is_refused(*run, 10) && cycles(*run) == 0),
    ("refused later by 10", |run| is_refused(*run, 10) && cycles(*run) > 0),
    ("refused by 11", |run| is_refused(*run, 11)),
];

/// "A store that uses none of these seven codes must run the same under both."
#[test]
fn a_store_with_none_of_the_seven_codes_runs_the_same() {
    let random = &mut Random::new(191);
    let found = draw_cases(random, 8);
    let draw = |(_, mut case): (u8, Lent)| {
        take_codes_out(&mut case.store);
        (case, one_of(random, &[1, 1, 30, 300]))
    };
    let cases: Vec<(Lent, u32)> = found.into_iter().map(draw).collect();
    let mut answers = Vec::new();
    for [(basic, left), (compatibility, other)] in run_both(random, &cases) {
        assert!(basic == compatibility && left == other, "{basic:X} and {compatibility:X}");
        answers.push(basic);
    }
    each_occurs(&SAME, &answers);
}

/// Sizes, WX, 3 to 9, a budget that is too large and a stop know no reading, and come before 10: what ends a run at once by
/// one of these does so under either. Else the two may part.
#[test]
fn a_reading_changes_no_other_refusal_and_no_stop() {
    let random = &mut Random::new(193);
    let draw = |_| {
        let (_, mut case) = draw_read(random, 3);
        put_stops(random, &mut case.store);
        (case, one_of(random, &[1, 1, 1, 1, 1, 1, 1, 1_000_001]))
    };
    let cases: Vec<(Lent, u32)> = (0..6000).map(draw).collect();
    let (mut ends, mut parted) = (BTreeSet::new(), 0);
    for [(basic, left), (compatibility, other)] in run_both(random, &cases) {
        for answer in [basic, compatibility] {
            let read = cycles(answer) > 0 || is_refused(answer, 10) || is_refused(answer, 11);
            if !read {
                assert_eq!((basic, &left), (compatibility, &other));
                ends.insert(answer);
            }
        }
        parted += usize::from(basic != compatibility || left != other);
    }
    let refused = [1, 2, 3, 4, 5, 6, 7, 8, 9, 19, 22].map(refused);
    assert_eq!(ends, refused.into_iter().chain([STOPPED]).collect());
    assert!(parted > 300, "{parted} runs part");
}

/// Bytes of good digits, of which one may be spoilt.
fn digits(random: &mut Random, count: usize) -> Vec<u8> {
    let high = one_of(random, &[10, 10, 1]);
    let mut bytes: Vec<u8> = (0..count).map(|_| (random.below(high) * 16 + random.below(high)) as u8).collect();
    if random.below(4) == 0 && count > 0 {
        let at = random.below(count as u64) as usize;
        bytes[at] = random.next() as u8;
    }
    bytes
}

/// The sign in the last place.
fn with_sign(mut field: Vec<u8>, sign: u8) -> Vec<u8> {
    if let Some(last) = field.last_mut() {
        *last = *last & 0xF0 | sign;
    }
    field
}

/// A sign mostly good.
fn draw_sign(random: &mut Random) -> u8 {
    if random.below(8) == 0 {
        random.below(16) as u8
    } else {
        10 + random.below(6) as u8
    }
}

/// Nothing, one, nines, or digits of which one may be over 9. The sign's place is not one of these.
fn draw_size(random: &mut Random, length: usize) -> Vec<u8> {
    match random.below(8) {
        0 => vec![0; length],
        1 => (1..=length).map(|place| if place == length { 0x10 } else { 0 }).collect(),
        2..=3 => vec![0x99; length],
        _ => digits(random, length),
    }
}

/// Two fields, of which the second may have the digits of the first, with signs where the operation wants them.
fn draw_pair(random: &mut Random, operation: Operation, length: usize) -> [Vec<u8>; 2] {
    let (first, other) = (draw_size(random, length), draw_size(random, length));
    let second = if random.below(6) == 0 { first.clone() } else { other };
    match operation {
        Operation::Add { .. } | Operation::AddIn { .. } => [first, second],
        _ => [first, second].map(|size| with_sign(size, draw_sign(random))),
    }
}

/// Digits, and among them the two fields, as far as main storage has room for both.
fn draw_main(random: &mut Random, operation: Operation, size: usize, starts: [usize; 2], length: usize) -> Vec<u8> {
    let mut main = digits(random, size);
    let inside = |start: usize| start.checked_add(length).is_some_and(|end| end <= size);
    if starts.into_iter().all(inside) {
        for (start, field) in starts.into_iter().zip(draw_pair(random, operation, length)) {
            main[start..start + length].copy_from_slice(&field);
        }
    }
    main
}

/// Where a field starts in so many bytes: mostly not far in, else near their end, seldom as far as numbers go.
fn draw_start(random: &mut Random, size: usize) -> usize {
    match random.below(32) {
        0 => usize::MAX - random.below(20) as usize,
        1..=4 => size.saturating_sub(random.below(20) as usize),
        _ => random.below(size.clamp(40, 300) as u64) as usize,
    }
}

/// A length mostly good.
fn draw_length(random: &mut Random) -> usize {
    let (good, short) = (1 + random.below(16) as usize, 1 + random.below(3) as usize);
    one_of(random, &[good, good, good, good, good, good, short, short, short, 0, 17, usize::MAX])
}

/// An operation on two fields of which any size or place may be wrong.
fn draw_sum(random: &mut Random, operation: Operation) -> Call {
    let size = one_of(random, &[48, 48, 300, 300, 300, 300, 300, 300, 300, 1, 0, 65536, 65537]);
    let local = one_of(random, &[256, 256, 256, 256, 256, 256, 255, 257]);
    let (first, other) = (draw_start(random, size), draw_start(random, size));
    let second = if random.below(6) == 0 { first } else { other };
    let length = draw_length(random);
    let main = draw_main(random, operation, size, [first, second], length);
    Call::Sum { operation, main, local: bytes(random, local), first, second, length }
}

/// Drawn sums agree. Every length ends with and without a carry or overflow, and by a bad digit; each refusal is seen.
fn sums_agree(calls: &[Call], numbers: &[u64]) {
    let answers = agree(calls);
    assert_eq!(refusals(&answers, 8), BTreeSet::from_iter(numbers.iter().copied()));
    let mut seen = BTreeSet::new();
    for (call, answer) in calls.iter().zip(answers) {
        let Call::Sum { length, .. } = call else { unreachable!() };
        if answer & 0xFF != REFUSED {
            seen.insert((*length, ending(answer)));
        }
    }
    let endings = [SUMMED, SUMMED + 65536, BAD_DIGIT];
    assert_eq!(seen, (1..=16).flat_map(|length| endings.map(|ending| (length, ending))).collect());
}

const CARRIES: [u8; 5] = [0, 1, 2, 200, 255];

fn draw_add(random: &mut Random) -> Operation {
    Operation::Add { carry: one_of(random, &CARRIES) }
}

#[test]
fn decimal_adds() {
    let random = &mut Random::new(89);
    let draw = |_| {
        let operation = draw_add(random);
        draw_sum(random, operation)
    };
    sums_agree(&(0..8000).map(draw).collect::<Vec<Call>>(), &[1, 12, 13, 14]);
}

#[test]
fn signed_adds_and_subtracts() {
    let random = &mut Random::new(157);
    for operation in [Operation::AddSigned, Operation::SubSigned] {
        sums_agree(&(0..8000).map(|_| draw_sum(random, operation)).collect::<Vec<Call>>(), &[1, 12, 13, 14]);
    }
}

/// Two fields of one byte beside each other, or one field of one byte.
#[test]
fn every_byte_by_every_other_with_signs() {
    let local = vec![0x5A; 256];
    for operation in [Operation::AddSigned, Operation::SubSigned] {
        let sum =
            |main: Vec<u8>, second| Call::Sum { operation, main, local: local.clone(), first: 0, second, length: 1 };
        let pairs = (0..=u16::MAX).map(|pair| sum(pair.to_be_bytes().to_vec(), 1));
        let calls: Vec<Call> = pairs.chain((0..=u8::MAX).map(|byte| sum(vec![byte], 0))).collect();
        let answers = agree(&calls);
        let ends = |wanted| answers.iter().filter(|answer| ending(**answer) == wanted).count();
        // Sixty of the bytes are a digit and a sign.
        assert_eq!(ends(SUMMED) + ends(SUMMED + 65536), 60 * 60 + 60);
        assert_eq!(ends(BAD_DIGIT), 65_536 - 60 * 60 + 256 - 60);
    }
}

/// The check of a block made right again.
fn mend(deck: &mut [u8], block: usize) {
    let Some(bytes) = deck.get_mut(BLOCK * block..BLOCK * (block + 1)) else {
        return;
    };
    let groups = std::array::from_fn(|n| u64::from_be_bytes(bytes[8 * n..8 * n + 8].try_into().expect("a group")));
    bytes[504..].copy_from_slice(&block_check(&groups).to_be_bytes());
}

const WORD_COUNTS: [usize; 8] = [1, 2, 61, 62, 63, 124, 125, 200];

fn deck_of(random: &mut Random, words: usize) -> Vec<u8> {
    let mut deck = vec![0; LONGEST];
    let length = write_deck(&common::draw_words(random, words), &mut deck).expect("good words");
    deck.truncate(length);
    deck
}

/// A byte of the deck's first block, in its head, its words, its unused groups or its check, and mended or not.
fn damage(random: &mut Random, deck: &mut [u8]) {
    let at = match random.below(4) {
        0 => random.below(8),
        1 => 8 + random.below(24),
        2 => random.below(512),
        _ => 504 + random.below(8),
    };
    deck[at as usize] ^= 1 << random.below(8);
    if random.below(2) == 0 {
        mend(deck, 0);
    }
}

#[test]
fn decks_are_read() {
    let random = &mut Random::new(97);
    let mut calls: Vec<Call> = (0..3000)
        .map(|_| {
            let words = one_of(random, &WORD_COUNTS);
            let mut deck = deck_of(random, words);
            match random.below(8) {
                0..=3 => damage(random, &mut deck),
                4 => deck.truncate(deck.len() - one_of(random, &[1, 8, 511, 512])),
                _ => (),
            }
            let room = one_of(random, &[words, words, words + 1, words.saturating_sub(1), 0, 4096]);
            Call::ReadDeck { deck, words: (0..room).map(|_| random.next()).collect() }
        })
        .collect();
    for (words, room) in [(4096, 4096), (4096, 4095), (4095, 5000)] {
        calls.push(Call::ReadDeck { deck: deck_of(random, words), words: vec![7; room] });
    }
    let mut long = deck_of(random, 4096);
    long.resize(LONGEST + BLOCK, 0);
    calls.push(Call::ReadDeck { deck: long, words: vec![7; 5000] });
    let answers = agree(&calls);
    assert!(refusals(&answers, 16).is_superset(&BTreeSet::from([3, 5, 6, 7, 15, 16, 17, 18, 19])));
    assert!(answers.contains(&4096));
}

#[test]
fn decks_are_written() {
    let random = &mut Random::new(101);
    let mut calls: Vec<Call> = (0..3000)
        .map(|_| {
            let count = one_of(random, &[0, 1, 2, 61, 62, 63, 124, 125]);
            let mut words = common::draw_words(random, count);
            if count > 0 && random.below(3) == 0 {
                let at = random.below(count as u64);
                words[at as usize] = any_word(random, at as u32);
            }
            let bytes_needed = count.div_ceil(62) * BLOCK;
            let sizes = [bytes_needed, bytes_needed, bytes_needed + 1, bytes_needed.saturating_sub(1), 0, 2000];
            let room = one_of(random, &sizes);
            Call::WriteDeck { words, deck: bytes(random, room) }
        })
        .collect();
    for (count, room) in [(4096, LONGEST), (4096, LONGEST - 1), (4097, 40_000)] {
        let words = (0..count).map(|address| pack(&common::draw_fields(random), address % 4096).expect("fields"));
        calls.push(Call::WriteDeck { words: words.collect(), deck: vec![7; room] });
    }
    let answers = agree(&calls);
    assert_eq!(refusals(&answers, 16), BTreeSet::from([3, 4, 5, 6, 7, 8, 9, 19, 21]));
    assert!(answers.contains(&(LONGEST as u64)));
}

/// How the second engine answers a cycle from here under a reading, with as many words as a cycle takes, and main storage at
/// every address: its kind and its refusal.
fn cycle_from(reading: u8, store: &[u64], state: &[u8]) -> (u64, u64) {
    let store = &store[..store.len().min(4096)];
    let answer = panel::one_cycle(reading, store, &mut vec![0; 65_536], &mut [0; 256], &mut state.to_vec());
    (answer & 0xFF, answer >> 8 & 0xFF)
}

/// It knows no reading: a code that is modelled in neither has its work too.
#[test]
fn the_work_of_the_next_word() {
    let random = &mut Random::new(103);
    let calls: Vec<Call> = (0..12_000)
        .map(|_| {
            let (_, Lent { store, state, .. }) = draw_read(random, 3);
            let room = one_of(random, &[0, 7, 8, 8, 8, 8, 8, 8, 9, 40]);
            Call::NextSum { store, state, work: bytes(random, room) }
        })
        .collect();
    let mut seen = BTreeSet::new();
    for (call, answer) in calls.iter().zip(agree(&calls)) {
        let Call::NextSum { store, state, work } = call else { unreachable!() };
        let short = state.len() < STATE || work.len() < 8;
        for cycle in [BASIC, COMPATIBILITY].map(|reading| cycle_from(reading, store, state)) {
            let expected = match cycle {
                _ if short => 19,
                (0, _) | (2, 10) => 0,
                _ => 1,
            };
            assert_eq!(answer, expected, "{call:?}");
            seen.insert((answer, if short { (0, 0) } else { cycle }));
        }
    }
    // An empty store is 1 to a cycle.
    let nothing = BTreeSet::from_iter((1..=9).map(|number| (1, (2, number))));
    let others = BTreeSet::from([(0, (0, 0)), (0, (2, 10)), (1, (1, 0)), (19, (0, 0))]);
    assert_eq!(seen, &nothing | &others);
}

/// A word that does the same at each address, in the store and beyond a cycle's.
fn store_of(words: usize) -> Vec<u64> {
    (0..words as u32).map(|address| build(address % 4096, common::P_FIELDS).expect("a word")).collect()
}

#[test]
fn the_edges_of_the_next_word() {
    // Words, WX, the bytes of state and of work that are lent, and the answer.
    let cases = [
        (1, 0, STATE, 8, 0),
        (1, 0, STATE + 1, 9, 0),
        (1, 0, 300, 300, 0),
        (1, 0, STATE - 1, 8, 19),
        (1, 0, STATE, 7, 19),
        (1, 0, 0, 8, 19),
        (1, 0, STATE, 0, 19),
        (0, 0, STATE - 1, 8, 19),
        (0, 0, STATE, 7, 19),
        (0, 0, STATE, 8, 1),
        (1, 1, STATE, 8, 1),
        (1, 0x100, STATE, 8, 1),
        (1, 0xFFFF, STATE, 8, 1),
        (2, 1, STATE, 8, 0),
        (0x102, 0x101, STATE, 8, 0),
        (4096, 4095, STATE, 8, 0),
        (4096, 4096, STATE, 8, 1),
        (4097, 4095, STATE, 8, 0),
        (4097, 4096, STATE, 8, 1),
        (65_536, 65_535, STATE, 8, 1),
    ];
    let random = &mut Random::new(107);
    let call = |(words, wx, room, work, _): (usize, u16, usize, usize, u64)| {
        let mut state = bytes(random, room);
        if let Some(there) = state.get_mut(13..15) {
            there.copy_from_slice(&wx.to_be_bytes());
        }
        Call::NextSum { store: store_of(words), state, work: bytes(random, work) }
    };
    let calls: Vec<Call> = cases.into_iter().map(call).collect();
    assert_eq!(agree(&calls), cases.map(|case| case.4));
}

/// Each code of CF, CG, CV and CC with S0 and S3 off and on, among others of every kind.
#[test]
fn every_way_through_the_adder() {
    let random = &mut Random::new(109);
    let mut calls = Vec::new();
    for way in 0..3 * 4096_u16 {
        let mut fields = common::draw_modelled(random);
        for (name, shift, codes) in [("CF", 0, 8), ("CG", 3, 4), ("CV", 5, 4), ("CC", 7, 8)] {
            fields[index_of(name)] = (way >> shift) as u8 % codes;
        }
        let mut state = bytes(random, STATE);
        state[8] = state[8] & 0x6F | ((way >> 10) as u8 & 1) << 7 | ((way >> 11) as u8 & 1) << 4;
        state[13..15].fill(0);
        state[20] = one_of(random, &[0, 1, 200]);
        calls.push(Call::NextSum { store: vec![pack(&fields, 0).expect("a word")], state, work: vec![0xEE; 8] });
    }
    let answers = agree(&calls);
    assert_eq!(answers.iter().filter(|answer| **answer == 1).count(), 3 * 512, "CF 4 stops");
}

/// A record of these S, R and D, and of an arriving byte by its latch.
fn record_of([s, r, d]: [u8; 3], [arriving, byte]: [u8; 2]) -> [u8; STATE] {
    let mut record = [0; STATE];
    [record[6], record[7], record[8]] = [d, r, s];
    [record[20], record[21]] = [arriving, byte];
    record
}

/// The work of a word that takes R as A and D as B, all of both unless the codes say otherwise.
fn work_of(codes: common::Codes, record: [u8; STATE]) -> [u8; 8] {
    let word = build(0, &[&[("CA", 7), ("CB", 2), ("CF", 3), ("CG", 3), ("CM", 1)], codes].concat()).expect("a word");
    let mut work = [0xEE; 10];
    agree(&[Call::NextSum { store: vec![word], state: record.to_vec(), work: work.to_vec() }]);
    assert_eq!(panel::next_sum(&[word], &record, &mut work), 0);
    assert_eq!(work[8..], [0xEE; 2]);
    *work.first_chunk().expect("the work")
}

/// The numbers of document 01, and others by its rules, worked by hand.
#[test]
fn works_by_hand() {
    let cases: [(common::Codes, [u8; 3], [u8; 8]); 13] = [
        (&[("CV", 3)], [0, 0x38, 0x47], [0x38, 0x38, 0x47, 0x47, 0xAD, 0, 0xE5, 0x85]),
        (&[("CV", 3)], [0, 0x99, 0x01], [0x99, 0x99, 0x01, 0x01, 0x67, 0, 0x00, 0x00]),
        (&[("CV", 3)], [0, 0x38, 0xAD], [0x38, 0x38, 0xAD, 0xAD, 0x03, 0, 0x3B, 0xD5]),
        (&[("CV", 3), ("CC", 1)], [0x80, 0x85, 0x47], [0x85, 0x85, 0x47, 0x47, 0xB8, 1, 0x3E, 0x38]),
        (&[("CV", 3), ("CC", 6)], [0x10, 0x38, 0x47], [0x38, 0x38, 0x47, 0x47, 0xAD, 1, 0xE6, 0x86]),
        (&[], [0, 0x5D, 0x99], [0x5D, 0x5D, 0x99, 0x99, 0x99, 0, 0xF6, 0xF6]),
        (&[("CV", 1)], [0, 0x00, 0x00], [0x00, 0x00, 0x00, 0x00, 0xFF, 0, 0xFF, 0xFF]),
        (&[("CF", 5), ("CG", 0)], [0, 0x4B, 0x99], [0x4B, 0x04, 0x99, 0x00, 0x00, 0, 0x04, 0x04]),
        (&[("CF", 6), ("CG", 1)], [0, 0x4B, 0x99], [0x4B, 0xB0, 0x99, 0x09, 0x09, 0, 0xB9, 0xB9]),
        (&[("CF", 7), ("CG", 2)], [0, 0x4B, 0x23], [0x4B, 0xB4, 0x23, 0x20, 0x20, 0, 0xD4, 0xD4]),
        // A logical operation takes no six and no carry; the complement it takes.
        (&[("CV", 3), ("CC", 3)], [0x10, 0x49, 0x41], [0x49, 0x49, 0x41, 0x41, 0x41, 0, 0x49, 0x49]),
        (&[("CV", 3), ("CC", 2)], [0x90, 0x49, 0x41], [0x49, 0x49, 0x41, 0x41, 0xBE, 0, 0x08, 0x08]),
        // Where CL = 2, A is zero.
        (&[("CL", 2)], [0, 0x38, 0x47], [0x00, 0x00, 0x47, 0x47, 0x47, 0, 0x47, 0x47]),
    ];
    for (codes, registers, expected) in cases {
        assert_eq!(work_of(codes, record_of(registers, [0, 0])), expected, "{codes:?} {registers:X?}");
    }
}

/// An arriving byte is in R before the work, but for a Store.
#[test]
fn an_arriving_byte_is_in_the_work() {
    for (storage, arriving, a) in [(1, 0, 0x38), (1, 1, 0x99), (1, 200, 0x99), (0, 1, 0x99), (2, 1, 0x38)] {
        let work = work_of(&[("CM", storage)], record_of([0, 0x38, 0x47], [arriving, 0x99]));
        assert_eq!(work[0], a, "CM {storage}, arriving {arriving}");
    }
}

/// For a record: none, one short, right, and more.
const ROOMS: [usize; 8] = [0, STATE - 1, STATE, STATE, STATE, STATE, STATE + 1, 40];

#[test]
fn starts() {
    let random = &mut Random::new(113);
    for program in PROGRAMS {
        let mut calls: Vec<Call> = (0..6000)
            .map(|_| {
                let (first, second, length) = (random.next() as u16, random.next() as u16, random.next() as u8);
                let (on, room) = (one_of(random, &CARRIES), one_of(random, &ROOMS));
                Call::Start { program, first, second, length, on, state: bytes(random, room) }
            })
            .collect();
        for (length, on) in (0..=255).flat_map(|length| CARRIES.map(|on| (length, on))) {
            calls.push(Call::Start { program, first: 0xFFFF, second: 0x8000, length, on, state: vec![0xEE; STATE] });
        }
        assert_eq!(BTreeSet::from_iter(agree(&calls)), BTreeSet::from([0, 19]));
    }
}

/// The addresses in I, J, U and V, the length in L, the carry in S3 or SP in S0, all else zero, and what is past the record
/// left.
#[test]
fn a_start_by_hand() {
    for (program, latch) in [(Program::Add, 0x10), (Program::Signed, 0x80)] {
        for (on, s) in [(0, 0), (1, latch), (200, latch)] {
            let mut state = [0xEE; 30];
            agree(&[Call::Start { program, first: 0x1234, second: 0xABCD, length: 16, on, state: state.to_vec() }]);
            assert_eq!(program.start(0x1234, 0xABCD, 16, on, &mut state), 0);
            let mut expected = [0; 30];
            expected[..9].copy_from_slice(&[0x12, 0x34, 0xAB, 0xCD, 16, 0, 0, 0, s]);
            expected[STATE..].fill(0xEE);
            assert_eq!(state, expected);
        }
    }
}

/// What a cycle answers, and L and the two lamps that it leaves.
type Left = (u64, u8, [u8; 2]);

/// One cycle of a word that adds R and D to L, all of both unless the codes say otherwise, from these S, R and D and lamps.
fn lamps_after(codes: common::Codes, registers: [u8; 3], lamps: [u8; 2]) -> Left {
    let plain = [("CA", 7), ("CB", 2), ("CD", 9), ("CF", 3), ("CG", 3), ("CM", 1)];
    let word = build(0, &[&plain, codes].concat()).expect("a word");
    let mut state = record_of(registers, [0, 0]).to_vec();
    state[22..24].copy_from_slice(&lamps);
    let call = Call::Cycle { reading: BASIC, store: vec![word], main: vec![0], local: vec![0; 256], state };
    let (answer, after) = made(&[call]).remove(0);
    let left = record_lent(&after);
    (answer, left[4], [left[22], left[23]])
}

/// By request 5 of document 02, worked by hand: the digit carry, and then invalid. A record lends them in any value.
#[test]
fn the_lamps_of_a_decimal_cycle() {
    let cases: [(common::Codes, [u8; 3], [u8; 2], Left); 12] = [
        // AD with sixes is 03: 8 and 3 do not carry, and AD is judged.
        (&[("CV", 3)], [0, 0x38, 0xAD], [1, 0], (RAN, 0xD5, [0, 1])),
        // 47 with sixes is AD: 8 and 13 carry.
        (&[("CV", 3)], [0, 0x38, 0x47], [0, 1], (RAN, 0x85, [1, 0])),
        // 47 turned is B8: 5, 8 and 1 do not carry, and 47 is judged. FB turned is 04, and FB is judged.
        (&[("CV", 3), ("CC", 1)], [0x80, 0x85, 0x47], [1, 1], (RAN, 0x38, [0, 0])),
        (&[("CV", 3), ("CC", 1)], [0x80, 0x85, 0xFB], [1, 0], (RAN, 0x24, [0, 1])),
        // The gates keep a bad digit out. 04 with sixes is 6A: 8 and 10 carry.
        (&[("CV", 3), ("CF", 2)], [0, 0x4B, 0x12], [200, 1], (RAN, 0x52, [0, 0])),
        (&[("CV", 3), ("CG", 1)], [0, 0x38, 0xB4], [0, 7], (RAN, 0x42, [1, 0])),
        // 4B crossed is B4: its low digit is 4, its high one B.
        (&[("CV", 3), ("CF", 5)], [0, 0x4B, 0x12], [1, 1], (RAN, 0x16, [0, 0])),
        (&[("CV", 3), ("CF", 6)], [0, 0x4B, 0x12], [1, 0], (RAN, 0x22, [0, 1])),
        // In binary 13 and 9 carry, and no digit is judged. A logical cycle puts both lamps out.
        (&[], [0, 0x5D, 0x99], [0, 1], (RAN, 0xF6, [1, 0])),
        (&[("CV", 3), ("CC", 3)], [0, 0x3B, 0xAD], [1, 255], (RAN, 0xBF, [0, 0])),
        // A stop leaves them as they are lent.
        (&[("CV", 3), ("CF", 4)], [0, 0x38, 0x47], [1, 1], (STOPPED, 0, [1, 1])),
        (&[("CV", 3), ("CF", 4)], [0, 0x38, 0x47], [7, 255], (STOPPED, 0, [7, 255])),
    ];
    for (codes, registers, lamps, expected) in cases {
        assert_eq!(lamps_after(codes, registers, lamps), expected, "{codes:?} {registers:X?} {lamps:?}");
    }
}

#[test]
fn the_shipped_words() {
    let random = &mut Random::new(127);
    for program in PROGRAMS {
        let count = program.words().len();
        let rooms = [0, 1, count - 1, count, count + 1, 4096];
        let calls = rooms.map(|room| Call::Shipped { program, words: (0..room).map(|_| random.next()).collect() });
        let (short, words) = (65_536 * 19, count as u64);
        assert_eq!(agree(&calls), [short, short, short, words, words, words]);
    }
}

/// A call of an entry, and the run of its program's words from its start over the same storage, "under basic".
fn sum_and_run(random: &mut Random, program: Program) -> [Call; 2] {
    let (mut words, mut state) = (program.words().to_vec(), vec![0; STATE]);
    let (starts, length) =
        ([random.below(16), 32 + random.below(16)].map(|start| start as usize), 1 + random.below(16));
    let on = one_of(random, &CARRIES);
    let operation = program.operation(on);
    let (main, local) = (draw_main(random, operation, 64, starts, length as usize), bytes(random, 256));
    assert_eq!(program.shipped(&mut words), words.len() as u64);
    assert_eq!(program.start(starts[0] as u16, starts[1] as u16, length as u8, on, &mut state), 0);
    let (reading, budget) = (BASIC, 1_000_000);
    let run = Call::Run { reading, store: words, main: main.clone(), local: local.clone(), state, budget };
    let [first, second] = starts;
    [Call::Sum { operation, main, local, first, second, length: length as usize }, run]
}

/// Both storages, once the call is made, and WX where it has one.
fn left_by(mut call: Call) -> ([Vec<u8>; 2], u16) {
    call.make();
    match call {
        Call::Sum { main, local, .. } => ([main, local], 0),
        Call::Run { main, local, state, .. } => ([main, local], u16::from_be_bytes([state[13], state[14]])),
        other => panic!("no storage is lent to {other:?}"),
    }
}

/// An entry leaves what the run leaves, counts its cycles, and answers by the word at which it stops.
#[test]
fn an_entry_runs_its_words_from_the_start() {
    let random = &mut Random::new(131);
    for program in PROGRAMS {
        let pairs: Vec<[Call; 2]> = (0..1600).map(|_| sum_and_run(random, program)).collect();
        let answers = agree(&pairs.concat());
        let mut stops = BTreeSet::new();
        for ([sum, run], answers) in pairs.into_iter().zip(answers.chunks(2)) {
            assert_eq!(answers[1], answers[0] >> 32 << 32 | STOPPED, "as many cycles, and stopped");
            let (storage, wx) = left_by(run);
            assert_eq!(left_by(sum).0, storage);
            stops.insert((answers[0] & 0xFF, wx));
        }
        let (summed, bad) = program.stops();
        assert_eq!(stops, bad.iter().map(|wx| (BAD_DIGIT, *wx)).chain([(SUMMED, summed)]).collect());
    }
}

/// Lengths of a field, right and wrong. 264 is 8 in its last eight bits.
fn lengths() -> impl Iterator<Item = usize> {
    (0..=20).chain([264])
}

/// A field that was read: what was answered, and what is left in the room for its number.
struct ReadOut {
    field: Vec<u8>,
    answer: u64,
    left: Vec<i64>,
}

impl ReadOut {
    /// The sign digit of 8 bytes.
    fn sign(&self) -> u8 {
        self.field[7] & 15
    }

    /// The number, where one was written.
    fn number(&self) -> Option<i64> {
        (self.answer == 0).then(|| self.left[0])
    }

    /// The places of digits over 9, of the first fifteen.
    fn bad_places(&self) -> Vec<usize> {
        let digits: Vec<u8> = self.field.iter().flat_map(|byte| [byte >> 4, byte & 15]).take(15).collect();
        (0..digits.len()).filter(|place| digits[*place] > 9).collect()
    }
}

/// Each field is read to the numbers that are lent with it, of which none but the first may change.
fn read_each(cases: impl Iterator<Item = (Vec<u8>, Vec<i64>)>) -> Vec<ReadOut> {
    let calls: Vec<Call> = cases.map(|(field, room)| Call::ReadSigned { field, room }).collect();
    let read_out = |(call, (answer, after)): (&Call, (u64, Call))| {
        let Call::ReadSigned { room, .. } = call else { unreachable!() };
        let Call::ReadSigned { field, room: left } = after else { unreachable!() };
        assert_eq!(left.get(1..), room.get(1..), "{call:?}");
        ReadOut { field, answer, left }
    };
    calls.iter().zip(made(&calls)).map(read_out).collect()
}

/// A number that was written: what was answered, and the field that is left.
struct Written {
    number: i64,
    answer: u64,
    field: Vec<u8>,
}

/// Each number is written to the field that is lent with it.
fn write_each(cases: impl Iterator<Item = (i64, Vec<u8>)>) -> Vec<Written> {
    let calls: Vec<Call> = cases.map(|(number, field)| Call::WriteSigned { number, field }).collect();
    let written = |(answer, after): (u64, Call)| {
        let Call::WriteSigned { number, field } = after else { unreachable!() };
        Written { number, answer, field }
    };
    made(&calls).into_iter().map(written).collect()
}

/// Zeros, nines and other digits, with good signs and a bad one: every digit in every place of them.
fn chosen_fields() -> Vec<Vec<u8>> {
    let wholes = [0xC, 0xB, 0x9999_9999_9999_999F, 0x9999_9999_9999_999D, 0x1234_5678_9012_345E, 0x1234_5678_9012_3455];
    let places = (0..16).flat_map(|place| (0..16).map(move |digit| (4 * place, digit)));
    let fields = places.flat_map(|(at, digit): (u32, u64)| wholes.map(|whole: u64| whole & !(15 << at) | digit << at));
    fields.map(|field| field.to_be_bytes().to_vec()).collect()
}

/// Digits, of which one may be over 9, and in the last place any sign.
fn draw_field(random: &mut Random, length: usize) -> Vec<u8> {
    with_sign(digits(random, length), random.below(16) as u8)
}

/// Chosen and drawn fields of 8 bytes, and drawn ones of every length.
fn fields_to_read(random: &mut Random) -> Vec<Vec<u8>> {
    let mut fields = chosen_fields();
    fields.extend((0..2000).map(|_| draw_field(random, 8)));
    for _ in 0..20 {
        fields.extend(lengths().map(|length| draw_field(random, length)));
    }
    fields
}

const READ_OUTS: [Kind<ReadOut>; 19] = [
    ("plus", |case| case.number().is_some_and(|number| number > 0)),
    ("minus", |case| case.number().is_some_and(|number| number < 0)),
    ("the greatest", |case| case.number() == Some(MOST)),
    ("the least", |case| case.number() == Some(LEAST)),
    ("plus zero", |case| case.number() == Some(0) && case.sign() == 0xC),
    ("minus zero of B", |case| case.number() == Some(0) && case.sign() == 0xB),
    ("minus zero of D", |case| case.number() == Some(0) && case.sign() == 0xD),
    ("room for two", |case| case.answer == 0 && case.left.len() == 2),
    ("fewer bytes", |case| case.answer == 33 && case.field.len() < 8),
    ("more bytes", |case| case.answer == 33 && case.field.len() > 8),
    ("other than 8 bytes, and no room", |case| case.answer == 33 && case.left.is_empty()),
    ("a bad digit alone", |case| case.answer == 25 && case.sign() > 9 && !case.left.is_empty()),
    ("a bad digit, and a bad sign", |case| case.answer == 25 && case.sign() < 10 && !case.left.is_empty()),
    ("a bad digit, and no room", |case| case.answer == 25 && case.sign() > 9 && case.left.is_empty()),
    ("a bad digit, a bad sign, and no room", |case| case.answer == 25 && case.sign() < 10 && case.left.is_empty()),
    ("bad digits", |case| case.answer == 25 && case.bad_places().len() > 1),
    ("a bad sign alone", |case| case.answer == 26 && !case.left.is_empty()),
    ("a bad sign, and no room", |case| case.answer == 26 && case.left.is_empty()),
    ("no room", |case| case.answer == 19),
];

/// The answers to 8 bytes with this sign digit, and on which side of zero the number is.
fn answers_to(sign: u8) -> Vec<(u64, i64)> {
    match sign {
        0..=9 => vec![(25, 0), (26, 0)],
        0xB | 0xD => vec![(0, -1), (0, 0), (19, 0), (25, 0)],
        _ => vec![(0, 1), (0, 0), (19, 0), (25, 0)],
    }
}

/// Every sign digit, a bad digit alone in every place, and every length: each is seen with its own answers and no other.
fn shows_every_sign_place_and_length(seen: &[ReadOut]) {
    let eight = || seen.iter().filter(|case| case.field.len() == 8);
    let side = |case: &ReadOut| case.number().map_or(0, i64::signum);
    let signs: BTreeSet<_> = eight().map(|case| (case.sign(), (case.answer, side(case)))).collect();
    assert_eq!(signs, (0..16).flat_map(|sign| answers_to(sign).into_iter().map(move |one| (sign, one))).collect());
    let places: BTreeSet<_> = eight().map(|case| (case.bad_places(), case.answer)).collect();
    let alone = places.into_iter().filter(|(places, _)| places.len() == 1);
    assert!(alone.eq((0..15).map(|place| (vec![place], 25))));
    let refused: BTreeSet<_> = seen.iter().filter(|case| case.answer == 33).map(|case| case.field.len()).collect();
    assert_eq!(refused, lengths().filter(|length| *length != 8).collect());
}

/// Each field is read with room for none, for one and for two.
#[test]
fn signed_fields_are_read() {
    let random = &mut Random::new(149);
    let fields = fields_to_read(random);
    let mut numbers = |count: usize| (0..count).map(|_| random.next() as i64).collect();
    let seen = read_each(fields.iter().flat_map(|field| [0, 1, 2].map(|room| (field.clone(), numbers(room)))));
    each_occurs(&READ_OUTS, &seen);
    shows_every_sign_place_and_length(&seen);
    // Writing what was read returns the bytes only for signs C and D, minus zero excepted.
    let read: Vec<ReadOut> = seen.into_iter().filter(|case| case.answer == 0).collect();
    let again = write_each(read.iter().map(|case| (case.left[0], vec![0xEE; 8])));
    for (case, again) in read.iter().zip(again) {
        let returned = case.sign() == 0xC || case.sign() == 0xD && case.left[0] != 0;
        assert_eq!((again.answer, again.field == case.field), (0, returned), "{:02X?}", case.field);
    }
}

/// The chosen numbers, to fields of every length and more of 8 bytes, and drawn numbers of every size.
fn numbers_to_write(random: &mut Random) -> Vec<(i64, Vec<u8>)> {
    let mut cases = Vec::new();
    for length in lengths().chain([8; 5]) {
        cases.extend(chosen_numbers().into_iter().map(|number| (number, bytes(random, length))));
    }
    cases.extend((0..6000).map(|_| (random.next() as i64 >> random.below(64), bytes(random, 8))));
    cases
}

fn is_too_large(number: i64) -> bool {
    !(LEAST..=MOST).contains(&number)
}

const WRITTEN: [Kind<Written>; 13] = [
    ("zero", |case| (case.number, case.answer) == (0, 0)),
    ("plus", |case| case.number > 0 && case.answer == 0),
    ("minus", |case| case.number < 0 && case.answer == 0),
    ("the greatest", |case| (case.number, case.answer) == (MOST, 0)),
    ("the least", |case| (case.number, case.answer) == (LEAST, 0)),
    ("one over the greatest", |case| (case.number, case.answer) == (MOST + 1, 27)),
    ("one under the least", |case| (case.number, case.answer) == (LEAST - 1, 27)),
    ("the greatest of 64 bits", |case| (case.number, case.answer) == (i64::MAX, 27)),
    ("the least of 64 bits", |case| (case.number, case.answer) == (i64::MIN, 27)),
    ("fewer bytes", |case| case.answer == 33 && case.field.len() < 8),
    ("more bytes", |case| case.answer == 33 && case.field.len() > 8),
    ("other than 8 bytes, and too large", |case| case.answer == 33 && is_too_large(case.number)),
    ("other than 8 bytes alone", |case| case.answer == 33 && !is_too_large(case.number)),
];

/// How many digits a number has, whether it is minus, and what writing it to 8 bytes answers.
fn sized(case: &Written) -> (usize, bool, u64) {
    (case.number.unsigned_abs().to_string().len(), case.number < 0, case.answer)
}

#[test]
fn signed_fields_are_written() {
    let random = &mut Random::new(151);
    let seen = write_each(numbers_to_write(random).into_iter());
    each_occurs(&WRITTEN, &seen);
    let sizes: BTreeSet<_> = seen.iter().filter(|case| case.field.len() == 8).map(sized).collect();
    let answer = |size: usize| if size > 15 { 27 } else { 0 };
    let expected = (1..20).flat_map(|size| [false, true].map(|minus| (size, minus, answer(size))));
    assert_eq!(sizes, expected.collect());
    // Reading what was written returns the number.
    let written: Vec<Written> = seen.into_iter().filter(|case| case.answer == 0).collect();
    let again = read_each(written.iter().map(|case| (case.field.clone(), vec![7])));
    for (case, again) in written.iter().zip(again) {
        assert_eq!(again.number(), Some(case.number));
    }
}

/// A record for a trap in so much room, with this WX and this latch of a return that is owed. Every other byte has a value of
/// its own, and no other latch one that a cycle writes.
fn to_trap(room: usize, wx: u16, owed: u8) -> Vec<u8> {
    let mut state: Vec<u8> = (0..room).map(|place| 0x40 + place as u8).collect();
    if let Some(record) = state.first_chunk_mut::<STATE>() {
        record[13..15].copy_from_slice(&wx.to_be_bytes());
        record[26] = owed;
    }
    state
}

/// WX, the latch, the address, and the answer.
const TRAPS: [(u16, u8, u32, u64); 20] = [
    (0x000E, 0, 0x0A0, 0),
    (0x0000, 0, 0, 0),
    (0x0FFF, 0, 4095, 0),
    (0x00FF, 0, 0x100, 0),
    (0x03A5, 0, 0xC5A, 0),
    // All that WX holds is saved, though no store has such a word.
    (0x1234, 0, 0x234, 0),
    (0xFFFF, 0, 0, 0),
    (0x000E, 1, 0x0A0, 29),
    (0x0000, 7, 0, 29),
    (0xFFFF, 255, 4095, 29),
    // 29 comes before 30.
    (0x000E, 1, 4096, 29),
    (0x000E, 128, 65_536, 29),
    (0x000E, 255, u32::MAX, 29),
    (0x000E, 0, 4096, 30),
    (0x000E, 0, 4097, 30),
    (0x000E, 0, 65_535, 30),
    // The last sixteen bits of these would be an address.
    (0x000E, 0, 65_536, 30),
    (0x000E, 0, 0x0001_00A0, 30),
    (0x000E, 0, 0x8000_00A0, 30),
    (0x000E, 0, u32::MAX, 30),
];

/// A trap that is taken writes five bytes, and one that is refused none: both records worked by hand.
#[test]
fn traps_by_hand() {
    for room in [STATE, STATE + 1, 40] {
        let calls = TRAPS.map(|(wx, owed, address, _)| Call::Trap { address, state: to_trap(room, wx, owed) });
        for ((wx, owed, address, answer), (got, after)) in TRAPS.into_iter().zip(made(&calls)) {
            let mut expected = to_trap(room, wx, owed);
            if answer == 0 {
                expected[13..15].copy_from_slice(&(address as u16).to_be_bytes());
                expected[24..26].copy_from_slice(&wx.to_be_bytes());
                expected[26] = 1;
            }
            assert_eq!((got, record_lent(&after)), (answer, &expected[..]), "to {address:X} from {wx:X}, {owed}");
        }
    }
}

/// 19 comes before the others. Behind a record that is too short stands the driver's guard: as a latch it would be on.
#[test]
fn a_trap_wants_the_whole_record() {
    let mut calls = Vec::new();
    for address in [0, 0x0A0, 4095, 4096, 65_536, u32::MAX] {
        calls.extend((0..STATE).map(|room| Call::Trap { address, state: to_trap(room, 0, 0) }));
    }
    assert_eq!(agree(&calls), vec![19; 6 * 27]);
}

/// A trap that was asked for: what was answered, and the record as it was lent.
struct Asked {
    address: u32,
    answer: u64,
    lent: Vec<u8>,
}

/// Any bytes with latches of every kind, and an address that is good, just over, good in its last bits alone, or any.
fn draw_trap(random: &mut Random) -> Call {
    let room = one_of(random, &ROOMS);
    let mut state = bytes(random, room);
    for latch in LATCHES {
        if let Some(byte) = state.get_mut(latch) {
            *byte = one_of(random, &[0, 0, 0, 1, 7, 255]);
        }
    }
    let any = random.next() as u32;
    let good = any % 4096;
    let address = one_of(random, &[good, good, good, 4095, 4096, 4096 + good, any & 0xFFFF_0FFF, 1 << (any % 32), any]);
    Call::Trap { address, state }
}

const ASKED: [Kind<Asked>; 13] = [
    ("taken", |case| case.answer == 0),
    ("taken to the last address", |case| case.answer == 0 && case.address == 4095),
    ("taken from an address in no store", |case| case.answer == 0 && case.lent[13] > 15),
    ("taken, and another latch is odd", |case| case.answer == 0 && LATCHES.iter().any(|latch| case.lent[*latch] > 1)),
    ("taken, with bytes past the record", |case| case.answer == 0 && case.lent.len() > STATE),
    ("owed", |case| case.answer == 29 && case.address < 4096),
    ("owed by an odd latch", |case| case.answer == 29 && case.lent[26] > 1),
    ("owed, and the address is over", |case| case.answer == 29 && case.address > 4095),
    ("one over", |case| case.answer == 30 && case.address == 4096),
    ("over in sixteen bits", |case| case.answer == 30 && case.address < 65_536),
    ("over by high bits alone", |case| case.answer == 30 && case.address & 0xFFFF < 4096),
    ("too short", |case| case.answer == 19 && case.address < 4096),
    ("too short, and the address is over", |case| case.answer == 19 && case.address > 4095),
];

#[test]
fn traps() {
    let random = &mut Random::new(163);
    let calls: Vec<Call> = (0..12_000).map(|_| draw_trap(random)).collect();
    let asked = |(call, answer): (Call, u64)| {
        let Call::Trap { address, state: lent } = call else { unreachable!() };
        Asked { address, answer, lent }
    };
    let answers = agree(&calls);
    assert_eq!(refusals(&answers, 0), BTreeSet::from([19, 29, 30]));
    each_occurs(&ASKED, &calls.into_iter().zip(answers).map(asked).collect::<Vec<_>>());
}

/// Where the routine of the lesson begins.
const ROUTINE: u32 = 0x15;

/// The lesson's words that test whether the last sum was zero. That of a return word stands there after a trap.
const TESTS_ZERO: [u16; 2] = [0x009, 0x013];

/// G + 1 goes to G, on to the next word, which returns.
const COUNTS: common::Codes = &[("CN", 5), ("CH", 1), ("CM", 1), ("CA", 10), ("CD", 10), ("CF", 3), ("CC", 1)];
const RETURNS: common::Codes = &[("CM", 1), ("CU", 3), ("CA", 4)];

/// An addition of good digits by the lesson's words, of which the panel gives, packs and starts every part.
fn begun(random: &mut Random, length: u8) -> Lent {
    let packed = |codes, address| Call::Pack { fields: named(codes).to_vec(), address, word: vec![0] };
    let (first, second, on) = (random.below(16) as u16, 32 + random.below(16) as u16, one_of(random, &CARRIES));
    let calls = [
        Call::Shipped { program: Program::Add, words: vec![0; 21] },
        packed(COUNTS, ROUTINE),
        packed(RETURNS, ROUTINE + 1),
        Call::Start { program: Program::Add, first, second, length, on, state: vec![0xEE; STATE] },
    ];
    let (answers, left): (Vec<u64>, Vec<Call>) = made(&calls).into_iter().unzip();
    let [Call::Shipped { words, .. }, Call::Pack { word: counts, .. }, Call::Pack { word: returns, .. }, start] =
        &left[..]
    else {
        unreachable!()
    };
    let store = [&words[..], counts, returns].concat();
    assert_eq!((answers, &store), (vec![21, 0, 0, 0], &lesson()));
    let main = (0..64).map(|_| (random.below(10) * 16 + random.below(10)) as u8).collect();
    Lent { store, main, local: bytes(random, 256), state: record_lent(start).to_vec() }
}

fn wx_of(state: &[u8]) -> u16 {
    u16::from_be_bytes([state[13], state[14]])
}

/// A call for each cycle of a run to its end, and for a trap before one of them. Each is lent what the call before it left, so
/// that the run is compared step by step.
fn steps(begun: &Lent, trapped: Option<usize>) -> Vec<Call> {
    let (mut now, mut calls) = (begun.clone(), Vec::new());
    for cycle in 1.. {
        if trapped == Some(cycle) {
            calls.push(Call::Trap { address: ROUTINE, state: now.state.clone() });
            assert_eq!(panel::trap(ROUTINE, &mut now.state), 0);
        }
        let mut call = cycle_of(BASIC, &now);
        calls.push(call.clone());
        if call.make() != RAN {
            break;
        }
        now = lent_to(call);
    }
    calls
}

/// What the last of these steps answers and leaves. The others ran, or were taken, which is 0 too.
fn ended(calls: &[Call]) -> (u64, Lent) {
    let mut steps = made(calls);
    let (answer, last) = steps.pop().expect("a step");
    assert!(steps.iter().all(|(answer, _)| *answer == RAN));
    (answer, lent_to(last))
}

/// The word broken into is in FWX, nothing is owed, and G has counted: so much is so however the run ends.
fn is_resumed(left: &Lent, from: u16) {
    let [fwx_high, fwx_low] = from.to_be_bytes();
    assert_eq!((left.state[9], &left.state[24..]), (1, &[fwx_high, fwx_low, 0][..]));
}

/// Both storages, and the registers but for G.
fn summed(case: &Lent) -> [&[u8]; 4] {
    [&case.main, &case.local, &case.state[..9], &case.state[10..15]]
}

/// Before each cycle of short additions and before drawn ones of longer, the one that stops among them. The sum is the same
/// wherever the word broken into does not test the last one for zero; where it does, not always.
#[test]
fn a_run_broken_into_has_the_same_sum() {
    let random = &mut Random::new(167);
    let mut others = 0;
    for length in 1..=16 {
        let begun = begun(random, length);
        let plain = steps(&begun, None);
        let (answer, whole) = ended(&plain);
        assert_eq!((answer, whole.state[9]), (STOPPED, 0));
        for cycle in (1..=plain.len()).filter(|_| length < 4 || random.below(16) == 0) {
            let from = wx_of(record_lent(&plain[cycle - 1]));
            let (answer, left) = ended(&steps(&begun, Some(cycle)));
            is_resumed(&left, from);
            let same = answer == STOPPED && summed(&left) == summed(&whole);
            assert!(same || TESTS_ZERO.contains(&from), "before cycle {cycle} of {length} bytes, from {from:03X}");
            others += usize::from(!same);
        }
    }
    assert!(others > 5, "{others} runs end otherwise");
}

/// A cycle of a return word with these CM, CH and CL under a reading, from any record with this latch.
fn draw_return(random: &mut Random, (reading, [cm, ch, cl], owed): Return) -> Call {
    let mut fields = common::draw_modelled(random);
    for (name, code) in [("CM", cm), ("CH", ch), ("CL", cl), ("CU", 0)] {
        fields[index_of(name)] = code;
    }
    let at = random.below(64) as u16;
    let mut store = vec![0; usize::from(at) + 1];
    // Both bits of CU are turned, so that PS is still right.
    store[usize::from(at)] = pack(&with_right_pk(fields), at.into()).expect("a word") ^ 3 << 34;
    let mut state = bytes(random, STATE);
    state[11] = one_of(random, &[0, 0, 1, 3, 255]);
    state[13..15].copy_from_slice(&at.to_be_bytes());
    for latch in LATCHES {
        state[latch] = one_of(random, &[0, 0, 1, 7, 255]);
    }
    state[26] = owed;
    Call::Cycle { reading, store, main: bytes(random, 1024), local: bytes(random, 256), state }
}

/// A return word: the reading, its CM, CH and CL, and the latch of a return that is owed.
type Return = (u8, [u8; 3], u8);

/// Every CM, CH and CL of a return word under both readings, with the latch off as often as on.
fn return_codes() -> impl Iterator<Item = Return> {
    let codes = (0..3).flat_map(|cm| (0..16).flat_map(move |ch| (0..16).map(move |cl| [cm, ch, cl])));
    let read = codes.flat_map(|codes| [BASIC, COMPATIBILITY].map(|reading| (reading, codes)));
    read.flat_map(|(reading, codes)| [0, 0, 0, 0, 0, 0, 1, 1, 1, 7, 7, 255].map(|owed| (reading, codes, owed)))
}

/// The codes that are modelled in a return word: CL = 2 is refused by 8, and of CH and CL those that no word of the reading
/// may have.
fn may_return(reading: u8, [_, ch, cl]: [u8; 3]) -> bool {
    let [no_ch, no_cl, _] = NOT_MODELLED[usize::from(reading)];
    cl != 2 && !no_ch.contains(&ch) && !no_cl.contains(&cl)
}

/// WX is FWX, over anything CH and CL say; FWX stays, and the latch goes out.
#[test]
fn return_words() {
    let random = &mut Random::new(173);
    let calls: Vec<Call> = return_codes().map(|drawn| draw_return(random, drawn)).collect();
    let (mut answers, mut ran) = (Vec::new(), BTreeSet::new());
    for ((call, (reading, codes, owed)), (answer, after)) in calls.iter().zip(return_codes()).zip(made(&calls)) {
        assert_eq!(is_refused(answer, 8), codes[2] == 2, "{codes:?}");
        if answer == RAN {
            let (fwx, left) = (&record_lent(call)[24..26], record_lent(&after));
            assert_eq!((&left[13..15], &left[24..26], left[26]), (fwx, fwx, 0), "{codes:?}");
            ran.insert((reading, codes, owed != 0));
        }
        answers.push(answer);
    }
    let every = return_codes().filter(|(reading, codes, _)| may_return(*reading, *codes));
    assert_eq!(ran, every.map(|(reading, codes, owed)| (reading, codes, owed != 0)).collect());
    assert_eq!(refusals(&answers, 8), BTreeSet::from([8, 10, 11]));
    // 10 no longer names CU, which is 7.
    assert_eq!(refusals(&answers, 16), BTreeSet::from([4, 5, 8, 9, 12, 15, 20, 21]));
}

/// A word with CL = 2, its CU and, where it is to be wrong, its PK put in afterwards; PS is right again.
fn module_word(codes: common::Codes, address: u32, cu: u8, pk_wrong: bool) -> u64 {
    let word = build(address, &[&[("CL", 2)], codes].concat()).expect("a word");
    let bits = u64::from(cu) << 34 | u64::from(pk_wrong) << 21;
    word ^ bits ^ u64::from(bits.count_ones() % 2) << 20
}

/// CL = 2 beside every CM and CU: 8 for K to W and for a return, whatever PK is; elsewhere 9, or nothing.
#[test]
fn a_return_beside_a_module_number_is_refused_by_8() {
    let (mut calls, mut expected) = (Vec::new(), Vec::new());
    for case in 0..8 * 4 * 16 * 2_u16 {
        let [cm, cu, ca] = [case % 8, case / 8 % 4, case / 32 % 16].map(|code| code as u8);
        let (pk_wrong, address) = (case / 512 == 1, u32::from(case) * 37 % 4096);
        let word = module_word(&[("CM", cm), ("CA", ca)], address, cu, pk_wrong);
        calls.push(Call::TakeApart { word, address, fields: vec![0xEE; 18] });
        let pk = u8::from(ca.count_ones() % 2 == 0) ^ u8::from(pk_wrong);
        let fields = named(&[("CL", 2), ("CM", cm), ("CU", cu), ("CA", ca), ("PK", pk)]);
        calls.push(Call::Pack { fields: fields.to_vec(), address, word: vec![0xEEEE] });
        let answer = match (cm, cu) {
            (0..=2, 2..) => 8,
            _ if pk_wrong => 9,
            _ => 0,
        };
        expected.extend([answer; 2]);
    }
    assert_eq!(agree(&calls), expected);
}

/// The fences in either order.
fn either_way(main_len: usize, [a, b]: [Fence; 2]) -> [Call; 2] {
    [[a, b], [b, a]].map(|fences| Call::Open { main_len, fences })
}

fn opening(accepted: bool) -> u64 {
    if accepted {
        0
    } else {
        32
    }
}

#[test]
fn openings_by_hand() {
    let calls: Vec<Call> = OPENINGS.into_iter().flat_map(|(main_len, a, b, _)| either_way(main_len, [a, b])).collect();
    let expected: Vec<u64> = OPENINGS.into_iter().flat_map(|(.., accepted)| [opening(accepted); 2]).collect();
    assert_eq!(agree(&calls), expected);
}

/// Every start and end up to two past the end of main storage, by counting bytes.
#[test]
fn every_small_opening_is_by_its_bytes() {
    let (mut calls, mut expected) = (Vec::new(), Vec::new());
    for main_len in 0..=5 {
        let edges = 0..=main_len + 2;
        let all: Vec<Fence> = edges.clone().flat_map(|start| edges.clone().map(move |end| fence(start, end))).collect();
        for fences in all.iter().flat_map(|a| all.iter().map(move |b| [*a, *b])) {
            calls.push(Call::Open { main_len, fences });
            expected.push(opening(opens_by_bytes(main_len, fences)));
        }
    }
    assert_eq!(agree(&calls), expected);
    assert_eq!(expected.iter().filter(|answer| **answer == 0).count(), 112);
}

/// An opening that was asked for, and what was answered.
struct Opened {
    main_len: usize,
    fences: [Fence; 2],
    answer: u64,
}

impl Opened {
    /// Whether a fence is neither empty nor too long.
    fn stands(&self, which: usize) -> bool {
        let Fence { start, end } = self.fences[which];
        start < end && end <= self.main_len
    }

    /// Refused for one of the fences alone.
    fn only(&self, is: fn(Fence, usize) -> bool) -> [bool; 2] {
        [0, 1].map(|which| self.answer == 32 && self.stands(1 - which) && is(self.fences[which], self.main_len))
    }

    /// Both stand, and the first is below and ends so many bytes past the second's start.
    fn shares(&self, bytes: usize, [a, b]: [Fence; 2]) -> bool {
        self.stands(0) && self.stands(1) && a.start < b.start && a.end == b.start + bytes
    }

    fn reversed(&self) -> [Fence; 2] {
        [self.fences[1], self.fences[0]]
    }
}

/// Near 0 or an end of main storage, beside another edge, or as far as numbers go.
fn draw_edge(random: &mut Random, main_len: usize, other: usize) -> usize {
    let by = random.below(3) as usize;
    let within = random.below(main_len.max(1) as u64) as usize;
    let edges = [by, main_len - main_len.min(by), main_len + by, within, within, other.saturating_add(by), other];
    match random.below(12) {
        0 => MAX - by,
        _ => one_of(random, &edges),
    }
}

/// Drawn by edges, or such that most are right.
fn draw_opening(random: &mut Random) -> Call {
    let main_len = one_of(random, &[0, 1, 2, 3, 100, 256, 65_535, 65_536, 65_537, 70_000, 1 << 32]);
    let fences = match random.below(2) {
        0 => draw_fences(random, main_len, 2),
        _ => {
            let mut last = random.below(main_len.max(1) as u64) as usize;
            let mut edge = || {
                last = draw_edge(random, main_len, last);
                last
            };
            [0; 2].map(|_| fence(edge(), edge()))
        }
    };
    Call::Open { main_len, fences }
}

const OPENED: [Kind<Opened>; 22] = [
    ("apart, the first below", |case| case.answer == 0 && case.fences[0].end < case.fences[1].start),
    ("apart, the second below", |case| case.answer == 0 && case.fences[1].end < case.fences[0].start),
    ("they touch, the first below", |case| case.answer == 0 && case.shares(0, case.fences)),
    ("they touch, the second below", |case| case.answer == 0 && case.shares(0, case.reversed())),
    ("from 0", |case| case.answer == 0 && case.fences.iter().any(|fence| fence.start == 0)),
    ("to the end", |case| case.answer == 0 && case.fences.iter().any(|fence| fence.end == case.main_len)),
    ("in more than a board has", |case| case.answer == 0 && case.main_len > 65_536),
    ("one byte", |case| case.answer == 0 && case.fences.iter().any(|fence| fence.end - fence.start == 1)),
    ("one byte shared, the first below", |case| case.answer == 32 && case.shares(1, case.fences)),
    ("one byte shared, the second below", |case| case.answer == 32 && case.shares(1, case.reversed())),
    ("the same", |case| case.answer == 32 && case.stands(0) && case.fences[0] == case.fences[1]),
    ("the first empty", |case| case.only(|fence, _| fence.start == fence.end)[0]),
    ("the second empty", |case| case.only(|fence, _| fence.start == fence.end)[1]),
    ("the first's end before its start", |case| case.only(|fence, _| fence.start > fence.end)[0]),
    ("the second's end before its start", |case| case.only(|fence, _| fence.start > fence.end)[1]),
    ("the first one past the end", |case| case.only(|fence, main_len| fence.end == main_len + 1)[0]),
    ("the second one past the end", |case| case.only(|fence, main_len| fence.end == main_len + 1)[1]),
    ("the first as far as numbers go", |case| case.only(|fence, _| fence.end == MAX)[0]),
    ("the second as far as numbers go", |case| case.only(|fence, _| fence.end == MAX)[1]),
    ("a start as far as numbers go", |case| case.only(|fence, _| fence.start == MAX).contains(&true)),
    ("no main storage", |case| case.answer == 32 && case.main_len == 0),
    ("one byte of main storage", |case| case.answer == 32 && case.main_len == 1),
];

#[test]
fn openings() {
    let random = &mut Random::new(197);
    let calls: Vec<Call> = (0..20_000).map(|_| draw_opening(random)).collect();
    let opened = |(call, answer): (Call, u64)| {
        let Call::Open { main_len, fences } = call else { unreachable!() };
        Opened { main_len, fences, answer }
    };
    let answers = agree(&calls);
    assert_eq!(BTreeSet::from_iter(answers.clone()), BTreeSet::from([0, 32]));
    each_occurs(&OPENED, &calls.into_iter().zip(answers).map(opened).collect::<Vec<_>>());
}

/// A board in 1,024 bytes with one word, from a record in which all but WX and the storage kind is EE: main storage is selected
/// outside every fence, and the latches are on.
fn with_word(word: u64) -> Lent {
    let mut state = vec![0xEE; STATE];
    state[13..15].fill(0);
    state[19] = 0;
    Lent { store: vec![word], main: vec![0x5A; 1024], local: vec![0x3C; 256], state }
}

/// What a cycle checks, from 2 on: each answer, and a case that all later checks would answer too, down to a Write outside
/// every fence. The last one runs.
fn cycle_checks() -> Vec<(u64, Lent)> {
    let writes = [("CM", 0), ("CA", 3)];
    let not_modelled = [&writes[..], &[("CD", 1), ("CS", 14)]].concat();
    let stops = [&not_modelled[..], &[("CF", 4)]].concat();
    let worst = module_word(&stops, 0, 2, true);
    let all_parity = worst ^ PN_BIT ^ PA_BIT ^ PC_BIT;
    let mut outside = with_word(all_parity ^ 1 << 55);
    outside.state[14] = 1;
    let mut inside = with_word(module_word(&writes, 0, 0, false));
    inside.state[11..13].copy_from_slice(&[0, 9]);
    let words = [
        (refused(3), all_parity ^ 1 << 55),
        (refused(4), all_parity),
        // PS covers PA.
        (refused(5), worst ^ PA_BIT ^ PC_BIT),
        (refused(6), worst ^ PS_BIT ^ PC_BIT),
        (refused(7), worst ^ PC_BIT),
        (refused(8), worst),
        (refused(9), module_word(&stops, 0, 0, true)),
        (STOPPED, module_word(&stops, 0, 0, false)),
        (no_code(15), module_word(&not_modelled, 0, 0, false)),
        (refused(11), module_word(&writes, 0, 0, false)),
    ];
    let cases = words.map(|(answer, word)| (answer, with_word(word)));
    [(refused(2), outside)].into_iter().chain(cases).chain([(RAN, inside)]).collect()
}

/// The case with each size wrong in each way.
fn wrong_sizes(case: &Lent) -> [Lent; 6] {
    WRONG_SIZES.map(|[words, main, local]| {
        let mut case = case.clone();
        case.store.resize(words, case.store[0]);
        case.main.resize(main, 0x5A);
        case.local.resize(local, 0x5A);
        case
    })
}

/// The case with less room for its record: none, and one byte too few.
fn short_records(case: &Lent) -> [Lent; 2] {
    [0, STATE - 1].map(|room| {
        let mut case = case.clone();
        case.state.truncate(room);
        case
    })
}

/// Of a case that a cycle answers so: what a turn answers where all else is right, and where fences, sizes and the record's
/// room are wrong.
fn turns_of_check(answer: u64, case: &Lent) -> Vec<(u64, Lent, [Fence; 2])> {
    let every = || [RIGHT].into_iter().chain(WRONG);
    let mut turns = vec![(answer, case.clone(), RIGHT)];
    turns.extend(WRONG.map(|fences| (refused(32), case.clone(), fences)));
    for sized in wrong_sizes(case) {
        turns.extend(short_records(&sized).map(|short| (refused(19), short, RIGHT)));
        turns.extend(every().map(|fences| (refused(1), sized.clone(), fences)));
    }
    for short in short_records(case).into_iter().chain(short_records(&wrong_sizes(case)[4])) {
        turns.extend(every().map(|fences| (refused(19), short.clone(), fences)));
    }
    turns
}

/// 19, then 1, then 32, then what a cycle checks: each is given though all later ones would be too.
#[test]
fn a_turn_checks_in_order() {
    let random = &mut Random::new(199);
    let mut answers = BTreeSet::new();
    for (answer, case) in cycle_checks() {
        let turns = turns_of_check(answer, &case);
        let calls: Vec<Call> =
            turns.iter().map(|(_, case, fences)| turn_of(one_of(random, &READINGS), case, *fences)).collect();
        let expected: Vec<u64> = turns.iter().map(|(answer, ..)| *answer).collect();
        assert_eq!(agree(&calls), expected);
        answers.extend(expected);
    }
    let refused = [1, 2, 3, 4, 5, 6, 7, 8, 9, 11, 19, 32].map(refused);
    assert_eq!(answers, refused.into_iter().chain([RAN, STOPPED, no_code(15)]).collect());
}

/// A turn at an address, its answer and what it leaves, worked by hand.
struct Worked {
    case: Lent,
    fences: [Fence; 2],
    answer: u64,
    left: Lent,
}

/// Where it is refused by 11, nothing changes.
fn worked(case: Lent, fences: [Fence; 2], ran: Option<Lent>) -> Worked {
    let answer = if ran.is_some() { RAN } else { refused(11) };
    Worked { left: ran.unwrap_or_else(|| case.clone()), case, fences, answer }
}

/// Every turn answers and leaves what was worked out. Some of each are refused, where they may be.
fn all_work(random: &mut Random, turns: &[Worked], may_be_refused: bool) {
    let calls: Vec<Call> =
        turns.iter().map(|turn| turn_of(one_of(random, &[0, 1, 255]), &turn.case, turn.fences)).collect();
    for (Worked { case, fences, answer, left }, (got, after)) in turns.iter().zip(made(&calls)) {
        assert_eq!((got, &lent_to(after)), (*answer, left), "{fences:?} from {:02X?}", case.state);
    }
    assert_eq!(turns.iter().any(|turn| turn.answer == refused(11)), may_be_refused);
    assert!(turns.iter().any(|turn| turn.answer == RAN));
}

/// The addresses of a pair of fences, and whether they are in the first of the two.
fn at_edges(inside: &'static [u16], outside: &'static [u16]) -> impl Iterator<Item = (u16, bool)> {
    inside.iter().map(|at| (*at, true)).chain(outside.iter().map(|at| (*at, false)))
}

/// Off and on, of which any value but 0 is on.
const ALLOWED: [u8; 4] = [0, 1, 2, 255];

/// What a cycle of a word that does nothing else makes of the record, at word 0 and with 33 arriving: R, the latches of a sum
/// that is 0, and nothing arriving.
fn passed(case: &Lent, r: u8) -> Lent {
    let mut left = case.clone();
    left.state[7] = r;
    left.state[15..18].copy_from_slice(&[0, 0, 1]);
    left.state[20..24].fill(0);
    left
}

/// A turn with a read of main storage, with the latch in a value: a fetch where it is off, and that in the fence alone.
fn fetch_at(bench: Bench, fences: [Fence; 2], (at, inside): (u16, bool), allowed: u8) -> Worked {
    let mut case = lent_of(bench);
    [case.state[18], case.state[20]] = [allowed, 200];
    let mut left = passed(&case, 0x33);
    left.state[11..13].copy_from_slice(&at.to_be_bytes());
    left.state[18..20].copy_from_slice(&[1, 0]);
    if allowed == 0 && inside {
        left.state[20..22].copy_from_slice(&[1, case.main[usize::from(at)]]);
    }
    worked(case, fences, (allowed != 0 || inside).then_some(left))
}

#[test]
fn a_turn_fetches_in_its_own_fence_alone() {
    let random = &mut Random::new(211);
    for (fences, inside, outside) in EDGES {
        let mut turns = Vec::new();
        for ((cm, high, low), by) in READS.into_iter().flat_map(|read| MAIN_BY.map(|by| (read, by))) {
            for (at, allowed) in at_edges(inside, outside).flat_map(|at| ALLOWED.map(|allowed| (at, allowed))) {
                turns.push(fetch_at(reading_at(cm, by, high, low, at.0), fences, at, allowed));
            }
        }
        all_work(random, &turns, true);
    }
}

/// A turn with a Write of the arriving 33 or a Store of 44 at an address, where the latch is on, and that in the fence alone.
fn write_at((cm, cu): (u8, u8), fences: [Fence; 2], (at, inside): (u16, bool), allowed: u8) -> Worked {
    let mut case = lent_of(writing_at(cm, cu, at, false));
    [case.state[18], case.state[20]] = [allowed, 200];
    let byte = if cm == 0 { 0x33 } else { 0x44 };
    let mut left = passed(&case, byte);
    left.state[18] = 0;
    if allowed != 0 && inside {
        left.main[usize::from(at)] = byte;
    }
    worked(case, fences, (allowed == 0 || inside).then_some(left))
}

#[test]
fn a_turn_writes_in_its_own_fence_alone() {
    let random = &mut Random::new(223);
    for (fences, inside, outside) in EDGES {
        let mut turns = Vec::new();
        for (write, at) in writes().flat_map(|write| at_edges(inside, outside).map(move |at| (write, at))) {
            turns.extend(ALLOWED.map(|allowed| write_at(write, fences, at, allowed)));
        }
        all_work(random, &turns, true);
    }
}

/// A turn with a read of local storage, and one with a write to it, at any N.
fn local_at(fences: [Fence; 2], n: u8) -> Vec<Worked> {
    let at = 0x9900 + u16::from(n);
    let mut turns = Vec::new();
    for ((cm, high, low), by) in READS.into_iter().flat_map(|read| [(1, 0xFF), (3, 0x3F), (3, 0)].map(|by| (read, by)))
    {
        let case = lent_of(reading_at(cm, by, high, low, at));
        let mut left = passed(&case, 0x33);
        // "For 5 with local storage only N takes T and M stays."
        left.state[11..13].copy_from_slice(&[if cm == 5 { case.state[11] } else { 0x99 }, n]);
        left.state[18..22].copy_from_slice(&[1, 1, 1, case.local[usize::from(n)]]);
        turns.push(worked(case, fences, Some(left)));
    }
    for (cm, cu) in writes() {
        let mut case = lent_of(writing_at(cm, cu, at, true));
        case.state[19] = 200;
        let byte = if cm == 0 { 0x33 } else { 0x44 };
        let mut left = passed(&case, byte);
        left.state[18..20].copy_from_slice(&[0, 1]);
        left.local[usize::from(n)] = byte;
        turns.push(worked(case, fences, Some(left)));
    }
    turns
}

/// No fence has a byte at 99xx.
#[test]
fn a_turn_has_all_of_local_storage() {
    let random = &mut Random::new(227);
    for (fences, ..) in EDGES {
        let turns: Vec<Worked> =
            [0, 1, 5, 6, 7, 0x7F, 0x80, 0xFF].into_iter().flat_map(|n| local_at(fences, n)).collect();
        all_work(random, &turns, false);
    }
}

/// A turn that was taken: what it and the cycle of the same case answered.
struct Taken {
    reading: u8,
    case: Lent,
    fences: [Fence; 2],
    answer: u64,
    cycle: u64,
}

impl Taken {
    fn bench(&self) -> Bench {
        bench_of(self.case.clone())
    }

    fn is_short(&self) -> bool {
        self.case.state.len() < STATE
    }

    fn fits(&self) -> bool {
        sizes_fit(&self.bench())
    }

    fn opens(&self) -> bool {
        opens_by_bytes(self.case.main.len(), self.fences)
    }

    /// The main address of the byte that the word would fetch or write.
    fn address(&self) -> Option<usize> {
        main_address(&self.bench())
    }

    /// What the papers make of the answer of the cycle.
    fn expected(&self) -> u64 {
        if self.is_short() {
            refused(19)
        } else if !self.fits() {
            refused(1)
        } else if !self.opens() {
            refused(32)
        } else if self.cycle == RAN && self.address().is_some_and(|at| !in_fence(self.fences[0], at)) {
            refused(11)
        } else {
            self.cycle
        }
    }

    /// It ran with a main address that is so by both fences and main storage's length.
    fn ran_at(&self, is: fn(usize, [Fence; 2], usize) -> bool) -> bool {
        self.answer == RAN && self.address().is_some_and(|at| is(at, self.fences, self.case.main.len()))
    }

    /// The same, refused by 11.
    fn is_refused_at(&self, is: fn(usize, [Fence; 2], usize) -> bool) -> bool {
        self.answer == refused(11) && self.address().is_some_and(|at| is(at, self.fences, self.case.main.len()))
    }

    /// The word at WX, which there is, has a CM that reads.
    fn is_read(&self) -> bool {
        next_word(&self.case.store, &self.case.state).is_some_and(|word| split(word)[CM] > 2)
    }

    /// All of main storage but for one byte is the board's own.
    fn has_nearly_all(&self) -> bool {
        self.opens() && self.fences.map(|fence| fence.end - fence.start) == [self.case.main.len() - 1, 1]
    }
}

/// All but one byte at an end for the board, and that one for the other.
fn nearly_all(random: &mut Random, main_len: usize) -> [Fence; 2] {
    let last = main_len.max(2) - 1;
    one_of(random, &[[fence(0, last), fence(last, last + 1)], [fence(1, last + 1), fence(0, 1)]])
}

/// The record's pairs that address storage are mostly in the board's fence, or at its edges.
fn seat(random: &mut Random, case: &mut Lent, fences: [Fence; 2]) {
    if let Some(record) = case.state.first_chunk_mut::<STATE>() {
        let seated = draw_seated(random, case.store.len(), fences).to_bytes();
        for place in [0, 1, 2, 3, 4, 5, 11, 12] {
            record[place] = seated[place];
        }
    }
}

fn draw_turn(random: &mut Random) -> (u8, Lent, [Fence; 2]) {
    let (reading, mut case) = draw_read(random, 4);
    let main_len = case.main.len();
    let fences = match random.below(4) {
        0 => nearly_all(random, main_len),
        _ => draw_fences(random, main_len, 6),
    };
    seat(random, &mut case, fences);
    (reading, case, fences)
}

const TAKEN: [Kind<Taken>; 36] = [
    ("a fetch in the fence", |case| case.ran_at(|_, _, _| true) && case.is_read()),
    ("a write in the fence", |case| case.ran_at(|_, _, _| true) && !case.is_read()),
    ("a fetch at the start", |case| case.ran_at(|at, [own, _], _| at == own.start) && case.is_read()),
    ("a write at the start", |case| case.ran_at(|at, [own, _], _| at == own.start) && !case.is_read()),
    ("a fetch of the last byte", |case| case.ran_at(|at, [own, _], _| at + 1 == own.end) && case.is_read()),
    ("a write of the last byte", |case| case.ran_at(|at, [own, _], _| at + 1 == own.end) && !case.is_read()),
    ("a fetch before the start", |case| case.is_refused_at(|at, [own, _], _| at + 1 == own.start) && case.is_read()),
    ("a write before the start", |case| case.is_refused_at(|at, [own, _], _| at + 1 == own.start) && !case.is_read()),
    ("a fetch at the end", |case| case.is_refused_at(|at, [own, _], _| at == own.end) && case.is_read()),
    ("a write at the end", |case| case.is_refused_at(|at, [own, _], _| at == own.end) && !case.is_read()),
    ("a fetch in the other's", |case| case.is_refused_at(in_the_others) && case.is_read()),
    ("a write in the other's", |case| case.is_refused_at(in_the_others) && !case.is_read()),
    ("a fetch in neither", |case| case.is_refused_at(in_the_gap) && case.is_read()),
    ("a write in neither", |case| case.is_refused_at(in_the_gap) && !case.is_read()),
    ("outside main storage", |case| case.is_refused_at(|at, _, main_len| at >= main_len)),
    ("a cycle would have run", |case| case.answer == refused(11) && case.cycle == RAN),
    ("ran with no main byte", |case| case.answer == RAN && case.address().is_none()),
    ("a read of no main byte ran", |case| case.answer == RAN && case.address().is_none() && case.is_read()),
    ("nearly all, ran in it", |case| case.has_nearly_all() && case.ran_at(|_, _, _| true)),
    ("nearly all, ran without", |case| case.has_nearly_all() && case.answer == RAN && case.address().is_none()),
    ("nearly all, in the byte left out", |case| case.has_nearly_all() && case.is_refused_at(in_the_others)),
    ("stopped", |case| case.answer == STOPPED),
    ("refused by 19", |case| case.answer == refused(19) && case.opens()),
    ("refused by 19 beside wrong fences", |case| case.answer == refused(19) && !case.opens()),
    ("refused by 1", |case| case.answer == refused(1) && case.opens()),
    ("refused by 1 beside wrong fences", |case| case.answer == refused(1) && !case.opens()),
    ("refused by 32, where a cycle runs", |case| case.answer == refused(32) && case.cycle == RAN),
    ("refused by 32, where a cycle stops", |case| case.answer == refused(32) && case.cycle == STOPPED),
    ("refused by 32 before 2", |case| case.answer == refused(32) && case.cycle == refused(2)),
    ("refused by 32 before 3 to 9", |case| {
        case.answer == refused(32) && (3..=9).any(|number| case.cycle == refused(number))
    }),
    ("refused by 32 before 10", |case| case.answer == refused(32) && is_refused(case.cycle, 10)),
    ("refused by 32 before 11", |case| case.answer == refused(32) && case.cycle == refused(11)),
    ("ran in compatibility", |case| case.answer == RAN && case.reading != BASIC),
    ("ran in a longer record", |case| case.answer == RAN && case.case.state.len() > STATE),
    ("ran from an odd latch", |case| case.answer == RAN && has_odd_latch(&case.case)),
    ("refused by 11 from an odd latch", |case| case.answer == refused(11) && has_odd_latch(&case.case)),
];

/// A turn is the cycle but for 32, and for 11 at a byte outside the fence. The case of a turn, and of the cycle beside it, is
/// one and the same.
#[test]
fn turns_are_cycles_but_for_the_fence() {
    let random = &mut Random::new(229);
    let cases: Vec<(u8, Lent, [Fence; 2])> = (0..20_000).map(|_| draw_turn(random)).collect();
    let calls: Vec<Call> = cases
        .iter()
        .flat_map(|(reading, case, fences)| [cycle_of(*reading, case), turn_of(*reading, case, *fences)])
        .collect();
    let mut seen = Vec::new();
    for ((reading, case, fences), both) in cases.into_iter().zip(made(&calls).chunks(2)) {
        let [(cycle, plain), (answer, after)] = both else { unreachable!() };
        let taken = Taken { reading, case, fences, answer: *answer, cycle: *cycle };
        assert_eq!(*answer, taken.expected(), "{fences:?}");
        let expected = if answer == cycle { lent_to(plain.clone()) } else { taken.case.clone() };
        assert!(lent_to(after.clone()) == expected, "{fences:?} from {:02X?}", taken.case.state);
        seen.push(taken);
    }
    each_occurs(&TAKEN, &seen);
    let answers: Vec<u64> = seen.iter().map(|taken| taken.answer).collect();
    assert_eq!(refusals(&answers, 8), BTreeSet::from([1, 2, 3, 4, 5, 6, 7, 8, 9, 10, 11, 19, 32]));
}

/// A board at a desk: its fence, its local storage and its record.
#[derive(Clone)]
struct Seat {
    fence: Fence,
    local: Vec<u8>,
    state: Vec<u8>,
}

/// One store under one reading, one main storage, and board A and board B, which are 0 and 1.
#[derive(Clone)]
struct Desk {
    reading: u8,
    store: Vec<u64>,
    main: Vec<u8>,
    boards: [Seat; 2],
}

impl Desk {
    /// A board's own fence and the other's.
    fn fences(&self, which: usize) -> [Fence; 2] {
        [which, 1 - which].map(|board| self.boards[board].fence)
    }

    /// What a board is lent.
    fn lent(&self, which: usize) -> Lent {
        let Seat { local, state, .. } = self.boards[which].clone();
        Lent { store: self.store.clone(), main: self.main.clone(), local, state }
    }

    /// The call of a board's next turn, and what the second engine answers, which also leaves the desk for the next: so that
    /// each call is lent what the one before it left.
    fn turn(&mut self, which: usize) -> (Call, u64) {
        let call = turn_of(self.reading, &self.lent(which), self.fences(which));
        let mut after = call.clone();
        let answer = after.make();
        let seat = &mut self.boards[which];
        Lent { main: self.main, local: seat.local, state: seat.state, .. } = lent_to(after);
        (call, answer)
    }
}

/// Whether a word leads to another module than the first.
fn leads_away(word: u64) -> bool {
    let word = split(word);
    word[CL] == 2 && word[CA] != 0 || word[CM] < 3 && word[CU] == 2 && word[CK] != 0
}

/// The words of one module under a reading, mostly ones that run, none of which leads away.
fn draw_module(random: &mut Random, reading: u8) -> Vec<u64> {
    let stray = one_of(random, &[8, 32, 512]);
    let mut word = |address: u32| loop {
        let any = random.below(stray) == 0;
        let word = if any { any_word(random, address) } else { common::running_word(random, address) };
        if !leads_away(word) {
            return word;
        }
    };
    let store = (0..256).map(&mut word).collect();
    if reading == BASIC {
        return store;
    }
    common::in_compatibility(random, Bench { store, ..Bench::new(0) }).store
}

/// A record at a word of the store, mostly with addresses in the board's fence. A latch that is on has any value but 0.
fn draw_record(random: &mut Random, words: usize, fences: [Fence; 2]) -> Vec<u8> {
    let mut record = draw_seated(random, words, fences).to_bytes();
    for latch in LATCHES {
        record[latch] *= one_of(random, &[1, 1, 7, 255]);
    }
    record.to_vec()
}

/// Two boards in drawn fences, which are seldom wrong.
fn draw_desk(random: &mut Random) -> Desk {
    let reading = one_of(random, &READINGS);
    let store = draw_module(random, reading);
    let main_len = one_of(random, &[2, 3, 64, 255, 256, 257, 300]);
    let fences = draw_fences(random, main_len, 16);
    let main = bytes(random, main_len);
    let boards = [fences, [fences[1], fences[0]]].map(|fences| {
        let state = draw_record(random, store.len(), fences);
        Seat { fence: fences[0], local: bytes(random, 256), state }
    });
    Desk { reading, store, main, boards }
}

/// The desk for a board alone: every byte outside its fence is another one, and the other's fence is as small as it can be.
fn desk_alone(desk: &Desk, which: usize) -> Desk {
    let mut alone = desk.clone();
    let [own, other] = desk.fences(which);
    for (at, byte) in alone.main.iter_mut().enumerate() {
        *byte ^= if in_fence(own, at) { 0 } else { 0xFF };
    }
    if opens_by_bytes(desk.main.len(), [own, other]) {
        let ends = [fence(other.start, other.start + 1), fence(other.end - 1, other.end)];
        alone.boards[1 - which].fence = ends[which];
    }
    alone
}

/// A turn in the session and the same turn alone, both as the libraries answer them: the answer, the record, local storage and
/// the fence's bytes are alike. In the session no byte outside the fence has changed.
fn is_as_alone(own: Fence, found: &Call, turns: &[(u64, Call)]) {
    let [(answer, after), (same, alone)] = turns else { unreachable!() };
    let [found, after, alone] = [found, after, alone].map(|call| lent_to(call.clone()));
    assert_eq!((answer, &after.state, &after.local), (same, &alone.state, &alone.local));
    assert_eq!(after.main.get(own.start..own.end), alone.main.get(own.start..own.end));
    let changed = |at: &usize| after.main[*at] != found.main[*at];
    assert!((0..found.main.len()).filter(changed).all(|at| in_fence(own, at)));
}

/// The calls of a session, each followed by the same turn alone, and whose turns they are. A board that did not run goes on
/// elsewhere, in both, and so does one in eight, since drawn words soon go round in few of them.
fn session_calls(random: &mut Random, order: Order, desk: &mut Desk) -> (Vec<usize>, Vec<Call>) {
    let mut alone = [0, 1].map(|which| desk_alone(desk, which));
    let (mut boards, mut calls) = (Vec::new(), Vec::new());
    for k in 0..TURNS_TAKEN {
        let which = board_at(random, order, k);
        let ((call, answer), (same, _)) = (desk.turn(which), alone[which].turn(which));
        boards.push(which);
        calls.extend([call, same]);
        if answer != RAN || random.below(8) == 0 {
            let state = draw_record(random, desk.store.len(), desk.fences(which));
            alone[which].boards[which].state.clone_from(&state);
            desk.boards[which].state = state;
        }
    }
    (boards, calls)
}

fn in_session(random: &mut Random, order: Order) -> Session {
    let found = draw_desk(random);
    let mut desk = found.clone();
    let (boards, calls) = session_calls(random, order, &mut desk);
    let mut turns = Vec::new();
    for ((which, calls), both) in boards.into_iter().zip(calls.chunks(2)).zip(made(&calls).chunks(2)) {
        is_as_alone(found.boards[which].fence, &calls[0], both);
        turns.push((which, both[0].0));
    }
    Session::of(order, found.reading == BASIC, found.fences(0), [&found.main, &desk.main], &turns)
}

#[test]
fn neither_board_can_tell_what_the_other_does() {
    let random = &mut Random::new(233);
    let seen: Vec<Session> = (0..180).map(|k| in_session(random, ORDERS[k % 6])).collect();
    each_occurs(&SESSIONS, &seen);
    assert!(seen.iter().all(|case| case.opens == (case.closed == 0)));
}

/// The start of an addition of these fields, with a carry that is on at any value but 0.
fn start_of(random: &mut Random, fields: &fences::Fields) -> Call {
    let [first, second] = [fields.first, fields.second].map(|start| start as u16);
    let on = if fields.carry { one_of(random, &CARRIES[1..]) } else { 0 };
    Call::Start { program: Program::Add, first, second, length: fields.length as u8, on, state: vec![0xEE; STATE] }
}

/// Two boards on the shipped words, each at the start of an addition in its fence: words and records are the panel's own.
fn desk_of_sums(random: &mut Random, main: Vec<u8>, fences: [Fence; 2], fields: &[fences::Fields; 2]) -> Desk {
    let shipped = Call::Shipped { program: Program::Add, words: vec![0; 21] };
    let [a, b] = fields.each_ref().map(|fields| start_of(random, fields));
    let left = made(&[shipped, a, b]);
    assert_eq!(left.iter().map(|(answer, _)| *answer).collect::<Vec<_>>(), [21, 0, 0]);
    let Call::Shipped { words: store, .. } = left[0].1.clone() else { unreachable!() };
    let seat = |which: usize| Seat {
        fence: fences[which],
        local: bytes(random, 256),
        state: record_lent(&left[1 + which].1).to_vec(),
    };
    Desk { reading: BASIC, store, main, boards: [0, 1].map(seat) }
}

/// Board A's addition by the entry in its fence, and by a run with no fence, each on a copy: what they answer and leave.
fn added_alone(desk: &Desk, fields: &fences::Fields) -> [(u64, Lent); 2] {
    let run = run_of(BASIC, &desk.lent(0), 1_000_000);
    let (main, local, within) = (desk.main.clone(), desk.boards[0].local.clone(), desk.boards[0].fence);
    let fences::Fields { first, second, length, carry } = *fields;
    let operation = Operation::AddIn { carry: if carry { 200 } else { 0 }, within };
    let left = made(&[Call::Sum { operation, main, local, first, second, length }, run]);
    let [(added, Call::Sum { main, local, .. }), (ran, run)] = &left[..] else { unreachable!() };
    let run = lent_to(run.clone());
    let sum = Lent { main: main.clone(), local: local.clone(), ..run.clone() };
    [(*added, sum), (*ran, run)]
}

/// Turns in an order until board A has had so many. The other board adds over and over, or goes about in the words from any
/// record.
fn turns_until(random: &mut Random, order: Order, desk: &mut Desk, turns: u64) -> Vec<(usize, Call)> {
    let start = desk.boards[1].state.clone();
    let (mut calls, mut had) = (Vec::new(), 0);
    for k in 0.. {
        if had == turns {
            break;
        }
        let which = board_at(random, order, k);
        let (call, answer) = desk.turn(which);
        calls.push((which, call));
        had += u64::from(which == 0);
        if which == 1 && answer != RAN {
            let other = draw_record(random, desk.store.len(), desk.fences(1));
            desk.boards[1].state = one_of(random, &[&start, &other]).clone();
        }
    }
    calls
}

/// The ending of the turns of board A: all of them ran but the last, which stopped. So one turn fewer, and it has not stopped.
fn stops_last(answers: &[u64], cycles: u64) {
    let ran = answers.iter().take_while(|answer| **answer == RAN).count();
    assert_eq!((ran as u64, &answers[ran..]), (cycles, &[STOPPED][..]));
}

/// What board A has at the end is what both others have: the bytes of its fence, the record with the word that it stopped at,
/// and S3. The entry answers by that word and by S3.
fn ends_as_alone(desk: &Desk, [(added, sum), (ran, run)]: &[(u64, Lent); 2]) {
    let Seat { fence: Fence { start, end }, local, state } = &desk.boards[0];
    assert_eq!(*ran, cycles(*added) << 32 | STOPPED);
    for alone in [sum, run] {
        assert_eq!((&desk.main[*start..*end], local), (&alone.main[*start..*end], &alone.local));
    }
    assert_eq!(*state, run.state);
    let (wx, s3) = (wx_of(state), u64::from(state[8] >> 4 & 1));
    match *added & 0xFF {
        SUMMED => assert_eq!((wx, *added >> 16 & 0xFFFF), (SUMMED_AT, s3)),
        kind => assert!(kind == BAD_DIGIT && BAD_AT[..2].contains(&wx), "{kind} at {wx:03X}"),
    }
}

fn summed_beside_another(random: &mut Random, order: Order, found: &Desk, fields: fences::Fields) -> Summed {
    let (mut desk, alone) = (found.clone(), added_alone(found, &fields));
    let answer = alone[0].0;
    assert!(cycles(answer) <= 40 * fields.length as u64 + 40);
    let calls = turns_until(random, order, &mut desk, cycles(answer) + 1);
    let (boards, calls): (Vec<usize>, Vec<Call>) = calls.into_iter().unzip();
    let answers = agree(&calls);
    let of = |which: usize| boards.iter().zip(&answers).filter(move |turn| *turn.0 == which).map(|turn| *turn.1);
    stops_last(&of(0).collect::<Vec<_>>(), cycles(answer));
    ends_as_alone(&desk, &alone);
    let carry = (answer & 0xFF == SUMMED).then_some(answer >> 16 & 1 == 1);
    let others: Vec<u64> = of(1).collect();
    Summed::of(order, (fields, carry), found.fences(0), [&found.main, &desk.main], &others)
}

/// Demand 3 in a session: once board A has had its cycles and one turn more, it has ended as the entry in its fence does.
#[test]
fn the_shipped_words_end_after_their_own_cycles() {
    let random = &mut Random::new(239);
    let mut seen = Vec::new();
    for k in 0..180 {
        let low = one_of(random, &[0, 1, 0xE0, 0x1F0]);
        let (main, fences, fields) = fences::draw_sums(random, low);
        let mut desk = desk_of_sums(random, main, fences, &fields);
        if random.below(2) == 0 {
            desk.boards[1].state = draw_record(random, desk.store.len(), desk.fences(1));
        }
        seen.push(summed_beside_another(random, ORDERS[k % 6], &desk, fields[0]));
    }
    each_occurs(&SUMS, &seen);
}

/// In the last four bytes of main storage, in fences that touch: 38 + 47 + 1 is 86, and 99 + 01 is 00 with a carry.
#[test]
fn two_sums_by_hand_at_the_end_of_main_storage() {
    let random = &mut Random::new(241);
    let fences = [fence(65_532, 65_534), fence(65_534, 65_536)];
    let fields = [
        fences::Fields { first: 65_532, second: 65_533, length: 1, carry: true },
        fences::Fields { first: 65_535, second: 65_534, length: 1, carry: false },
    ];
    let mut main = bytes(random, 65_536);
    main[65_532..].copy_from_slice(&[0x38, 0x47, 0x01, 0x99]);
    let found = desk_of_sums(random, main, fences, &fields);
    let mut desk = found.clone();
    let mut calls = Vec::new();
    // B has two turns for each of A's.
    for which in [0, 1, 1].repeat(40) {
        calls.push(desk.turn(which).0);
    }
    let answers = agree(&calls);
    assert_eq!(answers.iter().rev().take(3).collect::<Vec<_>>(), [&STOPPED; 3]);
    assert_eq!(desk.main[65_532..], [0x86, 0x47, 0x01, 0x00]);
    assert_eq!(desk.main[..65_532], found.main[..65_532]);
    for (board, carry) in desk.boards.iter().zip([0, 0x10]) {
        assert_eq!((wx_of(&board.state), board.state[8] & 0x10), (SUMMED_AT, carry));
    }
}

/// An addition in a fence, of main storage that is all of one byte.
fn add_in(byte: u8, [main, local]: [usize; 2], [first, second, length]: [usize; 3], within: Fence) -> Call {
    let operation = Operation::AddIn { carry: 0, within };
    Call::Sum { operation, main: vec![byte; main], local: vec![0x5C; local], first, second, length }
}

/// Additions of 11 and 11 in 100 bytes: the first field is then all 22 and nothing else has changed, or this number refuses it.
fn all_end(cases: &[(Result<(), u64>, [usize; 3], Fence)]) {
    let calls: Vec<Call> = cases.iter().map(|(_, fields, within)| add_in(0x11, [100, 256], *fields, *within)).collect();
    for ((expected, fields, within), (answer, after)) in cases.iter().zip(made(&calls)) {
        let Call::Sum { main, .. } = after else { unreachable!() };
        let mut sum = [0x11; 100];
        if expected.is_ok() {
            sum[fields[0]..fields[0] + fields[2]].fill(0x22);
        }
        let wanted = expected.map_or_else(refused, |()| SUMMED);
        assert_eq!((ending(answer), &main[..]), (wanted, &sum[..]), "{fields:?} in {within:?}");
    }
}

/// Fields that just fit their fence, and the fence one byte less at either end: 13, or an empty fence.
#[test]
fn fields_that_just_fit_their_fence() {
    for (fields, within) in JUST_FIT {
        let less = if within.end - within.start == 1 { 32 } else { 13 };
        let shorter = [fence(within.start + 1, within.end), fence(within.start, within.end - 1)];
        let cases = shorter.map(|within| (Err(less), fields, within));
        all_end(&[&[(Ok(()), fields, within)], &cases[..]].concat());
    }
}

/// Main storage has room for the first of these fields, and the fence has not. The last ones start as far as numbers go.
#[test]
fn a_field_over_either_edge_is_13() {
    let over = [0, 11, 19, 52, 53, 59, 60, 91];
    let far = [92, 100, 0x1_0014, 0x1_0000_0014, MAX / 2, MAX - 9, MAX - 8, MAX - 7, MAX];
    let starts = over.into_iter().chain(far).map(|start| (Err(13), start)).chain([20, 51].map(|start| (Ok(()), start)));
    for ((expected, start), other) in starts.flat_map(|start| [30, 42].map(|other| (start, other))) {
        let fields = [[start, other, 9], [other, start, 9], [start, start, 9]];
        all_end(&fields.map(|fields| (expected, fields, WITHIN)));
    }
}

/// Additions of bad digits that each of 1, 32, 12, 13 and 14 refuses though all later ones would too.
fn add_checks() -> Vec<(u64, Call)> {
    let of = |number: u64, sizes: [usize; 2], fields: [usize; 3], within: Fence| {
        (refused(number), add_in(0xFF, sizes, fields, within))
    };
    let right = |number: u64, fields: [usize; 3]| of(number, [100, 256], fields, WITHIN);
    let mut checks = Vec::new();
    for within in [WITHIN].into_iter().chain(NOT_WITHIN) {
        let sizes = [[0, 256], [65_537, 256], [100, 0], [100, 255], [100, 257]];
        checks.extend(sizes.map(|sizes| of(1, sizes, [99, 98, 0], within)));
    }
    for within in NOT_WITHIN {
        let fields = [[99, 98, 0], [99, 98, 17], [99, 98, 9], [20, 21, 9], [20, 40, 9]];
        checks.extend(fields.map(|fields| of(32, [100, 256], fields, within)));
    }
    for length in [0, 17, 0x101, 0x1_0000_0001, MAX] {
        checks.extend([[99, 98, length], [20, 40, length]].map(|fields| right(12, fields)));
    }
    checks.extend([[19, 20, 9], [20, 19, 9], [52, 51, 9], [51, 52, 9]].map(|fields| right(13, fields)));
    checks.extend((1..9).flat_map(|by| [[20, 20 + by, 9], [20 + by, 20, 9]]).map(|fields| right(14, fields)));
    checks
}

#[test]
fn an_add_in_a_fence_checks_in_order() {
    let (expected, calls): (Vec<u64>, Vec<Call>) = add_checks().into_iter().unzip();
    assert_eq!(agree(&calls), expected);
    assert_eq!(refusals(&expected, 8), BTreeSet::from([1, 12, 13, 14, 32]));
    let bad = [[20, 29, 9], [29, 20, 9], [20, 20, 9], [51, 20, 9]];
    let answers = agree(&bad.map(|fields| add_in(0xFF, [100, 256], fields, WITHIN)));
    assert!(answers.into_iter().all(|answer| ending(answer) == BAD_DIGIT && cycles(answer) > 0));
}

/// An addition in a fence beside the plain one of the same fields: what both answered.
struct Fenced {
    within: Fence,
    fields: [usize; 3],
    main_len: usize,
    plain: u64,
    answer: u64,
}

impl Fenced {
    fn stands(&self) -> bool {
        self.within.start < self.within.end && self.within.end <= self.main_len
    }

    /// Whether both fields are in the fence, where the plain addition has found them in main storage.
    fn holds(&self) -> bool {
        let [first, second, length] = self.fields;
        [first, second].into_iter().all(|start| start >= self.within.start && start + length <= self.within.end)
    }

    /// What the papers make of the answer of the plain one.
    fn expected(&self) -> u64 {
        match self.plain {
            plain if plain == refused(1) => plain,
            _ if !self.stands() => refused(32),
            plain if plain == refused(12) || plain == refused(13) => plain,
            _ if !self.holds() => refused(13),
            plain => plain,
        }
    }

    /// Neither refused.
    fn is_done(&self) -> bool {
        self.answer & 0xFF != REFUSED
    }

    fn lowest(&self) -> usize {
        self.fields[0].min(self.fields[1])
    }

    /// Where the higher field ends.
    fn last(&self) -> usize {
        self.fields[0].max(self.fields[1]).saturating_add(self.fields[2])
    }

    /// Refused by 13 for the fence alone.
    fn is_over(&self) -> bool {
        self.answer == refused(13) && self.plain != refused(13)
    }
}

/// A fence round all of main storage, or at the edges of the fields, or wrong.
fn draw_within(random: &mut Random, [first, second, length]: [usize; 3], main_len: usize) -> Fence {
    let (low, last) = (first.min(second), first.max(second).saturating_add(length));
    let starts = [0, 0, 0, low, low, low.saturating_sub(1), low.saturating_add(1), first.max(second)];
    let ends = [main_len, main_len, main_len, last, last, last.saturating_add(1), last.saturating_sub(1)];
    let within = fence(one_of(random, &starts), one_of(random, &ends));
    match random.below(16) {
        0 => fence(within.start, within.start),
        1 => fence(within.end, within.start),
        2 => fence(within.start, main_len + 1),
        3 => fence(within.start, MAX),
        4 => fence(MAX, within.end),
        _ => within,
    }
}

/// The plain addition, and the same one in a fence.
fn draw_both(random: &mut Random) -> [Call; 2] {
    let plain = draw_add(random);
    let call = draw_sum(random, plain);
    let (Operation::Add { carry }, Call::Sum { main, first, second, length, .. }) = (plain, &call) else {
        unreachable!()
    };
    let within = draw_within(random, [*first, *second, *length], main.len());
    let mut fenced = call.clone();
    if let Call::Sum { operation, .. } = &mut fenced {
        *operation = Operation::AddIn { carry, within };
    }
    [call, fenced]
}

const FENCED: [Kind<Fenced>; 21] = [
    ("round all", |case| case.is_done() && case.within == fence(0, case.main_len)),
    ("round all of 65,536", |case| case.is_done() && case.within == fence(0, 65_536)),
    ("round all, refused as the plain one", |case| {
        case.answer == case.plain && !case.is_done() && case.within == fence(0, case.main_len)
    }),
    ("just round the fields", |case| case.is_done() && case.within == fence(case.lowest(), case.last())),
    ("just round one field twice", |case| {
        case.is_done() && case.fields[0] == case.fields[1] && case.within == fence(case.lowest(), case.last())
    }),
    ("a bad digit in it", |case| case.answer & 0xFF == BAD_DIGIT && case.within.start > 0),
    ("the first before the start", |case| case.is_over() && case.fields[0] + 1 == case.within.start),
    ("the second before the start", |case| case.is_over() && case.fields[1] + 1 == case.within.start),
    ("the first past the end", |case| case.is_over() && case.fields[0] + case.fields[2] == case.within.end + 1),
    ("the second past the end", |case| case.is_over() && case.fields[1] + case.fields[2] == case.within.end + 1),
    ("13 before 14", |case| case.is_over() && case.plain == refused(14)),
    ("13 for a bad digit", |case| case.is_over() && case.plain & 0xFF == BAD_DIGIT),
    ("empty", |case| case.answer == refused(32) && case.within.start == case.within.end),
    ("its end before its start", |case| case.answer == refused(32) && case.within.end < case.within.start),
    ("one past the end", |case| case.answer == refused(32) && case.within.end == case.main_len + 1),
    ("as far as numbers go", |case| case.answer == refused(32) && case.within.end == MAX),
    ("32 before 12", |case| case.answer == refused(32) && case.plain == refused(12)),
    ("32 before 13", |case| case.answer == refused(32) && case.plain == refused(13)),
    ("32 before 14", |case| case.answer == refused(32) && case.plain == refused(14)),
    ("1 before 32", |case| case.answer == refused(1) && !case.stands()),
    ("12 in a right fence", |case| case.answer == refused(12)),
];

/// In a fence an addition is the plain one, with its carry, count and storages, but for 32 and 13.
#[test]
fn adds_in_a_fence_are_adds() {
    let random = &mut Random::new(251);
    let calls: Vec<[Call; 2]> = (0..12_000).map(|_| draw_both(random)).collect();
    let in_fences: Vec<Call> = calls.iter().map(|[_, fenced]| fenced.clone()).collect();
    sums_agree(&in_fences, &[1, 12, 13, 14, 32]);
    let mut seen = Vec::new();
    for (both, fenced) in made(&calls.concat()).chunks(2).zip(in_fences) {
        let [(plain, after), (answer, left)] = both else { unreachable!() };
        let Call::Sum { operation: Operation::AddIn { within, .. }, main, first, second, length, .. } = &fenced else {
            unreachable!()
        };
        let fields = [*first, *second, *length];
        let case = Fenced { within: *within, fields, main_len: main.len(), plain: *plain, answer: *answer };
        assert_eq!(*answer, case.expected(), "{fields:?} in {within:?}");
        assert!(!case.is_done() || left.told(0) == after.told(0), "{fields:?} in {within:?}");
        seen.push(case);
    }
    each_occurs(&FENCED, &seen);
}
