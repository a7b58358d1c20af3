//! Two boards at one store and one main storage: the opening, 11 by the board's own fence, the order of a turn's refusals, what
//! a turn may change, that neither board can tell what the other does, the shipped words in a session, and the decimal entry in
//! a fence.

mod common;

use common::fences::{
    self, board_at, draw_fences, draw_seated, fence, in_fence, in_the_gap, in_the_others, main_address, opens_by_bytes,
    reading_at, sizes_fit, writes, writing_at, Fields, Order, Session, Summed, EDGES, JUST_FIT, MAIN_BY, MAX,
    NOT_WITHIN, OPENINGS, ORDERS, READS, RIGHT, SESSIONS, SUMS, TURNS_TAKEN, WITHIN, WRONG, WRONG_SIZES,
};
use common::{
    bench_of, draw_bytes, draw_field, each_occurs, in_either, lent, lent_to_go_on, one_of, schoolbook, Bench, Codes,
    Kind, PA_BIT, PC_BIT, PK_BIT, PN_BIT, PS_BIT, STOP, TO_CU_2,
};
use second::cycle::{cycle_in, Answer};
use second::decimal::{add_decimal, add_decimal_in, Outcome};
use second::panel;
use second::random::Random;
use second::reading::Reading;
use second::run::Ending;
use second::session::{add_counted, open, turn, Fence};
use second::shipped::{run_shipped, start, SHIPPED, SUMMED_AT};
use second::state::{State, I, J, L, LATCHES, M, N, R, RECORD, S, U};
use second::word::{build, split, CM};
use std::collections::BTreeSet;

fn refused(number: u8) -> Answer {
    Answer::Refused { number, field: 0 }
}

// ---- openings

/// What an opening comes to, by the engine and by the panel, in either order of the fences.
fn opened(main_len: usize, a: Fence, b: Fence) -> bool {
    let answers = [open(main_len, a, b), open(main_len, b, a)];
    let numbers = [[a, b], [b, a]].map(|[a, b]| panel::open(main_len, [a.start, a.end], [b.start, b.end]));
    let accepted = answers[0].is_ok();
    let (answer, number) = if accepted { (Ok(()), 0) } else { (Err(32), 32) };
    assert_eq!((answers, numbers), ([answer; 2], [number; 2]), "{a:?} and {b:?} in {main_len}");
    accepted
}

#[test]
fn openings_by_hand() {
    for (main_len, a, b, accepted) in OPENINGS {
        assert_eq!(opened(main_len, a, b), accepted, "{a:?} and {b:?} in {main_len}");
    }
}

#[test]
fn every_small_opening_is_by_its_bytes() {
    let mut accepted = 0;
    for main_len in 0..=5 {
        let edges = 0..=main_len + 2;
        let fences: Vec<Fence> =
            edges.clone().flat_map(|start| edges.clone().map(move |end| fence(start, end))).collect();
        for (&a, &b) in fences.iter().flat_map(|a| fences.iter().map(move |b| (a, b))) {
            assert_eq!(opened(main_len, a, b), opens_by_bytes(main_len, [a, b]), "{a:?} and {b:?} in {main_len}");
            accepted += u32::from(opened(main_len, a, b));
        }
    }
    // Of n bytes, twice the ways to choose 4 edges of n + 1, and 3 where the two touch: 2 * (C(n+1,4) + C(n+1,3)).
    assert_eq!(accepted, 2 * (1 + 5 + 15 + 35));
}

// ---- 11 by the fence

/// A turn on the bench, in the first fence and beside the second.
fn turn_on(bench: &mut Bench, [own, other]: [Fence; 2]) -> Answer {
    turn(bench.reading, &bench.store, &mut bench.main, &mut bench.local, &mut bench.state, own, other)
}

/// A turn that must not run, and must change nothing.
fn answers(bench: &Bench, fences: [Fence; 2], expected: Answer) {
    let mut after = bench.clone();
    assert_eq!(turn_on(&mut after, fences), expected, "{fences:?}");
    assert_eq!(after, *bench);
}

/// A turn that must run, and what it leaves.
fn runs(bench: &Bench, fences: [Fence; 2]) -> Bench {
    let mut after = bench.clone();
    assert_eq!(turn_on(&mut after, fences), Answer::Ran, "{fences:?} at {:X?}", bench.state.registers);
    after
}

/// Main storage is selected at the address, and nothing of either storage has changed.
fn has_selected(after: &Bench, before: &Bench, address: u16) {
    assert_eq!([after.get(M), after.get(N)], address.to_be_bytes());
    assert!(!after.state.local && after.state.allow_write);
    assert_eq!((&after.main, &after.local, after.get(R)), (&before.main, &before.local, 0x33));
}

#[test]
fn a_read_fetches_in_the_own_fence_alone() {
    for (fences, inside, outside) in EDGES {
        for ((cm, high, low), by) in READS.into_iter().flat_map(|read| MAIN_BY.map(|by| (read, by))) {
            for &address in inside {
                let before = reading_at(cm, by, high, low, address);
                let after = runs(&before, fences);
                has_selected(&after, &before, address);
                let byte = before.main[usize::from(address)];
                assert_eq!((after.state.arriving, after.state.arriving_byte), (true, byte), "CM {cm} at {address:X}");
            }
            for &address in outside {
                answers(&reading_at(cm, by, high, low, address), fences, refused(11));
            }
        }
    }
}

#[test]
fn a_read_with_the_latch_on_takes_any_address() {
    for (fences, inside, outside) in EDGES {
        for ((cm, high, low), by) in READS.into_iter().flat_map(|read| MAIN_BY.map(|by| (read, by))) {
            for &address in inside.iter().chain(outside) {
                let mut before = reading_at(cm, by, high, low, address);
                before.state.allow_write = true;
                let after = runs(&before, fences);
                has_selected(&after, &before, address);
                assert!(!after.state.arriving, "CM {cm} at {address:X}");
            }
        }
    }
}

#[test]
fn a_write_puts_its_byte_in_the_own_fence_alone() {
    for (fences, inside, outside) in EDGES {
        for (cm, cu) in writes() {
            for &address in inside {
                let before = writing_at(cm, cu, address, true);
                let after = runs(&before, fences);
                let mut main = before.main.clone();
                main[usize::from(address)] = if cm == 0 { 0x33 } else { 0x44 };
                assert_eq!((&after.main, &after.local), (&main, &before.local), "CM {cm} at {address:X}");
                assert!(!after.state.allow_write);
            }
            for &address in outside {
                answers(&writing_at(cm, cu, address, true), fences, refused(11));
            }
        }
    }
}

#[test]
fn a_write_with_the_latch_off_may_stand_anywhere() {
    for (fences, inside, outside) in EDGES {
        for ((cm, cu), &address) in writes().flat_map(|write| inside.iter().chain(outside).map(move |at| (write, at))) {
            let before = writing_at(cm, cu, address, false);
            let after = runs(&before, fences);
            assert_eq!((&after.main, &after.local), (&before.main, &before.local), "CM {cm} at {address:X}");
        }
    }
}

/// Any N, though no fence has such a byte: local storage is a board's own.
#[test]
fn local_storage_has_no_fence() {
    for ((fences, ..), n) in EDGES.into_iter().flat_map(|edges| [0, 1, 5, 0x7F, 0x80, 0xFF].map(|n| (edges, n))) {
        for ((cm, high, low), by) in
            READS.into_iter().flat_map(|read| [(1, 0xFF), (3, 0x3F), (3, 0)].map(|by| (read, by)))
        {
            let before = reading_at(cm, by, high, low, 0x9900 + n);
            let after = runs(&before, fences);
            let byte = before.local[usize::from(n)];
            assert_eq!((after.state.local, after.state.arriving_byte), (true, byte), "CM {cm} at {n:X}");
        }
        for (cm, cu) in writes() {
            let mut before = writing_at(cm, cu, 0x9900 + n, true);
            before.state.local = true;
            let after = runs(&before, fences);
            let mut local = before.local.clone();
            local[usize::from(n)] = if cm == 0 { 0x33 } else { 0x44 };
            assert_eq!((&after.main, &after.local), (&before.main, &local), "CM {cm} at {n:X}");
        }
    }
}

// ---- the order of refusals

/// A bench of one word, whatever it is. Every pair is outside all fences, so that 11 would be given where it is asked.
fn with_word(word: u64) -> Bench {
    let mut bench = Bench::new(256);
    bench.store[0] = word;
    bench.set(&[(I, 0xEE), (U, 0xEE), (L, 0xEE), (M, 0xEE)]);
    bench.state.allow_write = false;
    bench
}

/// What refuses or stops a word of a read that 11 would refuse too, from 2 on.
fn by_number() -> Vec<(Answer, Bench)> {
    let of = |codes: Codes| build(0, &[&[("CM", 3), ("CA", 4)], codes].concat()).unwrap();
    let plain = of(&[]);
    let module = of(&[("CL", 2)]);
    let twice = build(0, &[("CL", 2), ("CA", 3)]).unwrap() ^ TO_CU_2;
    let mut outside = with_word(plain);
    outside.state.wx = 256;
    let unmodelled = of(&[("CS", 14)]);
    let mut all = vec![(refused(2), outside)];
    let words = [
        (3, plain | 1 << 60),
        (4, plain ^ PN_BIT),
        (5, plain ^ PA_BIT ^ PS_BIT),
        (6, plain ^ PS_BIT),
        (7, plain ^ PC_BIT),
        (8, twice),
        (9, module ^ PK_BIT ^ PS_BIT),
        (11, plain),
    ];
    all.extend(words.map(|(number, word)| (refused(number), with_word(word))));
    all.push((Answer::Stopped, with_word(of(STOP))));
    all.push((Answer::Refused { number: 10, field: 20 }, with_word(unmodelled)));
    all
}

/// The bench with each size wrong in each way.
fn wrong_sizes(bench: &Bench) -> [Bench; 6] {
    WRONG_SIZES.map(|[words, main, local]| {
        let mut bench = bench.clone();
        bench.store.resize(words, bench.store[0]);
        bench.main.resize(main, 0x5A);
        bench.local.resize(local, 0x5A);
        bench
    })
}

#[test]
fn a_turn_checks_1_then_32_then_what_a_cycle_checks() {
    for (expected, bench) in by_number() {
        answers(&bench, RIGHT, expected);
        for fences in WRONG {
            answers(&bench, fences, refused(32));
        }
        for bench in wrong_sizes(&bench) {
            for fences in WRONG.into_iter().chain([RIGHT]) {
                answers(&bench, fences, refused(1));
            }
        }
    }
    let numbers: BTreeSet<String> = by_number().iter().map(|(answer, _)| format!("{answer:?}")).collect();
    assert_eq!(numbers.len(), 11, "2 to 11, and the stop");
}

/// A word that would run, in right fences, is refused by 32 in wrong ones and by 1 beside wrong sizes.
#[test]
fn a_turn_of_a_good_word_is_refused_by_1_and_32_too() {
    for codes in [&[][..], &[("CM", 0)], &[("CM", 3)], &[("CM", 3), ("CU", 1)]] {
        let bench = Bench::one(codes);
        runs(&bench, RIGHT);
        for fences in WRONG {
            answers(&bench, fences, refused(32));
        }
        for bench in wrong_sizes(&bench) {
            answers(&bench, RIGHT, refused(1));
        }
    }
}

/// The fences are of main storage as it is lent.
#[test]
fn the_end_of_main_storage_is_its_length() {
    for (main_len, end) in [(20, 20), (21, 21), (256, 256), (65_536, 65_536)] {
        let mut bench = Bench::one(&[]);
        bench.main.resize(main_len, 0);
        for fences in [[fence(0, 10), fence(10, end)], [fence(10, end), fence(0, 10)]] {
            runs(&bench, fences);
            let past = fences.map(|Fence { start, end }| fence(start, if start == 10 { end + 1 } else { end }));
            answers(&bench, past, refused(32));
        }
    }
}

// ---- a turn beside the plain cycle

/// A turn, and what the plain cycle from there would have been.
struct Turn {
    bench: Bench,
    fences: [Fence; 2],
    plain: Answer,
    answer: Answer,
}

impl Turn {
    /// The main address that is asked for, where only 11 is left to refuse it.
    fn address(&self) -> Option<usize> {
        let left = [Answer::Ran, refused(11)].contains(&self.answer);
        main_address(&self.bench).filter(|_| left)
    }

    fn is_read(&self) -> bool {
        split(self.bench.store[usize::from(self.bench.state.wx)])[CM] > 2
    }

    /// 11, by an address that is so by its own fence, the other's and main storage's length.
    fn is_refused_at(&self, is: fn(usize, [Fence; 2], usize) -> bool) -> bool {
        let at = |address| is(address, self.fences, self.bench.main.len());
        self.answer == refused(11) && self.address().is_some_and(at)
    }
}

/// The turn, held to the plain cycle: refused by 1 and by 32 first, and by 11 where the byte is not in the fence; else alike.
fn beside_the_cycle(bench: Bench, fences: [Fence; 2]) -> Turn {
    let (mut after, mut plain) = (bench.clone(), bench.clone());
    let (answer, plainly) = (turn_on(&mut after, fences), plain.cycle());
    let out = main_address(&bench).is_some_and(|address| !in_fence(fences[0], address));
    let expected = if !sizes_fit(&bench) {
        (refused(1), &bench)
    } else if !opens_by_bytes(bench.main.len(), fences) {
        (refused(32), &bench)
    } else if plainly == Answer::Ran && out {
        (refused(11), &bench)
    } else {
        (plainly, &plain)
    };
    assert_eq!((answer, &after), expected, "{fences:?}");
    Turn { bench, fences, plain: plainly, answer }
}

const TURNS: [Kind<Turn>; 24] = [
    ("a fetch in the fence", |case| case.answer == Answer::Ran && case.address().is_some() && case.is_read()),
    ("a write in the fence", |case| case.answer == Answer::Ran && case.address().is_some() && !case.is_read()),
    ("at the start", |case| case.answer == Answer::Ran && case.address() == Some(case.fences[0].start)),
    ("the last byte", |case| case.answer == Answer::Ran && case.address() == Some(case.fences[0].end - 1)),
    ("refused before the start", |case| case.is_refused_at(|at, [own, _], _| at + 1 == own.start)),
    ("refused at the end", |case| case.is_refused_at(|at, [own, _], _| at == own.end)),
    ("a fetch refused in the other's fence", |case| case.is_refused_at(in_the_others) && case.is_read()),
    ("a write refused in the other's fence", |case| case.is_refused_at(in_the_others) && !case.is_read()),
    ("a fetch refused in neither", |case| case.is_refused_at(in_the_gap) && case.is_read()),
    ("a write refused in neither", |case| case.is_refused_at(in_the_gap) && !case.is_read()),
    ("refused outside main storage", |case| case.is_refused_at(|at, _, main_len| at >= main_len)),
    ("the plain cycle would have run", |case| case.answer == refused(11) && case.plain == Answer::Ran),
    ("ran with no main byte", |case| case.answer == Answer::Ran && case.address().is_none()),
    ("a read of local storage", |case| case.answer == Answer::Ran && case.address().is_none() && case.is_read()),
    ("stopped", |case| case.answer == Answer::Stopped),
    ("refused by 1", |case| case.answer == refused(1)),
    ("refused by 1 beside wrong fences", |case| {
        case.answer == refused(1) && !opens_by_bytes(case.bench.main.len(), case.fences)
    }),
    ("refused by 32", |case| case.answer == refused(32)),
    ("refused by 32 for 2", |case| case.answer == refused(32) && case.plain == refused(2)),
    ("refused by 32 for a stop", |case| case.answer == refused(32) && case.plain == Answer::Stopped),
    ("refused by 2", |case| case.answer == refused(2)),
    ("refused by 10", |case| matches!(case.answer, Answer::Refused { number: 10, .. })),
    ("ran in compatibility", |case| case.answer == Answer::Ran && case.bench.reading == Reading::Compatibility),
    ("the fences touch", |case| case.answer == Answer::Ran && case.fences[0].end == case.fences[1].start),
];

#[test]
fn a_turn_is_the_plain_cycle_but_for_the_fence() {
    let random = &mut Random::new(131);
    let mut seen = Vec::new();
    for _ in 0..12_000 {
        let drawn = bench_of(lent(random, 4));
        let mut bench = in_either(random, drawn);
        let fences = draw_fences(random, bench.main.len(), 8);
        let wx = bench.state.wx;
        bench.state = State { wx, ..draw_seated(random, bench.store.len(), fences) };
        seen.push(beside_the_cycle(bench, fences));
    }
    each_occurs(&TURNS, &seen);
}

// ---- two boards

/// A board's fence, local storage and state.
#[derive(Clone, Debug, PartialEq)]
struct Seat {
    fence: Fence,
    local: Vec<u8>,
    state: State,
}

/// One store under one reading, one main storage, and board A and board B, which are 0 and 1.
#[derive(Clone, Debug, PartialEq)]
struct Desk {
    reading: Reading,
    store: Vec<u64>,
    main: Vec<u8>,
    boards: [Seat; 2],
}

impl Desk {
    /// A board's own fence and the other's.
    fn fences(&self, which: usize) -> [Fence; 2] {
        [which, 1 - which].map(|board| self.boards[board].fence)
    }

    fn turn(&mut self, which: usize) -> Answer {
        let [own, other] = self.fences(which);
        let Seat { local, state, .. } = &mut self.boards[which];
        turn(self.reading, &self.store, &mut self.main, local, state, own, other)
    }

    fn opens(&self) -> bool {
        opens_by_bytes(self.main.len(), self.fences(0))
    }

    /// The bytes of a board's fence, where the fences are right.
    fn bytes(&self, which: usize) -> &[u8] {
        let Fence { start, end } = self.boards[which].fence;
        &self.main[start..end]
    }

    /// Main storage with both fences' bytes taken as 0.
    fn outside(&self) -> Vec<u8> {
        let fences = self.fences(0);
        let outside = |at: usize| fences.iter().all(|fence| !in_fence(*fence, at));
        self.main.iter().enumerate().map(|(at, byte)| if outside(at) { *byte } else { 0 }).collect()
    }
}

/// What a board has of main storage, where the fences are right, and its own.
fn own_of(desk: &Desk, which: usize) -> (&Seat, &[u8]) {
    (&desk.boards[which], if desk.opens() { desk.bytes(which) } else { &desk.main })
}

// ---- neither board can tell what the other does

/// A store of drawn words, mostly ones that run, under either reading, and two boards in drawn fences, seldom wrong.
fn draw_desk(random: &mut Random) -> Desk {
    let drawn = bench_of(if random.below(2) == 0 { lent_to_go_on(random) } else { lent(random, 100) });
    let Bench { store, reading, .. } = in_either(random, drawn);
    let store = if (1..=4096).contains(&store.len()) { store } else { vec![0; 4] };
    let main_len = one_of(random, &[2, 3, 64, 255, 256, 257, 1024, 1024]);
    let main = draw_bytes(random, main_len);
    let fences = draw_fences(random, main_len, 16);
    let boards = [0, 1].map(|which| {
        let fences = [fences[which], fences[1 - which]];
        let state = draw_seated(random, store.len(), fences);
        Seat { fence: fences[0], local: draw_bytes(random, 256), state }
    });
    Desk { reading, store, main, boards }
}

/// A session of two boards beside each board alone, which takes the same turns with the other's left out.
struct Beside {
    together: Desk,
    alone: [Desk; 2],
}

/// A turn of one board in both: the answer, its states, its local storage and the bytes of its fence are alike, and all else
/// is as it was.
fn turn_beside(beside: &mut Beside, which: usize) -> Answer {
    let Beside { together, alone } = beside;
    let (before, board) = (together.clone(), &mut alone[which]);
    let answer = together.turn(which);
    assert_eq!(board.turn(which), answer);
    assert_eq!(own_of(together, which), own_of(board, which));
    assert_eq!(own_of(together, 1 - which), own_of(&before, 1 - which), "the other board's own");
    assert_eq!(together.outside(), before.outside(), "bytes in neither fence");
    if answer != Answer::Ran {
        assert_eq!(*together, before);
    }
    answer
}

/// The turn is the cycle that a board has with no other board in the world.
fn is_the_cycle_alone(before: &Desk, which: usize, answer: Answer, after: &Desk) {
    let mut alone = before.clone();
    let Seat { fence, local, state } = &mut alone.boards[which];
    let alone_answer = cycle_in(before.reading, &before.store, &mut alone.main, local, state, *fence);
    assert_eq!((alone_answer, &alone), (answer, after));
}

/// Turns in a drawn order. A board that did not run is seated anew, in the session and alone.
fn in_session(random: &mut Random, order: Order) -> Session {
    let found = draw_desk(random);
    let mut beside = Beside { together: found.clone(), alone: [found.clone(), found.clone()] };
    let (opens, mut turns) = (found.opens(), Vec::new());
    for k in 0..TURNS_TAKEN {
        let which = board_at(random, order, k);
        let before = beside.together.clone();
        let answer = turn_beside(&mut beside, which);
        if opens {
            is_the_cycle_alone(&before, which, answer, &beside.together);
        } else {
            assert_eq!(answer, refused(32));
        }
        turns.push((which, number_of(answer)));
        if answer != Answer::Ran {
            let state = draw_seated(random, found.store.len(), found.fences(which));
            beside.together.boards[which].state = state;
            beside.alone[which].boards[which].state = state;
        }
    }
    let (basic, main) = (found.reading == Reading::Basic, [&found.main[..], &beside.together.main]);
    Session::of(order, basic, found.fences(0), main, &turns)
}

#[test]
fn neither_board_can_tell_what_the_other_does() {
    let random = &mut Random::new(132);
    let seen: Vec<Session> = (0..600).map(|k| in_session(random, ORDERS[k % 6])).collect();
    each_occurs(&SESSIONS, &seen);
    assert!(seen.iter().all(|case| case.opens == (case.closed == 0)));
}

/// By hand: each counts the one byte of its fence up, three cycles a time, and the two bytes touch. Neither may look at the
/// other's.
#[test]
fn two_boards_by_hand() {
    let mut bench = Bench::new(4);
    // R takes the byte at IJ, one more, and goes back there.
    bench.then(0, 1, &[("CM", 3)]);
    bench.then(1, 2, &[("CA", 7), ("CB", 3), ("CK", 1), ("CD", 7), ("CF", 3), ("CG", 1)]);
    bench.then(2, 0, &[("CM", 0)]);
    let seat = |start: usize, fill: u8| {
        let mut state = State::default();
        [state.registers[I], state.registers[J]] = (start as u16).to_be_bytes();
        Seat { fence: fence(start, start + 1), local: vec![fill; 256], state }
    };
    let boards = [seat(0x1FF, 0xA0), seat(0x200, 0xB0)];
    let mut desk = Desk { reading: Reading::Basic, store: bench.store, main: vec![0; 1024], boards };
    let orders = [("ABABABABABAB", [2, 2]), ("AAABBBAAABBB", [2, 2]), ("AABBABABABAB", [2, 2]), ("AAAAAABBB", [2, 1])];
    let mut expected = [0, 0];
    for (order, [by_a, by_b]) in orders {
        for letter in order.bytes() {
            assert_eq!(desk.turn(usize::from(letter - b'A')), Answer::Ran, "{order}");
        }
        expected = [expected[0] + by_a, expected[1] + by_b];
        assert_eq!(desk.main[0x1FF..0x201], expected, "{order}");
    }
    assert_eq!((desk.boards[0].local.clone(), desk.boards[1].local.clone()), (vec![0xA0; 256], vec![0xB0; 256]));
    assert_eq!(desk.main.iter().filter(|byte| **byte != 0).count(), 2);
    // A looks at B's byte, and at one that nobody has.
    for address in [0x200u16, 0x1FE] {
        let mut astray = desk.clone();
        [astray.boards[0].state.registers[I], astray.boards[0].state.registers[J]] = address.to_be_bytes();
        let before = astray.clone();
        assert_eq!(astray.turn(0), refused(11));
        assert_eq!(astray, before);
    }
}

// ---- the shipped words in a session

fn started(fields: &Fields) -> State {
    start(fields.first as u16, fields.second as u16, fields.length as u8, fields.carry)
}

/// Two boards on the shipped words, the first of them in drawn fields, which may hold a bad digit.
fn draw_sums(random: &mut Random) -> (Desk, [Fields; 2]) {
    let low = one_of(random, &[0, 1, 0xE0, 0x1F0, 0x4321, 0xFF00]);
    let (main, fences, fields) = fences::draw_sums(random, low);
    let seat =
        |which: usize| Seat { fence: fences[which], local: draw_bytes(random, 256), state: started(&fields[which]) };
    (Desk { reading: Reading::Basic, store: SHIPPED.to_vec(), main, boards: [0, 1].map(seat) }, fields)
}

/// What board A must come to: the bytes of its fence, its carry, none for a bad digit; by schoolbook.
fn expected_sum(desk: &Desk, fields: &Fields) -> (Vec<u8>, Option<bool>) {
    let Fields { first, second, length, carry } = *fields;
    let field = |start: usize| &desk.main[start..start + length];
    let mut bytes = desk.bytes(0).to_vec();
    let good = [first, second].iter().all(|&at| field(at).iter().all(|byte| byte / 16 <= 9 && byte % 16 <= 9));
    if !good {
        return (bytes, None);
    }
    let (sum, carry_out) = schoolbook(field(first), field(second), carry);
    let at = first - desk.boards[0].fence.start;
    bytes[at..at + length].copy_from_slice(&sum);
    (bytes, Some(carry_out))
}

/// How many cycles the same words take from there on a bench of their own, with no fence.
fn cycles_alone(desk: &Desk) -> u64 {
    let Desk { reading, store, main, boards: [Seat { local, state, .. }, _] } = desk.clone();
    let mut bench = Bench { reading, store, main, local, state };
    let (ending, count) = bench.run(1_000_000);
    assert_eq!(ending, Ending::Stopped);
    count
}

/// What the other board does meanwhile: it adds, or it goes about in the words from any state.
fn seat_other(random: &mut Random, desk: &mut Desk, fields: &Fields) -> bool {
    let adds = random.below(2) == 0;
    desk.boards[1].state = if adds { started(fields) } else { draw_seated(random, SHIPPED.len(), desk.fences(1)) };
    adds
}

/// Board A has its cycles, each of which runs, and then the turn that stops: the ending is right there, and not before.
fn summed_beside_another(random: &mut Random, order: Order) -> Summed {
    let (mut desk, [fields, others]) = draw_sums(random);
    seat_other(random, &mut desk, &others);
    let (found, cycles) = (desk.clone(), cycles_alone(&desk));
    let (bytes, carry) = expected_sum(&desk, &fields);
    assert!(cycles <= 40 * fields.length as u64 + 40);
    let (mut had, mut did) = (0, Vec::new());
    for k in 0.. {
        let which = board_at(random, order, k);
        let answer = desk.turn(which);
        if which == 1 {
            did.push(number_of(answer));
            if answer != Answer::Ran {
                seat_other(random, &mut desk, &others);
            }
            continue;
        }
        had += 1;
        assert_eq!(answer, if had <= cycles { Answer::Ran } else { Answer::Stopped }, "turn {had} of {cycles}");
        if had > cycles {
            break;
        }
    }
    let Seat { state, local, .. } = &desk.boards[0];
    assert_eq!(state.wx == SUMMED_AT, carry.is_some(), "stopped at {:03X}", state.wx);
    assert!(carry.is_none_or(|carry| carry == (state.registers[S] & 0x10 != 0)));
    assert_eq!((desk.bytes(0), local), (&bytes[..], &found.boards[0].local), "{fields:?}");
    Summed::of(order, (fields, carry), found.fences(0), [&found.main, &desk.main], &did)
}

#[test]
fn the_shipped_words_end_in_a_session_after_their_own_cycles() {
    let random = &mut Random::new(133);
    let seen: Vec<Summed> = (0..600).map(|k| summed_beside_another(random, ORDERS[k % 6])).collect();
    each_occurs(&SUMS, &seen);
}

// ---- the decimal entry in a fence

/// An add over bytes of main storage, by the engine, by the engine with its count, and by the panel: all alike.
fn added(main: &mut [u8], local: &[u8], fields: &Fields, within: Fence) -> (Outcome, u64) {
    let Fields { first, second, length, carry } = *fields;
    let (before, mut counted, mut paneled) = (main.to_vec(), main.to_vec(), main.to_vec());
    let mut panel_local = local.to_vec();
    let outcome = add_decimal_in(main, local, first, second, length, carry, within);
    let (same, count) = add_counted(&mut counted, local, first, second, length, carry, within);
    let ends = [within.start, within.end];
    let code = panel::add_in(&mut paneled, &mut panel_local, first, second, length, 7 * u8::from(carry), ends);
    let expected = match outcome {
        Outcome::Summed { carry } => 4 + 65_536 * u64::from(carry) + (count << 32),
        Outcome::BadDigit => 5 + (count << 32),
        Outcome::Refused { number } => 2 + 256 * u64::from(number),
    };
    assert_eq!((same, code), (outcome, expected), "{fields:?} in {within:?}");
    assert!(counted == main && paneled == main && panel_local == local);
    if !matches!(outcome, Outcome::Summed { .. }) {
        assert_eq!(main, before);
    }
    assert_eq!(count == 0, matches!(outcome, Outcome::Refused { .. }));
    (outcome, count)
}

/// What an add of 100 bytes in a fence comes to; all digits are 1, and there is no carry.
fn outcome_of([first, second, length]: [usize; 3], within: Fence) -> Outcome {
    added(&mut [0x11; 100], &[0x5C; 256], &Fields { first, second, length, carry: false }, within).0
}

const SUMMED: Outcome = Outcome::Summed { carry: false };

fn refuses(number: u8) -> Outcome {
    Outcome::Refused { number }
}

#[test]
fn fields_that_just_fit_their_fence() {
    for (fields, within) in JUST_FIT {
        assert_eq!(outcome_of(fields, within), SUMMED, "{fields:?} in {within:?}");
        // One byte less at either end is 13, or an empty fence.
        let less = if within.end - within.start == 1 { refuses(32) } else { refuses(13) };
        assert_eq!(outcome_of(fields, fence(within.start + 1, within.end)), less);
        assert_eq!(outcome_of(fields, fence(within.start, within.end - 1)), less);
    }
}

#[test]
fn thirteen_for_a_field_over_either_edge() {
    // Main storage has room for each of them.
    for other in [30, 42] {
        for (start, number) in [(19, 13), (52, 13), (53, 13), (60, 13), (59, 13), (0, 13), (91, 13), (20, 0), (51, 0)] {
            let expected = if number == 0 { SUMMED } else { refuses(number) };
            assert_eq!(outcome_of([start, other, 9], WITHIN), expected, "{start}");
            assert_eq!(outcome_of([other, start, 9], WITHIN), expected, "{start}");
        }
    }
    for start in [MAX, MAX - 8, MAX - 9, MAX / 2, 65_536, 100] {
        assert_eq!(outcome_of([start, 30, 9], WITHIN), refuses(13), "{start}");
        assert_eq!(outcome_of([30, start, 9], WITHIN), refuses(13), "{start}");
        assert_eq!(outcome_of([start, start, 9], WITHIN), refuses(13), "{start}");
    }
}

#[test]
fn an_add_checks_1_then_32_then_12_13_14() {
    let mut bad = [0xFF; 100];
    let of = |main: &mut [u8], local: usize, [first, second, length]: [usize; 3], within: Fence| {
        let fields = Fields { first, second, length, carry: true };
        added(main, &vec![0x5C; local], &fields, within).0
    };
    // Wrong in all that is named from its number on.
    for within in NOT_WITHIN {
        assert_eq!(of(&mut bad, 255, [99, 98, 0], within), refuses(1));
        assert_eq!(of(&mut bad, 257, [20, 40, 1], within), refuses(1));
        for fields in [[99, 98, 0], [99, 98, 17], [99, 98, 9], [20, 21, 9], [20, 40, 9]] {
            assert_eq!(of(&mut bad, 256, fields, within), refuses(32), "{within:?}");
        }
    }
    for (main_len, local) in [(0, 256), (65_537, 256), (100, 255), (100, 257)] {
        for within in [WITHIN, fence(0, 0), fence(0, MAX)] {
            assert_eq!(of(&mut vec![0xFF; main_len], local, [99, 98, 0], within), refuses(1));
        }
    }
    for length in [0, 17, MAX] {
        assert_eq!(of(&mut bad, 256, [99, 98, length], WITHIN), refuses(12));
        assert_eq!(of(&mut bad, 256, [20, 40, length], WITHIN), refuses(12));
    }
    assert_eq!(of(&mut bad, 256, [19, 20, 9], WITHIN), refuses(13));
    assert_eq!(of(&mut bad, 256, [52, 51, 9], WITHIN), refuses(13));
    for by in 1..9 {
        assert_eq!(of(&mut bad, 256, [20, 20 + by, 9], WITHIN), refuses(14));
        assert_eq!(of(&mut bad, 256, [20 + by, 20, 9], WITHIN), refuses(14));
    }
    assert_eq!(of(&mut bad, 256, [20, 29, 9], WITHIN), Outcome::BadDigit);
    assert_eq!(of(&mut bad, 256, [20, 20, 9], WITHIN), Outcome::BadDigit);
}

/// An add in a fence, its fields and how it ended.
struct Fenced {
    within: Fence,
    main_len: usize,
    fields: Fields,
    outcome: Outcome,
}

/// A fence, fields near its edges, and main storage that is mostly of good digits.
fn draw_fenced(random: &mut Random) -> (Vec<u8>, Fence, Fields) {
    let main_len = one_of(random, &[40, 40, 64, 300]);
    let mut main = draw_field(random, main_len);
    let [within, _] = draw_fences(random, main_len, 6);
    let length = if random.below(12) == 0 { random.below(20) as usize } else { 1 + random.below(8) as usize };
    let near = |random: &mut Random| {
        let edge = one_of(random, &[within.start, within.end.wrapping_sub(length)]);
        let by = one_of(random, &[0, 0, 1, 2, length, MAX]);
        let anywhere = random.below(main_len as u64) as usize;
        one_of(random, &[edge.wrapping_add(by), edge.wrapping_add(by), anywhere])
    };
    let [first, second] = [near(random), near(random)];
    let second = if random.below(6) == 0 { first } else { second };
    if random.below(4) == 0 {
        let at = one_of(random, &[first, second]).wrapping_add(random.below(10) as usize);
        main[at % main_len] = one_of(random, &[0x9A, 0xA9]);
    }
    (main, within, Fields { first, second, length, carry: random.below(2) == 1 })
}

/// The add, held to the plain one in the fence's bytes alone.
fn added_in_a_fence(random: &mut Random) -> Fenced {
    let (mut main, within, fields) = draw_fenced(random);
    let (found, main_len) = (main.clone(), main.len());
    let Fields { first, second, length, carry } = fields;
    let local = draw_bytes(random, 256);
    let (outcome, count) = added(&mut main, &local, &fields, within);
    if within.end <= within.start || within.end > main_len {
        assert_eq!(outcome, refuses(32));
    } else if first.min(second) < within.start {
        assert_eq!(outcome, refuses(if (1..=16).contains(&length) { 13 } else { 12 }));
    } else {
        let mut bytes = found[within.start..within.end].to_vec();
        let from = [first, second].map(|start| start - within.start);
        let mut words = bytes.clone();
        assert_eq!(
            add_decimal(&mut bytes, &local, from[0], from[1], length, carry),
            outcome,
            "{fields:?} in {within:?}"
        );
        assert_eq!(main[within.start..within.end], bytes);
        if count > 0 {
            let start = start(from[0] as u16, from[1] as u16, length as u8, carry);
            assert_eq!(run_shipped(&mut words, &mut local.clone(), start), (outcome, count));
        }
    }
    let outside = |at: &usize| !in_fence(within, *at);
    assert!((0..main_len).filter(outside).all(|at| main[at] == found[at]));
    Fenced { within, main_len, fields, outcome }
}

fn is_summed(case: &Fenced) -> bool {
    matches!(case.outcome, Outcome::Summed { .. })
}

/// Where a field ends: its start and its length.
fn ends(case: &Fenced) -> [usize; 2] {
    [case.fields.first, case.fields.second].map(|start| start.wrapping_add(case.fields.length))
}

const FENCED: [Kind<Fenced>; 14] = [
    ("no carry", |case| case.outcome == Outcome::Summed { carry: false }),
    ("a carry", |case| case.outcome == Outcome::Summed { carry: true }),
    ("a bad digit", |case| case.outcome == Outcome::BadDigit),
    ("a field at the start", |case| is_summed(case) && case.fields.first.min(case.fields.second) == case.within.start),
    ("a field at the end", |case| is_summed(case) && ends(case).contains(&case.within.end)),
    ("one field twice", |case| is_summed(case) && case.fields.first == case.fields.second),
    ("refused by 32", |case| case.outcome == refuses(32)),
    ("refused by 12", |case| case.outcome == refuses(12)),
    ("the first before the start", |case| {
        case.outcome == refuses(13) && case.within.start.checked_sub(1) == Some(case.fields.first)
    }),
    ("the second before the start", |case| {
        case.outcome == refuses(13) && case.within.start.checked_sub(1) == Some(case.fields.second)
    }),
    ("the first past the end", |case| case.outcome == refuses(13) && ends(case)[0] == case.within.end + 1),
    ("the second past the end", |case| case.outcome == refuses(13) && ends(case)[1] == case.within.end + 1),
    ("refused by 13, in main storage", |case| {
        case.outcome == refuses(13) && ends(case).iter().all(|end| (1..=case.main_len).contains(end))
    }),
    ("refused by 14", |case| case.outcome == refuses(14)),
];

#[test]
fn an_add_in_a_fence_is_the_add_of_the_fences_bytes() {
    let random = &mut Random::new(134);
    let seen: Vec<Fenced> = (0..6000).map(|_| added_in_a_fence(random)).collect();
    each_occurs(&FENCED, &seen);
}

// ---- the panel

/// What a turn of the panel came to, and of the engine.
struct Called {
    room: usize,
    answer: Answer,
    fits: bool,
    opens: bool,
    odd_latches: bool,
}

/// The panel's number for an answer.
fn number_of(answer: Answer) -> u64 {
    match answer {
        Answer::Ran => 0,
        Answer::Stopped => 1,
        Answer::Refused { number, field } => 2 + 256 * u64::from(number) + 65_536 * u64::from(field),
    }
}

/// A turn of the panel beside the engine's: 19 first, the record written where it ran, and no byte past it.
fn turned_on_the_panel(random: &mut Random) -> Called {
    let mut case = lent(random, 4);
    let fences = draw_fences(random, case.main.len(), 8);
    let room = case.state.len();
    if let Some(record) = case.state.first_chunk_mut::<RECORD>() {
        let seated = draw_seated(random, case.store.len(), fences).to_bytes();
        for place in [0, 1, 2, 3, 4, 5, 11, 12] {
            record[place] = seated[place];
        }
    }
    let code = one_of(random, &[0, 0, 1, 2, 255]);
    let reading = if code == 0 { Reading::Basic } else { Reading::Compatibility };
    let (mut after, [own, other]) = (case.clone(), fences);
    let number = panel::turn(
        code,
        &after.store,
        &mut after.main,
        &mut after.local,
        &mut after.state,
        [own.start, own.end],
        [other.start, other.end],
    );
    let mut bench = Bench { reading, ..bench_of(case.clone()) };
    let answer = if room < RECORD { refused(19) } else { turn_on(&mut bench, fences) };
    assert_eq!(number, number_of(answer));
    let mut expected = case.clone();
    if answer == Answer::Ran {
        expected.state[..RECORD].copy_from_slice(&bench.state.to_bytes());
        (expected.main, expected.local) = (bench.main.clone(), bench.local.clone());
    }
    assert_eq!(after, expected);
    let odd_latches = room >= RECORD && LATCHES.iter().any(|&latch| case.state[latch] > 1);
    Called { room, answer, fits: sizes_fit(&bench), opens: opens_by_bytes(case.main.len(), fences), odd_latches }
}

const CALLED: [Kind<Called>; 10] = [
    ("ran", |case| case.answer == Answer::Ran),
    ("ran in a longer record", |case| case.answer == Answer::Ran && case.room > RECORD),
    ("ran from latches that are neither 0 nor 1", |case| case.answer == Answer::Ran && case.odd_latches),
    ("refused from such latches", |case| case.answer == refused(11) && case.odd_latches),
    ("stopped", |case| case.answer == Answer::Stopped),
    ("refused by 19", |case| case.answer == refused(19)),
    ("refused by 19 beside wrong fences", |case| case.answer == refused(19) && !case.opens),
    ("refused by 1 beside wrong fences", |case| case.answer == refused(1) && !case.opens),
    ("refused by 32", |case| case.answer == refused(32) && case.fits),
    ("refused by 10", |case| matches!(case.answer, Answer::Refused { number: 10, .. })),
];

#[test]
fn a_turn_of_the_panel_is_a_turn() {
    let random = &mut Random::new(135);
    let seen: Vec<Called> = (0..6000).map(|_| turned_on_the_panel(random)).collect();
    each_occurs(&CALLED, &seen);
}

/// 19 comes before 1, and 1 before 32.
#[test]
fn the_panel_checks_19_then_1_then_32() {
    let of = |room: usize, local: usize, own: [usize; 2]| {
        let (mut main, mut local, mut record) = (vec![0; 100], vec![0; local], vec![7; room]);
        let number = panel::turn(0, &[build(0, STOP).unwrap()], &mut main, &mut local, &mut record, own, [50, 100]);
        assert_eq!((main, record), (vec![0; 100], vec![7; room]));
        number
    };
    assert_eq!(of(RECORD - 1, 255, [0, 51]), 2 + 256 * 19);
    assert_eq!(of(0, 256, [0, 50]), 2 + 256 * 19);
    assert_eq!(of(RECORD, 255, [0, 51]), 2 + 256);
    assert_eq!(of(RECORD, 256, [0, 51]), 2 + 256 * 32);
    // The record's WX is 0707: no word is there.
    assert_eq!(of(RECORD + 5, 256, [0, 50]), 2 + 256 * 2);
}
