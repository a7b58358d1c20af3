//! Two boards over one store: openings at the edges of fences and of storage, single turns beside another board, and sessions
//! of two boards in four kinds of order.

use super::count::{of_cycle, Counts, RAN, STOPPED, TAKEN};
use super::draw::{drawn_state, reading_of, word_for, Lent};
use super::run::{store_word, RATES};
use super::{digest_line, drawn_bytes, mix_bytes, mix_state};
use crate::cycle::Answer;
use crate::random::{mix, Random};
use crate::reading::Reading;
use crate::session::{open, turn, Fence};
use crate::state::{State, I, J, L, M, N, T, U, V};

const MAIN_SIZES: [usize; 8] = [64, 256, 257, 300, 512, 1000, 4096, 65536];

/// One of the eight sizes.
fn main_size(x: u64) -> usize {
    MAIN_SIZES[(x % 8) as usize]
}

/// What goes on from part to part. Board A is 0.
struct Course {
    random: Random,
    digest: u64,
    store: Vec<u64>,
    main: Vec<u8>,
    locals: [Vec<u8>; 2],
}

impl Course {
    fn draw<const COUNT: usize>(&mut self) -> [u64; COUNT] {
        std::array::from_fn(|_| self.random.next())
    }

    fn mix(&mut self, value: u64) {
        self.digest = mix(self.digest, value);
    }

    fn mix_state(&mut self, state: &State) {
        self.digest = mix_state(self.digest, state);
    }

    /// One turn of a board with that of the local storages, its own fence the first of two.
    fn turn(&mut self, which: usize, reading: Reading, lent: &Lent, state: &mut State, fences: [Fence; 2]) -> Answer {
        let (main, local) = (&mut self.main[..lent.main], &mut self.locals[which][..lent.local]);
        turn(reading, &self.store[..lent.words], main, local, state, fences[0], fences[1])
    }
}

// ---- fences and addresses

/// Near 0, near the end of storage, just past it, or anywhere in it.
fn edge(size: usize, x: u64) -> usize {
    let rest = (x / 4) as usize;
    match x % 4 {
        0 => rest % 8,
        1 => size.saturating_sub(rest % 8),
        2 => size + rest % 4,
        _ => rest % (size + 1),
    }
}

/// A fence by two edges.
fn drawn_fence(size: usize, x: u64) -> Fence {
    Fence { start: edge(size, x % 0x1_0000_0000), end: edge(size, x / 0x1_0000_0000) }
}

/// The fence changed against another, or against the end of storage: it touches the other or shares one byte with it, is as
/// long as numbers go, empty, or the same, or ends at the end or one past it; six of 16 stay.
fn moved(which: u64, size: usize, near: Fence, fence: Fence) -> Fence {
    match which % 16 {
        0 => Fence { start: near.end, ..fence },
        1 => Fence { start: near.end.saturating_sub(1), ..fence },
        2 => Fence { end: near.start, ..fence },
        3 => Fence { end: near.start + 1, ..fence },
        4 => Fence { end: usize::MAX, ..fence },
        5 => Fence { start: usize::MAX, ..fence },
        6 => Fence { end: fence.start, ..fence },
        7 => near,
        8 => Fence { end: size + 1, ..fence },
        9 => Fence { end: size, ..fence },
        _ => fence,
    }
}

/// Two fences that are apart in so many bytes, and often touch; either may be the lower one.
fn apart(size: usize, y: u64) -> [Fence; 2] {
    let within_a_quarter = |y: u64| (y % (size as u64 / 4)) as usize;
    let start = within_a_quarter(y);
    let lower = Fence { start, end: start + 1 + within_a_quarter(y / 0x1_0000) };
    let start = lower.end + [0, 0, 1, 5][(y / 0x1_0000_0000 % 4) as usize];
    let upper = Fence { start, end: start + 1 + within_a_quarter(y / 0x4_0000_0000) };
    if y / 0x4000_0000_0000_0000 % 2 == 1 {
        [upper, lower]
    } else {
        [lower, upper]
    }
}

/// The same, the second of them moved by one choice of 16.
fn seldom_moved(size: usize, y: u64, z: u64) -> [Fence; 2] {
    let [own, other] = apart(size, y);
    if z.is_multiple_of(16) {
        [own, moved(z / 16, size, own, other)]
    } else {
        [own, other]
    }
}

/// An address at an edge of the board's own fence or of the other's, near its own start, or anywhere.
fn edge_address([own, other]: [Fence; 2], k: u16) -> u16 {
    let address = match k % 8 {
        0 => own.start,
        1 => own.start.saturating_sub(1),
        2 => own.end,
        3 => own.end.saturating_sub(1),
        4 => other.start,
        5 => other.end.saturating_sub(1),
        // A start may be as large as numbers go; what counts is the sum's last 16 bits.
        6 => own.start.wrapping_add(usize::from(k / 8 % 32)),
        _ => usize::from(k),
    };
    (address % 0x1_0000) as u16
}

/// The state with every pair that addresses storage at such an address.
fn at_edges(mut state: State, fences: [Fence; 2], g: u64) -> State {
    for (k, [high, low]) in (0..).zip([[I, J], [U, V], [L, T], [M, N]]) {
        let address = edge_address(fences, (g >> (16 * k)) as u16);
        [state.registers[high], state.registers[low]] = address.to_be_bytes();
    }
    state
}

// ---- openings

fn openings(course: &mut Course) -> String {
    let (mut counts, mut text) = (Counts::new(), String::new());
    for k in 1..=20_000 {
        let [a, b, c] = course.draw();
        let size = main_size(a);
        let [first, other] =
            if a / 256 % 2 == 1 { apart(size, b) } else { [b, c].map(|drawn| drawn_fence(size, drawn)) };
        let second = moved(a / 8, size, first, other);
        let opened = if a / 128 % 2 == 1 { open(size, second, first) } else { open(size, first, second) };
        let number = opened.err().map_or(TAKEN, usize::from);
        course.mix(counts.count(number));
        if k % 5000 == 0 {
            text += &digest_line(k, course.digest);
        }
    }
    text + &counts.line("opened", TAKEN) + &counts.refused(32)
}

// ---- turns

/// A turn of board A at a drawn word, beside a board with another fence.
fn one_turn(course: &mut Course, counts: &mut Counts) {
    let [a, b, x, c, e, y, g, f] = course.draw();
    let (wx, size, reading) = ((f % 4096) as u16, main_size(f / 0x1000), reading_of(f / 0x8000));
    let lent = Lent { words: 4096, main: size, local: 256 }.seldom_wrong(f / 0x1_0000);
    let fences = seldom_moved(size, y, f / 0x100_0000 % 256);
    course.store[usize::from(wx)] = word_for(reading, a, b, x, wx.into());
    let mut state = at_edges(drawn_state(c, e, wx), fences, g);
    let answer = course.turn(0, reading, &lent, &mut state, fences);
    course.mix(counts.count_with(of_cycle(answer)));
    course.mix_state(&state);
}

fn turns(course: &mut Course) -> String {
    let (mut counts, mut text) = (Counts::new(), String::new());
    for k in 1..=40_000 {
        one_turn(course, &mut counts);
        if k % 2000 == 0 {
            course.digest = mix_bytes(mix_bytes(course.digest, &course.main), &course.locals[0]);
            text += &digest_line(k, course.digest);
        }
    }
    text += &(counts.line("ran", RAN) + &counts.line("stopped", STOPPED));
    text + &[1, 10, 11, 32].map(|number| counts.refused(number)).concat()
}

// ---- sessions

/// Whose turn it is: they alternate, or it is drawn, or A has most of them, or each has seven in a row.
fn is_of_a(style: u64, k: u64, x: u64) -> bool {
    match style {
        0 => k.is_multiple_of(2),
        1 => x.is_multiple_of(2),
        2 => !x.is_multiple_of(8),
        _ => (k / 7).is_multiple_of(2),
    }
}

/// One turn of a board. One that did not run goes on elsewhere, with addresses drawn anew.
fn session_turn(
    course: &mut Course,
    which: usize,
    reading: Reading,
    lent: &Lent,
    state: &mut State,
    fences: [Fence; 2],
    counts: &mut Counts,
) {
    let answer = course.turn(which, reading, lent, state, fences);
    course.mix(counts.count_with(of_cycle(answer)) + 65536 * which as u64);
    course.mix_state(state);
    if answer != Answer::Ran {
        let [g] = course.draw();
        let wx = (g / 0x1_0000 % 4096) as u16;
        *state = at_edges(State { wx, ..*state }, fences, g);
    }
}

fn session(course: &mut Course, counts: &mut Counts) {
    let [a, c, e, y, h] = course.draw();
    let (size, reading) = (main_size(a), reading_of(a / 0x1000_0000_0000));
    let (style, rate) = (a / 0x1_0000 % 4, RATES[(a / 0x4_0000 % 8) as usize]);
    let [fence_a, fence_b] = seldom_moved(size, y, a / 0x100 % 256);
    // Each board's own fence first.
    let fences = [[fence_a, fence_b], [fence_b, fence_a]];
    let mut states = [
        at_edges(drawn_state(c, e, (a / 0x1_0000_0000 % 256) as u16), fences[0], h),
        at_edges(drawn_state(e, c, (a / 0x20_0000 % 256) as u16), fences[1], c),
    ];
    for address in 0..4096 {
        course.store[address as usize] = store_word(reading, &mut course.random, rate, address);
    }
    let lent = Lent { words: 4096, main: size, local: 256 };
    for k in 0..300 {
        let [x] = course.draw();
        let which = if is_of_a(style, k, x) { 0 } else { 1 };
        session_turn(course, which, reading, &lent, &mut states[which], fences[which], counts);
    }
    for bytes in [&course.main[..lent.main], &course.locals[0][..lent.local], &course.locals[1][..lent.local]] {
        course.digest = mix_bytes(course.digest, bytes);
    }
}

fn sessions(course: &mut Course) -> String {
    let (mut counts, mut text) = (Counts::new(), String::new());
    for k in 1..=100 {
        session(course, &mut counts);
        if k % 20 == 0 {
            text += &digest_line(k, course.digest);
        }
    }
    text += &(counts.line("ran", RAN) + &counts.line("stopped", STOPPED) + &counts.refused(11) + &counts.refused(32));
    let refused: u32 = counts.0[..RAN].iter().sum();
    text + &format!("refused otherwise {}\n", refused - counts.0[11] - counts.0[32])
}

pub fn text() -> String {
    let locals = [drawn_bytes(73, 257), drawn_bytes(79, 257)];
    let (store, main) = (vec![0; 4097], drawn_bytes(71, 65537));
    let mut course = Course { random: Random::new(67), digest: 11, store, main, locals };
    openings(&mut course) + &turns(&mut course) + &sessions(&mut course)
}
