//! Fences to open and to take turns in, right and wrong, words at their edges, and the orders in which two boards take turns.

use super::{draw_bytes, draw_field, draw_state, one_of, Bench, Kind};
use second::panel::{RAN, REFUSED, STOPPED};
use second::random::Random;
use second::session::Fence;
use second::state::{State, G, I, J, L, M, N, R, T, U, V};
use second::word::{split, CM, CU};

pub const MAX: usize = usize::MAX;

pub const fn fence(start: usize, end: usize) -> Fence {
    Fence { start, end }
}

/// Bytes of main storage, two fences, and whether they are accepted.
pub const OPENINGS: [(usize, Fence, Fence, bool); 58] = [
    (100, fence(10, 20), fence(30, 40), true),
    // They touch: an end is in neither.
    (100, fence(10, 20), fence(20, 40), true),
    (100, fence(0, 50), fence(50, 100), true),
    (100, fence(19, 20), fence(20, 21), true),
    (2, fence(0, 1), fence(1, 2), true),
    // One byte is shared, at either end of the first, or one is in the other, or they are the same.
    (100, fence(10, 20), fence(19, 40), false),
    (100, fence(10, 20), fence(5, 11), false),
    (100, fence(10, 20), fence(19, 20), false),
    (100, fence(10, 20), fence(10, 11), false),
    (100, fence(10, 20), fence(14, 15), false),
    (100, fence(10, 20), fence(5, 25), false),
    (100, fence(10, 20), fence(10, 20), false),
    (100, fence(10, 20), fence(10, 25), false),
    (100, fence(10, 20), fence(5, 20), false),
    (100, fence(10, 11), fence(10, 11), false),
    // One byte is enough, and none is empty; so is an end before its start.
    (100, fence(10, 11), fence(30, 40), true),
    (100, fence(10, 10), fence(30, 40), false),
    (100, fence(11, 10), fence(30, 40), false),
    (100, fence(0, 0), fence(30, 40), false),
    (100, fence(99, 1), fence(30, 40), false),
    (100, fence(100, 100), fence(30, 40), false),
    (100, fence(101, 100), fence(30, 40), false),
    // An empty one would share no byte with the other, wherever it is.
    (100, fence(35, 35), fence(30, 40), false),
    (100, fence(36, 34), fence(30, 40), false),
    (100, fence(30, 30), fence(30, 40), false),
    (100, fence(40, 40), fence(30, 40), false),
    (100, fence(10, 10), fence(10, 10), false),
    // The last byte of main storage, and one past it.
    (100, fence(99, 100), fence(30, 40), true),
    (100, fence(41, 100), fence(30, 40), true),
    (100, fence(99, 101), fence(30, 40), false),
    (100, fence(41, 101), fence(30, 40), false),
    (100, fence(100, 101), fence(30, 40), false),
    (100, fence(0, 1), fence(30, 40), true),
    (1, fence(0, 1), fence(1, 2), false),
    (0, fence(0, 1), fence(1, 2), false),
    (0, fence(0, 0), fence(0, 0), false),
    (65_536, fence(0, 32_768), fence(32_768, 65_536), true),
    (65_536, fence(0, 32_768), fence(32_768, 65_537), false),
    // As far as numbers go.
    (100, fence(41, MAX), fence(30, 40), false),
    (100, fence(MAX, MAX), fence(30, 40), false),
    (100, fence(MAX, 100), fence(30, 40), false),
    (100, fence(MAX - 1, MAX), fence(30, 40), false),
    (100, fence(0, MAX), fence(0, MAX), false),
    (100, fence(MAX, 0), fence(MAX, 0), false),
    (MAX, fence(0, 1), fence(1, MAX), true),
    (MAX, fence(0, 2), fence(1, MAX), false),
    // More than a board has: an opening asks for no more than it says.
    (65_537, fence(0, 1), fence(1, 65_537), true),
    (65_537, fence(0, 1), fence(1, 65_538), false),
    (1 << 32, fence(10, 20), fence(30, 40), true),
    (1 << 32, fence(10, 20), fence(30, 1 << 32), true),
    (1 << 32, fence(10, 20), fence(30, (1 << 32) + 1), false),
    // The last 16 or 32 bits of these would be other numbers.
    (100, fence(10, 0x1_0014), fence(30, 40), false),
    (100, fence(10, 0x1_0000_0014), fence(30, 40), false),
    (100, fence(0x1_0000, 0x1_0014), fence(30, 40), false),
    (100, fence(0x1_0000_000A, 20), fence(30, 40), false),
    (100, fence(0x1_0000_000A, 0x1_0000_0014), fence(30, 40), false),
    (0x2_0000, fence(10, 20), fence(0x1_000A, 0x1_0014), true),
    (0x2_0000_0000, fence(10, 20), fence(0x1_0000_000A, 0x1_0000_0014), true),
];

/// Whether a byte is in a fence.
pub fn in_fence(fence: Fence, byte: usize) -> bool {
    byte >= fence.start && byte < fence.end
}

/// By counting bytes: there are some, main storage has all of them, and none is in both.
pub fn opens_by_bytes(main_len: usize, fences: [Fence; 2]) -> bool {
    let whole = |fence: Fence| {
        let bytes = (0..main_len).filter(|&byte| in_fence(fence, byte)).count();
        bytes > 0 && bytes == fence.end - fence.start
    };
    fences.into_iter().all(whole) && !(0..main_len).any(|byte| fences.iter().all(|fence| in_fence(*fence, byte)))
}

/// In 1,024 bytes, the board's own fence and the other's; addresses in its own, and addresses beside it, in the gap, in the
/// other's and outside main storage.
type Edges = ([Fence; 2], &'static [u16], &'static [u16]);

pub const EDGES: [Edges; 7] = [
    (
        [fence(0x100, 0x180), fence(0x182, 0x2C0)],
        &[0x100, 0x101, 0x17E, 0x17F],
        &[0x000, 0x0FF, 0x180, 0x181, 0x182, 0x2BF, 0x2C0, 0x3FF, 0x400, 0xFFFF],
    ),
    (
        [fence(0x182, 0x2C0), fence(0x100, 0x180)],
        &[0x182, 0x183, 0x200, 0x2BE, 0x2BF],
        &[0x000, 0x0FF, 0x100, 0x17F, 0x180, 0x181, 0x2C0, 0x3FF, 0x400, 0xFFFF],
    ),
    ([fence(0, 0x200), fence(0x200, 0x400)], &[0x000, 0x001, 0x1FF], &[0x200, 0x201, 0x3FF, 0x400, 0xFFFF]),
    ([fence(0x200, 0x400), fence(0, 0x200)], &[0x200, 0x3FE, 0x3FF], &[0x000, 0x1FF, 0x400, 0xFFFF]),
    ([fence(0x3FF, 0x400), fence(0, 1)], &[0x3FF], &[0x000, 0x001, 0x2FF, 0x3FE, 0x400, 0xFFFF]),
    ([fence(0, 1), fence(1, 2)], &[0x000], &[0x001, 0x002, 0x100, 0x3FF, 0xFFFF]),
    ([fence(6, 7), fence(5, 6)], &[0x006], &[0x005, 0x007, 0x106, 0x400]),
];

/// CM of each read, and the pair that it takes.
pub const READS: [(u8, usize, usize); 3] = [(3, I, J), (4, U, V), (5, L, T)];

/// CU of a read of main storage, and a G under which it is one.
pub const MAIN_BY: [(u8, u8); 5] = [(0, 0x00), (0, 0xFF), (3, 0x40), (3, 0x80), (3, 0xC0)];

fn put_pair(bench: &mut Bench, high: usize, low: usize, address: u16) {
    let [first, second] = address.to_be_bytes();
    bench.set(&[(high, first), (low, second)]);
}

/// A word of that read, its pair at an address; 33 arrives.
pub fn reading_at(cm: u8, (cu, g): (u8, u8), high: usize, low: usize, address: u16) -> Bench {
    let mut bench = Bench::one(&[("CM", cm), ("CU", cu)]);
    // The other pairs are at no byte of any fence.
    bench.set(&[(I, 0xEE), (U, 0xEE), (L, 0xEE), (M, 0xEE), (G, g), (R, 0x44)]);
    put_pair(&mut bench, high, low, address);
    bench.arrive(0x33);
    bench
}

/// A Write or a Store of 44 at an address of main storage, while 33 arrives.
pub fn writing_at(cm: u8, cu: u8, address: u16, latch: bool) -> Bench {
    let mut bench = Bench::one(&[("CM", cm), ("CU", cu)]);
    bench.set(&[(I, 0xEE), (U, 0xEE), (L, 0xEE), (R, 0x44)]);
    put_pair(&mut bench, M, N, address);
    bench.arrive(0x33);
    bench.state.allow_write = latch;
    bench
}

/// CM and CU of every word that writes: alone, with K to W, and in a return.
pub fn writes() -> impl Iterator<Item = (u8, u8)> {
    [0, 2].into_iter().flat_map(|cm| [0, 2, 3].map(|cu| (cm, cu)))
}

pub const RIGHT: [Fence; 2] = [fence(0, 10), fence(10, 20)];

/// In 1,024 bytes: either fence wrong in each way, and the two together.
pub const WRONG: [[Fence; 2]; 14] = [
    [fence(0, 0), fence(10, 20)],
    [fence(0, 10), fence(10, 10)],
    [fence(9, 0), fence(10, 20)],
    [fence(0, 10), fence(20, 10)],
    [fence(10, 1025), fence(0, 10)],
    [fence(0, 10), fence(10, 1025)],
    [fence(0, 10), fence(10, MAX)],
    [fence(MAX, MAX), fence(0, 10)],
    [fence(0, 10), fence(1024, 1025)],
    [fence(0, 11), fence(10, 20)],
    [fence(10, 20), fence(0, 11)],
    [fence(0, 10), fence(0, 10)],
    // In their last 16 or 32 bits these would be right.
    [fence(0, 10), fence(0x1_000A, 0x1_0014)],
    [fence(0x1_0000_0000, 0x1_0000_000A), fence(10, 20)],
];

/// Of words, and of bytes of main and of local storage: each wrong alone, below and above.
pub const WRONG_SIZES: [[usize; 3]; 6] =
    [[0, 1024, 256], [4097, 1024, 256], [256, 0, 256], [256, 65_537, 256], [256, 1024, 255], [256, 1024, 257]];

/// Two fences that are apart in so many bytes, 2 or more, and often touch or reach to an end.
fn draw_apart(random: &mut Random, main_len: usize) -> [Fence; 2] {
    let below = |random: &mut Random, n: usize| random.below(n as u64) as usize;
    let cut = one_of(random, &[1, main_len / 2, main_len - 1]).clamp(1, main_len - 1);
    let lower = fence(below(random, cut), cut - below(random, cut.min(3)));
    let upper = fence(cut + below(random, (main_len - cut).min(3)), main_len - below(random, (main_len - cut).min(3)));
    // Either may have come out empty: then it is the whole of its part.
    let lower = if lower.start < lower.end { lower } else { fence(0, cut) };
    let upper = if upper.start < upper.end { upper } else { fence(cut, main_len) };
    one_of(random, &[[lower, upper], [upper, lower]])
}

/// The same, but for one time in `wrong`: then one of them is empty, too long or in the other.
pub fn draw_fences(random: &mut Random, main_len: usize, wrong: u64) -> [Fence; 2] {
    let [own, other] = draw_apart(random, main_len.max(2));
    if random.below(wrong) != 0 {
        return [own, other];
    }
    let other = match random.below(8) {
        0 => fence(other.start, other.start),
        1 => fence(other.end, other.start),
        2 => fence(other.start, main_len + 1),
        3 => fence(other.start, MAX),
        4 => fence(MAX, other.end),
        5 => fence(own.start, own.start + 1),
        6 => fence(own.end - 1, own.end),
        _ => own,
    };
    one_of(random, &[[own, other], [other, own]])
}

/// Mostly in the board's own fence, and else at an edge, in the other's, or anywhere.
fn draw_address(random: &mut Random, [own, other]: [Fence; 2]) -> u16 {
    let size = own.end.saturating_sub(own.start).clamp(1, 65_536) as u64;
    let within = own.start.wrapping_add(random.below(size) as usize);
    let edges = [own.start.wrapping_sub(1), own.end, own.start, own.end.wrapping_sub(1)];
    let beside = [other.start, other.end.wrapping_sub(1), other.end, random.next() as usize];
    match random.below(12) {
        0 | 1 => one_of(random, &edges) as u16,
        2 => one_of(random, &beside) as u16,
        _ => within as u16,
    }
}

/// A state for a board with these fences, at an address of the store.
pub fn draw_seated(random: &mut Random, words: usize, fences: [Fence; 2]) -> State {
    let mut state = draw_state(random, words.max(1));
    for (high, low) in [(I, J), (U, V), (L, T), (M, N)] {
        [state.registers[high], state.registers[low]] = draw_address(random, fences).to_be_bytes();
    }
    state
}

/// The main address of the byte that the word at WX would fetch or write, by its codes.
pub fn main_address(bench: &Bench) -> Option<usize> {
    let word = split(*bench.store.get(usize::from(bench.state.wx))?);
    let State { registers, allow_write, local, .. } = bench.state;
    let (high, low) = match (word[CM], allow_write) {
        (0 | 2, true) if !local => (M, N),
        (3, false) => (I, J),
        (4, false) => (U, V),
        (5, false) => (L, T),
        _ => return None,
    };
    let reads_local = word[CM] > 2 && (word[CU] == 1 || word[CU] == 3 && registers[G] < 0x40);
    (!reads_local).then(|| usize::from(registers[high]) * 256 + usize::from(registers[low]))
}

pub fn sizes_fit(bench: &Bench) -> bool {
    (1..=4096).contains(&bench.store.len()) && (1..=65_536).contains(&bench.main.len()) && bench.local.len() == 256
}

pub fn in_the_gap(address: usize, fences: [Fence; 2], main_len: usize) -> bool {
    address < main_len && fences.iter().all(|fence| !in_fence(*fence, address))
}

pub fn in_the_others(address: usize, [_, other]: [Fence; 2], _: usize) -> bool {
    in_fence(other, address)
}

/// What a refusal by this number answers, but for the field of 10.
pub fn refused(number: u64) -> u64 {
    REFUSED + 256 * number
}

/// Whose turns they are.
#[derive(Clone, Copy, Debug, PartialEq)]
pub enum Order {
    InTurn,
    Drawn,
    MostlyA,
    MostlyB,
    Rows,
    OnlyA,
}

pub const ORDERS: [Order; 6] = [Order::InTurn, Order::Drawn, Order::MostlyA, Order::MostlyB, Order::Rows, Order::OnlyA];

pub fn board_at(random: &mut Random, order: Order, k: usize) -> usize {
    match order {
        Order::InTurn => k % 2,
        Order::Drawn => random.below(2) as usize,
        Order::MostlyA => usize::from(random.below(8) == 0),
        Order::MostlyB => usize::from(random.below(8) != 0),
        Order::Rows => k / 9 % 2,
        Order::OnlyA => 0,
    }
}

/// How many turns a drawn session has.
pub const TURNS_TAKEN: usize = 200;

/// What a session came to.
pub struct Session {
    order: Order,
    basic: bool,
    pub opens: bool,
    touching: bool,
    /// By board: turns that ran, turns refused by 11, bytes of its fence that are not as they were found.
    ran: [usize; 2],
    refused: [usize; 2],
    changed: [usize; 2],
    stopped: usize,
    pub closed: usize,
}

fn touch([own, other]: [Fence; 2]) -> bool {
    own.end == other.start || other.end == own.start
}

/// How many bytes of each fence are not as they were found. None in neither has changed.
fn changed_in(fences: [Fence; 2], [found, left]: [&[u8]; 2]) -> [usize; 2] {
    let changed: Vec<usize> = (0..found.len()).filter(|at| left[*at] != found[*at]).collect();
    assert!(changed.iter().all(|at| fences.iter().any(|fence| in_fence(*fence, *at))), "bytes in neither fence");
    fences.map(|fence| changed.iter().filter(|at| in_fence(fence, **at)).count())
}

impl Session {
    /// Counted over whose turns they were and what the panel answers, from main storage as it was found and as it is left.
    pub fn of(order: Order, basic: bool, fences: [Fence; 2], main: [&[u8]; 2], turns: &[(usize, u64)]) -> Session {
        let both = |wanted| [0, 1].map(|which| turns.iter().filter(|turn| **turn == (which, wanted)).count());
        Session {
            order,
            basic,
            opens: opens_by_bytes(main[0].len(), fences),
            touching: touch(fences),
            ran: both(RAN),
            refused: both(refused(11)),
            changed: changed_in(fences, main),
            stopped: both(STOPPED).iter().sum(),
            closed: both(refused(32)).iter().sum(),
        }
    }

    fn is_busy(&self) -> bool {
        self.ran.iter().all(|ran| *ran > 9) && self.changed.iter().all(|changed| *changed > 0)
    }
}

pub const SESSIONS: [Kind<Session>; 16] = [
    ("both ran and wrote, in turn", |case| case.is_busy() && case.order == Order::InTurn),
    ("both ran and wrote, drawn", |case| case.is_busy() && case.order == Order::Drawn),
    ("both ran and wrote, in rows", |case| case.is_busy() && case.order == Order::Rows),
    ("A had most turns, and B ran", |case| case.order == Order::MostlyA && case.ran[0] > 20 && case.ran[1] > 0),
    ("B had most turns, and A ran", |case| case.order == Order::MostlyB && case.ran[1] > 20 && case.ran[0] > 0),
    ("A alone", |case| case.order == Order::OnlyA && case.ran[0] > 20 && case.ran[1] == 0),
    ("both were refused by 11", |case| case.refused.iter().all(|refused| *refused > 1)),
    ("both wrote several bytes", |case| case.changed.iter().all(|changed| *changed > 2)),
    ("stopped", |case| case.stopped > 0),
    ("the fences touch", |case| case.is_busy() && case.touching),
    ("the fences do not touch", |case| case.is_busy() && case.opens && !case.touching),
    ("wrong fences", |case| !case.opens && case.closed == TURNS_TAKEN),
    ("right fences are never refused by 32", |case| case.opens && case.closed == 0),
    ("in basic", |case| case.is_busy() && case.basic),
    ("in compatibility", |case| case.is_busy() && !case.basic),
    ("nearly all turns ran", |case| case.ran[0] + case.ran[1] > TURNS_TAKEN - 12),
];

/// The fields of a board on the shipped words: in its fence, of one length.
#[derive(Clone, Copy, Debug)]
pub struct Fields {
    pub first: usize,
    pub second: usize,
    pub length: usize,
    pub carry: bool,
}

/// A fence that just holds two fields, or one where they are the same, or is one byte longer at either end; from `low` on.
fn draw_fields(random: &mut Random, low: usize) -> (Fence, Fields) {
    let length = 1 + random.below(16) as usize;
    let (before, between, after) = (random.below(2) as usize, random.below(3) as usize, random.below(2) as usize);
    let one = low + before;
    let two = one_of(random, &[one, one + length + between, one + length + between]);
    let [first, second] = one_of(random, &[[one, two], [two, one]]);
    (fence(low, two + length + after), Fields { first, second, length, carry: random.below(2) == 1 })
}

/// Two boards' fences from `low` on and the fields in each, which may hold a bad digit; either board may be the lower one.
pub fn draw_sums(random: &mut Random, low: usize) -> (Vec<u8>, [Fence; 2], [Fields; 2]) {
    let (lower, fields) = draw_fields(random, low);
    let gap = one_of(random, &[0, 0, 1, 7]);
    let (upper, others) = draw_fields(random, lower.end + gap);
    let main_len = (upper.end + one_of(random, &[0, 0, 1, 100])).min(65_536);
    let mut main = draw_bytes(random, main_len);
    for Fields { first, second, length, .. } in [fields, others] {
        for start in [first, second] {
            main[start..start + length].copy_from_slice(&draw_field(random, length));
        }
        if random.below(5) == 0 {
            let start = one_of(random, &[first, second]);
            main[start + random.below(length as u64) as usize] = one_of(random, &[0xA0, 0x0A, 0xFF, 0x9B]);
        }
    }
    match random.below(2) {
        0 => (main, [upper, lower], [others, fields]),
        _ => (main, [lower, upper], [fields, others]),
    }
}

/// A sum in a session, and what the other board did.
pub struct Summed {
    order: Order,
    fields: Fields,
    /// None for a bad digit.
    carry: Option<bool>,
    touching: bool,
    at_the_end: bool,
    /// Turns of the other, those that ran, those refused by 11, and the bytes of its fence that it changed.
    others: [usize; 4],
}

impl Summed {
    /// By what the panel answers to the other's turns, from main storage as it was found and as it is left.
    pub fn of(
        order: Order,
        (fields, carry): (Fields, Option<bool>),
        fences: [Fence; 2],
        main: [&[u8]; 2],
        others: &[u64],
    ) -> Summed {
        let count = |wanted| others.iter().filter(|answer| **answer == wanted).count();
        let [_, wrote] = changed_in(fences, main);
        Summed {
            order,
            fields,
            carry,
            touching: touch(fences),
            at_the_end: fences[0].end == main[0].len(),
            others: [others.len(), count(RAN), count(refused(11)), wrote],
        }
    }
}

pub const SUMS: [Kind<Summed>; 18] = [
    ("no carry", |case| case.carry == Some(false)),
    ("a carry", |case| case.carry == Some(true)),
    ("a bad digit", |case| case.carry.is_none()),
    ("one byte", |case| case.fields.length == 1 && case.carry.is_some()),
    ("sixteen bytes", |case| case.fields.length == 16 && case.carry.is_some()),
    ("one field twice", |case| case.fields.first == case.fields.second && case.carry.is_some()),
    ("the first field above", |case| case.fields.first > case.fields.second && case.carry.is_some()),
    ("a carry in", |case| case.fields.carry && case.carry.is_some()),
    ("in turn", |case| case.order == Order::InTurn && case.others[1] > 20),
    ("drawn", |case| case.order == Order::Drawn && case.others[1] > 20),
    ("in rows", |case| case.order == Order::Rows && case.others[1] > 20),
    ("the other had few turns", |case| case.order == Order::MostlyA && case.others[1] > 2),
    ("the other had most turns", |case| case.order == Order::MostlyB && case.others[1] > 200),
    ("the other had no turn", |case| case.order == Order::OnlyA && case.others[0] == 0),
    ("the other was refused by 11", |case| case.others[2] > 1),
    ("the other wrote", |case| case.others[3] > 0),
    ("the fences touch", |case| case.touching && case.others[3] > 0),
    ("at the end of main storage", |case| case.at_the_end && case.others[3] > 0),
];

/// In 100 bytes: two starts and a length, and a fence that just holds them.
pub const JUST_FIT: [([usize; 3], Fence); 12] = [
    ([20, 44, 16], fence(20, 60)),
    ([44, 20, 16], fence(20, 60)),
    ([20, 36, 16], fence(20, 52)),
    ([20, 20, 16], fence(20, 36)),
    ([5, 5, 1], fence(5, 6)),
    ([5, 6, 1], fence(5, 7)),
    ([6, 5, 1], fence(5, 7)),
    ([0, 84, 16], fence(0, 100)),
    ([84, 0, 16], fence(0, 100)),
    ([84, 84, 16], fence(84, 100)),
    ([0, 0, 1], fence(0, 1)),
    ([99, 99, 1], fence(99, 100)),
];

/// A fence in 100 bytes, and what is wrong with others. The last two would be right in their last 16 or 32 bits.
pub const WITHIN: Fence = fence(20, 60);
pub const NOT_WITHIN: [Fence; 10] = [
    fence(20, 20),
    fence(21, 20),
    fence(20, 101),
    fence(20, MAX),
    fence(MAX, MAX),
    fence(MAX, 60),
    fence(100, 100),
    fence(100, 101),
    fence(20, 0x1_003C),
    fence(0x1_0000_0014, 0x1_0000_003C),
];
