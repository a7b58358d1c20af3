//! A machine on the bench, and words drawn by the generator.
#![allow(dead_code)]

pub mod fences;

use second::cycle::{cycle, not_modelled, Answer, LOCAL_BYTES, MOST_MAIN, MOST_WORDS};
use second::random::Random;
use second::reading::Reading;
use second::run::{run, Ending};
use second::state::{State, LATCHES, RECORD};
use second::word::{build, index_of, pack, split, take_apart, with_right_pk, Fields, CF, GIVEN, LAYOUT};
use std::collections::BTreeSet;

pub type Codes<'a> = &'a [(&'a str, u8)];

/// The word of 01's "Numbers to check by".
pub const P: u64 = 0x0001_8093_988E_6801;
pub const P_FIELDS: Codes = &[("CL", 1), ("CM", 1), ("CA", 14), ("CB", 3), ("CK", 1), ("CD", 14), ("CF", 3), ("CG", 1)];

/// A word that stops: CA 0 is not modelled, so it also shows that stop comes before 10.
pub const STOP: Codes = &[("CF", 4)];

/// Places of single bits, from the low end of the word.
pub const PC_BIT: u64 = 1;
pub const PS_BIT: u64 = 1 << 20;
pub const PK_BIT: u64 = 1 << 21;
pub const PA_BIT: u64 = 1 << 47;
pub const PN_BIT: u64 = 1 << 48;

/// What makes CU 2, K to W, and 3, a return, of a CU 0 under a PS that stays right.
pub const TO_CU_2: u64 = 1 << 35 | PS_BIT;
pub const TO_CU_3: u64 = 3 << 34;

#[derive(Clone, Debug, PartialEq)]
pub struct Bench {
    pub store: Vec<u64>,
    pub main: Vec<u8>,
    pub local: Vec<u8>,
    pub state: State,
    /// How the store is read: in basic, unless a test says otherwise.
    pub reading: Reading,
}

impl Bench {
    /// A store of `words` empty words, 1,024 bytes of main storage whose bytes differ from local ones.
    pub fn new(words: usize) -> Bench {
        Bench {
            store: vec![0; words],
            main: (0..1024usize).map(|n| (n * 7 + n / 256 + 1) as u8).collect(),
            local: (0..256usize).map(|n| (n * 5 + 0x83) as u8).collect(),
            state: State::default(),
            reading: Reading::Basic,
        }
    }

    /// One word at address 0, in a store where every next address of module 0 exists.
    pub fn one(codes: Codes) -> Bench {
        let mut bench = Bench::new(256);
        bench.put(0, codes);
        bench
    }

    /// A word that counts J up and goes on to itself.
    pub fn endless() -> Bench {
        let mut bench = Bench::new(1);
        bench.put(0, &[("CA", 14), ("CB", 3), ("CK", 1), ("CD", 14), ("CF", 3), ("CG", 1)]);
        bench
    }

    /// A word with CA 4, a modelled source, and CM 1, no storage, unless the codes say otherwise.
    pub fn put(&mut self, address: usize, codes: Codes) {
        let mut all = vec![("CA", 4), ("CM", 1)];
        all.extend_from_slice(codes);
        self.store[address] = build(address as u32, &all).unwrap();
    }

    /// The same, going on to `next` in the same module.
    pub fn then(&mut self, address: usize, next: usize, codes: Codes) {
        let next = next as u8;
        let mut all = vec![("CN", next / 4), ("CH", next / 2 % 2), ("CL", next % 2)];
        all.extend_from_slice(codes);
        self.put(address, &all);
    }

    pub fn set(&mut self, registers: &[(usize, u8)]) {
        for &(register, byte) in registers {
            self.state.registers[register] = byte;
        }
    }

    pub fn get(&self, register: usize) -> u8 {
        self.state.registers[register]
    }

    pub fn arrive(&mut self, byte: u8) {
        self.state.arriving = true;
        self.state.arriving_byte = byte;
    }

    pub fn cycle(&mut self) -> Answer {
        cycle(self.reading, &self.store, &mut self.main, &mut self.local, &mut self.state)
    }

    pub fn run(&mut self, budget: u64) -> (Ending, u64) {
        run(self.reading, &self.store, &mut self.main, &mut self.local, &mut self.state, budget)
    }

    /// So many cycles, each of which must run.
    pub fn steps(&mut self, count: usize) {
        for n in 0..count {
            assert_eq!(self.cycle(), Answer::Ran, "cycle {n} of {count}");
        }
    }

    /// A cycle that must not run, and must change nothing.
    pub fn answers(&mut self, expected: Answer) {
        let before = self.clone();
        assert_eq!(self.cycle(), expected);
        assert_eq!(*self, before);
    }

    pub fn refuses(&mut self, number: u8) {
        self.answers(Answer::Refused { number, field: 0 });
    }
}

/// Fields within their widths, with PK right and never CA to W beside K to W or a return.
pub fn draw_fields(random: &mut Random) -> Fields {
    let mut fields: Fields = GIVEN.map(|place| random.below(1 << LAYOUT[place].1) as u8);
    if fields[index_of("CL")] == 2 && fields[index_of("CM")] <= 2 {
        fields[index_of("CU")] &= 1;
    }
    with_right_pk(fields)
}

/// The codes that are modelled in basic whatever the other fields are.
const MODELLED: [(&str, &[u8]); 10] = [
    ("CH", &[0, 1, 2, 3, 6, 7, 8, 9, 10, 11, 12, 13, 14, 15]),
    ("CL", &[0, 1, 2, 5, 6, 7, 8, 9, 10, 11, 13, 14]),
    ("CM", &[0, 1, 2, 3, 4, 5]),
    ("CA", &[4, 5, 7, 8, 9, 10, 11, 12, 13, 14, 15]),
    ("AA", &[0]),
    ("AK", &[0]),
    ("CD", &[0, 5, 6, 7, 8, 9, 10, 11, 12, 13, 14, 15]),
    ("CF", &[0, 1, 2, 3, 5, 6, 7]),
    ("CS", &[0, 1, 2, 3, 4, 6, 7, 8, 9, 10, 11, 12, 13]),
    ("AS", &[0]),
];

/// Fields that are modelled in basic and do not stop, but for one word in ten of any codes.
pub fn draw_modelled(random: &mut Random) -> Fields {
    let mut fields = draw_fields(random);
    if random.below(10) == 0 {
        return fields;
    }
    let mut choose = |codes: &[u8]| codes[random.below(codes.len() as u64) as usize];
    for (name, codes) in MODELLED {
        fields[index_of(name)] = choose(codes);
    }
    fields[index_of("CU")] = match (fields[index_of("CM")], fields[index_of("CL")]) {
        (0..=2, 2) => 0,
        (0..=2, _) => choose(&[0, 0, 2, 2, 3]),
        _ => choose(&[0, 1, 3]),
    };
    with_right_pk(fields)
}

/// One of some values.
pub fn one_of<T: Copy>(random: &mut Random, values: &[T]) -> T {
    values[random.below(values.len() as u64) as usize]
}

/// A word of any codes that are modelled in basic, which does not stop.
pub fn running_word(random: &mut Random, address: u32) -> u64 {
    loop {
        let bits = pack(&draw_modelled(random), address).expect("fields in their widths");
        let word = split(bits);
        if not_modelled(Reading::Basic, &word) == 0 && word[CF] != 4 {
            return bits;
        }
    }
}

/// A word of any codes that stops.
fn stop_word(random: &mut Random, address: u32) -> u64 {
    let mut fields = draw_fields(random);
    fields[index_of("CF")] = 4;
    pack(&fields, address).expect("fields in their widths")
}

/// A word that is right at the address, or has a bit turned, or was packed for another, or is any number.
pub fn any_word(random: &mut Random, address: u32) -> u64 {
    let fields = if random.below(2) == 0 { draw_modelled(random) } else { draw_fields(random) };
    let word = pack(&fields, address % 4096).expect("fields in their widths");
    match random.below(8) {
        0 => word ^ 1 << random.below(64),
        1 => pack(&fields, random.below(4096) as u32).expect("fields in their widths"),
        // CA to W beside K to W or a return, and PK wrong, under a right PS.
        2 => word ^ 1 << 35 ^ 1 << 20,
        3 => word ^ 1 << 21 ^ 1 << 20,
        4 => random.next(),
        _ => word,
    }
}

pub fn draw_bytes(random: &mut Random, count: usize) -> Vec<u8> {
    (0..count).map(|_| random.next() as u8).collect()
}

pub fn draw_field(random: &mut Random, length: usize) -> Vec<u8> {
    // Nines often, so that carries run far.
    let mut digit = || if random.below(2) == 0 { 9 } else { random.below(10) as u8 };
    (0..length).map(|_| digit() * 16 + digit()).collect()
}

/// Sums digit by digit from the low end.
pub fn schoolbook(a: &[u8], b: &[u8], carry_in: bool) -> (Vec<u8>, bool) {
    let mut carry = u8::from(carry_in);
    let mut sum = vec![0; a.len()];
    for n in (0..a.len()).rev() {
        for shift in [0, 4] {
            let total = (a[n] >> shift & 15) + (b[n] >> shift & 15) + carry;
            sum[n] |= (total % 10) << shift;
            carry = total / 10;
        }
    }
    (sum, carry == 1)
}

/// A state of which every part is drawn, at an address of the store.
pub fn draw_state(random: &mut Random, words: usize) -> State {
    let mut bytes: [u8; RECORD] = std::array::from_fn(|_| random.next() as u8);
    for latch in LATCHES {
        bytes[latch] &= 1;
    }
    // Main storage is small on the bench, so most addresses are kept low.
    for high in [0, 2, 4, 11] {
        bytes[high] &= if random.below(8) == 0 { 0xFF } else { 3 };
    }
    let mut state = State::from_bytes(&bytes);
    state.wx = random.below(words as u64) as u16;
    state.fwx = draw_address(random, words as u64);
    state
}

/// An address that is mostly in the store, and else any 16 bits.
fn draw_address(random: &mut Random, words: u64) -> u16 {
    if random.below(16) == 0 {
        random.next() as u16
    } else {
        random.below(words.max(1)) as u16
    }
}

/// A bench of which every part is drawn: a word at each address, mostly modelled.
pub fn draw_bench(random: &mut Random, words: usize) -> Bench {
    let store = (0..words).map(|address| pack(&draw_modelled(random), address as u32).unwrap()).collect();
    let (main, local, state) = (draw_bytes(random, 1024), draw_bytes(random, 256), draw_state(random, words));
    Bench { store, main, local, state, reading: Reading::Basic }
}

/// Good words for a deck, one at each address.
pub fn draw_words(random: &mut Random, count: usize) -> Vec<u64> {
    (0..count).map(|address| pack(&draw_fields(random), address as u32).unwrap()).collect()
}

/// What a call is lent: a store, both storages, and the panel's record of a state.
#[derive(Clone, Debug, PartialEq)]
pub struct Lent {
    pub store: Vec<u64>,
    pub main: Vec<u8>,
    pub local: Vec<u8>,
    pub state: Vec<u8>,
}

/// Mostly modelled words, one in `stray` of any kind, and storages and a record for them, of which a size is seldom wrong.
pub fn lent(random: &mut Random, stray: u64) -> Lent {
    let mut words = one_of(random, &[1, 2, 16, 64, 256, 257]);
    let mut main = one_of(random, &[1, 255, 256, 257, 1024, 1024, 1024, 1024]);
    let (mut local, mut room) = (256, one_of(random, &[RECORD, RECORD, RECORD, RECORD, RECORD, RECORD + 1, 40]));
    match random.below(128) {
        0 => words = 0,
        1 => words = 4097,
        2 => main = 0,
        3 => main = 65537,
        4 => local = 255,
        5 => local = 257,
        6 => room = RECORD - 1,
        7 => room = 0,
        8 => words = 4096,
        9 => main = 65536,
        _ => (),
    }
    let word = |random: &mut Random, address: u32| {
        if random.below(stray) == 0 {
            any_word(random, address)
        } else {
            pack(&draw_modelled(random), address % 4096).expect("fields in their widths")
        }
    };
    let store = (0..words).map(|address| word(random, address)).collect();
    let state = draw_record(random, room, words.into());
    Lent { store, main: draw_bytes(random, main), local: draw_bytes(random, local), state }
}

/// A record in so many bytes: WX and FWX mostly in the store, addresses mostly at the ends of a page, latches of any value.
fn draw_record(random: &mut Random, room: usize, words: u64) -> Vec<u8> {
    let mut state = draw_bytes(random, room);
    if let Some(record) = state.first_chunk_mut::<RECORD>() {
        for place in [13, 24] {
            record[place..place + 2].copy_from_slice(&draw_address(random, words).to_be_bytes());
        }
        let highs = [0, 2, 4, 11].map(|place| (place, [0, 0, 1, 3, 255]));
        let latches = LATCHES.map(|place| (place, [0, 0, 1, 7, 255]));
        for (place, values) in highs.into_iter().chain(latches) {
            record[place] = one_of(random, &values);
        }
    }
    state
}

/// The same for a run that goes on: no next address and no main address is outside, and few words stop or are refused.
pub fn lent_to_go_on(random: &mut Random) -> Lent {
    let few = one_of(random, &[8, 16, 32, 64, 512, u64::MAX]);
    let word = |random: &mut Random, address: u32| match random.below(few) {
        0 => any_word(random, address),
        1 | 2 => stop_word(random, address),
        _ => running_word(random, address),
    };
    let store = (0..MOST_WORDS as u32).map(|address| word(random, address)).collect();
    let state = draw_record(random, RECORD, MOST_WORDS as u64);
    Lent { store, main: draw_bytes(random, MOST_MAIN), local: draw_bytes(random, LOCAL_BYTES), state }
}

/// A record that is too short is taken as zeros: how the panel answers it is not asked here.
pub fn bench_of(Lent { store, main, local, state }: Lent) -> Bench {
    let state = state.first_chunk().map(State::from_bytes).unwrap_or_default();
    Bench { store, main, local, state, reading: Reading::Basic }
}

/// The same back.
pub fn lent_of(Bench { store, main, local, state, .. }: Bench) -> Lent {
    Lent { store, main, local, state: state.to_bytes().to_vec() }
}

/// What a run is lent, of any sizes and words, or such that it goes on.
fn draw_case(random: &mut Random) -> Bench {
    let stray = one_of(random, &[1, 3, 100]);
    let mut drawn = if random.below(2) == 0 { lent_to_go_on(random) } else { lent(random, stray) };
    if random.below(16) == 0 {
        drawn.store.fill_with(|| random.next());
    }
    bench_of(drawn)
}

/// The codes that the readings tell apart: in compatibility the first is not modelled, and the others are.
pub const SEVEN: [(&str, u8); 7] = [("CH", 3), ("CH", 8), ("CL", 4), ("CL", 6), ("CL", 12), ("CS", 5), ("CS", 15)];

/// The codes of CH, of CL and of CS that are not modelled, from the papers' lists.
pub fn missing(reading: Reading) -> [&'static [u8]; 3] {
    match reading {
        Reading::Basic => [&[4, 5], &[3, 4, 12, 15], &[5, 14, 15]],
        Reading::Compatibility => [&[3, 4, 5], &[3, 15], &[14]],
    }
}

pub fn has_code(word: u64, (name, code): (&str, u8)) -> bool {
    split(word)[GIVEN[index_of(name)]] == code
}

/// The word with another code, its parity right. One that 3 to 9 refuse is left alone, and CL 2, beside which CA is any code.
pub fn with_code(word: u64, address: u32, (name, code): (&str, u8)) -> u64 {
    match take_apart(word, address) {
        Ok(mut fields) if name != "CL" || fields[index_of("CL")] != 2 => {
            fields[index_of(name)] = code;
            pack(&with_right_pk(fields), address).expect("a code in its width")
        }
        _ => word,
    }
}

/// The bench under compatibility, with a store for it: CH 3 gives way, and one word in three has a code that is read
/// otherwise there.
pub fn in_compatibility(random: &mut Random, mut bench: Bench) -> Bench {
    for (address, word) in (0..4096).cycle().zip(&mut bench.store) {
        if has_code(*word, SEVEN[0]) {
            *word = with_code(*word, address, ("CH", 2));
        }
        if random.below(3) == 0 {
            *word = with_code(*word, address, one_of(random, &SEVEN[1..]));
        }
    }
    Bench { reading: Reading::Compatibility, ..bench }
}

/// As it is, or under compatibility.
pub fn in_either(random: &mut Random, bench: Bench) -> Bench {
    match random.below(2) {
        0 => bench,
        _ => in_compatibility(random, bench),
    }
}

/// What is made of each of some drawn cases.
pub fn of_cases<Made, const EACH: usize>(
    seed: u64,
    cases: usize,
    make: impl Fn(&mut Random, Bench) -> [Made; EACH],
) -> Vec<Made> {
    let random = &mut Random::new(seed);
    let drawn = |_| {
        let case = draw_case(random);
        make(random, case)
    };
    (0..cases).flat_map(drawn).collect()
}

pub fn storage_as_found(before: &Bench, after: &Bench) -> bool {
    before.main == after.main && before.local == after.local
}

pub fn are_alike(one: &Bench, other: &Bench) {
    assert_eq!(one.state, other.state);
    assert!(storage_as_found(one, other), "the storages differ, at {:03X}", one.state.wx);
}

/// Two budgets, of which either may be 0.
pub fn draw_budgets(random: &mut Random) -> [u32; 2] {
    let most = one_of(random, &[2, 4, 40, 400]);
    [0; 2].map(|_| random.below(most) as u32)
}

/// What a kind of case is called, and which cases are of it.
pub type Kind<Case> = (&'static str, fn(&Case) -> bool);

/// Each kind is that of five cases or more.
pub fn each_occurs<Case>(kinds: &[Kind<Case>], cases: &[Case]) {
    for (name, is) in kinds {
        let count = cases.iter().filter(|case| is(case)).count();
        assert!(count >= 5, "{name}: {count} of {} cases", cases.len());
    }
}

/// The ends of fifteen digits.
pub const MOST: i64 = 999_999_999_999_999;
pub const LEAST: i64 = -999_999_999_999_999;

/// Around zero, both ends, every power of ten and the limits of 64 bits.
pub fn chosen_numbers() -> BTreeSet<i64> {
    let sizes = (0..19).flat_map(|n| (-2..=2).map(move |by| 10i64.pow(n) + by));
    let limits = [i64::MIN, i64::MIN + 1, i64::MAX - 1, i64::MAX];
    sizes.flat_map(|size| [size, -size]).chain(limits).collect()
}
