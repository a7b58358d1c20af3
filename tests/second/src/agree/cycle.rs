//! Single cycles, and the work that would be done in each: drawn words, states and storage sizes.

use super::count::of_cycle;
use super::draw::{bits, drawn_state, near, reading_of, word_for, Lent, SEVEN};
use super::{digest_line, drawn_bytes, joined, mix_bytes, mix_state};
use crate::adder::Work;
use crate::bits::both_decimal;
use crate::cycle::{cycle, next_work, Answer};
use crate::random::{mix, Random};
use crate::reading::Reading;
use crate::state::{State, M, N};
use crate::word::{split, CC, CV, LAYOUT};

/// A case: how the store is read, the word that stands at WX, the state, and how much of each storage is lent.
struct Trial {
    reading: Reading,
    word: u64,
    state: State,
    lent: Lent,
}

const MAIN_SIZES: [usize; 8] = [65536, 65536, 65536, 65536, 1, 255, 256, 257];
const STORE_SIZES: [usize; 8] = [4096, 4096, 4096, 4095, 1, 2, 256, 1000];

/// One WX of 32 is any number, and the others lie in the store.
fn drawn_wx(words: usize, x: u64) -> u16 {
    if x.is_multiple_of(32) {
        (x / 32) as u16
    } else {
        (x / 32 % words as u64) as u16
    }
}

fn drawn(random: &mut Random) -> Trial {
    let [a, b, c, e, f, g] = std::array::from_fn(|_| random.next());
    let words = STORE_SIZES[usize::from(bits(f, 8, 3))];
    let main = MAIN_SIZES[usize::from(bits(f, 11, 3))];
    let (reading, wx) = (reading_of(g >> 40), drawn_wx(words, g));
    let state = drawn_state(c, e, wx);
    let close = main < 65536 && bits(f, 14, 2) != 0;
    Trial {
        reading,
        word: word_for(reading, a, b, f >> 16, u32::from(wx % 4096)),
        state: if close { near(state) } else { state },
        lent: Lent { words, main, local: 256 }.seldom_wrong(f),
    }
}

/// Main and local storage, more than a case is lent at most.
struct Storages {
    main: Vec<u8>,
    local: Vec<u8>,
}

/// The answer, the state after it, and the digest after both and the bytes that the state before them addresses.
fn answer(digest: u64, trial: &Trial, store: &[u64], storages: &mut Storages) -> (Answer, State, u64) {
    let (main, local) = (&mut storages.main[..trial.lent.main], &mut storages.local[..trial.lent.local]);
    let mut state = trial.state;
    let answer = cycle(trial.reading, &store[..trial.lent.words], main, local, &mut state);
    let (number, field) = of_cycle(answer);
    let n = usize::from(trial.state.registers[N]);
    let at = usize::from(trial.state.registers[M]) * 256 + n;
    let byte = |bytes: &[u8], at: usize| u64::from(bytes.get(at).copied().unwrap_or(0));
    let digest = mix(digest, number as u64 * 256 + u64::from(field));
    let digest = mix_state(digest, &state);
    (answer, state, mix(digest, byte(main, at) * 256 + byte(local, n)))
}

/// The digest after the work of the next word, or after 0 where it would make no sum.
fn mix_work(digest: u64, work: Option<Work>) -> u64 {
    let Some(w) = work else {
        return mix(digest, 0);
    };
    let carry_in = u8::from(w.carry_in);
    let bytes = [w.a_chosen, w.a_gated, w.b_chosen, w.b_gated, w.b_entering, carry_in, w.before, w.after];
    mix(mix(digest, 1), joined(&bytes))
}

#[derive(Default)]
struct Counts {
    ran: u32,
    stopped: u32,
    refused: [u32; 12],
    field: [u32; 23],
    digit_carry: u32,
    invalid: u32,
    kept_out: u32,
    /// For each of the seven codes, in basic and in compatibility.
    seven: [[u32; 2]; 7],
}

/// A field's place in the word.
fn place_of(name: &str) -> usize {
    LAYOUT.iter().position(|(field, _)| *field == name).expect("a field of the word")
}

/// A decimal sum of which a digit over 9 was chosen, and none let in.
fn keeps_out(word: u64, work: &Work) -> bool {
    let over_9 = |bytes: [u8; 2]| !bytes.into_iter().all(both_decimal);
    let fields = split(word);
    let decimal = fields[CV] == 3 && ![2, 3, 7].contains(&fields[CC]);
    decimal && over_9([work.a_chosen, work.b_chosen]) && !over_9([work.a_gated, work.b_gated])
}

impl Counts {
    fn count(&mut self, answer: Answer) {
        match answer {
            Answer::Ran => self.ran += 1,
            Answer::Stopped => self.stopped += 1,
            Answer::Refused { number, field } => {
                self.refused[usize::from(number)] += 1;
                self.field[usize::from(field)] += 1;
            }
        }
    }

    /// The lamps after a cycle that ran.
    fn count_lamps(&mut self, word: u64, work: &Work, after: &State) {
        self.digit_carry += u32::from(after.digit_carry);
        self.invalid += u32::from(after.invalid);
        self.kept_out += u32::from(keeps_out(word, work));
    }

    /// The codes in the word of a cycle that ran.
    fn count_codes(&mut self, reading: Reading, word: u64) {
        for ((name, code), counts) in SEVEN.into_iter().zip(&mut self.seven) {
            counts[reading as usize] += u32::from(split(word)[place_of(name)] == code);
        }
    }

    fn report(&self) -> String {
        let mut text = format!("ran {}\nstopped {}\n", self.ran, self.stopped);
        for number in 1..12 {
            text += &format!("refused {number} {}\n", self.refused[number]);
        }
        for name in ["CH", "CL", "CM", "CU", "CA", "AA", "AK", "CD", "CS", "AS"] {
            text += &format!("{name} {}\n", self.field[place_of(name) + 1]);
        }
        text += &format!("digit carry {}\ninvalid {}\nkept out {}\n", self.digit_carry, self.invalid, self.kept_out);
        for ((name, code), [basic, compatibility]) in SEVEN.iter().zip(self.seven) {
            text += &format!("{name} {code} basic {basic}\n{name} {code} compatibility {compatibility}\n");
        }
        text
    }
}

pub fn text() -> String {
    let mut store = vec![0; 4097];
    let mut storages = Storages { main: drawn_bytes(17, 65537), local: drawn_bytes(19, 257) };
    let (mut random, mut digest) = (Random::new(13), 4);
    let (mut counts, mut text) = (Counts::default(), String::new());
    for block in 1..=24 {
        for _ in 0..10_000 {
            let trial = drawn(&mut random);
            if let Some(word) = store.get_mut(usize::from(trial.state.wx)) {
                *word = trial.word;
            }
            let work = next_work(&store[..trial.lent.words], &trial.state);
            let (answer, state, after) = answer(mix_work(digest, work), &trial, &store, &mut storages);
            counts.count(answer);
            if let (Answer::Ran, Some(work)) = (answer, &work) {
                counts.count_lamps(trial.word, work, &state);
                counts.count_codes(trial.reading, trial.word);
            }
            digest = after;
        }
        digest = mix_bytes(mix_bytes(digest, &storages.main), &storages.local);
        text += &digest_line(block * 10_000, digest);
    }
    text + &counts.report()
}
