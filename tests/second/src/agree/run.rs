//! Runs: drawn stores, states, sizes and budgets.

use super::count::{of_run, Counts, SPENT, STOPPED};
use super::draw::{bits, drawn_state, modelled, packed, reading_of, word_for, Lent};
use super::{digest_line, drawn_bytes, mix_bytes, mix_state};
use crate::random::{mix, Random};
use crate::reading::Reading;
use crate::run::{run, MOST_BUDGET};
use crate::state::State;
use crate::word::index_of;

struct Trial {
    /// What the words of the store are drawn for, and what they are run under.
    readings: [Reading; 2],
    state: State,
    lent: Lent,
    budget: u64,
    /// Of 256 words so many are of any kind, and as many again are stops.
    rate: u64,
}

const MAIN_SIZES: [usize; 8] = [65536, 65536, 65536, 65536, 65536, 1, 256, 257];
const STORE_SIZES: [usize; 8] = [4096, 4096, 4096, 4096, 1, 256, 257, 4000];
const BUDGETS: [u64; 16] = [1000, 0, 1, 2, 3, 10, 100, 500, 999, 1000, 1000, 1000, 1000, 1000, 1000, 1_000_001];
pub const RATES: [u64; 8] = [0, 0, 1, 1, 1, 2, 8, 32];

fn drawn(random: &mut Random) -> Trial {
    let [a, c, e] = std::array::from_fn(|_| random.next());
    let choice = |low: u32, width: u32| usize::from(bits(a, low, width));
    // One run of eight is of a store that was drawn for the other reading.
    let turn = u64::from((a >> 45).is_multiple_of(8));
    let mut trial = Trial {
        readings: [0, turn].map(|turn| reading_of((a >> 44) + turn)),
        state: drawn_state(c, e, u16::from(bits(a, 32, 8))),
        lent: Lent { words: STORE_SIZES[choice(8, 3)], main: MAIN_SIZES[choice(11, 3)], local: 256 }.seldom_wrong(a),
        budget: BUDGETS[choice(14, 4)],
        rate: RATES[choice(18, 3)],
    };
    // The largest budget is drawn seldom: a run may spend it.
    if choice(14, 4) == 0 && choice(40, 2) == 0 {
        trial.budget = MOST_BUDGET;
    }
    trial
}

pub fn store_word(reading: Reading, random: &mut Random, rate: u64, address: u32) -> u64 {
    let [a, b, x] = std::array::from_fn(|_| random.next());
    let mut fields = modelled(reading, a, b);
    match x % 256 {
        // A kind that is seldom a word that runs.
        roll if roll < rate => word_for(reading, a, b, (x >> 16) * 64 + 44 + (x >> 8) % 20, address),
        roll if roll < 2 * rate => {
            fields[index_of("CF")] = 4;
            packed(&fields, address)
        }
        _ => packed(&fields, address),
    }
}

pub fn text() -> String {
    let (mut main, mut local) = (drawn_bytes(29, 65537), drawn_bytes(31, 257));
    let (mut random, mut digest, mut cycles, mut compatibility) = (Random::new(23), 5, 0, 0);
    let (mut counts, mut text) = (Counts::new(), String::new());
    for k in 1..=1000 {
        let trial = drawn(&mut random);
        let [filled, read] = trial.readings;
        let store: Vec<u64> = (0..4097).map(|at| store_word(filled, &mut random, trial.rate, at % 4096)).collect();
        let (main, local) = (&mut main[..trial.lent.main], &mut local[..trial.lent.local]);
        let mut state = trial.state;
        let (ending, count) = run(read, &store[..trial.lent.words], main, local, &mut state, trial.budget);
        cycles += count;
        compatibility += u32::from(read == Reading::Compatibility);
        digest = mix(digest, counts.count_with(of_run(ending)));
        digest = mix_state(mix(digest, count), &state);
        digest = mix_bytes(mix_bytes(digest, main), local);
        if k % 100 == 0 {
            text += &digest_line(k, digest);
        }
    }
    text += &(counts.line("stopped", STOPPED) + &counts.line("spent", SPENT));
    for number in (1..12).chain([22]) {
        text += &counts.refused(number);
    }
    text + &format!("cycles {cycles}\ncompatibility {compatibility}\n")
}
