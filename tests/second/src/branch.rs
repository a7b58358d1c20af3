//! Next address. Conditions are read after an arriving byte has entered R and before anything else
//! changes, so AC, 1BC and Z0 here are the previous cycle's.

use crate::bits::{bit, both_decimal};
use crate::reading::{
    Meaning::{self, Both, Each, Neither, Only},
    Reading::{self, Basic, Compatibility},
};
use crate::state::{State, G, R, S, V};
use crate::word::{ca_to_w, k_to_w, returns, Word, CA, CH, CK, CL, CN};

pub type Condition = fn(&State) -> bool;

/// What each code of a field tests.
pub type Conditions = [Meaning<Condition>; 16];

/// X6 by CH.
pub static X6: Conditions = [
    Both(|_| false),
    Both(|_| true),
    Both(|now| bit(now.registers[R], 0)),
    // "CH 3 is not modelled there, since the figure is unclear."
    Only(Basic, |now| !bit(now.registers[V], 6) && !bit(now.registers[V], 7)),
    Neither,
    Neither,
    Both(|now| now.ac),
    Both(|now| bit(now.registers[S], 0)),
    Each(|now| bit(now.registers[S], 1), |now| bit(now.registers[R], 2)),
    Both(|now| bit(now.registers[S], 2)),
    Both(|now| bit(now.registers[S], 4)),
    Both(|now| bit(now.registers[S], 6)),
    Both(|now| bit(now.registers[G], 0)),
    Both(|now| bit(now.registers[G], 2)),
    Both(|now| bit(now.registers[G], 4)),
    Both(|now| bit(now.registers[G], 6)),
];

/// X7 by CL; 2 is one, with W = CA besides.
pub static X7: Conditions = [
    Both(|_| false),
    Both(|_| true),
    Both(|_| true),
    Neither,
    Only(Compatibility, |now| bit(now.registers[G], 1)),
    Both(|now| both_decimal(now.registers[R])),
    Each(|now| now.bc1, |now| bit(now.registers[R], 1)),
    Both(|now| now.z0),
    Both(|now| bit(now.registers[G], 7)),
    Both(|now| bit(now.registers[S], 3)),
    Both(|now| bit(now.registers[S], 5)),
    Both(|now| bit(now.registers[S], 7)),
    Only(Compatibility, |now| bit(now.registers[R], 3)),
    Both(|now| bit(now.registers[G], 3)),
    Both(|now| bit(now.registers[G], 5)),
    Neither,
];

fn holds(reading: Reading, table: &Conditions, code: u8, now: &State) -> u16 {
    table[usize::from(code)].under(reading).map_or(0, |condition| u16::from(condition(now)))
}

/// W stays unless the word gives a module number.
fn module(word: &Word, now: &State) -> u16 {
    if ca_to_w(word) {
        u16::from(word[CA])
    } else if k_to_w(word) {
        u16::from(word[CK])
    } else {
        now.wx / 256
    }
}

/// The next WX of a word whose codes are modelled. A return has it from FWX, "over anything CN, CH and CL say".
pub fn next_address(reading: Reading, word: &Word, now: &State) -> u16 {
    if returns(word) {
        return now.fwx;
    }
    let x6 = holds(reading, &X6, word[CH], now);
    let x7 = holds(reading, &X7, word[CL], now);
    module(word, now) * 256 + u16::from(word[CN]) * 4 + x6 * 2 + x7
}

#[cfg(test)]
mod tests {
    use super::*;
    use crate::random::Random;
    use crate::reading::READINGS;
    use crate::state::LATCHES;
    use crate::word::{CM, CU};

    /// A state whose every byte and latch is drawn.
    fn drawn(random: &mut Random) -> State {
        State::from_bytes(&std::array::from_fn(|channel| {
            let byte = random.next() as u8;
            if LATCHES.contains(&channel) {
                byte & 1
            } else {
                byte
            }
        }))
    }

    fn next_of(reading: Reading, codes: &[(usize, u8)], now: &State) -> u16 {
        let mut word = [0; 22];
        // CM 1: no storage action, so CU 0 is plain.
        word[CM] = 1;
        for &(place, code) in codes {
            word[place] = code;
        }
        next_address(reading, &word, now)
    }

    /// The same of a word that both readings read alike.
    fn next_in_both(codes: &[(usize, u8)], now: &State) -> u16 {
        let [basic, compatibility] = READINGS.map(|reading| next_of(reading, codes, now));
        assert_eq!(basic, compatibility, "{codes:?}");
        basic
    }

    /// A code, and the bit of a register that it copies.
    type Copied = (u8, usize, u32);

    const X6_IN_BOTH: [Copied; 9] =
        [(2, R, 0), (7, S, 0), (9, S, 2), (10, S, 4), (11, S, 6), (12, G, 0), (13, G, 2), (14, G, 4), (15, G, 6)];
    const X7_IN_BOTH: [Copied; 6] = [(8, G, 7), (9, S, 3), (10, S, 5), (11, S, 7), (13, G, 3), (14, G, 5)];

    /// Of CH and of CL, those of one reading.
    const X6_AND_X7: [(Reading, &[Copied], &[Copied]); 2] =
        [(Basic, &[(8, S, 1)], &[]), (Compatibility, &[(8, R, 2)], &[(4, G, 1), (6, R, 1), (12, R, 3)])];

    #[test]
    fn bits_that_x6_and_x7_copy() {
        let mut random = Random::new(6);
        for now in [(); 300].map(|()| drawn(&mut random)) {
            let copied = |(_, register, n): Copied| u16::from(now.registers[register] >> (7 - n) & 1);
            for of in X6_IN_BOTH {
                assert_eq!(next_in_both(&[(CH, of.0)], &now) & 3, copied(of) * 2, "CH {}", of.0);
            }
            for of in X7_IN_BOTH {
                assert_eq!(next_in_both(&[(CL, of.0)], &now) & 3, copied(of), "CL {}", of.0);
            }
            for (reading, x6, x7) in X6_AND_X7 {
                for of in x6 {
                    assert_eq!(next_of(reading, &[(CH, of.0)], &now) & 3, copied(*of) * 2, "{reading:?} CH {}", of.0);
                }
                for of in x7 {
                    assert_eq!(next_of(reading, &[(CL, of.0)], &now) & 3, copied(*of), "{reading:?} CL {}", of.0);
                }
            }
        }
    }

    #[test]
    fn constants_and_latches() {
        for lit in [false, true] {
            let now = State { ac: lit, ..State::default() };
            assert_eq!(next_in_both(&[(CH, 6)], &now), u16::from(lit) * 2);
            let now = State { bc1: lit, ..State::default() };
            assert_eq!(next_of(Basic, &[(CL, 6)], &now), u16::from(lit));
            assert_eq!(next_of(Compatibility, &[(CL, 6)], &now), 0);
            let now = State { z0: lit, ..State::default() };
            assert_eq!(next_in_both(&[(CL, 7)], &now), u16::from(lit));
        }
        let now = State::default();
        assert_eq!(next_in_both(&[], &now), 0);
        assert_eq!(next_in_both(&[(CH, 1)], &now), 2);
        assert_eq!(next_in_both(&[(CL, 1)], &now), 1);
        assert_eq!(next_in_both(&[(CL, 2)], &now), 1);
    }

    #[test]
    fn v67_and_valid_digits() {
        for byte in 0..=255u8 {
            let mut now = State::default();
            now.registers[V] = byte;
            assert_eq!(next_of(Basic, &[(CH, 3)], &now), u16::from(byte % 4 == 0) * 2);
            now.registers[R] = byte;
            let valid = format!("{byte:02X}").chars().all(|digit| digit.is_ascii_digit());
            assert_eq!(next_in_both(&[(CL, 5)], &now), u16::from(valid));
        }
    }

    #[test]
    fn w_stays_unless_changed() {
        let now = State { wx: 0x7FF, ..State::default() };
        assert_eq!(next_in_both(&[(CN, 63)], &now), 0x7FC);
        assert_eq!(next_in_both(&[(CN, 63), (CK, 5)], &now), 0x7FC);
        assert_eq!(next_in_both(&[(CN, 1), (CL, 2), (CA, 15)], &now), 0xF05);
        for cm in 0..3 {
            assert_eq!(next_in_both(&[(CN, 1), (CM, cm), (CU, 2), (CK, 5)], &now), 0x504);
        }
    }

    #[test]
    fn a_return_has_fwx_whatever_the_word_says() {
        let mut random = Random::new(10);
        for reading in READINGS.repeat(300) {
            let now = drawn(&mut random);
            let codes = [(CN, 63), (CH, 15), (CL, 15), (CA, 15), (CK, 15)];
            let codes = codes.map(|(place, most)| (place, random.below(most + 1) as u8));
            for cm in 0..6 {
                let next = next_of(reading, &[&codes[..], &[(CM, cm), (CU, 3)]].concat(), &now);
                // With a higher CM it is a read, and CU says from where.
                let read = next_of(reading, &[&codes[..], &[(CM, cm), (CU, 1)]].concat(), &now);
                assert_eq!(next, if cm <= 2 { now.fwx } else { read }, "CM {cm}");
            }
        }
    }

    #[test]
    fn codes_not_modelled() {
        let missing = |reading: Reading, table: &Conditions| -> Vec<usize> {
            (0..16).filter(|&code| table[code].under(reading).is_none()).collect()
        };
        assert_eq!(missing(Basic, &X6), [4, 5]);
        assert_eq!(missing(Basic, &X7), [3, 4, 12, 15]);
        assert_eq!(missing(Compatibility, &X6), [3, 4, 5]);
        assert_eq!(missing(Compatibility, &X7), [3, 15]);
    }
}
