//! Where A and B come from and where the result goes.

use crate::bits::from_digits;
use crate::state::{State, D, G, H, I, J, L, R, S, T, U, V};
use crate::word::{ca_to_w, Word, CA, CB, CK};

pub type Source = fn(&State) -> u8;
pub type Destination = fn(&mut State, u8);

/// A by CA; None is a code not modelled.
pub static A_SOURCE: [Option<Source>; 16] = [
    None,
    None,
    None,
    None,
    Some(|now| now.registers[S]),
    Some(|now| now.registers[H]),
    None,
    Some(|now| now.registers[R]),
    Some(|now| now.registers[D]),
    Some(|now| now.registers[L]),
    Some(|now| now.registers[G]),
    Some(|now| now.registers[T]),
    Some(|now| now.registers[V]),
    Some(|now| now.registers[U]),
    Some(|now| now.registers[J]),
    Some(|now| now.registers[I]),
];

/// B by CB, given CK for the last.
static B_SOURCE: [fn(&State, u8) -> u8; 4] =
    [|now, _| now.registers[R], |now, _| now.registers[L], |now, _| now.registers[D], |_, ck| from_digits(ck, ck)];

/// The result by CD: H and S have other codes here than among the sources.
pub static DESTINATION: [Option<Destination>; 16] = [
    Some(|_, _| ()),
    None,
    None,
    None,
    None,
    Some(|next, result| next.registers[H] = result),
    Some(|next, result| next.registers[S] = result),
    Some(|next, result| next.registers[R] = result),
    Some(|next, result| next.registers[D] = result),
    Some(|next, result| next.registers[L] = result),
    Some(|next, result| next.registers[G] = result),
    Some(|next, result| next.registers[T] = result),
    Some(|next, result| next.registers[V] = result),
    Some(|next, result| next.registers[U] = result),
    Some(|next, result| next.registers[J] = result),
    Some(|next, result| next.registers[I] = result),
];

/// A; zero where CA is a module number.
pub fn source_a(word: &Word, now: &State) -> u8 {
    if ca_to_w(word) {
        return 0;
    }
    A_SOURCE[usize::from(word[CA])].map_or(0, |source| source(now))
}

pub fn source_b(word: &Word, now: &State) -> u8 {
    B_SOURCE[usize::from(word[CB])](now, word[CK])
}

#[cfg(test)]
mod tests {
    use super::*;
    use crate::word::CL;

    /// Each register holds a byte of its own.
    fn all_different() -> State {
        State { registers: std::array::from_fn(|place| 0x21 + place as u8), ..State::default() }
    }

    /// Codes 8 to 15, the same for CA and CD.
    const COMMON: [(usize, usize); 8] = [(8, D), (9, L), (10, G), (11, T), (12, V), (13, U), (14, J), (15, I)];

    #[test]
    fn sources_of_a() {
        let now = all_different();
        let mut codes = vec![(4, S), (5, H), (7, R)];
        codes.extend(COMMON);
        for (code, register) in codes {
            let mut word = [0; 22];
            word[CA] = code as u8;
            assert_eq!(source_a(&word, &now), now.registers[register], "CA {code}");
            word[CL] = 2;
            assert_eq!(source_a(&word, &now), 0, "CA {code} as module");
        }
        let missing: Vec<usize> = (0..16).filter(|&code| A_SOURCE[code].is_none()).collect();
        assert_eq!(missing, [0, 1, 2, 3, 6]);
    }

    #[test]
    fn sources_of_b() {
        let now = all_different();
        for (code, expected) in [(0, now.registers[R]), (1, now.registers[L]), (2, now.registers[D]), (3, 0xCC)] {
            let mut word = [0; 22];
            word[CB] = code;
            word[CK] = 12;
            assert_eq!(source_b(&word, &now), expected, "CB {code}");
        }
    }

    #[test]
    fn destinations_change_one_register() {
        let mut codes = vec![(5, H), (6, S), (7, R)];
        codes.extend(COMMON);
        for (code, register) in codes {
            let (mut next, mut expected) = (all_different(), all_different());
            DESTINATION[code].unwrap()(&mut next, 0xEE);
            expected.registers[register] = 0xEE;
            assert_eq!(next, expected, "CD {code}");
        }
        let mut next = all_different();
        DESTINATION[0].unwrap()(&mut next, 0xEE);
        assert_eq!(next, all_different());
        let missing: Vec<usize> = (0..16).filter(|&code| DESTINATION[code].is_none()).collect();
        assert_eq!(missing, [1, 2, 3, 4]);
    }
}
