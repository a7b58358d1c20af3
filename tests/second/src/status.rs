//! Status: what CS does to S, given the result. It comes after the result has gone to its register.

use crate::bits::{high_digit, low_digit, with_bit};
use crate::reading::{
    Meaning::{self, Both, Neither, Only},
    Reading::Compatibility,
};

/// The new S from the old S and the result.
pub type Change = fn(u8, u8) -> u8;

fn low_zero(s: u8, result: u8) -> u8 {
    with_bit(s, 5, low_digit(result) == 0)
}

fn high_zero(s: u8, result: u8) -> u8 {
    with_bit(s, 4, high_digit(result) == 0)
}

/// By CS.
pub static STATUS: [Meaning<Change>; 16] = [
    Both(|s, _| s),
    Both(low_zero),
    Both(high_zero),
    Both(|s, result| high_zero(low_zero(s, result), result)),
    Both(|s, _| with_bit(with_bit(s, 4, false), 5, false)),
    Only(Compatibility, |s, _| with_bit(s, 1, true)),
    Both(|s, _| with_bit(s, 0, false)),
    Both(|s, _| with_bit(s, 0, true)),
    Both(|s, _| with_bit(s, 2, false)),
    // A zero result leaves S2 as it was.
    Both(|s, result| if result == 0 { s } else { with_bit(s, 2, true) }),
    Both(|s, _| with_bit(s, 6, false)),
    Both(|s, _| with_bit(s, 6, true)),
    Both(|s, _| with_bit(s, 7, false)),
    Both(|s, _| with_bit(s, 7, true)),
    Neither,
    Only(Compatibility, |s, _| with_bit(s, 1, false)),
];

#[cfg(test)]
mod tests {
    use super::*;
    use crate::reading::{Reading, READINGS};

    /// For each code, the bits of S kept, and those turned on, by the kind of result: 00, 0x, x0, xx.
    type Row = (usize, [(u8, u8); 4]);

    const IN_BOTH: [Row; 13] = [
        (0, [(0xFF, 0x00), (0xFF, 0x00), (0xFF, 0x00), (0xFF, 0x00)]),
        (1, [(0xFB, 0x04), (0xFB, 0x00), (0xFB, 0x04), (0xFB, 0x00)]),
        (2, [(0xF7, 0x08), (0xF7, 0x08), (0xF7, 0x00), (0xF7, 0x00)]),
        (3, [(0xF3, 0x0C), (0xF3, 0x08), (0xF3, 0x04), (0xF3, 0x00)]),
        (4, [(0xF3, 0x00), (0xF3, 0x00), (0xF3, 0x00), (0xF3, 0x00)]),
        (6, [(0x7F, 0x00), (0x7F, 0x00), (0x7F, 0x00), (0x7F, 0x00)]),
        (7, [(0x7F, 0x80), (0x7F, 0x80), (0x7F, 0x80), (0x7F, 0x80)]),
        (8, [(0xDF, 0x00), (0xDF, 0x00), (0xDF, 0x00), (0xDF, 0x00)]),
        (9, [(0xFF, 0x00), (0xDF, 0x20), (0xDF, 0x20), (0xDF, 0x20)]),
        (10, [(0xFD, 0x00), (0xFD, 0x00), (0xFD, 0x00), (0xFD, 0x00)]),
        (11, [(0xFD, 0x02), (0xFD, 0x02), (0xFD, 0x02), (0xFD, 0x02)]),
        (12, [(0xFE, 0x00), (0xFE, 0x00), (0xFE, 0x00), (0xFE, 0x00)]),
        (13, [(0xFE, 0x01), (0xFE, 0x01), (0xFE, 0x01), (0xFE, 0x01)]),
    ];

    /// CS 5 and 15, whatever the result is.
    const IN_COMPATIBILITY: [Row; 2] = [(5, [(0xBF, 0x40); 4]), (15, [(0xBF, 0x00); 4])];

    fn changes_as(reading: Reading, rows: &[Row]) {
        for (code, cases) in rows {
            let change = STATUS[*code].under(reading).unwrap();
            for (result, (kept, on)) in [0x00, 0x07, 0x70, 0x77].into_iter().zip(cases) {
                for s in 0..=255 {
                    assert_eq!(change(s, result), s & kept | on, "{reading:?} CS {code} on {result:02X}");
                }
            }
        }
    }

    #[test]
    fn every_code_on_every_s() {
        for reading in READINGS {
            changes_as(reading, &IN_BOTH);
        }
        changes_as(Compatibility, &IN_COMPATIBILITY);
    }

    #[test]
    fn codes_not_modelled() {
        let missing = |reading: Reading| -> Vec<usize> {
            (0..16).filter(|&code| STATUS[code].under(reading).is_none()).collect()
        };
        assert_eq!(missing(Reading::Basic), [5, 14, 15]);
        assert_eq!(missing(Compatibility), [14]);
    }
}
