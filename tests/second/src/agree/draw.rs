//! Drawn words and states, number for number as the proved library `agree` draws them.

use crate::reading::Reading;
use crate::state::{State, I, J, L, M, N, T, U, V};
use crate::word::{index_of, pack, with_right_pk, Fields, GIVEN, LAYOUT};

/// The codes of a field that are modelled in basic, some of them more than once.
const CH: [u8; 16] = [0, 1, 2, 3, 6, 7, 8, 9, 10, 11, 12, 13, 14, 15, 0, 1];
const CL: [u8; 16] = [0, 1, 2, 5, 6, 7, 8, 9, 10, 11, 13, 14, 2, 1, 0, 5];
const CM: [u8; 16] = [0, 1, 2, 3, 4, 5, 0, 2, 3, 4, 5, 3, 4, 5, 1, 2];
const CA: [u8; 16] = [4, 5, 7, 8, 9, 10, 11, 12, 13, 14, 15, 4, 5, 7, 8, 9];
const CD: [u8; 16] = [0, 5, 6, 7, 8, 9, 10, 11, 12, 13, 14, 15, 0, 7, 6, 5];
const CF: [u8; 16] = [0, 1, 2, 3, 5, 6, 7, 3, 3, 3, 3, 3, 5, 6, 7, 3];
const CS: [u8; 16] = [0, 1, 2, 3, 4, 6, 7, 8, 9, 10, 11, 12, 13, 0, 3, 9];

/// The bits of `x` from `low` up, as many as `width`.
pub fn bits(x: u64, low: u32, width: u32) -> u8 {
    (x >> low) as u8 & (((1u16 << width) - 1) as u8)
}

fn pick(codes: &[u8; 16], x: u64, low: u32) -> u8 {
    codes[usize::from(bits(x, low, 4))]
}

pub fn reading_of(x: u64) -> Reading {
    if x.is_multiple_of(2) {
        Reading::Basic
    } else {
        Reading::Compatibility
    }
}

/// The codes that the readings tell apart, in the order in which they are drawn and counted.
pub const SEVEN: [(&str, u8); 7] = [("CH", 3), ("CH", 8), ("CL", 4), ("CL", 6), ("CL", 12), ("CS", 5), ("CS", 15)];

/// A field's code from the one that is picked for basic. In compatibility each of the seven that is modelled there has its
/// own draw of 16, and CH 3 gives way to 2.
fn code_under(reading: Reading, name: &str, picked: u8, a: u64) -> u8 {
    if reading == Reading::Basic {
        return picked;
    }
    match (name, bits(a, 37, 4), picked) {
        ("CH", 1, _) => 8,
        ("CH", _, 3) => 2,
        ("CL", 2, _) => 4,
        ("CL", 3, _) => 6,
        ("CL", 4, _) => 12,
        ("CS", 5, _) => 5,
        ("CS", 6, _) => 15,
        _ => picked,
    }
}

/// By three bits, for CM 0 to 2: a return is seldom, so that runs go on.
const CU: [u8; 8] = [0, 0, 0, 0, 2, 2, 2, 3];

/// A modelled CU beside these two; where CA goes to W, neither K nor a return gives W again.
fn drawn_cu(cl: u8, cm: u8, x: u64) -> u8 {
    match (cm, cl, bits(x, 20, 2)) {
        (0..=2, 2, _) => 0,
        (0..=2, _, _) => CU[usize::from(bits(x, 20, 3))],
        (_, _, 2) => 0,
        (_, _, code) => code,
    }
}

/// Fields that are modelled under a reading and do not stop. Where CL = 2 any CA is modelled.
pub fn modelled(reading: Reading, a: u64, b: u64) -> Fields {
    let code = |name: &str, picked: u8| code_under(reading, name, picked, a);
    let (cl, cm) = (code("CL", pick(&CL, a, 12)), pick(&CM, a, 16));
    let ca = if cl == 2 { bits(a, 24, 4) } else { pick(&CA, a, 24) };
    // In word order: CN CH CL CM CU CA AA CB CK AK PK, and CD CF CG CV CC CS AS.
    with_right_pk([
        bits(a, 0, 6),
        code("CH", pick(&CH, a, 8)),
        cl,
        cm,
        drawn_cu(cl, cm, a),
        ca,
        0,
        bits(a, 28, 2),
        bits(a, 32, 4),
        0,
        bits(a, 36, 1),
        pick(&CD, b, 0),
        pick(&CF, b, 4),
        bits(b, 8, 2),
        bits(b, 10, 2),
        bits(b, 12, 3),
        code("CS", pick(&CS, b, 15)),
        0,
    ])
}

/// Fields of any codes within their widths, with PK right.
pub fn raw(a: u64, b: u64) -> Fields {
    with_right_pk([
        bits(a, 0, 6),
        bits(a, 8, 4),
        bits(a, 12, 4),
        bits(a, 16, 3),
        bits(a, 20, 2),
        bits(a, 24, 4),
        bits(a, 33, 1),
        bits(a, 28, 2),
        bits(a, 34, 4),
        bits(a, 38, 1),
        bits(a, 39, 1),
        bits(b, 0, 4),
        bits(b, 4, 3),
        bits(b, 8, 2),
        bits(b, 10, 2),
        bits(b, 12, 3),
        bits(b, 15, 4),
        bits(b, 19, 1),
    ])
}

/// The fields with one of the seven codes.
fn with_code(mut fields: Fields, which: u64) -> Fields {
    let (name, code) = SEVEN[which as usize];
    fields[index_of(name)] = code;
    fields
}

/// The fields that may stop a word or have it refused.
const REPLACED: [&str; 11] = ["CH", "CL", "CM", "CU", "CA", "AA", "AK", "CD", "CS", "AS", "CF"];

/// The fields with one of those any code of its width.
fn replaced(mut fields: Fields, which: u64, x: u64) -> Fields {
    let index = index_of(REPLACED[which as usize]);
    fields[index] = bits(x, 0, LAYOUT[GIVEN[index]].1);
    with_right_pk(fields)
}

/// The fields of a word that sends CA to W and touches CU no more.
fn to_w(mut fields: Fields) -> Fields {
    fields[index_of("CL")] = 2;
    fields[index_of("CM")] %= 3;
    fields[index_of("CU")] = 0;
    with_right_pk(fields)
}

/// The word of the fields, or the number that refuses them, which is no good word.
pub fn packed(fields: &Fields, address: u32) -> u64 {
    pack(fields, address).unwrap_or_else(u64::from)
}

/// PS with the high bit of CU, and with PK: what is turned in a word whose parity is to stay right. Both bits of CU are
/// turned without it.
pub const PS_AND_CU: u64 = 1 << 35 | 1 << 20;
pub const PS_AND_PK: u64 = 1 << 21 | 1 << 20;
pub const BOTH_OF_CU: u64 = 3 << 34;

/// A word for the address, of a kind that `x` draws: most are modelled under the reading and run.
pub fn word_for(reading: Reading, a: u64, b: u64, x: u64, address: u32) -> u64 {
    let (fields, rest) = (modelled(reading, a, b), x / 64);
    match x % 64 {
        0..=43 => packed(&fields, address),
        44..=46 => packed(&with_right_pk(with_code(fields, rest % 7)), address),
        47..=49 => packed(&replaced(fields, rest % 11, rest / 16), address),
        50..=53 => packed(&raw(a, b), address),
        54..=59 => packed(&fields, address) ^ 1 << (rest % 64),
        60 => packed(&fields, (rest % 4096) as u32),
        61 => packed(&to_w(fields), address) ^ [PS_AND_CU, BOTH_OF_CU][(rest % 2) as usize],
        62 => packed(&fields, address) ^ PS_AND_PK,
        _ => a / 512,
    }
}

/// How many words of the store, and bytes of each storage, are lent.
pub struct Lent {
    pub words: usize,
    pub main: usize,
    pub local: usize,
}

impl Lent {
    /// These sizes, or, for six choices of 256, one of them wrong in one of six ways.
    pub fn seldom_wrong(self, choice: u64) -> Lent {
        match choice % 256 {
            0 => Lent { words: 0, ..self },
            1 => Lent { words: 4097, ..self },
            2 => Lent { main: 0, ..self },
            3 => Lent { main: 65537, ..self },
            4 => Lent { local: 255, ..self },
            5 => Lent { local: 257, ..self },
            _ => self,
        }
    }
}

/// Any 16 bits one time in 16, else an address of a whole store.
fn drawn_fwx(c: u64, e: u64) -> u16 {
    let x = (((c / 0x1000) ^ (e / 0x100)) % 0x1_0000) as u16;
    if bits(e, 49, 4) == 0 {
        x
    } else {
        x % 4096
    }
}

pub fn drawn_state(c: u64, e: u64, wx: u16) -> State {
    let mut registers = [0; 13];
    registers[..8].copy_from_slice(&c.to_le_bytes());
    registers[8..].copy_from_slice(&e.to_le_bytes()[..5]);
    let latch = |place: u32| bits(e, 40 + place, 1) == 1;
    State {
        registers,
        wx,
        ac: latch(0),
        bc1: latch(1),
        z0: latch(2),
        allow_write: latch(3),
        local: latch(4),
        arriving: latch(5),
        arriving_byte: bits(e, 56, 8),
        digit_carry: latch(6),
        invalid: latch(7),
        fwx: drawn_fwx(c, e),
        owed: latch(8),
    }
}

/// The state with every pair that addresses storage near 0, 255 or 511.
pub fn near(mut state: State) -> State {
    for high in [I, U, L, M] {
        state.registers[high] = u8::from(state.registers[high] % 4 == 3);
    }
    for low in [J, V, T, N] {
        state.registers[low] = [0, 1, 254, 255][usize::from(state.registers[low] % 4)];
    }
    state
}

#[cfg(test)]
mod tests {
    use super::*;
    use crate::cycle::not_modelled;
    use crate::random::Random;
    use crate::word::{fault, split};

    /// Of some words drawn for a reading, which are modelled under it, those with each of the seven codes.
    fn drawn_of_seven(reading: Reading) -> [u32; 7] {
        let mut random = Random::new(1);
        let mut counts = [0; 7];
        for _ in 0..20_000 {
            let fields = modelled(reading, random.next(), random.next());
            let word = packed(&fields, 0);
            assert_eq!((fault(word, 0), not_modelled(reading, &split(word))), (0, 0), "{fields:?}");
            for ((name, code), count) in SEVEN.into_iter().zip(&mut counts) {
                *count += u32::from(fields[index_of(name)] == code);
            }
        }
        counts
    }

    #[test]
    fn words_drawn_for_a_reading_are_modelled_under_it() {
        assert_eq!(
            drawn_of_seven(Reading::Basic).map(|count| count > 999),
            [true, true, false, true, false, false, false]
        );
        assert_eq!(
            drawn_of_seven(Reading::Compatibility).map(|count| count > 999),
            [false, true, true, true, true, true, true]
        );
    }

    #[test]
    fn three_kinds_of_words_have_one_of_the_seven() {
        let mut random = Random::new(2);
        for (x, which) in (44..47).flat_map(|kind| (0..7).map(move |which| (64 * which + kind, which))) {
            let word = word_for(Reading::Basic, random.next(), random.next(), x, 0);
            let (name, code) = SEVEN[which as usize];
            assert_eq!((fault(word, 0), split(word)[GIVEN[index_of(name)]]), (0, code), "{x}");
        }
    }
}
