//! The microword: 55 bits in a 64-bit number, high end first, and its odd parity.

use crate::Refusal;

/// The fields of a word by place, high end first.
pub const LAYOUT: [(&str, u32); 22] = [
    ("CN", 6),
    ("PN", 1),
    ("PA", 1),
    ("CH", 4),
    ("CL", 4),
    ("CM", 3),
    ("CU", 2),
    ("CA", 4),
    ("AA", 1),
    ("CB", 2),
    ("CK", 4),
    ("AK", 1),
    ("PK", 1),
    ("PS", 1),
    ("CD", 4),
    ("CF", 3),
    ("CG", 2),
    ("CV", 2),
    ("CC", 3),
    ("CS", 4),
    ("AS", 1),
    ("PC", 1),
];

// Places in LAYOUT. A field's number, as refusal 10 names it, is its place and one.
pub const CN: usize = 0;
pub const PN: usize = 1;
pub const PA: usize = 2;
pub const CH: usize = 3;
pub const CL: usize = 4;
pub const CM: usize = 5;
pub const CU: usize = 6;
pub const CA: usize = 7;
pub const AA: usize = 8;
pub const CB: usize = 9;
pub const CK: usize = 10;
pub const AK: usize = 11;
pub const PK: usize = 12;
pub const PS: usize = 13;
pub const CD: usize = 14;
pub const CF: usize = 15;
pub const CG: usize = 16;
pub const CV: usize = 17;
pub const CC: usize = 18;
pub const CS: usize = 19;
pub const AS: usize = 20;
pub const PC: usize = 21;

/// All 22 fields of a word, by place.
pub type Word = [u8; 22];

/// The 18 fields other than PN, PA, PS and PC, in word order.
pub type Fields = [u8; 18];

/// The places of those 18.
pub const GIVEN: [usize; 18] = [CN, CH, CL, CM, CU, CA, AA, CB, CK, AK, PK, CD, CF, CG, CV, CC, CS, AS];

/// What PS covers: neither AA nor AK is in it.
const UNDER_PS: [usize; 9] = [PA, CH, CL, CM, CU, CA, CB, CK, PK];

/// What PC covers.
const UNDER_PC: [usize; 7] = [CD, CF, CG, CV, CC, CS, AS];

pub const HIGHEST_ADDRESS: u32 = 4095;

/// The fields of the low 55 bits.
pub fn split(bits: u64) -> Word {
    let mut rest = bits;
    let mut word = [0; 22];
    for (place, (_, width)) in LAYOUT.iter().enumerate().rev() {
        word[place] = (rest % (1 << width)) as u8;
        rest >>= width;
    }
    word
}

/// The 55 bits of fields that are within their widths.
pub fn join(word: &Word) -> u64 {
    LAYOUT.iter().zip(word).fold(0, |bits, ((_, width), code)| bits << width | u64::from(*code))
}

fn ones(word: &Word, places: &[usize]) -> u32 {
    places.iter().map(|&place| word[place].count_ones()).sum()
}

/// The bit that makes `ones` odd.
fn parity_for(ones: u32) -> u8 {
    u8::from(ones.is_multiple_of(2))
}

/// Whether the word sends K to W.
pub fn k_to_w(word: &Word) -> bool {
    word[CM] <= 2 && word[CU] == 2
}

/// Whether the word sends CA to W.
pub fn ca_to_w(word: &Word) -> bool {
    word[CL] == 2
}

/// Whether the word is a return: FWX is the next WX.
pub fn returns(word: &Word) -> bool {
    word[CM] <= 2 && word[CU] == 3
}

/// Refusal 8: CA goes to W, and K goes there too or a return gives all of WX.
fn given_twice(word: &Word) -> bool {
    ca_to_w(word) && (k_to_w(word) || returns(word))
}

/// What PK covers, or nothing where it is free.
fn under_pk(word: &Word) -> &'static [usize] {
    if ca_to_w(word) {
        &[CA, AA]
    } else if k_to_w(word) {
        &[CK]
    } else {
        &[]
    }
}

fn pk_wrong(word: &Word) -> bool {
    let covered = under_pk(word);
    !covered.is_empty() && word[PK] != parity_for(ones(word, covered))
}

/// The first of refusals 3 to 9 the word earns at this address, or 0. Only the low 12 bits of the address count.
pub fn fault(bits: u64, address: u32) -> Refusal {
    let word = split(bits);
    let wrong = |parity: usize, ones: u32| word[parity] != parity_for(ones);
    let checks = [
        (3, bits >> 55 != 0),
        (4, wrong(PN, ones(&word, &[CN]))),
        (5, wrong(PA, (address & HIGHEST_ADDRESS).count_ones())),
        (6, wrong(PS, ones(&word, &UNDER_PS))),
        (7, wrong(PC, ones(&word, &UNDER_PC))),
        (8, given_twice(&word)),
        (9, pk_wrong(&word)),
    ];
    checks.iter().find(|(_, given)| *given).map_or(0, |(number, _)| *number)
}

/// The 18 fields of a word; checks 20, then 3 to 9.
pub fn take_apart(bits: u64, address: u32) -> Result<Fields, Refusal> {
    if address > HIGHEST_ADDRESS {
        return Err(20);
    }
    match fault(bits, address) {
        0 => Ok(GIVEN.map(|place| split(bits)[place])),
        number => Err(number),
    }
}

/// The word of 18 fields; checks 20, 8, 9 and works out PN, PA, PS and PC.
pub fn pack(fields: &Fields, address: u32) -> Result<u64, Refusal> {
    let too_wide = |(&place, &code): (&usize, &u8)| u32::from(code) >= 1 << LAYOUT[place].1;
    if address > HIGHEST_ADDRESS || GIVEN.iter().zip(fields).any(too_wide) {
        return Err(20);
    }
    let mut word = [0; 22];
    for (&place, &code) in GIVEN.iter().zip(fields) {
        word[place] = code;
    }
    if given_twice(&word) {
        return Err(8);
    }
    if pk_wrong(&word) {
        return Err(9);
    }
    set_parities(&mut word, address);
    Ok(join(&word))
}

/// PA goes before PS, which covers it.
fn set_parities(word: &mut Word, address: u32) {
    word[PN] = parity_for(ones(word, &[CN]));
    word[PA] = parity_for(address.count_ones());
    word[PS] = parity_for(ones(word, &UNDER_PS));
    word[PC] = parity_for(ones(word, &UNDER_PC));
}

/// The place of a field among the 18; a name that is not there is a mistake in the caller.
pub fn index_of(name: &str) -> usize {
    let named = |&place: &usize| LAYOUT[place].0 == name;
    GIVEN.iter().position(named).unwrap_or_else(|| panic!("{name} is not one of the 18 fields"))
}

/// Fields by name, the others 0.
pub fn named(codes: &[(&str, u8)]) -> Fields {
    let mut fields = [0; 18];
    for (name, code) in codes {
        fields[index_of(name)] = *code;
    }
    fields
}

/// The fields with PK right where it covers something, and as given elsewhere.
pub fn with_right_pk(mut fields: Fields) -> Fields {
    let mut word = [0; 22];
    for (&place, &code) in GIVEN.iter().zip(&fields) {
        word[place] = code;
    }
    let covered = under_pk(&word);
    if !covered.is_empty() {
        fields[index_of("PK")] = parity_for(ones(&word, covered));
    }
    fields
}

/// The word at `address` with these fields, others 0 and PK right: what a microprogram is written with.
pub fn build(address: u32, codes: &[(&str, u8)]) -> Result<u64, Refusal> {
    pack(&with_right_pk(named(codes)), address)
}

#[cfg(test)]
mod tests {
    use super::*;
    use crate::random::Random;

    #[test]
    fn widths_total_55() {
        assert_eq!(LAYOUT.iter().map(|(_, width)| width).sum::<u32>(), 55);
        assert_eq!(LAYOUT[CN].0, "CN");
        assert_eq!(LAYOUT[CK].0, "CK");
        assert_eq!(LAYOUT[PC].0, "PC");
    }

    #[test]
    fn every_place_is_the_field_of_its_name() {
        let places = [CN, PN, PA, CH, CL, CM, CU, CA, AA, CB, CK, AK, PK, PS, CD, CF, CG, CV, CC, CS, AS, PC];
        assert_eq!(places, std::array::from_fn::<usize, 22, _>(|place| place));
        let given: Vec<&str> = GIVEN.iter().map(|&place| LAYOUT[place].0).collect();
        let all = LAYOUT.iter().map(|(name, _)| *name);
        let others: Vec<&str> = all.filter(|n| !["PN", "PA", "PS", "PC"].contains(n)).collect();
        assert_eq!(given, others);
    }

    #[test]
    fn the_ends_of_the_word() {
        assert_eq!(split(1)[PC], 1);
        assert_eq!(split(1 << 54)[CN], 32);
        assert_eq!(split(1 << 48)[PN], 1);
        assert_eq!(split(1 << 47)[PA], 1);
        assert_eq!(split(1 << 46)[CH], 8);
        assert_eq!(split(u64::MAX << 55), [0; 22]);
    }

    #[test]
    fn split_and_join_undo_each_other() {
        let mut random = Random::new(20);
        for _ in 0..5000 {
            let bits = random.next() >> 9;
            assert_eq!(join(&split(bits)), bits);
        }
    }

    #[test]
    fn ps_covers_neither_aa_nor_ak() {
        for name in ["AA", "AK"] {
            let without = split(build(0, &[("CL", 1)]).unwrap());
            let with = split(build(0, &[("CL", 1), (name, 1)]).unwrap());
            assert_eq!(with[PS], without[PS], "{name}");
        }
    }

    #[test]
    fn each_parity_turns_with_each_bit_it_covers() {
        let covers: [(&str, usize, &[&str]); 3] = [
            ("PN", PN, &["CN"]),
            ("PS", PS, &["CH", "CL", "CM", "CU", "CA", "CB", "CK", "PK"]),
            ("PC", PC, &["CD", "CF", "CG", "CV", "CC", "CS", "AS"]),
        ];
        let none = split(pack(&[0; 18], 0).unwrap());
        for (index, &place) in GIVEN.iter().enumerate() {
            for bit in 0..LAYOUT[place].1 {
                let mut fields = [0; 18];
                fields[index] = 1 << bit;
                let word = split(pack(&with_right_pk(fields), 0).unwrap());
                for (name, parity, covered) in covers {
                    // A word that needs PK for its module number turns PS twice.
                    let twice = word[PK] == 1 && place != PK && name == "PS";
                    let turns = covered.contains(&LAYOUT[place].0) != twice;
                    assert_eq!(word[parity] != none[parity], turns, "{name} by {}", LAYOUT[place].0);
                }
            }
        }
    }
}
