//! Words packed and taken apart, and refusal 20.

mod common;

use common::{draw_fields, P};
use second::random::Random;
use second::word::{fault, named, pack, take_apart, with_right_pk, GIVEN, LAYOUT};

#[test]
fn fields_packed_and_taken_apart_are_the_same() {
    let mut random = Random::new(18);
    for _ in 0..5000 {
        let fields = draw_fields(&mut random);
        let address = random.below(4096) as u32;
        let word = pack(&fields, address).unwrap();
        assert_eq!(word >> 55, 0);
        assert_eq!(fault(word, address), 0);
        assert_eq!(take_apart(word, address), Ok(fields));
    }
}

#[test]
fn a_word_taken_apart_packs_to_itself() {
    let mut random = Random::new(19);
    let mut good = 0;
    for _ in 0..100_000 {
        let word = random.next() >> 9;
        let address = random.below(4096) as u32;
        match take_apart(word, address) {
            Ok(fields) => {
                good += 1;
                assert_eq!(pack(&fields, address), Ok(word));
            }
            Err(number) => {
                assert!((4..=9).contains(&number));
                assert_eq!(number, fault(word, address));
            }
        }
    }
    // Four parities are right by chance one time in sixteen.
    assert!((5000..7000).contains(&good), "{good}");
}

#[test]
fn one_turned_bit_is_always_refused() {
    let mut random = Random::new(21);
    for _ in 0..500 {
        let word = pack(&draw_fields(&mut random), 77).unwrap();
        for bit in 0..64 {
            let place = place_of(bit);
            // AA and AK are under no parity, but for AA with a module number.
            let free = place.is_some_and(|place| ["AA", "AK"].contains(&LAYOUT[place].0));
            let number = fault(word ^ 1 << bit, 77);
            assert!(number != 0 || free, "bit {bit}");
        }
    }
}

/// The place of the field that holds a bit counted from the low end.
fn place_of(bit: u32) -> Option<usize> {
    let mut end = 0;
    for (place, (_, width)) in LAYOUT.iter().enumerate().rev() {
        end += width;
        if bit < end {
            return Some(place);
        }
    }
    None
}

#[test]
fn twenty_for_a_field_beyond_its_width() {
    for (index, &place) in GIVEN.iter().enumerate() {
        let (name, width) = LAYOUT[place];
        let mut fields = named(&[("CM", 3)]);
        fields[index] = (1 << width) - 1;
        assert!(pack(&with_right_pk(fields), 0).is_ok(), "{name}");
        for code in [1 << width, 255] {
            fields[index] = code;
            assert_eq!(pack(&fields, 0), Err(20), "{name} {code}");
        }
    }
}

#[test]
fn twenty_for_an_address_over_4095() {
    let fields = named(&[]);
    assert!(pack(&fields, 4095).is_ok());
    assert_eq!(take_apart(pack(&fields, 4095).unwrap(), 4095), Ok(fields));
    for address in [4096, 0x1_0000, u32::MAX] {
        assert_eq!(pack(&fields, address), Err(20));
        assert_eq!(take_apart(P, address), Err(20));
        // 20 comes before anything said of the word.
        assert_eq!(take_apart(u64::MAX, address), Err(20));
    }
}

#[test]
fn packing_checks_20_then_8_then_9() {
    for cu in [2, 3] {
        let both = named(&[("CL", 2), ("CM", 2), ("CU", cu), ("PK", 0)]);
        assert_eq!(pack(&both, 0), Err(8));
        assert_eq!(pack(&both, 4096), Err(20));
        let mut wide = both;
        wide[0] = 64;
        assert_eq!(pack(&wide, 0), Err(20));
    }
    for (pk, right) in [(0, false), (1, true)] {
        let ca = named(&[("CL", 2), ("CA", 3), ("CM", 3), ("PK", pk)]);
        assert_eq!(pack(&ca, 0).is_ok(), right);
        let ck = named(&[("CU", 2), ("CK", 5), ("PK", pk)]);
        assert_eq!(pack(&ck, 0).is_ok(), right);
        if !right {
            assert_eq!((pack(&ca, 0), pack(&ck, 0)), (Err(9), Err(9)));
        }
        // Free elsewhere, and given back as it was.
        for cu in [0, 1, 3] {
            let free = named(&[("CM", 1), ("CU", cu), ("CK", 5), ("PK", pk)]);
            assert_eq!(take_apart(pack(&free, 0).unwrap(), 0), Ok(free));
        }
    }
}
