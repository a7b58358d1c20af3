//! Bits and digits of a byte. Bit 0 is the high bit, as in the manuals.

/// The byte that has bit `n` alone.
pub fn mask(n: u32) -> u8 {
    assert!(n < 8, "a register has bits 0 to 7");
    0x80 >> n
}

/// Whether bit `n` is on.
pub fn bit(byte: u8, n: u32) -> bool {
    byte & mask(n) != 0
}

/// The byte with bit `n` made `on`, the others kept.
pub fn with_bit(byte: u8, n: u32, on: bool) -> u8 {
    if on {
        byte | mask(n)
    } else {
        byte & !mask(n)
    }
}

pub fn high_digit(byte: u8) -> u8 {
    byte / 16
}

pub fn low_digit(byte: u8) -> u8 {
    byte % 16
}

/// A byte from two digits, each taken modulo 16.
pub fn from_digits(high: u8, low: u8) -> u8 {
    high % 16 * 16 + low % 16
}

/// The two digits in each other's place.
pub fn crossed(byte: u8) -> u8 {
    from_digits(low_digit(byte), high_digit(byte))
}

/// Whether both digits are at most 9.
pub fn both_decimal(byte: u8) -> bool {
    high_digit(byte) <= 9 && low_digit(byte) <= 9
}

#[cfg(test)]
mod tests {
    use super::*;

    #[test]
    fn bit_0_is_the_high_bit() {
        let masks: Vec<u8> = (0..8).map(mask).collect();
        assert_eq!(masks, [0x80, 0x40, 0x20, 0x10, 0x08, 0x04, 0x02, 0x01]);
        assert!(bit(0x80, 0) && !bit(0x80, 7));
        assert!(bit(0x01, 7) && !bit(0x01, 0));
    }

    #[test]
    #[should_panic]
    fn there_is_no_bit_8() {
        bit(0xFF, 8);
    }

    #[test]
    fn with_bit_changes_that_bit_alone() {
        for byte in 0..=255u8 {
            for n in 0..8 {
                let (on, off) = (with_bit(byte, n, true), with_bit(byte, n, false));
                assert!(bit(on, n) && !bit(off, n));
                for other in (0..8).filter(|&other| other != n) {
                    assert_eq!(bit(on, other), bit(byte, other));
                    assert_eq!(bit(off, other), bit(byte, other));
                }
            }
        }
    }

    #[test]
    fn digits() {
        assert_eq!((high_digit(0x4B), low_digit(0x4B)), (4, 11));
        assert_eq!(from_digits(4, 11), 0x4B);
        assert_eq!(from_digits(20, 27), 0x4B);
        assert_eq!(crossed(0x4B), 0xB4);
    }

    #[test]
    fn a_hundred_bytes_are_decimal() {
        assert_eq!((0..=255u8).filter(|&b| both_decimal(b)).count(), 100);
        assert!(both_decimal(0x99) && !both_decimal(0x9A) && !both_decimal(0xA9));
    }
}
