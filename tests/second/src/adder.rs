//! The arithmetic unit: gates, complement, six, carries, correction and the logical operations.

use crate::bits::{both_decimal, crossed, from_digits, high_digit, low_digit};
use std::sync::LazyLock;

/// The fields and the two bits of S that steer the unit.
#[derive(Clone, Copy, Debug, Default, PartialEq, Eq)]
pub struct Controls {
    pub cf: u8,
    pub cg: u8,
    pub cv: u8,
    pub cc: u8,
    pub s0: bool,
    pub s3: bool,
}

#[derive(Clone, Copy, Debug, Default, PartialEq, Eq)]
pub struct Answer {
    pub result: u8,
    pub ac: bool,
    /// 1BC: the carry out of bit 1.
    pub bc1: bool,
    pub z0: bool,
    /// The sum before correction; of a logical operation, the result itself.
    pub sum: u8,
    /// The carry out of the low digit; off for a logical operation.
    pub digit_carry: bool,
    /// A digit over 9 in A or B as gated; off but for a decimal sum.
    pub invalid: bool,
}

type Gate = fn(u8) -> u8;

fn nothing(_: u8) -> u8 {
    0
}

fn low_in_place(byte: u8) -> u8 {
    from_digits(0, low_digit(byte))
}

fn high_in_place(byte: u8) -> u8 {
    from_digits(high_digit(byte), 0)
}

fn all(byte: u8) -> u8 {
    byte
}

/// A by CF: the cross comes first and the gate after it. 4 is the stop, which gates nothing.
static A_GATES: [Gate; 8] = [
    nothing,
    low_in_place,
    high_in_place,
    all,
    nothing,
    |a| low_in_place(crossed(a)),
    |a| high_in_place(crossed(a)),
    crossed,
];

/// B by CG.
static B_GATES: [Gate; 4] = [nothing, low_in_place, high_in_place, all];

/// By CV: whether B is complemented, from S0.
static COMPLEMENT: [fn(bool) -> bool; 4] = [|_| false, |_| true, |s0| s0, |s0| s0];

/// What the unit does by CC.
enum Operation {
    /// A sum, with its carry in from S3 as it was.
    Sum(fn(bool) -> bool),
    Logical(fn(u8, u8) -> u8),
}

static OPERATIONS: [Operation; 8] = [
    Operation::Sum(|_| false),
    Operation::Sum(|_| true),
    Operation::Logical(|a, b| a & b),
    Operation::Logical(|a, b| a | b),
    Operation::Sum(|_| false),
    Operation::Sum(|_| true),
    Operation::Sum(|s3| s3),
    Operation::Logical(|a, b| a ^ b),
];

/// The entry for a code; a code beyond the field's width acts as code 0.
fn entry<T>(table: &[T], code: u8) -> &T {
    table.get(usize::from(code)).unwrap_or(&table[0])
}

pub fn gate_a(cf: u8, a: u8) -> u8 {
    entry(&A_GATES, cf)(a)
}

pub fn gate_b(cg: u8, b: u8) -> u8 {
    entry(&B_GATES, cg)(b)
}

/// Whether S3 takes the new AC.
pub fn saves_carry(cc: u8) -> bool {
    (4..=6).contains(&cc)
}

/// Six more in each digit, modulo 16 in each.
fn six_more(byte: u8) -> u8 {
    from_digits(high_digit(byte) + 6, low_digit(byte) + 6)
}

/// The correction of a decimal sum by its digits: one with no carry out is lowered by six modulo 16.
/// `sum` has nine bits.
pub fn correct_by_rule(low_carry: bool, sum: u16) -> u8 {
    // Document 001 adds 1010, the complement of six; modulo 16 that is the same.
    let lowered = |digit: u8, carry: bool| if carry { digit } else { digit + 10 };
    let byte = (sum % 256) as u8;
    from_digits(lowered(high_digit(byte), sum >= 256), lowered(low_digit(byte), low_carry))
}

/// A digit less six, written out, so that the table does not rest on the rule above.
const SIX_LESS: [u8; 16] = [10, 11, 12, 13, 14, 15, 0, 1, 2, 3, 4, 5, 6, 7, 8, 9];

/// The same correction at 512 for the low digit's carry plus the nine-bit sum.
pub static CORRECTION: LazyLock<[u8; 1024]> = LazyLock::new(|| {
    let mut table = [0; 1024];
    let mut index = 0;
    for low_carried in [false, true] {
        for high_carried in [false, true] {
            for high in 0..16u8 {
                for low in 0..16u8 {
                    let high_out = if high_carried { high } else { SIX_LESS[usize::from(high)] };
                    let low_out = if low_carried { low } else { SIX_LESS[usize::from(low)] };
                    table[index] = high_out << 4 | low_out;
                    index += 1;
                }
            }
        }
    }
    table
});

pub fn correct_by_table(low_carry: bool, sum: u16) -> u8 {
    CORRECTION[512 * usize::from(low_carry) + usize::from(sum)]
}

/// How a decimal sum is corrected: by rule or by table.
pub type Correction = fn(bool, u16) -> u8;

/// The unit on A and B as they come from their registers, correcting by the digit rules.
pub fn add(a: u8, b: u8, controls: &Controls) -> Answer {
    add_with(correct_by_rule, a, b, controls)
}

/// The same, correcting by the table.
pub fn add_by_table(a: u8, b: u8, controls: &Controls) -> Answer {
    add_with(correct_by_table, a, b, controls)
}

pub fn add_with(correct: Correction, a: u8, b: u8, controls: &Controls) -> Answer {
    let a = gate_a(controls.cf, a);
    let gated = gate_b(controls.cg, b);
    let complement = entry(&COMPLEMENT, controls.cv)(controls.s0);
    let b = if complement { !gated } else { gated };
    match entry(&OPERATIONS, controls.cc) {
        Operation::Logical(connect) => logical(connect(a, b)),
        Operation::Sum(carry_in) => {
            let carry = carry_in(controls.s3);
            if controls.cv != 3 {
                return binary(a, b, carry);
            }
            // No six under the complement: 15 less a digit already carries it.
            let entering = if complement { b } else { six_more(b) };
            // B is judged as gated, before the complement and the six.
            let invalid = !both_decimal(a) || !both_decimal(gated);
            Answer { invalid, ..decimal(correct, a, entering, carry) }
        }
    }
}

/// What the unit did on the way to its answer, in the order of the panel's PANEL_A_CHOSEN to PANEL_AFTER.
#[derive(Clone, Copy, Debug, Default, PartialEq, Eq)]
pub struct Work {
    pub a_chosen: u8,
    /// After crossing and gating.
    pub a_gated: u8,
    pub b_chosen: u8,
    pub b_gated: u8,
    /// Turned, or with the six; a logical operation takes no six.
    pub b_entering: u8,
    /// 0 in a logical operation.
    pub carry_in: bool,
    /// The sum before and after correction; of a logical operation both are the result.
    pub before: u8,
    pub after: u8,
}

pub fn work(a: u8, b: u8, controls: &Controls) -> Work {
    let answer = add(a, b, controls);
    let gated = gate_b(controls.cg, b);
    let complement = entry(&COMPLEMENT, controls.cv)(controls.s0);
    let (carry_in, six) = match entry(&OPERATIONS, controls.cc) {
        Operation::Logical(_) => (false, false),
        Operation::Sum(carry_in) => (carry_in(controls.s3), controls.cv == 3 && !complement),
    };
    Work {
        a_chosen: a,
        a_gated: gate_a(controls.cf, a),
        b_chosen: b,
        b_gated: gated,
        b_entering: match (six, complement) {
            (true, _) => six_more(gated),
            (false, true) => !gated,
            (false, false) => gated,
        },
        carry_in,
        before: answer.sum,
        after: answer.result,
    }
}

fn logical(result: u8) -> Answer {
    Answer { result, z0: result == 0, sum: result, ..Answer::default() }
}

fn binary(a: u8, b: u8, carry: bool) -> Answer {
    let total = u16::from(a) + u16::from(b) + u16::from(carry);
    let sum = (total % 256) as u8;
    Answer {
        result: sum,
        ac: total >= 256,
        bc1: a % 128 + b % 128 >= 128 - u8::from(carry),
        z0: sum == 0,
        sum,
        digit_carry: low_digit(a) + low_digit(b) + u8::from(carry) >= 16,
        invalid: false,
    }
}

/// The carries are those of the sum before correction; the result and Z0 are those after it.
fn decimal(correct: Correction, a: u8, b: u8, carry: bool) -> Answer {
    let plain = binary(a, b, carry);
    let nine_bits = 256 * u16::from(plain.ac) + u16::from(plain.sum);
    let result = correct(plain.digit_carry, nine_bits);
    Answer { result, z0: result == 0, ..plain }
}

#[cfg(test)]
mod tests {
    use super::*;

    fn sum(a: u8, b: u8, cv: u8, cc: u8, s0: bool, s3: bool) -> Answer {
        add(a, b, &Controls { cf: 3, cg: 3, cv, cc, s0, s3 })
    }

    #[test]
    fn gates_of_a() {
        let gated: Vec<u8> = (0..8).map(|cf| gate_a(cf, 0x4B)).collect();
        assert_eq!(gated, [0, 0x0B, 0x40, 0x4B, 0, 0x04, 0xB0, 0xB4]);
    }

    #[test]
    fn gates_of_b() {
        let gated: Vec<u8> = (0..4).map(|cg| gate_b(cg, 0x4B)).collect();
        assert_eq!(gated, [0, 0x0B, 0x40, 0x4B]);
    }

    #[test]
    fn codes_beyond_the_width_act_as_code_0() {
        assert!((8..=255).all(|cf| gate_a(cf, 0xFF) == 0));
        assert!((4..=255).all(|cg| gate_b(cg, 0xFF) == 0));
        let plain = sum(0x38, 0x47, 0, 0, true, true);
        assert_eq!(plain.result, 0x7F);
        assert!((4..=255).all(|cv| sum(0x38, 0x47, cv, 0, true, true) == plain));
        assert!((8..=255).all(|cc| sum(0x38, 0x47, 0, cc, true, true) == plain));
    }

    #[test]
    fn complement_by_cv_and_s0() {
        let of = |cv, s0| sum(0, 0x0F, cv, 0, s0, false).result;
        assert_eq!([of(0, false), of(0, true)], [0x0F, 0x0F]);
        assert_eq!([of(1, false), of(1, true)], [0xF0, 0xF0]);
        assert_eq!([of(2, false), of(2, true)], [0x0F, 0xF0]);
    }

    #[test]
    fn complement_turns_every_bit_of_gated_b() {
        let low = Controls { cf: 0, cg: 1, cv: 1, ..Controls::default() };
        assert_eq!(add(0, 0x4B, &low).result, 0xF4);
        let none = Controls { cf: 0, cg: 0, cv: 1, ..Controls::default() };
        assert_eq!(add(0, 0x4B, &none).result, 0xFF);
    }

    #[test]
    fn carry_in_by_cc() {
        let of = |cc, s3| sum(0x10, 0x20, 0, cc, false, s3).result;
        for (cc, off, on) in [(0, 0, 0), (1, 1, 1), (4, 0, 0), (5, 1, 1), (6, 0, 1)] {
            assert_eq!([of(cc, false), of(cc, true)], [0x30 + off, 0x30 + on], "CC {cc}");
        }
        let saving: Vec<u8> = (0..=255).filter(|&cc| saves_carry(cc)).collect();
        assert_eq!(saving, [4, 5, 6]);
    }

    #[test]
    fn logical_operations() {
        for cv in [0, 3] {
            assert_eq!(sum(0x49, 0x41, cv, 2, false, true).result, 0x41);
            assert_eq!(sum(0x49, 0x41, cv, 3, false, true).result, 0x49);
            assert_eq!(sum(0x49, 0x41, cv, 7, false, true).result, 0x08);
            // After the complement: 41 turned is BE.
            assert_eq!(sum(0x49, 0x41, cv.max(1), 2, true, false).result, 0x08);
        }
        for (a, b) in [(0xFF, 0xFF), (0xF8, 0x0F), (0, 0)] {
            for cc in [2, 3, 7] {
                let answer = sum(a, b, 3, cc, false, true);
                assert!(!answer.ac && !answer.bc1 && !answer.digit_carry && !answer.invalid);
                assert_eq!(answer.sum, answer.result);
                assert_eq!(answer.z0, answer.result == 0);
            }
        }
    }

    #[test]
    fn every_binary_sum() {
        for a in 0..=255u8 {
            for b in 0..=255u8 {
                for carry in 0..=1u8 {
                    let answer = sum(a, b, 0, carry, false, false);
                    let total = u32::from(a) + u32::from(b) + u32::from(carry);
                    let below = |n: u32| u32::from(a) % n + u32::from(b) % n + u32::from(carry) >= n;
                    assert_eq!(u32::from(answer.result), total & 255);
                    assert_eq!(answer.sum, answer.result);
                    assert_eq!(answer.z0, total & 255 == 0);
                    assert_eq!((answer.ac, answer.bc1, answer.digit_carry), (below(256), below(128), below(16)));
                }
            }
        }
    }

    fn packed(number: u32) -> u8 {
        from_digits((number / 10 % 10) as u8, (number % 10) as u8)
    }

    #[test]
    fn every_valid_decimal_sum_and_difference() {
        for x in 0..100 {
            for y in 0..100 {
                for carry in 0..=1 {
                    let added = sum(packed(x), packed(y), 3, 6, false, carry == 1);
                    assert_eq!(added.result, packed(x + y + carry));
                    assert_eq!(added.ac, x + y + carry >= 100);
                    // The complement to 99, so that the carry says there was no borrow.
                    let taken = sum(packed(x), packed(y), 3, 6, true, carry == 1);
                    assert_eq!(taken.result, packed(x + 99 - y + carry));
                    assert_eq!(taken.ac, x + 99 - y + carry >= 100);
                }
            }
        }
    }

    #[test]
    fn the_table_holds_the_rule_at_every_entry() {
        for index in 0..1024usize {
            let (low_carry, sum) = (index >= 512, (index % 512) as u16);
            assert_eq!(CORRECTION[index], correct_by_rule(low_carry, sum), "{index}");
            assert_eq!(CORRECTION[index], correct_by_table(low_carry, sum), "{index}");
        }
        assert_eq!(CORRECTION[0], 0xAA);
        assert_eq!(CORRECTION[0x100], 0x0A);
        assert_eq!(CORRECTION[512], 0xA0);
        assert_eq!(CORRECTION[1023], 0xFF);
    }

    #[test]
    fn by_table_agrees_with_by_rule() {
        for a in 0..=255 {
            for b in 0..=255 {
                for s in 0..4u8 {
                    for cv in 2..4 {
                        let controls = Controls { cf: 3, cg: 3, cv, cc: 6, s0: s > 1, s3: s % 2 == 1 };
                        assert_eq!(add_by_table(a, b, &controls), add(a, b, &controls));
                    }
                }
            }
        }
    }

    #[test]
    fn z0_is_that_of_the_final_result() {
        // 00 + 00: the sixes make 66 of it before correction.
        let zero = sum(0x00, 0x00, 3, 0, false, false);
        assert_eq!((zero.sum, zero.result, zero.z0), (0x66, 0x00, true));
        // 00 + AA: the sixes bring AA to 00, with no carry, and the correction back to AA.
        let other = sum(0x00, 0xAA, 3, 0, false, false);
        assert_eq!((other.sum, other.result, other.z0), (0x00, 0xAA, false));
    }

    #[test]
    fn before_correction_and_digit_carry() {
        let answer = sum(0x38, 0x47, 3, 0, false, false);
        // 47 with sixes is AD; 38 + AD is E5, the low digit carried and the high one did not.
        assert_eq!((answer.sum, answer.digit_carry, answer.ac), (0xE5, true, false));
        assert_eq!(answer.result, 0x85);
        assert!(answer.bc1 == (0x38 + 0x2D >= 0x80));
    }
}
