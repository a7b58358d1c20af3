//! The adder: every pair of bytes with either carry, every gate and operation, and document 001's worked sums; and both
//! corrections of every sum.

use super::digest_line;
use crate::adder::{add, correct_by_rule, correct_by_table, Answer, Controls};
use crate::random::{mix, Random};

const DIGEST_EVERY: u64 = 16_384;

/// All that the adder hands back, as one number.
fn value(answer: &Answer) -> u64 {
    let latches = [answer.ac, answer.bc1, answer.z0, answer.digit_carry, answer.invalid];
    let bits = latches.iter().fold(0, |bits, latch| bits << 1 | u64::from(*latch));
    u64::from(answer.result) << 16 | u64::from(answer.sum) << 8 | bits
}

/// The digest after a case.
fn summed(digest: u64, a: u8, b: u8, controls: &Controls) -> u64 {
    mix(digest, value(&add(a, b, controls)))
}

/// So many cases under a name, with a digest after every 16,384 of them.
fn section(name: &str, seed: u64, cases: u64, mut case: impl FnMut(u64, u64) -> u64) -> String {
    let mut text = format!("{name}\n");
    let mut digest = seed;
    for k in 0..cases {
        digest = case(digest, k);
        if (k + 1) % DIGEST_EVERY == 0 {
            text += &digest_line(k + 1, digest);
        }
    }
    text
}

fn pairs(name: &str, cv: u8, s0: bool) -> String {
    section(name, 1, 1 << 17, |digest, k| {
        let controls = Controls { cf: 3, cg: 3, cv, cc: 6, s0, s3: k % 2 == 1 };
        summed(digest, (k >> 9) as u8, (k >> 1) as u8, &controls)
    })
}

/// Every gate and operation, on 64 drawn pairs each.
fn gates() -> String {
    let mut random = Random::new(7);
    section("gates and operations", 2, 1 << 18, |digest, k| {
        let x = random.next();
        let bits = |low: u32, width: u32| (k >> low) as u8 & ((1 << width) - 1);
        let controls = Controls {
            cf: bits(0, 3),
            cg: bits(3, 2),
            cv: bits(5, 2),
            cc: bits(7, 3),
            s0: bits(10, 1) == 1,
            s3: bits(11, 1) == 1,
        };
        summed(digest, (x >> 8) as u8, (x >> 16) as u8, &controls)
    })
}

/// Codes that may be beyond their widths.
fn beyond() -> String {
    let mut random = Random::new(11);
    section("codes of any size", 3, 1 << 15, |digest, _| {
        let x = random.next();
        let byte = |low: u32| (x >> low) as u8;
        let controls = Controls {
            cf: byte(8),
            cg: byte(16),
            cv: byte(24),
            cc: byte(32),
            s0: x >> 40 & 1 == 1,
            s3: x >> 41 & 1 == 1,
        };
        summed(digest, byte(48), byte(56), &controls)
    })
}

/// Every sum of nine bits with either carry out of its low digit, corrected by the rule and by the table.
fn corrections() -> String {
    let mut digest = 6;
    for low_carry in [false, true] {
        for sum in 0..512 {
            let both = [correct_by_rule(low_carry, sum), correct_by_table(low_carry, sum)];
            digest = both.iter().fold(digest, |digest, byte| mix(digest, u64::from(*byte)));
        }
    }
    "corrections by rule and by table\n".to_owned() + &digest_line(1024, digest)
}

/// A sum's name, A and B, with the gate, CV, S0 and S3.
type Worked = (&'static str, u8, u8, (u8, u8, bool, bool));

/// Document 001's sums. A low byte holds the sign in its low digit.
const WORKED: [Worked; 9] = [
    ("5D + 99", 0x5D, 0x99, (3, 0, false, false)),
    ("18 + 16 decimal", 0x18, 0x16, (3, 3, false, false)),
    ("117 + 138 decimal, low byte", 0x7C, 0x8C, (2, 3, false, false)),
    ("117 + 138 decimal, high byte", 0x11, 0x13, (3, 3, false, true)),
    ("18 - 16 decimal", 0x18, 0x16, (3, 3, true, true)),
    ("190 - 200 decimal, low byte", 0x0C, 0x0C, (2, 3, true, true)),
    ("190 - 200 decimal, high byte", 0x19, 0x20, (3, 3, true, true)),
    ("190 - 200 decimal, low byte again", 0x00, 0x00, (2, 3, true, true)),
    ("190 - 200 decimal, high byte again", 0x00, 0x99, (3, 3, true, true)),
];

fn worked() -> String {
    let line = |(name, a, b, (gate, cv, s0, s3)): &Worked| {
        let controls = Controls { cf: *gate, cg: *gate, cv: *cv, cc: 6, s0: *s0, s3: *s3 };
        format!("{name} {:06x}\n", value(&add(*a, *b, &controls)))
    };
    WORKED.iter().map(line).collect()
}

pub fn text() -> String {
    let by_cv = [
        pairs("CV 0", 0, false),
        pairs("CV 1", 1, false),
        pairs("CV 2, S0 off", 2, false),
        pairs("CV 2, S0 on", 2, true),
        pairs("CV 3, S0 off", 3, false),
        pairs("CV 3, S0 on", 3, true),
    ];
    worked() + &by_cv.concat() + &gates() + &beyond() + &corrections()
}
