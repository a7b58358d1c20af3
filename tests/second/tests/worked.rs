//! Document 001's worked sums, and its two microprograms followed word by word.

mod common;

use common::{Bench, STOP};
use second::adder::{add, Answer, Controls};
use second::random::Random;
use second::run::Ending;
use second::state::{D, G, R, S, T, U, V};

/// Decimal, the whole byte or its high digit alone.
fn decimal(a: u8, b: u8, gate: u8, s0: bool, carry: bool) -> Answer {
    add(a, b, &Controls { cf: gate, cg: gate, cv: 3, cc: 6, s0, s3: carry })
}

#[test]
fn sixteen_and_eighteen() {
    let answer = decimal(0x18, 0x16, 3, false, false);
    assert_eq!((answer.sum, answer.digit_carry, answer.ac), (0x94, true, false));
    assert_eq!(answer.result, 0x34);
}

#[test]
fn a_hundred_and_thirty_eight_and_a_hundred_and_seventeen() {
    // The low-order bytes hold the sign, so only their high digits are gated.
    let low = decimal(0x7C, 0x8C, 2, false, false);
    assert_eq!((low.result, low.ac), (0x50, true));
    let high = decimal(0x11, 0x13, 3, false, low.ac);
    assert_eq!((high.sum, high.digit_carry, high.ac), (0x8B, false, false));
    assert_eq!(high.result, 0x25);
}

#[test]
fn sixteen_from_eighteen() {
    let answer = decimal(0x18, 0x16, 3, true, true);
    assert_eq!((answer.sum, answer.digit_carry, answer.ac), (0x02, true, true));
    assert_eq!(answer.result, 0x02);
}

#[test]
fn two_hundred_from_a_hundred_and_ninety() {
    let low = decimal(0x0C, 0x0C, 2, true, true);
    assert_eq!((low.result, low.ac), (0x00, true));
    let high = decimal(0x19, 0x20, 3, true, low.ac);
    assert_eq!((high.sum, high.digit_carry, high.ac), (0xF9, true, false));
    assert_eq!(high.result, 0x99);
    // No carry: the answer is complemented again, from zero.
    let low = decimal(0x00, low.result, 2, true, true);
    assert_eq!((low.result, low.ac), (0x00, true));
    let high = decimal(0x00, high.result, 3, true, low.ac);
    assert_eq!((high.sum, high.result, high.ac), (0x67, 0x01, false));
}

/// Figure 2-54: a binary number in D is added up in R in decimal.
fn sample_problem() -> Bench {
    let mut bench = Bench::new(0x4C0);
    let double_d = [("CA", 8), ("CF", 3), ("CB", 2), ("CG", 3), ("CC", 6), ("CD", 8)];
    let double_r = [("CA", 7), ("CF", 3), ("CB", 0), ("CG", 3), ("CV", 3), ("CC", 6), ("CD", 7)];
    let with = |sum: &[(&'static str, u8)], rest: &[(&'static str, u8)]| [sum, rest].concat();
    bench.then(0x4AA, 0xAE, &with(&double_d, &[("CM", 0), ("CS", 12)]));
    bench.then(0x4AE, 0xB4, &with(&double_r, &[("CS", 10)]));
    bench.then(0x4B4, 0xAE, &with(&double_d, &[("CM", 2), ("CS", 13), ("CL", 11)]));
    bench.then(0x4AF, 0xB4, &with(&double_r, &[("CM", 4), ("CS", 11), ("CH", 11)]));
    bench.then(0x4B6, 0xA8, &[("CM", 2), ("CS", 8), ("CH", 9)]);
    bench.put(0x4A8, STOP);
    bench.set(&[(U, 1), (V, 0x23), (D, 0x11), (S, 0x20), (R, 0)]);
    bench.state.wx = 0x4AA;
    bench
}

#[test]
fn seventeen_in_binary_becomes_17() {
    let mut bench = sample_problem();
    // Address, then D, R and S3 after the word.
    let trace = [
        (0x4AA, 0x22, 0x00, false),
        (0x4AE, 0x22, 0x00, false),
        (0x4B4, 0x44, 0x00, false),
        (0x4AE, 0x44, 0x00, false),
        (0x4B4, 0x88, 0x00, false),
        (0x4AF, 0x88, 0x00, false),
        (0x4B4, 0x10, 0x00, true),
        (0x4AF, 0x10, 0x01, false),
        (0x4B6, 0x10, 0x01, false),
        (0x4AA, 0x20, 0x01, false),
        (0x4AE, 0x20, 0x02, false),
        (0x4B4, 0x40, 0x02, false),
        (0x4AE, 0x40, 0x04, false),
        (0x4B4, 0x80, 0x04, false),
        (0x4AF, 0x80, 0x08, false),
        (0x4B4, 0x00, 0x08, true),
        (0x4AF, 0x00, 0x17, false),
        (0x4B6, 0x00, 0x17, false),
    ];
    for (address, d, r, s3) in trace {
        assert_eq!(bench.state.wx, address);
        bench.steps(1);
        assert_eq!((bench.get(D), bench.get(R), bench.get(S) & 0x10 != 0), (d, r, s3), "{address:03X}");
    }
    assert_eq!(bench.main[0x123], 0x17);
    assert_eq!(bench.run(1), (Ending::Stopped, 0));
    assert_eq!(bench.state.wx, 0x4A8);
}

#[test]
fn every_binary_number_up_to_99() {
    for number in 0..100u8 {
        let mut bench = sample_problem();
        bench.set(&[(D, number)]);
        assert_eq!(bench.run(100), (Ending::Stopped, 18));
        assert_eq!(bench.main[0x123], number / 10 * 16 + number % 10);
    }
}

/// Figure 3-6: register 5 added to register 7, both in local storage, from word 039E.
fn add_registers(five: u32, seven: u32) -> Bench {
    let mut bench = Bench::new(0x400);
    put_decoding(&mut bench);
    put_loop(&mut bench);
    for address in 0x180..0x184 {
        bench.put(address, STOP);
    }
    bench.local[0x50..0x54].copy_from_slice(&five.to_be_bytes());
    bench.local[0x70..0x74].copy_from_slice(&seven.to_be_bytes());
    bench.set(&[(D, 0x75), (V, 0x53), (G, 0x1A)]);
    bench.state.wx = 0x39E;
    bench
}

/// DH+KL->T with the first read, then R->DC.
fn put_decoding(bench: &mut Bench) {
    let t = [("CA", 8), ("CF", 2), ("CB", 3), ("CK", 3), ("CG", 1), ("CD", 11)];
    bench.then(0x39E, 0xF2, &[&t[..], &[("CM", 4), ("CU", 1), ("CL", 8)]].concat());
    bench.then(0x3F2, 0xA3, &[("CM", 0), ("CA", 7), ("CF", 3), ("CC", 4), ("CD", 8)]);
}

/// The loop, V-0->V to R->D, and the way out at 01D1 with R.KH->Z.
fn put_loop(bench: &mut Bench) {
    let v = [("CA", 12), ("CF", 3), ("CV", 1), ("CD", 12)];
    bench.then(0x3A3, 0xA4, &[&v[..], &[("CM", 5), ("CU", 1), ("CL", 11)]].concat());
    let sum = [("CA", 7), ("CF", 3), ("CB", 2), ("CG", 3), ("CV", 2), ("CC", 6), ("CD", 7), ("CS", 9)];
    bench.then(0x3A4, 0xD0, &[&sum[..], &[("CU", 2), ("CK", 1), ("CH", 11), ("CL", 10)]].concat());
    bench.then(0x1D0, 0xCE, &[("CM", 0)]);
    let t = [("CA", 11), ("CF", 3), ("CV", 1), ("CD", 11), ("CS", 1)];
    bench.then(0x1CE, 0xC1, &[&t[..], &[("CM", 4), ("CU", 3)]].concat());
    let d = [("CA", 7), ("CF", 3), ("CD", 8)];
    bench.then(0x1C1, 0xA3, &[&d[..], &[("CM", 0), ("CU", 2), ("CK", 3), ("CL", 13)]].concat());
    let z = [("CA", 7), ("CF", 3), ("CB", 3), ("CK", 8), ("CG", 2), ("CC", 2)];
    bench.then(0x1D1, 0x80, &[&z[..], &[("CM", 0), ("CH", 6), ("CL", 6)]].concat());
}

#[test]
fn register_5_and_register_7() {
    let mut bench = add_registers(0x5D, 0x99);
    bench.steps(1);
    assert_eq!((bench.get(T), bench.state.arriving_byte, bench.state.wx), (0x73, 0x5D, 0x3F2));
    bench.steps(1);
    assert_eq!((bench.get(D), bench.state.wx), (0x5D, 0x3A3));
    bench.steps(1);
    assert_eq!((bench.get(V), bench.state.wx), (0x52, 0x3A4));
    bench.steps(1);
    assert_eq!((bench.get(R), bench.get(S), bench.state.wx), (0xF6, 0x20, 0x1D0));
    bench.steps(1);
    assert_eq!((bench.local[0x73], bench.state.wx), (0xF6, 0x1CE));
    bench.steps(2);
    assert_eq!((bench.get(T), bench.get(D), bench.state.wx), (0x72, 0x00, 0x3A3));
    assert_eq!(bench.run(100), (Ending::Stopped, 13));
    assert_eq!(bench.local[0x70..0x74], [0, 0, 0, 0xF6]);
    assert_eq!(bench.state.wx, 0x180);
}

#[test]
fn any_two_registers() {
    let mut random = Random::new(36);
    for _ in 0..2000 {
        let (five, seven) = (random.next() as u32, random.next() as u32);
        let mut bench = add_registers(five, seven);
        assert_eq!(bench.run(100), (Ending::Stopped, 20));
        assert_eq!(bench.local[0x70..0x74], five.wrapping_add(seven).to_be_bytes());
        assert_eq!(bench.local[0x50..0x54], five.to_be_bytes());
        // AC and 1BC of the highest byte: the carry out, and the carry into the sign.
        let carry = u16::from(five.checked_add(seven).is_none());
        let into_sign = u16::from((five << 1 >> 1) + (seven << 1 >> 1) >= 1 << 31);
        assert_eq!(bench.state.wx, 0x180 + 2 * carry + into_sign);
    }
}
