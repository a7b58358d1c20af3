//! Document 01's "Errors the promises must catch", one by one.

mod common;

use common::Bench;
use second::adder::{add, gate_a, Controls};
use second::state::{D, I, J, M, N, R};

#[test]
fn gate_first_and_cross_after() {
    // The wrong order would gate 0B and cross it to B0.
    assert_eq!(gate_a(5, 0x4B), 0x04);
    let mut bench = Bench::one(&[("CA", 8), ("CF", 5), ("CD", 7)]);
    bench.set(&[(D, 0x4B)]);
    bench.steps(1);
    assert_eq!(bench.get(R), 0x04);
}

#[test]
fn branching_on_r_before_the_byte_has_entered() {
    for (held, arriving, next) in [(0x00, 0x80, 2), (0x80, 0x00, 0)] {
        let mut bench = Bench::one(&[("CH", 2)]);
        bench.set(&[(R, held)]);
        bench.arrive(arriving);
        bench.steps(1);
        assert_eq!(bench.state.wx, next);
    }
    for (held, arriving, next) in [(0x9A, 0x99, 1), (0x99, 0x9A, 0)] {
        let mut bench = Bench::one(&[("CL", 5)]);
        bench.set(&[(R, held)]);
        bench.arrive(arriving);
        bench.steps(1);
        assert_eq!(bench.state.wx, next);
    }
}

#[test]
fn branching_on_this_cycles_carry() {
    // FF + FF: AC and 1BC come on in the cycle that asks for them, and Z0 goes off.
    let mut bench = Bench::one(&[("CH", 6), ("CL", 6), ("CA", 8), ("CB", 2), ("CF", 3), ("CG", 3)]);
    bench.set(&[(D, 0xFF)]);
    bench.steps(1);
    assert_eq!(bench.state.wx, 0);
    assert!(bench.state.ac && bench.state.bc1 && !bench.state.z0);
    bench.state.wx = 0;
    bench.set(&[(D, 0x00)]);
    bench.steps(1);
    assert_eq!(bench.state.wx, 3);
    assert!(!bench.state.ac && !bench.state.bc1 && bench.state.z0);
    // A word of no sum sees Z0 of the one before.
    bench.put(0, &[("CL", 7), ("CA", 8), ("CF", 3)]);
    bench.state.wx = 0;
    bench.set(&[(D, 0x01)]);
    bench.steps(1);
    assert_eq!(bench.state.wx, 1);
}

#[test]
fn the_fetched_byte_does_not_enter_r_when_store_follows() {
    for (cm, kept, written) in [(2, 0x55, 0x55), (0, 0x77, 0x77)] {
        let mut bench = Bench::new(4);
        bench.then(0, 1, &[("CM", 3)]);
        bench.then(1, 2, &[("CM", cm)]);
        bench.set(&[(I, 1), (J, 2), (R, 0x55)]);
        bench.main[0x102] = 0x77;
        bench.steps(2);
        assert_eq!(bench.get(R), kept);
        assert_eq!(bench.main[0x102], written);
        assert!(!bench.state.arriving && bench.state.arriving_byte == 0);
    }
}

#[test]
fn addressing_with_j_after_its_increment() {
    let mut bench = Bench::one(&[("CM", 3), ("CA", 14), ("CB", 3), ("CK", 1), ("CF", 3), ("CG", 1), ("CD", 14)]);
    bench.set(&[(I, 2), (J, 0x10)]);
    bench.steps(1);
    assert_eq!((bench.get(M), bench.get(N)), (2, 0x10));
    assert_eq!(bench.get(J), 0x11);
    assert_eq!(bench.state.arriving_byte, bench.main[0x210]);
}

#[test]
fn adding_six_under_complement() {
    let controls = Controls { cf: 3, cg: 3, cv: 3, cc: 1, s0: true, s3: false };
    let answer = add(0x85, 0x47, &controls);
    // With sixes B would be 1E and the sum before correction A4.
    assert_eq!((answer.sum, answer.result, answer.ac), (0x3E, 0x38, true));
}
