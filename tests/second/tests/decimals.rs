//! The decimal entry: by schoolbook digits, by a microprogram, and its refusals.

mod common;

use common::{draw_bytes, draw_field, schoolbook, Bench, STOP};
use second::decimal::{add_decimal, Outcome};
use second::random::Random;
use second::run::Ending;
use second::state::{I, J, L, S, U, V};

const LOCAL: [u8; 256] = [0x5C; 256];

fn refused(number: u8) -> Outcome {
    Outcome::Refused { number }
}

#[test]
fn sums_by_schoolbook() {
    let mut random = Random::new(16);
    for round in 0..4000 {
        let length = 1 + round % 16;
        let mut main = draw_bytes(&mut random, 64);
        let (first, second) = [(3, 30), (40, 8), (20, 20)][round % 3];
        let (a, b) = (draw_field(&mut random, length), draw_field(&mut random, length));
        main[first..first + length].copy_from_slice(&a);
        if first != second {
            main[second..second + length].copy_from_slice(&b);
        }
        let addend = main[second..second + length].to_vec();
        let carry_in = random.below(2) == 1;
        let (sum, carry) = schoolbook(&a, &addend, carry_in);
        let mut expected = main.clone();
        expected[first..first + length].copy_from_slice(&sum);
        assert_eq!(add_decimal(&mut main, &LOCAL, first, second, length, carry_in), Outcome::Summed { carry });
        assert_eq!(main, expected);
    }
}

#[test]
fn carry_through_all_sixteen_bytes() {
    let mut main = vec![0x99; 32];
    assert_eq!(add_decimal(&mut main, &LOCAL, 0, 16, 16, true), Outcome::Summed { carry: true });
    assert_eq!(main, [0x99; 32]);
    main[16..].fill(0);
    assert_eq!(add_decimal(&mut main, &LOCAL, 0, 16, 16, true), Outcome::Summed { carry: true });
    assert_eq!(main, [0; 32]);
    assert_eq!(add_decimal(&mut main, &LOCAL, 0, 16, 16, true), Outcome::Summed { carry: false });
    assert_eq!((main[0], main[15]), (0, 1));
}

#[test]
fn the_lowest_address_holds_the_highest_digits() {
    let mut main = vec![0x12, 0x34, 0x00, 0x66];
    assert_eq!(add_decimal(&mut main, &LOCAL, 0, 2, 2, false), Outcome::Summed { carry: false });
    assert_eq!(main, [0x13, 0x00, 0x00, 0x66]);
}

#[test]
fn a_bad_digit_in_any_place_changes_nothing() {
    for place in 0..8 {
        for bad in [0x0A, 0xA0, 0x9F, 0xF9, 0xFF] {
            let mut main = vec![0x11; 8];
            main[place] = bad;
            let before = main.clone();
            assert_eq!(add_decimal(&mut main, &LOCAL, 0, 4, 4, false), Outcome::BadDigit);
            assert_eq!(main, before);
        }
    }
    // Outside the fields it does not matter.
    let mut main = vec![0xFF, 0x11, 0xFF, 0x22, 0xFF];
    assert_eq!(add_decimal(&mut main, &LOCAL, 1, 3, 1, false), Outcome::Summed { carry: false });
    assert_eq!(main, [0xFF, 0x33, 0xFF, 0x22, 0xFF]);
}

#[test]
fn one_by_main_and_local() {
    let of = |main: usize, local: usize| add_decimal(&mut vec![0; main], &vec![0; local], 0, 0, 1, false);
    assert_eq!(of(1, 256), Outcome::Summed { carry: false });
    assert_eq!(of(65_536, 256), Outcome::Summed { carry: false });
    for (main, local) in [(0, 256), (65_537, 256), (1, 255), (1, 257)] {
        assert_eq!(of(main, local), refused(1));
    }
}

#[test]
fn twelve_thirteen_fourteen_at_their_edges() {
    let of = |first, second, length| add_decimal(&mut [0; 100], &LOCAL, first, second, length, false);
    let good = Outcome::Summed { carry: false };
    assert_eq!((of(0, 50, 1), of(0, 50, 16)), (good, good));
    assert_eq!((of(0, 50, 0), of(0, 50, 17)), (refused(12), refused(12)));
    assert_eq!((of(92, 0, 8), of(0, 92, 8)), (good, good));
    assert_eq!((of(93, 0, 8), of(0, 93, 8)), (refused(13), refused(13)));
    assert_eq!((of(usize::MAX, 0, 8), of(0, usize::MAX, 8)), (refused(13), refused(13)));
    assert_eq!((of(10, 18, 8), of(18, 10, 8), of(10, 10, 8)), (good, good, good));
    for apart in 1..8 {
        assert_eq!((of(10, 10 + apart, 8), of(10 + apart, 10, 8)), (refused(14), refused(14)));
    }
}

#[test]
fn the_first_refusal_is_given() {
    let of = |local: &[u8], first, second, length| add_decimal(&mut [0xFF; 20], local, first, second, length, true);
    assert_eq!(of(&[], 30, 31, 0), refused(1));
    assert_eq!(of(&LOCAL, 30, 31, 0), refused(12));
    assert_eq!(of(&LOCAL, 30, 31, 5), refused(13));
    assert_eq!(of(&LOCAL, 1, 2, 5), refused(14));
    assert_eq!(of(&LOCAL, 1, 6, 5), Outcome::BadDigit);
}

/// A small adder of valid fields within one page: IJ and UV at the low ends, L the length, S3 the carry.
fn adder_program() -> Bench {
    let mut bench = Bench::new(16);
    let read_second: common::Codes = &[("CM", 4), ("CA", 12), ("CF", 3), ("CV", 1), ("CD", 12)];
    bench.then(8, 1, read_second);
    bench.then(1, 2, &[("CM", 0), ("CA", 7), ("CF", 3), ("CD", 8)]);
    bench.then(2, 3, &[("CM", 3), ("CA", 14), ("CF", 3), ("CV", 1), ("CD", 14)]);
    bench.then(3, 4, &[("CA", 7), ("CF", 3), ("CB", 2), ("CG", 3), ("CV", 3), ("CC", 6), ("CD", 7)]);
    bench.then(4, 5, &[("CM", 0), ("CA", 9), ("CF", 3), ("CV", 1), ("CD", 9)]);
    // Z0 of the count: 9 stops, 8 goes round.
    bench.then(5, 8, &[("CL", 7)]);
    bench.put(9, STOP);
    bench.state.wx = 8;
    bench
}

#[test]
fn a_microprogram_leaves_the_same_sum() {
    let mut random = Random::new(40);
    for round in 0..1000usize {
        let length = 1 + round % 16;
        let (first, second) = if round % 5 == 0 { (0x140, 0x140) } else { (0x120, 0x190) };
        let mut bench = adder_program();
        for start in [first, second] {
            bench.main[start..start + length].copy_from_slice(&draw_field(&mut random, length));
        }
        let carry_in = random.below(2) == 1;
        let end = |start: usize| (start + length - 1) as u8;
        bench.set(&[(I, 1), (J, end(first)), (U, 1), (V, end(second)), (L, length as u8)]);
        bench.set(&[(S, if carry_in { 0x10 } else { 0 })]);
        let mut main = bench.main.clone();
        let outcome = add_decimal(&mut main, &bench.local, first, second, length, carry_in);
        assert_eq!(bench.run(1000), (Ending::Stopped, 6 * length as u64));
        assert_eq!(bench.main, main);
        assert_eq!(outcome, Outcome::Summed { carry: bench.get(S) == 0x10 });
    }
}
