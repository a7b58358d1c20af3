//! Each refusal of a cycle and of a run at its exact edge, and the order they are checked in.

mod common;

use common::{Bench, Codes, P, PA_BIT, PC_BIT, PK_BIT, PN_BIT, PS_BIT, STOP, TO_CU_2, TO_CU_3};
use second::cycle::Answer;
use second::run::Ending;
use second::state::{G, I, J, L, M, N, R, T, U, V};
use second::word::{build, fault};

fn refused(number: u8) -> Ending {
    Ending::Refused { number, field: 0 }
}

#[test]
fn one_by_sizes() {
    let of = |words: usize, main: usize, local: usize| {
        let mut bench = Bench::one(STOP);
        bench.store.resize(words, 0);
        bench.main = vec![0; main];
        bench.local = vec![0; local];
        bench
    };
    for (words, main, local) in [(1, 1, 256), (4096, 65_536, 256)] {
        of(words, main, local).answers(Answer::Stopped);
        assert_eq!(of(words, main, local).run(1), (Ending::Stopped, 0));
    }
    for (words, main, local) in
        [(0, 1, 256), (4097, 1, 256), (1, 0, 256), (1, 65_537, 256), (1, 1, 255), (1, 1, 257), (1, 1, 0)]
    {
        of(words, main, local).refuses(1);
        assert_eq!(of(words, main, local).run(1), (refused(1), 0));
        assert_eq!(of(words, main, local).run(0), (refused(1), 0));
    }
}

#[test]
fn two_by_the_stores_length() {
    let mut bench = Bench::new(300);
    bench.store[299] = build(299, STOP).unwrap();
    bench.state.wx = 299;
    bench.answers(Answer::Stopped);
    for wx in [300, 4096, 0xFFFF] {
        bench.state.wx = wx;
        bench.refuses(2);
    }
    // The held high bits are not dropped to find a word.
    bench.state.wx = 0x1000 + 299;
    bench.refuses(2);
}

#[test]
fn one_comes_before_two_and_two_before_the_word() {
    let mut bench = Bench::new(1);
    bench.store[0] = u64::MAX;
    bench.state.wx = 1;
    bench.refuses(2);
    bench.local.pop();
    bench.refuses(1);
}

#[test]
fn three_to_seven_by_one_bit_each() {
    let mut bench = Bench::one(STOP);
    let good = bench.store[0];
    for bit in 55..64 {
        bench.store[0] = good | 1 << bit;
        bench.refuses(3);
    }
    for (bit, number) in [(PN_BIT, 4), (PS_BIT, 6), (PC_BIT, 7)] {
        bench.store[0] = good ^ bit;
        bench.refuses(number);
    }
    // PA is under PS, so both turn for 5 alone.
    bench.store[0] = good ^ PA_BIT ^ PS_BIT;
    bench.refuses(5);
    bench.store[0] = good;
    bench.answers(Answer::Stopped);
}

#[test]
fn pa_covers_the_words_own_address() {
    for address in 0..4096u32 {
        let word = build(address, STOP).unwrap();
        let even = (0..12).filter(|n| address >> n & 1 == 1).count() % 2 == 0;
        assert_eq!(word & PA_BIT != 0, even);
        // Any address of one bit more or less refuses the same word.
        for n in 0..12 {
            assert_eq!(fault(word, address ^ 1 << n), 5);
        }
    }
}

#[test]
fn the_first_of_several_faults_is_given() {
    let good = build(0, STOP).unwrap();
    let wrong = [(1 << 60, 3), (PN_BIT, 4), (PA_BIT ^ PS_BIT, 5), (PS_BIT, 6), (PC_BIT, 7)];
    for first in 0..wrong.len() {
        for second in first + 1..wrong.len() {
            // 5 turns PS back, so that pair is joined by PA alone.
            let word = if wrong[first].1 == 5 && wrong[second].1 == 6 {
                good ^ PA_BIT
            } else {
                good ^ wrong[first].0 ^ wrong[second].0
            };
            assert_eq!(fault(word, 0), wrong[first].1);
        }
    }
}

/// A word of CL 2 and of another CU, which no packing gives: CU is turned by hand.
fn module_and(turned: u64) -> u64 {
    build(0, &[("CL", 2), ("CA", 3)]).unwrap() ^ turned
}

/// The word is refused by 8 in a cycle too; 7 comes before it, and 9 after.
fn refused_by_8(word: u64) {
    assert_eq!(fault(word, 0), 8);
    // PK wrong for CA besides: still 8, and PS answers for PK.
    assert_eq!(fault(word ^ PK_BIT ^ PS_BIT, 0), 8);
    assert_eq!(fault(word ^ PC_BIT, 0), 7);
    let mut bench = Bench::new(1);
    bench.store[0] = word;
    bench.refuses(8);
}

#[test]
fn eight_for_two_module_numbers() {
    refused_by_8(module_and(TO_CU_2));
}

#[test]
fn eight_for_a_module_number_in_a_return() {
    refused_by_8(module_and(TO_CU_3));
}

#[test]
fn eight_for_cm_0_to_2_only() {
    for cm in 0..8u8 {
        let word = build(0, &[("CL", 2), ("CM", cm)]).unwrap();
        for turned in [TO_CU_2, TO_CU_3] {
            assert_eq!(fault(word ^ turned, 0), if cm <= 2 { 8 } else { 0 }, "CM {cm}");
        }
        // CU 1 gives W nothing.
        assert_eq!(fault(word ^ 1 << 34 ^ PS_BIT, 0), 0, "CM {cm}");
    }
}

#[test]
fn nine_where_pk_covers_something() {
    let turned = |codes: Codes| fault(build(0, codes).unwrap() ^ PK_BIT ^ PS_BIT, 0);
    for n in 0..16 {
        assert_eq!(turned(&[("CL", 2), ("CA", n), ("CM", 3)]), 9);
        assert_eq!(turned(&[("CL", 2), ("CA", n), ("AA", 1)]), 9);
        for cm in 0..3 {
            assert_eq!(turned(&[("CM", cm), ("CU", 2), ("CK", n)]), 9);
        }
        // Free elsewhere.
        for cm in 3..8 {
            assert_eq!(turned(&[("CM", cm), ("CU", 2), ("CK", n)]), 0);
        }
        for cu in [0, 1, 3] {
            assert_eq!(turned(&[("CM", 1), ("CU", cu), ("CK", n)]), 0);
        }
        assert_eq!(turned(&[("CL", 1), ("CA", n)]), 0);
    }
}

#[test]
fn pk_counts_ca_and_aa_or_ck() {
    let pk = |codes: Codes| build(0, codes).unwrap() & PK_BIT != 0;
    for n in 0..16u8 {
        let even = n.count_ones() % 2 == 0;
        assert_eq!(pk(&[("CL", 2), ("CA", n), ("CK", 1)]), even);
        assert_eq!(pk(&[("CL", 2), ("CA", n), ("AA", 1)]), !even);
        assert_eq!(pk(&[("CU", 2), ("CK", n), ("CA", 1), ("AA", 1)]), even);
    }
}

#[test]
fn a_stop_comes_after_9_and_before_10() {
    // Everything unmodelled at once, and the stop.
    let all: Codes =
        &[("CH", 4), ("CL", 3), ("CM", 6), ("AA", 1), ("AK", 1), ("CD", 1), ("CS", 5), ("AS", 1), ("CF", 4)];
    let mut bench = Bench::one(all);
    bench.arrive(0x12);
    bench.answers(Answer::Stopped);
    let module: Codes = &[("CL", 2), ("CF", 4)];
    bench.put(0, module);
    bench.answers(Answer::Stopped);
    bench.store[0] ^= PK_BIT ^ PS_BIT;
    bench.refuses(9);
    bench.store[0] = module_and(TO_CU_2);
    bench.refuses(8);
    // A return with a module number that stops: 8 comes before the stop too.
    bench.put(0, module);
    bench.store[0] ^= TO_CU_3;
    bench.refuses(8);
}

#[test]
fn a_stop_leaves_the_meaningless_arriving_byte() {
    let mut bench = Bench::one(STOP);
    bench.state.arriving_byte = 0x99;
    bench.answers(Answer::Stopped);
    bench.put(0, &[]);
    bench.steps(1);
    assert_eq!(bench.state.arriving_byte, 0);
}

#[test]
fn eleven_only_when_a_main_byte_would_be_fetched() {
    for (cm, high, low) in [(3, I, J), (4, U, V), (5, L, T)] {
        let mut bench = Bench::one(&[("CM", cm), ("CU", 0)]);
        bench.set(&[(high, 4), (low, 0)]);
        bench.arrive(0x33);
        bench.refuses(11);
        // The last byte is inside.
        let mut inside = bench.clone();
        inside.set(&[(high, 3), (low, 0xFF)]);
        inside.steps(1);
        assert_eq!(inside.state.arriving_byte, inside.main[1023]);
        // With the latch on only the address is replaced.
        let mut latched = bench.clone();
        latched.state.allow_write = true;
        latched.steps(1);
        assert_eq!((latched.get(M), latched.get(N)), (4, 0));
        // Local storage takes any address.
        bench.put(0, &[("CM", cm), ("CU", 1)]);
        bench.steps(1);
        assert_eq!(bench.state.arriving_byte, bench.local[0]);
    }
}

#[test]
fn eleven_by_cu_3() {
    for (g, number) in [(0x40, 11), (0x80, 11), (0xC0, 11), (0x3F, 0)] {
        let mut bench = Bench::one(&[("CM", 3), ("CU", 3)]);
        bench.set(&[(I, 0xFF), (G, g)]);
        match number {
            0 => bench.steps(1),
            _ => bench.refuses(number),
        }
    }
}

#[test]
fn eleven_only_when_a_main_byte_would_be_written() {
    for cm in [0, 2] {
        let mut bench = Bench::one(&[("CM", cm)]);
        bench.set(&[(M, 4), (N, 0), (R, 0x44)]);
        bench.state.allow_write = true;
        bench.arrive(0x33);
        bench.refuses(11);
        let mut inside = bench.clone();
        inside.set(&[(M, 3), (N, 0xFF)]);
        inside.steps(1);
        assert_eq!(inside.main[1023], if cm == 0 { 0x33 } else { 0x44 });
        let mut off = bench.clone();
        off.state.allow_write = false;
        off.steps(1);
        assert_eq!(off.main, bench.main);
        bench.state.local = true;
        bench.steps(1);
        assert_eq!(bench.local[0], if cm == 0 { 0x33 } else { 0x44 });
    }
}

#[test]
fn ten_comes_before_eleven() {
    let mut bench = Bench::one(&[("CM", 3), ("CS", 5)]);
    bench.set(&[(I, 0xFF)]);
    bench.answers(Answer::Refused { number: 10, field: 20 });
}

#[test]
fn twenty_two_by_the_budget() {
    let mut bench = Bench::one(&[]);
    let before = bench.clone();
    assert_eq!(bench.run(1_000_001), (refused(22), 0));
    assert_eq!(bench.run(u64::MAX), (refused(22), 0));
    assert_eq!(bench, before);
    assert_eq!(bench.run(1_000_000), (Ending::Spent, 1_000_000));
    bench.main.clear();
    assert_eq!(bench.run(1_000_001), (refused(1), 0));
    // 22 comes before anything a cycle would say.
    let mut outside = Bench::new(1);
    outside.state.wx = 1;
    assert_eq!(outside.run(1_000_001), (refused(22), 0));
    assert_eq!(outside.run(1), (refused(2), 0));
}

#[test]
fn a_run_refused_by_10_names_the_field() {
    let mut bench = Bench::new(2);
    bench.then(0, 1, &[]);
    bench.put(1, &[("CD", 4)]);
    assert_eq!(bench.run(5), (Ending::Refused { number: 10, field: 15 }, 1));
    assert_eq!(bench.state.wx, 1);
}

#[test]
fn a_spent_budget_hides_the_stop_and_the_refusal() {
    let mut bench = Bench::new(3);
    bench.then(0, 1, &[]);
    bench.put(1, STOP);
    assert_eq!(bench.clone().run(0), (Ending::Spent, 0));
    assert_eq!(bench.clone().run(1), (Ending::Spent, 1));
    assert_eq!(bench.clone().run(2), (Ending::Stopped, 1));
    bench.store[1] = P | 1 << 63;
    assert_eq!(bench.clone().run(1), (Ending::Spent, 1));
    assert_eq!(bench.clone().run(2), (refused(3), 1));
    bench.state.wx = 1;
    assert_eq!(bench.run(0), (Ending::Spent, 0));
}
