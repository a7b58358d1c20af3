//! One cycle: its order, its storage, the field that 10 names, and what it leaves alone.

mod common;

use common::{draw_bench, draw_bytes, draw_fields, draw_state, in_either, missing, Bench};
use second::cycle::{cycle_by_table, not_modelled, Answer};
use second::random::Random;
use second::reading::{Reading, READINGS};
use second::run::Ending;
use second::state::{D, G, H, I, J, L, M, N, R, S, T, U, V};
use second::word::{index_of, pack, split, Fields, CC, CD, CL, CM, CS, CU};

/// The field numbers of 10, written out from the papers' lists and not from the tables.
fn expected_field(reading: Reading, fields: &Fields) -> u8 {
    let of = |name: &str| fields[index_of(name)];
    let [ch, cl, cs] = missing(reading);
    let cu_bad = match of("CM") {
        0..=2 => of("CU") == 1,
        3..=5 => of("CU") == 2,
        _ => false,
    };
    let bad = [
        (4, ch.contains(&of("CH"))),
        (5, cl.contains(&of("CL"))),
        (6, of("CM") >= 6),
        (7, cu_bad),
        (8, of("CL") != 2 && [0, 1, 2, 3, 6].contains(&of("CA"))),
        (9, of("AA") == 1),
        (12, of("AK") == 1),
        (15, (1..=4).contains(&of("CD"))),
        (20, cs.contains(&of("CS"))),
        (21, of("AS") == 1),
    ];
    bad.iter().find(|(_, given)| *given).map_or(0, |(number, _)| *number)
}

#[test]
fn ten_names_the_first_field_in_word_order() {
    let mut random = Random::new(10);
    let mut seen = [[0; 22]; 2];
    for reading in READINGS.repeat(60_000) {
        let mut fields = draw_fields(&mut random);
        // Mostly plain fields, so that the later ones are reached.
        for name in ["CH", "CL", "CM", "CU", "CA", "AA", "AK", "CD", "CS", "AS"] {
            if random.below(4) != 0 {
                fields[index_of(name)] = if name == "CA" { 4 } else { 0 };
            }
        }
        let fields = second::word::with_right_pk(fields);
        let word = match pack(&fields, 0) {
            Ok(word) => word,
            // Plain CM beside a drawn CL 2 and CU 2 or 3: W would be given twice.
            Err(number) => {
                assert_eq!(number, 8);
                continue;
            }
        };
        let expected = expected_field(reading, &fields);
        assert_eq!(not_modelled(reading, &split(word)), expected);
        seen[reading as usize][usize::from(expected)] += 1;
        let mut bench = Bench { reading, ..Bench::new(1) };
        bench.store[0] = word;
        match (fields[index_of("CF")], expected) {
            (4, _) => bench.answers(Answer::Stopped),
            (_, 0) => bench.steps(1),
            (_, field) => bench.answers(Answer::Refused { number: 10, field }),
        }
    }
    for seen in seen {
        let named: Vec<usize> = (0..22).filter(|&field| seen[field] > 50).collect();
        assert_eq!(named, [0, 4, 5, 6, 7, 8, 9, 12, 15, 20, 21]);
    }
}

#[test]
fn every_code_of_each_field_alone() {
    for place in second::word::GIVEN {
        let (name, width) = second::word::LAYOUT[place];
        for code in 0..1u8 << width {
            let mut fields = second::word::named(&[("CA", 4), ("CM", 1)]);
            fields[index_of(name)] = code;
            let fields = second::word::with_right_pk(fields);
            let word = split(pack(&fields, 0).unwrap());
            for reading in READINGS {
                assert_eq!(not_modelled(reading, &word), expected_field(reading, &fields), "{name} {code}");
            }
        }
    }
}

#[test]
fn aa_is_refused_with_a_module_number_too() {
    let mut bench = Bench::one(&[("CL", 2), ("CA", 0), ("AA", 1)]);
    bench.answers(Answer::Refused { number: 10, field: 9 });
    for ca in 0..16 {
        bench.put(0, &[("CL", 2), ("CA", ca)]);
        let mut one = bench.clone();
        one.steps(1);
        assert_eq!(one.state.wx, u16::from(ca) * 256 + 1);
    }
}

#[test]
fn what_a_cycle_leaves_alone() {
    let mut random = Random::new(30);
    let (mut ran, mut stopped, mut refused) = (0, 0, 0);
    for _ in 0..40 {
        let drawn = draw_bench(&mut random, 256);
        let mut bench = in_either(&mut random, drawn);
        for _ in 0..500 {
            bench.state = draw_state(&mut random, 256);
            let before = bench.clone();
            let word = split(bench.store[usize::from(bench.state.wx)]);
            match bench.cycle() {
                Answer::Ran => {
                    ran += 1;
                    check_frame(&word, &before, &bench);
                }
                Answer::Stopped => {
                    stopped += 1;
                    assert_eq!(bench, before);
                }
                Answer::Refused { number, field } => {
                    refused += 1;
                    assert_eq!(bench, before);
                    assert_eq!(field != 0, number == 10);
                }
            }
        }
    }
    assert!(ran > 10_000 && stopped > 50 && refused > 500, "{ran} {stopped} {refused}");
}

/// The register that CD names.
fn destination(cd: u8) -> Option<usize> {
    [(5, H), (6, S), (7, R), (8, D), (9, L), (10, G), (11, T), (12, V), (13, U), (14, J), (15, I)]
        .iter()
        .find(|(code, _)| *code == cd)
        .map(|(_, register)| *register)
}

fn check_frame(word: &second::word::Word, before: &Bench, after: &Bench) {
    let reads = word[CM] >= 3;
    let writes = !reads && word[CM] != 1 && before.state.allow_write;
    let changed = |a: &[u8], b: &[u8]| a.iter().zip(b).filter(|(x, y)| x != y).count();
    let in_main = changed(&before.main, &after.main);
    let in_local = changed(&before.local, &after.local);
    assert!(in_main <= usize::from(writes && !before.state.local));
    assert!(in_local <= usize::from(writes && before.state.local));
    for register in 0..13 {
        let may = destination(word[CD]) == Some(register)
            || register == R && before.state.arriving
            || register == S && (word[CS] != 0 || (4..=6).contains(&word[CC]))
            || [M, N].contains(&register) && reads;
        assert!(may || before.get(register) == after.get(register));
    }
    assert_eq!(after.state.allow_write, if word[CM] == 1 { before.state.allow_write } else { reads });
    assert_eq!(after.state.arriving, reads && !before.state.allow_write);
    assert!(after.state.arriving || after.state.arriving_byte == 0);
    assert!(reads || after.state.local == before.state.local);
    let returns = !reads && word[CU] == 3;
    let module = word[CL] == 2 || !reads && word[CU] == 2;
    assert!(module || returns || after.state.wx / 256 == before.state.wx / 256);
    assert!(!returns || after.state.wx == before.state.fwx);
    assert_eq!((after.state.fwx, after.state.owed), (before.state.fwx, before.state.owed && !returns));
}

#[test]
fn the_cycle_by_table_is_the_cycle_by_rule() {
    let mut random = Random::new(31);
    for _ in 0..40 {
        let drawn = draw_bench(&mut random, 256);
        let mut bench = in_either(&mut random, drawn);
        for _ in 0..500 {
            bench.state = draw_state(&mut random, 256);
            let mut other = bench.clone();
            let by_table =
                cycle_by_table(other.reading, &other.store, &mut other.main, &mut other.local, &mut other.state);
            assert_eq!(bench.cycle(), by_table);
            assert_eq!(bench, other);
        }
    }
}

#[test]
fn a_byte_enters_r_but_for_store() {
    for cm in 0..6 {
        let mut bench = Bench::one(&[("CM", cm)]);
        bench.set(&[(R, 0x11)]);
        bench.arrive(0x22);
        bench.steps(1);
        assert_eq!(bench.get(R), if cm == 2 { 0x11 } else { 0x22 }, "CM {cm}");
    }
}

#[test]
fn sources_are_read_after_the_byte_has_entered() {
    // R + R to D, with a byte arriving.
    let mut bench = Bench::one(&[("CA", 7), ("CF", 3), ("CB", 0), ("CG", 3), ("CD", 8)]);
    bench.set(&[(R, 0x01)]);
    bench.arrive(0x21);
    bench.steps(1);
    assert_eq!((bench.get(D), bench.get(R)), (0x42, 0x21));
}

#[test]
fn a_write_puts_r_as_it_stands_before_the_destination() {
    for (cm, written) in [(0, 0x30), (2, 0x10)] {
        // R + 11 to R, in the word that writes.
        let mut bench = Bench::one(&[("CM", cm), ("CA", 7), ("CF", 3), ("CB", 3), ("CK", 1), ("CG", 3), ("CD", 7)]);
        bench.set(&[(R, 0x10), (M, 1), (N, 0x23)]);
        bench.state.allow_write = true;
        bench.arrive(0x30);
        bench.steps(1);
        assert_eq!(bench.main[0x123], written);
        assert_eq!(bench.get(R), written + 0x11);
        assert!(!bench.state.allow_write && !bench.state.arriving);
    }
}

#[test]
fn s_takes_the_result_then_cs_then_the_carry() {
    // FF + FF + 1 to S with save: FF, S0 off by CS 6, S3 on.
    let mut bench = Bench::one(&[("CA", 8), ("CF", 3), ("CB", 2), ("CG", 3), ("CC", 5), ("CD", 6), ("CS", 6)]);
    bench.set(&[(D, 0xFF), (S, 0x00)]);
    bench.steps(1);
    assert_eq!(bench.get(S), 0x7F);
    // 0F + 0F + 0: 1E, then S3 off for no carry.
    bench.put(0, &[("CA", 8), ("CF", 3), ("CB", 2), ("CG", 3), ("CC", 4), ("CD", 6)]);
    bench.set(&[(D, 0x0F)]);
    bench.state.wx = 0;
    bench.steps(1);
    assert_eq!(bench.get(S), 0x0E);
}

#[test]
fn only_codes_4_5_6_of_cc_save() {
    for (cc, saves) in [(0, false), (1, false), (2, false), (3, false), (4, true), (5, true), (6, true), (7, false)] {
        for s in [0x00, 0x10] {
            let mut bench = Bench::one(&[("CA", 8), ("CF", 3), ("CB", 2), ("CG", 3), ("CC", cc)]);
            bench.set(&[(D, 0x80), (S, s)]);
            bench.steps(1);
            assert_eq!(bench.get(S), if saves { 0x10 } else { s }, "CC {cc}");
        }
    }
}

#[test]
fn s0_and_s3_are_those_before_the_cycle() {
    // CV 2 and CC 6 with S0 turned on by the word itself.
    let mut bench =
        Bench::one(&[("CA", 8), ("CF", 3), ("CB", 1), ("CG", 3), ("CV", 2), ("CC", 6), ("CD", 7), ("CS", 7)]);
    bench.set(&[(D, 0xF0), (L, 0x20), (S, 0x10)]);
    bench.steps(1);
    assert_eq!((bench.get(R), bench.get(S)), (0x11, 0x90));
    bench.state.wx = 0;
    bench.steps(1);
    // F0 + DF + 1.
    assert_eq!((bench.get(R), bench.get(S)), (0xD0, 0x90));
}

#[test]
fn branches_read_s_before_the_word_changes_it() {
    for (s, next) in [(0x00, 0), (0x02, 2)] {
        let mut bench = Bench::one(&[("CH", 11), ("CS", if s == 0 { 11 } else { 10 })]);
        bench.set(&[(S, s)]);
        bench.steps(1);
        assert_eq!((bench.state.wx, bench.get(S)), (next, s ^ 2));
    }
}

#[test]
fn reads_by_pair_and_kind() {
    // CM, CU, G; whether local, and the two registers.
    let cases = [
        (3, 0, 0x00, false, [I, J]),
        (4, 0, 0x00, false, [U, V]),
        (5, 0, 0x00, false, [L, T]),
        (3, 1, 0xFF, true, [I, J]),
        (4, 1, 0xFF, true, [U, V]),
        (5, 1, 0xFF, true, [L, T]),
        (3, 3, 0x3F, true, [I, J]),
        (4, 3, 0x40, false, [U, V]),
        (5, 3, 0x80, false, [L, T]),
        (5, 3, 0x3F, true, [L, T]),
    ];
    for (cm, cu, g, local, [high, low]) in cases {
        for allow_write in [false, true] {
            let mut bench = Bench::one(&[("CM", cm), ("CU", cu)]);
            bench.set(&[(I, 1), (J, 0x31), (U, 2), (V, 0x32), (L, 3), (T, 0x33), (G, g), (M, 0x77), (N, 0x78)]);
            bench.state.allow_write = allow_write;
            bench.state.local = !local;
            let (old_main, old_local) = (bench.main.clone(), bench.local.clone());
            bench.steps(1);
            let m = if cm == 5 && local { 0x77 } else { bench.get(high) };
            assert_eq!((bench.get(M), bench.get(N)), (m, bench.get(low)), "CM {cm} CU {cu}");
            assert_eq!(bench.state.local, local);
            let place = usize::from(bench.get(low));
            let byte = if local { old_local[place] } else { old_main[usize::from(m) * 256 + place] };
            assert_eq!(bench.state.arriving, !allow_write);
            assert_eq!(bench.state.arriving_byte, if allow_write { 0 } else { byte });
            assert!(bench.state.allow_write);
            // Reading does not clear.
            assert_eq!((bench.main, bench.local), (old_main, old_local));
        }
    }
}

#[test]
fn a_second_write_is_ignored() {
    let mut bench = Bench::new(4);
    bench.then(0, 1, &[("CM", 3)]);
    bench.then(1, 2, &[("CM", 0), ("CA", 8), ("CF", 3), ("CD", 7)]);
    bench.then(2, 3, &[("CM", 2)]);
    bench.set(&[(J, 9), (D, 0x5A)]);
    let before = bench.main.clone();
    bench.steps(3);
    assert_eq!(bench.get(R), 0x5A);
    assert_eq!(bench.main, before);
}

#[test]
fn a_second_read_moves_the_write() {
    // Read at IJ, then address UV local under the same latch, then store R there.
    let mut bench = Bench::new(4);
    bench.then(0, 1, &[("CM", 3)]);
    bench.then(1, 2, &[("CM", 4), ("CU", 1)]);
    bench.then(2, 3, &[("CM", 2)]);
    bench.set(&[(J, 9), (V, 0x40)]);
    bench.steps(3);
    assert_eq!(bench.get(R), bench.main[9]);
    assert_eq!(bench.local[0x40], bench.main[9]);
}

#[test]
fn k_to_w_with_cm_0_to_2() {
    for cm in 0..3 {
        let mut bench = Bench::one(&[("CM", cm), ("CU", 2), ("CK", 9), ("CN", 5)]);
        bench.steps(1);
        assert_eq!(bench.state.wx, 0x914);
        bench.refuses(2);
    }
}

#[test]
fn a_run_is_so_many_cycles() {
    let mut random = Random::new(14);
    let mut endings = [0; 3];
    for _ in 0..400 {
        let drawn = draw_bench(&mut random, 512);
        let mut single = in_either(&mut random, drawn);
        let mut whole = single.clone();
        let budget = random.below(40);
        let (ending, count) = whole.run(budget);
        for _ in 0..count {
            assert_eq!(single.cycle(), Answer::Ran);
        }
        assert_eq!(single, whole);
        let kind = match ending {
            Ending::Spent => {
                assert_eq!(count, budget);
                0
            }
            Ending::Stopped => {
                assert_eq!(single.cycle(), Answer::Stopped);
                1
            }
            Ending::Refused { number, field } => {
                assert_eq!(single.cycle(), Answer::Refused { number, field });
                2
            }
        };
        endings[kind] += 1;
    }
    assert!(endings.iter().all(|count| *count > 3), "{endings:?}");
}

#[test]
fn p_counts_j_up() {
    let mut bench = Bench::new(2);
    bench.store[0] = common::P;
    bench.set(&[(J, 0xFE)]);
    bench.main = draw_bytes(&mut Random::new(1), 16);
    for (j, ac, z0) in [(0xFF, false, false), (0x00, true, true), (0x01, false, false)] {
        bench.state.wx = 0;
        bench.steps(1);
        assert_eq!((bench.get(J), bench.state.ac, bench.state.z0), (j, ac, z0));
        assert_eq!(bench.state.wx, 1);
    }
}
