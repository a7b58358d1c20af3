//! tests/size/run: what each board's library takes of a host's room for constants, and both libraries on the same decks.

use programs::{file, folder, root, run, Said};
use std::collections::BTreeSet;
use std::process::Command;

fn size(arguments: &[&str]) -> Said {
    run(Command::new(root().join("tests/size/run")).args(arguments), &[])
}

/// The number before a word, in the line of a board.
fn figure(text: &str, board: &str, what: &str) -> usize {
    let line = text.lines().find(|line| line.starts_with(&format!("{board} board: "))).expect("the board's line");
    let before = line.split(what).next().expect("what is counted");
    before.trim_end().rsplit(' ').next().and_then(|number| number.parse().ok()).expect("its number")
}

/// The table is 32 different rows of 16 bytes, each of them twice; an alignment may take less than a row.
#[test]
fn the_small_board_has_room_and_the_large_one_has_the_table() {
    let said = size(&[]);
    assert_eq!(said.status, Some(0), "{said:?}");
    let constants = |board| figure(&said.text(), board, "bytes of constants");
    assert!(constants("small") <= 512 && constants("large") > constants("small") + 31 * 16, "{said:?}");
    assert_eq!(["small", "large"].map(|board| figure(&said.text(), board, "of the table")), [0, 64]);
    assert!(said.text().ends_with("every answer, record, work and storage is the same\n"), "{said:?}");
}

/// What crates.txt names for a crate, and for those that it names.
fn below(name: &str) -> BTreeSet<String> {
    let plan = std::fs::read_to_string(root().join("crates.txt")).expect("crates.txt");
    let (mut found, mut todo) = (BTreeSet::new(), vec![name.to_owned()]);
    while let Some(next) = todo.pop() {
        let lines = plan.lines().filter_map(|line| line.split('#').next()?.split_once(':'));
        let line = lines.filter(|(of, _)| of.split_whitespace().next() == Some(&next)).map(|(_, names)| names).next();
        todo.extend(line.unwrap_or_default().split_whitespace().map(str::to_owned));
        found.insert(next);
    }
    found
}

#[test]
fn the_small_board_does_not_stand_on_the_table() {
    let stands_on = below("panel");
    for (name, there) in [("adder", true), ("correction", true), ("rule", true), ("table", false)] {
        assert_eq!(stands_on.contains(name), there, "{name}");
    }
}

#[test]
fn less_room_than_the_constants_take_is_told() {
    let least = figure(&size(&[]).text(), "small", "bytes of constants");
    let said = size(&[&(least - 1).to_string()]);
    assert_eq!((said.status, said.text().lines().count()), (Some(1), 1), "{said:?}");
    assert_eq!(said.err, format!("size: the small board has room for {} bytes of constants\n", least - 1));
    assert_eq!(size(&[&least.to_string()]).status, Some(0));
}

/// Where a byte of the table is another in the linked library, both boards do not answer alike.
#[test]
fn a_wrong_entry_is_seen() {
    assert_eq!(size(&[]).status, Some(0));
    let shared = ["small", "large"].map(|board| root().join("target/shared").join(format!("{board}.so")));
    let mut bytes = std::fs::read(&shared[1]).expect("the large board's library");
    // the row of sums from 0x30 on with no carry out of either digit
    let row: Vec<u8> = (0..16).map(|low| 0xD0 + (low + 10) % 16).collect();
    let at = bytes.windows(16).position(|window| window == row).expect("the row");
    bytes[at + 7] ^= 1;
    let wrong = file(&folder("wrong_entry"), "large.so", &bytes);
    let both = root().join("target/size/both");
    let said = run(Command::new(root().join("tools/x86")).arg(both).arg(&shared[0]).arg(wrong), &[]);
    assert_eq!(said.status, Some(1), "{said:?}");
    assert!(said.text().starts_with("cycle ") && said.text().contains(" is not the same: "), "{said:?}");
}

/// A board that is none is told, and so is a number of bytes that is none.
#[test]
fn what_the_commands_do_not_know_is_told() {
    let library = |arguments: &[&str]| run(Command::new(root().join("library")).args(arguments), &[]);
    let line = "library: name one board: small, whose sums are corrected by rule, or large, by table\n";
    for arguments in [&[][..], &["middle"], &["small", "large"]] {
        let said = library(arguments);
        assert_eq!((said.text().as_str(), said.err.as_str(), said.status), ("", line, Some(1)), "{arguments:?}");
    }
    for arguments in [&["x"][..], &["-1"], &[""], &["512", "512"]] {
        let said = size(arguments);
        let line = "size: give a number of bytes, or nothing for 512\n";
        assert_eq!((said.text().as_str(), said.err.as_str(), said.status), ("", line, Some(1)), "{arguments:?}");
    }
}

/// The command says where the library stands, and nothing else.
#[test]
fn a_library_is_named_by_its_place() {
    for (board, place) in [("small", "target/staticlib/libpanel.a"), ("large", "target/large/libpanel.a")] {
        run(Command::new(root().join("library")).arg(board), &[]);
        let said = run(Command::new(root().join("library")).arg(board), &[]);
        assert_eq!((said.text(), said.well()), (format!("{}\n", root().join(place).display()), true), "{said:?}");
        assert!(root().join(place).exists());
    }
}
