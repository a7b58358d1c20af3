//! The stored output of each proved program `agree_*` is what this engine computes. The gate holds the program to
//! its stored output, so the two engines agree on every case, or one of the two is red.

use second::agree::PROGRAMS;
use std::path::PathBuf;

fn stored(name: &str) -> PathBuf {
    PathBuf::from(env!("CARGO_MANIFEST_DIR")).join("../../crates").join(name).join("stdout")
}

/// The first line in which two texts differ, from 1.
fn first_difference(stored: &str, computed: &str) -> usize {
    let same = stored.lines().zip(computed.lines()).take_while(|(one, other)| one == other);
    same.count() + 1
}

#[test]
fn stored_outputs_are_what_this_engine_computes() {
    for (name, text) in PROGRAMS {
        let path = stored(name);
        let stored = std::fs::read_to_string(&path).unwrap_or_else(|error| panic!("{}: {error}", path.display()));
        let computed = text();
        assert!(
            stored == computed,
            "{name}: {} differs from line {} on; if the cases were changed on purpose, make it anew by \
             `cargo run --release --bin agree -- {name}`",
            path.display(),
            first_difference(&stored, &computed)
        );
    }
}
