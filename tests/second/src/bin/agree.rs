//! Prints what a proved program `agree_*` must print, for its stored `stdout`.

use second::agree::{text, PROGRAMS};

fn main() {
    let name = std::env::args().nth(1).unwrap_or_default();
    match text(&name) {
        Some(text) => print!("{text}"),
        None => {
            let names: Vec<&str> = PROGRAMS.iter().map(|(name, _)| *name).collect();
            eprintln!("agree: name one of {}", names.join(", "));
            std::process::exit(2);
        }
    }
}
