//! What the lister program prints for a deck.

use crate::deck::words_of;

/// One line a word, or the one line of a refusal.
pub fn list(deck: &[u8]) -> String {
    match words_of(deck) {
        Ok(words) => words.iter().enumerate().map(line).collect(),
        Err(number) => format!("REFUSED {number}\n"),
    }
}

fn line((address, word): (usize, &u64)) -> String {
    format!("{address:03X} {word:014X}\n")
}
