//! How the words of a store are read, from request 7: as document 01 has them, or as the figure of document 002 gives them.

/// "A store carries a reading, basic or compatibility."
#[derive(Clone, Copy, PartialEq, Eq, Debug)]
pub enum Reading {
    Basic,
    Compatibility,
}

pub const READINGS: [Reading; 2] = [Reading::Basic, Reading::Compatibility];

/// What a field's code means: each table that knows readings has one of these for each code.
#[derive(Clone, Copy, Debug)]
pub enum Meaning<T> {
    /// Under either reading.
    Both(T),
    /// One thing in basic, and another in compatibility.
    Each(T, T),
    /// Under this reading; under the other it is not modelled.
    Only(Reading, T),
    Neither,
}

impl<T: Copy> Meaning<T> {
    /// None is a code not modelled.
    pub fn under(&self, reading: Reading) -> Option<T> {
        match *self {
            Meaning::Both(meaning) => Some(meaning),
            Meaning::Each(basic, compatibility) => Some(match reading {
                Reading::Basic => basic,
                Reading::Compatibility => compatibility,
            }),
            Meaning::Only(one, meaning) => (one == reading).then_some(meaning),
            Meaning::Neither => None,
        }
    }
}

#[cfg(test)]
mod tests {
    use super::*;

    #[test]
    fn a_meaning_under_each_reading() {
        let cases = [
            (Meaning::Both(5), [Some(5), Some(5)]),
            (Meaning::Each(5, 6), [Some(5), Some(6)]),
            (Meaning::Only(Reading::Basic, 5), [Some(5), None]),
            (Meaning::Only(Reading::Compatibility, 5), [None, Some(5)]),
            (Meaning::Neither, [None, None]),
        ];
        for (meaning, expected) in cases {
            assert_eq!(READINGS.map(|reading| meaning.under(reading)), expected, "{meaning:?}");
        }
    }
}
