//! The shipped words on this engine: its own count of cycles, and the ending that those words stop at.

use crate::apsp;
use crate::bits::{bit, with_bit};
use crate::decimal::Outcome;
use crate::reading::Reading;
use crate::run::{run_in, Ending};
use crate::session::Fence;
use crate::state::{State, I, J, L, S, U, V};

/// The shipped words, as crates/decimal has them.
pub const SHIPPED: [u64; 21] = [
    0x01809100150181,
    0x010812401B6000,
    0x020043000C6141,
    0x048812400B6000,
    0x020A83401D6180,
    0x048282DF9B7800,
    0x01801100008000,
    0x0200B3801E6140,
    0x01001100108000,
    0x018B93C01F6181,
    0x0780131F9C7900,
    0x0B00115F807900,
    0x0780935F9D7980,
    0x0708439F8E7901,
    0x070881C0086000,
    0x088013DF9F7981,
    0x0800B15F807900,
    0x088811D0077F80,
    0x088882DF9B7800,
    0x040B9100150181,
    0x01801100008000,
];

/// The words of AP and SP, as their paper lists them.
pub const APSP: [u64; 55] = [
    0x0180925F8B7800,
    0x010B925F897801,
    0x020043000C6141,
    0x0880C3000C6141,
    0x020A83401D6180,
    0x048282DF9B7800,
    0x01801100008000,
    0x0200B3801E6140,
    0x01001100108000,
    0x018B93C01F6181,
    0x0780131F9C7900,
    0x0B00115F807900,
    0x0780935F9D7980,
    0x0708439F8E7901,
    0x070881C0086000,
    0x088013DF9F7981,
    0x1355B15F807911,
    0x0B8083400D6180,
    0x088882DF9B7800,
    0x040B9100150181,
    0x15BC93880E7901,
    0x0B0811DB07F000,
    0x0D3291DA0A7000,
    0x0B8083C01F61B4,
    0x01801100008000,
    0x01001100108000,
    0x01001100108000,
    0x0EE692400B6041,
    0x10059100000001,
    0x1085911C06702D,
    0x10859100100001,
    0x10059100000001,
    0x0B08B3800E6168,
    0x0488111C05A888,
    0x108893800C6031,
    0x1A0093C01D6000,
    0x088811D0071FA4,
    0x080811D0177FA4,
    0x080811D01717A5,
    0x088811D00757A4,
    0x16C813C01F6181,
    0x160093C01F6181,
    0x160D93C00F6181,
    0x16C813C01F6181,
    0x19003100000100,
    0x19D8311F801941,
    0x19D83100000100,
    0x1A5813800E6140,
    0x198091DE176801,
    0x19088100000001,
    0x190091DE976801,
    0x01801100008000,
    0x100813C01F61AC,
    0x108092400B6041,
    0x108813C00F61A9,
];

/// The word at which a run that summed stops.
pub const SUMMED_AT: u16 = 0x14;

/// The word at which a run of AP and SP that is done stops, and those at which a bad digit or sign stops it.
pub const DONE_AT: u16 = 0x33;
pub const BAD_AT: [u16; 5] = [0x06, 0x08, 0x18, 0x19, 0x1A];

/// Both starts, the length and the carry in, as docs/DECIMAL-ADD.md gives them to the registers.
pub fn start(first: u16, second: u16, length: u8, carry: bool) -> State {
    with_status(first, second, length, with_bit(0, 3, carry))
}

/// The same for AP and SP, "with S0 for \"subtract\" in the place of S3 for the carry in".
pub fn start_apsp(first: u16, second: u16, length: u8, subtract: bool) -> State {
    with_status(first, second, length, with_bit(0, 0, subtract))
}

/// What both are given, and S.
fn with_status(first: u16, second: u16, length: u8, status: u8) -> State {
    let mut state = State::default();
    [state.registers[I], state.registers[J]] = first.to_be_bytes();
    [state.registers[U], state.registers[V]] = second.to_be_bytes();
    state.registers[L] = length;
    state.registers[S] = status;
    state
}

/// The run of the shipped words: whether it summed, with which carry, and its count of cycles.
pub fn run_shipped(main: &mut [u8], local: &mut [u8], start: State) -> (Outcome, u64) {
    let all = Fence::round(main);
    run_shipped_in(main, local, start, all)
}

/// The same in a fence that holds both fields.
pub fn run_shipped_in(main: &mut [u8], local: &mut [u8], start: State, fence: Fence) -> (Outcome, u64) {
    let (at, s3, count) = stopped(&SHIPPED, main, local, start, fence);
    match at {
        SUMMED_AT => (Outcome::Summed { carry: s3 }, count),
        _ => (Outcome::BadDigit, count),
    }
}

/// The run of AP and SP: whether it is done, with which overflow, and its count of cycles.
pub fn run_apsp(main: &mut [u8], local: &mut [u8], start: State) -> (apsp::Outcome, u64) {
    let all = Fence::round(main);
    let (at, s3, count) = stopped(&APSP, main, local, start, all);
    if at == DONE_AT {
        return (apsp::Outcome::Done { overflow: s3 }, count);
    }
    assert!(BAD_AT.contains(&at), "stopped at {at:03X}");
    (apsp::Outcome::Bad, count)
}

/// The cycles within which either program stops: 40 for each byte, and 40 more.
pub fn bound(start: &State) -> u64 {
    40 * u64::from(start.registers[L]) + 40
}

/// The word that a run within the bound stops at, S3 there, and its count of cycles. "The shipped programs are run under
/// basic."
fn stopped(words: &[u64], main: &mut [u8], local: &mut [u8], start: State, fence: Fence) -> (u16, bool, u64) {
    let mut state = start;
    let (ending, count) = run_in(Reading::Basic, words, main, local, &mut state, bound(&start), fence);
    assert_eq!(ending, Ending::Stopped);
    (state.wx, bit(state.registers[S], 3), count)
}
