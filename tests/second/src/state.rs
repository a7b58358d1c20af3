//! The state that a cycle changes, in the order of document 01 and of the panel's lamp channels.

// Places in `registers`.
pub const I: usize = 0;
pub const J: usize = 1;
pub const U: usize = 2;
pub const V: usize = 3;
pub const L: usize = 4;
pub const T: usize = 5;
pub const D: usize = 6;
pub const R: usize = 7;
pub const S: usize = 8;
pub const G: usize = 9;
pub const H: usize = 10;
pub const M: usize = 11;
pub const N: usize = 12;

/// The bytes of the panel's record, one for each channel.
pub const RECORD: usize = 27;

/// The channels that are latches: AC, 1BC, Z0, allow-write, local, arriving, digit carry, invalid, owed.
pub const LATCHES: [usize; 9] = [15, 16, 17, 18, 19, 20, 22, 23, 26];

#[derive(Clone, Copy, Debug, Default, PartialEq, Eq)]
pub struct State {
    /// I J U V L T D R S G H M N.
    pub registers: [u8; 13],
    /// 16 bits held, 12 used.
    pub wx: u16,
    pub ac: bool,
    /// 1BC.
    pub bc1: bool,
    pub z0: bool,
    pub allow_write: bool,
    /// The storage kind last selected.
    pub local: bool,
    pub arriving: bool,
    /// Means nothing with `arriving` off; a cycle that ran leaves 0 there.
    pub arriving_byte: u8,
    /// Of the last sum, for the lamps: no branch reads these two.
    pub digit_carry: bool,
    pub invalid: bool,
    /// The WX that a trap broke into; 16 bits held, as WX.
    pub fwx: u16,
    /// A return is owed: a trap is open.
    pub owed: bool,
}

impl State {
    /// The panel's record; a latch is 0 or 1.
    pub fn to_bytes(&self) -> [u8; RECORD] {
        let State { ac, bc1, z0, allow_write, local, arriving, digit_carry, invalid, owed, .. } = *self;
        let mut bytes = [0; RECORD];
        bytes[..13].copy_from_slice(&self.registers);
        bytes[13..15].copy_from_slice(&self.wx.to_be_bytes());
        bytes[24..26].copy_from_slice(&self.fwx.to_be_bytes());
        let latches = [ac, bc1, z0, allow_write, local, arriving, digit_carry, invalid, owed];
        for (channel, latch) in LATCHES.into_iter().zip(latches) {
            bytes[channel] = u8::from(latch);
        }
        bytes[21] = self.arriving_byte;
        bytes
    }

    /// The state of the panel's record; a latch byte is on at any value but 0.
    pub fn from_bytes(bytes: &[u8; RECORD]) -> State {
        let mut registers = [0; 13];
        registers.copy_from_slice(&bytes[..13]);
        let wx = u16::from_be_bytes([bytes[13], bytes[14]]);
        let arriving_byte = bytes[21];
        let fwx = u16::from_be_bytes([bytes[24], bytes[25]]);
        let [ac, bc1, z0, allow_write, local, arriving, digit_carry, invalid, owed] =
            LATCHES.map(|channel| bytes[channel] != 0);
        State {
            registers,
            wx,
            ac,
            bc1,
            z0,
            allow_write,
            local,
            arriving,
            arriving_byte,
            digit_carry,
            invalid,
            fwx,
            owed,
        }
    }
}

#[cfg(test)]
mod tests {
    use super::*;

    #[test]
    fn every_channel_has_its_own_byte() {
        for channel in 0..RECORD {
            let mut bytes = [0; RECORD];
            bytes[channel] = 1;
            assert_eq!(State::from_bytes(&bytes).to_bytes(), bytes);
        }
        let mut bytes = [0; RECORD];
        bytes[13] = 0x0A;
        bytes[14] = 0xBC;
        bytes[24] = 0xFD;
        bytes[25] = 0xEC;
        let State { wx, fwx, .. } = State::from_bytes(&bytes);
        assert_eq!((wx, fwx), (0x0ABC, 0xFDEC));
    }

    #[test]
    fn a_latch_is_on_at_any_value_but_0() {
        let bytes = [7; RECORD];
        let mut expected = [7; RECORD];
        expected[15..21].fill(1);
        expected[22..24].fill(1);
        expected[26] = 1;
        assert_eq!(State::from_bytes(&bytes).to_bytes(), expected);
    }

    #[test]
    fn channels_by_name() {
        let state = State { z0: true, local: true, invalid: true, owed: true, ..State::default() };
        let bytes = state.to_bytes();
        let lit: Vec<usize> = (0..RECORD).filter(|&channel| bytes[channel] == 1).collect();
        assert_eq!(lit, [17, 19, 23, 26]);
        assert_eq!([I, J, U, V, L, T, D, R, S, G, H, M, N], std::array::from_fn(|place| place));
    }
}
