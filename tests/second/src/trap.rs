//! A trap between two cycles, from request 10: WX is saved in FWX, and an address takes its place. The way back is in a
//! word, by CU.

use crate::state::State;
use crate::word::HIGHEST_ADDRESS;
use crate::Refusal;

/// Checks 29, a trap while one is open, then 30, the address. Refused, nothing has changed.
pub fn trap(state: &mut State, address: u32) -> Result<(), Refusal> {
    if state.owed {
        return Err(29);
    }
    if address > HIGHEST_ADDRESS {
        return Err(30);
    }
    // All of WX is saved, though 12 bits are used: a WX in no store comes back as it was.
    state.fwx = state.wx;
    state.wx = address as u16;
    state.owed = true;
    Ok(())
}
