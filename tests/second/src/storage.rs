//! Storage: reads and writes of main and local storage under the allow-write latch, of main storage in a fence.
//!
//! An action takes the state as it stands once an arriving byte has entered R (`now`) and changes `next`.
//! It refuses, by 11, before storage has changed, and the caller then throws `next` away.

use crate::bits::bit;
use crate::branch::Condition;
use crate::session::Fence;
use crate::state::{State, G, I, J, L, M, N, R, T, U, V};
use crate::word::{Word, CM, CU};
use crate::Refusal;

pub struct Storage<'a> {
    pub main: &'a mut [u8],
    pub local: &'a mut [u8],
    /// What may be read and written of main storage; local storage has none.
    pub fence: Fence,
}

pub type Action = fn(&mut Storage, &Word, &State, &mut State) -> Result<(), Refusal>;

/// CM of a Store.
pub const STORE: u8 = 2;

/// By CM; None is a code not modelled.
pub static ACTION: [Option<Action>; 8] = [
    Some(put_back),
    Some(|_, _, _, _| Ok(())),
    Some(put_back),
    Some(|storage, word, now, next| read(storage, word, now, next, [I, J])),
    Some(|storage, word, now, next| read(storage, word, now, next, [U, V])),
    Some(|storage, word, now, next| read(storage, word, now, next, [L, T])),
    None,
    None,
];

/// By CU, for a read: whether storage is local.
static LOCAL: [Option<Condition>; 4] =
    [Some(|_| false), Some(|_| true), None, Some(|now| !bit(now.registers[G], 0) && !bit(now.registers[G], 1))];

/// Whether CU has a meaning beside this CM. With CM 0 to 2 it is 0, nothing more, 2, K to W, or 3, a return.
pub fn cu_modelled(word: &Word) -> bool {
    if word[CM] <= STORE {
        matches!(word[CU], 0 | 2 | 3)
    } else {
        LOCAL[usize::from(word[CU])].is_some()
    }
}

/// The byte at the address and of the kind the state holds, or 11.
fn place<'a>(storage: &'a mut Storage, at: &State) -> Result<&'a mut u8, Refusal> {
    let n = usize::from(at.registers[N]);
    if at.local {
        // Local storage is 256 bytes by now, so N is always inside it.
        Ok(&mut storage.local[n])
    } else {
        let address = usize::from(at.registers[M]) * 256 + n;
        let fence = storage.fence;
        storage.main.get_mut(address).filter(|_| fence.contains(address)).ok_or(11)
    }
}

/// Write and Store alike: they differ only in what enters R, which has happened by now.
fn put_back(storage: &mut Storage, _: &Word, now: &State, next: &mut State) -> Result<(), Refusal> {
    if now.allow_write {
        *place(storage, now)? = now.registers[R];
        next.allow_write = false;
    }
    Ok(())
}

fn read(
    storage: &mut Storage,
    word: &Word,
    now: &State,
    next: &mut State,
    [high, low]: [usize; 2],
) -> Result<(), Refusal> {
    next.local = LOCAL[usize::from(word[CU])].is_some_and(|local| local(now));
    // LT with local storage gives N alone.
    if !(word[CM] == 5 && next.local) {
        next.registers[M] = now.registers[high];
    }
    next.registers[N] = now.registers[low];
    if !now.allow_write {
        next.arriving_byte = *place(storage, next)?;
        next.arriving = true;
        next.allow_write = true;
    }
    Ok(())
}
