//! A second Model 30 engine, written from document 01 alone, for the proved one to be compared with; `signed` is written
//! from request 2 of document 02 alone, `apsp` from request 3 and the paper of its words, the two lamps of a sum from
//! request 5, `reading` with the codes that a reading tells apart from request 7, `trap` with the return from request 10, and
//! `session` with its fences from request 13.
//!
//! One file for each section of the paper. Behaviour sits in tables of functions indexed by a field's
//! code; a code with no entry is a code that is not modelled, so refusal 10 reads the same tables. Where readings differ a
//! table still stands once: its entries say what a code means under each.

pub mod adder;
pub mod agree;
pub mod apsp;
pub mod bits;
pub mod board;
pub mod branch;
pub mod cycle;
pub mod decimal;
pub mod deck;
pub mod lister;
pub mod panel;
pub mod random;
pub mod reading;
pub mod registers;
pub mod run;
pub mod session;
pub mod shipped;
pub mod signed;
pub mod state;
pub mod status;
pub mod storage;
pub mod trap;
pub mod word;

/// The number of a refusal, as documents 01 and 02 give it.
pub type Refusal = u8;
