//! A second implementation of document 01, and of what document 02 adds to it
//! or alters in it, written from the documents alone.
//!
//! It is plain and slow on purpose: one module for each section of document 01
//! and each operation of document 02, the field on `u128`, and a checker that
//! evaluates one test at a time. Each operation reads its inputs, answers a full
//! result or a refusal, and writes into what is lent only when nothing can be
//! refused any more. `caller` is what a caller works out without a call.

pub mod board;
pub mod caller;
pub mod constraints;
pub mod convert;
pub mod edit;
pub mod field;
pub mod hash;
pub mod program;
pub mod refusal;
pub mod short;
pub mod table;
pub mod trace;
pub mod unhash;

pub use board::{pack, unpack};
pub use constraints::{check, read_off};
pub use convert::{to_full, to_short};
pub use edit::edit;
pub use hash::{chain, hash};
pub use program::clear;
pub use refusal::Refusal;
pub use short::{pack_short, unpack_short};
pub use table::{prepare, Table};
pub use trace::build;
pub use unhash::unhash;
