//! The yardstick of speed: what one would write by hand in fast Rust.
//!
//! Products are Montgomery's with R = 2^64, the power is a loop from the lowest
//! bit up, one cell at a time. There are two: one reduces each product by itself,
//! the other adds up the products of a row before it reduces, once. The answers
//! are those of `second`, refusals included, and the tests hold both to that.

mod constraints;
mod hash;
pub mod montgomery;
mod table;

use second::Refusal;

type Hashed = Result<[u64; 12], Refusal>;
type Digested = Result<[u64; 4], Refusal>;
type Checked = Result<u64, Refusal>;
type Check = fn(&[u64], &[u64], [u64; 4], usize) -> Checked;
type ReadOff = fn(&[u64], &[u64], [u64; 4], usize, &mut [u64]) -> Checked;

/// The operations, as one of the two yardsticks does them.
pub struct Yardstick {
    pub hash: fn(&[u64], [u64; 8]) -> Hashed,
    pub build: fn(&[u64], &[u64], &mut [u64]) -> Digested,
    pub check: Check,
    pub read_off: ReadOff,
}

impl Yardstick {
    const fn new<const LATE: bool>() -> Yardstick {
        Yardstick {
            hash: hash::hash::<LATE>,
            build: hash::build::<LATE>,
            check: constraints::check::<LATE>,
            read_off: constraints::read_off::<LATE>,
        }
    }
}

/// Each product is reduced by itself.
pub const EACH: Yardstick = Yardstick::new::<false>();

/// The products of a row are added up and reduced once.
pub const LATE: Yardstick = Yardstick::new::<true>();

pub const BOTH: [Yardstick; 2] = [EACH, LATE];

/// a times b, for words below p. Only b is brought into the form, so the answer
/// comes out of it again.
#[inline]
pub fn product(a: u64, b: u64) -> u64 {
    montgomery::canonical(montgomery::mul(a, montgomery::from_word(b)))
}

/// The cube root, for a word below p.
pub fn root(x: u64) -> u64 {
    montgomery::to_word(montgomery::root(montgomery::from_word(x)))
}
