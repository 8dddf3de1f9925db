//! The field in Montgomery form: x stands for x times R, R = 2^64.
//!
//! 8p is about 2^64, so there is room to keep values below 2p, called short
//! here, and to bring them below p only where they are compared or handed out.

/// The prime (document 01, "The field").
pub const P: u64 = (1 << 61) + 20 * (1 << 32) + 1;
/// One over p modulo R: p is 1 + 2^32 h, and (1 + 2^32 h)(1 - 2^32 h) is 1
/// modulo 2^64.
const P_INVERSE: u64 = 2u64.wrapping_sub(P);
/// One, in Montgomery form.
pub const ONE: u64 = ((1u128 << 64) % P as u128) as u64;
/// R squared: the factor that brings a word into the form.
const R_SQUARED: u64 = ((ONE as u128 * ONE as u128) % P as u128) as u64;
/// R cubed, and one over R.
const R_CUBED: u64 = ((R_SQUARED as u128 * ONE as u128) % P as u128) as u64;
const R_INVERSE: u64 = reduce(1);
/// (2p - 1)/3
const ROOT_EXPONENT: u64 = (2 * P - 1) / 3;

/// t divided by R, modulo p: below t / R + p, and above 0. The low halves of t
/// and m p are equal, so there is no borrow between them.
#[inline(always)]
pub const fn reduce(t: u128) -> u64 {
    let m = (t as u64).wrapping_mul(P_INVERSE);
    let high = (m as u128 * P as u128) >> 64;
    (t >> 64) as u64 + P - high as u64
}

/// The product of two short values, short: (2p)(2p) / R is below p.
#[inline(always)]
pub fn mul(a: u64, b: u64) -> u64 {
    reduce(a as u128 * b as u128)
}

/// x, or x - bound when x is not below the bound.
#[inline(always)]
pub fn less(x: u64, bound: u64) -> u64 {
    x.min(x.wrapping_sub(bound))
}

/// Brings a short value below p.
#[inline(always)]
pub fn canonical(x: u64) -> u64 {
    less(x, P)
}

/// The short form of a word below 2p.
#[inline(always)]
pub fn from_word(word: u64) -> u64 {
    mul(word, R_SQUARED)
}

/// The word below p that a short value stands for.
#[inline(always)]
pub fn to_word(x: u64) -> u64 {
    canonical(reduce(x as u128))
}

/// A word below 2p divided by R^2, below p.
#[inline(always)]
pub fn thin(word: u64) -> u64 {
    canonical(mul(word, R_INVERSE))
}

/// The word below p that a thin value below 2p stands for.
#[inline(always)]
pub fn thicken(x: u64) -> u64 {
    canonical(mul(x, R_CUBED))
}

#[inline(always)]
pub fn cube(x: u64) -> u64 {
    mul(mul(x, x), x)
}

/// The cube root of a short value. Squares and results are two chains that run
/// side by side; the squares are the longer one.
#[inline]
pub fn root(x: u64) -> u64 {
    let mut result = ONE;
    let mut square = x;
    let mut rest = ROOT_EXPONENT;
    loop {
        if rest & 1 == 1 {
            result = mul(result, square);
        }
        rest >>= 1;
        if rest == 0 {
            return result;
        }
        square = mul(square, square);
    }
}

/// row times cells plus `plus`, short. The row and `plus` are below p, the cells
/// short.
#[inline(always)]
pub fn dot<const LATE: bool>(row: &[u64; 12], cells: &[u64; 12], plus: u64) -> u64 {
    if LATE {
        late(row, cells, plus)
    } else {
        each(row, cells, plus)
    }
}

/// Each product is reduced by itself.
#[inline(always)]
fn each(row: &[u64; 12], cells: &[u64; 12], plus: u64) -> u64 {
    let mut sum = plus;
    for j in 0..12 {
        sum = less(sum + mul(row[j], cells[j]), 2 * P);
    }
    sum
}

/// The sum is reduced once: twelve products are below 24 p^2, which fits 127
/// bits and is hardly more than 3p once divided by R.
#[inline(always)]
fn late(row: &[u64; 12], cells: &[u64; 12], plus: u64) -> u64 {
    let mut sum = (plus as u128) << 64;
    for j in 0..12 {
        sum += row[j] as u128 * cells[j] as u128;
    }
    short(reduce(sum))
}

/// Brings a value below 8p under 2p.
#[inline(always)]
pub fn short(x: u64) -> u64 {
    less(less(x, 4 * P), 2 * P)
}
