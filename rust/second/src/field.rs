//! The field (document 01, "The field").

/// The prime.
pub const P: u64 = (1 << 61) + 20 * (1 << 32) + 1;

/// The cube root of x is x to this exponent. It is a whole number because 3
/// does not divide p - 1.
pub const ROOT_EXPONENT: u64 = (2 * P - 1) / 3;

/// A word is canonical when it is below p.
pub fn is_canonical(word: u64) -> bool {
    word < P
}

/// The lowest index of a word that is not canonical.
pub fn first_not_canonical(words: &[u64]) -> Option<usize> {
    words.iter().position(|&word| !is_canonical(word))
}

/// a + b, for canonical a and b; the sum is below 2^63.
pub fn add(a: u64, b: u64) -> u64 {
    (a + b) % P
}

/// a - b, for canonical a and b.
pub fn sub(a: u64, b: u64) -> u64 {
    (a + P - b) % P
}

/// a times b. The product does not fit 64 bits.
pub fn mul(a: u64, b: u64) -> u64 {
    ((a as u128 * b as u128) % P as u128) as u64
}

/// x to the third.
pub fn cube(x: u64) -> u64 {
    mul(mul(x, x), x)
}

/// x to the exponent; x^0 is 1, also for x = 0.
pub fn power(x: u64, exponent: u64) -> u64 {
    let mut result = 1;
    let mut square = x;
    let mut rest = exponent;
    while rest > 0 {
        if rest % 2 == 1 {
            result = mul(result, square);
        }
        square = mul(square, square);
        rest /= 2;
    }
    result
}

/// The cube root.
pub fn root(x: u64) -> u64 {
    power(x, ROOT_EXPONENT)
}

/// One divided by x, for x other than 0 (Fermat: x^(p-1) is 1).
pub fn reciprocal(x: u64) -> u64 {
    power(x, P - 2)
}
