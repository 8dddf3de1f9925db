//! 004's Algorithm 1 and its trace, written a second time in another manner: products by
//! doubling, powers by halving, the hash column by column; and a list hashed one by one.

use super::*;
use second::hash;

/// a times b by doubling and adding; nothing exceeds 2p.
pub fn times(a: u64, b: u64) -> u64 {
    let mut sum = 0;
    for bit in (0..64).rev() {
        sum = sum * 2 % P;
        if b >> bit & 1 == 1 {
            sum = (sum + a) % P;
        }
    }
    sum
}

/// "x^0 is 1, x^(2e) is the square of x^e, x^(2e+1) is that times x."
pub fn halving_power(x: u64, exponent: u64) -> u64 {
    if exponent == 0 {
        return 1;
    }
    let half = halving_power(x, exponent / 2);
    let square = times(half, half);
    if exponent.is_multiple_of(2) {
        square
    } else {
        times(square, x)
    }
}

/// M (row by row, from word `at`) times a column, summed column by column.
pub fn matrix_times(words: &[u64], at: usize, column: &[u64]) -> Vec<u64> {
    let mut sum = vec![0; 12];
    for (j, &cell) in column.iter().enumerate() {
        for (i, entry) in sum.iter_mut().enumerate() {
            *entry = (*entry + times(cell, words[at + 12 * i + j])) % P;
        }
    }
    sum
}

/// Algorithm 1: the middle states and the last state.
pub fn algorithm_1(raw: &[u64], left: &[u64], right: &[u64]) -> (Vec<Vec<u64>>, Vec<u64>) {
    algorithm_1_from(raw, &[left, right, &[0; 4]].concat())
}

/// The same, from any twelve cells.
pub fn algorithm_1_from(raw: &[u64], cells: &[u64]) -> (Vec<Vec<u64>>, Vec<u64>) {
    let plus = |cells: Vec<u64>, number: usize| -> Vec<u64> {
        let at = 144 + 12 * number;
        (0..12).map(|i| (cells[i] + raw[at + i]) % P).collect()
    };
    let powers = |cells: &[u64], exponent: u64| -> Vec<u64> {
        cells.iter().map(|&x| halving_power(x, exponent)).collect()
    };
    let mut state = plus(cells.to_vec(), 0);
    let mut middles = vec![];
    for r in 0..10 {
        let roots = powers(&state, 1537228730075359915);
        let inter = plus(matrix_times(raw, 0, &roots), 2 * r + 1);
        let cubes = powers(&inter, 3);
        state = plus(matrix_times(raw, 0, &cubes), 2 * r + 2);
        middles.push(inter);
    }
    (middles, state)
}

/// The trace of 004, section 3.1, and the outputs of equation (1) after each batch:
/// that of the first 3c + 1 taps has number c - 1, and the last is that of all.
pub fn section_3_1(raw: &[u64], taps: &[u64]) -> (Vec<u64>, Vec<[u64; 4]>) {
    let taps: Vec<&[u64]> = taps.chunks(4).collect();
    let mut rows: Vec<Vec<u64>> = vec![];
    let mut outputs = vec![];
    let mut left = taps[0].to_vec();
    for (number, right) in taps.iter().enumerate().skip(1) {
        let (middles, last) = algorithm_1(raw, &left, right);
        if number % 3 == 1 {
            rows.push([&left, *right, &[0; 4]].concat());
        }
        rows.extend(middles);
        left = last[..4].to_vec();
        if number.is_multiple_of(3) {
            outputs.push(last[..4].try_into().expect("four words"));
            rows.push(last);
        }
    }
    (rows.concat(), outputs)
}

pub fn random_raw(random: &mut Random) -> Vec<u64> {
    random.canonicals(396)
}

/// The final state of each hash of a list: cells 0 to 3 of one are the first tap
/// of the next.
pub fn final_states(table: &[u64], taps: &[u64]) -> Vec<[u64; 12]> {
    let mut left = taps[..4].to_vec();
    let right = taps[4..].chunks(4);
    right
        .map(|right| {
            let words = [&left, right].concat().try_into().expect("two taps");
            let state = hash(table, words).expect("hashes");
            left = state[..4].to_vec();
            state
        })
        .collect()
}
