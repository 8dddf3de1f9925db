//! A small generator of our own, so that a seed means the same everywhere:
//! xoshiro256**, its state filled by splitmix64.

use second::field::P;

#[derive(Clone, Debug)]
pub struct Random {
    state: [u64; 4],
}

/// Words below p where carries, shifts and digits go wrong first.
const CANONICAL_EDGES: [u64; 19] = [
    0,
    1,
    2,
    (1 << 21) - 1,
    1 << 21,
    (1 << 30) - 1,
    1 << 30,
    (1 << 31) - 1,
    1 << 31,
    (1 << 32) - 1,
    1 << 32,
    (1 << 42) - 1,
    1 << 42,
    (1 << 60) - 1,
    1 << 60,
    (1 << 61) - 1,
    1 << 61,
    P - 2,
    P - 1,
];

/// Words not below p that a careless test would let through.
const OTHER_EDGES: [u64; 8] = [
    P,
    P + 1,
    2 * P,
    1 << 62,
    1 << 63,
    (1 << 63) + 1,
    u64::MAX - 1,
    u64::MAX,
];

impl Random {
    pub fn new(seed: u64) -> Random {
        let mut counter = seed;
        let state = std::array::from_fn(|_| {
            counter = counter.wrapping_add(0x9e3779b97f4a7c15);
            let mut word = counter;
            word = (word ^ (word >> 30)).wrapping_mul(0xbf58476d1ce4e5b9);
            word = (word ^ (word >> 27)).wrapping_mul(0x94d049bb133111eb);
            word ^ (word >> 31)
        });
        Random { state }
    }

    /// Any word.
    pub fn word(&mut self) -> u64 {
        let s = &mut self.state;
        let word = s[1].wrapping_mul(5).rotate_left(7).wrapping_mul(9);
        let shifted = s[1] << 17;
        s[2] ^= s[0];
        s[3] ^= s[1];
        s[1] ^= s[2];
        s[0] ^= s[3];
        s[2] ^= shifted;
        s[3] = s[3].rotate_left(45);
        word
    }

    /// A number below the bound.
    pub fn below(&mut self, bound: usize) -> usize {
        (self.word() % bound as u64) as usize
    }

    pub fn one_in(&mut self, count: usize) -> bool {
        self.below(count) == 0
    }

    pub fn pick<T: Copy>(&mut self, from: &[T]) -> T {
        from[self.below(from.len())]
    }

    /// A word below p, one in eight of them at an edge.
    pub fn canonical(&mut self) -> u64 {
        if self.one_in(8) {
            self.pick(&CANONICAL_EDGES)
        } else {
            self.word() % P
        }
    }

    pub fn canonicals(&mut self, count: usize) -> Vec<u64> {
        (0..count).map(|_| self.canonical()).collect()
    }

    /// Words below p, none of them likely to be met twice.
    pub fn uniform(&mut self, count: usize) -> Vec<u64> {
        (0..count).map(|_| self.word() % P).collect()
    }

    /// From 1 to p - 1.
    pub fn unit(&mut self) -> u64 {
        self.canonical().max(1)
    }

    /// A word below 2^30.
    pub fn small(&mut self) -> u64 {
        self.canonical() % (1 << 30)
    }

    /// From 2^30 to p - 1.
    pub fn large(&mut self) -> u64 {
        self.canonical().max(1 << 30)
    }

    /// A word below p, half of them below 2^30.
    pub fn small_or_large(&mut self) -> u64 {
        if self.one_in(2) {
            self.small()
        } else {
            self.large()
        }
    }

    /// A word that is not below p, half of them at an edge.
    pub fn not_canonical(&mut self) -> u64 {
        if self.one_in(2) {
            self.pick(&OTHER_EDGES)
        } else {
            P + self.word() % (u64::MAX - P)
        }
    }

    /// The first place, the last one or any.
    pub fn place(&mut self, length: usize) -> usize {
        let any = self.below(length);
        self.pick(&[0, length - 1, any])
    }

    /// Puts one to three words that are not canonical into a list of canonical
    /// ones and answers the lowest index of them.
    pub fn spoil(&mut self, words: &mut [u64]) -> usize {
        let mut lowest = words.len();
        for _ in 0..1 + self.below(3) {
            let place = self.place(words.len());
            words[place] = self.not_canonical();
            lowest = lowest.min(place);
        }
        lowest
    }
}
