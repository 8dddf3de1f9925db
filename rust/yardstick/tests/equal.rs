//! The yardstick answers what `second` answers. Its refusals are compared in the
//! tests of `inputs`, case by case.

use second::field::P;
use yardstick::BOTH;

/// splitmix64 from a fixed seed.
struct Random(u64);

impl Random {
    fn word(&mut self) -> u64 {
        self.0 = self.0.wrapping_add(0x9e3779b97f4a7c15);
        let mut x = self.0;
        x = (x ^ (x >> 30)).wrapping_mul(0xbf58476d1ce4e5b9);
        x = (x ^ (x >> 27)).wrapping_mul(0x94d049bb133111eb);
        x ^ (x >> 31)
    }

    /// Below p; one in four near an end.
    fn canonical(&mut self) -> u64 {
        match self.word() % 8 {
            0 => self.word() % 4,
            1 => P - 1 - self.word() % 4,
            _ => self.word() % P,
        }
    }

    fn canonicals(&mut self, count: usize) -> Vec<u64> {
        (0..count).map(|_| self.canonical()).collect()
    }

    fn table(&mut self) -> Vec<u64> {
        let mut table = vec![0; 540];
        loop {
            if second::prepare(&self.canonicals(396), &mut table).is_ok() {
                return table;
            }
        }
    }
}

/// The words that make sums and products largest.
const ENDS: [u64; 9] = [0, 1, 2, 1 << 32, 1 << 60, 1 << 61, P / 2, P - 2, P - 1];

#[test]
fn product_and_root() {
    let mut random = Random(11);
    for a in ENDS {
        assert_eq!(yardstick::root(a), second::field::root(a), "{a}");
        for b in ENDS {
            assert_eq!(yardstick::product(a, b), second::field::mul(a, b));
        }
    }
    for _ in 0..3000 {
        let (a, b) = (random.canonical(), random.canonical());
        assert_eq!(yardstick::product(a, b), second::field::mul(a, b));
        assert_eq!(yardstick::root(a), second::field::root(a));
    }
}

#[test]
fn hash() {
    let mut random = Random(12);
    for _ in 0..30 {
        let table = random.table();
        let words = std::array::from_fn(|_| random.canonical());
        let answer = second::hash(&table, words);
        assert!(answer.is_ok());
        for yardstick in BOTH {
            assert_eq!((yardstick.hash)(&table, words), answer);
        }
    }
}

/// Row 31 of a built trace is the whole final state of its third hash, and row 0 of
/// the next batch begins with cells 0 to 3 of it.
#[test]
fn final_states() {
    let mut random = Random(15);
    let table = random.table();
    let taps = random.canonicals(28);
    for yardstick in BOTH {
        let mut trace = vec![7; 768];
        let output = (yardstick.build)(&table, &taps, &mut trace).expect("builds");
        let mut left = taps[..4].to_vec();
        for (number, right) in (1..).zip(taps[4..].chunks(4)) {
            let words = [&left, right].concat().try_into().expect("two taps");
            let state = (yardstick.hash)(&table, words).expect("hashes");
            if number % 3 == 0 {
                let end = 128 * number;
                assert_eq!(trace[end - 12..end], state, "{number}");
            }
            left = state[..4].to_vec();
        }
        assert_eq!(trace[384..388], trace[372..376]);
        assert_eq!(output[..], left);
    }
}

/// M with p - 1 everywhere but on the diagonal, and constants p - 1: the sums
/// reach their bounds.
#[test]
fn large_sums() {
    let mut raw = vec![P - 1; 396];
    for i in 0..12 {
        raw[12 * i + i] = P - 2;
    }
    let mut table = vec![0; 540];
    assert_eq!(second::prepare(&raw, &mut table), Ok(()));
    for word in ENDS {
        let answer = second::hash(&table, [word; 8]);
        assert!(answer.is_ok());
        for yardstick in BOTH {
            assert_eq!((yardstick.hash)(&table, [word; 8]), answer);
        }
    }
}

/// What the first 3c + 1 taps of a built trace chain to, from row 31 of batch c - 1.
fn output_after(trace: &[u64], c: usize) -> [u64; 4] {
    let row_31 = 384 * c - 12;
    trace[row_31..row_31 + 4].try_into().expect("four words")
}

/// Under the claim of each c.
#[test]
fn build_check_and_read_off() {
    let mut random = Random(13);
    for k in [1, 1, 2, 4, 8] {
        let table = random.table();
        let taps = random.canonicals(12 * k + 4);
        let mut trace = vec![7; 384 * k];
        let answer = second::build(&table, &taps, &mut trace);
        assert!(answer.is_ok());
        let tests = Ok(372 * k as u64);
        for yardstick in BOTH {
            let mut other = vec![8; 384 * k];
            assert_eq!((yardstick.build)(&table, &taps, &mut other), answer);
            assert_eq!(other, trace);
            for c in 1..=k {
                let claim = output_after(&trace, c);
                assert_eq!((yardstick.check)(&table, &trace, claim, c), tests);
                let mut read = vec![7; 12 * k + 4];
                let answer = (yardstick.read_off)(&table, &trace, claim, c, &mut read);
                assert_eq!(answer, tests);
                assert_eq!(read, taps);
            }
        }
    }
}

/// Check of both against `second`, which refuses, and Read-off, which writes nothing.
fn refused_alike(table: &[u64], trace: &[u64], claim: [u64; 4], c: usize, about: &str) {
    let answer = second::check(table, trace, claim, c);
    assert!(answer.is_err(), "{about}");
    for yardstick in BOTH {
        assert_eq!((yardstick.check)(table, trace, claim, c), answer, "{about}");
        let mut read = vec![7; 28];
        let other = (yardstick.read_off)(table, trace, claim, c, &mut read);
        assert_eq!(other, answer, "{about}");
        assert_eq!(read, [7; 28], "{about}");
    }
}

/// Every cell of a trace of two batches, altered alone, the claim, and c, where the
/// claim ends after the first batch and after the second.
#[test]
fn altered_traces() {
    let mut random = Random(14);
    let table = random.table();
    let mut trace = vec![0; 768];
    let taps = random.canonicals(28);
    second::build(&table, &taps, &mut trace).expect("builds");
    let claims = [1, 2].map(|c| (c, output_after(&trace, c)));
    for cell in 0..768 {
        let honest = trace[cell];
        trace[cell] = random.word() % P;
        for (c, claim) in claims {
            let about = format!("cell {cell}, c = {c}");
            refused_alike(&table, &trace, claim, c, &about);
        }
        trace[cell] = honest;
    }
    for (c, claim) in claims {
        for cell in 0..4 {
            let mut other = claim;
            other[cell] = random.word() % P;
            let about = format!("claim cell {cell}, c = {c}");
            refused_alike(&table, &trace, other, c, &about);
        }
        for c in [3 - c, 0, 3, (1 << 59) + c, usize::MAX] {
            refused_alike(&table, &trace, claim, c, &format!("c = {c}"));
        }
    }
}
