//! What a caller works out without a call, against documents 01 and 02: what a returned
//! word says, k and length of a file.

mod common;
use common::files::*;
use common::*;
use second::caller::{
    batches, short_batches, shortest_file_bytes, to_full_bytes, to_short_bytes, Parts,
};

/// A returned word is the sum of its parts, each times the first power of two of its bits.
#[test]
fn a_returned_word_is_its_parts() {
    let mut random = Random(40);
    for _ in 0..1000 {
        let parts = Parts {
            number: random.word() >> 58,
            constraint: random.word() >> 58,
            row: random.word() >> 40,
            value: random.word() >> 36,
        };
        let (number, constraint) = (parts.number, parts.constraint << 6);
        let word = number + constraint + (parts.row << 12) + (parts.value << 36);
        assert_eq!(Parts::of(word), parts, "{word:x}");
    }
}

/// Each number of document 01's table and of document 02, with what is returned beside it.
#[test]
fn what_returned_words_say() {
    for number in 0..64 {
        let parts = Parts {
            number,
            constraint: 49,
            row: 31,
            value: 369,
        };
        let place: &[u64] = match number {
            2 | 4 | 6 | 9 | 10 | 13 | 14 | 18 => &[369],
            11 => &[31, 49],
            _ => &[],
        };
        match parts.answer() {
            Some(Err(refusal)) => {
                assert!((1..=19).contains(&number));
                assert_eq!((refusal.number(), &refusal.place()[..]), (number, place));
            }
            Some(Ok(tests)) => assert_eq!((number, tests), (0, 369)),
            None => assert!(number > 19),
        }
    }
    let failed = 11 + (49 << 6) + (31 << 12) + (369 << 36);
    let answer = Parts::of(failed).answer().expect("a refusal");
    assert_eq!(failed_at(answer), (31, 49, 369));
}

/// What a caller works out of a file is what was packed; of zeros it is the shortest.
#[test]
fn lengths_that_a_caller_works_out() {
    let mut random = Random(41);
    for k in IN_FULL {
        let [full, short] = both_editions(&mut random, k);
        assert_eq!(batches(full.len()), Some(k));
        assert_eq!(short_batches(&short), Some(k));
        assert_eq!(to_short_bytes(&full), Some(short.len()), "k = {k}");
        assert_eq!(to_full_bytes(&short), Some(full.len()), "k = {k}");
        assert_eq!(
            [batches(full.len() + 1), batches(full.len() - 1)],
            [None; 2]
        );
        assert_eq!([to_short_bytes(&short), to_full_bytes(&full)], [None; 2]);
        assert_eq!(short_batches(&full), None);
        let zeros = short_file(&vec![0; 12 * k + 4], [0; 4]);
        assert_eq!(shortest_file_bytes(k), zeros.len());
    }
    for k in [2048, 262144] {
        let short = short_head(k);
        assert_eq!(short_batches(&short), Some(k));
        assert_eq!(to_full_bytes(&short), None);
        assert_eq!(batches(144 * k + 100), None);
    }
}
