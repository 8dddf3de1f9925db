//! What the Rust crate works out by itself, without a call of the library, beside
//! `second`: what a returned word says, sizes, and k and length of a file. tests/header.sh
//! asks the same of the header for C.

use differential::{named, seeds};
use inputs::caller::{counts, files, lists, words};
use lemoncolumn::*;
use second::caller::{self, Parts};

/// How many of each kind are at random.
const RANDOM: usize = 20000;

/// Those whose number is 0 or a refusal's; no call returns another.
#[test]
fn returned_words() {
    for seed in seeds("returned words") {
        for word in words(seed, RANDOM) {
            if let Some(answer) = Parts::of(word).answer() {
                let about = format!("seed {seed}: {word:x}");
                assert_eq!(decode(word).map_err(named), answer, "{about}");
            }
        }
    }
}

/// Number, index and line of a refusal, the place being that of the second implementation.
#[test]
fn lines_of_refusals() {
    for seed in seeds("lines of refusals") {
        for word in words(seed, RANDOM) {
            let Some(Err(expected)) = Parts::of(word).answer() else {
                continue;
            };
            let refusal = decode(word).expect_err("a refusal");
            assert_eq!(refusal.number(), expected.number(), "{word:x}");
            let place = expected.place();
            let index = (place.len() == 1).then(|| place[0]);
            assert_eq!(refusal.index(), index, "{word:x}");
            let numbers = [vec![expected.number()], place].concat();
            let numbers: String = numbers.iter().map(|number| format!(" {number}")).collect();
            assert_eq!(refusal.to_string(), format!("refused{numbers}"));
        }
    }
}

#[test]
fn sizes() {
    assert_eq!(P, second::field::P);
    assert_eq!(RAW_WORDS, second::table::RAW);
    assert_eq!(RAW_BYTES, second::program::TABLE_BYTES);
    assert_eq!(TABLE_WORDS, second::table::PREPARED);
    assert_eq!(STATE_WORDS, second::table::CELLS);
    assert_eq!(PAIR_WORDS, 2 * second::hash::TAP);
    assert_eq!(MOST_BATCHES, second::hash::MOST_BATCHES);
    assert_eq!(MOST_FILE_BATCHES, second::board::MOST_FULL_BATCHES);
    for k in counts() {
        assert_eq!(tap_words(k), second::hash::list_words(k), "k = {k}");
        assert_eq!(trace_words(k), second::trace::trace_words(k), "k = {k}");
        assert_eq!(file_bytes(k), second::board::file_bytes(k), "k = {k}");
    }
}

#[test]
fn lengths_of_lists() {
    for seed in seeds("lengths of lists") {
        for list in lists(seed, RANDOM) {
            let taps = list.taps();
            let bytes = second::short::short_file_bytes(&taps, list.claim);
            assert_eq!(short_file_bytes(&taps, list.claim), bytes, "{list:?}");
        }
    }
}

#[test]
fn k_and_lengths_of_files() {
    for seed in seeds("k and lengths of files") {
        for lent in files(seed, RANDOM) {
            let file = &lent.bytes();
            let of_length = caller::batches(file.len());
            assert_eq!(batches(file.len()), of_length, "{lent:?}");
            assert_eq!(short_batches(file), caller::short_batches(file), "{lent:?}");
            let bytes = caller::to_short_bytes(file);
            assert_eq!(to_short_bytes(file), bytes, "{lent:?}");
            assert_eq!(to_full_bytes(file), caller::to_full_bytes(file), "{lent:?}");
        }
    }
}
