//! The order of the refusals (document 01, "What is turned back"; document 02)
//! of Prepare, Hash, Unhash, Chain and Build, and of tables and lists of taps.
//! Each test lends a call with everything wrong at once and mends one thing after
//! the other, in the order of the documents; at each step the next refusal
//! appears, and nothing that is lent changes.

mod common;
use common::faults::*;
use common::*;
use second::field::P;
use second::{build, chain, hash, pack, pack_short, prepare, unhash, Refusal};

#[test]
fn prepare_1_8_2_3() {
    let singular = vec![0; 396];
    let mut word = singular.clone();
    word[395] = P;
    word[200] = P;
    let length = vec![P; 395];
    let steps = [
        (length, 541, Err(TABLE_LENGTH)),
        (word.clone(), 541, Err(Refusal::DestinationLength)),
        (word, 540, Err(TABLE_WORD)),
        (singular, 540, Err(Refusal::NoInverse)),
        (a_raw(), 540, Ok(())),
    ];
    for (raw, words, expected) in steps {
        let mut destination = vec![7; words];
        assert_eq!(prepare(&raw, &mut destination), expected);
        let untouched = destination == vec![7; words];
        assert_eq!(untouched, expected.is_err());
    }
}

#[test]
fn hash_1_2_4_6() {
    let [length, word, cell, mended] = tables();
    let mut words = [0, 0, 0, 0, 0, P, 0, P];
    assert_eq!(hash(&length, words), Err(TABLE_LENGTH));
    assert_eq!(hash(&word, words), Err(TABLE_WORD));
    assert_eq!(hash(&cell, words), Err(INVERSE_CELL));
    assert_eq!(hash(&mended, words), Err(Refusal::TapWord { index: 5 }));
    words[5] = 0;
    assert_eq!(hash(&mended, words), Err(Refusal::TapWord { index: 7 }));
    words[7] = 0;
    let state = [1, 0, 0, 0, 0, 0, 0, 0, 0, 0, 0, 0];
    assert_eq!(hash(&mended, words), Ok(state));
}

/// Under A a final state has zeros in cells 8 to 11.
#[test]
fn unhash_1_2_4_6_16() {
    let [length, word, cell, mended] = tables();
    let mut state = [3, 0, 0, 0, P, 0, 0, 0, 0, 1, 0, u64::MAX];
    assert_eq!(unhash(&length, state), Err(TABLE_LENGTH));
    assert_eq!(unhash(&word, state), Err(TABLE_WORD));
    assert_eq!(unhash(&cell, state), Err(INVERSE_CELL));
    assert_eq!(unhash(&mended, state), Err(Refusal::TapWord { index: 4 }));
    state[4] = 0;
    assert_eq!(unhash(&mended, state), Err(Refusal::TapWord { index: 11 }));
    state[11] = 0;
    assert_eq!(unhash(&mended, state), Err(Refusal::NoPair));
    state[9] = 0;
    let pair = [2, 0, 0, 0, 0, 0, 0, 0];
    assert_eq!(unhash(&mended, state), Ok(pair));
}

/// Each choice of the five faults: the first in the order is answered.
#[test]
fn unhash_with_faults_together() {
    for choice in 0..1 << 5 {
        let has = |fault: usize| choice >> fault & 1 == 1;
        let mut table = a();
        let mut state = [3, 0, 0, 0, 0, 0, 0, 0, 0, 0, 0, 0];
        if has(2) {
            table[144 + 15] = 1;
        }
        if has(1) {
            table[200] = P;
        }
        if has(0) {
            table.pop();
        }
        if has(4) {
            state[9] = 1;
        }
        if has(3) {
            state[7] = P;
        }
        let order = [
            TABLE_LENGTH,
            TABLE_WORD,
            INVERSE_CELL,
            Refusal::TapWord { index: 7 },
            Refusal::NoPair,
        ];
        let expected = match (0..5).find(|&fault| has(fault)) {
            Some(fault) => Err(order[fault]),
            None => Ok([2, 0, 0, 0, 0, 0, 0, 0]),
        };
        assert_eq!(unhash(&table, state), expected, "{choice:05b}");
    }
}

/// Every cell is tested, with its own index; p - 1 passes.
#[test]
fn cells_that_are_not_canonical() {
    for index in 0..12 {
        let mut state = [0; 12];
        state[index] = P - 1;
        let expected = match index {
            0..=7 => {
                let mut pair = [0; 8];
                pair[index] = P - 1;
                Ok(pair)
            }
            _ => Err(Refusal::NoPair),
        };
        assert_eq!(unhash(&z(), state), expected, "p - 1 at {index}");
        let refused = Err(Refusal::TapWord {
            index: index as u64,
        });
        for word in [P, P + 1, 1 << 63, u64::MAX] {
            state[index..].fill(word);
            assert_eq!(unhash(&z(), state), refused, "{word} from {index} on");
            state[index + 1..].fill(0);
            assert_eq!(unhash(&z(), state), refused, "{word} at {index}");
        }
    }
}

#[test]
fn chain_and_build_1_2_4_5_8_6() {
    let [length, word, cell, mended] = tables();
    let mut bad_word = vec![0; 28];
    bad_word[8] = P;
    bad_word[27] = P;
    let bad_length = vec![P; 40];
    let steps = [
        (&length, &bad_length, 769, Err(TABLE_LENGTH)),
        (&word, &bad_length, 769, Err(TABLE_WORD)),
        (&cell, &bad_length, 769, Err(INVERSE_CELL)),
        (&mended, &bad_length, 769, Err(Refusal::TapLength)),
        (&mended, &bad_word, 769, Err(Refusal::DestinationLength)),
        (&mended, &bad_word, 768, Err(Refusal::TapWord { index: 8 })),
        (&mended, &vec![0; 28], 768, Ok([6, 0, 0, 0])),
    ];
    for (table, taps, words, expected) in steps {
        let mut destination = vec![7; words];
        assert_eq!(build(table, taps, &mut destination), expected);
        let untouched = destination == vec![7; words];
        assert_eq!(untouched, expected.is_err());
        if expected != Err(Refusal::DestinationLength) {
            assert_eq!(chain(table, taps), expected);
        }
    }
}

/// Lists of every permitted k pass 5, in the full writer those up to 1024, and no others
/// do: what is answered is the refusal that comes next, or 5 with all that comes next
/// wrong.
#[test]
fn lengths_of_lists() {
    let mut words = zeros((12 << 19) + 4);
    words[0] = P;
    let tap_word = Refusal::TapWord { index: 0 };
    for k in permitted() {
        let taps = &words[..12 * k + 4];
        assert_eq!(chain(&z(), taps), Err(tap_word), "{k}");
        let no_room = Refusal::DestinationLength;
        assert_eq!(build(&z(), taps, &mut [7; 383]), Err(no_room), "{k}");
        let answer = build(&z(), taps, &mut zeros(384 * k));
        assert_eq!(answer, Err(tap_word), "{k}");

        let (claim, claim_word) = ([0, P, 0, 0], Refusal::ClaimWord { index: 1 });
        assert_eq!(pack_short(taps, claim, &mut [7; 83]), Err(no_room), "{k}");
        let mut file = vec![0; 48 * k + 52]; // p has 12 bytes, here and in the claim
        assert_eq!(pack_short(taps, claim, &mut file), Err(claim_word), "{k}");
        let mut file = vec![0; 48 * k + 44];
        assert_eq!(pack_short(taps, [0; 4], &mut file), Err(tap_word), "{k}");

        let length = Refusal::TapLength;
        let is_full = IN_FULL.contains(&k);
        let refusal = if is_full { no_room } else { length };
        assert_eq!(pack(taps, claim, &mut [7; 243]), Err(refusal), "{k}");
        let refusal = if is_full { claim_word } else { length };
        let answer = pack(taps, claim, &mut vec![0; 144 * k + 100]);
        assert_eq!(answer, Err(refusal), "{k}");
    }
    for k in NOT_PERMITTED.into_iter().chain(permitted()) {
        for length in [12 * k, 12 * k + 3, 12 * k + 4, 12 * k + 5, 12 * k + 8] {
            let is_list = length == 12 * k + 4 && permitted().any(|other| other == k);
            if !is_list && length <= words.len() {
                list_refused(&words[..length]);
            }
        }
    }
}

fn list_refused(taps: &[u64]) {
    let (refused, length) = (Err(Refusal::TapLength), taps.len());
    assert_eq!(chain(&z(), taps), refused, "{length}");
    assert_eq!(build(&z(), taps, &mut [7; 383]), refused, "{length}");
    let refused = Err(Refusal::TapLength);
    assert_eq!(pack(taps, [P; 4], &mut [7; 243]), refused, "{length}");
    let answer = pack_short(taps, [P; 4], &mut [7; 83]);
    assert_eq!(answer, refused, "{length}");
}

/// The product is M times the stored inverse, cells taken row by row. Under S
/// row 4 of M picks row 3 of the inverse; the other product would differ first
/// at row 3, column 4.
#[test]
fn first_cell_unlike_the_identity() {
    let mut table = s();
    table[144 + 12 * 3 + 5] = 1;
    let refused = Err(Refusal::InverseCell { cell: 12 * 4 + 5 });
    assert_eq!(hash(&table, [0; 8]), refused);
    table[144 + 12 * 2 + 7] = 1;
    let refused = Err(Refusal::InverseCell { cell: 12 * 3 + 7 });
    assert_eq!(hash(&table, [0; 8]), refused);
}
