//! What the tests of the calls as C sees them share: what a returned word must say, and
//! what is lent with something wrong.

use crate::{named, Lent};
use inputs::files::{damage_word_0, element_words, not_an_element, Damaged, Edition, KIND};
use inputs::tables::first_unlike_identity;
use inputs::{first_of, table_word, Random};
use lemoncolumn::{calls, INTERFACE};
use second::field::{add, P};
use second::Refusal;

/// The seeds of a test, once it is known that the library takes these calls as
/// they are declared: nothing else compares the numbers here.
pub fn seeds(test: &str) -> impl Iterator<Item = u64> {
    // SAFETY: it takes nothing.
    assert_eq!(unsafe { calls::lemoncolumn_interface() }, INTERFACE);
    crate::seeds(test)
}

/// The refusals that come before 8 (document 01, "What is turned back"; document
/// 02 has 15 and 17 there).
pub fn before_8(refusal: Option<Refusal>) -> bool {
    matches!(
        refusal.map(Refusal::number),
        Some(1 | 2 | 4 | 5 | 7 | 8 | 12 | 13 | 14 | 15 | 17)
    )
}

/// What the call must answer where the destination has another length.
pub fn expected(refusal: Option<Refusal>) -> Option<Refusal> {
    if before_8(refusal) {
        refusal
    } else {
        Some(Refusal::DestinationLength)
    }
}

/// What the returned word says: this, and nothing in its other bits (the end of
/// include/lemoncolumn.h). Where it accepts, the tests are 0 for a call that has none.
pub fn says_tests(about: &str, code: u64, answer: Result<u64, Refusal>) {
    let said = lemoncolumn::decode(code).map_err(named);
    assert_eq!(said, answer, "{about}");
    let number = answer.map_or_else(Refusal::number, |_| 0);
    let (constraint, row, value) = match answer {
        Err(Refusal::Constraint {
            row,
            constraint,
            tests,
        }) => (constraint, row, tests),
        Err(other) => (0, 0, other.place().first().copied().unwrap_or(0)),
        Ok(tests) => (0, 0, tests),
    };
    let word = number | constraint << 6 | row << 12 | value << 36;
    assert_eq!(code, word, "{about}: other bits");
}

/// The same of a call that has no tests.
pub fn says(about: &str, code: u64, refusal: Option<Refusal>) {
    says_tests(about, code, refusal.map_or(Ok(0), Err));
}

/// Lengths other than a digest's four.
pub const LENGTHS: [usize; 7] = [0, 1, 3, 5, 8, 12, 540];

pub fn refused(about: &str, code: u64, refusal: Option<Refusal>, lent: &[&Lent<u64>]) {
    says(about, code, expected(refusal));
    assert!(lent.iter().all(|buffer| buffer.is_untouched()), "{about}");
}

/// A table with some of its three faults, and the refusal that comes first.
pub fn table_with(
    random: &mut Random,
    good: &[u64],
    [length, word, inverse]: [bool; 3],
) -> (Vec<u64>, Option<Refusal>) {
    let mut table = good.to_vec();
    // From the last to the first, since a fault hides those after it.
    let inverse = inverse.then(|| {
        let at = 144 + random.below(144);
        table[at] = add(table[at], random.unit());
        let cell = first_unlike_identity(&table).expect("altered") as u64;
        Refusal::InverseCell { cell }
    });
    let word = word.then(|| table_word(random.spoil(&mut table)));
    let length = length.then(|| {
        table.push(P);
        Refusal::TableLength
    });
    let refusal = first_of(&[length, word, inverse]);
    (table, refusal)
}

/// Lengths other than the exact one of a file: a byte off, one to three words off, those
/// of no elements, and the other edition's.
pub fn other_file_lengths(exact: usize, other_edition: usize) -> Vec<usize> {
    let near = [1, 4, 8, 12].map(|off| [exact - off, exact + off]);
    let mut others = near.concat();
    others.extend([0, 4, other_edition]);
    others.retain(|&length| length != exact);
    others
}

/// An element one of whose kinds is wrong, and which of its words that is. Its value may
/// be wrong too, or need fewer words: the kinds come first.
pub fn wrong_kind(random: &mut Random, edition: Edition, honest: u64) -> (Vec<u32>, u64) {
    let small = random.small();
    let no_element = not_an_element(random);
    let mut words = match random.below(3) {
        0 => edition.element(honest),
        1 => element_words(small as u128).to_vec(),
        _ => element_words(no_element).to_vec(),
    };
    let place = random.below(words.len());
    // A first word of kind 1 begins an element, in the short edition one of kind 3 too.
    let kind = match place {
        0 if edition == Edition::Full => random.pick(&[0, 2, 3]),
        0 => random.pick(&[0, 2]),
        1 => random.pick(&[0, 1, 3]),
        _ => random.pick(&[0, 1, 2]),
    };
    words[place] = kind * KIND + words[place] % KIND;
    (words, place as u64)
}

/// The words of the elements where up to three of them, not the last, have one of three
/// faults each: a wrong kind, a value that is not canonical, three words for one. The
/// refusal is that of the first.
pub fn elements_with(
    random: &mut Random,
    edition: Edition,
    elements: &[u64],
    [kind, value, long]: [bool; 3],
) -> (Vec<u32>, Option<Refusal>) {
    let mut written: Vec<Vec<u32>> = elements.iter().map(|&e| edition.element(e)).collect();
    let mut refusals = vec![];
    // Distinct places in any order: thirds of the list, turned.
    let third = (elements.len() - 1) / 3;
    let turn = random.below(3);
    let places = [0, 1, 2].map(|part| (part + turn) % 3 * third);
    let places = places.map(|start| start + random.below(third));
    if kind {
        let (words, wrong) = wrong_kind(random, edition, elements[places[0]]);
        written[places[0]] = words;
        refusals.push((places[0], Refusal::Kind { word: wrong }));
    }
    if value {
        written[places[1]] = element_words(not_an_element(random)).to_vec();
        refusals.push((places[1], Refusal::Value { word: 0 }));
    }
    if long {
        written[places[2]] = element_words(random.small() as u128).to_vec();
        refusals.push((places[2], Refusal::LongElement { word: 0 }));
    }
    let first = refusals.into_iter().min_by_key(|(place, _)| *place);
    let refusal = first.map(|(place, refusal)| {
        let before: usize = written[..place].iter().map(Vec::len).sum();
        let first_word = 1 + before as u64;
        match refusal {
            Refusal::Kind { word } => Refusal::Kind {
                word: first_word + word,
            },
            Refusal::Value { .. } => Refusal::Value { word: first_word },
            _ => Refusal::LongElement { word: first_word },
        }
    });
    (written.concat(), refusal)
}

/// The bytes of a file with some of five faults: below 4 bytes; word 0's kind; the other
/// edition's mark there; a spare bit, or a k that is not permitted; an end before the last
/// element is whole or after it.
pub fn file_with(
    random: &mut Random,
    mut word_0: u32,
    elements: &[u32],
    [below_4, kind, mark, head, end]: [bool; 5],
) -> Vec<u8> {
    let damaged = Damaged {
        kind,
        mark,
        head,
        ..Damaged::default()
    };
    damage_word_0(random, &mut word_0, damaged);
    let mut file = inputs::files::bytes(&[&[word_0], elements].concat());
    if end {
        let length = file.len();
        let others = [length - 4, length - 1, length + 1, length + 4];
        file.resize(random.pick(&others), 0xc0);
    }
    if below_4 {
        file.truncate(random.below(4));
    }
    file
}
