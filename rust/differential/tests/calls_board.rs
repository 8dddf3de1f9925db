//! The readers, and the short edition's writer, as C sees them: a claim's destination that
//! has not four words is refused with 8, in 8's place of the order, and nothing is written.
//! The short edition's pair with room, what they write between guards.

use differential::calls::{
    elements_with, file_with, other_file_lengths, refused, says, seeds, LENGTHS,
};
use differential::{bytes, holding, words};
use inputs::files::{short_words_of, widths, Edition};
use inputs::*;
use lemoncolumn::calls;
use second::field::P;
use second::Refusal;

/// Here 13 and 14 come before 8 at word 0 and after it at an element.
#[test]
fn unpack() {
    for seed in seeds("calls, unpack") {
        for (number, case) in unpack_cases(seed, 2000).into_iter().enumerate() {
            let length = LENGTHS[number % LENGTHS.len()];
            let about = format!("seed {seed}: {}, claim of {length}", case.name);
            let mut taps = words(case.destination);
            let mut claim = words(length);
            // SAFETY: pointers and lengths of slices; the same below.
            let code = unsafe {
                calls::lemoncolumn_unpack(
                    case.file.as_ptr(),
                    case.file.len(),
                    taps.as_mut_ptr(),
                    taps.len(),
                    claim.as_mut_ptr(),
                    claim.len(),
                )
            };
            let refusal = match case.refusal {
                Some(Refusal::Kind { word: 1.. } | Refusal::Value { word: 1.. }) => None,
                other => other,
            };
            refused(&about, code, refusal, &[&taps, &claim]);
        }
    }
}

fn call_pack_short(taps: &[u64], claim: &[u64], file: &mut [u8]) -> u64 {
    unsafe {
        calls::lemoncolumn_pack_short(
            taps.as_ptr(),
            taps.len(),
            claim[0],
            claim[1],
            claim[2],
            claim[3],
            file.as_mut_ptr(),
            file.len(),
        )
    }
}

#[test]
fn pack_short() {
    for seed in seeds("calls, pack_short") {
        for case in pack_short_cases(seed, 2000) {
            let about = format!("seed {seed}: {}", case.name);
            let taps = holding(&case.taps);
            let mut file = bytes(case.destination);
            let code = call_pack_short(&taps, &case.claim, &mut file);
            says(&about, code, case.refusal);
            assert!(taps.is_untouched(), "{about}");
            if case.refusal.is_some() {
                assert!(file.is_untouched(), "{about}");
                continue;
            }
            assert!(file.is_guarded(), "{about}");
            assert_eq!(file[..], case.file[..], "{about}");
        }
    }
}

/// Each choice of the writer's four faults at once, for lists of all widths: the first in
/// the order 5, 8, 9, 6 is answered.
#[test]
fn pack_short_with_faults_together() {
    for seed in seeds("calls, pack_short with faults together") {
        let mut random = Random::new(seed);
        for k in [1, 2, 4] {
            for (name, honest) in widths(&mut random, k) {
                for choice in 0..1 << 4 {
                    let faults: [bool; 4] = std::array::from_fn(|fault| choice >> fault & 1 == 1);
                    let about = format!("seed {seed}: k = {k}, {name}, {faults:?}");
                    packs_or_refuses(&about, &mut random, k, &honest, faults);
                }
            }
        }
    }
}

/// These elements with some of the faults of length, room, claim and taps.
fn packs_or_refuses(
    about: &str,
    random: &mut Random,
    k: usize,
    honest: &[u64],
    [length, room, claim, word]: [bool; 4],
) {
    let mut elements = honest.to_vec();
    let claim = claim.then(|| claim_word(random.spoil(&mut elements[..4])));
    let word = word.then(|| tap_word(random.spoil(&mut elements[4..])));
    let length = length.then(|| {
        elements.push(P);
        Refusal::TapLength
    });
    let no_room = room.then_some(Refusal::DestinationLength);
    let refusal = first_of(&[length, no_room, claim, word]);
    let written = inputs::files::bytes(&short_words_of(k, &elements));
    let lengths = match room {
        true => other_file_lengths(written.len(), 144 * k + 100),
        false => vec![written.len()],
    };
    for length in lengths {
        let about = format!("{about}, into {length}");
        let mut file = bytes(length);
        let code = call_pack_short(&elements[4..], &elements[..4], &mut file);
        says(&about, code, refusal);
        match refusal {
            Some(_) => assert!(file.is_untouched(), "{about}"),
            None => assert!(file.is_guarded() && file[..] == written, "{about}"),
        }
    }
}

fn call_unpack_short(file: &[u8], taps: &mut [u64], claim: &mut [u64]) -> u64 {
    unsafe {
        calls::lemoncolumn_unpack_short(
            file.as_ptr(),
            file.len(),
            taps.as_mut_ptr(),
            taps.len(),
            claim.as_mut_ptr(),
            claim.len(),
        )
    }
}

/// Here only what is wrong with word 0 comes before 8.
#[test]
fn unpack_short() {
    for seed in seeds("calls, unpack_short") {
        for (number, case) in unpack_short_cases(seed, 2000).into_iter().enumerate() {
            let length = LENGTHS[number % LENGTHS.len()];
            let about = format!("seed {seed}: {}, claim of {length}", case.name);
            let mut taps = words(case.destination);
            let mut claim = words(length);
            let code = call_unpack_short(&case.file, &mut taps, &mut claim);
            let refusal = case.refusal.filter(|refusal| match refusal {
                Refusal::FileLength => case.file.len() < 4,
                Refusal::Kind { word } | Refusal::Value { word } => *word == 0,
                _ => false,
            });
            refused(&about, code, refusal, &[&taps, &claim]);
        }
    }
}

#[test]
fn unpack_short_with_room() {
    for seed in seeds("calls, unpack_short with room") {
        for case in unpack_short_cases(seed, 4000) {
            let about = format!("seed {seed}: {}", case.name);
            let mut taps = words(case.destination);
            let mut claim = words(4);
            let code = call_unpack_short(&case.file, &mut taps, &mut claim);
            says(&about, code, case.refusal);
            let both = [&taps, &claim];
            if case.refusal.is_some() {
                assert!(both.iter().all(|lent| lent.is_untouched()), "{about}");
                continue;
            }
            assert!(both.iter().all(|lent| lent.is_guarded()), "{about}");
            assert_eq!(taps[..], case.taps[..], "{about}");
            assert_eq!(claim[..], case.claim, "{about}");
        }
    }
}

/// Each choice of the reader's nine faults at once, for files of all widths: the first in
/// the order is answered, and nothing is written.
#[test]
fn unpack_short_with_faults_together() {
    for seed in seeds("calls, unpack_short with faults together") {
        let mut random = Random::new(seed);
        for k in [1, 2, 4] {
            for (name, elements) in widths(&mut random, k) {
                for choice in 0..1 << 9 {
                    let faults: [bool; 9] = std::array::from_fn(|fault| choice >> fault & 1 == 1);
                    let about = format!("seed {seed}: k = {k}, {name}, {faults:?}");
                    unpacks_or_refuses(&about, &mut random, k, &elements, faults);
                }
            }
        }
    }
}

/// The file of these elements with some of the faults: below 4 bytes, kind and value of
/// word 0, room of the taps, room of the claim, those of elements, and an end before the
/// last one is whole or bytes after it.
fn unpacks_or_refuses(
    about: &str,
    random: &mut Random,
    k: usize,
    honest: &[u64],
    [below_4, kind, value, taps, claim, wrong_kind, no_element, long, end]: [bool; 9],
) {
    let edition = Edition::Short;
    let faults = [wrong_kind, no_element, long];
    let (elements, of_element) = elements_with(random, edition, honest, faults);
    let no_mark = value && random.one_in(3);
    let faults = [below_4, kind, no_mark, value && !no_mark, end];
    let file = file_with(random, edition.word_0(k), &elements, faults);
    let (tap_words, no_room) = lent_destination(random, 12 * k + 4, taps);
    let claim_words = if claim { random.pick(&LENGTHS) } else { 4 };
    let refusal = first_of(&[
        below_4.then_some(Refusal::FileLength),
        kind.then_some(Refusal::Kind { word: 0 }),
        value.then_some(Refusal::Value { word: 0 }),
        no_room,
        claim.then_some(Refusal::DestinationLength),
        of_element,
        end.then_some(Refusal::FileLength),
    ]);
    let mut taps = words(tap_words);
    let mut claim = words(claim_words);
    let code = call_unpack_short(&file, &mut taps, &mut claim);
    says(about, code, refusal);
    if refusal.is_some() {
        assert!(taps.is_untouched() && claim.is_untouched(), "{about}");
        return;
    }
    assert!(taps.is_guarded() && claim.is_guarded(), "{about}");
    assert_eq!([&claim[..], &taps[..]].concat(), honest, "{about}");
}
