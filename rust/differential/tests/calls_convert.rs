//! The converters as C sees them, what they write between guards.

use differential::bytes;
use differential::calls::{elements_with, file_with, other_file_lengths, says, seeds};
use inputs::files::{widths, Edition, LARGER};
use inputs::*;
use lemoncolumn::calls;
use second::Refusal;

/// The converter that starts from this edition.
fn call_converter(from: Edition, file: &[u8], converted: &mut [u8]) -> u64 {
    let call = match from {
        Edition::Full => calls::lemoncolumn_to_short,
        Edition::Short => calls::lemoncolumn_to_full,
    };
    // SAFETY: pointers and lengths of slices.
    unsafe {
        call(
            file.as_ptr(),
            file.len(),
            converted.as_mut_ptr(),
            converted.len(),
        )
    }
}

/// What is answered and written into so many bytes.
fn converts(about: &str, from: Edition, case: &ConvertCase) {
    let mut converted = bytes(case.destination);
    let code = call_converter(from, &case.file, &mut converted);
    says(about, code, case.refusal);
    if case.refusal.is_some() {
        assert!(converted.is_untouched(), "{about}");
        return;
    }
    assert!(converted.is_guarded(), "{about}");
    assert_eq!(converted[..], case.converted[..], "{about}");
}

#[test]
fn to_short() {
    for seed in seeds("calls, to_short") {
        for case in to_short_cases(seed, 4000) {
            let about = format!("seed {seed}: {}", case.name);
            converts(&about, Edition::Full, &case);
        }
    }
}

#[test]
fn to_full() {
    for seed in seeds("calls, to_full") {
        for case in to_full_cases(seed, 4000) {
            let about = format!("seed {seed}: {}", case.name);
            converts(&about, Edition::Short, &case);
        }
    }
}

/// Each choice of the converter's eight faults at once, for files of all widths: the first
/// in the order is answered, and nothing is written.
#[test]
fn to_short_with_faults_together() {
    for seed in seeds("calls, to_short with faults together") {
        converters_faults_together(seed, Edition::Full, 8);
    }
}

/// The same of ten: a short file can have three words for a small element, and more
/// batches than any full one (document 02, U9).
#[test]
fn to_full_with_faults_together() {
    for seed in seeds("calls, to_full with faults together") {
        converters_faults_together(seed, Edition::Short, 10);
    }
}

fn converters_faults_together(seed: u64, from: Edition, count: usize) {
    let mut random = Random::new(seed);
    for k in [1, 2, 4] {
        for (name, elements) in widths(&mut random, k) {
            for choice in 0..1 << count {
                let faults: [bool; 10] = std::array::from_fn(|fault| choice >> fault & 1 == 1);
                let about = format!("seed {seed}: k = {k}, {name}, {faults:?}");
                converts_or_refuses(&about, &mut random, from, &elements, faults);
            }
        }
    }
}

/// The file of these elements with some of the faults: below 4 bytes, kind, mark and value
/// of word 0, its end; kinds, values and widths of elements, room; more batches than a full
/// file has. The end of a full file is looked at before the elements, that of a short one
/// after them.
fn converts_or_refuses(
    about: &str,
    random: &mut Random,
    from: Edition,
    honest: &[u64],
    [below_4, kind, mark, value, end, wrong_kind, no_element, room, long, larger]: [bool; 10],
) {
    let faults = [wrong_kind, no_element, long];
    let (elements, of_element) = elements_with(random, from, honest, faults);
    let faults = [below_4, kind, mark, value, end];
    let word_0 = match larger {
        true => from.word_0(random.pick(&LARGER)),
        false => from.word_0(honest.len() / 12),
    };
    let file = file_with(random, word_0, &elements, faults);
    let of_end = end.then_some(Refusal::FileLength);
    let of_elements = match from {
        Edition::Full => [of_end, of_element],
        Edition::Short => [of_element, of_end],
    };
    let refusal = first_of(&[
        below_4.then_some(Refusal::FileLength),
        kind.then_some(Refusal::Kind { word: 0 }),
        mark.then_some(Refusal::SameEdition),
        (value || larger).then_some(Refusal::Value { word: 0 }),
        of_elements[0],
        of_elements[1],
        room.then_some(Refusal::DestinationLength),
    ]);
    let converted = from.other().file(honest);
    let lengths = match room {
        true => other_file_lengths(converted.len(), from.file(honest).len()),
        false => vec![converted.len()],
    };
    let mut case = ConvertCase {
        name: String::from(about),
        file,
        destination: 0,
        refusal,
        converted,
        claim: [0; 4],
        taps: vec![],
    };
    for length in lengths {
        case.destination = length;
        converts(&format!("{about}, into {length}"), from, &case);
    }
}
