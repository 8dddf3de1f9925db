//! Every operation on the cases of `inputs`, refused ones included: the proved
//! library and the second implementation answer alike and leave every lent
//! buffer alike, and both answer what the case was made for.

use differential::{bytes, holding, named, same_verdict, seeds, words, Lent};
use inputs::*;
use std::fmt::Debug;

/// The answers agree, the buffers agree, and a refused call has touched nothing.
fn agree<T: PartialEq + Debug, D: Copy + PartialEq + Debug>(
    about: &str,
    proved: (Result<T, lemoncolumn::Refusal>, &Lent<D>),
    second: (Result<T, second::Refusal>, &Lent<D>),
    refusal: Option<second::Refusal>,
) {
    let (answer, left) = proved;
    assert_eq!(
        answer.as_ref().err().copied().map(named),
        refusal,
        "{about}"
    );
    if answer.is_err() {
        assert!(left.is_untouched(), "{about}: a refused call has written");
    }
    assert!(left.is_guarded(), "{about}: written beside the buffer");
    assert_eq!(left[..], second.1[..], "{about}");
    same_verdict(answer, second.0, about);
}

#[test]
fn prepare() {
    for seed in seeds("prepare") {
        for case in prepare_cases(seed, 2000) {
            let about = format!("seed {seed}: {}", case.name);
            let mut proved = words(case.destination);
            let mut other = words(case.destination);
            let raw = case.raw.clone();
            let answer = lemoncolumn::prepare(&raw, &mut proved);
            assert_eq!(raw, case.raw, "{about}");
            let second = second::prepare(&case.raw, &mut other);
            agree(&about, (answer, &proved), (second, &other), case.refusal);
            if case.refusal.is_none() {
                assert_eq!(proved[..], case.prepared[..], "{about}");
            }
        }
    }
}

#[test]
fn hash() {
    for seed in seeds("hash") {
        for case in hash_cases(seed, 2000) {
            let about = format!("seed {seed}: {}", case.name);
            let table = case.table.clone();
            let answer = lemoncolumn::hash(&table, case.words);
            assert_eq!(table, case.table, "{about}");
            let second = second::hash(&case.table, case.words);
            let none = words(0);
            agree(&about, (answer, &none), (second, &none), case.refusal);
        }
    }
}

#[test]
fn chain() {
    for seed in seeds("chain") {
        for case in chain_cases(seed, 1000) {
            let about = format!("seed {seed}: {}", case.name);
            let (table, taps) = (case.table.clone(), case.taps.clone());
            let answer = lemoncolumn::chain(&table, &taps);
            assert_eq!((&table, &taps), (&case.table, &case.taps), "{about}");
            let second = second::chain(&case.table, &case.taps);
            let none = words(0);
            agree(&about, (answer, &none), (second, &none), case.refusal);
        }
    }
}

#[test]
fn build() {
    for seed in seeds("build") {
        for case in build_cases(seed, 1000) {
            let about = format!("seed {seed}: {}", case.name);
            let mut proved = words(case.destination);
            let mut other = words(case.destination);
            let (table, taps) = (case.table.clone(), case.taps.clone());
            let answer = lemoncolumn::build(&table, &taps, &mut proved);
            assert_eq!((&table, &taps), (&case.table, &case.taps), "{about}");
            let second = second::build(&case.table, &case.taps, &mut other);
            agree(&about, (answer, &proved), (second, &other), case.refusal);
        }
    }
}

#[test]
fn check() {
    for seed in seeds("check") {
        for case in check_cases(seed, 2000) {
            let about = format!("seed {seed}: {}", case.name);
            let (table, trace) = (case.table.clone(), case.trace.clone());
            let answer = lemoncolumn::check(&table, &trace, case.claim, case.c);
            assert_eq!((&table, &trace), (&case.table, &case.trace), "{about}");
            let second = second::check(&case.table, &case.trace, case.claim, case.c);
            let none = words(0);
            agree(&about, (answer, &none), (second, &none), case.refusal);
        }
    }
}

#[test]
fn read_off() {
    for seed in seeds("read_off") {
        for case in read_off_cases(seed, 2000) {
            let about = format!("seed {seed}: {}", case.name);
            let mut proved = words(case.destination);
            let mut other = words(case.destination);
            let (table, trace) = (case.table.clone(), case.trace.clone());
            let (claim, c) = (case.claim, case.c);
            let answer = lemoncolumn::read_off(&table, &trace, claim, c, &mut proved);
            assert_eq!((&table, &trace), (&case.table, &case.trace), "{about}");
            let second = second::read_off(&case.table, &case.trace, claim, c, &mut other);
            agree(&about, (answer, &proved), (second, &other), case.refusal);
            if case.refusal.is_none() {
                assert_eq!(proved[..], case.taps[..], "{about}");
            }
        }
    }
}

#[test]
fn edit() {
    for seed in seeds("edit") {
        for case in edit_cases(seed, 2000) {
            let about = format!("seed {seed}: {}", case.name);
            let mut proved = holding(&case.trace);
            let mut other = holding(&case.trace);
            let table = case.table.clone();
            let (claim, c, tap) = (case.claim, case.c, case.tap);
            let answer = lemoncolumn::edit(&table, &mut proved, claim, c, tap, case.new);
            assert_eq!(table, case.table, "{about}");
            let second = second::edit(&case.table, &mut other, claim, c, tap, case.new);
            agree(&about, (answer, &proved), (second, &other), case.refusal);
            if case.refusal.is_none() {
                assert_eq!(answer, Ok(case.output), "{about}");
                assert_eq!(proved[..], case.altered[..], "{about}");
            }
        }
    }
}

#[test]
fn unhash() {
    for seed in seeds("unhash") {
        for case in unhash_cases(seed, 2000) {
            let about = format!("seed {seed}: {}", case.name);
            let table = case.table.clone();
            let answer = lemoncolumn::unhash(&table, case.state);
            assert_eq!(table, case.table, "{about}");
            let second = second::unhash(&case.table, case.state);
            let none = words(0);
            agree(&about, (answer, &none), (second, &none), case.refusal);
            if case.refusal.is_none() {
                assert_eq!(answer, Ok(case.pair), "{about}");
            }
        }
    }
}

#[test]
fn pack() {
    for seed in seeds("pack") {
        for case in pack_cases(seed, 4000) {
            let about = format!("seed {seed}: {}", case.name);
            let mut proved = bytes(case.destination);
            let mut other = bytes(case.destination);
            let taps = case.taps.clone();
            let answer = lemoncolumn::pack(&taps, case.claim, &mut proved);
            assert_eq!(taps, case.taps, "{about}");
            let second = second::pack(&case.taps, case.claim, &mut other);
            agree(&about, (answer, &proved), (second, &other), case.refusal);
            if case.refusal.is_none() {
                assert_eq!(proved[..], case.file[..], "{about}");
            }
        }
    }
}

#[test]
fn unpack() {
    for seed in seeds("unpack") {
        for case in unpack_cases(seed, 8000) {
            let about = format!("seed {seed}: {}", case.name);
            let mut proved = words(case.destination);
            let mut other = words(case.destination);
            let file = case.file.clone();
            let answer = lemoncolumn::unpack(&file, &mut proved);
            assert_eq!(file, case.file, "{about}");
            let second = second::unpack(&case.file, &mut other);
            agree(&about, (answer, &proved), (second, &other), case.refusal);
            if case.refusal.is_none() {
                assert_eq!(answer, Ok(case.claim), "{about}");
                assert_eq!(proved[..], case.taps[..], "{about}");
            }
        }
    }
}

#[test]
fn pack_short() {
    for seed in seeds("pack_short") {
        for case in pack_short_cases(seed, 4000) {
            let about = format!("seed {seed}: {}", case.name);
            let mut proved = bytes(case.destination);
            let mut other = bytes(case.destination);
            let taps = case.taps.clone();
            let answer = lemoncolumn::pack_short(&taps, case.claim, &mut proved);
            assert_eq!(taps, case.taps, "{about}");
            let second = second::pack_short(&case.taps, case.claim, &mut other);
            agree(&about, (answer, &proved), (second, &other), case.refusal);
            if case.refusal.is_none() {
                assert_eq!(proved[..], case.file[..], "{about}");
            }
        }
    }
}

#[test]
fn unpack_short() {
    for seed in seeds("unpack_short") {
        for case in unpack_short_cases(seed, 8000) {
            let about = format!("seed {seed}: {}", case.name);
            let mut proved = words(case.destination);
            let mut other = words(case.destination);
            let file = case.file.clone();
            let answer = lemoncolumn::unpack_short(&file, &mut proved);
            assert_eq!(file, case.file, "{about}");
            let second = second::unpack_short(&case.file, &mut other);
            agree(&about, (answer, &proved), (second, &other), case.refusal);
            if case.refusal.is_none() {
                assert_eq!(answer, Ok(case.claim), "{about}");
                assert_eq!(proved[..], case.taps[..], "{about}");
            }
        }
    }
}

/// A converter of the proved library beside that of the second implementation.
fn convert(
    test: &str,
    cases: fn(u64, usize) -> Vec<ConvertCase>,
    proved_converter: fn(&[u8], &mut [u8]) -> Result<(), lemoncolumn::Refusal>,
    second_converter: fn(&[u8], &mut [u8]) -> Result<(), second::Refusal>,
) {
    for seed in seeds(test) {
        for case in cases(seed, 8000) {
            let about = format!("seed {seed}: {}", case.name);
            let mut proved = bytes(case.destination);
            let mut other = bytes(case.destination);
            let file = case.file.clone();
            let answer = proved_converter(&file, &mut proved);
            assert_eq!(file, case.file, "{about}");
            let second = second_converter(&case.file, &mut other);
            agree(&about, (answer, &proved), (second, &other), case.refusal);
            if case.refusal.is_none() {
                assert_eq!(proved[..], case.converted[..], "{about}");
            }
        }
    }
}

#[test]
fn to_short() {
    convert(
        "to_short",
        to_short_cases,
        lemoncolumn::to_short,
        second::to_short,
    );
}

#[test]
fn to_full() {
    convert(
        "to_full",
        to_full_cases,
        lemoncolumn::to_full,
        second::to_full,
    );
}
