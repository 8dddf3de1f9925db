//! Document 01's known days, with cells 4 to 11 of the hashes (document 02, U3), the
//! counts of refusal 11 (U4), edits, pairs found again (U5), claims that end before the
//! rows do (U6), short files (U7), files converted (U8), and a season of 2048 batches (U9),
//! worked out by hand, through the safe calls.

use lemoncolumn::*;

/// M with ones at column (i + shift) mod 12 of row i, and K_0[0] = first.
fn table(shift: usize, first: u64) -> [u64; TABLE_WORDS] {
    let mut raw = [0; RAW_WORDS];
    for i in 0..12 {
        raw[12 * i + (i + shift) % 12] = 1;
    }
    raw[144] = first;
    let mut table = [0; TABLE_WORDS];
    assert_eq!(prepare(&raw, &mut table), Ok(()));
    table
}

/// Under Z the final state is the input, under A the input plus K_0. S moves each
/// cell one up at every step, and there are twenty: eight up.
#[test]
fn hashes_and_chains() {
    let (z, a, s) = (table(0, 0), table(0, 1), table(11, 0));
    for (table, words, state) in [
        (
            &z,
            [8, 27, 1, 0, 0, 0, 0, 0],
            [8, 27, 1, 0, 0, 0, 0, 0, 0, 0, 0, 0],
        ),
        (
            &z,
            [P - 1, 2, 3, 4, 5, 6, 7, P - 1],
            [P - 1, 2, 3, 4, 5, 6, 7, P - 1, 0, 0, 0, 0],
        ),
        (&a, [0; 8], [1, 0, 0, 0, 0, 0, 0, 0, 0, 0, 0, 0]),
        (
            &a,
            [P - 1, 0, 0, 0, 1, 2, 3, 4],
            [0, 0, 0, 0, 1, 2, 3, 4, 0, 0, 0, 0],
        ),
        (
            &s,
            [1, 2, 3, P - 1, 5, 6, 7, 9],
            [5, 6, 7, 9, 0, 0, 0, 0, 1, 2, 3, P - 1],
        ),
    ] {
        assert_eq!(hash(table, words), Ok(state), "{words:?}");
        assert_eq!(unhash(table, state), Ok(words), "{state:?}");
    }
    assert_eq!(chain(&a, &[0; 16]), Ok([3, 0, 0, 0]));
}

/// A day of two batches under S: each hash ends in its second tap, four zeros and
/// its first, which is the output of the one before. Both are found again from row 31.
#[test]
fn final_states() {
    let s = table(11, 0);
    let taps: Vec<u64> = (1..=28).collect();
    let mut trace = [7; 768];
    let output = [25, 26, 27, 28];
    assert_eq!(build(&s, &taps, &mut trace), Ok(output));
    assert_eq!(chain(&s, &taps), Ok(output));
    for (row, third, words) in [
        (
            31,
            [13, 14, 15, 16, 0, 0, 0, 0, 9, 10, 11, 12],
            [9, 10, 11, 12, 13, 14, 15, 16],
        ),
        (
            63,
            [25, 26, 27, 28, 0, 0, 0, 0, 21, 22, 23, 24],
            [21, 22, 23, 24, 25, 26, 27, 28],
        ),
    ] {
        assert_eq!(trace[12 * row..12 * row + 12], third, "row {row}");
        assert_eq!(hash(&s, words), Ok(third), "row {row}");
        assert_eq!(unhash(&s, third), Ok(words), "row {row}");
    }
}

/// Under Z and A the four zeros of an input end in cells 8 to 11, under S in cells 4
/// to 7. A state with anything else there has no pair. All zeros have one, whose first
/// word makes up for K_0[0] = 1 under A.
#[test]
fn states_without_a_pair() {
    for (table, zeros, word_0) in [
        (table(0, 0), 8..12, 0),
        (table(0, 1), 8..12, P - 1),
        (table(11, 0), 4..8, 0),
    ] {
        for cell in zeros {
            for word in [1, P - 1] {
                let mut state = [0; STATE_WORDS];
                state[cell] = word;
                let unhashed = unhash(&table, state);
                assert_eq!(unhashed, Err(Refusal::NoPair), "{word} in {cell}");
            }
        }
        let mut pair = [0; PAIR_WORDS];
        pair[0] = word_0;
        assert_eq!(unhash(&table, [0; STATE_WORDS]), Ok(pair));
    }
}

/// Each fault with those after it, in the order the table's refusals, 6, 16.
#[test]
fn refused_unhashes() {
    let z = table(0, 0);
    let bad = [P; STATE_WORDS];
    let mut wrong = z;
    wrong[144 + 15] = 1;
    let unhashed = unhash(&wrong, bad);
    assert_eq!(unhashed, Err(Refusal::WrongInverse { cell: 15 }));
    wrong[539] = P;
    let unhashed = unhash(&wrong, bad);
    assert_eq!(unhashed, Err(Refusal::TableWord { index: 539 }));
    let unhashed = unhash(&wrong[1..], bad);
    assert_eq!(unhashed, Err(Refusal::TableLength));
    for index in 0..STATE_WORDS {
        let mut state = [1; STATE_WORDS];
        state[index..].fill(P);
        let refused = Err(Refusal::TapWord {
            index: index as u64,
        });
        assert_eq!(unhash(&z, state), refused, "{index}");
    }
    let unhashed = unhash(&z, [1; STATE_WORDS]);
    assert_eq!(unhashed, Err(Refusal::NoPair));
}

/// 24580 words, 2048 batches, get 5 from the full edition's writer alone (document 02, U9).
#[test]
fn lengths_and_words() {
    let z = table(0, 0);
    let (passed, refused) = (Ok([0; 4]), Err(Refusal::TapLength));
    for (words, chained, packed) in [
        (16, passed, true),
        (0, refused, false),
        (15, refused, false),
        (40, refused, false),
        (12292, passed, true),
        (24580, passed, false),
        (24579, refused, false),
        (24581, refused, false),
        (36868, refused, false),
    ] {
        let taps = vec![0; words];
        assert_eq!(chain(&z, &taps), chained, "{words}");
        let mut trace = vec![7; words / 12 * 384];
        assert_eq!(build(&z, &taps, &mut trace), chained, "{words}");
        // Into no room: 8 comes after 5.
        let refusal = match packed {
            true => Refusal::DestinationLength,
            false => Refusal::TapLength,
        };
        assert_eq!(pack(&taps, [P; 4], &mut []), Err(refusal), "{words}");
    }
    assert!(hash(&z, [P - 1; 8]).is_ok());
    assert_eq!(hash(&z, [P; 8]), Err(Refusal::TapWord { index: 0 }));
    let mut kept = [7; TABLE_WORDS];
    assert_eq!(prepare(&[0; RAW_WORDS], &mut kept), Err(Refusal::NoInverse));
    assert_eq!(kept, [7; TABLE_WORDS]);
}

/// Refusal 11 with row, constraint and count.
fn eleven(row: u64, constraint: u64, tests: u64) -> Refusal {
    Refusal::Constraint {
        row,
        constraint,
        tests,
    }
}

/// The counts are the failing tests' places (document 02, U4), worked out by hand:
/// 132 tests come before row 11, 356 before row 30, 368 before row 31.
#[test]
fn traces() {
    let z = table(0, 0);
    let zero = [0; 384];
    assert_eq!(check(&z, &zero, [0; 4], 1), Ok(372));
    let refused = check(&z, &zero, [1, 0, 0, 0], 1);
    assert_eq!(refused, Err(eleven(31, 49, 369)));
    let refused = read_off(&z, &zero, [1, 0, 0, 0], 1, &mut [7; 16]);
    assert_eq!(refused, Err(eleven(31, 49, 369)));
    for (row, column, refusal) in [
        (0, 8, eleven(0, 1, 1)),
        (31, 5, eleven(30, 38, 362)),
        (11, 5, eleven(11, 26, 138)),
    ] {
        let mut trace = zero;
        trace[12 * row + column] = 1;
        let altered = trace;
        assert_eq!(check(&z, &trace, [0; 4], 1), Err(refusal), "{row}");
        let mut taps = [7; 16];
        let refused = read_off(&z, &trace, [0; 4], 1, &mut taps);
        assert_eq!(refused, Err(refusal), "{row}");
        assert_eq!(taps, [7; 16], "{row}");
        let refused = edit(&z, &mut trace, [0; 4], 1, 2, [0, 1, 0, 0]);
        assert_eq!(refused, Err(refusal), "{row}");
        assert_eq!(trace, altered, "{row}");
    }
    let mut trace = zero;
    for row in 11..=20 {
        trace[12 * row + 5] = 1;
    }
    let mut taps = [7; 16];
    assert_eq!(read_off(&z, &trace, [0; 4], 1, &mut taps), Ok(372));
    assert_eq!(taps, [0, 0, 0, 0, 0, 0, 0, 0, 0, 1, 0, 0, 0, 0, 0, 0]);
}

/// Under Z a round is a root and then a cube. So the final state of a hash is its input,
/// its first tap goes on, and its ten rows hold the roots of its input: rows 1 to 10, 11 to
/// 20 and 21 to 30 have w_0 in columns 0 to 3, and w_1, w_2 and w_3 in columns 4 to 7. Row
/// 31 is the last input again. The edit of tap 2 is the known day above.
#[test]
fn edits() {
    let z = table(0, 0);
    let (first, last) = ([8, 0, 0, 0], [0, 0, 0, P - 1]);
    for (tap, new, cells, output) in [
        (
            0,
            first,
            vec![(0..1, 0, 8), (1..31, 0, 2), (31..32, 0, 8)],
            first,
        ),
        (1, [0, 0, 27, 0], vec![(0..1, 6, 27), (1..11, 6, 3)], [0; 4]),
        (2, [0, 1, 0, 0], vec![(11..21, 5, 1)], [0; 4]),
        (3, last, vec![(21..32, 7, P - 1)], [0; 4]),
    ] {
        let mut expected = [0; 384];
        for (rows, column, cell) in cells {
            rows.for_each(|row| expected[12 * row + column] = cell);
        }
        let mut trace = [0; 384];
        let edited = edit(&z, &mut trace, [0; 4], 1, tap, new);
        assert_eq!(edited, Ok(output), "{tap}");
        assert_eq!(trace, expected, "{tap}");
        let edited = edit(&z, &mut trace, output, 1, tap, new);
        assert_eq!(edited, Ok(output), "{tap}");
        assert_eq!(trace, expected, "{tap}: by the same tap");
        assert_eq!(edit(&z, &mut trace, output, 1, tap, [0; 4]), Ok([0; 4]));
        assert_eq!(trace, [0; 384], "{tap}: and back");
    }
}

/// Under A each of the three hashes adds 1 to cell 0 of w_0. Under S the output is
/// the last tap.
#[test]
fn outputs_of_edits() {
    let new = [5, 6, 7, 9];
    let (a, s) = (table(0, 1), table(11, 0));
    for (table, taps, outputs) in [
        (
            a,
            [0; 16],
            [[8, 6, 7, 9], [3, 0, 0, 0], [3, 0, 0, 0], [3, 0, 0, 0]],
        ),
        (s, [1; 16], [[1; 4], [1; 4], [1; 4], new]),
    ] {
        let mut built = [0; 384];
        let claim = build(&table, &taps, &mut built).expect("built");
        for (tap, output) in outputs.into_iter().enumerate() {
            let mut trace = built;
            let edited = edit(&table, &mut trace, claim, 1, tap, new);
            assert_eq!(edited, Ok(output), "{tap}");
        }
    }
}

#[test]
fn refused_edits() {
    let z = table(0, 0);
    let mut trace = [0; 384];
    for tap in [4, 1 << 32, usize::MAX] {
        let edited = edit(&z, &mut trace, [P; 4], 1, tap, [P; 4]);
        assert_eq!(edited, Err(Refusal::NoSuchTap), "{tap}");
    }
    let edited = edit(&z, &mut trace, [0; 4], 1, 3, [0, 0, P, P]);
    assert_eq!(edited, Err(Refusal::TapWord { index: 2 }));
    let edited = edit(&z, &mut trace, [1, 0, 0, 0], 1, 3, [0; 4]);
    assert_eq!(edited, Err(eleven(31, 49, 369)));
    assert_eq!(trace, [0; 384]);
}

/// Under S the first 3c + 1 taps chain to w_3c, also for c = 3. Every tap is read off. A
/// wrong claim fails at row 31 of batch c - 1. By 48 there 372c tests have been walked;
/// where c is k, that row has no 45 to 48, and the claim's are the last four.
#[test]
fn claims_that_end_early() {
    let s = table(11, 0);
    let taps: Vec<u64> = (1..=52).collect();
    let mut trace = [7; 1536];
    assert_eq!(build(&s, &taps, &mut trace), Ok([49, 50, 51, 52]));
    for (c, claim, refusal) in [
        (1, [13, 14, 15, 16], eleven(31, 49, 373)),
        (2, [25, 26, 27, 28], eleven(63, 49, 745)),
        (3, [37, 38, 39, 40], eleven(95, 49, 1117)),
        (4, [49, 50, 51, 52], eleven(127, 49, 1485)),
    ] {
        assert_eq!(check(&s, &trace, claim, c), Ok(1488), "{c}");
        let mut read = [7; 52];
        assert_eq!(read_off(&s, &trace, claim, c, &mut read), Ok(1488), "{c}");
        assert_eq!(read[..], taps, "{c}");
        let another = claim.map(|word| word + 1);
        assert_eq!(check(&s, &trace, another, c), Err(refusal), "{c}");
        let refused = read_off(&s, &trace, another, c, &mut [7; 52]);
        assert_eq!(refused, Err(refusal), "{c}");
        let refused = edit(&s, &mut trace, another, c, 0, [0; 4]);
        assert_eq!(refused, Err(refusal), "{c}");
    }
}

/// Two chains under Z, of zeros and of ones in this column: rows 31 and 32 differ, and
/// 45 to 48 are named before a wrong claim at row 31.
#[test]
fn the_claims_row_is_a_join_too() {
    let z = table(0, 0);
    for column in 0..4 {
        let mut trace = [0; 768];
        (32..64).for_each(|row| trace[12 * row + column] = 1);
        let refusal = eleven(31, 45 + column as u64, 369 + column as u64);
        for claim in [[0; 4], [1; 4]] {
            assert_eq!(check(&z, &trace, claim, 1), Err(refusal), "{column}");
        }
    }
}

/// Under S an edit answers w_3c of the altered list: of the taps of two batches the
/// third decides for c = 1, and the sixth for c = 2.
#[test]
fn outputs_of_edits_up_to_the_claim() {
    let s = table(11, 0);
    let new = [5, 6, 7, 9];
    for (c, decides) in [(1, 3), (2, 6)] {
        for tap in 0..=6 {
            let mut trace = [7; 768];
            build(&s, &[1; 28], &mut trace).expect("built");
            let edited = edit(&s, &mut trace, [1; 4], c, tap, new);
            let output = if tap == decides { new } else { [1; 4] };
            assert_eq!(edited, Ok(output), "tap {tap}, c = {c}");
            let mut altered = [1; 28];
            altered[4 * tap..4 * tap + 4].copy_from_slice(&new);
            let mut fresh = [7; 768];
            build(&s, &altered, &mut fresh).expect("built");
            assert_eq!(trace, fresh, "tap {tap}, c = {c}");
            assert_eq!(check(&s, &trace, output, c), Ok(744));
        }
    }
}

/// 17 right after 7, before 8 and 15.
#[test]
fn no_such_c() {
    let z = table(0, 0);
    let mut trace = [0; 768];
    for c in [0, 3, 4, 1 << 32, 1 << 63, usize::MAX] {
        let refused = check(&z, &trace, [P; 4], c);
        assert_eq!(refused, Err(Refusal::ClaimBatches), "{c}");
        let refused = read_off(&z, &trace, [P; 4], c, &mut [7; 27]);
        assert_eq!(refused, Err(Refusal::ClaimBatches), "{c}");
        let refused = edit(&z, &mut trace, [P; 4], c, 7, [P; 4]);
        assert_eq!(refused, Err(Refusal::ClaimBatches), "{c}");
        let refused = check(&z, &trace[1..], [P; 4], c);
        assert_eq!(refused, Err(Refusal::TraceLength), "{c}");
    }
    assert_eq!(trace, [0; 768]);
}

/// The bytes of a file's words, low byte first.
fn bytes(words: &[u32]) -> Vec<u8> {
    words.iter().flat_map(|word| word.to_le_bytes()).collect()
}

#[test]
fn files() {
    let mut file = [7; 244];
    assert_eq!(pack(&[0; 16], [0; 4], &mut file), Ok(()));
    let mut expected = vec![1];
    for _ in 0..20 {
        expected.extend([0x4000_0000, 0x8000_0000, 0xc000_0000]);
    }
    assert_eq!(file, bytes(&expected)[..]);
    let mut taps = [7; 16];
    assert_eq!(unpack(&file, &mut taps), Ok([0; 4]));
    assert_eq!(taps, [0; 16]);
}

/// The short file of zeros, k = 1.
fn short_zeros() -> Vec<u32> {
    let mut words = vec![0x2000_0001];
    words.extend([0xc000_0000; 20]);
    words
}

/// The same with these words in place of one of its elements, 0 to 19.
fn short_zeros_with(element: usize, words: &[u32]) -> Vec<u8> {
    let mut file = short_zeros();
    file.splice(1 + element..2 + element, words.iter().copied());
    bytes(&file)
}

/// Zeros have a word each, and p - 1 has three: 2^61 is 2 x 2^60, and 20 x 2^32 is
/// 80 x 2^30.
#[test]
fn short_files() {
    for (k, head, shortest, longest) in [
        (1, 0x2000_0001, 84, 244),
        (2, 0x2000_0002, 132, 388),
        (16, 0x2000_0010, 804, 2404),
        (1024, 0x2000_0400, 49_188, 147_556),
        (2048, 0x2000_0800, 98_340, 295_012),
        (32_768, 0x2000_8000, 1_572_900, 4_718_692),
        (65_536, 0x2001_0000, 3_145_764, 9_437_284),
        (262_144, 0x2004_0000, 12_582_948, 37_748_836),
    ] {
        for (element, words, length) in [
            (0, &[0xc000_0000][..], shortest),
            (P - 1, &[0x4000_0002, 0x8000_0050, 0xc000_0000], longest),
        ] {
            let (taps, claim) = (vec![element; 12 * k + 4], [element; 4]);
            assert_eq!(short_file_bytes(&taps, claim), length);
            let expected = bytes(&[&[head], &words.repeat(12 * k + 8)[..]].concat());
            let mut file = vec![7; length];
            assert_eq!(pack_short(&taps, claim, &mut file), Ok(()), "k = {k}");
            assert!(file == expected, "k = {k}");
            let mut read = vec![7; 12 * k + 4];
            assert_eq!(unpack_short(&file, &mut read), Ok(claim), "k = {k}");
            assert!(read == taps, "k = {k}");
        }
    }
}

/// Claim and taps of a day: the ends of 30, 60 and 61 bits, a tap of stop, fare, minute
/// and card, and p - 2, which is 2 x 2^60 + 79 x 2^30 + 2^30 - 1. Eleven have one word
/// and nine have three.
const BOTH_WIDTHS: [(u64, &[u32]); 20] = [
    (P - 1, &[0x4000_0002, 0x8000_0050, 0xc000_0000]),
    (0, &[0xc000_0000]),
    ((1 << 30) - 1, &[0xffff_ffff]),
    (1 << 30, &[0x4000_0000, 0x8000_0001, 0xc000_0000]),
    (4711, &[0xc000_1267]),
    (290, &[0xc000_0122]),
    (485, &[0xc000_01e5]),
    ((1 << 32) + 5, &[0x4000_0000, 0x8000_0004, 0xc000_0005]),
    (1, &[0xc000_0001]),
    (1 << 29, &[0xe000_0000]),
    ((1 << 31) - 1, &[0x4000_0000, 0x8000_0001, 0xffff_ffff]),
    ((1 << 60) - 1, &[0x4000_0000, 0xbfff_ffff, 0xffff_ffff]),
    (1 << 60, &[0x4000_0001, 0x8000_0000, 0xc000_0000]),
    (1 << 61, &[0x4000_0002, 0x8000_0000, 0xc000_0000]),
    (P - 2, &[0x4000_0002, 0x8000_004f, 0xffff_ffff]),
    (7, &[0xc000_0007]),
    (0, &[0xc000_0000]),
    (0, &[0xc000_0000]),
    (0, &[0xc000_0000]),
    ((1 << 30) + 1, &[0x4000_0000, 0x8000_0001, 0xc000_0001]),
];

#[test]
fn a_short_file_of_both_widths() {
    let mut words = vec![0x2000_0001];
    words.extend(BOTH_WIDTHS.iter().flat_map(|(_, words)| *words));
    let elements = BOTH_WIDTHS.map(|(element, _)| element);
    let claim = [P - 1, 0, (1 << 30) - 1, 1 << 30];
    let length = 4 + 11 * 4 + 9 * 12;
    assert_eq!(short_file_bytes(&elements[4..], claim), length);
    let mut file = vec![7; length];
    assert_eq!(pack_short(&elements[4..], claim, &mut file), Ok(()));
    assert_eq!(file, bytes(&words));
    assert_eq!(file[..8], [0x01, 0, 0, 0x20, 0x02, 0, 0, 0x40]);
    let mut taps = [7; 16];
    assert_eq!(unpack_short(&file, &mut taps), Ok(claim));
    assert_eq!(taps, elements[4..]);
}

/// A length of the list that no k has, then a length of the file that the elements do
/// not need, then the claim, then the taps. p and 2^64 - 1 count 12 bytes.
#[test]
fn refused_short_packs() {
    let (p, most) = (P, u64::MAX);
    let with = |index: usize, word: u64| {
        let mut taps = vec![0; 16];
        taps[index] = word;
        taps
    };
    let claimed = |word: u64| [0, word, 0, word];
    for (taps, claim, length, refusal) in [
        (vec![p; 15], [p; 4], 0, Refusal::TapLength),
        (vec![0; 40], [0; 4], 180, Refusal::TapLength),
        (vec![0; 24579], [0; 4], 98_336, Refusal::TapLength),
        (vec![0; 36868], [0; 4], 147_492, Refusal::TapLength),
        (vec![p; 24580], [p; 4], 98_340, Refusal::DestinationLength),
        (vec![0; 16], [0; 4], 83, Refusal::DestinationLength),
        (vec![0; 16], [0; 4], 85, Refusal::DestinationLength),
        (vec![0; 16], [0; 4], 92, Refusal::DestinationLength),
        (vec![0; 16], [0; 4], 244, Refusal::DestinationLength),
        (with(3, 1 << 30), [0; 4], 84, Refusal::DestinationLength),
        (with(3, p), [0; 4], 84, Refusal::DestinationLength),
        (with(3, p), claimed(p), 84, Refusal::DestinationLength),
        (with(3, p), claimed(p), 108, Refusal::ClaimWord { index: 1 }),
        (with(3, p), [0; 4], 92, Refusal::TapWord { index: 3 }),
        (with(15, most), [0; 4], 92, Refusal::TapWord { index: 15 }),
    ] {
        let mut file = vec![7; length];
        let packed = pack_short(&taps, claim, &mut file);
        let words = taps.len();
        assert_eq!(packed, Err(refusal), "{words}, {claim:?}, {length} bytes");
        assert_eq!(file, vec![7; length], "{refusal}");
    }
    let mut file = [7; 92];
    assert_eq!(pack_short(&with(15, P - 1), [0; 4], &mut file), Ok(()));
}

/// What the reader answers to these bytes, into 16 words and into 15. Where it refuses,
/// nothing is written.
fn read_short(file: &[u8]) -> [Result<[u64; 4], Refusal>; 2] {
    let mut taps = [7; 16];
    let [exact, other] = [16, 15].map(|length| unpack_short(file, &mut taps[..length]));
    if exact.is_err() {
        assert_eq!(taps, [7; 16], "{file:x?}");
    }
    [exact, other]
}

/// A converter.
type Converter = fn(&[u8], &mut [u8]) -> Result<(), Refusal>;

/// What a converter refuses of these bytes, the same into every length: 8 comes last.
/// Nothing is written.
fn refused(convert: Converter, file: &[u8]) -> Refusal {
    let refusals = [0, 4, 84, 85, 92, 243, 244, 245].map(|length| {
        let mut room = vec![7; length];
        let refusal = convert(file, &mut room).expect_err("a refusal");
        assert_eq!(room, vec![7; length], "{file:x?}");
        refusal
    });
    assert_eq!(refusals, [refusals[0]; 8], "{file:x?}");
    refusals[0]
}

/// 8 comes right after word 0, whose count is bits 0 to 19. 2^19 is no k.
#[test]
fn word_0_of_a_short_file() {
    let (kind, value) = (
        Refusal::WrongKind { word: 0 },
        Refusal::WrongValue { word: 0 },
    );
    for (head, refusal) in [
        (0x6000_0001, kind),
        (0xa000_0001, kind),
        (0xe000_0000, kind),
        (0x0000_0001, value),
        (0x2001_0001, value),
        (0x3000_0001, value),
        (0x2000_0000, value),
        (0x2000_0003, value),
        (0x2000_0c00, value),
        (0x2006_0000, value),
        (0x2008_0000, value),
        (0x200c_0000, value),
        (0x2010_0000, value),
        (0x2010_0001, value),
        (0x2000_0002, Refusal::DestinationLength),
        (0x2000_0400, Refusal::DestinationLength),
        (0x2000_0800, Refusal::DestinationLength),
        (0x2001_0000, Refusal::DestinationLength),
        (0x2004_0000, Refusal::DestinationLength),
    ] {
        let mut words = short_zeros();
        words[0] = head;
        for words in [&words[..], &[head]] {
            assert_eq!(read_short(&bytes(words)), [Err(refusal); 2], "{head:x}");
        }
    }
    let head = bytes(&[0x2000_0001]);
    let refused = [Err(Refusal::FileLength), Err(Refusal::DestinationLength)];
    assert_eq!(read_short(&head), refused);
    for length in 0..4 {
        let refused = read_short(&head[..length]);
        assert_eq!(refused, [Err(Refusal::FileLength); 2], "{length} bytes");
    }
}

/// Elements 0 and 19, whose first words are 1 and 20, refused alike, by the converter too:
/// small ones in three words, those of p, 2^64 and 2^90 - 1, and wrong kinds, the third
/// before the value.
#[test]
fn damaged_short_files() {
    let no_room = Err(Refusal::DestinationLength);
    for (element, word) in [(0, 1), (19, 20)] {
        let (long, value) = (Refusal::LongElement { word }, Refusal::WrongValue { word });
        for (words, refusal) in [
            ([0x4000_0000, 0x8000_0000, 0xc000_0000], long),
            ([0x4000_0000, 0x8000_0000, 0xffff_ffff], long),
            ([0x4000_0002, 0x8000_0050, 0xc000_0001], value),
            ([0x4000_0003, 0x8000_0000, 0xc000_0005], value),
            ([0x4000_0010, 0x8000_0000, 0xc000_0000], value),
            ([0x7fff_ffff, 0xbfff_ffff, 0xffff_ffff], value),
            (
                [0x8000_0000, 0x8000_0000, 0xc000_0000],
                Refusal::WrongKind { word },
            ),
            (
                [0x0000_0000, 0x8000_0000, 0xc000_0000],
                Refusal::WrongKind { word },
            ),
            (
                [0x4000_0000, 0xc000_0000, 0xc000_0000],
                Refusal::WrongKind { word: word + 1 },
            ),
            (
                [0x4000_0000, 0x8000_0000, 0x8000_0000],
                Refusal::WrongKind { word: word + 2 },
            ),
        ] {
            let mut file = short_zeros_with(element, &words);
            assert_eq!(read_short(&file), [Err(refusal), no_room], "{words:x?}");
            assert_eq!(refused(to_full, &file), refusal, "{words:x?}");
            // Bytes after the last element are looked at last.
            file.push(0);
            assert_eq!(read_short(&file), [Err(refusal), no_room], "{words:x?}");
            assert_eq!(refused(to_full, &file), refusal, "{words:x?}");
        }
        let whole = [0x4000_0000, 0x8000_0001, 0xc000_0000];
        let file = short_zeros_with(element, &whole);
        assert!(unpack_short(&file, &mut [7; 16]).is_ok(), "2^30 at {word}");
    }
}

/// A short file of k = 1 ends where its twentieth element does. Of p - 1 in place of the
/// last zero, one or two words alone are 12, whatever they would be with the third. The
/// converter refuses the same.
#[test]
fn cut_short_files() {
    let answers = [Err(Refusal::FileLength), Err(Refusal::DestinationLength)];
    let honest = bytes(&short_zeros());
    let mut files: Vec<Vec<u8>> = (4..84).map(|length| honest[..length].to_vec()).collect();
    for more in [&[0][..], &[0, 0, 0, 0xc0], &[0; 160]] {
        files.push([&honest, more].concat());
    }
    for words in [
        &[0x4000_0002][..],
        &[0x4000_0002, 0x8000_0050],
        &[0x4000_0000, 0x8000_0000],
        &[0x4000_0010, 0x8000_0000],
    ] {
        let cut = short_zeros_with(19, words);
        files.push([&cut, &[0; 3][..]].concat());
        files.push(cut);
    }
    for file in files {
        assert_eq!(read_short(&file), answers, "{file:x?}");
        assert_eq!(refused(to_full, &file), Refusal::FileLength, "{file:x?}");
    }
}

/// The full file of zeros has no mark; with one its first element is 0 in three words.
#[test]
fn the_other_edition() {
    let other_edition = Refusal::WrongValue { word: 0 };
    let mut full = [7; 244];
    assert_eq!(pack(&[0; 16], [0; 4], &mut full), Ok(()));
    assert_eq!(read_short(&full), [Err(other_edition); 2]);
    full[3] = 0x20;
    let long = Refusal::LongElement { word: 1 };
    let refused = [Err(long), Err(Refusal::DestinationLength)];
    assert_eq!(read_short(&full), refused);
    let mut taps = [7; 16];
    for file in [&full[..], &bytes(&short_zeros())] {
        assert_eq!(unpack(file, &mut taps), Err(other_edition));
        assert_eq!(taps, [7; 16]);
    }
}

/// The words of an element in the full edition, from those in the short one: of a small
/// one the first two are empty.
fn full_words(words: &[u32]) -> Vec<u32> {
    match words {
        [low] => vec![0x4000_0000, 0x8000_0000, *low],
        _ => words.to_vec(),
    }
}

/// The elements of a day of zeros, k = 1, in the short edition.
const ZEROS: [&[u32]; 20] = [&[0xc000_0000]; 20];

/// The full file and the short one of elements that have these words in the short one.
fn editions(k: u32, elements: &[&[u32]]) -> [Vec<u8>; 2] {
    let mut full = vec![k];
    full.extend(elements.iter().flat_map(|words| full_words(words)));
    let mut short = vec![0x2000_0000 + k];
    short.extend(elements.concat());
    [bytes(&full), bytes(&short)]
}

/// What a converter writes into so many bytes.
fn converted(convert: Converter, file: &[u8], length: usize) -> Vec<u8> {
    let mut other = vec![7; length];
    assert_eq!(convert(file, &mut other), Ok(()), "{length} bytes");
    other
}

/// Zeros, p - 1, and both in turn. Where all elements have three words, the mark is all
/// that differs.
#[test]
fn converted_files() {
    let small: &[u32] = &[0xc000_0000];
    let large: &[u32] = &[0x4000_0002, 0x8000_0050, 0xc000_0000];
    for (k, lengths) in [
        (1, [84, 164, 244]),
        (2, [132, 260, 388]),
        (16, [804, 1604, 2404]),
        (1024, [49_188, 98_372, 147_556]),
    ] {
        for (pair, length) in [
            ([small, small], lengths[0]),
            ([small, large], lengths[1]),
            ([large, small], lengths[1]),
            ([large, large], lengths[2]),
        ] {
            let [full, short] = editions(k, &pair.repeat(6 * k as usize + 4));
            assert_eq!((full.len(), short.len()), (lengths[2], length));
            assert_eq!(converted(to_short, &full, length), short, "k = {k}");
            assert_eq!(converted(to_full, &short, lengths[2]), full, "k = {k}");
            if length == lengths[2] {
                assert_eq!((full[3], short[3]), (0, 0x20));
                assert_eq!(full[4..], short[4..], "k = {k}");
            }
        }
    }
}

/// The day of `a_short_file_of_both_widths`, whose fifth element is 4711, into every length
/// but its own.
#[test]
fn a_converted_file_of_both_widths() {
    let [full, short] = editions(1, &BOTH_WIDTHS.map(|(_, words)| words));
    assert_eq!((full.len(), short.len()), (244, 156));
    let fifth = bytes(&[0x4000_0000, 0x8000_0000, 0xc000_1267]);
    assert_eq!(full[4 + 4 * 12..4 + 5 * 12], fifth);
    for (convert, file, other) in [
        (to_short as Converter, &full, &short),
        (to_full, &short, &full),
    ] {
        assert_eq!(converted(convert, file, other.len()), *other);
        for length in (0..300).filter(|&length| length != other.len()) {
            let mut room = vec![7; length];
            let answer = convert(file, &mut room);
            assert_eq!(answer, Err(Refusal::DestinationLength), "{length}");
            assert_eq!(room, vec![7; length]);
        }
    }
}

/// 13 comes before 19, and 19, which goes by the mark alone, before 14 and 12: word 0 of a
/// full file of zeros, of a short one, and by itself. From 2048 batches on there is no full
/// file, which is 14 too, before the elements.
#[test]
fn word_0_of_a_file_to_convert() {
    let (kind, value) = (
        Refusal::WrongKind { word: 0 },
        Refusal::WrongValue { word: 0 },
    );
    let same = Refusal::SameEdition;
    let [full, short] = editions(1, &ZEROS);
    for (head, of_short, of_full) in [
        (0x4000_0001, kind, kind),
        (0x6000_0001, kind, kind),
        (0x8000_0000, kind, kind),
        (0xe000_0001, kind, kind),
        (0xffff_ffff, kind, kind),
        (0x2000_0000, same, value),
        (0x2000_0003, same, value),
        (0x2000_0800, same, value),
        (0x2000_8000, same, value),
        (0x2001_0000, same, value),
        (0x2004_0000, same, value),
        (0x2008_0000, same, value),
        (0x2010_0001, same, value),
        (0x2001_0001, same, value),
        (0x3000_0001, same, value),
        (0x3fff_ffff, same, value),
        (0x0000_0000, value, same),
        (0x0000_0003, value, same),
        (0x0000_0800, value, same),
        (0x0000_8000, value, same),
        (0x0004_0000, value, same),
        (0x0001_0001, value, same),
        (0x1000_0001, value, same),
        (0x1fff_ffff, value, same),
    ] {
        let head = bytes(&[head]);
        for rest in [&full[4..], &short[4..], &[]] {
            let file = [&head, rest].concat();
            assert_eq!(refused(to_short, &file), of_short, "{head:x?}");
            assert_eq!(refused(to_full, &file), of_full, "{head:x?}");
        }
    }
    for length in 0..4 {
        for file in [&full, &short] {
            let file = &file[..length];
            assert_eq!(refused(to_short, file), Refusal::FileLength, "{length}");
            assert_eq!(refused(to_full, file), Refusal::FileLength, "{length}");
        }
    }
}

/// Files of zeros in the wanted edition, whole, cut anywhere after word 0, and with a byte
/// after the last element; and each with the mark of the other, which is then read as such.
#[test]
fn already_in_the_wanted_edition() {
    let [mut full, mut short] = editions(1, &ZEROS);
    for (convert, file) in [(to_full as Converter, &full), (to_short, &short)] {
        let longer = [&file[..], &[0]].concat();
        for length in 4..=longer.len() {
            let refusal = refused(convert, &longer[..length]);
            assert_eq!(refusal, Refusal::SameEdition, "{length} bytes");
        }
    }
    full[3] = 0x20;
    assert_eq!(refused(to_short, &full), Refusal::SameEdition);
    assert_eq!(refused(to_full, &full), Refusal::LongElement { word: 1 });
    short[3] = 0;
    assert_eq!(refused(to_full, &short), Refusal::SameEdition);
    assert_eq!(refused(to_short, &short), Refusal::FileLength);
}

/// Elements 0 and 19 of a full file, whose first words are 1 and 58: those of p, 2^64 and
/// 2^90 - 1, and wrong kinds, also that of a small element of a short file, the third
/// before the value. Another length comes before them, and 8 after them.
#[test]
fn damaged_full_files_to_convert() {
    let [honest, _] = editions(1, &ZEROS);
    for (element, word) in [(0, 1), (19, 58)] {
        let value = Refusal::WrongValue { word };
        for (words, refusal) in [
            ([0x4000_0002, 0x8000_0050, 0xc000_0001], value),
            ([0x4000_0003, 0x8000_0000, 0xc000_0005], value),
            ([0x4000_0010, 0x8000_0000, 0xc000_0000], value),
            ([0x7fff_ffff, 0xbfff_ffff, 0xffff_ffff], value),
            (
                [0xc000_0000, 0x8000_0000, 0xc000_0000],
                Refusal::WrongKind { word },
            ),
            (
                [0x0000_0000, 0x0000_0000, 0x0000_0000],
                Refusal::WrongKind { word },
            ),
            (
                [0x4000_0000, 0x4000_0000, 0x4000_0000],
                Refusal::WrongKind { word: word + 1 },
            ),
            (
                [0x4000_0010, 0x8000_0000, 0x8000_0000],
                Refusal::WrongKind { word: word + 2 },
            ),
        ] {
            let place = 4 + 12 * element;
            let mut file = honest.clone();
            file[place..place + 12].copy_from_slice(&bytes(&words));
            assert_eq!(refused(to_short, &file), refusal, "{words:x?}");
            file.push(0);
            assert_eq!(refused(to_short, &file), Refusal::FileLength);
            file.truncate(243);
            assert_eq!(refused(to_short, &file), Refusal::FileLength);
        }
    }
    for length in 4..244 {
        let cut = &honest[..length];
        assert_eq!(refused(to_short, cut), Refusal::FileLength, "{length}");
    }
}

/// Zero taps under A, 2048 batches: each of the 6144 hashes adds 1 to cell 0. The last row
/// is 32 x 2048 - 1, and there the claim's tests are the last four of 372 x 2048.
#[test]
fn a_season() {
    let a = table(0, 1);
    let (k, tests) = (2048, 761_856);
    let mut trace = vec![7; 786_432];
    let output = [6144, 0, 0, 0];
    assert_eq!(build(&a, &[0; 24580], &mut trace), Ok(output));
    assert_eq!(check(&a, &trace, output, k), Ok(tests));
    assert_eq!(check(&a, &trace, [3, 0, 0, 0], 1), Ok(tests));
    assert_eq!(check(&a, &trace, [3075, 0, 0, 0], 1025), Ok(tests));
    let refused = check(&a, &trace, [6143, 0, 0, 0], k);
    assert_eq!(refused, Err(eleven(65_535, 49, 761_853)));
    let refused = check(&a, &trace, output, k + 1);
    assert_eq!(refused, Err(Refusal::ClaimBatches));
    let mut taps = vec![7; 24580];
    assert_eq!(read_off(&a, &trace, output, k, &mut taps), Ok(tests));
    assert_eq!(taps, vec![0; 24580]);

    let refused = edit(&a, &mut trace, output, k, 6145, [0; 4]);
    assert_eq!(refused, Err(Refusal::NoSuchTap));
    let edited = edit(&a, &mut trace, output, k, 6144, [1, 2, 3, 4]);
    assert_eq!(edited, Ok(output));
    assert_eq!(trace[786_420..], [6144, 0, 0, 0, 1, 2, 3, 4, 0, 0, 0, 0]);
    let edited = edit(&a, &mut trace, output, k, 0, [5, 6, 7, 9]);
    assert_eq!(edited, Ok([6149, 6, 7, 9]));
    assert_eq!(
        read_off(&a, &trace, [6149, 6, 7, 9], k, &mut taps),
        Ok(tests)
    );
    let mut altered = vec![0; 24580];
    altered[..4].copy_from_slice(&[5, 6, 7, 9]);
    altered[24576..].copy_from_slice(&[1, 2, 3, 4]);
    assert_eq!(taps, altered);
}

/// 2^19 batches: 5 for the list, 7 for the trace, 14 for the count, before all that comes
/// after them.
#[test]
fn more_batches_than_a_season() {
    let z = table(0, 0);
    let taps = vec![0; 12 * (1 << 19) + 4];
    let refused = Err(Refusal::TapLength);
    assert_eq!(chain(&z, &taps), refused);
    assert_eq!(build(&z, &taps, &mut []), refused);
    assert_eq!(pack(&taps, [P; 4], &mut []), Err(Refusal::TapLength));
    let packed = pack_short(&taps, [P; 4], &mut []);
    assert_eq!(packed, Err(Refusal::TapLength));

    let mut trace = vec![0; 384 << 19];
    let refused = check(&z, &trace, [P; 4], 0);
    assert_eq!(refused, Err(Refusal::TraceLength));
    let refused = read_off(&z, &trace, [P; 4], 0, &mut []);
    assert_eq!(refused, Err(Refusal::TraceLength));
    let refused = edit(&z, &mut trace, [P; 4], 0, usize::MAX, [P; 4]);
    assert_eq!(refused, Err(Refusal::TraceLength));

    let mut file = bytes(&[0x2008_0000]);
    file.resize(48 * (1 << 19) + 36, 0);
    let value = Refusal::WrongValue { word: 0 };
    assert_eq!(unpack_short(&file, &mut []), Err(value));
    assert_eq!(to_full(&file, &mut []), Err(value));
}
