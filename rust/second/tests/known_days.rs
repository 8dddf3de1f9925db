//! Every line of document 01's "Known days", and the program's lines. The
//! expected values stand in document 01, and the count 362 in document 02, U4; the
//! other counts, what edits answer and leave, cells 4 to 11 of the hashes (document
//! 02, U3), the pairs that end in a state (U5), claims that end before the rows do
//! (U6), short files (U7), their conversion from and to full ones (U8), and those of
//! more than 1024 batches (U9), are worked out by hand from its definitions. That 24580
//! words get 5 is true of the full writer alone since U9.

mod common;
use common::*;
use second::field::{mul, root, P};
use second::{
    build, chain, check, clear, edit, hash, pack, pack_short, prepare, read_off, to_full, to_short,
    unhash, unpack, unpack_short, Refusal,
};

const NO_CLAIM: [u64; 4] = [0; 4];

fn zero_trace_with(cells: &[(usize, usize)]) -> Vec<u64> {
    let mut trace = vec![0; 384];
    for &(row, column) in cells {
        trace[12 * row + column] = 1;
    }
    trace
}

#[test]
fn the_fields_constants() {
    assert_eq!(P, 2305843095113039873);
    assert_eq!(P, 134217733 * (1 << 34) + 1);
    assert_eq!(second::field::ROOT_EXPONENT, 1537228730075359915);
}

#[test]
fn products() {
    assert_eq!(mul(P - 1, P - 1), 1);
    assert_eq!(mul(1 << 31, 1 << 31), 2305842923314348031);
}

#[test]
fn roots_of_0_8_and_minus_1() {
    assert_eq!(root(0), 0);
    assert_eq!(root(8), 2);
    assert_eq!(root(P - 1), P - 1);
}

/// Under Z a round is a root and then a cube, so the final state is the input.
#[test]
fn hash_under_z() {
    assert_eq!(
        hash(&z(), [8, 27, 1, 0, 0, 0, 0, 0]),
        Ok([8, 27, 1, 0, 0, 0, 0, 0, 0, 0, 0, 0])
    );
    assert_eq!(
        hash(&z(), [8, 27, 1, 0, 5, 6, 7, P - 1]),
        Ok([8, 27, 1, 0, 5, 6, 7, P - 1, 0, 0, 0, 0])
    );
}

/// Under A it is the input plus K_0.
#[test]
fn hash_of_zeros_under_a() {
    let state = [1, 0, 0, 0, 0, 0, 0, 0, 0, 0, 0, 0];
    assert_eq!(hash(&a(), [0; 8]), Ok(state));
}

/// S moves each cell one up at every step. There are twenty, so cells 4 to 7 come
/// to 0 to 3, the four zeros to 4 to 7, and the first tap to 8 to 11.
#[test]
fn hash_under_s() {
    let mut random = Random(1);
    let mut first: Vec<[u64; 4]> = vec![[0; 4], [1, 2, 3, 4], [P - 1; 4]];
    first.extend((0..4).map(|cell| std::array::from_fn(|j| if j == cell { P - 1 } else { 0 })));
    first.extend((0..5).map(|_| std::array::from_fn(|_| random.canonical())));
    for [a, b, c, d] in first {
        let hashed = hash(&s(), [a, b, c, d, 5, 6, 7, 9]);
        assert_eq!(hashed, Ok([5, 6, 7, 9, 0, 0, 0, 0, a, b, c, d]));
    }
}

/// The Hash cases undone. Under S the four zeros come to cells 4 to 7, and the first
/// tap to 8 to 11.
#[test]
fn hash_cases_undone() {
    assert_eq!(
        unhash(&z(), [8, 27, 1, 0, 0, 0, 0, 0, 0, 0, 0, 0]),
        Ok([8, 27, 1, 0, 0, 0, 0, 0])
    );
    assert_eq!(
        unhash(&a(), [1, 0, 0, 0, 0, 0, 0, 0, 0, 0, 0, 0]),
        Ok([0; 8])
    );
    let mut random = Random(17);
    let mut first: Vec<[u64; 4]> = vec![[0; 4], [1, 2, 3, 4], [P - 1; 4]];
    first.extend((0..5).map(|_| std::array::from_fn(|_| random.canonical())));
    for [a, b, c, d] in first {
        assert_eq!(
            unhash(&s(), [5, 6, 7, 9, 0, 0, 0, 0, a, b, c, d]),
            Ok([a, b, c, d, 5, 6, 7, 9])
        );
    }
}

/// Without constants it is that of zero taps; under A the first word makes up for
/// K_0[0] = 1.
#[test]
fn the_zero_state_undone() {
    assert_eq!(unhash(&z(), [0; 12]), Ok([0; 8]));
    assert_eq!(unhash(&s(), [0; 12]), Ok([0; 8]));
    assert_eq!(unhash(&a(), [0; 12]), Ok([P - 1, 0, 0, 0, 0, 0, 0, 0]));
}

/// Under Z and A the four zeros of the input stand in cells 8 to 11 at the end, under
/// S in cells 4 to 7; a state has a pair where they do.
#[test]
fn states_without_a_pair() {
    for (table, zeros) in [(z(), 8..12), (a(), 8..12), (s(), 4..8)] {
        for cell in 0..12 {
            for word in [1, 8, P - 1] {
                let mut state = [0; 12];
                state[cell] = word;
                let answer = unhash(&table, state);
                if zeros.contains(&cell) {
                    assert_eq!(answer, Err(Refusal::NoPair), "{word} in {cell}");
                } else {
                    let pair = answer.expect("a pair");
                    assert_eq!(hash(&table, pair), Ok(state), "{word} in {cell}");
                }
            }
        }
        assert_eq!(unhash(&table, [1; 12]), Err(Refusal::NoPair));
    }
}

/// Each hash of a zero tap under A adds 1 to cell 0: row 31 is (3, zeros), and the
/// chain had come to (2, 0, 0, 0) before the last tap.
#[test]
fn row_31_of_four_zero_taps_under_a() {
    let mut trace = vec![7; 384];
    build(&a(), &[0; 16], &mut trace).expect("builds");
    let row_31 = trace[12 * 31..].try_into().expect("twelve cells");
    assert_eq!(unhash(&a(), row_31), Ok([2, 0, 0, 0, 0, 0, 0, 0]));
}

#[test]
fn four_zero_taps_under_a() {
    assert_eq!(chain(&a(), &[0; 16]), Ok([3, 0, 0, 0]));
    let mut trace = vec![7; 384];
    assert_eq!(build(&a(), &[0; 16], &mut trace), Ok([3, 0, 0, 0]));
}

/// The counts are places in the order (document 02, U4): 16 tests at row 0, 12 at
/// each of rows 1 to 9 and 8 at row 10 make 132 before row 11; 108 and 8 and again
/// 108 more make 356 before row 30, and its 12 make 368 before row 31.
#[test]
fn zero_trace_under_z() {
    let mut trace = zero_trace_with(&[]);
    assert_eq!(check(&z(), &trace, NO_CLAIM, 1), Ok(372));
    let (claim, fails) = ([1, 0, 0, 0], (31, 49, 369));
    assert_eq!(failed_at(check(&z(), &trace, claim, 1)), fails);
    let refused = read_off(&z(), &trace, claim, 1, &mut [7; 16]);
    assert_eq!(failed_at(refused), fails);
    let refused = edit(&z(), &mut trace, claim, 1, 2, [0, 1, 0, 0]);
    assert_eq!(failed_at(refused.map(|_| 0)), fails);
}

/// The counts as above.
#[test]
fn one_cell_of_the_zero_trace() {
    for ((row, column), fails) in [
        ((0, 8), (0, 1, 1)),
        ((31, 5), (30, 38, 362)),
        ((11, 5), (11, 26, 138)),
    ] {
        let mut trace = zero_trace_with(&[(row, column)]);
        assert_eq!(failed_at(check(&z(), &trace, NO_CLAIM, 1)), fails);
        let mut taps = vec![7; 16];
        let refused = read_off(&z(), &trace, NO_CLAIM, 1, &mut taps);
        assert_eq!(failed_at(refused), fails);
        assert_eq!(taps, [7; 16]);
        let refused = edit(&z(), &mut trace, NO_CLAIM, 1, 2, [0, 1, 0, 0]);
        assert_eq!(failed_at(refused.map(|_| 0)), fails);
        assert_eq!(trace, zero_trace_with(&[(row, column)]));
    }
}

#[test]
fn column_5_of_rows_11_to_20() {
    let cells: Vec<(usize, usize)> = (11..=20).map(|row| (row, 5)).collect();
    let trace = zero_trace_with(&cells);
    assert_eq!(check(&z(), &trace, NO_CLAIM, 1), Ok(372));
    let mut taps = vec![7; 16];
    assert_eq!(read_off(&z(), &trace, NO_CLAIM, 1, &mut taps), Ok(372));
    assert_eq!(taps, [0, 0, 0, 0, 0, 0, 0, 0, 0, 1, 0, 0, 0, 0, 0, 0]);
}

/// The same day, from the zero trace and back, as an edit of w_2.
#[test]
fn column_5_of_rows_11_to_20_by_an_edit() {
    let cells: Vec<(usize, usize)> = (11..=20).map(|row| (row, 5)).collect();
    let mut trace = zero_trace_with(&[]);
    let edited = edit(&z(), &mut trace, NO_CLAIM, 1, 2, [0, 1, 0, 0]);
    assert_eq!(edited, Ok(NO_CLAIM));
    assert_eq!(trace, zero_trace_with(&cells));
    let edited = edit(&z(), &mut trace, NO_CLAIM, 1, 2, [0; 4]);
    assert_eq!(edited, Ok(NO_CLAIM));
    assert_eq!(trace, zero_trace_with(&[]));
}

/// Under Z a round is a root and then a cube, so each state of a hash is its
/// input: the first batch has (w_0, w_1), (w_0, w_2), (w_0, w_3), the second
/// (w_0, w_4) and so on. 1 and its root are the same.
#[test]
fn edits_under_z() {
    for (tap, rows, columns) in [
        (0, 0..64, 0..4),
        (1, 0..11, 4..8),
        (2, 11..21, 4..8),
        (3, 21..32, 4..8),
        (4, 32..43, 4..8),
        (5, 43..53, 4..8),
        (6, 53..64, 4..8),
    ] {
        let mut expected = vec![0; 768];
        for row in rows {
            expected[12 * row + columns.start..12 * row + columns.end].fill(1);
        }
        let output = if tap == 0 { [1; 4] } else { NO_CLAIM };
        let mut trace = vec![0; 768];
        let edited = edit(&z(), &mut trace, NO_CLAIM, 2, tap, [1; 4]);
        assert_eq!(edited, Ok(output), "{tap}");
        assert_eq!(trace, expected, "{tap}");
    }
}

/// Under A each hash adds 1 to cell 0 of w_0. Under S the output is the last tap.
#[test]
fn outputs_of_edits_under_a_and_s() {
    let new = [5, 6, 7, 9];
    for tap in 0..4 {
        let mut trace = vec![7; 384];
        let claim = build(&a(), &[0; 16], &mut trace).expect("builds");
        let output = if tap == 0 { [8, 6, 7, 9] } else { [3, 0, 0, 0] };
        assert_eq!(edit(&a(), &mut trace, claim, 1, tap, new), Ok(output));
        let claim = build(&s(), &[1; 16], &mut trace).expect("builds");
        let output = if tap == 3 { new } else { [1; 4] };
        assert_eq!(edit(&s(), &mut trace, claim, 1, tap, new), Ok(output));
    }
}

/// A built trace of k batches.
fn built(table: &[u64], taps: &[u64], k: usize) -> Vec<u64> {
    let mut trace = vec![7; 384 * k];
    build(table, taps, &mut trace).expect("builds");
    trace
}

/// Under A each hash of a zero tap adds 1 to cell 0, so that 3c + 1 zero taps chain
/// to (3c, 0, 0, 0). Here c may be 3, which no list of its own may have.
#[test]
fn claims_after_each_of_four_batches() {
    let mut trace = built(&a(), &[0; 52], 4);
    for (c, cell) in [(1, 3), (2, 6), (3, 9), (4, 12)] {
        let claim = [cell, 0, 0, 0];
        assert_eq!(check(&a(), &trace, claim, c), Ok(1488), "{c}");
        let mut taps = vec![7; 52];
        assert_eq!(read_off(&a(), &trace, claim, c, &mut taps), Ok(1488));
        assert_eq!(taps, [0; 52], "{c}");
        assert_eq!(edit(&a(), &mut trace, claim, c, 0, [0; 4]), Ok(claim));
    }
    assert_eq!(trace, built(&a(), &[0; 52], 4));
}

/// With 48 at row 31 of batch c - 1 there are 372c tests, 368 and four a batch, and the
/// claim's four come next. Where c is k, that row has no 45 to 48, and the claim's are
/// the last four of all.
#[test]
fn a_wrong_claim_for_each_c() {
    let places = [
        (1, 1, 31, 369),
        (2, 1, 31, 373),
        (2, 2, 63, 741),
        (4, 1, 31, 373),
        (4, 2, 63, 745),
        (4, 3, 95, 1117),
        (4, 4, 127, 1485),
    ];
    for (k, c, row, first) in places {
        let mut trace = vec![0; 384 * k];
        for column in 0..4 {
            let fails = (row, 49 + column as u64, first + column as u64);
            let mut claim = NO_CLAIM;
            claim[column] = P - 1;
            let refused = check(&z(), &trace, claim, c);
            assert_eq!(failed_at(refused), fails, "k = {k}, c = {c}");
            let refused = read_off(&z(), &trace, claim, c, &mut vec![7; 12 * k + 4]);
            assert_eq!(failed_at(refused), fails, "k = {k}, c = {c}");
            let refused = edit(&z(), &mut trace, claim, c, 3 * k, NO_CLAIM);
            assert_eq!(failed_at(refused.map(|_| 0)), fails, "k = {k}, c = {c}");
        }
        assert_eq!(trace, vec![0; 384 * k]);
    }
}

/// Under S the output is the last tap: w_3c for the first 3c + 1. Every tap is read
/// off, and those after w_3c may be any.
#[test]
fn the_claim_under_s_is_tap_3c() {
    let taps: Vec<u64> = (1..=52).collect();
    let trace = built(&s(), &taps, 4);
    for (c, claim) in [
        (1, [13, 14, 15, 16]),
        (2, [25, 26, 27, 28]),
        (3, [37, 38, 39, 40]),
        (4, [49, 50, 51, 52]),
    ] {
        assert_eq!(check(&s(), &trace, claim, c), Ok(1488), "{c}");
        let mut read = vec![7; 52];
        assert_eq!(read_off(&s(), &trace, claim, c, &mut read), Ok(1488), "{c}");
        assert_eq!(read, taps, "{c}");
        for other in (1..=4).filter(|&other| other != c) {
            let place = match other {
                4 => 1485,
                _ => 372 * other as u64 + 1,
            };
            let fails = (32 * other as u64 - 1, 49, place);
            assert_eq!(failed_at(check(&s(), &trace, claim, other)), fails);
        }
    }
}

/// Under S an edit answers w_3c of the altered list, whichever tap it alters, and
/// under A cell 0 of w_0 plus 3c. The trace is the built one in each case.
#[test]
fn outputs_of_edits_for_each_c() {
    let new = [5, 6, 7, 9];
    for c in 1..=4 {
        for tap in 0..=12 {
            let mut altered = vec![1; 52];
            altered[4 * tap..4 * tap + 4].copy_from_slice(&new);
            let mut trace = built(&s(), &[1; 52], 4);
            let output = if tap == 3 * c { new } else { [1; 4] };
            let edited = edit(&s(), &mut trace, [1; 4], c, tap, new);
            assert_eq!(edited, Ok(output), "tap {tap}, c = {c}");
            assert_eq!(trace, built(&s(), &altered, 4), "tap {tap}, c = {c}");

            let mut trace = built(&a(), &[1; 52], 4);
            let added = 3 * c as u64;
            let output = match tap {
                0 => [5 + added, 6, 7, 9],
                _ => [1 + added, 1, 1, 1],
            };
            let claim = [1 + added, 1, 1, 1];
            let edited = edit(&a(), &mut trace, claim, c, tap, new);
            assert_eq!(edited, Ok(output), "tap {tap}, c = {c}");
            assert_eq!(trace, built(&a(), &altered, 4), "tap {tap}, c = {c}");
        }
    }
}

#[test]
fn lengths_of_tap_lists() {
    for words in [0, 15, 40] {
        let taps = vec![0; words];
        assert_eq!(chain(&z(), &taps), Err(Refusal::TapLength), "{words}");
        let built = build(&z(), &taps, &mut [0; 384]);
        assert_eq!(built, Err(Refusal::TapLength), "{words}");
        let packed = pack(&taps, NO_CLAIM, &mut [0; 244]);
        assert_eq!(packed, Err(Refusal::TapLength), "{words}");
        let packed = pack_short(&taps, NO_CLAIM, &mut [0; 84]);
        assert_eq!(packed, Err(Refusal::TapLength), "{words}");
    }
    for (words, k, packed) in [
        (16, 1, Ok(())),
        (12292, 1024, Ok(())),
        (24580, 2048, Err(Refusal::TapLength)),
    ] {
        let taps = vec![0; words];
        assert_eq!(chain(&z(), &taps), Ok(NO_CLAIM), "{words}");
        let mut trace = vec![7; 384 * k];
        assert_eq!(build(&z(), &taps, &mut trace), Ok(NO_CLAIM), "{words}");
        assert_eq!(trace, vec![0; 384 * k]);
        let mut file = vec![7; 144 * k + 100];
        assert_eq!(pack(&taps, NO_CLAIM, &mut file), packed, "{words}");
        let mut file = vec![7; 48 * k + 36];
        assert_eq!(pack_short(&taps, NO_CLAIM, &mut file), Ok(()), "{words}");
    }
}

/// Under Z zeros are a trace of any k. The claim's tests come last with c = k, and with
/// c = 1025 right after the 372 of the first 1025 batches; the last tap is w_6144.
#[test]
fn the_zero_trace_of_2048_batches() {
    let mut trace = vec![0; 786432];
    for c in [1025, 2048] {
        assert_eq!(check(&z(), &trace, NO_CLAIM, c), Ok(761856), "{c}");
    }
    let refused = check(&z(), &trace, [1, 0, 0, 0], 2048);
    assert_eq!(failed_at(refused), (65535, 49, 761853));
    let refused = check(&z(), &trace, [1, 0, 0, 0], 1025);
    assert_eq!(failed_at(refused), (32799, 49, 381301));
    let edited = edit(&z(), &mut trace, NO_CLAIM, 2048, 6145, [5; 4]);
    assert_eq!(edited, Err(Refusal::NoSuchTap));
    let edited = edit(&z(), &mut trace, NO_CLAIM, 2048, 6144, [8; 4]);
    assert_eq!(edited, Ok(NO_CLAIM));
    // Row 21 of the last batch is the first that it touches, with the root of 8.
    let row = 12 * (32 * 2047 + 21);
    assert!(trace[..row].iter().all(|&cell| cell == 0));
    assert_eq!(trace[row..row + 12], [0, 0, 0, 0, 2, 2, 2, 2, 0, 0, 0, 0]);
}

#[test]
fn p_minus_1_passes_and_p_does_not_in_taps() {
    let mut taps = vec![0; 16];
    taps[15] = P - 1;
    // Under Z the last tap does not reach the output.
    assert_eq!(chain(&z(), &taps), Ok(NO_CLAIM));
    assert_eq!(build(&z(), &taps, &mut [0; 384]), Ok(NO_CLAIM));
    assert_eq!(pack(&taps, NO_CLAIM, &mut [0; 244]), Ok(()));
    // 19 zeros of 4 bytes, and 12.
    assert_eq!(pack_short(&taps, NO_CLAIM, &mut [0; 92]), Ok(()));
    let hashed = hash(&z(), [P - 1, 0, 0, 0, 0, 0, 0, P - 1]);
    let state = [P - 1, 0, 0, 0, 0, 0, 0, P - 1, 0, 0, 0, 0];
    assert_eq!(hashed, Ok(state));
    taps[15] = P;
    let refused = Refusal::TapWord { index: 15 };
    assert_eq!(chain(&z(), &taps), Err(refused));
    assert_eq!(build(&z(), &taps, &mut [0; 384]), Err(refused));
    assert_eq!(pack(&taps, NO_CLAIM, &mut [0; 244]), Err(refused));
    let packed = pack_short(&taps, NO_CLAIM, &mut [0; 92]);
    assert_eq!(packed, Err(refused));
    let hashed = hash(&z(), [0, 0, 0, 0, 0, 0, 0, P]);
    assert_eq!(hashed, Err(Refusal::TapWord { index: 7 }));
}

#[test]
fn p_minus_1_passes_and_p_does_not_elsewhere() {
    // In the table: M[0,0] = p - 1 is its own inverse.
    let mut raw = z_raw();
    raw[0] = P - 1;
    let mut table = vec![0; 540];
    assert_eq!(prepare(&raw, &mut table), Ok(()));
    assert_eq!(table[144], P - 1);
    raw[0] = P;
    let refused = Refusal::TableWord { index: 0 };
    assert_eq!(prepare(&raw, &mut table), Err(refused));
    // In the trace and the claim: under Z, cell 0 is the same in every row.
    let mut trace = vec![0; 384];
    for row in 0..32 {
        trace[12 * row] = P - 1;
    }
    assert_eq!(check(&z(), &trace, [P - 1, 0, 0, 0], 1), Ok(372));
    let refused = Refusal::ClaimWord { index: 0 };
    assert_eq!(check(&z(), &trace, [P, 0, 0, 0], 1), Err(refused));
    trace[372] = P;
    let refused = Refusal::TraceWord { index: 372 };
    assert_eq!(check(&z(), &trace, [P - 1, 0, 0, 0], 1), Err(refused));
}

#[test]
fn zero_m() {
    let mut table = vec![7; 540];
    assert_eq!(prepare(&[0; 396], &mut table), Err(Refusal::NoInverse));
    assert_eq!(table, [7; 540]);
}

#[test]
fn program_accepts_the_file_of_zeros() {
    assert_eq!(zero_file().len(), 244);
    assert_eq!(clear(&input(&z_raw(), &zero_file())), "accepted 1 372\n");
}

#[test]
fn program_refuses_claim_1() {
    let mut file = zero_file();
    file[12] = 1; // word 3 is the low 30 bits of the claim's first word
    assert_eq!(clear(&input(&z_raw(), &file)), "refused 11 31 49\n");
}

#[test]
fn the_file_of_zeros_is_what_pack_writes() {
    let mut file = vec![7; 244];
    assert_eq!(pack(&[0; 16], NO_CLAIM, &mut file), Ok(()));
    assert_eq!(file, zero_file());
    let mut taps = vec![7; 16];
    assert_eq!(unpack(&file, &mut taps), Ok(NO_CLAIM));
    assert_eq!(taps, [0; 16]);
}

#[test]
fn the_short_file_of_zeros() {
    let expected = bytes(&short_zero_words());
    assert_eq!(expected.len(), 84);
    let mut file = vec![7; 84];
    assert_eq!(pack_short(&[0; 16], NO_CLAIM, &mut file), Ok(()));
    assert_eq!(file, expected);
    assert_eq!(file[..8], [0x01, 0, 0, 0x20, 0, 0, 0, 0xC0]);
    let mut taps = vec![7; 16];
    assert_eq!(unpack_short(&file, &mut taps), Ok(NO_CLAIM));
    assert_eq!(taps, [0; 16]);
}

/// Elements and their words: the ends of 30, 60 and 61 bits, a stop and a fare, and
/// p - 1 = 2 x 2^60 + 80 x 2^30, one less than which is 2 x 2^60 + 79 x 2^30 + 2^30 - 1.
/// The claim comes first.
const ELEMENTS: [(u64, &[u32]); 20] = [
    (0, &[0xC0000000]),
    ((1 << 30) - 1, &[0xFFFFFFFF]),
    (1 << 30, &[0x40000000, 0x80000001, 0xC0000000]),
    (P - 1, &[0x40000002, 0x80000050, 0xC0000000]),
    (1, &[0xC0000001]),
    (4711, &[0xC0001267]),
    (290, &[0xC0000122]),
    ((1 << 30) + 1, &[0x40000000, 0x80000001, 0xC0000001]),
    (1 << 29, &[0xE0000000]),
    ((1 << 31) - 1, &[0x40000000, 0x80000001, 0xFFFFFFFF]),
    (1 << 31, &[0x40000000, 0x80000002, 0xC0000000]),
    (1 << 32, &[0x40000000, 0x80000004, 0xC0000000]),
    ((1 << 60) - 1, &[0x40000000, 0xBFFFFFFF, 0xFFFFFFFF]),
    (1 << 60, &[0x40000001, 0x80000000, 0xC0000000]),
    ((1 << 60) + 7, &[0x40000001, 0x80000000, 0xC0000007]),
    (1 << 61, &[0x40000002, 0x80000000, 0xC0000000]),
    (P - 2, &[0x40000002, 0x8000004F, 0xFFFFFFFF]),
    (0, &[0xC0000000]),
    (P - 1, &[0x40000002, 0x80000050, 0xC0000000]),
    (2, &[0xC0000002]),
];

/// Eight of them have one word and twelve have three: 4 + 8 x 4 + 12 x 12 bytes.
#[test]
fn a_short_file_of_both_widths() {
    let mut words = vec![0x20000001];
    words.extend(ELEMENTS.iter().flat_map(|(_, words)| *words));
    let expected = bytes(&words);
    let elements = ELEMENTS.map(|(element, _)| element);
    let claim = [0, (1 << 30) - 1, 1 << 30, P - 1];
    let mut file = vec![7; 180];
    assert_eq!(pack_short(&elements[4..], claim, &mut file), Ok(()));
    assert_eq!(file, expected);
    let mut taps = vec![7; 16];
    assert_eq!(unpack_short(&expected, &mut taps), Ok(claim));
    assert_eq!(taps, elements[4..]);
}

/// k, word 0 and the bytes of the short file of zeros. The first eleven are those of the
/// full edition.
const SHORT_DAYS: [(usize, u32, usize); 19] = [
    (1, 0x20000001, 84),
    (2, 0x20000002, 132),
    (4, 0x20000004, 228),
    (8, 0x20000008, 420),
    (16, 0x20000010, 804),
    (32, 0x20000020, 1572),
    (64, 0x20000040, 3108),
    (128, 0x20000080, 6180),
    (256, 0x20000100, 12324),
    (512, 0x20000200, 24612),
    (1024, 0x20000400, 49188),
    (2048, 0x20000800, 98340),
    (4096, 0x20001000, 196644),
    (8192, 0x20002000, 393252),
    (16384, 0x20004000, 786468),
    (32768, 0x20008000, 1572900),
    (65536, 0x20010000, 3145764),
    (131072, 0x20020000, 6291492),
    (262144, 0x20040000, 12582948),
];

/// Zeros have 4 bytes each, and 48k + 36 with word 0.
#[test]
fn short_files_of_zeros_of_every_k() {
    for (k, head, length) in SHORT_DAYS {
        let mut words: Vec<u32> = vec![head];
        words.resize(length / 4, 0xC0000000);
        let mut file = vec![7; length];
        let packed = pack_short(&vec![0; 12 * k + 4], NO_CLAIM, &mut file);
        assert_eq!(packed, Ok(()), "{k}");
        assert!(file == bytes(&words), "{k}");
        let mut taps = vec![7; 12 * k + 4];
        assert_eq!(unpack_short(&file, &mut taps), Ok(NO_CLAIM), "{k}");
        assert!(taps == vec![0; 12 * k + 4], "{k}");
    }
}

/// Where each element is p - 1, the short file is as long as the full one.
#[test]
fn short_files_without_a_small_element() {
    for (k, head, _) in SHORT_DAYS.into_iter().take_while(|day| day.0 <= 4096) {
        let mut words: Vec<u32> = vec![head];
        for _ in 0..12 * k + 8 {
            words.extend([0x40000002, 0x80000050, 0xC0000000]);
        }
        let largest = vec![P - 1; 12 * k + 4];
        let mut file = vec![7; 144 * k + 100];
        let packed = pack_short(&largest, [P - 1; 4], &mut file);
        assert_eq!(packed, Ok(()), "{k}");
        assert!(file == bytes(&words), "{k}");
        let mut taps = vec![7; 12 * k + 4];
        assert_eq!(unpack_short(&file, &mut taps), Ok([P - 1; 4]), "{k}");
        assert!(taps == largest, "{k}");
    }
}

/// From 2048 batches on there is no full file: none is read, none written, and a short
/// one is not converted, be it of zeros or of p - 1.
#[test]
fn no_full_files_of_more_than_1024_batches() {
    for (k, head, length) in SHORT_DAYS[11..13].iter().copied() {
        let refused = Err(Refusal::Value { word: 0 });
        let mut short = vec![head];
        short.resize(length / 4, 0xC0000000);
        let answer = converted(to_full, &bytes(&short), 144 * k + 100);
        assert_eq!(answer, refused, "{k}");
        let mut short = vec![head];
        short.extend([0x40000002, 0x80000050, 0xC0000000].repeat(12 * k + 8));
        let answer = converted(to_full, &bytes(&short), 144 * k + 100);
        assert_eq!(answer, refused, "{k}");

        let mut full = vec![head - 0x20000000];
        full.extend([0x40000000, 0x80000000, 0xC0000000].repeat(12 * k + 8));
        assert_eq!(4 * full.len(), 144 * k + 100);
        let answer = unpack(&bytes(&full), &mut vec![7; 12 * k + 4]);
        assert_eq!(answer, Err(Refusal::Value { word: 0 }), "{k}");
        let answer = converted(to_short, &bytes(&full), length);
        assert_eq!(answer, refused, "{k}");
        let taps = vec![0; 12 * k + 4];
        let packed = pack(&taps, NO_CLAIM, &mut vec![7; 144 * k + 100]);
        assert_eq!(packed, Err(Refusal::TapLength), "{k}");
    }
}

/// 2^19 is no count in the short edition either, as long as its file may be.
#[test]
fn no_file_of_524288_batches() {
    let taps = vec![0; 6291460];
    let packed = pack_short(&taps, NO_CLAIM, &mut vec![7; 25165860]);
    assert_eq!(packed, Err(Refusal::TapLength));
    let mut file = bytes(&[0x20080000]);
    file.resize(25165860, 0xC0);
    let answer = unpack_short(&file, &mut vec![0; 6291460]);
    assert_eq!(answer, Err(Refusal::Value { word: 0 }));
}

/// Each reader refuses the other edition on word 0. With the mark, the full file of
/// zeros has zeros in three words, from word 1 on.
#[test]
fn the_other_edition() {
    let refused = Err(Refusal::Value { word: 0 });
    let mut full = zero_file();
    assert_eq!(unpack_short(&full, &mut [7; 16]), refused);
    let short = bytes(&short_zero_words());
    assert_eq!(unpack(&short, &mut [7; 16]), refused);
    assert_eq!(clear(&input(&z_raw(), &short)), "refused 14 0\n");
    full[3] = 0x20;
    assert_eq!(unpack(&full, &mut [7; 16]), refused);
    assert_eq!(clear(&input(&z_raw(), &full)), "refused 14 0\n");
    let refused = Err(Refusal::LongElement { word: 1 });
    assert_eq!(unpack_short(&full, &mut [7; 16]), refused);
}

/// Word 0 gets the mark, and of each zero two words go.
#[test]
fn the_files_of_zeros_converted() {
    let short = bytes(&short_zero_words());
    assert_eq!(converted(to_short, &zero_file(), 84), Ok(short.clone()));
    assert_eq!(converted(to_full, &short, 244), Ok(zero_file()));
}

/// The words of ELEMENTS in the full edition.
const IN_FULL: [[u32; 3]; 20] = [
    [0x40000000, 0x80000000, 0xC0000000],
    [0x40000000, 0x80000000, 0xFFFFFFFF],
    [0x40000000, 0x80000001, 0xC0000000],
    [0x40000002, 0x80000050, 0xC0000000],
    [0x40000000, 0x80000000, 0xC0000001],
    [0x40000000, 0x80000000, 0xC0001267],
    [0x40000000, 0x80000000, 0xC0000122],
    [0x40000000, 0x80000001, 0xC0000001],
    [0x40000000, 0x80000000, 0xE0000000],
    [0x40000000, 0x80000001, 0xFFFFFFFF],
    [0x40000000, 0x80000002, 0xC0000000],
    [0x40000000, 0x80000004, 0xC0000000],
    [0x40000000, 0xBFFFFFFF, 0xFFFFFFFF],
    [0x40000001, 0x80000000, 0xC0000000],
    [0x40000001, 0x80000000, 0xC0000007],
    [0x40000002, 0x80000000, 0xC0000000],
    [0x40000002, 0x8000004F, 0xFFFFFFFF],
    [0x40000000, 0x80000000, 0xC0000000],
    [0x40000002, 0x80000050, 0xC0000000],
    [0x40000000, 0x80000000, 0xC0000002],
];

/// Each is what a converter makes of the other, so that there and back gives the
/// starting bytes.
fn convert_into_each_other(full: &[u32], short: &[u32]) {
    let (full, short) = (bytes(full), bytes(short));
    let there = converted(to_short, &full, short.len()).expect("converts");
    assert_eq!(there, short);
    let back = converted(to_full, &there, full.len()).expect("converts");
    assert_eq!(back, full);
}

/// 244 bytes and 180, with the same claim and the same taps.
#[test]
fn a_file_of_both_widths_converted() {
    let full = [&[0x00000001], IN_FULL.as_flattened()].concat();
    let mut short = vec![0x20000001];
    short.extend(ELEMENTS.iter().flat_map(|(_, words)| *words));
    assert_eq!((full.len(), short.len()), (61, 45));
    convert_into_each_other(&full, &short);
    let claim = [0, (1 << 30) - 1, 1 << 30, P - 1];
    let (mut from_full, mut from_short) = ([7; 16], [7; 16]);
    assert_eq!(unpack(&bytes(&full), &mut from_full), Ok(claim));
    assert_eq!(unpack_short(&bytes(&short), &mut from_short), Ok(claim));
    let elements = ELEMENTS.map(|(element, _)| element);
    assert_eq!(from_full, elements[4..]);
    assert_eq!(from_short, elements[4..]);
}

/// Each of them at each place of a file of zeros, the claim's four among them: 84 bytes
/// where it has one word, 92 where it has three.
#[test]
fn one_element_at_each_place_converted() {
    for ((element, in_short), in_full) in ELEMENTS.into_iter().zip(IN_FULL) {
        for place in 0..20 {
            let mut full = zero_words();
            full[1 + 3 * place..4 + 3 * place].copy_from_slice(&in_full);
            let mut short = short_zero_words();
            short.splice(1 + place..2 + place, in_short.iter().copied());
            let words = if element < 1 << 30 { 21 } else { 23 };
            assert_eq!(short.len(), words, "{element}");
            convert_into_each_other(&full, &short);
        }
    }
}

/// Zeros and p - 1 in the claim and in the taps: each of the claim's four has 8 bytes
/// more in three words, and each of the 12k + 4 of the taps. Where all are p - 1, the
/// mark is the only difference.
#[test]
fn conversions_of_every_k() {
    let largest = [0x40000002, 0x80000050, 0xC0000000];
    let zero = ([0x40000000, 0x80000000, 0xC0000000], &[0xC0000000][..]);
    let largest = (largest, &largest[..]);
    for (k, head, length) in SHORT_DAYS[..11].iter().copied() {
        for (claim, taps, short_length) in [
            (zero, zero, length),
            (largest, zero, 48 * k + 68),
            (zero, largest, 144 * k + 68),
            (largest, largest, 144 * k + 100),
        ] {
            let mut full = vec![head - 0x20000000];
            full.extend(claim.0.repeat(4));
            full.extend(taps.0.repeat(12 * k + 4));
            assert_eq!(4 * full.len(), 144 * k + 100, "{k}");
            let mut short = vec![head];
            short.extend(claim.1.repeat(4));
            short.extend(taps.1.repeat(12 * k + 4));
            assert_eq!(4 * short.len(), short_length, "{k}");
            convert_into_each_other(&full, &short);
        }
    }
}

/// 19, whatever the destination.
#[test]
fn files_of_the_wanted_edition() {
    let refused = Err(Refusal::SameEdition);
    let (full, short) = (zero_file(), bytes(&short_zero_words()));
    for length in [0, 83, 84, 85, 243, 244, 245] {
        assert_eq!(converted(to_short, &short, length), refused, "{length}");
        assert_eq!(converted(to_full, &full, length), refused, "{length}");
    }
}

/// p at each place of a file of zeros: 14 at its first word.
#[test]
fn p_minus_1_passes_and_p_does_not_in_conversions() {
    for place in 0..20 {
        let (in_full, in_short) = (1 + 3 * place, 1 + place);
        let mut full = zero_words();
        full[in_full..in_full + 3].copy_from_slice(&[0x40000002, 0x80000050, 0xC0000000]);
        let mut short = short_zero_words();
        short.splice(in_short..=in_short, [0x40000002, 0x80000050, 0xC0000000]);
        convert_into_each_other(&full, &short);
        full[in_full + 2] = 0xC0000001;
        let word = in_full as u64;
        let refused = Err(Refusal::Value { word });
        assert_eq!(converted(to_short, &bytes(&full), 92), refused);
        short[in_short + 2] = 0xC0000001;
        let word = in_short as u64;
        let refused = Err(Refusal::Value { word });
        assert_eq!(converted(to_full, &bytes(&short), 244), refused);
    }
}
