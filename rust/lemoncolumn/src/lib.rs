//! The proved operations of documents 01 and 02, for Rust.
//!
//! Each call answers a full result or a [`Refusal`], and a refused call leaves
//! every lent buffer as it was. Lengths are tested by the library, so any slice
//! may be lent. Words are unsigned 64-bit numbers; the library tests that they
//! are canonical, that is, below [`P`].
//!
//! # Panics
//!
//! Where a call takes other parameters, or another length for the same k, than it
//! did, the number of the interface is raised, since a linker would not notice. So each call first asks the linked
//! library for its number, which takes about a nanosecond. Where that is not
//! [`INTERFACE`], the call panics and lends nothing.

pub mod calls;
mod files;
mod interface;
mod refusal;

pub use files::{
    batches, raw_table, short_batches, short_file_bytes, to_full_bytes, to_short_bytes,
    MOST_BATCHES, MOST_FILE_BATCHES, RAW_BYTES,
};
pub use interface::INTERFACE;
pub use refusal::{decode, Refusal};

use calls::*;
use interface::call;
use refusal::accepted;

/// The prime of the field.
pub const P: u64 = (1 << 61) + 20 * (1 << 32) + 1;
/// Words of a raw table: M, row by row, then K_0 to K_20.
pub const RAW_WORDS: usize = 396;
/// Words of a prepared table: M, its inverse, then K_0 to K_20.
pub const TABLE_WORDS: usize = 540;
/// Words of a hash's final state.
pub const STATE_WORDS: usize = 12;
/// Words of two taps.
pub const PAIR_WORDS: usize = 8;

/// Words of the tap list of k batches, k a power of two up to [`MOST_BATCHES`].
pub const fn tap_words(k: usize) -> usize {
    12 * k + 4
}

/// Words of the trace of k batches.
pub const fn trace_words(k: usize) -> usize {
    384 * k
}

/// Bytes of the board file of k batches, which has at most [`MOST_FILE_BATCHES`].
pub const fn file_bytes(k: usize) -> usize {
    144 * k + 100
}

/// Writes the prepared table of a raw one.
pub fn prepare(raw: &[u64], table: &mut [u64]) -> Result<(), Refusal> {
    // SAFETY: a slice's pointer and length are valid, and `table` is lent to
    // this call alone. The same holds below.
    let code = call(|| unsafe {
        lemoncolumn_prepare(raw.as_ptr(), raw.len(), table.as_mut_ptr(), table.len())
    });
    accepted(code)
}

/// Hashes two taps, words 0 to 3 and words 4 to 7; answers the final state, all
/// twelve cells. Cells 0 to 3 are the documentation's hash, with which [`chain`],
/// [`build`] and [`edit`] go on.
pub fn hash(table: &[u64], words: [u64; PAIR_WORDS]) -> Result<[u64; STATE_WORDS], Refusal> {
    let [a, b, c, d, e, f, g, h] = words;
    let mut state = [0; STATE_WORDS];
    let code = call(|| unsafe {
        lemoncolumn_hash(
            table.as_ptr(),
            table.len(),
            a,
            b,
            c,
            d,
            e,
            f,
            g,
            h,
            state.as_mut_ptr(),
            state.len(),
        )
    });
    accepted(code).map(|()| state)
}

/// The two taps whose [`hash`] ends in this state, the first tap in words 0 to 3. At
/// most one pair does, and it is found; where none does, the answer is
/// [`Refusal::NoPair`]. The cells are tested as tap words, with index 0 to 11.
///
/// A depot that has kept row 31 of a batch alone gets back that batch's last tap, and
/// as the first tap the output of the chain before it.
///
/// ```
/// use lemoncolumn::*;
///
/// let mut raw = [0; RAW_WORDS];
/// for i in 0..12 {
///     raw[13 * i] = 1; // M the identity, all constants zero
/// }
/// let mut table = [0; TABLE_WORDS];
/// prepare(&raw, &mut table)?;
///
/// let taps = [1, 2, 3, 4, 5, 6, 7, 9];
/// let mut state = hash(&table, taps)?;
/// assert_eq!(unhash(&table, state), Ok(taps));
///
/// state[11] = 1; // under this table every hash ends in four zeros
/// assert_eq!(unhash(&table, state), Err(Refusal::NoPair));
/// # Ok::<(), Refusal>(())
/// ```
pub fn unhash(table: &[u64], state: [u64; STATE_WORDS]) -> Result<[u64; PAIR_WORDS], Refusal> {
    let [a, b, c, d, e, f, g, h, i, j, k, l] = state;
    let mut pair = [0; PAIR_WORDS];
    let code = call(|| unsafe {
        lemoncolumn_unhash(
            table.as_ptr(),
            table.len(),
            a,
            b,
            c,
            d,
            e,
            f,
            g,
            h,
            i,
            j,
            k,
            l,
            pair.as_mut_ptr(),
            pair.len(),
        )
    });
    accepted(code).map(|()| pair)
}

/// The output of the chain of a list of taps.
pub fn chain(table: &[u64], taps: &[u64]) -> Result<[u64; 4], Refusal> {
    let mut output = [0; 4];
    let code = call(|| unsafe {
        lemoncolumn_chain(
            table.as_ptr(),
            table.len(),
            taps.as_ptr(),
            taps.len(),
            output.as_mut_ptr(),
            output.len(),
        )
    });
    accepted(code).map(|()| output)
}

/// Writes the trace of a list of taps; answers the output of its chain, which is the
/// claim with c = k.
pub fn build(table: &[u64], taps: &[u64], trace: &mut [u64]) -> Result<[u64; 4], Refusal> {
    let mut output = [0; 4];
    let code = call(|| unsafe {
        lemoncolumn_build(
            table.as_ptr(),
            table.len(),
            taps.as_ptr(),
            taps.len(),
            trace.as_mut_ptr(),
            trace.len(),
            output.as_mut_ptr(),
            output.len(),
        )
    });
    accepted(code).map(|()| output)
}

/// Tests a trace against a claim; answers the number of tests walked. The claim is
/// the output of the first 3c + 1 taps, c from 1 to k ([`Refusal::ClaimBatches`]), and
/// c = k is the whole trace.
///
/// A day that closes after 3 batches has a trace of 4 all the same, since k is a power
/// of two. Its claim ends with its own taps, and the batch that follows is filler:
///
/// ```
/// use lemoncolumn::*;
///
/// let mut raw = [0; RAW_WORDS];
/// for i in 0..12 {
///     raw[12 * i + (i + 11) % 12] = 1; // under this table the output is the last tap
/// }
/// let mut table = [0; TABLE_WORDS];
/// prepare(&raw, &mut table)?;
///
/// let (k, c) = (4, 3);
/// let mut taps = [0; tap_words(4)];
/// for (tap, words) in taps.chunks_mut(4).enumerate().take(3 * c + 1) {
///     words.fill(tap as u64); // taps 0 to 9 are the day's, those after it zeros
/// }
/// let mut trace = [0; trace_words(4)];
/// build(&table, &taps, &mut trace)?; // returns the output of all taps, that is, with c = k
///
/// // The day's own output stands in the last row of its last batch.
/// let last_row = &trace[trace_words(c) - STATE_WORDS..];
/// let claim = [last_row[0], last_row[1], last_row[2], last_row[3]];
/// assert_eq!(claim, [9; 4]);
/// assert_eq!(check(&table, &trace, claim, c), Ok(372 * k));
/// assert!(check(&table, &trace, claim, 4).is_err());
/// assert_eq!(check(&table, &trace, claim, 5), Err(Refusal::ClaimBatches));
/// # Ok::<(), Refusal>(())
/// ```
pub fn check(table: &[u64], trace: &[u64], claim: [u64; 4], c: usize) -> Result<u64, Refusal> {
    let [c0, c1, c2, c3] = claim;
    let code = call(|| unsafe {
        lemoncolumn_check(
            table.as_ptr(),
            table.len(),
            trace.as_ptr(),
            trace.len(),
            c0,
            c1,
            c2,
            c3,
            c,
        )
    });
    decode(code)
}

/// The same, and writes the taps of an accepted trace, all 3k + 1 whatever c is.
pub fn read_off(
    table: &[u64],
    trace: &[u64],
    claim: [u64; 4],
    c: usize,
    taps: &mut [u64],
) -> Result<u64, Refusal> {
    let [c0, c1, c2, c3] = claim;
    let code = call(|| unsafe {
        lemoncolumn_read_off(
            table.as_ptr(),
            table.len(),
            trace.as_ptr(),
            trace.len(),
            c0,
            c1,
            c2,
            c3,
            c,
            taps.as_mut_ptr(),
            taps.len(),
        )
    });
    decode(code)
}

/// Tests a trace against a claim as [`check`] does, and replaces tap number `tap` of
/// its list, 0 to 3k: the lent trace becomes that of the altered list. Answers the
/// output of the first 3c + 1 taps of that list, which is the claim where `tap` is
/// above 3c.
pub fn edit(
    table: &[u64],
    trace: &mut [u64],
    claim: [u64; 4],
    c: usize,
    tap: usize,
    new: [u64; 4],
) -> Result<[u64; 4], Refusal> {
    let [c0, c1, c2, c3] = claim;
    let [w0, w1, w2, w3] = new;
    let mut output = [0; 4];
    let code = call(|| unsafe {
        lemoncolumn_edit(
            table.as_ptr(),
            table.len(),
            trace.as_mut_ptr(),
            trace.len(),
            c0,
            c1,
            c2,
            c3,
            c,
            tap,
            w0,
            w1,
            w2,
            w3,
            output.as_mut_ptr(),
            output.len(),
        )
    });
    accepted(code).map(|()| output)
}

/// Writes the board file of a list of taps and a claim. The file has no c: its claim
/// is about all of its taps, c = k. A list of more than [`MOST_FILE_BATCHES`], which has
/// a short file alone, is [`Refusal::TapLength`].
pub fn pack(taps: &[u64], claim: [u64; 4], file: &mut [u8]) -> Result<(), Refusal> {
    let [c0, c1, c2, c3] = claim;
    let code = call(|| unsafe {
        lemoncolumn_pack(
            taps.as_ptr(),
            taps.len(),
            c0,
            c1,
            c2,
            c3,
            file.as_mut_ptr(),
            file.len(),
        )
    });
    accepted(code)
}

/// Writes the taps of a board file; answers its claim.
pub fn unpack(file: &[u8], taps: &mut [u64]) -> Result<[u64; 4], Refusal> {
    let mut claim = [0; 4];
    let code = call(|| unsafe {
        lemoncolumn_unpack(
            file.as_ptr(),
            file.len(),
            taps.as_mut_ptr(),
            taps.len(),
            claim.as_mut_ptr(),
            claim.len(),
        )
    });
    accepted(code).map(|()| claim)
}

/// Writes the short edition of the board file of a list of taps and a claim, where an
/// element below 2^30 has one word and any other three; [`short_file_bytes`] says how
/// many bytes that takes. A claim with its list has one short file, and it may be of
/// [`MOST_BATCHES`].
///
/// ```
/// use lemoncolumn::*;
///
/// let k = 1;
/// let mut taps = vec![290; tap_words(k)]; // 16 words, one of them a card's number
/// taps[7] = 1 << 40;
/// let claim = [0, 1, 2, 3];
///
/// // Word 0, 19 elements of one word, and one of three.
/// let mut file = vec![0; short_file_bytes(&taps, claim)];
/// assert_eq!(file.len(), 4 + 19 * 4 + 12);
/// assert_eq!(file_bytes(k), 244);
/// pack_short(&taps, claim, &mut file)?;
///
/// // Whoever receives it learns k from its first word.
/// let k = short_batches(&file).expect("a short file");
/// let mut read = vec![0; tap_words(k)];
/// assert_eq!(unpack_short(&file, &mut read)?, claim);
/// assert_eq!(read, taps);
///
/// // Neither edition is read as the other, and a file that was cut is refused.
/// let other_edition = Refusal::WrongValue { word: 0 };
/// assert_eq!(unpack(&file, &mut read), Err(other_edition));
/// let mut full = vec![0; file_bytes(k)];
/// pack(&taps, claim, &mut full)?;
/// assert_eq!(unpack_short(&full, &mut read), Err(other_edition));
/// file.pop();
/// assert_eq!(unpack_short(&file, &mut read), Err(Refusal::FileLength));
/// # Ok::<(), Refusal>(())
/// ```
pub fn pack_short(taps: &[u64], claim: [u64; 4], file: &mut [u8]) -> Result<(), Refusal> {
    let [c0, c1, c2, c3] = claim;
    let code = call(|| unsafe {
        lemoncolumn_pack_short(
            taps.as_ptr(),
            taps.len(),
            c0,
            c1,
            c2,
            c3,
            file.as_mut_ptr(),
            file.len(),
        )
    });
    accepted(code)
}

/// Writes the taps of a short file; answers its claim. [`short_batches`] says for how
/// many batches. An element in three words that needs one is
/// [`Refusal::LongElement`], and bytes after the last element are
/// [`Refusal::FileLength`].
pub fn unpack_short(file: &[u8], taps: &mut [u64]) -> Result<[u64; 4], Refusal> {
    let mut claim = [0; 4];
    let code = call(|| unsafe {
        lemoncolumn_unpack_short(
            file.as_ptr(),
            file.len(),
            taps.as_mut_ptr(),
            taps.len(),
            claim.as_mut_ptr(),
            claim.len(),
        )
    });
    accepted(code).map(|()| claim)
}

/// Writes the short edition of a full file: the same claim, the same taps.
/// [`to_short_bytes`] says how many bytes that takes. The file is tested as [`unpack`]
/// tests it; where it is a short one already, the answer is [`Refusal::SameEdition`].
/// The length of the destination is tested last.
///
/// ```
/// use lemoncolumn::*;
///
/// let k = 1;
/// let mut taps = vec![290; tap_words(k)]; // 16 words, one of them a card's number
/// taps[7] = 1 << 40;
/// let mut file = vec![0; file_bytes(k)];
/// pack(&taps, [0, 1, 2, 3], &mut file)?;
///
/// // For the radio link, and there for an older cradle, which reads only full files.
/// let mut short_file = vec![0; to_short_bytes(&file).expect("the length of a full file")];
/// to_short(&file, &mut short_file)?;
/// assert_eq!((file.len(), short_file.len()), (244, 92));
/// let mut back = vec![0; to_full_bytes(&short_file).expect("a short file")];
/// to_full(&short_file, &mut back)?;
/// assert_eq!(back, file);
///
/// // A file that is in the wanted edition already, and another length than its own.
/// let converted = to_short(&short_file, &mut back);
/// assert_eq!(converted, Err(Refusal::SameEdition));
/// assert_eq!(to_full(&file, &mut back), Err(Refusal::SameEdition));
/// back.push(0);
/// let converted = to_full(&short_file, &mut back);
/// assert_eq!(converted, Err(Refusal::DestinationLength));
/// # Ok::<(), Refusal>(())
/// ```
pub fn to_short(file: &[u8], short_file: &mut [u8]) -> Result<(), Refusal> {
    let code = call(|| unsafe {
        lemoncolumn_to_short(
            file.as_ptr(),
            file.len(),
            short_file.as_mut_ptr(),
            short_file.len(),
        )
    });
    accepted(code)
}

/// Writes the full edition of a short file, from which [`to_short`] makes the same
/// bytes again. [`to_full_bytes`] says how many bytes it takes. The file is tested as
/// [`unpack_short`] tests it; where it is a full one already, the answer is
/// [`Refusal::SameEdition`], and where it has more than [`MOST_FILE_BATCHES`],
/// [`Refusal::WrongValue`] with word 0. The length of the destination is tested last.
///
/// ```
/// use lemoncolumn::*;
///
/// // A season is packed in the short edition alone, and has no full file.
/// let k = 2 * MOST_FILE_BATCHES;
/// let taps = vec![290; tap_words(k)];
/// let mut short_file = vec![0; short_file_bytes(&taps, [0; 4])];
/// pack_short(&taps, [0; 4], &mut short_file)?;
/// assert_eq!(short_batches(&short_file), Some(k));
///
/// let mut file = vec![0; file_bytes(k)];
/// assert_eq!(pack(&taps, [0; 4], &mut file), Err(Refusal::TapLength));
/// assert_eq!(to_full_bytes(&short_file), None);
/// let converted = to_full(&short_file, &mut file);
/// assert_eq!(converted, Err(Refusal::WrongValue { word: 0 }));
/// # Ok::<(), Refusal>(())
/// ```
pub fn to_full(short_file: &[u8], file: &mut [u8]) -> Result<(), Refusal> {
    let code = call(|| unsafe {
        lemoncolumn_to_full(
            short_file.as_ptr(),
            short_file.len(),
            file.as_mut_ptr(),
            file.len(),
        )
    });
    accepted(code)
}
