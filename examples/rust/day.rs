//! A day from the depot to the clearing office and back, under a table of
//! document 01's known days.
//!
//!     cargo run --offline -p lemoncolumn --example day

use lemoncolumn::*;

/// A: M the identity, all constants zero but K_0[0], which is 1.
fn raw_table() -> [u64; RAW_WORDS] {
    let mut raw = [0; RAW_WORDS];
    for i in 0..12 {
        raw[13 * i] = 1;
    }
    raw[144] = 1;
    raw
}

/// The final state of the last hash of a list. Cells 0 to 3 of a final state are the
/// first tap of the next hash.
fn final_state(table: &[u64], taps: &[u64]) -> Result<[u64; STATE_WORDS], Refusal> {
    let mut state = [0; STATE_WORDS];
    state[..4].copy_from_slice(&taps[..4]);
    for tap in taps[4..].chunks_exact(4) {
        let mut words = [0; 8];
        words[..4].copy_from_slice(&state[..4]);
        words[4..].copy_from_slice(tap);
        state = hash(table, words)?;
    }
    Ok(state)
}

/// What the office does for a depot with older cradles, which read only full files: it
/// converts what came over the radio link. The cradle gets the file that was packed, and
/// back come the bytes of the radio link.
fn converted(short: &[u8], file: &[u8]) -> Result<(), Refusal> {
    let mut cradle = vec![0; to_full_bytes(short).unwrap_or(0)];
    to_full(short, &mut cradle)?;
    let mut back = vec![0; to_short_bytes(&cradle).unwrap_or(0)];
    to_short(&cradle, &mut back)?;
    println!("converted to {} bytes and {}", cradle.len(), back.len());
    println!("the same files: {}", cradle == file && back == short);

    // The cradle has a full file already.
    if let Err(refusal) = to_full(file, &mut cradle) {
        println!("{refusal}: {refusal:?}");
    }
    Ok(())
}

/// A day that closes after three batches. Its trace has four, since k is a power of
/// two, and the taps of the fourth are filler.
fn closed_early(table: &[u64]) -> Result<(), Refusal> {
    let (k, c) = (4, 3);
    let taps = vec![0; tap_words(k)];
    let mut trace = vec![0; trace_words(k)];
    let all = build(table, &taps, &mut trace)?;

    // The claim is the output of the day's own 3c + 1 taps. `chain` would not take
    // them alone, as 3 is no k.
    let [c0, c1, c2, c3, ..] = final_state(table, &taps[..tap_words(c)])?;
    let claim = [c0, c1, c2, c3];
    println!("closed at {claim:?}, with the filler {all:?}");
    println!("{} tests", check(table, &trace, claim, c)?);

    // A tap of the filler alters the trace and leaves the claim; one of the day alters
    // both.
    let output = edit(table, &mut trace, claim, c, 3 * c + 1, [1, 2, 3, 4])?;
    println!("filler corrected {output:?}");
    let output = edit(table, &mut trace, output, c, 0, [5, 6, 7, 9])?;
    println!("corrected {output:?}");

    // The old claim, and more batches than there are.
    for (claim, c) in [(claim, c), (output, k + 1)] {
        if let Err(refusal) = check(table, &trace, claim, c) {
            println!("{refusal}: {refusal:?}");
        }
    }
    Ok(())
}

fn main() -> Result<(), Refusal> {
    let mut table = [0; TABLE_WORDS];
    prepare(&raw_table(), &mut table)?;

    // The depot: four zero taps, and their trace.
    let k = 1;
    let mut taps = vec![0; tap_words(k)];
    let mut trace = vec![0; trace_words(k)];
    let mut output = build(&table, &taps, &mut trace)?;
    println!("output {output:?}");

    // The cash desk corrects the first tap and the last, in the list and in the trace.
    // Under this table the last one does not reach the output. c = k: the claim is the
    // output of all taps.
    for (tap, new) in [(0, [5, 6, 7, 9]), (3 * k, [1, 2, 3, 4])] {
        taps[4 * tap..4 * tap + 4].copy_from_slice(&new);
        output = edit(&table, &mut trace, output, k, tap, new)?;
        println!("corrected {output:?}");
    }

    // The board file, and its short edition for the radio link.
    let mut file = vec![0; file_bytes(k)];
    pack(&taps, output, &mut file)?;
    let mut short = vec![0; short_file_bytes(&taps, output)];
    pack_short(&taps, output, &mut short)?;
    println!("{} bytes, over radio {}", file.len(), short.len());

    // The office: what came over the radio link, which is what the file has, and the
    // trace under its claim. The length of a short file does not say its k.
    let mut list = vec![0; short_batches(&short).map_or(0, tap_words)];
    let claim = unpack_short(&short, &mut list)?;
    let mut filed = vec![0; tap_words(k)];
    let same = unpack(&file, &mut filed)? == claim && filed == list;
    println!("the same board: {same}");
    converted(&short, &file)?;
    println!("{} tests", check(&table, &trace, claim, k)?);
    let mut read = vec![0; tap_words(k)];
    read_off(&table, &trace, claim, k, &mut read)?;
    println!("the same taps: {}", read == list);

    // The final state, which the last tap does reach, is the last row of the trace.
    let state = final_state(&table, &list)?;
    println!("final state {state:?}");
    let last_row = &trace[trace_words(k) - STATE_WORDS..];
    println!("the same final state: {}", state == last_row);

    // An archive that has kept that row alone: the output before the last tap, and
    // the last tap.
    let archived = last_row.try_into().expect("twelve cells");
    let pair = unhash(&table, archived)?;
    println!("before {:?}, last tap {:?}", &pair[..4], &pair[4..]);

    closed_early(&table)?;

    // A trace that was altered, a word that is no element, a tap past the last, a row
    // in which no hash ends, a short file that was cut, and a full one with the mark of
    // the short edition, in which small numbers have three words.
    trace[12 * 11 + 5] = 1;
    if let Err(refusal) = check(&table, &trace, claim, k) {
        println!("{refusal}: {refusal:?}");
    }
    if let Err(refusal) = hash(&table, [0, 0, 0, P, 0, 0, 0, 0]) {
        println!("{refusal}: {refusal:?}");
    }
    if let Err(refusal) = edit(&table, &mut trace, claim, k, 3 * k + 1, [0; 4]) {
        println!("{refusal}: {refusal:?}");
    }
    if let Err(refusal) = unhash(&table, [1; STATE_WORDS]) {
        println!("{refusal}: {refusal:?}");
    }
    file[..4].copy_from_slice(&short[..4]);
    for file in [&short[..short.len() - 1], &file] {
        if let Err(refusal) = unpack_short(file, &mut list) {
            println!("{refusal}: {refusal:?}");
        }
    }
    Ok(())
}
