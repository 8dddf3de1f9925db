//! Pack and Unpack in both editions against documents 01 and 02, written a second time in
//! another manner (`common/files.rs`), and against the short files that U7 read.

mod common;
use common::files::*;
use common::*;
use second::field::P;
use second::{pack, pack_short, unpack, unpack_short, Refusal};

#[test]
fn files_there_and_back() {
    let mut random = Random(9);
    for k in [1, 2, 16, 1024] {
        let mut taps = random.canonicals(12 * k + 4);
        taps[5] = P - 1;
        taps[6] = (1 << 60) - 1;
        let claim: [u64; 4] = std::array::from_fn(|_| random.canonical());
        let elements = claim.iter().chain(&taps);
        let mut words = vec![k as u64];
        words.extend(elements.flat_map(|&element| three_words(element)));
        let mut file = vec![7; 144 * k + 100];
        assert_eq!(pack(&taps, claim, &mut file), Ok(()));
        assert_eq!(file, low_byte_first(&words));
        let mut read = vec![7; 12 * k + 4];
        assert_eq!(unpack(&file, &mut read), Ok(claim));
        assert_eq!(read, taps);
    }
}

/// Word 0 has the mark, and an element below 2^30 its low 30 bits alone.
#[test]
fn short_files_there_and_back() {
    let mut random = Random(20);
    for k in [1, 2, 16, 1024, 2048, 4096] {
        let (taps, claim) = day_of_any_widths(&mut random, k);
        let mut words = vec![(1 << 29) + k as u64];
        for &element in claim.iter().chain(&taps) {
            let from = if element < 1 << 30 { 2 } else { 0 };
            words.extend(&three_words(element)[from..]);
        }
        let mut file = vec![7; 4 * words.len()];
        assert_eq!(pack_short(&taps, claim, &mut file), Ok(()));
        assert_eq!(file, low_byte_first(&words));
        let mut read = vec![7; 12 * k + 4];
        assert_eq!(unpack_short(&file, &mut read), Ok(claim));
        assert_eq!(read, taps);
    }
}

#[test]
fn short_files_from_full_ones_and_back() {
    let mut random = Random(21);
    for k in IN_FULL {
        let (taps, claim) = day_of_any_widths(&mut random, k);
        let (full, short) = (full_file(&taps, claim), short_file(&taps, claim));
        assert_eq!(full.len(), 144 * k + 100);
        assert_eq!(short, less_empty_words(&full), "k = {k}");
        assert_eq!(full, with_empty_words(&short), "k = {k}");
    }
}

/// Of all lengths up to the full file's and beyond, the writer takes the one that the
/// elements need; it is the full file's where none is below 2^30.
#[test]
fn lengths_of_short_files() {
    let mut random = Random(22);
    for small in 0..=20 {
        let mut elements = vec![(1 << 30) - 1; small];
        elements.resize(20, 1 << 30);
        elements.rotate_left(random.word() as usize % 20);
        let claim = elements[..4].try_into().expect("four words");
        let accepted = |length: &usize| {
            let mut file = vec![7; *length];
            pack_short(&elements[4..], claim, &mut file).is_ok()
        };
        let lengths: Vec<usize> = (0..=260).filter(accepted).collect();
        assert_eq!(lengths, [244 - 8 * small], "{elements:x?}");
    }
}

/// What is accepted is what the writer makes of it, so that a claim with its list has
/// one short file: honest files with each bit changed, each word left out, and each
/// word twice.
#[test]
fn one_short_file_for_each_claim_and_list() {
    let mut random = Random(23);
    let (taps, claim) = day_of_any_widths(&mut random, 1);
    let small = small_elements(&taps, claim);
    let file = short_file(&taps, claim);
    let others = changed_words(&file).into_iter().chain(changed_bits(&file));
    let mut accepted = 0;
    for other in others {
        let mut read = vec![7; 16];
        let Ok(claimed) = unpack_short(&other, &mut read) else {
            assert_eq!(read, [7; 16]);
            continue;
        };
        assert_ne!((claimed, &read), (claim, &taps));
        let mut again = vec![7; other.len()];
        assert_eq!(pack_short(&read, claimed, &mut again), Ok(()));
        assert_eq!(again, other);
        accepted += 1;
    }
    // Each bit of a one-word element below its kind.
    assert!(accepted >= 30 * small, "{accepted}");
}

/// What U7 read in word 0: kind 0, the mark, bits 16 to 28 zero, and a k of one set bit
/// in bits 0 to 15, from 1 to 1024.
fn k_by_u7(word: u32) -> Option<usize> {
    let (kind, mark, spare) = (word >> 30, word >> 29 & 1, word >> 16 & 0x1FFF);
    let k = (word & 0xFFFF) as usize;
    let is_k = (1..=1024).contains(&k) && k.count_ones() == 1;
    (kind == 0 && mark == 1 && spare == 0 && is_k).then_some(k)
}

/// What U7 read in a short file: claim and taps, as one list of elements.
fn read_by_u7(file: &[u8]) -> Option<Vec<u64>> {
    let (words, more) = file.as_chunks::<4>();
    let words: Vec<u32> = words.iter().map(|&word| u32::from_le_bytes(word)).collect();
    let (&head, mut rest) = words.split_first()?;
    let mut elements = vec![];
    for _ in 0..12 * k_by_u7(head)? + 8 {
        let element;
        (element, rest) = element_by_u7(rest)?;
        elements.push(element);
    }
    (rest.is_empty() && more.is_empty()).then_some(elements)
}

/// The first element of these words, and those after it.
fn element_by_u7(words: &[u32]) -> Option<(u64, &[u32])> {
    let payload = |word: u32| (word & 0x3FFFFFFF) as u128;
    match *words {
        [word, ..] if word >> 30 == 3 => Some((payload(word) as u64, &words[1..])),
        [high, middle, low, ..] if [high, middle, low].map(|word| word >> 30) == [1, 2, 3] => {
            let element = (payload(high) << 60) + (payload(middle) << 30) + payload(low);
            let needs_three = (1 << 30..P as u128).contains(&element);
            needs_three.then_some((element as u64, &words[3..]))
        }
        _ => None,
    }
}

/// What the reader takes, where there is room: claim and taps, as one list of elements.
fn read_now(file: &[u8]) -> Option<Vec<u64>> {
    let mut taps = room_for_taps(file);
    let claim = unpack_short(file, &mut taps).ok()?;
    Some([&claim[..], &taps].concat())
}

/// Words that may stand at the start of a file: each value of either half beside some of
/// the other, each with at most three bits set, and others of few bits.
fn words_0(random: &mut Random) -> Vec<u32> {
    let mut words: Vec<u32> = (0..=0xFFFF)
        .flat_map(|half: u32| [half, 0x20000000 + half, half << 16, 1 + (half << 16)])
        .collect();
    let bits = 0..32;
    for one in bits.clone() {
        for two in bits.clone() {
            words.extend(bits.clone().map(|three| 1 << one | 1 << two | 1 << three));
        }
    }
    for _ in 0..50_000 {
        let few = random.word() & random.word() & random.word();
        words.push(few as u32);
        words.push(few as u32 & 0x1FFFFFFF | 0x20000000);
    }
    words.sort();
    words.dedup();
    words
}

/// "Short files already stored keep their meaning byte for byte." Of all words 0 that U7
/// took, each has its file with the same claim and taps, and that file is written still;
/// of the others, those are taken now that have one of bits 11 to 18.
#[test]
fn short_files_already_stored() {
    let mut random = Random(30);
    let days = IN_FULL.map(|k| day_of_any_widths(&mut random, k));
    let mut taken = 0;
    for word in words_0(&mut random) {
        let head = low_byte_first(&[word as u64]);
        let Some(k) = k_by_u7(word) else {
            let answer = unpack_short(&head, &mut []).expect_err("no room");
            let is_k = answer == Refusal::DestinationLength;
            let larger = LARGER.iter().any(|&k| head == short_head(k));
            assert_eq!(is_k, larger, "{word:08x}");
            continue;
        };
        let (taps, claim) = &days[k.ilog2() as usize];
        let file = [&head, &short_file(taps, *claim)[4..]].concat();
        let elements = [&claim[..], taps].concat();
        assert_eq!(read_by_u7(&file), Some(elements.clone()), "{word:08x}");
        assert_eq!(read_now(&file), Some(elements), "{word:08x}");
        assert_eq!(short_file(taps, *claim), file, "{word:08x}");
        taken += 1;
    }
    assert_eq!(taken, 11);
}

/// Damaged files that U7 took are taken with the same claim and taps, and the others are
/// not: with more batches in word 0, they end too early.
#[test]
fn damaged_short_files_already_stored() {
    let mut random = Random(31);
    let (mut taken, mut refused) = (0, 0);
    for case in 0..6000 {
        let [_, mut file] = both_editions(&mut random, 1 << (case % 3));
        if case % 16 == 0 {
            let larger = short_head(LARGER[case / 16 % LARGER.len()]);
            file.splice(..4, larger).for_each(drop);
        }
        for _ in 0..case % 4 {
            damage(&mut random, &mut file);
        }
        let elements = read_by_u7(&file);
        assert_eq!(read_now(&file), elements, "{file:x?}");
        match elements {
            Some(_) => taken += 1,
            None => refused += 1,
        }
    }
    assert!(taken > 1000 && refused > 1000, "{taken}, {refused}");
}

/// The uniqueness of files above 1024 batches: a file with each bit of word 0 changed,
/// and with other bits changed and words left out or twice, here and there. What is
/// accepted is what the writer makes of it.
#[test]
fn one_short_file_of_2048_batches() {
    let mut random = Random(32);
    let (taps, claim) = day_of_any_widths(&mut random, 2048);
    let file = short_file(&taps, claim);
    let mut others: Vec<Vec<u8>> = changed_bits(&file).take(32).collect();
    for _ in 0..100 {
        let byte = random.word() as usize % file.len();
        let mut other = file.clone();
        other[byte] ^= 1 << (random.word() % 8);
        others.push(other);
        let word = random.word() as usize % (file.len() / 4);
        let (before, from) = file.split_at(4 * word);
        others.push([before, &from[4..]].concat());
        others.push([before, &from[..4], from].concat());
    }
    let mut accepted = 0;
    let mut read = vec![7; 24580];
    for other in others {
        let Ok(claimed) = unpack_short(&other, &mut read) else {
            continue;
        };
        assert!((claimed, &read) != (claim, &taps));
        assert!(short_file(&read, claimed) == other);
        accepted += 1;
    }
    // A bit of an element below its kind, as most of the 100 are.
    assert!((50..=100).contains(&accepted), "{accepted}");
}
