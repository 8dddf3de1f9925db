//! Board files of either edition with something wrong, and what their reader answers to
//! it. Claim and taps are one list of elements here, the claim first.

use inputs::files::{bytes, element_words, widths, Edition, KIND};
use inputs::taps::PERMITTED;
use inputs::Random;
use second::field::P;
use second::Refusal;

/// The k in word 0 of a short file, where it has one.
pub fn k_of_short(file: &[u8]) -> Option<usize> {
    let word = u32::from_le_bytes(*file.first_chunk()?);
    let is_word_0 = |&k: &usize| Edition::Short.word_0(k) == word;
    PERMITTED.into_iter().find(is_word_0)
}

/// Words 0 to be tried: each value of either half, beside the other half of the file of
/// one batch, and the upper half also alone.
pub fn words_0(edition: Edition) -> impl Iterator<Item = u32> {
    let halves = 0..1 << 16;
    let lower = halves.clone().map(move |half| edition.mark() + half);
    lower.chain(halves.flat_map(|half| [half << 16, (half << 16) + 1]))
}

/// A file, its elements, and the first word of each, with where the next one would begin.
pub struct Day {
    pub name: String,
    pub k: usize,
    pub edition: Edition,
    pub elements: Vec<u64>,
    pub words: Vec<u32>,
    pub firsts: Vec<usize>,
}

impl Day {
    pub fn new(seed: u64, edition: Edition, k: usize, (name, elements): (&str, Vec<u64>)) -> Day {
        let mut words = vec![edition.word_0(k)];
        let mut firsts = vec![1];
        for &element in &elements {
            words.extend(edition.element(element));
            firsts.push(words.len());
        }
        Day {
            name: format!("seed {seed}: {edition:?}, k = {k}, {name}"),
            k,
            edition,
            elements,
            words,
            firsts,
        }
    }

    pub fn file(&self) -> Vec<u8> {
        bytes(&self.words)
    }

    /// The bytes with the element at `place` written as given.
    pub fn with_words(&self, place: usize, element: &[u32]) -> Vec<u8> {
        let (before, after) = (self.firsts[place], self.firsts[place + 1]);
        let words = [&self.words[..before], element, &self.words[after..]];
        bytes(&words.concat())
    }

    /// What is answered where a word of the file has another kind. In a short file a first
    /// word of kind 1 in place of 3, or 3 in place of 1, makes its element longer or
    /// shorter, and the word after is wrong, or the length where there is none; any other
    /// word is wrong itself.
    pub fn refusal_of_kind(&self, word: usize, kind: u32) -> Refusal {
        let is_first = self.edition == Edition::Short && self.firsts.contains(&word);
        let other_width = kind % 2 == 1 && is_first;
        if other_width && word == self.firsts[self.elements.len() - 1] {
            return Refusal::FileLength;
        }
        let wrong = if other_width { word + 1 } else { word };
        Refusal::Kind { word: wrong as u64 }
    }

    /// The file with every word in turn of every other kind, and what is answered.
    pub fn of_other_kinds(&self) -> impl Iterator<Item = (String, Vec<u8>, Refusal)> + '_ {
        let turned = |word| (1..4).map(move |turn| (word, turn));
        (0..self.words.len()).flat_map(turned).map(|(word, turn)| {
            let mut words = self.words.clone();
            words[word] = words[word].wrapping_add(turn * KIND);
            let kind = words[word] / KIND;
            let about = format!("{}, word {word} of kind {kind}", self.name);
            (about, bytes(&words), self.refusal_of_kind(word, kind))
        })
    }
}

/// All small, all large, in turn and any, for each of these k.
pub fn days(seed: u64, edition: Edition, ks: &[usize]) -> Vec<Day> {
    let mut random = Random::new(seed);
    let mut days = vec![];
    for &k in ks {
        let widths = widths(&mut random, k);
        days.extend(widths.map(|day| Day::new(seed, edition, k, day)));
    }
    days
}

/// Bytes and whole words after a file, small elements and large ones among them.
pub fn tails() -> Vec<Vec<u8>> {
    let further = bytes(&[3 * KIND, KIND + 2, 2 * KIND + 80, 3 * KIND]);
    let tails = |more| [vec![0; more], vec![0xff; more], further[..more].to_vec()];
    (1..=further.len()).flat_map(tails).collect()
}

/// Where one word ends and three begin, where the field ends, and where 64 bits and three
/// payloads do.
pub const ENDS: [u128; 12] = [
    0,
    1,
    (1 << 30) - 1,
    1 << 30,
    (1 << 60) - 1,
    1 << 60,
    P as u128 - 1,
    P as u128,
    (1 << 64) - 1,
    1 << 64,
    (1 << 64) + (1 << 30),
    (1 << 90) - 1,
];

/// Words of a file whose elements are honest but for a few: those with a word of any kind,
/// small ones in three words, and those of any 64 bits or more.
fn any_words(random: &mut Random, edition: Edition, k: usize) -> Vec<u32> {
    let mut words = vec![edition.word_0(k)];
    let rare = random.pick(&[10, 40, 160, 640]);
    for _ in 0..12 * k + 8 {
        let mut element = edition.element(random.small_or_large());
        if random.one_in(rare) {
            let place = random.below(element.len());
            match random.below(3) {
                0 => element[place] = random.word() as u32,
                1 => element = element_words(random.small() as u128).to_vec(),
                _ => element = element_words(random.word() as u128 * 3).to_vec(),
            }
        }
        words.extend(element);
    }
    words
}

/// Bytes, by turns any, any after a word 0 that says a k, words as above, and such words
/// cut or with more bytes.
pub fn any_file(random: &mut Random, edition: Edition, number: usize, k: usize) -> Vec<u8> {
    if number % 4 < 2 {
        let length = random.below(300);
        let any: Vec<u8> = (0..length).map(|_| random.word() as u8).collect();
        let head = edition.word_0(k).to_le_bytes();
        return [&head[..4 * (number % 4)], &any].concat();
    }
    let mut file = bytes(&any_words(random, edition, k));
    if number % 4 == 3 {
        let length = file.len() - 12 + random.below(24);
        file.resize(length, random.word() as u8);
    }
    file
}
