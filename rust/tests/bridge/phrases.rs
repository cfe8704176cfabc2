//! Phrases: the two searches and the entry from the match on, against Rust's own search, and in damaged entries against the model.
use crate::calls::*;
use crate::common::model::forms::segments;
use crate::common::model::phrases::find;
use crate::common::model::places::{plain, BYTES};
use crate::common::texts::every_short;
use crate::common::Random;
use crate::Run;

const SEARCHES: [Seeks; 2] = [bridge_phrases_find, bridge_phrases_find_plain];

/// The beginning of a text, for a message: one at the limit would fill it.
fn beginning(text: &[u8]) -> &[u8] {
    &text[..text.len().min(6_000)]
}

/// Both searches and the part from the match on: three cases of one pair.
pub fn compare(run: &mut Run, entry: &[u8], needle: &[u8], expected: &[usize]) {
    let (e, n) = (beginning(entry), beginning(needle));
    let about = || format!("needle {n:02X?} in {e:02X?}");
    for call in SEARCHES {
        assert_eq!(seeks(call, entry, needle, 8), expected, "{}", about());
    }
    let part = match expected {
        [0, at] => entry.len() - at,
        _ => 0,
    };
    assert_eq!(rest(entry, needle), part, "the rest, {}", about());
    run.cases += 3;
}

/// Two well-formed texts: Rust's own search is the judge.
fn as_std(run: &mut Run, entry: &str, needle: &str) {
    let mut expected = vec![0];
    expected.extend(entry.find(needle));
    compare(run, entry.as_bytes(), needle.as_bytes(), &expected);
}

/// Every pair of an entry and a needle of up to so many letters among some.
fn every_pair(run: &mut Run, letters: &[char], entry: u32, needle: u32) {
    let texts = |longest| every_short(letters, longest).map(String::from_iter);
    let needles: Vec<String> = texts(needle).collect();
    for entry in texts(entry) {
        needles
            .iter()
            .for_each(|needle| as_std(run, &entry, needle));
    }
}

/// Few letters and all their words: every cut of a needle, every period and every overlap of it with itself comes up.
pub fn of_few_letters(run: &mut Run) {
    every_pair(run, &['a', 'b'], 13, 7);
    every_pair(run, &['a', 'b', 'c'], 8, 6);
    every_pair(run, &['\u{430}', '\u{431}'], 8, 5);
}

/// Three letters: of one byte, alike in the first bytes, alike in the last byte, of several lengths.
const ALPHABETS: [[char; 3]; 8] = [
    ['a', 'b', 'c'],
    ['e', ' ', 'q'],
    ['\u{430}', '\u{431}', '\u{432}'],
    ['\u{430}', '\u{470}', '\u{4B0}'],
    ['\u{4E00}', '\u{4E01}', '\u{4E40}'],
    ['\u{1F600}', '\u{1F601}', '\u{1F640}'],
    ['A', '\u{C1}', '\u{1041}'],
    ['\u{80}', '\u{800}', '\u{10000}'],
];

/// So many letters of the Fibonacci word: no power, and each part of it comes again soon.
fn fibonacci(length: usize) -> Vec<usize> {
    let (mut short, mut long) = (vec![1], vec![0]);
    while long.len() < length {
        let next = [&long[..], &short[..]].concat();
        (short, long) = (long, next);
    }
    long.truncate(length);
    long
}

/// A word of so many letters, as numbers: a power, one of the two famous words, one letter among others alike, or any.
fn word(random: &mut Random, length: usize) -> Vec<usize> {
    match random.below(6) {
        0 | 1 => {
            let period = 1 + random.pick(&[2, 12, 80]).min(length);
            let root: Vec<usize> = (0..1 + random.below(period))
                .map(|_| random.below(2))
                .collect();
            root.into_iter().cycle().take(length).collect()
        }
        2 => fibonacci(length),
        3 => (0..length).map(|k| k.count_ones() as usize % 2).collect(),
        4 => {
            let at = random.below(length + 1);
            (0..length).map(|k| (k == at) as usize).collect()
        }
        _ => (0..length).map(|_| random.below(3)).collect(),
    }
}

/// Some letters of a word changed, up to so many.
fn changed(random: &mut Random, mut word: Vec<usize>, most: usize) -> Vec<usize> {
    for _ in 0..random.below(most + 1).min(word.len()) {
        let at = random.below(word.len());
        word[at] = random.below(3);
    }
    word
}

/// A needle of up to so many letters: a part of a word, or another word; at times with one letter changed.
fn sought(random: &mut Random, from: &[usize], most: usize) -> Vec<usize> {
    let length = 1 + random.below(most);
    let needle = if random.below(4) == 0 || from.len() < length {
        word(random, length)
    } else {
        let start = random.below(from.len() - length + 1);
        from[start..start + length].to_vec()
    };
    let most = random.below(2);
    changed(random, needle, most)
}

/// An entry and a needle of about so many bytes: a run of the third letter, a word, and often the needle again near the end.
fn periodic(random: &mut Random, entry: usize, needle: usize) -> (String, String) {
    let alphabet = random.pick(&ALPHABETS);
    let widest = alphabet.iter().map(|c| c.len_utf8()).max().unwrap_or(1);
    let length = random.below(entry / widest);
    let middle = word(random, length);
    let middle = changed(random, middle, 3);
    let needle = sought(random, &middle, needle / widest);
    let mut whole = vec![2; random.below(3) * random.below(100)];
    whole.extend(&middle);
    if random.below(2) == 0 {
        whole.extend(&needle);
        let length = random.below(3) * random.below(70);
        whole.extend(word(random, length));
    }
    let written = |word: &[usize]| word.iter().map(|&k| alphabet[k]).collect();
    (written(&whole), written(&needle))
}

/// Texts in which a needle nearly matches at many places: what is remembered of a period, what is looked for ahead, blocks and their edges.
pub fn in_periodic_texts(run: &mut Run) {
    for round in 0..run.rounds(200_000) {
        let (entry, needle) = [(150, 12), (400, 80), (900, 400), (5_000, 400)][round % 4];
        let (entry, needle) = periodic(&mut run.random, entry, needle);
        as_std(run, &entry, &needle);
    }
    // looking ahead waits longest in long texts of few letters
    for _ in 0..run.rounds(20) {
        let (entry, needle) = periodic(&mut run.random, 200_000, 400);
        as_std(run, &entry, &needle);
    }
}

/// By the model. Both ends of the match of a needle that is not empty are boundaries of the entry: a lookup there is granted.
fn as_told(run: &mut Run, entry: &[u8], needle: &[u8]) {
    let expected = find(entry, needle);
    compare(run, entry, needle, &expected);
    let [0, at] = expected[..] else { return };
    if needle.is_empty() {
        return;
    }
    for end in [at, at + needle.len()] {
        let place = plain(entry, BYTES, end);
        assert_eq!(place[..2], [0, end], "{needle:02X?} in {entry:02X?}");
        assert_eq!(looks(PLAIN[BYTES], entry, end, 8), place);
        run.cases += 1;
    }
}

/// Whole segments of a text that follow one another, none where damage comes first.
fn whole_part(random: &mut Random, text: &[u8]) -> Vec<u8> {
    let found = segments(text);
    let (from, most) = (random.below(found.len() + 1), random.below(12));
    let whole = found[from..].iter().take_while(|(_, s)| s.point.is_some());
    whole
        .take(most)
        .flat_map(|&(start, s)| &text[start..start + s.length])
        .copied()
        .collect()
}

/// A needle for an entry: whole segments of it or of another text, any part of it, a damaged text, a letter.
fn needle_for(random: &mut Random, entry: &[u8]) -> Vec<u8> {
    let length = random.length();
    match random.below(6) {
        0 | 1 => whole_part(random, entry),
        2 => {
            let other = random.mixture(length);
            whole_part(random, &other)
        }
        3 => {
            let from = random.below(entry.len() + 1);
            let upto = from + random.below(entry.len() - from + 1);
            entry[from..upto].to_vec()
        }
        4 => {
            let text = random.clean(length);
            random.broken(text)
        }
        _ => random.clean(1),
    }
}

/// Where there are too few places to tell in, nothing is called.
fn untold(run: &mut Run, entry: &[u8], needle: &[u8]) {
    for call in SEARCHES {
        let said = seeks(call, entry, needle, entry.len() % 8);
        assert_eq!(said, [NOT_CALLED]);
        run.cases += 1;
    }
}

/// Every short pair of bytes that begin, go on with, stop or are sequences; then random entries, damaged and whole.
pub fn in_damaged_entries(run: &mut Run) {
    let bytes = [0x41, 0x82, 0xAC, 0xC3, 0xE2, 0xF0, 0xFF];
    let needles: Vec<Vec<u8>> = every_short(&bytes, 3).collect();
    for entry in every_short(&bytes, 4) {
        needles
            .iter()
            .for_each(|needle| as_told(run, &entry, needle));
    }
    for round in 0..run.rounds(200_000) {
        let length = run.random.length();
        let entry = run.random.mixture(length);
        let needle = needle_for(&mut run.random, &entry);
        as_told(run, &entry, &needle);
        if round % 50 == 0 {
            untold(run, &entry, &needle);
        }
    }
}
