//! Growth of the search on periodic pairs: a needle that is almost a part of the text, in texts each twice as long as the one before.
use crate::calls;
use crate::measure::{Clock, Once};
use crate::meter::{keep, Meter};
use memchr::memmem;
use std::hint::black_box;

/// A word of any length; the needle is its beginning, with the other letter at one place.
struct Periodic {
    name: &'static str,
    word: fn(usize) -> Vec<u8>,
    changed: fn(usize) -> usize,
}

const PAIRS: [Periodic; 6] = [
    periodic("`aa..aab` in `aa..`", one_letter, last),
    periodic("`baa..aa` in `aa..`", one_letter, first),
    periodic("`aa..b..aa` in `aa..`", one_letter, middle),
    periodic("`abab..aa` in `abab..`", two_letters, last),
    periodic("`abab..aa..abab` in `abab..`", two_letters, middle),
    periodic("a Fibonacci word, its last letter changed", fibonacci, last),
];

const fn periodic(
    name: &'static str,
    word: fn(usize) -> Vec<u8>,
    changed: fn(usize) -> usize,
) -> Periodic {
    Periodic {
        name,
        word,
        changed,
    }
}

fn first(_: usize) -> usize {
    0
}

/// A place of the second of two letters.
fn middle(length: usize) -> usize {
    length / 4 * 2 + 1
}

fn last(length: usize) -> usize {
    length - 1
}

fn one_letter(length: usize) -> Vec<u8> {
    vec![b'a'; length]
}

fn two_letters(length: usize) -> Vec<u8> {
    b"ab".iter().copied().cycle().take(length).collect()
}

/// Each word is the one before it with the one before that behind it.
fn fibonacci(length: usize) -> Vec<u8> {
    let (mut word, mut before) = (b"ab".to_vec(), 1);
    while word.len() < length {
        let length = word.len();
        word.extend_from_within(..before);
        before = length;
    }
    word.truncate(length);
    word
}

impl Periodic {
    /// A text and a needle of such lengths.
    fn texts(&self, n: usize, m: usize) -> [String; 2] {
        let (entry, mut needle) = ((self.word)(n), (self.word)(m));
        let letter = &mut needle[(self.changed)(m)];
        *letter = if *letter == b'a' { b'b' } else { b'a' };
        [entry, needle].map(|word| String::from_utf8(word).unwrap())
    }
}

struct Search {
    name: &'static str,
    find: fn(&str, &str) -> Option<usize>,
    /// where it takes long: the longest text that it is tried on, and then once
    longest: Option<usize>,
}

const OURS: Search = search("ours", |entry, needle| {
    calls::find(entry.as_bytes(), needle.as_bytes())
});
const STD: Search = search("std", |entry, needle| entry.find(needle));
const MEMMEM: Search = search("memmem", |entry, needle| {
    memmem::find(entry.as_bytes(), needle.as_bytes())
});
const PLAIN: Search = Search {
    longest: Some(1 << 20),
    ..search("our plain search", |entry, needle| {
        calls::find_plain(entry.as_bytes(), needle.as_bytes())
    })
};

const fn search(name: &'static str, find: fn(&str, &str) -> Option<usize>) -> Search {
    Search {
        name,
        find,
        longest: None,
    }
}

impl Search {
    /// Compared, then measured: the seconds at each length, each beside the one before it.
    fn line(&self, pair: &Periodic, lengths: &[usize], needle: fn(usize) -> usize) -> Line {
        let tried = |n: &&usize| self.longest.is_none_or(|longest| **n <= longest);
        let lengths = lengths.iter().filter(tried);
        let texts: Vec<_> = lengths.map(|&n| pair.texts(n, needle(n))).collect();
        let find = |[entry, needle]: &[String; 2]| (self.find)(black_box(entry), black_box(needle));
        assert!(texts.iter().all(|both| find(both).is_none()));
        let (mut seconds, mut doublings) = (Vec::new(), Vec::new());
        for both in texts.windows(2) {
            let (short, long) = (&mut || keep(find(&both[0])), &mut || keep(find(&both[1])));
            let found = match self.longest {
                None => Clock.pair(short, long),
                Some(_) => Once.pair(short, long),
            };
            if seconds.is_empty() {
                seconds.push(found.ours);
            }
            seconds.push(found.peer);
            doublings.push(found.ratio);
        }
        Line {
            pair: pair.name,
            search: self.name,
            seconds,
            doublings,
        }
    }
}

/// The seconds of a search at each length, and how many times as long it took each time that the length doubled.
pub struct Line {
    pub pair: &'static str,
    pub search: &'static str,
    pub seconds: Vec<f64>,
    pub doublings: Vec<f64>,
}

impl Line {
    /// Whether it is ours that is to grow as the length does.
    pub fn is_ours(&self) -> bool {
        self.search == OURS.name
    }
}

/// Searches of every pair, at the same lengths.
pub struct Table {
    pub needle: &'static str,
    pub lengths: [usize; 3],
    pub lines: Vec<Line>,
}

const LONG: [usize; 3] = [512 << 10, 1 << 20, 2 << 20];
const SHORT: [usize; 3] = [16 << 10, 32 << 10, 64 << 10];
const QUARTER: &str = "a quarter of the text";

fn table(
    said: &'static str,
    needle: fn(usize) -> usize,
    lengths: [usize; 3],
    searches: &[Search],
) -> Table {
    let of_pair = |pair| searches.iter().map(move |s| s.line(pair, &lengths, needle));
    Table {
        needle: said,
        lengths,
        lines: PAIRS.iter().flat_map(of_pair).collect(),
    }
}

/// A needle that stays as it is, and one that grows with the text: there the plain search is tried on short texts.
pub fn tables() -> [Table; 3] {
    [
        table("1,024 bytes", |_| 1_024, LONG, &[OURS, PLAIN, STD, MEMMEM]),
        table(QUARTER, |n| n / 4, LONG, &[OURS, STD, MEMMEM]),
        table(QUARTER, |n| n / 4, SHORT, &[OURS, PLAIN]),
    ]
}
