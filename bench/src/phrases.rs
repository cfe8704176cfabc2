//! The phrases that are sought in a text: absent ones, and the one that ends it. In a short text a phrase has at most half of its bytes.
use std::collections::BTreeSet;
use std::iter::once;

/// A way to choose a phrase for a text.
pub trait Phrase {
    /// the job's name
    const JOB: &'static str;
    fn of(entry: &str) -> String;
}

/// How the names begin of the jobs that seek a phrase in vain.
pub const ABSENT: &str = "find an absent phrase";

macro_rules! phrases {
    ($($name:ident: $job:literal, $of:expr;)*) => {$(
        pub struct $name;
        impl Phrase for $name {
            const JOB: &'static str = $job;
            fn of(entry: &str) -> String {
                $of(entry)
            }
        }
    )*};
}

phrases! {
    Short: "find an absent phrase of 4 characters", |entry| changed(entry, 4);
    Usual: "find an absent phrase of 12 characters", |entry| changed(entry, 12);
    Long: "find an absent phrase of 60 characters", |entry| changed(entry, 60);
    Rare: "find an absent phrase with a rare first byte", rare;
    Foreign: "find an absent phrase of another script", foreign;
    Last: "find the phrase that ends the text", last;
}

/// So many characters, but no more than half of the text's bytes, and at least one.
fn within(entry: &str, count: usize, characters: impl Iterator<Item = char>) -> String {
    let mut phrase = String::new();
    for c in characters.take(count) {
        if !phrase.is_empty() && phrase.len() + c.len_utf8() > entry.len() / 2 {
            break;
        }
        phrase.push(c);
    }
    phrase
}

/// The text from its middle on.
fn middle(entry: &str) -> &str {
    let mut at = entry.len() / 2;
    while !entry.is_char_boundary(at) {
        at -= 1;
    }
    &entry[at..]
}

/// So many of the text's characters, the last changed to another of its own; where all of those stand so, to one of the next numbers.
fn changed(entry: &str, count: usize) -> String {
    let mut phrase = within(entry, count, middle(entry).chars());
    let (last, mut met) = (phrase.pop().unwrap(), BTreeSet::new());
    let own = middle(entry).chars().filter(|&c| met.insert(c));
    let mut phrases = own.chain(last..).map(|c| format!("{phrase}{c}"));
    phrases.find(|phrase| !entry.contains(phrase)).unwrap()
}

/// Characters of one, two and three bytes, whose first bytes the texts have not.
const RARE: [char; 3] = ['Z', 'Ž', 'カ'];

/// Characters of the text behind one whose first byte it has not, which is as long as they are where it can be.
fn rare(entry: &str) -> String {
    let own = middle(entry).chars();
    let length = own.clone().next().unwrap().len_utf8();
    let phrase = within(entry, 12, once(RARE[length.min(3) - 1]).chain(own));
    assert!(!entry.as_bytes().contains(&phrase.as_bytes()[0]));
    phrase
}

/// A Japanese phrase for a text with Latin letters or digits, a German one for the others.
fn foreign(entry: &str) -> String {
    let latin = entry.contains(|c: char| c.is_ascii_alphanumeric());
    let phrase = if latin {
        "セルの故障"
    } else {
        "Zellfehler"
    };
    within(entry, 12, phrase.chars())
}

/// The text's last characters, and so many that they do not stand before.
fn last(entry: &str) -> String {
    let least = within(entry, 12, entry.chars().rev()).chars().count();
    let mut ends = entry.char_indices().rev().skip(least - 1);
    let ends_alone = |&(at, _): &(usize, char)| entry.find(&entry[at..]) == Some(at);
    let (at, _) = ends.find(ends_alone).unwrap();
    entry[at..].into()
}
