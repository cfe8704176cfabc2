//! The readers by a lent table of classes: with the table that the request's ranges make, and with tables of any numbers.
use crate::calls::*;
use crate::common::model::forms;
use crate::common::model::Told;
use crate::common::texts::every_short;
use crate::common::INTERESTING;
use crate::Run;
use std::ops::RangeInclusive;

type Table = [u8; 256];

/// The ranges of each class, as the request has them.
const RANGES: [(u8, RangeInclusive<u8>); 14] = [
    (0, 0x00..=0x7F),
    (1, 0x80..=0x8F),
    (2, 0x90..=0x9F),
    (3, 0xA0..=0xBF),
    (4, 0xC0..=0xC1),
    (4, 0xF5..=0xFF),
    (5, 0xC2..=0xDF),
    (6, 0xE0..=0xE0),
    (7, 0xE1..=0xEC),
    (7, 0xEE..=0xEF),
    (8, 0xED..=0xED),
    (9, 0xF0..=0xF0),
    (10, 0xF1..=0xF3),
    (11, 0xF4..=0xF4),
];

fn of_ranges() -> Table {
    let mut table = [0; 256];
    for (class, range) in RANGES {
        range.for_each(|b| table[b as usize] = class);
    }
    table
}

/// What is told of the segment that stands first, by the classes of its bytes: how many later ones each class wants, and which next. A first
/// byte that begins no sequence has cause 1 where its number is 1, 2 or 3, and cause 2 where it is any other.
fn first_by(text: &[u8], table: &Table) -> Told {
    let classes: Vec<u8> = text.iter().map(|&b| table[b as usize]).collect();
    let wanted: &[&[u8]] = match classes.first() {
        None => return vec![],
        Some(0) => &[],
        Some(5) => &[&[1, 2, 3]],
        Some(6) => &[&[3], &[1, 2, 3]],
        Some(7) => &[&[1, 2, 3], &[1, 2, 3]],
        Some(8) => &[&[1, 2], &[1, 2, 3]],
        Some(9) => &[&[2, 3], &[1, 2, 3], &[1, 2, 3]],
        Some(10) => &[&[1, 2, 3], &[1, 2, 3], &[1, 2, 3]],
        Some(11) => &[&[1], &[1, 2, 3], &[1, 2, 3]],
        Some(1..=3) => return vec![1, 1, 1, 1],
        Some(_) => return vec![1, 1, 1, 2],
    };
    for (n, next) in wanted.iter().enumerate() {
        match classes.get(n + 1) {
            None => return vec![1, n + 1, 0, 4],
            Some(class) if !next.contains(class) => return vec![1, n + 1, 1, 3],
            Some(_) => {}
        }
    }
    vec![0, wanted.len() + 1, 1, 0]
}

/// The library's own table reads as the calls without one do.
fn by_ranges(run: &mut Run, text: &[u8], table: &Table) {
    let said = [bridge_bytes_segment_by, bridge_bytes_point_by].map(|call| by(call, text, table));
    assert_eq!(
        said,
        [forms::first(text), forms::point(text)],
        "{text:02X?}"
    );
    assert_eq!(said[0], first_by(text, table), "{text:02X?}");
    run.cases += 2;
}

/// A table that need not have to do with the ranges.
fn by_any(run: &mut Run, text: &[u8], table: &Table) {
    let said = by(bridge_bytes_segment_by, text, table);
    assert_eq!(said, first_by(text, table), "{text:02X?} by {table:?}");
    run.cases += 1;
}

/// Each of all numbers for a first byte, behind which stands each of those up to 16, or nothing.
fn each_number(run: &mut Run) {
    for (number, next) in (0..=255).flat_map(|number| (0..=16).map(move |next| (number, next))) {
        let mut table = [next; 256];
        table[0x41] = number;
        for text in [b"A".as_slice(), b"AB", b"ABC", b"ABCD", b"ABCDE"] {
            by_any(run, text, &table);
        }
    }
}

pub fn all(run: &mut Run) {
    let table = of_ranges();
    every_short(&INTERESTING, 3).for_each(|text| by_ranges(run, &text, &table));
    each_number(run);
    for round in 0..run.rounds(200_000) {
        let length = run.random.length() % 6;
        let text = run.random.mixture(length);
        by_ranges(run, &text, &table);
        let numbers = if round % 8 == 0 { 256 } else { 16 };
        let any = std::array::from_fn(|_| (run.random.next() % numbers) as u8);
        by_any(run, &text, &any);
    }
}
