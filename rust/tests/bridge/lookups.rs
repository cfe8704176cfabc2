//! Lookups, plain and indexed, at every offset of short texts, in long ones, and in falsified indexes; from a place on; the audit.
use crate::calls::*;
use crate::common::model::index::{audit as audited, built, lookup, need};
use crate::common::model::places::{last, places, plain, resume, Place};
use crate::common::model::LIMIT;
use crate::common::texts::every_short;
use crate::Run;

/// An indexed lookup in any numbers.
fn indexed(run: &mut Run, text: &[u8], row: &[u32], measure: usize, offset: usize) {
    assert_eq!(
        finds(INDEXED[measure], text, row, offset, 8),
        lookup(text, row, measure, offset),
        "measure {measure}, offset {offset}, index {row:?}, of {text:02X?}"
    );
    run.cases += 1;
}

/// A plain lookup.
pub fn plainly(run: &mut Run, text: &[u8], measure: usize, offset: usize) {
    assert_eq!(
        looks(PLAIN[measure], text, offset, 8),
        plain(text, measure, offset),
        "measure {measure}, offset {offset}, of {text:02X?}"
    );
    run.cases += 1;
}

fn audits(run: &mut Run, text: &[u8], row: &[u32]) {
    let expected = audited(text, row) as usize;
    assert_eq!(audit(text, row), expected, "index {row:?}, of {text:02X?}");
    run.cases += 1;
}

/// Every offset in every measure, some past the end, plain and in the text's own index; over a true index both agree.
pub fn every(run: &mut Run, text: &[u8]) {
    let row = built(text);
    let offsets = (0..=text.len() + 2).chain([LIMIT, LIMIT + 1, usize::MAX]);
    for offset in offsets {
        for measure in 0..4 {
            plainly(run, text, measure, offset);
            indexed(run, text, &row, measure, offset);
            assert_eq!(
                plain(text, measure, offset),
                lookup(text, &row, measure, offset),
                "the model's two lookups, measure {measure}, offset {offset}, of {text:02X?}"
            );
        }
    }
    audits(run, text, &row);
    let short = &row[..row.len() - 1];
    audits(run, text, short);
    indexed(run, text, short, 0, 0);
    assert_eq!(looks(PLAIN[1], text, 0, 7), [NOT_CALLED]);
    assert_eq!(finds(INDEXED[2], text, &row, 0, 3), [NOT_CALLED]);
}

/// From true places on and from any numbers, by every kind and by no kind.
fn onward(run: &mut Run, text: &[u8]) {
    let found = places([0; 4], text);
    let p = run.random.pick(&found);
    let offset = p[run.random.below(4)] + run.random.below(9);
    let kind = run.random.below(5);
    let mut from: Place = p;
    match run.random.below(6) {
        0 => from[run.random.below(4)] = LIMIT - text.len() + run.random.below(3),
        1 => from[run.random.below(4)] = LIMIT + run.random.below(2),
        2 => from[run.random.below(4)] = run.random.next() as usize,
        3 => from = [0, 1, 2, 3].map(|_| run.random.below(40)),
        _ => {}
    }
    let rest = &text[p[0]..];
    let mut expected = [vec![NOT_CALLED], vec![NOT_CALLED]];
    if kind < 4 {
        expected = [
            resume(rest, from, kind, offset),
            last(rest, from, kind, offset),
        ];
    }
    let calls: [Goes; 2] = [bridge_places_resume, bridge_places_last];
    let got = calls.map(|call| goes(call, rest, from, kind, offset));
    assert_eq!(
        got, expected,
        "from {from:?}, kind {kind}, offset {offset}, of {rest:02X?}"
    );
    run.cases += 2;
}

pub fn every_offset(run: &mut Run) {
    every(run, b"\x41\xE2\x82\xAC\xF0\x9F\x9A\x86\x80\x0A\x42");
    every_short(&[0x41, 0x0A, 0x80, 0xE2, 0x82, 0xF0, 0x9F], 4).for_each(|text| every(run, &text));
    for round in 0..run.rounds(60) {
        let length = [40, 250, 254, 258, 520][round % 5] + run.random.below(6);
        let text = run.random.mixture(length);
        every(run, &text);
    }
    for _ in 0..run.rounds(20_000) {
        let length = run.random.below(30);
        let text = run.random.mixture(length);
        onward(run, &text);
    }
}

pub fn long_texts(run: &mut Run) {
    for round in 0..run.rounds(24) {
        let length = [3_000, 20_000, 100_000][round % 3];
        let text = run.random.mixture(length);
        let row = built(&text);
        audits(run, &text, &row);
        for _ in 0..24 {
            let (measure, offset) = (run.random.below(4), run.random.below(length + 9));
            let offset = if measure == 3 { offset / 40 } else { offset };
            plainly(run, &text, measure, offset);
            indexed(run, &text, &row, measure, offset);
        }
    }
}

/// A number of an index changed: a little, to one near the multiple, to another's, to the limit or to anything.
fn falsify(run: &mut Run, row: &mut [u32]) {
    let r = &mut run.random;
    let at = r.below(row.len());
    row[at] = match r.below(6) {
        0 => row[at].wrapping_add(1 + r.below(3) as u32),
        1 => row[at].wrapping_sub(1 + r.below(3) as u32),
        2 => (256 * (at / 4) as u32).wrapping_sub(r.below(5) as u32),
        3 => row[r.below(row.len())],
        4 => (LIMIT + r.below(2)) as u32,
        _ => r.next() as u32,
    };
}

/// The paper's example, then random texts with one or more numbers changed, at offsets near and far.
pub fn falsified(run: &mut Run) {
    let text = [b'A'; 300];
    let mut row = built(&text);
    row[5] = 200;
    let expected = [
        vec![0, 256, 200, 256, 0],
        vec![0, 286, 230, 286, 0],
        vec![4],
    ];
    for ((measure, offset), told) in [(0, 256), (1, 230), (1, 250)].into_iter().zip(expected) {
        assert_eq!(lookup(&text, &row, measure, offset), told);
        indexed(run, &text, &row, measure, offset);
    }
    for round in 0..run.rounds(2_500) {
        let length = [260, 520, 1_100, 2_600][round % 4] + run.random.below(9);
        let text = run.random.mixture(length);
        let mut row = built(&text);
        row.extend([7, 7, 7]);
        (0..1 + run.random.below(4)).for_each(|_| falsify(run, &mut row));
        for _ in 0..30 {
            let measure = run.random.below(4);
            let bound = if measure == 3 { 30 } else { text.len() + 9 };
            let offset = run.random.below(bound);
            indexed(run, &text, &row, measure, offset);
        }
        audits(run, &text, &row);
        let cut = run.random.below(need(text.len()) + 1);
        audits(run, &text, &row[..cut]);
    }
}
