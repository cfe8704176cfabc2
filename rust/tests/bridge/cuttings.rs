//! Every cutting into two and into three pieces, empty ones included, of every short text of some elements.
use crate::calls::{Decoding, PIECES_TO_UNITS, UNIT_PIECES};
use crate::common::model::forms::Form;
use crate::common::texts::every_short;
use crate::courses::{decode_course, Course, Tested};
use crate::Run;

/// Units that stand alone and take one, two and three bytes, two first halves, two second ones, and U+FFFD itself.
const UNITS: [u16; 8] = [
    0x0041, 0x00E9, 0x20AC, 0xD83D, 0xDBFF, 0xDE86, 0xDC00, 0xFFFD,
];

/// Bytes that begin a sequence of each length, those that go on in all or in some of them, and one that stands in none.
const BYTES: [u8; 8] = [0x41, 0x82, 0xAC, 0xC3, 0xE0, 0xF0, 0xF4, 0xFF];

/// The places to cut so many elements at, into two and into three.
fn cuttings(n: usize) -> Vec<Vec<usize>> {
    let two = (0..=n).map(|first| vec![first, n]);
    let three = (0..=n).flat_map(|first| (first..=n).map(move |second| vec![first, second, n]));
    two.chain(three).collect()
}

/// Is no piece empty?
fn is_strict(cuts: &[usize]) -> bool {
    cuts[0] > 0 && cuts.windows(2).all(|pair| pair[0] < pair[1])
}

/// Pieces may be empty, but for the longest texts in a usual run.
fn every<T, U>(run: &mut Run, decoding: Decoding<T, U>, elements: &[T], longest: usize)
where
    T: Tested,
    U: Form,
{
    let mut cuttings: Vec<_> = (0..=longest).map(cuttings).collect();
    if run.rounds(1) == 1 {
        cuttings[longest].retain(|cuts| is_strict(cuts));
    }
    for (turn, text) in every_short(elements, longest as u32).enumerate() {
        let (text, room) = (&text[..], turn % 3);
        for cuts in &cuttings[text.len()] {
            decode_course(run, decoding, &Course { text, cuts, room });
        }
    }
}

pub fn of_units(run: &mut Run) {
    every(run, UNIT_PIECES, &UNITS, 4);
}

pub fn to_units(run: &mut Run) {
    every(run, PIECES_TO_UNITS, &BYTES, 4);
}
