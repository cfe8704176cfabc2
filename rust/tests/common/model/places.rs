//! Places and the four measures: plain lookup, lookup from a place on, cutting.
use super::forms::Form;
use super::{over_limit, Told, LIMIT};

/// The counts before a boundary: bytes, units, code points, lines. A measure is one of these four by its number.
pub type Place = [usize; 4];

pub const BYTES: usize = 0;
pub const LINES: usize = 3;

/// Does a line end after a segment, with this rest of the text behind it? After 0A; after 0D unless 0A follows, so also where 0D ends the
/// text; and after the whole segments C2 85, E2 80 A8 and E2 80 A9.
pub fn ends_line(segment: &[u8], behind: &[u8]) -> bool {
    match segment {
        [0x0A] | [0xC2, 0x85] | [0xE2, 0x80, 0xA8] | [0xE2, 0x80, 0xA9] => true,
        [0x0D] => behind.first() != Some(&0x0A),
        _ => false,
    }
}

/// The place behind the segment that stands first in the rest of a text, and the rest from there.
pub fn step(p: Place, rest: &[u8]) -> (Place, &[u8]) {
    let s = u8::segment(rest);
    let (first, behind) = rest.split_at(s.length);
    let units = 1 + s.point.is_some_and(|c| c >= 0x10000) as usize;
    let lines = ends_line(first, behind) as usize;
    let next = [p[0] + s.length, p[1] + units, p[2] + 1, p[3] + lines];
    (next, behind)
}

/// The places of a text from a place on, the place itself included.
pub fn places(from: Place, mut rest: &[u8]) -> Vec<Place> {
    let (mut found, mut p) = (vec![from], from);
    while !rest.is_empty() {
        (p, rest) = step(p, rest);
        found.push(p);
    }
    found
}

/// Segments are taken until the count asked for is the offset or more.
pub fn walk(from: Place, mut rest: &[u8], measure: usize, offset: usize) -> Told {
    let mut p = from;
    while p[measure] < offset {
        if rest.is_empty() {
            return vec![4];
        }
        (p, rest) = step(p, rest);
    }
    if p[measure] > offset {
        return vec![5];
    }
    granted(p)
}

pub fn granted(p: Place) -> Told {
    let mut told = vec![0];
    told.extend(p);
    told
}

/// What a lookup tells, where all places of the text are given: of the first that counts the offset or more.
pub fn among(found: &[Place], measure: usize, offset: usize) -> Told {
    match found.iter().find(|p| p[measure] >= offset) {
        None => vec![4],
        Some(p) if p[measure] > offset => vec![5],
        Some(&p) => granted(p),
    }
}

/// Plain lookup.
pub fn plain(text: &[u8], measure: usize, offset: usize) -> Told {
    over_limit(text.len()).unwrap_or_else(|| walk([0; 4], text, measure, offset))
}

/// The refusals of a lookup from a place on: 2 where place and text are over the limit, 8 where another count is.
fn unfair(from: Place, length: usize) -> Option<Told> {
    if from[BYTES] as u128 + length as u128 > LIMIT as u128 {
        Some(vec![2])
    } else {
        from[1..].iter().any(|&n| n > LIMIT).then(|| vec![8])
    }
}

/// Plain lookup from a place on, where the text is given from there.
pub fn resume(text: &[u8], from: Place, measure: usize, offset: usize) -> Told {
    unfair(from, text.len()).unwrap_or_else(|| walk(from, text, measure, offset))
}

/// The last place from one on that counts at most so much, or that one where all count more.
pub fn last(text: &[u8], from: Place, measure: usize, most: usize) -> Told {
    unfair(from, text.len()).unwrap_or_else(|| granted(furthest(text, from, measure, most)))
}

fn furthest(mut rest: &[u8], from: Place, measure: usize, most: usize) -> Place {
    let mut p = from;
    while !rest.is_empty() {
        let (next, after) = step(p, rest);
        if next[measure] > most {
            break;
        }
        (p, rest) = (next, after);
    }
    p
}

/// The length of the longest beginning that ends at a boundary and has at most so many.
pub fn cut(text: &[u8], measure: usize, most: usize) -> usize {
    furthest(text, [0; 4], measure, most)[BYTES]
}
