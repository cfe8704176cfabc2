//! The three forms of text: what stands first, strict reading, conversion and repair.
use super::{over_limit, Told};
use crate::common::{cause, is_beginning, segment};
use std::fmt::Debug;

/// A segment: how many elements it takes, its code point if it is whole, whether that is sure whatever follows, and its cause in the text that
/// it was read from.
#[derive(Clone, Copy, Debug, PartialEq, Eq)]
pub struct Segment {
    pub length: usize,
    pub point: Option<u32>,
    pub sure: bool,
    pub cause: usize,
}

const REPLACEMENT: char = '\u{FFFD}';

/// A form of text, by its elements.
pub trait Form: Copy + Debug + PartialEq + From<u8> {
    /// The segment that stands first in a text that is not empty.
    fn segment(text: &[Self]) -> Segment;
    /// What strict reading tells of its first damage.
    fn refusal(start: usize, damage: Segment) -> Told;
    /// Writes a code point.
    fn put(c: char, out: &mut Vec<Self>);
}

/// The low bits that byte 1 gives, by the length of its sequence; each later byte gives 6.
fn point_of(sequence: &[u8]) -> u32 {
    let low = [0x7F, 0x1F, 0x0F, 0x07][sequence.len() - 1];
    sequence[1..]
        .iter()
        .fold((sequence[0] & low) as u32, |c, b| {
            c << 6 | (b & 0x3F) as u32
        })
}

impl Form for u8 {
    fn segment(text: &[u8]) -> Segment {
        let (length, whole) = segment(text);
        Segment {
            length,
            point: whole.then(|| point_of(&text[..length])),
            sure: whole || length < text.len() || !is_beginning(text),
            cause: cause(text, (length, whole)),
        }
    }

    fn refusal(start: usize, damage: Segment) -> Told {
        vec![1, start, damage.length, damage.cause]
    }

    fn put(c: char, out: &mut Vec<u8>) {
        out.extend(c.encode_utf8(&mut [0; 4]).bytes());
    }
}

/// The cause of the segment that takes so many units at the start of a text, by the request's words: 1 a unit of DC00..DFFF, 3 a first half
/// stopped by another unit, 4 a first half that ends the text; 2 never.
fn unit_cause(text: &[u16], length: usize) -> usize {
    match (&text[..length], text.get(length)) {
        ([0xDC00..=0xDFFF], _) => 1,
        ([0xD800..=0xDBFF], Some(_)) => 3,
        ([0xD800..=0xDBFF], None) => 4,
        _ => 0,
    }
}

impl Form for u16 {
    fn segment(text: &[u16]) -> Segment {
        let (first, second) = (text[0] as u32, text.get(1).map(|&u| u as u32));
        let (length, point, sure) = match (first, second) {
            (0xD800..=0xDBFF, Some(low @ 0xDC00..=0xDFFF)) => (
                2,
                Some(0x10000 + (first - 0xD800) * 0x400 + (low - 0xDC00)),
                true,
            ),
            (0xD800..=0xDBFF, after) => (1, None, after.is_some()),
            (0xDC00..=0xDFFF, _) => (1, None, true),
            _ => (1, Some(first), true),
        };
        Segment {
            length,
            point,
            sure,
            cause: unit_cause(text, length),
        }
    }

    fn refusal(start: usize, damage: Segment) -> Told {
        vec![1, start, damage.length, damage.cause]
    }

    fn put(c: char, out: &mut Vec<u16>) {
        out.extend_from_slice(c.encode_utf16(&mut [0; 2]));
    }
}

impl Form for u32 {
    /// A number that is no scalar value is damage of cause 2.
    fn segment(text: &[u32]) -> Segment {
        let scalar = char::from_u32(text[0]);
        Segment {
            length: 1,
            point: scalar.map(u32::from),
            sure: true,
            cause: scalar.map_or(2, |_| 0),
        }
    }

    /// The position alone, without a cause.
    fn refusal(position: usize, _: Segment) -> Told {
        vec![9, position]
    }

    fn put(c: char, out: &mut Vec<u32>) {
        out.push(c.into());
    }
}

/// What the segment reader tells of a text.
pub fn first<T: Form>(text: &[T]) -> Told {
    if text.is_empty() {
        return vec![];
    }
    let s = T::segment(text);
    let damage = s.point.is_none() as usize;
    vec![damage, s.length, s.sure as usize, s.cause]
}

/// The code point that stands first, U+FFFD for damage, and its size; both 0 where there is none.
pub fn point<T: Form>(text: &[T]) -> Told {
    if text.is_empty() {
        return vec![0, 0];
    }
    let s = T::segment(text);
    vec![s.point.unwrap_or(REPLACEMENT.into()) as usize, s.length]
}

/// The segments of a text, each with its start.
pub fn segments<T: Form>(text: &[T]) -> Vec<(usize, Segment)> {
    let (mut found, mut at) = (Vec::new(), 0);
    while at < text.len() {
        let s = T::segment(&text[at..]);
        found.push((at, s));
        at += s.length;
    }
    found
}

/// What the strict check tells of a text.
pub fn check<T: Form>(text: &[T]) -> Told {
    if let Some(told) = over_limit(text.len()) {
        return told;
    }
    let damage = segments(text).into_iter().find(|(_, s)| s.point.is_none());
    damage.map_or(vec![0], |(start, s)| T::refusal(start, s))
}

/// U+FFFD in a form.
pub fn mark<U: Form>() -> Vec<U> {
    let mut out = Vec::new();
    U::put(REPLACEMENT, &mut out);
    out
}

/// A text in a form, U+FFFD for each damage.
pub fn converted<T: Form, U: Form>(text: &[T]) -> Vec<U> {
    let mut out = Vec::new();
    for (_, s) in segments(text) {
        let c = s.point.and_then(char::from_u32).unwrap_or(REPLACEMENT);
        U::put(c, &mut out);
    }
    out
}

/// Strict conversion: what is to be written, or the refusal that comes before 3.
pub fn strict<T: Form, U: Form>(text: &[T]) -> Result<Vec<U>, Told> {
    let told = check(text);
    if told == [0] {
        Ok(converted(text))
    } else {
        Err(told)
    }
}

/// Repair into a form: what is to be written, or the refusal that comes before 3.
pub fn repaired<T: Form, U: Form>(text: &[T]) -> Result<Vec<U>, Told> {
    over_limit(text.len()).map_or_else(|| Ok(converted(text)), Err)
}
