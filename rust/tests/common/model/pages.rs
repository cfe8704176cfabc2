//! The old single-byte pages ISO 8859-1, 8859-5 and 8859-15, from the request's sentences: what number each byte has, a page text as UTF-8,
//! and back.
use super::forms::{check, segments, Form};
use super::{over_limit, Told};

/// The pages by their numbers.
pub const PAGES: [usize; 3] = [1, 5, 15];

/// The bytes whose numbers in 8859-15 are not those of 8859-1.
const OF_FIFTEEN: [(u8, u32); 8] = [
    (0xA4, 0x20AC),
    (0xA6, 0x160),
    (0xA8, 0x161),
    (0xB4, 0x17D),
    (0xB8, 0x17E),
    (0xBC, 0x152),
    (0xBD, 0x153),
    (0xBE, 0x178),
];

/// The number of a byte in a page.
fn number(page: usize, byte: u8) -> u32 {
    let own = u32::from(byte);
    match (page, byte) {
        (1, _) => own,
        (15, _) => {
            let other = OF_FIFTEEN.iter().find(|(b, _)| *b == byte);
            other.map_or(own, |&(_, number)| number)
        }
        (5, 0x00..=0xA0 | 0xAD) => own,
        (5, 0xA1..=0xAC) => 0x401 + (own - 0xA1),
        (5, 0xF0) => 0x2116,
        (5, 0xFD) => 0xA7,
        (5, 0xAE..=0xFF) => 0x40E + (own - 0xAE),
        _ => panic!("there is no page {page}"),
    }
}

/// A page, with its numbers by byte, and its bytes by number.
pub struct Page {
    pub page: usize,
    numbers: [u32; 256],
    bytes: Vec<(u32, u8)>,
}

impl Page {
    pub fn new(page: usize) -> Page {
        let mut bytes: Vec<(u32, u8)> = (0..=255).map(|b| (number(page, b), b)).collect();
        bytes.sort();
        Page {
            page,
            numbers: std::array::from_fn(|b| number(page, b as u8)),
            bytes,
        }
    }

    pub fn number(&self, byte: u8) -> u32 {
        self.numbers[byte as usize]
    }

    /// The byte that has a number; none where the page lacks it.
    pub fn byte(&self, number: u32) -> Option<u8> {
        let at = self.bytes.binary_search_by_key(&number, |&(n, _)| n);
        at.ok().map(|at| self.bytes[at].1)
    }

    /// A page text as UTF-8: what is to be written, or the refusal that comes before 3. No byte is refused.
    pub fn to_utf8(&self, text: &[u8]) -> Result<Vec<u8>, Told> {
        if let Some(told) = over_limit(text.len()) {
            return Err(told);
        }
        let mut out = Vec::new();
        for &b in text {
            let c = char::from_u32(self.number(b)).expect("a page has scalar values alone");
            u8::put(c, &mut out);
        }
        Ok(out)
    }

    /// Back: what is to be written, or the refusal that comes before 3. Damage wherever it stands comes before a code point that the page lacks.
    pub fn of_utf8(&self, text: &[u8]) -> Result<Vec<u8>, Told> {
        let told = check(text);
        if told != [0] {
            return Err(told);
        }
        let byte_at = |(start, point)| self.byte(point).ok_or(vec![10, start]);
        let points = segments(text).into_iter();
        points
            .filter_map(|(start, s)| Some((start, s.point?)))
            .map(byte_at)
            .collect()
    }
}
