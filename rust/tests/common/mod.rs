//! An independent segment reader, from the sentence of the Unicode Standard, and texts to try it on.
#![allow(dead_code)] // each test file uses its part

pub mod model;
pub mod texts;

/// The well-formed sequences: a range for each byte.
const ROWS: [&[(u8, u8)]; 9] = [
    &[(0x00, 0x7F)],
    &[(0xC2, 0xDF), (0x80, 0xBF)],
    &[(0xE0, 0xE0), (0xA0, 0xBF), (0x80, 0xBF)],
    &[(0xE1, 0xEC), (0x80, 0xBF), (0x80, 0xBF)],
    &[(0xED, 0xED), (0x80, 0x9F), (0x80, 0xBF)],
    &[(0xEE, 0xEF), (0x80, 0xBF), (0x80, 0xBF)],
    &[(0xF0, 0xF0), (0x90, 0xBF), (0x80, 0xBF), (0x80, 0xBF)],
    &[(0xF1, 0xF3), (0x80, 0xBF), (0x80, 0xBF), (0x80, 0xBF)],
    &[(0xF4, 0xF4), (0x80, 0x8F), (0x80, 0xBF), (0x80, 0xBF)],
];

/// How many bytes from the start of a text agree with a row.
fn agreeing(row: &[(u8, u8)], text: &[u8]) -> usize {
    row.iter()
        .zip(text)
        .take_while(|((low, high), b)| (low..=high).contains(b))
        .count()
}

/// The segment at the start of a text that is not empty: its length, and whether it is whole.
pub fn segment(text: &[u8]) -> (usize, bool) {
    for row in ROWS {
        if agreeing(row, text) == row.len() {
            return (row.len(), true);
        }
    }
    let longest = ROWS.iter().map(|row| agreeing(row, text)).max().unwrap();
    (longest.max(1), false)
}

/// Is it a beginning of some well-formed sequence, and not the whole of one?
pub fn is_beginning(text: &[u8]) -> bool {
    ROWS.iter()
        .any(|row| text.len() < row.len() && agreeing(row, text) == text.len())
}

/// The cause of the segment that takes so many bytes at the start of a text, by the request's five sentences: 0 whole; 1 a lone 80..BF; 2 a
/// byte of C0, C1, F5..FF; 3 a begun sequence stopped by another byte; 4 stopped by the end of the text.
pub fn cause(text: &[u8], (length, whole): (usize, bool)) -> usize {
    match (&text[..length], text.get(length)) {
        _ if whole => 0,
        ([0x80..=0xBF], _) => 1,
        ([0xC0 | 0xC1 | 0xF5..=0xFF], _) => 2,
        (begun, another) => {
            assert!(is_beginning(begun), "no cause for {begun:02X?}");
            another.map_or(4, |_| 3)
        }
    }
}

/// A damage: its start, its length and its cause.
pub type Damage = (usize, usize, usize);

/// The damages of a text.
pub fn damages(text: &[u8]) -> Vec<Damage> {
    let (mut found, mut at) = (Vec::new(), 0);
    while at < text.len() {
        let (n, whole) = segment(&text[at..]);
        if !whole {
            found.push((at, n, cause(&text[at..], (n, whole))));
        }
        at += n;
    }
    found
}

/// The repaired form of a text.
pub fn repaired(text: &[u8]) -> Vec<u8> {
    let (mut out, mut at) = (Vec::new(), 0);
    while at < text.len() {
        let (n, whole) = segment(&text[at..]);
        out.extend_from_slice(if whole {
            &text[at..at + n]
        } else {
            b"\xEF\xBF\xBD"
        });
        at += n;
    }
    out
}

/// Bytes at which something changes: the ends of every range, and the bytes of line ends.
pub const INTERESTING: [u8; 36] = [
    0x00, 0x0A, 0x0D, 0x41, 0x7F, 0x80, 0x81, 0x85, 0x8F, 0x90, 0x9F, 0xA0, 0xA8, 0xA9, 0xBE, 0xBF,
    0xC0, 0xC1, 0xC2, 0xDF, 0xE0, 0xE1, 0xE2, 0xEC, 0xED, 0xEE, 0xEF, 0xF0, 0xF1, 0xF3, 0xF4, 0xF5,
    0xF7, 0xF8, 0xFE, 0xFF,
];

/// Random numbers that are the same in every run.
pub struct Random(pub u64);

impl Random {
    pub fn next(&mut self) -> u64 {
        self.0 ^= self.0 << 13;
        self.0 ^= self.0 >> 7;
        self.0 ^= self.0 << 17;
        self.0
    }

    pub fn below(&mut self, n: usize) -> usize {
        (self.next() % n as u64) as usize
    }

    /// A text of about so many bytes: of any scalar values, of one alphabet, of interesting bytes or of any bytes; often with
    /// bytes dropped or changed, as a line does.
    pub fn text(&mut self, length: usize) -> Vec<u8> {
        let mut text = Vec::new();
        let alphabet = self.below(6);
        while text.len() < length {
            let c = match alphabet {
                0 => self.below(0x80) as u32,
                1 => 0x400 + self.below(0x100) as u32,
                2 => 0x4E00 + self.below(0x5000) as u32,
                3 => 0x1F600 + self.below(0x100) as u32,
                4 => self.below(0x110000) as u32,
                _ => {
                    text.push(if self.below(2) == 0 {
                        self.pick(&INTERESTING)
                    } else {
                        self.next() as u8
                    });
                    continue;
                }
            };
            text.extend(char::from_u32(c).unwrap_or('\u{E000}').to_string().bytes());
        }
        for _ in 0..self.below(4) {
            if text.is_empty() {
                break;
            }
            let at = self.below(text.len());
            match self.below(3) {
                0 => drop(text.remove(at)),
                1 => text[at] = self.next() as u8,
                _ => text.truncate(at),
            }
        }
        text
    }
}
