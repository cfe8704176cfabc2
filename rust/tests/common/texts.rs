//! Texts to try: mixed alphabets with markup and line ends, damage of every sort, and all short texts of some elements.
use super::{Random, INTERESTING};

/// Damages that a line or a wrong encoder makes: later bytes alone, overlong forms, surrogates, past the last, cut short; the last ones are
/// what is left of line ends.
const DAMAGES: [&[u8]; 18] = [
    b"\x80",
    b"\xBF\xBF",
    b"\xC0\x80",
    b"\xC1\xBF",
    b"\xE0\x9F\xBF",
    b"\xED\xA0\x80",
    b"\xED\xBF\xBF",
    b"\xF0\x8F\xBF\xBF",
    b"\xF4\x90\x80\x80",
    b"\xFF\xFE",
    b"\xE2\x82",
    b"\xF0\x9F\x9A",
    b"\xF1",
    b"\xC3",
    b"\xC2",
    b"\r\x85",
    b"\xE2\x80",
    b"\x80\xA8",
];

/// Line ends as senders write them; and 0A before 0D, which are two.
pub const LINE_ENDS: [&str; 7] = ["\n", "\r", "\r\n", "\n\r", "\u{85}", "\u{2028}", "\u{2029}"];
/// The bytes of all line ends, and a letter.
pub const LINE_BYTES: [u8; 9] = [0x0A, 0x0D, 0x41, 0xC2, 0x85, 0xE2, 0x80, 0xA8, 0xA9];

/// Units at which something changes.
pub const UNITS: [u16; 14] = [
    0x0000, 0x0041, 0x007F, 0x0080, 0x07FF, 0x0800, 0xD7FF, 0xD800, 0xDBFF, 0xDC00, 0xDFFF, 0xE000,
    0xFFFD, 0xFFFF,
];

/// Numbers at which a code point changes.
pub const CODES: [u32; 16] = [
    0x0, 0x41, 0x7F, 0x80, 0x7FF, 0x800, 0xD7FF, 0xD800, 0xDFFF, 0xE000, 0xFFFF, 0x10000, 0x10FFFF,
    0x110000, 0x200000, 0xFFFFFFFF,
];

/// Every text of up to so many elements among some.
pub fn every_short<T: Copy>(elements: &[T], longest: u32) -> impl Iterator<Item = Vec<T>> + '_ {
    (0..=longest).flat_map(move |length| {
        (0..elements.len().pow(length)).map(move |mut code| {
            (0..length)
                .map(|_| {
                    let x = elements[code % elements.len()];
                    code /= elements.len();
                    x
                })
                .collect()
        })
    })
}

impl Random {
    pub fn pick<T: Copy>(&mut self, from: &[T]) -> T {
        from[self.below(from.len())]
    }

    /// A character of an alphabet: ASCII with 0A and 0D, Latin, Cyrillic, CJK, emoji, or any.
    pub fn character(&mut self, alphabet: usize) -> char {
        let c = match alphabet {
            0 if self.below(24) == 0 => self.pick(&[0x0A, 0x0D]),
            0 => 0x20 + self.below(0x5F) as u32,
            1 => 0xC0 + self.below(0x140) as u32,
            2 => 0x400 + self.below(0x100) as u32,
            3 => 0x4E00 + self.below(0x5000) as u32,
            4 => 0x1F300 + self.below(0x300) as u32,
            _ => self.below(0x110000) as u32,
        };
        char::from_u32(c).unwrap_or('\u{FEFF}')
    }

    /// A run of characters of one alphabet, of any bytes, or of line ends and their bytes.
    fn run(&mut self, text: &mut Vec<u8>) {
        let alphabet = self.below(10);
        for _ in 0..1 + self.below(12) {
            match alphabet {
                6 => text.push(self.next() as u8),
                7 => text.push(self.pick(&INTERESTING)),
                8 => text.extend(self.pick(&LINE_ENDS).bytes()),
                9 => text.push(self.pick(&LINE_BYTES)),
                a => text.extend(self.character(a).to_string().bytes()),
            }
        }
    }

    /// Well-formed text of about so many bytes, of one alphabet or of all, at times with line ends of every sort.
    pub fn clean(&mut self, length: usize) -> Vec<u8> {
        let (mut text, one) = (String::new(), self.below(8));
        let has_lines = self.below(3) == 0;
        while text.len() < length {
            let alphabet = if one > 5 { self.below(6) } else { one };
            text.push(self.character(alphabet));
            if has_lines && self.below(16) == 0 {
                text.push_str(self.pick(&LINE_ENDS));
            }
        }
        text.into_bytes()
    }

    /// Text of about so many bytes: clean, clean with damage, runs of all sorts, or what the older generator makes.
    pub fn mixture(&mut self, length: usize) -> Vec<u8> {
        match self.below(4) {
            0 => self.clean(length),
            1 => {
                let text = self.clean(length);
                self.broken(text)
            }
            2 => {
                let mut text = Vec::new();
                while text.len() < length {
                    self.run(&mut text);
                }
                text
            }
            _ => self.text(length),
        }
    }

    /// Damages put in, bytes dropped, or the end cut off.
    pub fn broken(&mut self, mut text: Vec<u8>) -> Vec<u8> {
        for _ in 0..1 + text.len() / 60 {
            let at = self.below(text.len() + 1);
            match self.below(3) {
                0 => drop(text.splice(at..at, self.pick(&DAMAGES).iter().copied())),
                1 if at < text.len() => drop(text.remove(at)),
                1 => {}
                _ => {
                    let upto = (at + self.below(3)).min(text.len());
                    drop(text.splice(at..upto, []));
                }
            }
        }
        text
    }

    /// A length: mostly short, sometimes some hundred, now and then some thousand.
    pub fn length(&mut self) -> usize {
        match self.below(50) {
            0 => self.below(3_000),
            1..=5 => self.below(400),
            _ => self.below(40),
        }
    }

    /// Units: of a text, with some replaced by halves of pairs.
    pub fn units(&mut self, length: usize) -> Vec<u16> {
        let text = self.mixture(length);
        let mut units: Vec<u16> = String::from_utf8_lossy(&text).encode_utf16().collect();
        for _ in 0..self.below(3).min(units.len()) {
            let at = self.below(units.len());
            units[at] = self.pick(&UNITS);
        }
        units
    }

    /// Units of a text, or pairs, halves and other units in any order; the last may be a half.
    pub fn unit_mixture(&mut self, length: usize) -> Vec<u16> {
        if self.below(2) == 0 {
            return self.units(length);
        }
        let mut units = Vec::new();
        while units.len() < length {
            let (first, second) = (self.below(0x400) as u16, self.below(0x400) as u16);
            match self.below(6) {
                0 => units.extend([0xD800 + first, 0xDC00 + second]),
                1 => units.push(0xD800 + first),
                2 => units.push(0xDC00 + second),
                3 => units.push(self.pick(&UNITS)),
                4 => units.push(self.next() as u16),
                _ => units.push(self.below(0x80) as u16),
            }
        }
        units
    }

    /// Numbers: of a text, at times with some that are no scalar values.
    pub fn codes(&mut self, length: usize) -> Vec<u32> {
        let text = self.mixture(length);
        let mut codes: Vec<u32> = String::from_utf8_lossy(&text)
            .chars()
            .map(u32::from)
            .collect();
        for _ in 0..self.below(2).min(codes.len()) {
            let at = self.below(codes.len());
            codes[at] = self.pick(&CODES);
        }
        codes
    }

    /// Places to cut a text at: few pieces, many, or single bytes.
    pub fn cuts(&mut self, length: usize) -> Vec<usize> {
        let pieces = match self.below(4) {
            0 => self.below(3),
            1 => self.below(8),
            2 => length / 3,
            _ => length,
        };
        let mut cuts: Vec<usize> = (0..pieces).map(|_| self.below(length + 1)).collect();
        cuts.push(length);
        cuts.sort();
        cuts
    }
}
