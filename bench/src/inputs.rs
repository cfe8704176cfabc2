//! The texts that are measured, made from fixed seeds.

/// Random numbers that are the same in every run.
pub struct Random(u64);

impl Random {
    pub fn new(seed: u64) -> Random {
        Random(seed.wrapping_mul(0x9E37_79B9_7F4A_7C15) | 1)
    }

    pub fn below(&mut self, n: usize) -> usize {
        self.0 ^= self.0 << 13;
        self.0 ^= self.0 >> 7;
        self.0 ^= self.0 << 17;
        (self.0 % n as u64) as usize
    }
}

pub const ASCII: &str = "ASCII log lines";
pub const LATIN: &str = "Latin with accents";
pub const CYRILLIC: &str = "Cyrillic";
pub const CJK: &str = "CJK";
pub const EMOJI: &str = "emoji";
pub const MARKUP: &str = "a mix with markup";
pub const DAMAGED: &str = "damage every 100 bytes";
pub const BURSTS: &str = "bursts of dropped bytes";
pub const RANDOM: &str = "random bytes";
pub const RETURNS: &str = "log lines with 0D 0A";
pub const QUOTES: &str = "Latin with quotation marks";

/// The clean kinds, then those with damage.
pub const CLEAN: [&str; 6] = [ASCII, LATIN, CYRILLIC, CJK, EMOJI, MARKUP];
pub const BROKEN: [&str; 3] = [DAMAGED, BURSTS, RANDOM];
/// Clean ones for what counts lines: line ends of two bytes, and letters that share their first bytes with line ends.
pub const LINED: [&str; 2] = [RETURNS, QUOTES];

fn letter(kind: &str, r: &mut Random) -> char {
    let (first, count) = match kind {
        LATIN if r.below(4) == 0 => (0xE0, 0x17),
        CYRILLIC => (0x430, 0x20),
        CJK => (0x4E00, 0x5000),
        EMOJI => (0x1F600, 0x50),
        _ => (0x61, 26),
    };
    char::from_u32(first + r.below(count) as u32).unwrap()
}

/// Words and lines; CJK and emoji stand without spaces.
fn prose(kind: &str, length: usize, r: &mut Random) -> String {
    let mut text = String::with_capacity(length + 16);
    while text.len() < length {
        for _ in 0..2 + r.below(9) {
            text.push(letter(kind, r));
        }
        match (kind, r.below(12)) {
            (_, 0) => text.push('\n'),
            (CJK | EMOJI, _) => {}
            _ => text.push(' '),
        }
    }
    text
}

fn log(length: usize, r: &mut Random) -> String {
    let mut text = String::new();
    while text.len() < length {
        let (cell, volts, word) = (r.below(96), 3_000 + r.below(1_200), letter(ASCII, r));
        let time = 1_700_000_000 + text.len();
        text += &format!("{time} charger-{word} cell {cell:02} {volts} mV ok\n");
    }
    text
}

fn markup(length: usize, r: &mut Random) -> String {
    let mut text = String::new();
    while text.len() < length {
        let kind = [ASCII, LATIN, CYRILLIC, CJK, EMOJI][r.below(5)];
        let inner = prose(kind, 12, r);
        text += &format!("<p class=\"note\">{}</p>\n", inner.trim());
    }
    text
}

/// Words in quotation marks, U+201C and U+201D.
fn quoted(length: usize, r: &mut Random) -> String {
    let mut text = String::new();
    while text.len() < length {
        text += &format!("\u{201C}{}\u{201D} ", prose(LATIN, 24, r).trim());
    }
    text
}

/// A clean text of at most so many bytes, cut at a character.
fn clean(kind: &str, length: usize, r: &mut Random) -> Vec<u8> {
    let mut text = match kind {
        ASCII => log(length, r),
        RETURNS => log(length, r).replace('\n', "\r\n"),
        QUOTES => quoted(length, r),
        MARKUP => markup(length, r),
        _ => prose(kind, length, r),
    };
    let mut end = length;
    while !text.is_char_boundary(end) {
        end -= 1;
    }
    text.truncate(end);
    text.into_bytes()
}

/// A byte in about every hundred becomes one that stands well nowhere.
fn damaged(length: usize, r: &mut Random) -> Vec<u8> {
    let mut text = clean(MARKUP, length, r);
    let mut at = r.below(200);
    while at < text.len() {
        text[at] = 0xFF;
        at += 1 + r.below(199);
    }
    text
}

/// Runs of 1 to 40 bytes are dropped about every kilobyte.
fn dropped(length: usize, r: &mut Random) -> Vec<u8> {
    let whole = clean(MARKUP, length + length / 16 + 64, r);
    let (mut text, mut at) = (Vec::with_capacity(length), 0);
    while text.len() < length && at < whole.len() {
        let end = (at + 512 + r.below(1_024)).min(whole.len());
        text.extend_from_slice(&whole[at..end]);
        at = end + 1 + r.below(40);
    }
    text.truncate(length);
    text
}

/// A text of a kind and of about so many bytes.
pub fn text(kind: &str, length: usize) -> Vec<u8> {
    let mut r = Random::new(length as u64 + kind.len() as u64 * 1_000_003);
    match kind {
        DAMAGED => damaged(length, &mut r),
        BURSTS => dropped(length, &mut r),
        RANDOM => (0..length).map(|_| r.below(256) as u8).collect(),
        _ => clean(kind, length, &mut r),
    }
}
