//! The reader that the library had before it read by a table of classes: it tests ranges, byte by byte. Kept here to be compared with; it
//! counts the lines that the library counts now.

/// How many bytes a first byte wants behind it, and the range of the next; nothing where it begins no sequence.
fn lead(b: u8) -> Option<(usize, u8, u8)> {
    match b {
        0x00..=0x7F => Some((0, 0x80, 0xBF)),
        0xC2..=0xDF => Some((1, 0x80, 0xBF)),
        0xE0 => Some((2, 0xA0, 0xBF)),
        0xE1..=0xEC => Some((2, 0x80, 0xBF)),
        0xED => Some((2, 0x80, 0x9F)),
        0xEE..=0xEF => Some((2, 0x80, 0xBF)),
        0xF0 => Some((3, 0x90, 0xBF)),
        0xF1..=0xF3 => Some((3, 0x80, 0xBF)),
        0xF4 => Some((3, 0x80, 0x8F)),
        _ => None,
    }
}

/// How many bytes the first segment of a text that is not empty has.
fn size(text: &[u8]) -> usize {
    let Some((more, mut low, mut high)) = lead(text[0]) else {
        return 1;
    };
    let mut n = 1;
    while n <= more {
        if text.len() <= n || text[n] < low || high < text[n] {
            return n;
        }
        (low, high) = (0x80, 0xBF);
        n += 1;
    }
    n
}

/// Does a line end after the first segment of a text? C2 85, E2 80 A8 and E2 80 A9 are whole segments wherever one begins with them.
fn ends_line(text: &[u8]) -> bool {
    match text {
        [b'\r', b'\n', ..] => false,
        [b'\n' | b'\r', ..] | [0xC2, 0x85, ..] | [0xE2, 0x80, 0xA8 | 0xA9, ..] => true,
        _ => false,
    }
}

/// The place that counts so many units: bytes, units, code points and lines before it, if it is a boundary.
pub fn place_of_unit(text: &[u8], offset: usize) -> Option<[usize; 4]> {
    let mut place = [0; 4];
    while place[1] < offset && place[0] < text.len() {
        let rest = &text[place[0]..];
        let n = size(rest);
        place[0] += n;
        place[1] += if n == 4 { 2 } else { 1 };
        place[2] += 1;
        if ends_line(rest) {
            place[3] += 1;
        }
    }
    (place[1] == offset).then_some(place)
}
