//! The peers: what each does with a text, into a ready buffer where it can.
use encoding_rs::{mem, Encoding, UTF_16LE, UTF_8};

/// Repair by encoding_rs: how many bytes it wrote.
pub fn encoding_repair(text: &[u8], out: &mut [u8]) -> usize {
    let mut decoder = UTF_8.new_decoder_without_bom_handling();
    let (_, _, written, _) = decoder.decode_to_utf8(text, out, true);
    written
}

/// Repair in pieces of so many bytes by encoding_rs's streaming decoder: how many bytes it wrote.
pub fn encoding_pieces(text: &[u8], size: usize, out: &mut [u8]) -> usize {
    let (mut decoder, mut done) = (UTF_8.new_decoder_without_bom_handling(), 0);
    for piece in text.chunks(size) {
        let (_, _, written, _) = decoder.decode_to_utf8(piece, &mut out[done..], false);
        done += written;
    }
    let (_, _, written, _) = decoder.decode_to_utf8(&[], &mut out[done..], true);
    done + written
}

/// Repair in pieces of so many bytes into units by encoding_rs's streaming decoder: how many units it wrote.
pub fn encoding_pieces_to_units(text: &[u8], size: usize, out: &mut [u16]) -> usize {
    let (mut decoder, mut done) = (UTF_8.new_decoder_without_bom_handling(), 0);
    for piece in text.chunks(size) {
        let (_, _, written, _) = decoder.decode_to_utf16(piece, &mut out[done..], false);
        done += written;
    }
    let (_, _, written, _) = decoder.decode_to_utf16(&[], &mut out[done..], true);
    done + written
}

/// Repair of units in pieces of so many into bytes by encoding_rs's streaming decoder, which reads each unit as two bytes, the low one
/// first: how many bytes it wrote.
pub fn encoding_unit_pieces(text: &[u8], size: usize, out: &mut [u8]) -> usize {
    let (mut decoder, mut done) = (UTF_16LE.new_decoder_without_bom_handling(), 0);
    for piece in text.chunks(2 * size) {
        let (_, _, written, _) = decoder.decode_to_utf8(piece, &mut out[done..], false);
        done += written;
    }
    let (_, _, written, _) = decoder.decode_to_utf8(&[], &mut out[done..], true);
    done + written
}

/// Repair into units by encoding_rs; its output wants one place more than the text has bytes.
pub fn encoding_to_units(text: &[u8], out: &mut [u16]) -> usize {
    mem::convert_utf8_to_utf16(text, out)
}

/// Repair into bytes by encoding_rs; its output wants three places for each unit.
pub fn encoding_to_bytes(text: &[u16], out: &mut [u8]) -> usize {
    mem::convert_utf16_to_utf8(text, out)
}

/// A text of an old page as bytes by encoding_rs; its output wants three places for each byte.
pub fn encoding_from_page(text: &[u8], page: &'static Encoding, out: &mut [u8]) -> usize {
    let mut decoder = page.new_decoder_without_bom_handling();
    let (_, _, written, _) = decoder.decode_to_utf8(text, out, true);
    written
}

/// A text in an old page by encoding_rs, as far as the page has its letters.
pub fn encoding_to_page(text: &str, page: &'static Encoding, out: &mut [u8]) -> usize {
    let mut encoder = page.new_encoder();
    let (_, _, written) = encoder.encode_from_utf8_without_replacement(text, out, true);
    written
}

/// Strict conversion by std.
pub fn std_to_units(text: &[u8], out: &mut [u16]) -> usize {
    let Ok(text) = std::str::from_utf8(text) else {
        return 0;
    };
    let mut n = 0;
    for (place, unit) in out.iter_mut().zip(text.encode_utf16()) {
        *place = unit;
        n += 1;
    }
    n
}

/// Strict conversion into code points by std.
pub fn std_to_points(text: &[u8], out: &mut [u32]) -> usize {
    let Ok(text) = std::str::from_utf8(text) else {
        return 0;
    };
    let mut n = 0;
    for (place, c) in out.iter_mut().zip(text.chars()) {
        *place = c as u32;
        n += 1;
    }
    n
}

/// Strict conversion by std, as far as the units are well-formed.
pub fn std_to_bytes(text: &[u16], out: &mut [u8]) -> usize {
    let mut n = 0;
    for c in char::decode_utf16(text.iter().copied()).map_while(Result::ok) {
        n += c.encode_utf8(&mut out[n..]).len();
    }
    n
}

/// A plain loop over characters and damages: units, code points and lines of the whole text. A line ends after 0A, after 0D unless 0A follows,
/// and after U+0085, U+2028 and U+2029; behind a valid stretch there is damage or nothing, so that no 0A follows its last 0D.
pub fn count(text: &[u8]) -> [usize; 3] {
    let [mut units, mut points, mut lines] = [0; 3];
    for chunk in text.utf8_chunks() {
        let mut chars = chunk.valid().chars();
        while let Some(c) = chars.next() {
            units += c.len_utf16();
            points += 1;
            let ends_line = match c {
                '\n' | '\u{85}' | '\u{2028}' | '\u{2029}' => true,
                '\r' => !chars.as_str().starts_with('\n'),
                _ => false,
            };
            if ends_line {
                lines += 1;
            }
        }
        if !chunk.invalid().is_empty() {
            units += 1;
            points += 1;
        }
    }
    [units, points, lines]
}

/// A plain loop to a unit: the byte at which it stands, if it is a boundary.
pub fn byte_of_unit(text: &[u8], offset: usize) -> Option<usize> {
    let (mut bytes, mut units) = (0, 0);
    for chunk in text.utf8_chunks() {
        for c in chunk.valid().chars() {
            if units >= offset {
                return (units == offset).then_some(bytes);
            }
            bytes += c.len_utf8();
            units += c.len_utf16();
        }
        if !chunk.invalid().is_empty() {
            if units >= offset {
                return (units == offset).then_some(bytes);
            }
            bytes += chunk.invalid().len();
            units += 1;
        }
    }
    (units == offset).then_some(bytes)
}
