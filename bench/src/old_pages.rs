//! The old single-byte pages: the peer's encoding of each, the kinds of text that are written in it, and such texts.
use crate::inputs::{self, ASCII, CYRILLIC, LATIN};
use encoding_rs::{Encoding, ISO_8859_15, ISO_8859_5, WINDOWS_1252};

/// The peer has no 8859-1. Its windows-1252 differs from it in 80..9F alone, which no text here has.
pub fn encoding(page: usize) -> &'static Encoding {
    match page {
        1 => WINDOWS_1252,
        5 => ISO_8859_5,
        15 => ISO_8859_15,
        _ => panic!("there is no page {page}"),
    }
}

/// The kinds of text whose every letter a page has.
pub fn kinds(page: usize) -> [&'static str; 2] {
    [ASCII, if page == 5 { CYRILLIC } else { LATIN }]
}

/// A text of a kind in a page, of so many bytes: a letter takes two bytes in UTF-8 at most.
pub fn text(page: usize, kind: &str, length: usize) -> Vec<u8> {
    let text = inputs::text(kind, 2 * length + 1);
    let text = std::str::from_utf8(&text).expect("the kinds of a page are clean");
    let (written, _, is_lacking) = encoding(page).encode(text);
    assert!(!is_lacking, "page {page} has every letter of {kind}");
    written[..length].to_vec()
}
