//! The pages beside an outside source, Python's codecs: all bytes of each, and every scalar value back, alone and in a stretch of ASCII.
use crate::calls::*;
use crate::common::model::pages::{Page, PAGES};
use crate::Run;
use std::collections::HashMap;
use std::process::Command;

/// Prints three lines for each codec: the numbers of its 256 bytes; which of all scalar values it writes; and the bytes that it writes them as.
/// The others it refuses, run by run.
const PROGRAM: &str = "
import codecs

def refuse(error):
    refused.update(range(error.start, error.end))
    return '', error.end

codecs.register_error('refuse', refuse)
scalars = [*range(0xD800), *range(0xE000, 0x110000)]
text = ''.join(map(chr, scalars))
for codec in 'iso8859_1', 'iso8859_5', 'iso8859_15':
    refused = set()
    written = text.encode(codec, 'refuse')
    print(*map(ord, bytes(range(256)).decode(codec)))
    print(*(c for at, c in enumerate(scalars) if at not in refused))
    print(*written)
";

/// What Python prints, as rows of numbers.
fn printed() -> Vec<Vec<u32>> {
    let run = Command::new("python3").args(["-c", PROGRAM]).output();
    let output = run.unwrap_or_else(|e| {
        panic!("the pages are compared with Python's codecs, but python3 cannot be run: {e}")
    });
    let errors = String::from_utf8_lossy(&output.stderr);
    assert!(
        output.status.success(),
        "python3, which has the codecs that the pages are compared with, failed: {errors}"
    );
    let lines = String::from_utf8_lossy(&output.stdout);
    let number = |word: &str| word.parse().expect("python3 prints numbers alone");
    lines
        .lines()
        .map(|line| line.split(' ').map(number).collect())
        .collect()
}

/// A codec: the number of each byte, and the bytes of the numbers that it has.
struct Codec {
    page: Page,
    numbers: Vec<u32>,
    bytes: HashMap<u32, u8>,
}

fn codecs() -> Vec<Codec> {
    let rows = printed();
    assert_eq!(
        rows.len(),
        3 * PAGES.len(),
        "python3 prints three lines for each codec"
    );
    let codec = |(&page, rows): (&usize, &[Vec<u32>])| {
        let [numbers, held, written] = [0, 1, 2].map(|k| rows[k].clone());
        assert_eq!(
            [numbers.len(), held.len(), written.len()],
            [256; 3],
            "page {page} has 256 numbers"
        );
        let pairs = held.into_iter().zip(written.iter().map(|&b| b as u8));
        Codec {
            page: Page::new(page),
            numbers,
            bytes: pairs.collect(),
        }
    };
    PAGES.iter().zip(rows.chunks(3)).map(codec).collect()
}

/// Each byte of a page: the model's number and what is written are the codec's.
fn of_bytes(run: &mut Run, codec: &Codec) {
    let page = codec.page.page;
    let there = turning(bridge_pages_to_bytes, page, 8);
    for (byte, &number) in (0..=255).zip(&codec.numbers) {
        assert_eq!(
            codec.page.number(byte),
            number,
            "the model's number of {byte:02X} in page {page}"
        );
        let form = char::from_u32(number)
            .expect("a codec has scalar values alone")
            .to_string();
        let mut out = [0; 8];
        assert_eq!(
            there(&[byte], &mut out),
            [0, form.len()],
            "{byte:02X} in page {page}"
        );
        assert_eq!(
            &out[..form.len()],
            form.as_bytes(),
            "{byte:02X} in page {page}"
        );
        run.cases += 2;
    }
}

/// What is told of a scalar value in ASCII of so many bytes before it and behind it, and what is written.
fn of_value(run: &mut Run, codec: &Codec, value: char, before: usize, behind: usize) {
    let mut text = [b'A'; 96];
    let (at, length) = (before + value.len_utf8(), before + 1 + behind);
    value.encode_utf8(&mut text[before..at]);
    let (mut out, mut expected) = ([0x5A; 96], [0x5A; 96]);
    let told = turning(bridge_bytes_to_page, codec.page.page, 8)(&text[..at + behind], &mut out);
    match codec.bytes.get(&value.into()) {
        None => assert_eq!(told, [10, before], "{value:?} in page {}", codec.page.page),
        Some(&byte) => {
            assert_eq!(told, [0, length], "{value:?} in page {}", codec.page.page);
            expected[..length].fill(b'A');
            expected[before] = byte;
        }
    }
    assert!(
        out == expected,
        "{value:?} in page {}: {out:02X?}",
        codec.page.page
    );
    run.cases += 1;
}

/// Every scalar value, alone and among up to 82 bytes of ASCII: the model's byte and what is written are the codec's, and so is what is refused.
fn of_values(run: &mut Run, codec: &Codec) {
    for value in '\0'..=char::MAX {
        let number = u32::from(value);
        let byte = codec.bytes.get(&number).copied();
        assert_eq!(
            codec.page.byte(number),
            byte,
            "the model's byte of {number:X} in page {}",
            codec.page.page
        );
        let (before, behind) = (number as usize % 47, number as usize % 37);
        of_value(run, codec, value, 0, 0);
        of_value(run, codec, value, before, behind);
        run.cases += 1;
    }
}

pub fn all(run: &mut Run) {
    for codec in codecs() {
        of_bytes(run, &codec);
        of_values(run, &codec);
    }
}
