//! The two bodies of each job, ours and the peer's on the same text: first compared, then handed to a meter.
use crate::meter::{keep, Meter, Pair};
use crate::phrases::Phrase;
use crate::shelf::{Number, Shelf};
use crate::{calls, old_pages, peers, ranges};
use memchr::memmem;
use std::hint::black_box;

/// Two writers, each into a buffer of its own with so much room; both say how much they wrote, and must write the same.
fn writers<T: Number>(
    shelf: &mut Shelf,
    meter: &mut dyn Meter,
    rooms: (usize, usize),
    ours: impl Fn(&mut [T]) -> usize,
    peer: impl Fn(&mut [T]) -> usize,
) -> Pair {
    let (out, theirs) = (shelf.take(rooms.0), shelf.take(rooms.1));
    let n = ours(out);
    assert_eq!(n, peer(theirs));
    assert!(out[..n] == theirs[..n]);
    meter.pair(&mut || keep(ours(out)), &mut || keep(peer(theirs)))
}

pub fn check_std(text: &[u8], _: &mut Shelf, meter: &mut dyn Meter) -> Pair {
    assert_eq!(calls::check(text) == 0, std::str::from_utf8(text).is_ok());
    meter.pair(&mut || keep(calls::check(black_box(text))), &mut || {
        keep(std::str::from_utf8(black_box(text)))
    })
}

pub fn check_simdutf8(text: &[u8], _: &mut Shelf, meter: &mut dyn Meter) -> Pair {
    use simdutf8::basic::from_utf8;
    assert_eq!(calls::check(text) == 0, from_utf8(text).is_ok());
    meter.pair(&mut || keep(calls::check(black_box(text))), &mut || {
        keep(from_utf8(black_box(text)))
    })
}

/// On clean text the peer lends its input and copies nothing; ours writes the whole form.
pub fn repair_std(text: &[u8], shelf: &mut Shelf, meter: &mut dyn Meter) -> Pair {
    let out = shelf.take(3 * text.len());
    let n = calls::repair(text, out);
    assert_eq!(&out[..n], String::from_utf8_lossy(text).as_bytes());
    meter.pair(
        &mut || keep(calls::repair(black_box(text), out)),
        &mut || keep(String::from_utf8_lossy(black_box(text))),
    )
}

pub fn repair_encoding(text: &[u8], shelf: &mut Shelf, meter: &mut dyn Meter) -> Pair {
    let room = 3 * text.len() + 3;
    writers(
        shelf,
        meter,
        (room, room),
        |out| calls::repair(black_box(text), out),
        |out| peers::encoding_repair(black_box(text), out),
    )
}

/// The places that any feed of a text can need, with what pends before it.
fn places_fed(text: &[u8]) -> usize {
    3 * text.len() + 24
}

pub fn pieces_streaming<const SIZE: usize>(
    text: &[u8],
    shelf: &mut Shelf,
    meter: &mut dyn Meter,
) -> Pair {
    let room = places_fed(text);
    writers(
        shelf,
        meter,
        (room, room),
        |out| calls::repair_pieces(black_box(text), SIZE, out),
        |out| peers::encoding_pieces(black_box(text), SIZE, out),
    )
}

pub fn pieces_whole<const SIZE: usize>(
    text: &[u8],
    shelf: &mut Shelf,
    meter: &mut dyn Meter,
) -> Pair {
    let room = places_fed(text);
    writers(
        shelf,
        meter,
        (room, room),
        |out| calls::repair_pieces(black_box(text), SIZE, out),
        |out| calls::repair(black_box(text), out),
    )
}

pub fn pieces_to_units<const SIZE: usize>(
    text: &[u8],
    shelf: &mut Shelf,
    meter: &mut dyn Meter,
) -> Pair {
    let room = text.len() + 24;
    writers(
        shelf,
        meter,
        (room, room),
        |out| calls::pieces_to_units(black_box(text), SIZE, out),
        |out| peers::encoding_pieces_to_units(black_box(text), SIZE, out),
    )
}

pub fn unit_pieces<const SIZE: usize>(
    text: &[u8],
    shelf: &mut Shelf,
    meter: &mut dyn Meter,
) -> Pair {
    let units = as_units(text);
    let halves: Vec<u8> = units.iter().flat_map(|u| u.to_le_bytes()).collect();
    let (units, halves) = (shelf.put(&units), shelf.put(&halves));
    let room = 3 * units.len() + 24;
    writers(
        shelf,
        meter,
        (room, room),
        |out| calls::unit_pieces(black_box(units), SIZE, out),
        |out| peers::encoding_unit_pieces(black_box(halves), SIZE, out),
    )
}

pub fn units_encoding(text: &[u8], shelf: &mut Shelf, meter: &mut dyn Meter) -> Pair {
    let room = text.len() + 1;
    writers(
        shelf,
        meter,
        (room, room),
        |out| calls::repair_to_units(black_box(text), out)[1],
        |out| peers::encoding_to_units(black_box(text), out),
    )
}

/// Our output has as many places as the text needs, so that the need is counted first; the peer's has the most, which it wants.
pub fn units_exact(text: &[u8], shelf: &mut Shelf, meter: &mut dyn Meter) -> Pair {
    let [units, _, _] = peers::count(text);
    writers(
        shelf,
        meter,
        (units, text.len() + 1),
        |out| calls::repair_to_units(black_box(text), out)[1],
        |out| peers::encoding_to_units(black_box(text), out),
    )
}

pub fn units_std(text: &[u8], shelf: &mut Shelf, meter: &mut dyn Meter) -> Pair {
    let room = text.len() + 1;
    writers(
        shelf,
        meter,
        (room, room),
        |out| calls::to_units(black_box(text), out)[1],
        |out| peers::std_to_units(black_box(text), out),
    )
}

pub fn points_std(text: &[u8], shelf: &mut Shelf, meter: &mut dyn Meter) -> Pair {
    let room = text.len() + 1;
    writers(
        shelf,
        meter,
        (room, room),
        |out| calls::to_points(black_box(text), out)[1],
        |out| peers::std_to_points(black_box(text), out),
    )
}

fn as_units(text: &[u8]) -> Vec<u16> {
    String::from_utf8_lossy(text).encode_utf16().collect()
}

pub fn bytes_encoding(text: &[u8], shelf: &mut Shelf, meter: &mut dyn Meter) -> Pair {
    let units = shelf.put(&as_units(text));
    let room = 3 * units.len() + 1;
    writers(
        shelf,
        meter,
        (room, room),
        |out| calls::repair_to_bytes(black_box(units), out)[1],
        |out| peers::encoding_to_bytes(black_box(units), out),
    )
}

pub fn bytes_std(text: &[u8], shelf: &mut Shelf, meter: &mut dyn Meter) -> Pair {
    let units = shelf.put(&as_units(text));
    let room = 3 * units.len() + 4;
    writers(
        shelf,
        meter,
        (room, room),
        |out| calls::to_bytes(black_box(units), out)[1],
        |out| peers::std_to_bytes(black_box(units), out),
    )
}

/// A page text as bytes. Both have room for three bytes a letter.
pub fn from_page<const PAGE: usize>(text: &[u8], shelf: &mut Shelf, meter: &mut dyn Meter) -> Pair {
    let (room, page) = (3 * text.len() + 3, old_pages::encoding(PAGE));
    writers(
        shelf,
        meter,
        (room, room),
        |out| calls::from_page(black_box(text), PAGE, out)[1],
        |out| peers::encoding_from_page(black_box(text), page, out),
    )
}

/// Bytes as a page text. The peer is handed them as checked ones, while ours checks them itself.
pub fn to_page<const PAGE: usize>(text: &[u8], shelf: &mut Shelf, meter: &mut dyn Meter) -> Pair {
    let checked = std::str::from_utf8(text).unwrap();
    let (room, page) = (3 * text.len() + 3, old_pages::encoding(PAGE));
    writers(
        shelf,
        meter,
        (room, room),
        |out| calls::to_page(black_box(text), PAGE, out)[1],
        |out| peers::encoding_to_page(black_box(checked), page, out),
    )
}

pub fn build_loop(text: &[u8], shelf: &mut Shelf, meter: &mut dyn Meter) -> Pair {
    let row = shelf.take(calls::index_size(text.len()));
    let [units, points, lines] = peers::count(text);
    let end = [0, text.len(), units, points, lines];
    assert_eq!(calls::build(text, row)[0], 0);
    assert_eq!(calls::index_unit(text, row, units)[..5], end);
    meter.pair(
        &mut || keep(calls::build(black_box(text), row)),
        &mut || keep(peers::count(black_box(text))),
    )
}

pub fn build_bytecount(text: &[u8], shelf: &mut Shelf, meter: &mut dyn Meter) -> Pair {
    let row = shelf.take(calls::index_size(text.len()));
    assert_eq!(peers::count(text)[1], bytecount::num_chars(text));
    meter.pair(
        &mut || keep(calls::build(black_box(text), row)),
        &mut || keep(bytecount::num_chars(black_box(text))),
    )
}

/// The unit at which the text ends, so that all of it is counted.
pub fn plain_loop(text: &[u8], _: &mut Shelf, meter: &mut dyn Meter) -> Pair {
    let [end, _, _] = peers::count(text);
    assert_eq!(calls::plain_unit(text, end)[..2], [0, text.len()]);
    assert_eq!(peers::byte_of_unit(text, end), Some(text.len()));
    meter.pair(
        &mut || keep(calls::plain_unit(black_box(text), end)),
        &mut || keep(peers::byte_of_unit(black_box(text), end)),
    )
}

/// Both read segment by segment, and count the four measures.
pub fn plain_ranges(text: &[u8], _: &mut Shelf, meter: &mut dyn Meter) -> Pair {
    let [end, _, _] = peers::count(text);
    let place = ranges::place_of_unit(text, end).unwrap();
    assert_eq!(calls::plain_unit(text, end)[1..5], place);
    meter.pair(
        &mut || keep(calls::plain_unit(black_box(text), end)),
        &mut || keep(ranges::place_of_unit(black_box(text), end)),
    )
}

pub fn indexed_loop(text: &[u8], shelf: &mut Shelf, meter: &mut dyn Meter) -> Pair {
    let row = shelf.take(calls::index_size(text.len()));
    calls::build(text, row);
    let [end, _, _] = peers::count(text);
    assert_eq!(calls::index_unit(text, row, end)[..2], [0, text.len()]);
    meter.pair(
        &mut || keep(calls::index_unit(black_box(text), row, end)),
        &mut || keep(peers::byte_of_unit(black_box(text), end)),
    )
}

/// The first match of a phrase; std is handed the text and the phrase as checked ones, while ours checks the phrase itself.
pub fn find_std<P: Phrase>(text: &[u8], shelf: &mut Shelf, meter: &mut dyn Meter) -> Pair {
    let entry = std::str::from_utf8(text).unwrap();
    let needle = shelf.put(P::of(entry).as_bytes());
    let phrase = std::str::from_utf8(needle).unwrap();
    assert_eq!(calls::find(text, needle), entry.find(phrase));
    meter.pair(
        &mut || keep(calls::find(black_box(text), black_box(needle))),
        &mut || keep(black_box(entry).find(black_box(phrase))),
    )
}

pub fn find_memmem<P: Phrase>(text: &[u8], shelf: &mut Shelf, meter: &mut dyn Meter) -> Pair {
    let entry = std::str::from_utf8(text).unwrap();
    let needle = shelf.put(P::of(entry).as_bytes());
    assert_eq!(calls::find(text, needle), memmem::find(text, needle));
    meter.pair(
        &mut || keep(calls::find(black_box(text), black_box(needle))),
        &mut || keep(memmem::find(black_box(text), black_box(needle))),
    )
}
