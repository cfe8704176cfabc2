//! The model itself on the paper's fixed examples.
mod common;

use common::model::decoder::{most, start, Decoder, State, UnitDecoder};
use common::model::forms::{check, converted, first, point, segments, Form};
use common::model::index::{built, lookup, need, Builder};
use common::model::pages::{Page, PAGES};
use common::model::pending::Piece;
use common::model::phrases::{find, rest};
use common::model::places::{cut, places, plain};
use common::model::{ENTRY, LIMIT, ROOM};
use common::{damages, repaired, Damage};

#[test]
fn segments_and_points() {
    assert_eq!(check::<u8>(b""), [0]);
    assert_eq!(built(b""), [0, 0, 0, 0]);
    assert_eq!(point(b"\xE2\x82\xAC".as_slice()), [0x20AC, 3]);
    assert_eq!(point(b"\xF0\x9F\x9A\x86".as_slice()), [0x1F686, 4]);
    assert_eq!(
        converted::<u8, u16>(b"\xF0\x9F\x9A\x86"),
        [0xD83D_u16, 0xDE86]
    );
    assert_eq!(
        converted::<u8, u16>(b"\xF4\x8F\xBF\xBF"),
        [0xDBFF_u16, 0xDFFF]
    );
    assert_eq!(point([0xDBFF_u16, 0xDFFF].as_slice()), [0x10FFFF, 2]);
    let counts: [(&[u8], usize); 5] = [
        (b"\xF4\x90\x80\x80", 4),
        (b"\xF0\x8F\xBF\xBF", 4),
        (b"\xED\xA0\x80", 3),
        (b"\xE0\x9F\xBF", 3),
        (b"\xC0\x80", 2),
    ];
    for (text, count) in counts {
        assert_eq!(damages(text).len(), count, "{text:02X?}");
        assert_eq!(segments(text).len(), count, "{text:02X?}");
    }
    assert_eq!(check(b"\xE2\x82\x41".as_slice()), [1, 0, 2, 3]);
    assert_eq!(first(b"\xE2\x82\x41".as_slice()), [1, 2, 1, 3]);
    assert_eq!(first(b"\xF0\x9F\x9A".as_slice()), [1, 3, 0, 4]);
    assert_eq!(check(b"\xF0\x9F\x9A".as_slice()), [1, 0, 3, 4]);
    assert_eq!(first(b"\x41\x80".as_slice()), [0, 1, 1, 0]);
    assert_eq!(check(b"\x41\x80\x42".as_slice()), [1, 1, 1, 1]);
}

/// The damages by the reader of a form, beside the byte reader's.
fn told<T: Form>(text: &[T]) -> Vec<Damage> {
    let read = segments(text).into_iter();
    read.filter(|(_, s)| s.point.is_none())
        .map(|(start, s)| (start, s.length, s.cause))
        .collect()
}

#[test]
fn causes_of_bytes() {
    let examples: [(&[u8], &[Damage]); 14] = [
        (b"\x41\x80\x42", &[(1, 1, 1)]),
        (b"\xE2\x82\x41", &[(0, 2, 3)]),
        (b"\xE2\x82\xC3\xA9", &[(0, 2, 3)]),
        (b"\xF0\x9F\x9A", &[(0, 3, 4)]),
        (b"\x41\xE2", &[(1, 1, 4)]),
        (b"\x41\xBF", &[(1, 1, 1)]),
        (b"\x41\xFF", &[(1, 1, 2)]),
        (
            b"\xF4\x90\x80\x80",
            &[(0, 1, 3), (1, 1, 1), (2, 1, 1), (3, 1, 1)],
        ),
        (
            b"\xF0\x8F\xBF\xBF",
            &[(0, 1, 3), (1, 1, 1), (2, 1, 1), (3, 1, 1)],
        ),
        (b"\xC0\x80", &[(0, 1, 2), (1, 1, 1)]),
        (b"\xED\xA0\x80", &[(0, 1, 3), (1, 1, 1), (2, 1, 1)]),
        (b"\xE0\x9F\xBF", &[(0, 1, 3), (1, 1, 1), (2, 1, 1)]),
        (
            b"\x61\xF1\x80\x80\xE1\x80\xC2\x62\x80\x63\x80\xBF\x64",
            &[
                (1, 3, 3),
                (4, 2, 3),
                (6, 1, 3),
                (8, 1, 1),
                (10, 1, 1),
                (11, 1, 1),
            ],
        ),
        (
            b"\xC1\xF5\xC2\xC2",
            &[(0, 1, 2), (1, 1, 2), (2, 1, 3), (3, 1, 4)],
        ),
    ];
    for (text, found) in examples {
        assert_eq!(damages(text), found, "{text:02X?}");
        assert_eq!(told(text), found, "{text:02X?}");
    }
}

#[test]
fn causes_of_units_and_code_points() {
    let examples: [(&[u16], &[Damage]); 5] = [
        (&[0xD83D, 0xD83D, 0xDE86], &[(0, 1, 3)]),
        (&[0xDE86, 0xD83D], &[(0, 1, 1), (1, 1, 4)]),
        (&[0xD83D, 0x41, 0xDE86], &[(0, 1, 3), (2, 1, 1)]),
        (&[0xDBFF, 0xDBFF], &[(0, 1, 3), (1, 1, 4)]),
        (&[0xD7FF, 0xD800, 0xDC00, 0xE000], &[]),
    ];
    for (text, found) in examples {
        assert_eq!(told(text), found, "{text:04X?}");
    }
    assert_eq!(check([0x41_u16, 0xD83D, 0x41].as_slice()), [1, 1, 1, 3]);
    assert_eq!(first([0xD83D_u16].as_slice()), [1, 1, 0, 4]);
    assert_eq!(first([0xDE86_u16].as_slice()), [1, 1, 1, 1]);
    assert_eq!(first([0x110000_u32].as_slice()), [1, 1, 1, 2]);
    assert_eq!(first([0x10FFFF_u32].as_slice()), [0, 1, 1, 0]);
    assert_eq!(check([0x41_u32, 0xD800].as_slice()), [9, 1]);
}

#[test]
fn repair() {
    let text = b"\x61\xF1\x80\x80\xE1\x80\xC2\x62\x80\x63\x80\xBF\x64";
    let form = "a\u{FFFD}\u{FFFD}\u{FFFD}b\u{FFFD}c\u{FFFD}\u{FFFD}d";
    assert_eq!(repaired(text), form.as_bytes());
    assert_eq!(converted::<u8, u8>(text), form.as_bytes());
    assert_eq!(
        converted::<u16, u32>(&[0xD83D, 0xD83D, 0xDE86]),
        [0xFFFD_u32, 0x1F686]
    );
    assert_eq!(
        converted::<u16, u32>(&[0xDE86, 0xD83D]),
        [0xFFFD_u32, 0xFFFD]
    );
}

#[test]
fn pieces() {
    let mut state = Decoder::fresh(0);
    let mut written = Vec::new();
    for b in [0xE2, 0x82, 0x41] {
        let fed = state.feed::<u8>(&[b], 9, 0);
        written.push(fed.output);
        state = fed.state;
    }
    let ended = state.finish::<u8>(0, 0);
    assert_eq!(
        written,
        [
            b"".as_slice(),
            b"".as_slice(),
            b"\xEF\xBF\xBD\x41".as_slice()
        ]
    );
    assert_eq!(ended.told, [0, 0, 1, 2, 1]);
    assert_eq!(ended.entries, []);
    let five = Decoder::fresh(2).feed::<u8>(&[0x80; 5], 15, 6);
    assert_eq!(five.entries, [0, 1, 1, 1, 1, 1]);
    assert_eq!((five.told, five.state.count), (vec![0, 15], 5));
    let short = Decoder::fresh(2).feed::<u8>(&[0x80; 5], 15, 5);
    assert_eq!(short.told, [7], "shorter than three times the room");
}

/// What stops a sequence may be pending itself: the cause is that in the joined text, and 4 comes from the finish alone.
#[test]
fn causes_in_pieces() {
    let cut: [&[&[u8]]; 4] = [
        &[b"\xE2\x82\xC3"],
        &[b"\xE2\x82", b"\xC3"],
        &[b"\xE2", b"", b"\x82", b"\xC3", b""],
        &[b"\xE2", b"\x82\xC3"],
    ];
    for pieces in cut {
        let (written, list, totals) = fed::<u8, u16>(pieces);
        assert_eq!(written.concat(), [0xFFFD, 0xFFFD], "{pieces:02X?}");
        assert_eq!(list, [0, 2, 3, 2, 1, 4], "{pieces:02X?}");
        assert_eq!(totals, [0, 3, 2], "{pieces:02X?}");
    }
    let (_, list, _) = fed::<u16, u8>(&[&[0xD83D], &[0xD83D], &[], &[0x41, 0xD83D]]);
    assert_eq!(list, [0, 1, 3, 1, 1, 3, 3, 1, 4]);
    let (_, list, _) = fed::<u16, u8>(&[&[0xD83D, 0xD83D]]);
    assert_eq!(list, [0, 1, 3, 1, 1, 4]);
}

/// What each piece writes and what the finish then does, the entries, and the totals; with room for four entries.
fn fed<T: Piece, U: Form>(pieces: &[&[T]]) -> (Vec<Vec<U>>, Vec<u32>, [usize; 3]) {
    let (mut state, mut written, mut list) = (State::fresh(4), Vec::new(), Vec::new());
    for piece in pieces {
        let fed = state.feed(piece, 99, 4 * ENTRY);
        assert_eq!(fed.told, [0, fed.output.len()]);
        written.push(fed.output);
        list.extend(fed.entries);
        state = fed.state;
        assert!(state.is_sound(), "{state:?}");
    }
    let ended = state.finish(99, 4 * ENTRY);
    assert_eq!(ended.state, State::fresh(4));
    written.push(ended.output);
    list.extend(ended.entries);
    let totals = [ended.told[2], ended.told[3], ended.told[4]];
    (written, list, totals)
}

#[test]
fn units_in_pieces() {
    let (written, list, totals) = fed::<u16, u8>(&[&[0xD83D], &[0xD83D, 0xDE86]]);
    assert_eq!(written.concat(), "\u{FFFD}\u{1F686}".as_bytes());
    assert_eq!(written[0], []);
    assert_eq!((list, totals), (vec![0, 1, 3], [2, 1, 1]));

    let (written, list, totals) = fed::<u16, u8>(&[&[0x20AC, 0xD83D], &[], &[0xDE86, 0xDBFF]]);
    let expected = ["\u{20AC}", "", "\u{1F686}", "\u{FFFD}"];
    assert_eq!(written, expected.map(|s| s.as_bytes()));
    assert_eq!(
        (list, totals),
        (vec![3, 1, 4], [3, 1, 1]),
        "starts in units"
    );

    let (written, list, totals) = fed::<u16, u8>(&[&[0xDE86], &[0xD83D], &[0x41]]);
    let expected = ["\u{FFFD}", "", "\u{FFFD}A", ""];
    assert_eq!(written, expected.map(|s| s.as_bytes()));
    assert_eq!((list, totals), (vec![0, 1, 1, 1, 1, 3], [1, 2, 2]));
}

#[test]
fn bytes_in_pieces_as_units() {
    let (written, list, totals) = fed::<u8, u16>(&[b"\xE2", b"\x82", b"\x41"]);
    assert_eq!(written, [vec![], vec![], vec![0xFFFD, 0x41], vec![]]);
    assert_eq!(
        (list, totals),
        (vec![0, 2, 3], [1, 2, 1]),
        "starts in bytes"
    );

    let (written, list, totals) = fed::<u8, u16>(&[b"\xF0\x9F", b"\x9A\x86\xF0\x9F\x9A"]);
    assert_eq!(written, [vec![], vec![0xD83D, 0xDE86], vec![0xFFFD]]);
    assert_eq!((list, totals), (vec![4, 3, 4], [4, 3, 1]));
}

/// A sound state, the tests for 8 one by one, and then the other refusals in their order.
#[test]
fn states_of_units() {
    let state = UnitDecoder::of(&[0xD83D, 1, 10, 7, 2, 2, 3]);
    assert!(state.is_sound());
    assert_eq!(state.numbers(), [0xD83D, 1, 10, 7, 2, 2, 3]);
    let unsound: [[usize; 7]; 12] = [
        [0xDC00, 1, 10, 7, 2, 2, 3],
        [0xD7FF, 1, 10, 7, 2, 2, 3],
        [0, 1, 10, 7, 2, 2, 3],
        [0xD83D, 0, 9, 7, 2, 2, 3],
        [0xD83D, 2, 11, 7, 2, 2, 3],
        [0xD83D, 1, 9, 7, 2, 2, 3],
        [0xD83D, 1, 10, 6, 3, 2, 3],
        [0xD83D, 1, 10, 8, 1, 2, 3],
        [0xD83D, 1, 10, 7, 2, 2, ROOM + 1],
        [0xD83D, 1, LIMIT + 1, LIMIT - 2, 2, 2, 3],
        [0, 0, 2, usize::MAX, 3, 3, 3],
        [0x41, 0, 9, 7, 2, 2, 3],
    ];
    for numbers in unsound {
        let state = UnitDecoder::of(&numbers);
        let refused = state.feed::<u8>(&[0x41; 9], 0, 0);
        assert_eq!(
            (refused.told, refused.state),
            (vec![8], state),
            "{numbers:X?}"
        );
        assert_eq!(state.finish::<u8>(9, 9).told, [8], "{numbers:X?}");
    }
    let full = UnitDecoder::of(&[0, 0, LIMIT - 1, LIMIT - 1, 0, 0, 3]);
    assert_eq!(full.feed::<u8>(&[0x41, 0x41], 0, 0).told, [2]);
    assert_eq!(full.feed::<u8>(&[0x41], 0, 6).told, [7]);
    assert_eq!(full.feed::<u8>(&[0x41], 0, 8).told, [7]);
    assert_eq!(full.feed::<u8>(&[0x41], 0, 9).told, [3, 1]);
    assert_eq!(full.feed::<u8>(&[0x41], 1, 9).told, [0, 1]);
    assert_eq!(state.finish::<u8>(2, 9).told, [3, 3]);
    assert_eq!(state.finish::<u8>(3, 9).told, [0, 3, 7, 3, 3]);
    assert_eq!(state.finish::<u8>(3, 9).entries, [9, 1, 4]);
    assert_eq!(start(ROOM + 1), (vec![7], UnitDecoder::fresh(0)));
    assert_eq!(start(ROOM), (vec![0], UnitDecoder::fresh(ROOM)));
}

#[test]
fn the_most_places() {
    assert_eq!([most::<u8>(0), most::<u8>(5)], [3, 18]);
    assert_eq!([most::<u16>(0), most::<u16>(5)], [1, 6]);
    assert_eq!(most::<u8>(usize::MAX), 3 * (LIMIT + 1));
    assert_eq!(most::<u16>(LIMIT + 1), LIMIT + 1);
}

#[test]
fn places_and_lookups() {
    let text = b"\x41\xE2\x82\xAC\xF0\x9F\x9A\x86\x80\x0A\x42";
    let expected = [
        [0, 0, 0, 0],
        [1, 1, 1, 0],
        [4, 2, 2, 0],
        [8, 4, 3, 0],
        [9, 5, 4, 0],
        [10, 6, 5, 1],
        [11, 7, 6, 1],
    ];
    assert_eq!(places([0; 4], text), expected);
    let refused = [(1, 3, 5), (0, 2, 5), (0, 12, 4), (3, 2, 4)];
    for (measure, offset, number) in refused {
        assert_eq!(plain(text, measure, offset), [number]);
        assert_eq!(lookup(text, &built(text), measure, offset), [number]);
    }
    assert_eq!(
        [cut(text, 0, 3), cut(text, 1, 3), cut(text, 2, 3)],
        [1, 4, 8]
    );
}

/// Where lines end: the last number of each place of a text.
fn lines(text: &[u8]) -> Vec<usize> {
    places([0; 4], text).into_iter().map(|p| p[3]).collect()
}

#[test]
fn lines_as_senders_write_them() {
    let ends: [(&[u8], &[usize]); 18] = [
        (b"\n", &[0, 1]),
        (b"\r", &[0, 1]),
        (b"\r\n", &[0, 0, 1]),
        (b"\n\r", &[0, 1, 2]),
        (b"\r\r\n\n", &[0, 1, 1, 2, 3]),
        (b"A\rB", &[0, 0, 1, 1]),
        (b"\xC2\x85", &[0, 1]),
        (b"\xE2\x80\xA8\xE2\x80\xA9", &[0, 1, 2]),
        (b"\r\xC2\x85\n", &[0, 1, 2, 3]),
        (b"\r\xE2\x80", &[0, 1, 1]),
        (b"\r\x80\n", &[0, 1, 1, 2]),
        (b"\xC2\r\x85", &[0, 0, 1, 1]),
        (b"\xE2\x80", &[0, 0]),
        (b"\xE2\x80\xA7\xE2\x80\xAA", &[0, 0, 0]),
        (b"\xE2\x81\xA8\xE1\x80\xA8", &[0, 0, 0]),
        (b"\xC2\x84\xC2\x86\xC3\x85", &[0, 0, 0, 0]),
        (b"\x85\x80\xA8", &[0, 0, 0, 0]),
        (b"\x0B\x0C\x1C\x1E", &[0, 0, 0, 0, 0]),
    ];
    for (text, counts) in ends {
        assert_eq!(lines(text), counts, "{text:02X?}");
    }
    let text = b"A\r\n\r";
    let place = |n: usize, lines| vec![0, n, n, n, lines];
    assert_eq!(plain(text, 0, 2), place(2, 0), "a place between 0D and 0A");
    assert_eq!(plain(text, 3, 0), place(0, 0));
    assert_eq!(plain(text, 3, 1), place(3, 1));
    assert_eq!(plain(text, 3, 2), place(4, 2));
    assert_eq!(plain(text, 3, 3), [4]);
    assert_eq!(cut(text, 0, 2), 2);
}

/// The numbers of a builder's state behind each of some pieces; then it is ended.
fn states_behind(pieces: &[&[u8]]) -> Vec<[usize; 8]> {
    let mut state = Builder::fresh();
    let numbers = pieces.iter().map(|piece| {
        let fed = state.feed(piece, 4);
        assert_eq!(fed.told, [0]);
        state = fed.state;
        state.numbers()
    });
    let numbers = numbers.collect();
    let ended = state.finish(4);
    assert_eq!((ended.told, ended.state), (vec![0], Builder::fresh()));
    numbers
}

#[test]
fn lines_in_pieces() {
    let pending = [0x0D, 0, 0, 1, 2, 1, 1, 0];
    let (one, both) = ([0, 0, 0, 0, 3, 3, 3, 1], [0, 0, 0, 0, 4, 4, 4, 2]);
    assert_eq!(states_behind(&[b"A\r", b"\n"]), [pending, one]);
    assert_eq!(states_behind(&[b"A\r", b"B"]), [pending, one]);
    assert_eq!(
        states_behind(&[b"A\r", b"", b"\n\n"]),
        [pending, pending, both]
    );
    let again = [0x0D, 0, 0, 1, 3, 2, 2, 1];
    assert_eq!(states_behind(&[b"A\r", b"\r"]), [pending, again]);
    let begun = [0xE2, 0x80, 0, 2, 4, 2, 2, 1];
    assert_eq!(states_behind(&[b"A\r", b"\xE2\x80"]), [pending, begun]);
    let ended = [0, 0, 0, 0, 5, 3, 3, 2];
    assert_eq!(states_behind(&[b"A\r\xE2\x80", b"\xA8"]), [begun, ended]);
    let fed = Decoder::fresh(0).feed::<u8>(b"A\r", 2, 0);
    assert_eq!((fed.output, fed.state.pending), (b"A\r".to_vec(), 0));
}

/// A checkpoint at a pending 0D is written by the call that settles it.
#[test]
fn lines_at_a_checkpoint() {
    let text = [&[b'A'; 255][..], b"\r"].concat();
    let fed = Builder::fresh().feed(&text, 8);
    let numbers = [0x0D, 0, 0, 1, 256, 255, 255, 0];
    assert_eq!((fed.state.numbers(), fed.later), (numbers, vec![]));
    let calls = [
        (fed.state.feed(b"\n", 8), [256, 256, 256, 0]),
        (fed.state.feed(b"A", 8), [256, 256, 256, 1]),
        (fed.state.feed(b"\xC2", 8), [256, 256, 256, 1]),
        (fed.state.finish(8), [256, 256, 256, 1]),
    ];
    for (settled, checkpoint) in calls {
        assert_eq!((settled.from, settled.later), (1, checkpoint.to_vec()));
    }
    assert_eq!(fed.state.feed(b"", 8).later, []);
    assert_eq!(built(&text)[4..], [256, 256, 256, 1]);
}

/// In a builder a lone 0D may be pending; with another byte, elsewhere or in a decoder it may not.
#[test]
fn states_with_a_return() {
    let sound = |held: [usize; 3], n| {
        let [a, b, c] = held;
        let builder = Builder::of(&[a, b, c, n, 9, 5, 5, 1]);
        let decoder = Decoder::of(&[a, b, c, n, 4 + n, 4, 0, 0, 0]);
        [builder.is_sound(), decoder.is_sound()]
    };
    assert_eq!(sound([0, 0, 0], 0), [true, true]);
    assert_eq!(sound([0xE2, 0x80, 0], 2), [true, true]);
    assert_eq!(sound([0x0D, 0, 0], 1), [true, false]);
    let refused = [
        ([0x0D, 0, 0], 0),
        ([0x0D, 0, 0], 2),
        ([0, 0x0D, 0], 2),
        ([0x0D, 0x0D, 0], 2),
        ([0x0D, 0x0A, 0], 1),
        ([0x0D, 0x0A, 0], 2),
        ([0x0D, 0xC2, 0], 2),
        ([0xE2, 0x0D, 0], 2),
        ([0xE2, 0x80, 0x0D], 2),
        ([0x0A, 0, 0], 1),
        ([0x85, 0, 0], 1),
    ];
    for (held, n) in refused {
        assert_eq!(sound(held, n), [false, false], "{n} of {held:02X?}");
    }
}

#[test]
fn the_index() {
    let mut text = vec![b'A'; 254];
    text.extend(b"\xE2\x82\xAC");
    assert_eq!(built(&text)[4..], [254, 254, 254, 0]);
    text[256] = b'A';
    assert_eq!(built(&text)[4..], [256, 255, 255, 0]);
    let fed = Builder::fresh().feed(&text[..256], need(256));
    assert_eq!((fed.state.pending, fed.later.len()), (2, 0));
    let ended = fed.state.feed(&text[256..], need(257));
    assert_eq!((ended.from, ended.later), (1, vec![256, 255, 255, 0]));
    let letters = [b'A'; 300];
    let mut row = built(&letters);
    row[5] = 200;
    assert_eq!(lookup(&letters, &row, 0, 256), [0, 256, 200, 256, 0]);
    assert_eq!(lookup(&letters, &row, 1, 230), [0, 286, 230, 286, 0]);
    assert_eq!(lookup(&letters, &row, 1, 250), [4]);
}

#[test]
fn phrases() {
    let told: [(&[u8], &[u8], &[usize]); 9] = [
        (b"", b"", &[0, 0]),
        (b"\x80", b"", &[0, 0]),
        (b"", b"a", &[0]),
        (b"abcabc", b"bc", &[0, 1]),
        (b"abcabc", b"cb", &[0]),
        (b"aab", b"ab", &[0, 1]),
        (b"\xE2\x82\x41\xE2\x82\xAC", b"\xE2\x82\xAC", &[0, 3]),
        (b"\xE2\x82", b"a\xE2\x82", &[1, 1, 2, 4]),
        (b"\x80", b"\x80\xFF", &[1, 0, 1, 1]),
    ];
    for (entry, needle, told) in told {
        assert_eq!(find(entry, needle), told, "{needle:02X?} in {entry:02X?}");
        let from = told.get(1).filter(|_| told[0] == 0);
        let part = from.map_or(b"".as_slice(), |&k| &entry[k..]);
        assert_eq!(rest(entry, needle), part, "{needle:02X?} in {entry:02X?}");
    }
    let over = vec![0x80; LIMIT + 1];
    assert_eq!(find(&over, b"\x80"), [2], "before damage");
    assert_eq!(find(b"", &over), [2], "before damage");
    assert_eq!(find(&over[1..], b""), [0, 0]);
    assert_eq!(rest(&over, b""), []);
}

/// The request's sentences at the ends of their ranges, and where these break off.
#[test]
fn numbers_of_pages() {
    let examples: [(usize, &[u8], &[u32]); 5] = [
        (1, b"\x00\x7F\x80\xA4\xFF", &[0x00, 0x7F, 0x80, 0xA4, 0xFF]),
        (5, b"\x00\x9F\xA0\xAD", &[0x00, 0x9F, 0xA0, 0xAD]),
        (
            5,
            b"\xA1\xAC\xAE\xB0\xEF\xF1\xFC\xFE\xFF",
            &[
                0x401, 0x40C, 0x40E, 0x410, 0x44F, 0x451, 0x45C, 0x45E, 0x45F,
            ],
        ),
        (5, b"\xF0\xFD", &[0x2116, 0xA7]),
        (
            15,
            b"\xA3\xA4\xA5\xA6\xA7\xA8\xB4\xB8\xBC\xBD\xBE\xBF",
            &[
                0xA3, 0x20AC, 0xA5, 0x160, 0xA7, 0x161, 0x17D, 0x17E, 0x152, 0x153, 0x178, 0xBF,
            ],
        ),
    ];
    for (page, bytes, numbers) in examples {
        let model = Page::new(page);
        for (&byte, &number) in bytes.iter().zip(numbers) {
            assert_eq!(model.number(byte), number, "{byte:02X} of {page}");
            assert_eq!(model.byte(number), Some(byte), "{number:X} of {page}");
        }
    }
}

/// A page has each number once, ASCII in its place, and no other number than those of its bytes.
#[test]
fn bytes_of_pages() {
    for page in PAGES.map(Page::new) {
        let all: Vec<u8> = (0..=255).collect();
        assert!(all.iter().all(|&b| page.byte(page.number(b)) == Some(b)));
        assert!((0..0x80).all(|b| page.number(b) == b.into()));
        let held = (0..=0x10FFFF).filter(|&n| page.byte(n).is_some());
        assert_eq!(held.count(), 256, "{}", page.page);
        let form = page.to_utf8(&all).unwrap();
        assert_eq!(page.of_utf8(&form), Ok(all), "{}", page.page);
    }
    let of_five = [0xA1, 0x400, 0x40D, 0x450, 0x45D, 0x460];
    let of_others = [(1, 0x100), (1, 0x20AC), (15, 0xA4), (15, 0xBE)];
    for (page, number) in of_five.map(|n| (5, n)).into_iter().chain(of_others) {
        assert_eq!(Page::new(page).byte(number), None, "{number:X} of {page}");
    }
}

#[test]
fn pages_and_back() {
    let [one, five, fifteen] = PAGES.map(Page::new);
    assert_eq!(one.to_utf8(b"A\xA4\xFF").unwrap(), b"A\xC2\xA4\xC3\xBF");
    assert_eq!(
        five.to_utf8(b"\xA1\xF0\xFD").unwrap(),
        "\u{401}\u{2116}\u{A7}".as_bytes()
    );
    assert_eq!(fifteen.to_utf8(b"\xA4 1").unwrap(), b"\xE2\x82\xAC 1");
    assert_eq!(one.of_utf8(b"A\xC2\xA4\xC3\xBF").unwrap(), b"A\xA4\xFF");
    assert_eq!(
        one.of_utf8(b"\xC3\xA9\xE2\x82\xAC\xC4\x80"),
        Err(vec![10, 2])
    );
    assert_eq!(fifteen.of_utf8(b"\xE2\x82\xAC\xC2\xA4"), Err(vec![10, 3]));
    assert_eq!(
        five.of_utf8(b"\xC3\xA9\x41\xE2\x82"),
        Err(vec![1, 3, 2, 4]),
        "damage first"
    );
    let mut over = vec![0x80; LIMIT + 1];
    assert_eq!(one.to_utf8(&over), Err(vec![2]));
    assert_eq!(one.of_utf8(&over), Err(vec![2]), "before damage");
    over.pop();
    assert_eq!(one.to_utf8(&over).map(|form| form.len()), Ok(2 * LIMIT));
    assert_eq!(one.of_utf8(&over[..3]), Err(vec![1, 0, 1, 1]));
}
