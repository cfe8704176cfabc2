//! The limits: texts of 16,777,216 elements and one more for every call, and the room of a list.
use crate::calls::{self, *};
use crate::common::model::decoder::{start, State};
use crate::common::model::forms::Form;
use crate::common::model::index::{lookup, need, Builder};
use crate::common::model::pending::{hold, Piece};
use crate::common::model::places::LINES;
use crate::common::model::{Told, LIMIT, ROOM};
use crate::courses::Tried;
use crate::phrases::compare;
use crate::Run;
use std::fmt::Debug;

/// A call that writes, at the limit and one over, where each element is written as some.
fn written<T, U>(run: &mut Run, call: impl Fn(&[T], &mut [U]) -> Told, element: T, written: &[U])
where
    T: Copy,
    U: Copy + Debug + PartialEq + From<u8>,
{
    let text = vec![element; LIMIT + 1];
    let need = LIMIT * written.len();
    let mut out = filled::<U>(need);
    let kept = |out: &[U], from: usize| {
        let edge = filled::<U>(need);
        out[..MARGIN] == edge[..MARGIN] && out[MARGIN + from..] == edge[MARGIN + from..]
    };
    assert_eq!(call(&text, inner(&mut out)), [2]);
    let short = &mut inner(&mut out)[..need - 1];
    assert_eq!(call(&text[..LIMIT], short), [3, need]);
    assert!(kept(&out, 0), "a refusal changed the output");
    assert_eq!(call(&text[..LIMIT], inner(&mut out)), [0, need]);
    assert!(inner(&mut out) == written.repeat(LIMIT));
    assert!(
        kept(&out, need),
        "a place behind the written part is changed"
    );
    run.cases += 3;
}

fn writing<T, U>(run: &mut Run, call: Writes<T, U>, element: T, form: &[U])
where
    T: Copy,
    U: Copy + Debug + PartialEq + From<u8>,
{
    written(run, |text, out| writes(call, text, out, 8), element, form);
}

/// A check at the limit, one over, and with damages at the last place.
fn checking<T: Copy>(run: &mut Run, call: Reads<T>, good: T, bad: &[(T, Told)]) {
    let mut text = vec![good; LIMIT + 1];
    assert_eq!(reads(call, &text, 8), [2]);
    assert_eq!(reads(call, &text[..LIMIT], 8), [0]);
    for (bad, refusal) in bad {
        text[LIMIT - 1] = *bad;
        assert_eq!(reads(call, &text, 8), [2]);
        assert_eq!(reads(call, &text[..LIMIT], 8), *refusal);
        run.cases += 2;
    }
    run.cases += 2;
}

pub fn conversions(run: &mut Run) {
    let last = |cause| vec![1, LIMIT - 1, 1, cause];
    let bytes = [(0x80, last(1)), (0xFF, last(2)), (0xE2, last(4))];
    checking(run, bridge_bytes_check, b'A', &bytes);
    let units = [(0xDC00, last(1)), (0xD800, last(4))];
    checking(run, bridge_units_check, 0x4E00, &units);
    let points = [(0xD800, vec![9, LIMIT - 1])];
    checking(run, bridge_points_check, 0x1F686, &points);
    writing(run, bridge_bytes_to_units, b'A', &[0x41]);
    writing(run, bridge_bytes_to_points, b'A', &[0x41]);
    writing(run, bridge_bytes_repair, b'A', b"A");
    writing(run, bridge_bytes_repair, 0x80, b"\xEF\xBF\xBD");
    writing(run, bridge_bytes_repair_to_units, 0x80, &[0xFFFD]);
    writing(run, bridge_units_to_bytes, 0x4E00, b"\xE4\xB8\x80");
    writing(run, bridge_units_to_points, 0x4E00, &[0x4E00]);
    writing(run, bridge_units_repair, 0xDC00, &[0xFFFD]);
    writing(run, bridge_units_repair_to_bytes, 0xDC00, b"\xEF\xBF\xBD");
    writing(run, bridge_points_to_bytes, 0x1F686, b"\xF0\x9F\x9A\x86");
    writing(run, bridge_points_to_units, 0x1F686, &[0xD83D, 0xDE86]);
}

/// The refusals of the way back into a page, in their order: the room, a code point that no page has, damage at the end, the limit.
fn back_refused(run: &mut Run, page: usize) {
    let back = turning(bridge_bytes_to_page, page, 8);
    let (mut text, mut out) = (vec![b'A'; LIMIT + 1], filled::<u8>(100));
    let mut refused = |text: &[u8], told: &[usize]| {
        assert_eq!(back(text, inner(&mut out)), told, "page {page}");
        run.cases += 1;
    };
    refused(&text[..LIMIT], &[3, LIMIT]);
    for at in [LIMIT - 4, LIMIT - 70, 0] {
        text[at..at + 4].copy_from_slice(b"\xF0\x9F\x9A\x86");
        refused(&text[..LIMIT], &[10, at]);
    }
    text[LIMIT - 1] = 0xE2;
    refused(&text[..LIMIT], &[1, LIMIT - 4, 3, 3]);
    text[LIMIT - 4..LIMIT].copy_from_slice(b"AAA\xE2");
    refused(&text[..LIMIT], &[1, LIMIT - 1, 1, 4]);
    refused(&text, &[2]);
    assert!(out == filled::<u8>(100), "a refusal changed the output");
}

/// A text in UTF-8 that is at the limit with a byte's letter, and one byte over; the page text has fewer bytes.
fn back_at_limit(run: &mut Run, page: usize, byte: u8, letter: &str) {
    let back = turning(bridge_bytes_to_page, page, 8);
    let (few, many) = (LIMIT % letter.len(), LIMIT / letter.len());
    let old = [vec![b'A'; few], vec![byte; many]].concat();
    let text = "A".repeat(few) + &letter.repeat(many) + "A";
    let mut out = vec![0; old.len()];
    assert_eq!(back(text.as_bytes(), &mut out), [2]);
    assert_eq!(back(&text.as_bytes()[..LIMIT], &mut out), [0, old.len()]);
    assert!(out == old, "page {page}");
    run.cases += 2;
}

/// Page texts at the limit, of bytes that take the most places in UTF-8, which may be more than it; and the way back.
pub fn pages(run: &mut Run) {
    let longest = [
        (1, 0xFF, "\u{FF}"),
        (5, 0xF0, "\u{2116}"),
        (15, 0xA4, "\u{20AC}"),
    ];
    for (page, byte, letter) in longest {
        let there = turning(bridge_pages_to_bytes, page, 8);
        written(run, there, byte, letter.as_bytes());
        back_at_limit(run, page, byte, letter);
        back_refused(run, page);
    }
    written(run, turning(bridge_pages_to_bytes, 5, 8), b'A', b"A");
    written(run, turning(bridge_bytes_to_page, 5, 8), b'A', b"A");
}

/// The room of a list at the start.
fn rooms<T: Piece, U: Form>(run: &mut Run, decoding: Decoding<T, U>) {
    for room in [0, 1, ROOM - 1, ROOM, ROOM + 1, LIMIT, usize::MAX] {
        assert_eq!(decoding.start(room, 5), start(room), "room {room}");
        run.cases += 1;
    }
}

/// A state within some elements of the limit, whole but for what is pending, and beginnings of a piece: some reach the limit, some go past.
fn near<T, U>(run: &mut Run, decoding: Decoding<T, U>, state: State<T>, piece: &[T])
where
    T: Piece,
    U: Form,
{
    let pieces = (0..=piece.len()).map(|n| Some(&piece[..n])).chain([None]);
    for piece in pieces {
        for (out, list) in [(20, 3), (0, 3), (20, 2), (0, 2)] {
            let tried = Tried {
                decoding,
                state,
                piece,
                out,
                list,
            };
            tried.compare(&mut filled(list), || format!("{state:?}, {piece:02X?}"));
            run.cases += 1;
        }
    }
}

/// One feed of a whole text at the limit, where each element is written as some; hands back the state.
fn long_feed<T, U>(run: &mut Run, decoding: Decoding<T, U>, element: T, written: &[U]) -> State<T>
where
    T: Piece,
    U: Form,
{
    let text = vec![element; LIMIT + 1];
    let need = LIMIT * written.len();
    let (mut out, mut list) = (filled::<U>(need), filled::<u32>(0));
    let state = State::fresh(0);
    let refused = decoding.feed(state, &text, inner(&mut out), inner(&mut list));
    assert_eq!(refused, (vec![2], state));
    let (whole, short) = (&text[..LIMIT], &mut inner(&mut out)[..need - 1]);
    let refused = decoding.feed(state, whole, short, inner(&mut list));
    assert_eq!(refused, (vec![3, need], state));
    assert!(out == filled::<U>(need), "a refusal changed the output");
    let (told, after) = decoding.feed(state, whole, inner(&mut out), inner(&mut list));
    let all = State {
        taken: LIMIT,
        whole: LIMIT,
        ..state
    };
    assert_eq!((told, after), (vec![0, need], all));
    let mut expected = filled::<U>(need);
    inner(&mut expected).copy_from_slice(&written.repeat(LIMIT));
    assert!(out == expected && list == filled::<u32>(0));
    let refused = decoding.feed(after, &text[..1], &mut [], &mut []);
    assert_eq!(refused, (vec![2], after));
    let finished = decoding.finish(after, &mut [], &mut []);
    assert_eq!(finished, (vec![0, 0, LIMIT, 0, 0], state));
    run.cases += 5;
    after
}

/// The limits of a decoder, with a piece, for states of what may be pending; hands back these states.
fn in_pieces<T, U>(
    run: &mut Run,
    decoding: Decoding<T, U>,
    tails: &[&[T]],
    piece: &[T],
) -> Vec<State<T>>
where
    T: Piece,
    U: Form,
{
    rooms(run, decoding);
    let states = (0..piece.len()).flat_map(|back| {
        tails.iter().map(move |left| State {
            held: hold(left),
            pending: left.len(),
            taken: LIMIT - back,
            whole: LIMIT - back - left.len(),
            ..State::fresh(1)
        })
    });
    states
        .inspect(|&state| near(run, decoding, state, piece))
        .collect()
}

pub fn pieces(run: &mut Run) {
    let tails: [&[u8]; 4] = [b"", b"\xE2", b"\xE2\x82", b"\xF0\x9F\x9A"];
    let piece = b"\x82\xAC\x41\x80\x41\xC3";
    for state in in_pieces(run, PIECES, &tails, piece) {
        assert_eq!(calls::watch_step(state, 0x41), state.watch(0x41));
        run.cases += 1;
    }
    in_pieces(run, PIECES_TO_UNITS, &tails, piece);
    let units = [0xDE86, 0x41, 0xDC00, 0xD83D, 0x41, 0xDBFF];
    in_pieces(run, UNIT_PIECES, &[&[], &[0xD83D], &[0xDBFF]], &units);
    let full = long_feed(run, PIECES, b'A', b"A");
    assert_eq!(calls::watch_step(full, 0x41), (4_294_967_295, full));
    long_feed(run, PIECES_TO_UNITS, b'A', &[0x41]);
    long_feed(run, UNIT_PIECES, 0x41, b"A");
    long_feed(run, UNIT_PIECES, 0x4E00, b"\xE4\xB8\x80");
}

/// The index of a text of so many letters.
fn row_of_letters(length: usize) -> Vec<u32> {
    (0..=length as u32 / 256)
        .flat_map(|k| [256 * k, 256 * k, 256 * k, 0])
        .collect()
}

fn builder(run: &mut Run, text: &[u8]) -> Vec<u32> {
    let fresh = Builder::fresh();
    let mut row = filled::<u32>(need(LIMIT));
    assert_eq!(build_feed(fresh, text, inner(&mut row)), (vec![2], fresh));
    let (whole, long) = (&text[..LIMIT], need(LIMIT));
    let short = &mut inner(&mut row)[..long - 1];
    assert_eq!(build_feed(fresh, whole, short), (vec![3, long], fresh));
    assert!(row == filled::<u32>(long), "a refusal changed the index");
    let (told, state) = build_feed(fresh, whole, inner(&mut row));
    let counts = Builder {
        taken: LIMIT,
        units: LIMIT,
        points: LIMIT,
        ..fresh
    };
    assert_eq!((told, state), (vec![0], counts));
    assert_eq!(build_feed(state, b"A", inner(&mut row)), (vec![2], state));
    assert_eq!(build_finish(state, inner(&mut row)), (vec![0], fresh));
    assert!(inner(&mut row) == row_of_letters(LIMIT));
    run.cases += 5;
    inner(&mut row).to_vec()
}

/// A text at the limit that is 0D throughout: a line for each byte. The last one is pending until the end, and the last checkpoint waits for it.
fn of_returns(run: &mut Run) {
    let (text, fresh, long) = (vec![0x0D; LIMIT], Builder::fresh(), need(LIMIT));
    let built: Vec<u32> = (0..=LIMIT as u32 / 256)
        .flat_map(|k| [256 * k; 4])
        .collect();
    let mut row = filled::<u32>(long);
    let mut expected = row.clone();
    inner(&mut expected)[..long - 4].copy_from_slice(&built[..long - 4]);
    let pending = Builder {
        held: [0x0D, 0, 0],
        pending: 1,
        taken: LIMIT,
        units: LIMIT - 1,
        points: LIMIT - 1,
        lines: LIMIT - 1,
    };
    let fed = build_feed(fresh, &text, inner(&mut row));
    assert_eq!(fed, (vec![0], pending));
    let over = build_feed(pending, b"\n", inner(&mut row));
    assert_eq!(over, (vec![2], pending));
    let short = build_finish(pending, &mut inner(&mut row)[..long - 1]);
    assert_eq!(short, (vec![3, long], pending));
    assert!(row == expected, "the last checkpoint is not settled");
    let ended = build_finish(pending, inner(&mut row));
    assert_eq!(ended, (vec![0], fresh));
    assert!(inner(&mut row) == built && audit(&text, &built) == 1);
    for (offset, told) in [
        (LIMIT, vec![0, LIMIT, LIMIT, LIMIT, LIMIT]),
        (LIMIT + 1, vec![4]),
    ] {
        assert_eq!(looks(PLAIN[LINES], &text, offset, 8), told);
        assert_eq!(finds(INDEXED[LINES], &text, &built, offset, 8), told);
    }
    run.cases += 9;
}

pub fn lookups(run: &mut Run) {
    of_returns(run);
    let text = vec![b'A'; LIMIT + 1];
    let row = builder(run, &text);
    let whole = &text[..LIMIT];
    assert_eq!([audit(whole, &row), audit(&text, &row)], [1, 0]);
    assert_eq!(audit(whole, &row[..row.len() - 1]), 0);
    run.cases += 3;
    for measure in 0..4 {
        assert_eq!(looks(PLAIN[measure], &text, 0, 8), [2]);
        assert_eq!(finds(INDEXED[measure], &text, &row, 0, 8), [2]);
        let (offset, end) = if measure == LINES {
            (0, 0)
        } else {
            (LIMIT, LIMIT)
        };
        for (offset, told) in [(offset, vec![0, end, end, end, 0]), (offset + 1, vec![4])] {
            assert_eq!(looks(PLAIN[measure], whole, offset, 8), told);
            assert_eq!(lookup(whole, &row, measure, offset), told);
            assert_eq!(finds(INDEXED[measure], whole, &row, offset, 8), told);
            run.cases += 2;
        }
        run.cases += 2;
    }
}

/// A needle that nearly matches at every place of an entry at the limit: the plain search would take too long.
fn long_phrase(run: &mut Run, entry: &[u8], needle: &[u8], at: usize) {
    assert_eq!(seeks(bridge_phrases_find, entry, needle, 8), [0, at]);
    assert_eq!(calls::rest(entry, needle), entry.len() - at);
    run.cases += 2;
}

pub fn phrases(run: &mut Run) {
    let mut text = vec![b'A'; LIMIT + 1];
    text[LIMIT - 1] = b'B';
    let (whole, half) = (&text[..LIMIT], LIMIT / 2);
    compare(run, whole, b"", &[0, 0]);
    compare(run, whole, b"B", &[0, LIMIT - 1]);
    compare(run, whole, b"AAB", &[0, LIMIT - 3]);
    compare(run, whole, b"BA", &[0]);
    compare(run, whole, whole, &[0, 0]);
    compare(run, whole, &text[1..], &[0]);
    compare(run, b"B", whole, &[0]);
    long_phrase(run, whole, &whole[half..], half);
    for needle in [b"".as_slice(), b"B", b"\x80", whole, &text] {
        compare(run, &text, needle, &[2]);
    }
    for entry in [b"".as_slice(), b"B", whole] {
        compare(run, entry, &text, &[2]);
    }
    compare(run, whole, b"A\x80", &[1, 1, 1, 1]);
    let mut damaged = text.clone();
    damaged[LIMIT - 1] = 0xE2;
    compare(run, whole, &damaged[..LIMIT], &[1, LIMIT - 1, 1, 4]);
    compare(run, &damaged[..LIMIT], b"A", &[0, 0]);
    compare(run, &damaged[..LIMIT], b"B", &[0]);
    compare(run, &damaged[..LIMIT], &damaged, &[2]);
    compare(run, &damaged, &damaged[..LIMIT], &[2]);
}
