//! The wrappers of the crates `bridge_texts` and `bridge_places` as safe calls, with guards around every lent buffer.
use crate::common::model::decoder::{Decoder, State};
use crate::common::model::forms::Form;
use crate::common::model::index::Builder;
use crate::common::model::pending::Piece;
use crate::common::model::places::Place;
use crate::common::model::Told;

/// The reply of a wrapper that called nothing.
pub const NOT_CALLED: usize = usize::MAX;

/// Reads a text and tells.
pub type Reads<T> = unsafe extern "C" fn(*const T, usize, *mut usize, usize) -> usize;
/// Reads a text by a table of classes, and tells.
pub type ReadsBy =
    unsafe extern "C" fn(*const u8, usize, *const [u8; 256], *mut usize, usize) -> usize;
/// Reads a text, writes an output and tells.
pub type Writes<T, U> =
    unsafe extern "C" fn(*const T, usize, *mut U, usize, *mut usize, usize) -> usize;
/// Turns a text of a page into UTF-8, or back: reads it, writes an output and tells.
pub type Turns =
    unsafe extern "C" fn(*const u8, usize, usize, *mut u8, usize, *mut usize, usize) -> usize;
/// Looks an offset up in a text and tells.
pub type Looks = unsafe extern "C" fn(*const u8, usize, usize, *mut usize, usize) -> usize;
/// Looks an offset up in a text with an index, and tells.
pub type Finds =
    unsafe extern "C" fn(*const u8, usize, *const u32, usize, usize, *mut usize, usize) -> usize;
/// Looks from a place on, by a kind and an offset, and tells.
pub type Goes = unsafe extern "C" fn(
    *const u8,
    usize,
    *const usize,
    usize,
    usize,
    usize,
    *mut usize,
    usize,
) -> usize;
/// Seeks a needle in an entry and tells.
pub type Seeks =
    unsafe extern "C" fn(*const u8, usize, *const u8, usize, *mut usize, usize) -> usize;
/// Cuts a text.
pub type Cuts = unsafe extern "C" fn(*const u8, usize, usize) -> usize;
/// Starts a text that comes in pieces, by the room of its list: puts the state and tells.
pub type Starts = unsafe extern "C" fn(usize, *mut usize, usize, *mut usize, usize) -> usize;
/// Takes a piece behind a state: writes an output and entries of a list, puts the next state and tells.
pub type Feeds<T, U> = unsafe extern "C" fn(
    *mut usize,
    usize,
    *const T,
    usize,
    *mut U,
    usize,
    *mut u32,
    usize,
    *mut usize,
    usize,
) -> usize;
/// Ends a text as a piece is taken.
pub type Ends<U> = unsafe extern "C" fn(
    *mut usize,
    usize,
    *mut U,
    usize,
    *mut u32,
    usize,
    *mut usize,
    usize,
) -> usize;

// Nothing compares these declarations with the Rattle source but the tests: a slice passes as a pointer and a length.
#[rustfmt::skip]
#[link(name = "bridge_texts", kind = "static")]
#[link(name = "bridge_places", kind = "static")]
extern "C" {
    pub fn bridge_bytes_segment(text: *const u8, n: usize, says: *mut usize, m: usize) -> usize;
    pub fn bridge_bytes_segment_by(text: *const u8, n: usize, classes: *const [u8; 256], says: *mut usize, m: usize) -> usize;
    pub fn bridge_bytes_point_by(text: *const u8, n: usize, classes: *const [u8; 256], says: *mut usize, m: usize) -> usize;
    pub fn bridge_units_segment(text: *const u16, n: usize, says: *mut usize, m: usize) -> usize;
    pub fn bridge_points_segment(text: *const u32, n: usize, says: *mut usize, m: usize) -> usize;
    pub fn bridge_bytes_point(text: *const u8, n: usize, says: *mut usize, m: usize) -> usize;
    pub fn bridge_units_point(text: *const u16, n: usize, says: *mut usize, m: usize) -> usize;
    pub fn bridge_points_point(text: *const u32, n: usize, says: *mut usize, m: usize) -> usize;
    pub fn bridge_bytes_check(text: *const u8, n: usize, says: *mut usize, m: usize) -> usize;
    pub fn bridge_units_check(text: *const u16, n: usize, says: *mut usize, m: usize) -> usize;
    pub fn bridge_points_check(text: *const u32, n: usize, says: *mut usize, m: usize) -> usize;

    pub fn bridge_bytes_to_units(text: *const u8, n: usize, out: *mut u16, k: usize, says: *mut usize, m: usize) -> usize;
    pub fn bridge_bytes_to_points(text: *const u8, n: usize, out: *mut u32, k: usize, says: *mut usize, m: usize) -> usize;
    pub fn bridge_bytes_repair(text: *const u8, n: usize, out: *mut u8, k: usize, says: *mut usize, m: usize) -> usize;
    pub fn bridge_bytes_repair_to_units(text: *const u8, n: usize, out: *mut u16, k: usize, says: *mut usize, m: usize) -> usize;
    pub fn bridge_units_to_bytes(text: *const u16, n: usize, out: *mut u8, k: usize, says: *mut usize, m: usize) -> usize;
    pub fn bridge_units_to_points(text: *const u16, n: usize, out: *mut u32, k: usize, says: *mut usize, m: usize) -> usize;
    pub fn bridge_units_repair(text: *const u16, n: usize, out: *mut u16, k: usize, says: *mut usize, m: usize) -> usize;
    pub fn bridge_units_repair_to_bytes(text: *const u16, n: usize, out: *mut u8, k: usize, says: *mut usize, m: usize) -> usize;
    pub fn bridge_points_to_bytes(text: *const u32, n: usize, out: *mut u8, k: usize, says: *mut usize, m: usize) -> usize;
    pub fn bridge_points_to_units(text: *const u32, n: usize, out: *mut u16, k: usize, says: *mut usize, m: usize) -> usize;

    pub fn bridge_pages_to_bytes(text: *const u8, n: usize, page: usize, out: *mut u8, k: usize, says: *mut usize, m: usize) -> usize;
    pub fn bridge_bytes_to_page(text: *const u8, n: usize, page: usize, out: *mut u8, k: usize, says: *mut usize, m: usize) -> usize;

    fn bridge_most(from: usize, to: usize, n: usize) -> usize;
    fn bridge_pieces_most(n: usize) -> usize;
    fn bridge_unit_pieces_most(n: usize) -> usize;
    fn bridge_pieces_to_units_most(n: usize) -> usize;
    fn bridge_index_needed(long: usize) -> usize;

    pub fn bridge_places_cut_bytes(text: *const u8, n: usize, most: usize) -> usize;
    pub fn bridge_places_cut_units(text: *const u8, n: usize, most: usize) -> usize;
    pub fn bridge_places_cut_points(text: *const u8, n: usize, most: usize) -> usize;
    pub fn bridge_places_at_byte(text: *const u8, n: usize, offset: usize, says: *mut usize, m: usize) -> usize;
    pub fn bridge_places_at_unit(text: *const u8, n: usize, offset: usize, says: *mut usize, m: usize) -> usize;
    pub fn bridge_places_at_point(text: *const u8, n: usize, offset: usize, says: *mut usize, m: usize) -> usize;
    pub fn bridge_places_at_line(text: *const u8, n: usize, offset: usize, says: *mut usize, m: usize) -> usize;
    pub fn bridge_places_resume(text: *const u8, n: usize, from: *const usize, f: usize, kind: usize, offset: usize, says: *mut usize, m: usize) -> usize;
    pub fn bridge_places_last(text: *const u8, n: usize, from: *const usize, f: usize, kind: usize, offset: usize, says: *mut usize, m: usize) -> usize;
    pub fn bridge_index_at_byte(text: *const u8, n: usize, row: *const u32, k: usize, offset: usize, says: *mut usize, m: usize) -> usize;
    pub fn bridge_index_at_unit(text: *const u8, n: usize, row: *const u32, k: usize, offset: usize, says: *mut usize, m: usize) -> usize;
    pub fn bridge_index_at_point(text: *const u8, n: usize, row: *const u32, k: usize, offset: usize, says: *mut usize, m: usize) -> usize;
    pub fn bridge_index_at_line(text: *const u8, n: usize, row: *const u32, k: usize, offset: usize, says: *mut usize, m: usize) -> usize;
    pub fn bridge_phrases_find(entry: *const u8, n: usize, needle: *const u8, k: usize, says: *mut usize, m: usize) -> usize;
    pub fn bridge_phrases_find_plain(entry: *const u8, n: usize, needle: *const u8, k: usize, says: *mut usize, m: usize) -> usize;
    fn bridge_phrases_find_rest(entry: *const u8, n: usize, needle: *const u8, k: usize) -> usize;
    fn bridge_index_audit(text: *const u8, n: usize, row: *const u32, k: usize) -> usize;

    fn bridge_pieces_start(room: usize, state: *mut usize, k: usize, says: *mut usize, m: usize) -> usize;
    fn bridge_pieces_feed(state: *mut usize, k: usize, piece: *const u8, n: usize, out: *mut u8, o: usize, list: *mut u32, l: usize, says: *mut usize, m: usize) -> usize;
    fn bridge_pieces_finish(state: *mut usize, k: usize, out: *mut u8, o: usize, list: *mut u32, l: usize, says: *mut usize, m: usize) -> usize;
    fn bridge_pieces_step(state: *mut usize, k: usize, b: u8) -> usize;
    fn bridge_unit_pieces_start(room: usize, state: *mut usize, k: usize, says: *mut usize, m: usize) -> usize;
    fn bridge_unit_pieces_feed(state: *mut usize, k: usize, piece: *const u16, n: usize, out: *mut u8, o: usize, list: *mut u32, l: usize, says: *mut usize, m: usize) -> usize;
    fn bridge_unit_pieces_finish(state: *mut usize, k: usize, out: *mut u8, o: usize, list: *mut u32, l: usize, says: *mut usize, m: usize) -> usize;
    fn bridge_pieces_to_units_start(room: usize, state: *mut usize, k: usize, says: *mut usize, m: usize) -> usize;
    fn bridge_pieces_to_units_feed(state: *mut usize, k: usize, piece: *const u8, n: usize, out: *mut u16, o: usize, list: *mut u32, l: usize, says: *mut usize, m: usize) -> usize;
    fn bridge_pieces_to_units_finish(state: *mut usize, k: usize, out: *mut u16, o: usize, list: *mut u32, l: usize, says: *mut usize, m: usize) -> usize;
    fn bridge_index_fresh(state: *mut usize, k: usize) -> usize;
    fn bridge_index_feed(state: *mut usize, k: usize, piece: *const u8, n: usize, row: *mut u32, r: usize, says: *mut usize, m: usize) -> usize;
    fn bridge_index_finish(state: *mut usize, k: usize, row: *mut u32, r: usize, says: *mut usize, m: usize) -> usize;

    fn bridge_pending_is_tail(held: *const usize, h: usize, n: usize) -> usize;
    fn bridge_pending_seam_of(held: *const usize, h: usize, n: usize, piece: *const u8, p: usize, says: *mut usize, m: usize) -> usize;
    fn bridge_pending_hold(text: *const u8, n: usize, says: *mut usize, m: usize) -> usize;
    fn bridge_pending_settled_size(kind: usize, n: usize, cause: u32) -> usize;
}

/// The lookups by measure.
pub const PLAIN: [Looks; 4] = [
    bridge_places_at_byte,
    bridge_places_at_unit,
    bridge_places_at_point,
    bridge_places_at_line,
];
pub const INDEXED: [Finds; 4] = [
    bridge_index_at_byte,
    bridge_index_at_unit,
    bridge_index_at_point,
    bridge_index_at_line,
];
pub const CUT: [Cuts; 3] = [
    bridge_places_cut_bytes,
    bridge_places_cut_units,
    bridge_places_cut_points,
];

/// The calls of a decoder, by what it takes and what it writes.
#[derive(Clone, Copy)]
pub struct Decoding<T, U> {
    pub name: &'static str,
    start: Starts,
    feed: Feeds<T, U>,
    finish: Ends<U>,
    most: unsafe extern "C" fn(usize) -> usize,
}

/// Bytes in pieces, repaired.
pub const PIECES: Decoding<u8, u8> = Decoding {
    name: "pieces",
    start: bridge_pieces_start,
    feed: bridge_pieces_feed,
    finish: bridge_pieces_finish,
    most: bridge_pieces_most,
};
/// Units in pieces, written as bytes.
pub const UNIT_PIECES: Decoding<u16, u8> = Decoding {
    name: "unit_pieces",
    start: bridge_unit_pieces_start,
    feed: bridge_unit_pieces_feed,
    finish: bridge_unit_pieces_finish,
    most: bridge_unit_pieces_most,
};
/// Bytes in pieces, written as units.
pub const PIECES_TO_UNITS: Decoding<u8, u16> = Decoding {
    name: "pieces_to_units",
    start: bridge_pieces_to_units_start,
    feed: bridge_pieces_to_units_feed,
    finish: bridge_pieces_to_units_finish,
    most: bridge_pieces_to_units_most,
};

/// Places before and behind each lent part.
pub const MARGIN: usize = 8;
const GUARD: usize = 0xA5A5_5A5A_0F0F_F0F0;

/// A buffer to lend n places of, with margins, filled with numbers that differ from place to place, and again from 256 places on.
pub fn filled<T: Copy + From<u8>>(n: usize) -> Vec<T> {
    let all = n + 2 * MARGIN;
    let mut buffer: Vec<T> = (0..all.min(256))
        .map(|i| T::from((i * 167 + 13) as u8))
        .collect();
    while buffer.len() < all {
        let more = buffer.len().min(all - buffer.len());
        buffer.extend_from_within(..more);
    }
    buffer
}

/// The lent part.
pub fn inner<T>(buffer: &mut [T]) -> &mut [T] {
    let end = buffer.len() - MARGIN;
    &mut buffer[MARGIN..end]
}

/// Lends so many places for what a call tells, and reads what it told; no other place may change.
fn told_in(places: usize, call: impl FnOnce(*mut usize, usize) -> usize) -> Told {
    let mut says = [GUARD; 32];
    let reply = call(says[MARGIN..].as_mut_ptr(), places);
    let (told, rest) = if reply == NOT_CALLED {
        (vec![NOT_CALLED], MARGIN)
    } else {
        assert!(reply <= places, "{reply} numbers told in {places} places");
        (says[MARGIN..MARGIN + reply].to_vec(), MARGIN + reply)
    };
    assert!(
        says[..MARGIN]
            .iter()
            .chain(&says[rest..])
            .all(|&n| n == GUARD),
        "told {told:?}, and another place of says is changed"
    );
    told
}

fn told(call: impl FnOnce(*mut usize, usize) -> usize) -> Told {
    told_in(8, call)
}

// SAFETY of all calls below: each wrapper reads and writes the slices that it is lent alone, and has no other precondition.

pub fn reads<T>(call: Reads<T>, text: &[T], places: usize) -> Told {
    told_in(places, |s, m| unsafe {
        call(text.as_ptr(), text.len(), s, m)
    })
}

pub fn by(call: ReadsBy, text: &[u8], classes: &[u8; 256]) -> Told {
    told(|s, m| unsafe { call(text.as_ptr(), text.len(), classes, s, m) })
}

pub fn writes<T, U>(call: Writes<T, U>, text: &[T], out: &mut [U], places: usize) -> Told {
    let (o, k) = (out.as_mut_ptr(), out.len());
    told_in(places, |s, m| unsafe {
        call(text.as_ptr(), text.len(), o, k, s, m)
    })
}

/// The call for a page, with so many places to tell in.
pub fn turning(call: Turns, page: usize, places: usize) -> impl Fn(&[u8], &mut [u8]) -> Told {
    move |text, out| {
        let (o, k) = (out.as_mut_ptr(), out.len());
        told_in(places, |s, m| unsafe {
            call(text.as_ptr(), text.len(), page, o, k, s, m)
        })
    }
}

pub fn looks(call: Looks, text: &[u8], offset: usize, places: usize) -> Told {
    told_in(places, |s, m| unsafe {
        call(text.as_ptr(), text.len(), offset, s, m)
    })
}

pub fn finds(call: Finds, text: &[u8], row: &[u32], offset: usize, places: usize) -> Told {
    told_in(places, |s, m| unsafe {
        call(
            text.as_ptr(),
            text.len(),
            row.as_ptr(),
            row.len(),
            offset,
            s,
            m,
        )
    })
}

pub fn goes(call: Goes, text: &[u8], from: Place, kind: usize, offset: usize) -> Told {
    told(|s, m| unsafe {
        call(
            text.as_ptr(),
            text.len(),
            from.as_ptr(),
            from.len(),
            kind,
            offset,
            s,
            m,
        )
    })
}

pub fn seeks(call: Seeks, entry: &[u8], needle: &[u8], places: usize) -> Told {
    let (p, k) = (needle.as_ptr(), needle.len());
    told_in(places, |s, m| unsafe {
        call(entry.as_ptr(), entry.len(), p, k, s, m)
    })
}

/// How many bytes the entry has from the match to its end.
pub fn rest(entry: &[u8], needle: &[u8]) -> usize {
    let (p, k) = (needle.as_ptr(), needle.len());
    unsafe { bridge_phrases_find_rest(entry.as_ptr(), entry.len(), p, k) }
}

/// The most places that so many elements of one form can need in another: 0 bytes, 1 units, 2 code points.
pub fn most(from: usize, to: usize, n: usize) -> usize {
    unsafe { bridge_most(from, to, n) }
}

pub fn index_needed(long: usize) -> usize {
    unsafe { bridge_index_needed(long) }
}

pub fn cuts(call: Cuts, text: &[u8], most: usize) -> usize {
    unsafe { call(text.as_ptr(), text.len(), most) }
}

pub fn audit(text: &[u8], row: &[u32]) -> usize {
    unsafe { bridge_index_audit(text.as_ptr(), text.len(), row.as_ptr(), row.len()) }
}

/// Lends a state in a longer row, and reads it back; the places around it may not change.
fn with_state(state: &[usize], call: impl FnOnce(*mut usize) -> Told) -> (Told, Vec<usize>) {
    let (mut row, end) = ([GUARD; 32], MARGIN + state.len());
    row[MARGIN..end].copy_from_slice(state);
    let told = call(row[MARGIN..].as_mut_ptr());
    assert!(
        row[..MARGIN].iter().chain(&row[end..]).all(|&n| n == GUARD),
        "a place beside the state is changed"
    );
    (told, row[MARGIN..end].to_vec())
}

/// The lengths that a state is lent with: its own, and more.
fn spare(n: usize) -> usize {
    n + 5
}

impl<T: Piece, U: Form> Decoding<T, U> {
    /// How many numbers a state is.
    const NUMBERS: usize = T::PENDING + 6;

    /// Starts a text, where each number of the state was some other before.
    pub fn start(&self, room: usize, before: usize) -> (Told, State<T>) {
        let (t, n) = with_state(&vec![before; Self::NUMBERS], |p| {
            told(|s, m| unsafe { (self.start)(room, p, spare(Self::NUMBERS), s, m) })
        });
        (t, State::of(&n))
    }

    pub fn feed(
        &self,
        state: State<T>,
        piece: &[T],
        out: &mut [U],
        list: &mut [u32],
    ) -> (Told, State<T>) {
        let (o, k, l, j) = (out.as_mut_ptr(), out.len(), list.as_mut_ptr(), list.len());
        let (p, n) = (piece.as_ptr(), piece.len());
        let (t, n) = with_state(&state.numbers(), |d| {
            told(|s, m| unsafe { (self.feed)(d, Self::NUMBERS, p, n, o, k, l, j, s, m) })
        });
        (t, State::of(&n))
    }

    pub fn finish(&self, state: State<T>, out: &mut [U], list: &mut [u32]) -> (Told, State<T>) {
        let (o, k, l, j) = (out.as_mut_ptr(), out.len(), list.as_mut_ptr(), list.len());
        let (t, n) = with_state(&state.numbers(), |d| {
            told(|s, m| unsafe { (self.finish)(d, spare(Self::NUMBERS), o, k, l, j, s, m) })
        });
        (t, State::of(&n))
    }

    /// The most places that a feed of so many elements can need.
    pub fn most(&self, n: usize) -> usize {
        unsafe { (self.most)(n) }
    }

    /// Calls with a slice that is too short to be a state, or with too few places to tell in: what each replies. Nothing may change.
    fn too_short(&self) -> Vec<usize> {
        let (mut state, mut says) = ([0usize; 9], [GUARD; 8]);
        let (mut out, mut list) = ([U::from(7); 16], [7u32; 16]);
        let (p, s, n) = (state.as_mut_ptr(), says.as_mut_ptr(), Self::NUMBERS);
        let (o, l) = (out.as_mut_ptr(), list.as_mut_ptr());
        let (text, none) = ([T::from(0x41); 4], std::ptr::NonNull::dangling().as_ptr());
        let t = text.as_ptr();
        let replies = unsafe {
            vec![
                (self.start)(2, p, n - 1, s, 8),
                (self.start)(2, none, 0, s, 8),
                (self.start)(2, p, n, s, 7),
                (self.feed)(p, n - 1, t, 4, o, 16, l, 16, s, 8),
                (self.feed)(none, 0, t, 4, o, 16, l, 16, s, 8),
                (self.feed)(p, n, t, 4, o, 16, l, 16, s, 7),
                (self.finish)(p, n - 1, o, 16, l, 16, s, 8),
                (self.finish)(none, 0, o, 16, l, 16, s, 8),
                (self.finish)(p, n, o, 16, l, 16, s, 0),
            ]
        };
        assert!(
            (state, says) == ([0; 9], [GUARD; 8]) && (out, list) == ([U::from(7); 16], [7; 16]),
            "{}: changed where not called",
            self.name
        );
        replies
    }
}

pub fn watch_step(state: Decoder, b: u8) -> (usize, Decoder) {
    let (t, n) = with_state(&state.numbers(), |p| {
        vec![unsafe { bridge_pieces_step(p, 9, b) }]
    });
    (t[0], Decoder::of(&n))
}

pub fn build_fresh(before: [usize; 8]) -> (usize, Builder) {
    let (t, n) = with_state(&before, |p| {
        vec![unsafe { bridge_index_fresh(p, spare(8)) }]
    });
    (t[0], Builder::of(&n))
}

pub fn build_feed(state: Builder, piece: &[u8], row: &mut [u32]) -> (Told, Builder) {
    let (r, k) = (row.as_mut_ptr(), row.len());
    let (t, n) = with_state(&state.numbers(), |p| {
        told(|s, m| unsafe { bridge_index_feed(p, 8, piece.as_ptr(), piece.len(), r, k, s, m) })
    });
    (t, Builder::of(&n))
}

pub fn build_finish(state: Builder, row: &mut [u32]) -> (Told, Builder) {
    let (r, k) = (row.as_mut_ptr(), row.len());
    let (t, n) = with_state(&state.numbers(), |p| {
        told(|s, m| unsafe { bridge_index_finish(p, spare(8), r, k, s, m) })
    });
    (t, Builder::of(&n))
}

pub fn is_tail(held: &[usize], n: usize) -> usize {
    unsafe { bridge_pending_is_tail(held.as_ptr(), held.len(), n) }
}

pub fn seam_of(held: &[usize], n: usize, piece: &[u8]) -> Told {
    told(|s, m| unsafe {
        bridge_pending_seam_of(
            held.as_ptr(),
            held.len(),
            n,
            piece.as_ptr(),
            piece.len(),
            s,
            m,
        )
    })
}

pub fn hold(left: &[u8]) -> Told {
    reads(bridge_pending_hold, left, 8)
}

pub fn settled_size(kind: usize, n: usize, cause: u32) -> usize {
    unsafe { bridge_pending_settled_size(kind, n, cause) }
}

/// Calls with lent slices that are too short to be a state, or with too few places to tell in: what each replies.
pub fn too_short() -> Vec<usize> {
    let mut state = [0usize; 9];
    let (p, mut says) = (state.as_mut_ptr(), [GUARD; 8]);
    let (s, text) = (says.as_mut_ptr(), [0x41u8; 4]);
    let mut row = [7u32; 16];
    let (t, r) = (text.as_ptr(), row.as_mut_ptr());
    let from = [0usize; 4];
    let mut replies = unsafe {
        vec![
            bridge_pieces_step(p, 8, 0x41),
            bridge_index_fresh(p, 7),
            bridge_index_feed(p, 7, t, 4, r, 16, s, 8),
            bridge_index_feed(p, 8, t, 4, r, 16, s, 7),
            bridge_index_finish(p, 7, r, 16, s, 8),
            bridge_index_finish(p, 8, r, 16, s, 7),
            bridge_pending_is_tail(p, 2, 0),
            bridge_pending_seam_of(p, 2, 0, t, 4, s, 8),
            bridge_pending_seam_of(p, 3, 0, t, 4, s, 7),
            bridge_pending_hold(t, 4, s, 7),
            bridge_places_resume(t, 4, from.as_ptr(), 3, 0, 0, s, 8),
            bridge_places_last(t, 4, from.as_ptr(), 3, 0, 0, s, 8),
            bridge_places_resume(t, 4, from.as_ptr(), 4, 0, 0, s, 7),
            bridge_places_last(t, 4, from.as_ptr(), 4, 0, 0, s, 7),
        ]
    };
    assert_eq!(
        (state, says, row),
        ([0; 9], [GUARD; 8], [7; 16]),
        "changed where not called"
    );
    replies.extend(PIECES.too_short());
    replies.extend(UNIT_PIECES.too_short());
    replies.extend(PIECES_TO_UNITS.too_short());
    replies
}
