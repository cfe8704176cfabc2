//! The library's calls that are measured: the viewer's two routines, and the others through the wrappers of the crates `bridge_texts` and `bridge_places`.

#[rustfmt::skip]
extern "C" {
    fn moxandril_check(text: *const u8, n: usize) -> u64;
    fn moxandril_repair(text: *const u8, n: usize, out: *mut u8, k: usize) -> u64;
    fn bridge_bytes_to_units(text: *const u8, n: usize, out: *mut u16, k: usize, says: *mut usize, m: usize) -> usize;
    fn bridge_bytes_to_points(text: *const u8, n: usize, out: *mut u32, k: usize, says: *mut usize, m: usize) -> usize;
    fn bridge_bytes_repair_to_units(text: *const u8, n: usize, out: *mut u16, k: usize, says: *mut usize, m: usize) -> usize;
    fn bridge_units_to_bytes(text: *const u16, n: usize, out: *mut u8, k: usize, says: *mut usize, m: usize) -> usize;
    fn bridge_units_repair_to_bytes(text: *const u16, n: usize, out: *mut u8, k: usize, says: *mut usize, m: usize) -> usize;
    fn bridge_pages_to_bytes(text: *const u8, n: usize, page: usize, out: *mut u8, k: usize, says: *mut usize, m: usize) -> usize;
    fn bridge_bytes_to_page(text: *const u8, n: usize, page: usize, out: *mut u8, k: usize, says: *mut usize, m: usize) -> usize;
    fn bridge_pieces_start(room: usize, state: *mut usize, k: usize, says: *mut usize, m: usize) -> usize;
    fn bridge_pieces_feed(state: *mut usize, k: usize, piece: *const u8, n: usize, out: *mut u8, o: usize, list: *mut u32, l: usize, says: *mut usize, m: usize) -> usize;
    fn bridge_pieces_finish(state: *mut usize, k: usize, out: *mut u8, o: usize, list: *mut u32, l: usize, says: *mut usize, m: usize) -> usize;
    fn bridge_unit_pieces_start(room: usize, state: *mut usize, k: usize, says: *mut usize, m: usize) -> usize;
    fn bridge_unit_pieces_feed(state: *mut usize, k: usize, piece: *const u16, n: usize, out: *mut u8, o: usize, list: *mut u32, l: usize, says: *mut usize, m: usize) -> usize;
    fn bridge_unit_pieces_finish(state: *mut usize, k: usize, out: *mut u8, o: usize, list: *mut u32, l: usize, says: *mut usize, m: usize) -> usize;
    fn bridge_pieces_to_units_start(room: usize, state: *mut usize, k: usize, says: *mut usize, m: usize) -> usize;
    fn bridge_pieces_to_units_feed(state: *mut usize, k: usize, piece: *const u8, n: usize, out: *mut u16, o: usize, list: *mut u32, l: usize, says: *mut usize, m: usize) -> usize;
    fn bridge_pieces_to_units_finish(state: *mut usize, k: usize, out: *mut u16, o: usize, list: *mut u32, l: usize, says: *mut usize, m: usize) -> usize;
    fn bridge_index_feed(state: *mut usize, k: usize, piece: *const u8, n: usize, row: *mut u32, r: usize, says: *mut usize, m: usize) -> usize;
    fn bridge_index_finish(state: *mut usize, k: usize, row: *mut u32, r: usize, says: *mut usize, m: usize) -> usize;
    fn bridge_places_at_unit(text: *const u8, n: usize, offset: usize, says: *mut usize, m: usize) -> usize;
    fn bridge_index_at_unit(text: *const u8, n: usize, row: *const u32, k: usize, offset: usize, says: *mut usize, m: usize) -> usize;
    fn bridge_phrases_find(entry: *const u8, n: usize, needle: *const u8, k: usize, says: *mut usize, m: usize) -> usize;
    fn bridge_phrases_find_plain(entry: *const u8, n: usize, needle: *const u8, k: usize, says: *mut usize, m: usize) -> usize;
}

/// What a call told: the refusal's number and values, or 0 and what was granted.
pub type Said = [usize; 8];

fn said(call: impl FnOnce(*mut usize, usize) -> usize) -> Said {
    let mut says = [0; 8];
    call(says.as_mut_ptr(), says.len());
    says
}

// SAFETY of all calls: each reads and writes the slices that it is lent alone, and has no other precondition.

/// 0 where a text is well-formed.
pub fn check(text: &[u8]) -> u64 {
    unsafe { moxandril_check(text.as_ptr(), text.len()) }
}

/// How many bytes were written.
pub fn repair(text: &[u8], out: &mut [u8]) -> usize {
    unsafe { moxandril_repair(text.as_ptr(), text.len(), out.as_mut_ptr(), out.len()) as usize }
}

macro_rules! writers {
    ($($name:ident: $call:ident, $from:ty => $to:ty;)*) => {$(
        pub fn $name(text: &[$from], out: &mut [$to]) -> Said {
            let (o, k) = (out.as_mut_ptr(), out.len());
            said(|s, m| unsafe { $call(text.as_ptr(), text.len(), o, k, s, m) })
        }
    )*};
}

writers! {
    to_units: bridge_bytes_to_units, u8 => u16;
    to_points: bridge_bytes_to_points, u8 => u32;
    repair_to_units: bridge_bytes_repair_to_units, u8 => u16;
    to_bytes: bridge_units_to_bytes, u16 => u8;
    repair_to_bytes: bridge_units_repair_to_bytes, u16 => u8;
}

/// Turns a text of an old page into bytes, or back.
macro_rules! turners {
    ($($name:ident: $call:ident;)*) => {$(
        pub fn $name(text: &[u8], page: usize, out: &mut [u8]) -> Said {
            let (o, k) = (out.as_mut_ptr(), out.len());
            said(|s, m| unsafe { $call(text.as_ptr(), text.len(), page, o, k, s, m) })
        }
    )*};
}

turners! {
    from_page: bridge_pages_to_bytes;
    to_page: bridge_bytes_to_page;
}

/// How many damages the list of a repair in pieces has room for.
pub const ROOM: usize = 32;
/// How many numbers the list is: start, length and cause of each.
const LIST: usize = 3 * ROOM;

/// A decoder: a text is fed in pieces of so many elements, and finished; how many places were written.
macro_rules! decoders {
    ($($name:ident: $start:ident, $feed:ident, $finish:ident, $state:literal, $from:ty => $to:ty;)*) => {$(
        pub fn $name(text: &[$from], size: usize, out: &mut [$to]) -> usize {
            let (mut state, mut list, mut says) = ([0usize; $state], [0u32; LIST], [0usize; 8]);
            let (p, l, mut done) = (state.as_mut_ptr(), list.as_mut_ptr(), 0);
            unsafe { $start(ROOM, p, $state, says.as_mut_ptr(), 8) };
            for piece in text.chunks(size) {
                let (t, n, out) = (piece.as_ptr(), piece.len(), &mut out[done..]);
                let (o, k, s) = (out.as_mut_ptr(), out.len(), says.as_mut_ptr());
                unsafe { $feed(p, $state, t, n, o, k, l, LIST, s, 8) };
                done += says[1];
            }
            let out = &mut out[done..];
            let (o, k, s) = (out.as_mut_ptr(), out.len(), says.as_mut_ptr());
            unsafe { $finish(p, $state, o, k, l, LIST, s, 8) };
            done + says[1]
        }
    )*};
}

decoders! {
    repair_pieces: bridge_pieces_start, bridge_pieces_feed, bridge_pieces_finish, 9, u8 => u8;
    unit_pieces: bridge_unit_pieces_start, bridge_unit_pieces_feed, bridge_unit_pieces_finish, 7, u16 => u8;
    pieces_to_units: bridge_pieces_to_units_start, bridge_pieces_to_units_feed, bridge_pieces_to_units_finish, 9, u8 => u16;
}

/// How many numbers the index of a text of so many bytes has.
pub fn index_size(length: usize) -> usize {
    4 * (length / 256 + 1)
}

/// Builds the index of a text: one feed and the finish.
pub fn build(text: &[u8], row: &mut [u32]) -> Said {
    let (mut state, r, k) = ([0usize; 8], row.as_mut_ptr(), row.len());
    let p = state.as_mut_ptr();
    said(|s, m| unsafe { bridge_index_feed(p, 8, text.as_ptr(), text.len(), r, k, s, m) });
    said(|s, m| unsafe { bridge_index_finish(p, 8, r, k, s, m) })
}

pub fn plain_unit(text: &[u8], offset: usize) -> Said {
    said(|s, m| unsafe { bridge_places_at_unit(text.as_ptr(), text.len(), offset, s, m) })
}

pub fn index_unit(text: &[u8], row: &[u32], offset: usize) -> Said {
    let (r, k) = (row.as_ptr(), row.len());
    said(|s, m| unsafe { bridge_index_at_unit(text.as_ptr(), text.len(), r, k, offset, s, m) })
}

/// A search for the first match of a needle: 0 and its offset are told, or 0 alone where there is none.
macro_rules! searches {
    ($($name:ident: $call:ident;)*) => {$(
        pub fn $name(entry: &[u8], needle: &[u8]) -> Option<usize> {
            let (mut says, e, n) = ([0; 8], entry.as_ptr(), entry.len());
            let (p, k, s) = (needle.as_ptr(), needle.len(), says.as_mut_ptr());
            let told = unsafe { $call(e, n, p, k, s, 8) };
            (told == 2).then_some(says[1])
        }
    )*};
}

searches! {
    find: bridge_phrases_find;
    find_plain: bridge_phrases_find_plain;
}
