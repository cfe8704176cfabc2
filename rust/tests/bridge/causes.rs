//! The causes of damages: every short text of some elements, read whole and in every cutting, with the causes of the joined text.
use crate::calls::*;
use crate::common::model::forms::{self, Form};
use crate::common::model::ENTRY;
use crate::common::texts::{every_short, CODES};
use crate::common::Damage;
use crate::courses::{Course, Tested};
use crate::Run;

/// Bytes that stand alone, go on in all or in some sequences, begin one of each kind, and stand in none.
const BYTES: [u8; 20] = [
    0x41, 0x80, 0x8F, 0x90, 0x9F, 0xA0, 0xBF, 0xC0, 0xC1, 0xC2, 0xDF, 0xE0, 0xE1, 0xED, 0xEF, 0xF0,
    0xF1, 0xF4, 0xF5, 0xFF,
];

/// The first and the last of each half, the units beside them, and the ends of all.
const UNITS: [u16; 8] = [
    0x0041, 0xD7FF, 0xD800, 0xDBFF, 0xDC00, 0xDFFF, 0xE000, 0xFFFF,
];

/// What the segment reader and the check tell of a whole text.
fn told<T: Tested>(run: &mut Run, text: &[T], calls: [Reads<T>; 2]) {
    let said = calls.map(|call| reads(call, text, 8));
    let expected = [forms::first(text), T::strict(text)];
    assert_eq!(said, expected, "segment, check of {text:02X?}");
    run.cases += 2;
}

/// A strict conversion refuses as the check does, or writes all.
fn converted<T: Tested, U: Form>(run: &mut Run, text: &[T], call: Writes<T, U>) {
    let mut out = [U::from(7); 16];
    let said = writes(call, text, &mut out, 8);
    let (mut expected, mut written) = (T::strict(text), vec![]);
    if expected == [0] {
        written = forms::converted::<T, U>(text);
        expected.push(written.len());
    }
    let (before, behind) = out.split_at(written.len());
    assert_eq!((said, before), (expected, &written[..]), "of {text:02X?}");
    assert!(behind.iter().all(|&e| e == U::from(7)), "of {text:02X?}");
    run.cases += 1;
}

/// Every cutting of so many elements into pieces that are not empty: between two elements there is a cut or none.
fn cuttings(n: usize) -> Vec<Vec<usize>> {
    let choices = 0..1usize << n.saturating_sub(1);
    choices
        .map(|cut| {
            let inner = (1..n).filter(|at| cut >> (at - 1) & 1 == 1);
            inner.chain([n]).collect()
        })
        .collect()
}

/// The same with an empty piece before and behind each.
fn with_empty(cuts: &[usize]) -> Vec<usize> {
    let twice = cuts.iter().flat_map(|&cut| [cut, cut]);
    [0].into_iter().chain(twice).collect()
}

/// How many damages are settled where a text may go on: a sequence that its end stops is pending.
fn settled(found: &[Damage]) -> usize {
    found.iter().filter(|damage| damage.2 != 4).count()
}

/// A cutting through a decoder, with room for every damage. Behind each piece the list has the damages that are settled with the causes that
/// they have in the joined text, none of them 4; the finish enters what it settles, with 4.
fn entered<T: Tested, U: Form>(run: &mut Run, decoding: Decoding<T, U>, course: &Course<T>) {
    let (text, room, mut taken) = (course.text, course.room, 0);
    let found = T::damages(text);
    let (_, mut state) = decoding.start(room, 9);
    let mut out = filled::<U>(3 * text.len() + 3);
    let mut list = filled::<u32>(ENTRY * room);
    let fresh = list.clone();
    for piece in course.pieces() {
        let (out, lent) = (inner(&mut out), inner(&mut list));
        let (said, next) = match piece {
            Some(piece) => decoding.feed(state, piece, out, lent),
            None => decoding.finish(state, out, lent),
        };
        taken += piece.map_or(0, <[T]>::len);
        let about = || course.at(format!("{}, {taken} taken", decoding.name));
        assert_eq!(said[0], 0, "{}", about());
        let (count, entries) = match piece {
            Some(_) => (next.count, settled(&T::damages(&text[..taken]))),
            None => (said[4], found.len()),
        };
        assert_eq!(count, entries, "{}", about());
        let new = &found[state.count..entries];
        let pending = piece.is_none() && state.pending > 0;
        assert_eq!(new.len() - settled(new), pending as usize, "{}", about());
        assert!(list == listed(&fresh, &found[..entries]), "{}", about());
        state = next;
        run.cases += 1;
    }
}

/// A list that was fresh, with these damages entered: start, length and cause of each.
fn listed(fresh: &[u32], damages: &[Damage]) -> Vec<u32> {
    let mut list = fresh.to_vec();
    let entries = list[MARGIN..].chunks_mut(ENTRY);
    for (entry, &(start, length, cause)) in entries.zip(damages) {
        entry.copy_from_slice(&[start, length, cause].map(|n| n as u32));
    }
    list
}

/// Every cutting of a text, the pieces not empty; then, for texts that are short, with empty ones between: they end nothing.
fn in_pieces<T, U>(run: &mut Run, decoding: Decoding<T, U>, text: &[T], short: usize)
where
    T: Tested,
    U: Form,
{
    let room = text.len();
    for cuts in cuttings(text.len()) {
        let cuts = &cuts[..];
        entered(run, decoding, &Course { text, cuts, room });
        if text.len() <= short {
            let cuts = &with_empty(cuts)[..];
            entered(run, decoding, &Course { text, cuts, room });
        }
    }
}

/// Examples in numbers: the damages of a text, told and entered.
fn examples<T: Tested, U: Form>(
    run: &mut Run,
    check: Reads<T>,
    decoding: Decoding<T, U>,
    examples: &[(&[T], &[Damage])],
) {
    for &(text, damages) in examples {
        assert_eq!(T::damages(text), damages, "{text:02X?}");
        assert_eq!(reads(check, text, 8), T::strict(text), "{text:02X?}");
        in_pieces(run, decoding, text, 3);
        run.cases += 1;
    }
}

/// The request's own example, the paper's, and a sequence that is stopped by one that the end stops.
const BYTE_EXAMPLES: [(&[u8], &[Damage]); 8] = [
    (b"\x41\x80\x42", &[(1, 1, 1)]),
    (b"\xE2\x82\x41", &[(0, 2, 3)]),
    (b"\xE2\x82\xC3", &[(0, 2, 3), (2, 1, 4)]),
    (b"\xF0\x9F\x9A", &[(0, 3, 4)]),
    (
        b"\xF4\x90\x80\x80",
        &[(0, 1, 3), (1, 1, 1), (2, 1, 1), (3, 1, 1)],
    ),
    (b"\xC0\x80", &[(0, 1, 2), (1, 1, 1)]),
    (b"\xED\xA0\x80", &[(0, 1, 3), (1, 1, 1), (2, 1, 1)]),
    (b"\x41\xFF", &[(1, 1, 2)]),
];

/// The paper's, and a half that is stopped by one that the end stops.
const UNIT_EXAMPLES: [(&[u16], &[Damage]); 3] = [
    (&[0xD83D, 0xD83D, 0xDE86], &[(0, 1, 3)]),
    (&[0xDE86, 0xD83D], &[(0, 1, 1), (1, 1, 4)]),
    (&[0xD83D, 0xDBFF], &[(0, 1, 3), (1, 1, 4)]),
];

/// Bytes: whole texts of up to four, and the two decoders that take them, up to three.
pub fn of_bytes(run: &mut Run) {
    examples(run, bridge_bytes_check, PIECES, &BYTE_EXAMPLES);
    examples(run, bridge_bytes_check, PIECES_TO_UNITS, &BYTE_EXAMPLES);
    for text in every_short(&BYTES, 4) {
        told(run, &text, [bridge_bytes_segment, bridge_bytes_check]);
        converted(run, &text, bridge_bytes_to_units);
        converted(run, &text, bridge_bytes_to_points);
        if text.len() <= 3 {
            in_pieces(run, PIECES, &text, 2);
            in_pieces(run, PIECES_TO_UNITS, &text, 2);
        }
    }
}

/// Units: whole texts and their decoder, of up to four.
pub fn of_units(run: &mut Run) {
    examples(run, bridge_units_check, UNIT_PIECES, &UNIT_EXAMPLES);
    for text in every_short(&UNITS, 4) {
        told(run, &text, [bridge_units_segment, bridge_units_check]);
        converted(run, &text, bridge_units_to_bytes);
        converted(run, &text, bridge_units_to_points);
        in_pieces(run, UNIT_PIECES, &text, 3);
    }
}

/// Numbers: one that is no scalar value has cause 2, and its refusal tells the position alone.
pub fn of_codes(run: &mut Run) {
    for text in every_short(&CODES, 2).filter(|text| !text.is_empty()) {
        let is_whole = |c: &u32| char::from_u32(*c).is_some();
        let (damage, cause) = if is_whole(&text[0]) { (0, 0) } else { (1, 2) };
        let refusal = text.iter().position(|c| !is_whole(c));
        let expected = [
            vec![damage, 1, 1, cause],
            refusal.map_or(vec![0], |at| vec![9, at]),
        ];
        let said = [bridge_points_segment, bridge_points_check].map(|call| reads(call, &text, 8));
        assert_eq!(said, expected, "segment, check of {text:X?}");
        run.cases += 2;
    }
}
