//! Segments, code points, strict checks, strict conversion and repair of whole texts, in the three forms.
use crate::calls::*;
use crate::common::model::forms::{self, Form};
use crate::common::model::Told;
use crate::common::texts::{every_short, CODES, UNITS};
use crate::common::INTERESTING;
use crate::courses::Tested;
use crate::Run;
use std::fmt::Debug;

/// A call with outputs one place short, exact and longer; in each the whole buffer with its margins must hold what the model says.
pub fn in_rooms<T, U>(
    run: &mut Run,
    call: impl Fn(&[T], &mut [U]) -> Told,
    text: &[T],
    form: &Result<Vec<U>, Told>,
) where
    T: Copy + Debug,
    U: Copy + Debug + PartialEq + From<u8>,
{
    let need = form.as_ref().map_or(text.len(), Vec::len);
    for room in [need, need + 3, need.saturating_sub(1), need / 2] {
        let mut out = filled::<U>(room);
        let mut expected = out.clone();
        let said = call(text, inner(&mut out));
        match form {
            Err(told) => assert_eq!(said, *told, "{room} places, of {text:02X?}"),
            Ok(_) if room < need => assert_eq!(said, [3, need], "{room} places, of {text:02X?}"),
            Ok(form) => {
                assert_eq!(said, [0, need], "{room} places, of {text:02X?}");
                inner(&mut expected)[..need].copy_from_slice(form);
            }
        }
        assert!(out == expected, "output {out:02X?} of {text:02X?}");
        run.cases += 1;
    }
}

fn writing<T, U>(run: &mut Run, call: Writes<T, U>, text: &[T], form: &Result<Vec<U>, Told>)
where
    T: Copy + Debug,
    U: Copy + Debug + PartialEq + From<u8>,
{
    in_rooms(run, |text, out| writes(call, text, out, 8), text, form);
}

/// What is told of the first segment and of the whole text.
fn reading<T: Form + Debug>(run: &mut Run, text: &[T], calls: [Reads<T>; 3]) {
    let places = 8 + text.len() % 3;
    let said = calls.map(|call| reads(call, text, places));
    let expected = [forms::first(text), forms::point(text), forms::check(text)];
    assert_eq!(said, expected, "segment, point, check of {text:02X?}");
    run.cases += 3;
}

/// Where there are too few places to tell in, nothing is called.
fn untold<T, U>(run: &mut Run, call: Writes<T, U>, text: &[T])
where
    U: Copy + PartialEq + From<u8>,
{
    let mut out = filled::<U>(2 * text.len());
    let expected = out.clone();
    let said = writes(call, text, inner(&mut out), text.len() % 8);
    assert!(said == [NOT_CALLED] && out == expected);
    run.cases += 1;
}

/// Rust's own decoders agree with the model.
fn std_agrees_on_bytes(text: &[u8]) {
    let lossy = String::from_utf8_lossy(text);
    assert_eq!(forms::converted::<u8, u8>(text), lossy.as_bytes());
    let units: Vec<u16> = lossy.encode_utf16().collect();
    assert_eq!(forms::converted::<u8, u16>(text), units);
    assert!(forms::converted::<u8, u32>(text)
        .into_iter()
        .eq(lossy.chars().map(u32::from)));
    if let Err(e) = std::str::from_utf8(text) {
        let start = e.valid_up_to();
        let length = e.error_len().unwrap_or(text.len() - start);
        let cause = match (e.error_len(), text[start]) {
            (None, _) => 4,
            (Some(_), 0x80..=0xBF) => 1,
            (Some(_), 0xC0 | 0xC1 | 0xF5..=0xFF) => 2,
            (Some(_), _) => 3,
        };
        assert_eq!(forms::check(text), [1, start, length, cause]);
    }
}

fn std_agrees_on_units(text: &[u16]) {
    let read = char::decode_utf16(text.iter().copied()).map(|c| c.unwrap_or('\u{FFFD}'));
    let lossy: String = read.collect();
    assert_eq!(forms::converted::<u16, u8>(text), lossy.as_bytes());
    assert_eq!(forms::check(text), u16::strict(text));
}

pub fn of_bytes(run: &mut Run, text: &[u8]) {
    std_agrees_on_bytes(text);
    reading(
        run,
        text,
        [bridge_bytes_segment, bridge_bytes_point, bridge_bytes_check],
    );
    writing(run, bridge_bytes_to_units, text, &forms::strict(text));
    writing(run, bridge_bytes_to_points, text, &forms::strict(text));
    writing(run, bridge_bytes_repair, text, &forms::repaired(text));
    writing(
        run,
        bridge_bytes_repair_to_units,
        text,
        &forms::repaired(text),
    );
}

pub fn of_units(run: &mut Run, text: &[u16]) {
    std_agrees_on_units(text);
    reading(
        run,
        text,
        [bridge_units_segment, bridge_units_point, bridge_units_check],
    );
    writing(run, bridge_units_to_bytes, text, &forms::strict(text));
    writing(run, bridge_units_to_points, text, &forms::strict(text));
    writing(run, bridge_units_repair, text, &forms::repaired(text));
    writing(
        run,
        bridge_units_repair_to_bytes,
        text,
        &forms::repaired(text),
    );
}

pub fn of_codes(run: &mut Run, text: &[u32]) {
    let strict: Option<String> = text.iter().map(|&c| char::from_u32(c)).collect();
    assert_eq!(forms::check(text) == [0], strict.is_some());
    reading(
        run,
        text,
        [
            bridge_points_segment,
            bridge_points_point,
            bridge_points_check,
        ],
    );
    writing(run, bridge_points_to_bytes, text, &forms::strict(text));
    writing(run, bridge_points_to_units, text, &forms::strict(text));
}

/// Every text of up to three interesting elements.
pub fn short(run: &mut Run) {
    every_short(&INTERESTING, 3).for_each(|text| of_bytes(run, &text));
    every_short(&UNITS, 3).for_each(|text| of_units(run, &text));
    every_short(&CODES, 2).for_each(|text| of_codes(run, &text));
    every_short(&[0xF0, 0xF4, 0x80, 0x8F, 0x90, 0x41], 5).for_each(|text| of_bytes(run, &text));
}

pub fn random(run: &mut Run) {
    for round in 0..run.rounds(9_000) {
        let length = run.random.length();
        let text = run.random.mixture(length);
        let units = run.random.units(length);
        let codes = run.random.codes(length);
        of_bytes(run, &text);
        of_units(run, &units);
        of_codes(run, &codes);
        if round % 50 == 0 {
            untold(run, bridge_bytes_to_units, &text);
            untold(run, bridge_bytes_repair, &text);
            untold(run, bridge_units_to_bytes, &units);
            untold(run, bridge_points_to_units, &codes);
            assert_eq!(reads(bridge_bytes_check, &text, 7), [NOT_CALLED]);
        }
    }
}
