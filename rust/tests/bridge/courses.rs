//! A text in pieces through a decoder: every call's answer, state and buffers, and at the end the whole.
use crate::calls::{filled, inner, Decoding, MARGIN};
use crate::common::model::decoder::{most, start, Fed, State};
use crate::common::model::forms::{converted, Form};
use crate::common::model::pending::Piece;
use crate::common::model::{Told, ENTRY};
use crate::common::{damages, Damage, Random};
use crate::Run;

/// What a text in pieces is made of: random texts of it, and what others than the model say of one.
pub trait Tested: Piece {
    /// A text of about so many.
    fn text(random: &mut Random, length: usize) -> Vec<Self>;
    /// Rust's own repair.
    fn lossy(text: &[Self]) -> String;
    /// The damages, with their causes in this text.
    fn damages(text: &[Self]) -> Vec<Damage>;

    /// What strict reading tells: the first damage with its cause, or none.
    fn strict(text: &[Self]) -> Told {
        match Self::damages(text)[..] {
            [] => vec![0],
            [(start, length, cause), ..] => vec![1, start, length, cause],
        }
    }
}

impl Tested for u8 {
    fn text(random: &mut Random, length: usize) -> Vec<u8> {
        random.mixture(length)
    }

    fn lossy(text: &[u8]) -> String {
        String::from_utf8_lossy(text).into_owned()
    }

    fn damages(text: &[u8]) -> Vec<Damage> {
        damages(text)
    }
}

impl Tested for u16 {
    fn text(random: &mut Random, length: usize) -> Vec<u16> {
        random.unit_mixture(length)
    }

    fn lossy(text: &[u16]) -> String {
        String::from_utf16_lossy(text)
    }

    /// By Rust's own reader of pairs: a half that it calls unpaired is a second one, or is the last unit, or another unit stops it.
    fn damages(text: &[u16]) -> Vec<Damage> {
        let (mut found, mut at) = (Vec::new(), 0);
        for read in char::decode_utf16(text.iter().copied()) {
            if let Err(half) = &read {
                let is_second = half.unpaired_surrogate() >= 0xDC00;
                let cause = match (is_second, at + 1 == text.len()) {
                    (true, _) => 1,
                    (false, false) => 3,
                    (false, true) => 4,
                };
                found.push((at, 1, cause));
            }
            at += read.map_or(1, char::len_utf16);
        }
        found
    }
}

/// A text with the places that it is cut at, and what else is needed to repeat a failure.
#[derive(Debug)]
pub struct Course<'a, T> {
    pub text: &'a [T],
    pub cuts: &'a [usize],
    pub room: usize,
}

impl<'a, T: Piece> Course<'a, T> {
    /// The pieces, the last one up to the text's end, and then the finish.
    pub fn pieces(&self) -> Vec<Option<&'a [T]>> {
        let text = self.text;
        let starts = std::iter::once(0).chain(self.cuts.iter().copied());
        starts
            .zip(self.cuts)
            .map(|(from, &to)| Some(&text[from..to]))
            .chain([None])
            .collect()
    }

    pub fn at(&self, place: impl std::fmt::Debug) -> String {
        let (text, cuts, room) = (self.text, self.cuts, self.room);
        format!("{place:?}: text {text:02X?} cut at {cuts:?}, room {room}")
    }
}

/// One call of a decoder: its answer, state, output with margins, and the whole list.
pub struct Tried<'a, T: Piece, U> {
    pub decoding: Decoding<T, U>,
    pub state: State<T>,
    /// the piece, or none for the finish
    pub piece: Option<&'a [T]>,
    pub out: usize,
    pub list: usize,
}

impl<T: Piece, U: Form> Tried<'_, T, U> {
    fn model(&self) -> Fed<T, U> {
        match self.piece {
            Some(piece) => self.state.feed(piece, self.out, self.list),
            None => self.state.finish(self.out, self.list),
        }
    }

    /// Calls the library with a list, of which the first numbers are lent, and compares with the model; `list` is then the model's too.
    pub fn compare(&self, list: &mut [u32], about: impl Fn() -> String) {
        self.compare_with(&self.model(), list, about);
    }

    /// The same with what is expected.
    fn compare_with(&self, fed: &Fed<T, U>, list: &mut [u32], about: impl Fn() -> String) {
        let about = || format!("{}: {}", self.decoding.name, about());
        let mut out = filled::<U>(self.out);
        let mut expected = out.clone();
        let mut entered = list.to_vec();
        let lent = &mut list[MARGIN..MARGIN + self.list];
        let (told, state) = match self.piece {
            Some(piece) => self.decoding.feed(self.state, piece, inner(&mut out), lent),
            None => self.decoding.finish(self.state, inner(&mut out), lent),
        };
        assert_eq!(told, fed.told, "answer {}", about());
        assert_eq!(state, fed.state, "state {}", about());
        expected[MARGIN..MARGIN + fed.output.len()].copy_from_slice(&fed.output);
        assert!(out == expected, "output {}", about());
        if !fed.entries.is_empty() {
            let at = MARGIN + ENTRY * fed.from_entry;
            entered[at..at + fed.entries.len()].copy_from_slice(&fed.entries);
        }
        assert!(*list == entered, "list {}", about());
    }
}

/// Feeds and finish of one course, with refusals tried before calls; at the end the whole is what the text's definition says.
pub fn decode_course<T, U>(run: &mut Run, decoding: Decoding<T, U>, course: &Course<T>)
where
    T: Tested,
    U: Form,
{
    let (room, long) = (course.room, ENTRY * course.room);
    let (told, mut state) = decoding.start(room, 9);
    assert_eq!((told, state), start(room), "{}", course.at("start"));
    let mut list = filled::<u32>(long + 1);
    let (fresh_list, mut output) = (list.clone(), Vec::<U>::new());
    let mut totals = vec![];
    for (i, piece) in course.pieces().into_iter().enumerate() {
        let roomy = Tried {
            decoding,
            state,
            piece,
            out: usize::MAX,
            list: long,
        };
        let fed = roomy.model();
        let need = fed.output.len();
        let mut trial = |out: usize, lent: usize, expected: &Fed<T, U>| {
            run.cases += 1;
            let tried = Tried {
                out,
                list: lent,
                ..roomy
            };
            tried.compare_with(expected, &mut list, || {
                course.at(format!("piece {i}, {out} places, list {lent}"))
            })
        };
        if need > 0 {
            trial(need - 1, long, &state.refuse(vec![3, need]));
        }
        if room > 0 && i % 2 == 0 {
            // one number short, or one for each entry
            let short = [long - 1, 2 * room][i / 2 % 2];
            trial(need / 2, short, &state.refuse(vec![7]));
        }
        let enough = most::<U>(piece.map_or(0, <[T]>::len));
        let places = [need, enough, need + 1][(i + room) % 3];
        trial(places, long + i % 2, &fed);
        output.extend(&fed.output);
        state = fed.state;
        totals = fed.told;
    }
    whole(course, &totals[2..], &output, &list, fresh_list);
    assert_eq!(state, State::fresh(room), "{}", course.at("after finish"));
    run.cases += 1;
}

/// The joined output, the totals and the list, from the text alone.
fn whole<T, U>(
    course: &Course<T>,
    totals: &[usize],
    output: &[U],
    list: &[u32],
    mut fresh: Vec<u32>,
) where
    T: Tested,
    U: Form,
{
    let found = T::damages(course.text);
    let damaged = found.iter().map(|d| d.1).sum::<usize>();
    let expected = [course.text.len() - damaged, damaged, found.len()];
    assert_eq!(totals, expected, "{}", course.at("totals"));
    let mut lossy = Vec::new();
    T::lossy(course.text)
        .chars()
        .for_each(|c| U::put(c, &mut lossy));
    assert!(
        output == lossy && output == converted::<T, U>(course.text),
        "{}",
        course.at("joined output")
    );
    for (i, (start, length, cause)) in found.into_iter().take(course.room).enumerate() {
        fresh[MARGIN + 3 * i] = start as u32;
        fresh[MARGIN + 3 * i + 1] = length as u32;
        fresh[MARGIN + 3 * i + 2] = cause as u32;
    }
    assert!(list == fresh, "{}", course.at("joined list"));
}
