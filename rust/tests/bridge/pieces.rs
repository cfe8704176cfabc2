//! The decoders and the index builder, fed in random cuttings, and the decoders on examples.
use crate::calls::{self, filled, Decoding, MARGIN, PIECES, PIECES_TO_UNITS, UNIT_PIECES};
use crate::common::model::decoder::{Decoder, State};
use crate::common::model::forms::Form;
use crate::common::model::index::{built, need, Builder};
use crate::common::model::ENTRY;
use crate::courses::{decode_course, Course, Tested};
use crate::Run;

/// A random text in a random cutting, by the number of its round; hands back the text and the room of its list.
fn random_course<T, U>(run: &mut Run, decoding: Decoding<T, U>, round: usize) -> (Vec<T>, usize)
where
    T: Tested,
    U: Form,
{
    let length = run.random.length();
    let text = T::text(&mut run.random, length);
    let cuts = run.random.cuts(text.len());
    let room = [0, 1, 2, 31, if round % 8 == 0 { 4_096 } else { 5 }][round % 5];
    decode_course(
        run,
        decoding,
        &Course {
            text: &text,
            cuts: &cuts,
            room,
        },
    );
    (text, room)
}

/// An example in numbers: what each piece and then the finish write, the list, and the totals.
struct Example<'a, T, U> {
    pieces: &'a [&'a [T]],
    written: &'a [&'a [U]],
    list: &'a [u32],
    totals: [usize; 3],
}

impl<T: Tested, U: Form> Example<'_, T, U> {
    fn compare(&self, run: &mut Run, decoding: Decoding<T, U>) {
        let (_, mut state) = decoding.start(4, 0);
        let (mut out, mut list) = ([U::from(7); 16], [7; 4 * ENTRY]);
        for (i, &written) in self.written.iter().enumerate() {
            let (told, next) = match self.pieces.get(i) {
                Some(piece) => decoding.feed(state, piece, &mut out, &mut list),
                None => decoding.finish(state, &mut out, &mut list),
            };
            let mut expected = vec![0, written.len()];
            if i == self.pieces.len() {
                expected.extend(self.totals);
            }
            assert_eq!((told, &out[..written.len()]), (expected, written), "{i}");
            state = next;
            run.cases += 1;
        }
        let (entered, others) = list.split_at(self.list.len());
        assert!(
            entered == self.list && others.iter().all(|&n| n == 7),
            "{list:?}"
        );
        assert_eq!(state, State::fresh(4));
    }
}

/// The watch over the same text, byte by byte.
fn watch_course(run: &mut Run, text: &[u8], room: usize) {
    let mut state = Decoder::fresh(room);
    for (i, &b) in text.iter().enumerate() {
        let expected = state.watch(b);
        assert_eq!(
            calls::watch_step(state, b),
            expected,
            "byte {i} of {text:02X?}"
        );
        state = expected.1;
        run.cases += 1;
    }
}

/// Bytes, repaired; and the watch.
pub fn repair(run: &mut Run) {
    for round in 0..run.rounds(4_000) {
        let (text, room) = random_course(run, PIECES, round);
        if text.len() < 400 {
            watch_course(run, &text, room);
        }
    }
    let fixed: [(&[u8], &[usize], usize); 3] = [
        (b"\xE2\x82\x41", &[1, 2, 3], 4),
        (b"\x80\x80\x80\x80\x80", &[0, 5, 5], 2),
        (b"", &[0, 0], 0),
    ];
    for (text, cuts, room) in fixed {
        decode_course(run, PIECES, &Course { text, cuts, room });
    }
    let example = Example::<u8, u8> {
        pieces: &[b"\xE2", b"\x82", b"\x41"],
        written: &[b"", b"", b"\xEF\xBF\xBD\x41", b""],
        list: &[0, 2, 3],
        totals: [1, 2, 1],
    };
    example.compare(run, PIECES);
}

/// Units, written as bytes. Starts and lengths are in units, whatever was written of them.
pub fn units(run: &mut Run) {
    for round in 0..run.rounds(1_500) {
        random_course(run, UNIT_PIECES, round);
    }
    let examples: [Example<u16, u8>; 4] = [
        Example {
            pieces: &[&[0xD83D], &[0xD83D, 0xDE86]],
            written: &[b"", b"\xEF\xBF\xBD\xF0\x9F\x9A\x86", b""],
            list: &[0, 1, 3],
            totals: [2, 1, 1],
        },
        Example {
            pieces: &[&[0x20AC, 0xD83D], &[], &[0xDE86]],
            written: &[b"\xE2\x82\xAC", b"", b"\xF0\x9F\x9A\x86", b""],
            list: &[],
            totals: [3, 0, 0],
        },
        Example {
            pieces: &[&[0x20AC, 0xD83D], &[0x20AC], &[0xDC00, 0xDBFF]],
            written: &[
                b"\xE2\x82\xAC",
                b"\xEF\xBF\xBD\xE2\x82\xAC",
                b"\xEF\xBF\xBD",
                b"\xEF\xBF\xBD",
            ],
            list: &[1, 1, 3, 3, 1, 1, 4, 1, 4],
            totals: [2, 3, 3],
        },
        Example {
            pieces: &[&[0xDE86, 0xD83D]],
            written: &[b"\xEF\xBF\xBD", b"\xEF\xBF\xBD"],
            list: &[0, 1, 1, 1, 1, 4],
            totals: [0, 2, 2],
        },
    ];
    for example in examples {
        example.compare(run, UNIT_PIECES);
    }
}

/// Bytes, written as units. Starts and lengths are in bytes.
pub fn to_units(run: &mut Run) {
    for round in 0..run.rounds(1_500) {
        random_course(run, PIECES_TO_UNITS, round);
    }
    let examples: [Example<u8, u16>; 3] = [
        Example {
            pieces: &[b"\xE2", b"\x82", b"\x41"],
            written: &[&[], &[], &[0xFFFD, 0x41], &[]],
            list: &[0, 2, 3],
            totals: [1, 2, 1],
        },
        Example {
            pieces: &[b"\xF0\x9F", b"\x9A\x86\xF0\x9F", b"\x9A"],
            written: &[&[], &[0xD83D, 0xDE86], &[], &[0xFFFD]],
            list: &[4, 3, 4],
            totals: [4, 3, 1],
        },
        Example {
            pieces: &[b"\xE2\x82\xAC\x80\xC3", b"\xA9\xFF"],
            written: &[&[0x20AC, 0xFFFD], &[0xE9, 0xFFFD], &[]],
            list: &[3, 1, 1, 6, 1, 2],
            totals: [5, 2, 2],
        },
    ];
    for example in examples {
        example.compare(run, PIECES_TO_UNITS);
    }
}

/// One call of the builder: its answer, state and the whole index buffer.
pub fn try_build(
    state: Builder,
    piece: Option<&[u8]>,
    row: &mut [u32],
    lent: usize,
    about: impl Fn() -> String,
) -> Builder {
    let done = match piece {
        Some(piece) => state.feed(piece, lent),
        None => state.finish(lent),
    };
    let mut expected = row.to_vec();
    done.write(&mut expected[MARGIN..]);
    let part = &mut row[MARGIN..MARGIN + lent];
    let got = match piece {
        Some(piece) => calls::build_feed(state, piece, part),
        None => calls::build_finish(state, part),
    };
    assert_eq!(got, (done.told, done.state), "{}", about());
    assert!(*row == expected, "index {}", about());
    done.state
}

/// Feeds and finish of one course; at the end the index is the text's.
pub fn build_course(run: &mut Run, course: &Course<u8>) {
    let (reply, mut state) = calls::build_fresh([9; 8]);
    assert_eq!((reply, state), (0, Builder::fresh()));
    let (length, mut taken) = (course.text.len(), 0);
    let mut row = filled::<u32>(need(length) + 3);
    let mut expected = row.clone();
    for (i, piece) in course.pieces().into_iter().enumerate() {
        taken += piece.map_or(0, <[u8]>::len);
        let mut trial = |lent: usize| {
            run.cases += 1;
            let about = || course.at(format!("piece {i}, {lent} numbers"));
            try_build(state, piece, &mut row, lent, about)
        };
        if i % 2 == 0 {
            trial(need(taken) - 1);
        }
        let next = trial(need(taken) + i % 3);
        state = next;
    }
    expected[MARGIN..MARGIN + need(length)].copy_from_slice(&built(course.text));
    assert!(row == expected, "{}", course.at("the whole index"));
    assert_eq!(
        calls::audit(course.text, &row[MARGIN..MARGIN + need(length)]),
        1
    );
    run.cases += 2;
}

pub fn build(run: &mut Run) {
    for round in 0..run.rounds(2_500) {
        let length = match round % 3 {
            0 => run.random.length(),
            1 => 240 + run.random.below(40),
            _ => 500 + run.random.below(300),
        };
        let text = run.random.mixture(length);
        let cuts = run.random.cuts(text.len());
        build_course(
            run,
            &Course {
                text: &text,
                cuts: &cuts,
                room: 0,
            },
        );
    }
}
