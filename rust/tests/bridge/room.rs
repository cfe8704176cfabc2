//! The most places that a call can need: no text needs more, and some text of each length needs them all.
use crate::calls::{self, Decoding, PIECES, PIECES_TO_UNITS, UNIT_PIECES};
use crate::common::model::decoder::{most, Fed, State};
use crate::common::model::forms::{converted, Form};
use crate::common::model::index::need;
use crate::common::model::pending::Piece;
use crate::common::model::LIMIT;
use crate::Run;
use std::fmt::Debug;

/// How many places a text takes in each form: bytes, units, code points.
fn needs<T: Form>(text: &[T]) -> [usize; 3] {
    [
        converted::<T, u8>(text).len(),
        converted::<T, u16>(text).len(),
        converted::<T, u32>(text).len(),
    ]
}

fn enough<T: Form + Debug>(run: &mut Run, from: usize, text: &[T]) {
    for (to, need) in needs(text).into_iter().enumerate() {
        let most = calls::most(from, to, text.len());
        assert!(need <= most, "form {from} to {to}: {need} of {text:02X?}");
        run.cases += 1;
    }
}

/// Repeated, this element needs the most in these forms.
fn all_needed<T: Form + Copy>(run: &mut Run, from: usize, element: T, forms: &[usize]) {
    for n in [0, 1, 2, 63, 1_000] {
        let needs = needs(&vec![element; n]);
        for &to in forms {
            assert_eq!(
                calls::most(from, to, n),
                needs[to],
                "form {from} to {to}: {n}"
            );
            run.cases += 1;
        }
    }
}

/// Over the limit nothing is ever written, so that no more is needed than at it.
fn limited(run: &mut Run) {
    for n in [LIMIT + 1, usize::MAX / 4 + 1, usize::MAX] {
        for (from, to) in (0..3).flat_map(|from| (0..3).map(move |to| (from, to))) {
            assert_eq!(calls::most(from, to, n), calls::most(from, to, LIMIT));
            run.cases += 1;
        }
    }
}

/// What a feed and the finish need of a text that is cut somewhere.
fn fed<T: Piece, U: Form>(run: &mut Run, decoding: Decoding<T, U>, text: &[T]) {
    let (before, piece) = text.split_at(run.random.below(text.len() + 1));
    let state = of::<T, U>(before);
    let calls: [(Fed<T, U>, usize); 2] = [
        (state.feed(piece, usize::MAX, 0), piece.len()),
        (state.finish(usize::MAX, 0), 0),
    ];
    for (call, n) in calls {
        let need = call.output.len();
        assert!(need <= decoding.most(n), "{before:02X?}, {piece:02X?}");
        run.cases += 1;
    }
}

/// The state behind a text.
fn of<T: Piece, U: Form>(text: &[T]) -> State<T> {
    let fed: Fed<T, U> = State::fresh(0).feed(text, usize::MAX, 0);
    fed.state
}

/// The most of a decoder is the model's; behind this first element, this one repeated needs it all.
fn all_fed<T, U>(run: &mut Run, decoding: Decoding<T, U>, first: T, element: T)
where
    T: Piece,
    U: Form,
{
    let state = of::<T, U>(&[first]);
    assert_eq!(
        state.finish::<U>(usize::MAX, 0).output.len(),
        decoding.most(0)
    );
    for n in [1, 2, 63, 1_000] {
        let call: Fed<T, U> = state.feed(&vec![element; n], usize::MAX, 0);
        assert_eq!(call.output.len(), decoding.most(n), "{n}");
    }
    for n in (0..1_000).chain([LIMIT - 1, LIMIT, LIMIT + 1, usize::MAX / 3, usize::MAX]) {
        assert_eq!(decoding.most(n), most::<U>(n), "{n}");
        run.cases += 1;
    }
    run.cases += 5;
}

pub fn all(run: &mut Run) {
    for _ in 0..run.rounds(5_000) {
        let length = run.random.below(40);
        let bytes = run.random.mixture(length);
        let (units, codes) = (run.random.units(length), run.random.codes(length));
        enough(run, 0, &bytes);
        enough(run, 1, &units);
        enough(run, 2, &codes);
        fed(run, PIECES, &bytes);
        fed(run, PIECES_TO_UNITS, &bytes);
        fed(run, UNIT_PIECES, &units);
    }
    all_needed(run, 0, 0x80u8, &[0, 1, 2]);
    all_needed(run, 1, 0xDC00u16, &[0, 1, 2]);
    all_needed(run, 2, 0x1F686u32, &[0, 1, 2]);
    all_fed(run, PIECES, 0xE2, 0xFF);
    all_fed(run, PIECES_TO_UNITS, 0xE2, 0xFF);
    all_fed(run, UNIT_PIECES, 0xD83D, 0x4E00);
    let once = [PIECES.most(1), PIECES_TO_UNITS.most(1), UNIT_PIECES.most(1)];
    assert_eq!(once, [6, 2, 6], "one is pending, and one comes");
    limited(run);
    for long in (0..2_000).chain([LIMIT - 1, LIMIT, usize::MAX]) {
        assert_eq!(calls::index_needed(long), need(long), "{long}");
        run.cases += 1;
    }
}
