//! States that no call made: near-sound ones with a number off, and any numbers; the answer is the model's, 8 or a right continuation.
use crate::calls::{self, filled, Decoding, NOT_CALLED, PIECES, PIECES_TO_UNITS, UNIT_PIECES};
use crate::common::model::decoder::{most, Decoder, Fed, State};
use crate::common::model::forms::Form;
use crate::common::model::index::{need, Builder};
use crate::common::model::pending::{elements, hold, Piece};
use crate::common::model::{ENTRY, LIMIT, ROOM};
use crate::common::texts::every_short;
use crate::common::INTERESTING;
use crate::courses::{Tested, Tried};
use crate::pieces::try_build;
use crate::Run;

/// One number of a state off: by a little, at an edge, or anything.
fn off(run: &mut Run, numbers: &mut [usize]) {
    let r = &mut run.random;
    let at = r.below(numbers.len());
    numbers[at] = match r.below(10) {
        0 => numbers[at].wrapping_add(1),
        1 => numbers[at].wrapping_sub(1),
        2 => r.below(5),
        3 => r.below(256),
        4 => r.pick(&[4_096, 4_097, LIMIT - 1, LIMIT, LIMIT + 1]),
        5 => usize::MAX - r.below(3),
        6 => r.pick(&[0x0D, 0xC3, 0xE2, 0x82, 0xF0, 0x9F, 0x9A, 0x80, 0xED, 0xA0]),
        7 => r.pick(&[
            0xD7FF, 0xD800, 0xDBFF, 0xDC00, 0xDFFF, 0xFFFF, 0x10000, 0x1D83D,
        ]),
        8 => r.next() as usize,
        _ => 1usize << r.below(64),
    };
}

/// A state of numbers that are each made anew.
fn made<T: Piece>(number: impl FnMut() -> usize) -> State<T> {
    let numbers: Vec<usize> = std::iter::repeat_with(number)
        .take(T::PENDING + 6)
        .collect();
    State::of(&numbers)
}

/// A sound state, then up to three numbers off; or numbers all small; or near the limit with sums that hold; or sums that wrap.
pub fn decoder<T: Tested>(run: &mut Run) -> State<T> {
    let length = run.random.below(40);
    let text = T::text(&mut run.random, length);
    let room = run.random.pick(&[0, 1, 2, 31, 4_096]);
    let fed: Fed<T, u8> = State::fresh(room).feed(&text, usize::MAX, usize::MAX);
    let mut state = fed.state;
    match run.random.below(8) {
        0 => {
            let mut some = || run.random.below(9);
            (state.whole, state.damaged, state.count) = (some(), some(), some());
        }
        1 => state = made(|| run.random.below(4)),
        2 => {
            let more = LIMIT - state.taken - run.random.below(5);
            state.taken += more;
            state.whole += more;
        }
        3 => {
            state.damaged = state.taken - state.pending + 1 + run.random.below(5);
            state.count = state.damaged;
            state.whole = (state.taken - state.pending).wrapping_sub(state.damaged);
        }
        _ => {}
    }
    let mut numbers = state.numbers();
    for _ in 0..run.random.below(3) {
        off(run, &mut numbers);
    }
    State::of(&numbers)
}

/// What a call lends to a state: a piece, places of output and numbers of a list.
struct Lent<T> {
    piece: Vec<T>,
    out: usize,
    list: usize,
}

fn lent<T: Tested>(run: &mut Run, state: State<T>) -> Lent<T> {
    let length = run.random.below(12);
    let piece = T::text(&mut run.random, length);
    let list = match run.random.below(4) {
        0 => run.random.below(4 * ENTRY),
        _ => ENTRY * state.room.min(4_097),
    };
    let out = run.random.below(3 * piece.len() + 12);
    Lent { piece, out, list }
}

/// Where a held number is no element, nothing is called.
fn no_state<T, U>(run: &mut Run, decoding: Decoding<T, U>, state: State<T>, lent: &Lent<T>)
where
    T: Piece,
    U: Form,
{
    let (mut out, mut list) = (filled::<U>(lent.out), filled::<u32>(lent.list));
    let fed = decoding.feed(state, &lent.piece, &mut out, &mut list);
    assert_eq!(fed, (vec![NOT_CALLED], state), "{}", decoding.name);
    let finished = decoding.finish(state, &mut out, &mut list);
    assert_eq!(finished, (vec![NOT_CALLED], state), "{}", decoding.name);
    assert!(out == filled::<U>(lent.out) && list == filled::<u32>(lent.list));
    run.cases += 2;
}

/// Feed and finish of a state, with what is lent.
fn compare_lent<T, U>(run: &mut Run, decoding: Decoding<T, U>, state: State<T>, lent: &Lent<T>)
where
    T: Piece,
    U: Form,
{
    let highest = T::of(usize::MAX).into();
    if state.held.as_ref().iter().any(|&e| e > highest) {
        return no_state(run, decoding, state, lent);
    }
    let mut list = filled::<u32>(lent.list);
    for piece in [Some(&lent.piece[..]), None] {
        let tried = Tried {
            decoding,
            state,
            piece,
            out: lent.out,
            list: lent.list,
        };
        tried.compare(&mut list, || {
            let (out, list) = (lent.out, lent.list);
            format!("{state:?}, piece {piece:02X?}, {out} places, list {list}")
        });
        run.cases += 1;
    }
}

/// States of some held numbers, where all other tests hold, or the limit is passed, or the sum holds only as it wraps; then each with one
/// number one less or more. The list is too short for the most room, so that a sound state of it is refused too, by another number.
fn compare_each<T, U>(run: &mut Run, decoding: Decoding<T, U>, held: &[T::Held], piece: &[T])
where
    T: Piece,
    U: Form,
{
    let lent = Lent {
        piece: piece.to_vec(),
        out: most::<U>(piece.len()),
        list: ENTRY,
    };
    let most_whole = LIMIT - 2 * T::DAMAGE;
    for &held in held {
        for (pending, room) in (0..=T::PENDING + 1).flat_map(|n| [(n, 1), (n, ROOM)]) {
            for whole in [
                0,
                most_whole - pending,
                most_whole - pending + 1,
                usize::MAX,
            ] {
                let (damaged, count) = (2 * T::DAMAGE, 2);
                let taken = whole.wrapping_add(damaged + pending);
                let mut numbers = held.as_ref().to_vec();
                numbers.extend([pending, taken, whole, damaged, count, room]);
                compare_lent(run, decoding, State::of(&numbers), &lent);
                for i in 0..numbers.len() {
                    for off in [numbers[i].wrapping_sub(1), numbers[i].wrapping_add(1)] {
                        let mut numbers = numbers.clone();
                        numbers[i] = off;
                        compare_lent(run, decoding, State::of(&numbers), &lent);
                    }
                }
            }
        }
    }
}

/// States near sound ones, and then of any numbers, of which the held ones may be elements.
fn compare_decoders<T, U>(
    run: &mut Run,
    decoding: Decoding<T, U>,
    rounds: usize,
    also: fn(&mut Run, State<T>),
) where
    T: Tested,
    U: Form,
{
    for round in 0..run.rounds(rounds + rounds / 10) {
        let mut state: State<T> = match round % 11 {
            0 => made(|| run.random.next() as usize),
            _ => decoder(run),
        };
        if round % 22 == 0 {
            state.held = hold(&elements::<T>(state.held.as_ref()));
        }
        let lent = lent(run, state);
        compare_lent(run, decoding, state, &lent);
        also(run, state);
    }
}

/// The watch of a state, by value.
fn watched(run: &mut Run, state: Decoder) {
    let b = run.random.pick(&INTERESTING);
    let expected = if state.held.iter().any(|&b| b > 255) {
        (NOT_CALLED, state)
    } else {
        state.watch(b)
    };
    assert_eq!(calls::watch_step(state, b), expected, "{state:?}, {b:02X}");
    run.cases += 1;
}

/// Nothing, beginnings of sequences of each length, and what is none: whole, 0D, damage, or behind an unused place.
const HELD_BYTES: [[usize; 3]; 11] = [
    [0, 0, 0],
    [0x41, 0, 0],
    [0x0D, 0, 0],
    [0x0D, 0x0A, 0],
    [0x80, 0, 0],
    [0xC3, 0, 0],
    [0xE2, 0x82, 0],
    [0xED, 0xA0, 0],
    [0xE2, 0x82, 0xAC],
    [0xF0, 0x9F, 0x9A],
    [0, 0xE2, 0],
];

/// Around first halves, around second ones, and nothing.
const HELD_UNITS: [[usize; 1]; 9] = [
    [0],
    [0x41],
    [0xD7FF],
    [0xD800],
    [0xD83D],
    [0xDBFF],
    [0xDC00],
    [0xDFFF],
    [0xFFFF],
];

/// Every three interesting bytes in the held places, with each number of them pending, and one more.
fn every_held() -> impl Iterator<Item = ([usize; 3], usize)> {
    let bytes = every_short(&INTERESTING, 3).filter(|bytes| bytes.len() == 3);
    bytes.flat_map(|bytes| (0..=4).map(move |pending| (hold(&bytes), pending)))
}

/// States of all these, where every other test holds.
fn compare_held<U: Form>(run: &mut Run, decoding: Decoding<u8, U>, also: fn(&mut Run, Decoder)) {
    let lent = Lent {
        piece: b"\n\xE2".to_vec(),
        out: 12,
        list: ENTRY,
    };
    for (held, pending) in every_held() {
        let state = State {
            held,
            pending,
            taken: 6 + pending,
            whole: 4,
            damaged: 2,
            count: 1,
            room: 1,
        };
        compare_lent(run, decoding, state, &lent);
        also(run, state);
    }
}

pub fn decoders(run: &mut Run) {
    compare_decoders(run, PIECES, 40_000, watched);
    compare_each(run, PIECES, &HELD_BYTES, b"\x9A\xE2");
    compare_held(run, PIECES, watched);
}

pub fn unit_decoders(run: &mut Run) {
    compare_decoders(run, UNIT_PIECES, 10_000, |_, _| ());
    compare_each(run, UNIT_PIECES, &HELD_UNITS, &[0xDE86, 0xD83D]);
}

pub fn decoders_to_units(run: &mut Run) {
    compare_decoders(run, PIECES_TO_UNITS, 10_000, |_, _| ());
    compare_each(run, PIECES_TO_UNITS, &HELD_BYTES, b"\x9A\xE2");
    compare_held(run, PIECES_TO_UNITS, |_, _| ());
}

/// As with decoders; now and then 0D is the last that was taken.
fn builder(run: &mut Run) -> Builder {
    let length = run.random.below(300);
    let mut text = run.random.mixture(length);
    if run.random.below(8) == 0 {
        text.push(0x0D);
    }
    let mut numbers = Builder::fresh().feed(&text, usize::MAX).state.numbers();
    match run.random.below(8) {
        0 => numbers[5..8]
            .iter_mut()
            .for_each(|n| *n = run.random.below(9)),
        1 => numbers = numbers.map(|_| run.random.below(4)),
        2 => numbers[4] = LIMIT - run.random.below(5),
        _ => {}
    }
    for _ in 0..run.random.below(3) {
        off(run, &mut numbers);
    }
    Builder::of(&numbers)
}

fn compare_builder(run: &mut Run, state: Builder) {
    let length = run.random.below(12);
    let mut piece = run.random.mixture(length);
    if run.random.below(8) == 0 {
        piece.insert(0, 0x0A);
    }
    let wanted = need(state.taken.min(3_000) + piece.len());
    let lent = match run.random.below(4) {
        0 => run.random.below(wanted),
        _ => wanted,
    };
    let mut row = filled::<u32>(lent);
    let about = || format!("{state:?}, piece {piece:02X?}, index of {lent}");
    if state.held.iter().any(|&b| b > 255) {
        let got = calls::build_feed(state, &piece, &mut row);
        assert_eq!(got, (vec![NOT_CALLED], state), "{}", about());
        assert!(row == filled::<u32>(lent), "{}", about());
        run.cases += 1;
        return;
    }
    try_build(state, Some(&piece), &mut row, lent, about);
    try_build(state, None, &mut row, lent, about);
    run.cases += 2;
}

/// Builders that hold every three interesting bytes, where every other test holds: pending 0D is granted alone, and refused with another byte.
fn compare_held_builders(run: &mut Run) {
    let mut row = filled::<u32>(5);
    for (held, pending) in every_held() {
        let state = Builder {
            held,
            pending,
            taken: 5 + pending,
            units: 4,
            points: 3,
            lines: 2,
        };
        for piece in [Some(b"\n".as_slice()), Some(b"\x80\r"), Some(b""), None] {
            try_build(state, piece, &mut row, 4, || {
                format!("{state:?}, {piece:02X?}")
            });
            run.cases += 1;
        }
    }
}

/// Builders that hold bytes of each sort, where nothing else is taken, or some, or all that may be; then each with one number one less or more.
fn compare_near_builders(run: &mut Run) {
    let held = HELD_BYTES.into_iter();
    for ([a, b, c], n) in held.flat_map(|held| (0..=4).map(move |n| (held, n))) {
        for [taken, units, points, lines] in [[n, 0, 0, 0], [9, 5, 5, 5], [LIMIT, 3, 2, 1]] {
            let numbers = [a, b, c, n, taken, units, points, lines];
            compare_builder(run, Builder::of(&numbers));
            for i in 0..numbers.len() {
                for off in [numbers[i].wrapping_sub(1), numbers[i].wrapping_add(1)] {
                    let mut numbers = numbers;
                    numbers[i] = off;
                    compare_builder(run, Builder::of(&numbers));
                }
            }
        }
    }
}

pub fn builders(run: &mut Run) {
    compare_held_builders(run);
    compare_near_builders(run);
    for _ in 0..run.rounds(40_000) {
        let state = builder(run);
        compare_builder(run, state);
    }
    for _ in 0..run.rounds(4_000) {
        let numbers = [0; 8].map(|_| run.random.next() as usize);
        compare_builder(run, Builder::of(&numbers));
    }
}
