//! What is pending between two pieces, of bytes or of units: numbers in the held places of a state.
use super::forms::{segments, Form};
use crate::common::is_beginning;

/// A form of text that may come in pieces.
pub trait Piece: Form + Eq + Into<usize> {
    /// The held places of a state.
    type Held: Copy + std::fmt::Debug + Default + Eq + AsRef<[usize]> + AsMut<[usize]>;
    /// The most elements that can be pending: as many as there are held places.
    const PENDING: usize;
    /// The most elements of one damage.
    const DAMAGE: usize;
    /// The element that a number is, by its last bits.
    fn of(number: usize) -> Self;
    /// Are these nothing, or a proper beginning of a well-formed sequence?
    fn is_begun(left: &[Self]) -> bool;
}

impl Piece for u8 {
    type Held = [usize; 3];
    const PENDING: usize = 3;
    const DAMAGE: usize = 3;

    fn of(number: usize) -> u8 {
        number as u8
    }

    fn is_begun(left: &[u8]) -> bool {
        is_beginning(left)
    }
}

impl Piece for u16 {
    type Held = [usize; 1];
    const PENDING: usize = 1;
    const DAMAGE: usize = 1;

    fn of(number: usize) -> u16 {
        number as u16
    }

    /// Nothing, or the first half of a pair.
    fn is_begun(left: &[u16]) -> bool {
        matches!(left, [] | [0xD800..=0xDBFF])
    }
}

/// Are n of these numbers pending elements, and the others 0?
pub fn is_tail<T: Piece>(held: T::Held, n: usize) -> bool {
    let held = held.as_ref();
    n <= T::PENDING && T::is_begun(&elements(&held[..n])) && held[n..].iter().all(|&e| e == 0)
}

/// The elements that numbers are.
pub fn elements<T: Piece>(numbers: &[usize]) -> Vec<T> {
    numbers.iter().map(|&n| T::of(n)).collect()
}

/// The first elements in the held places, 0 for each one missing.
pub fn hold<T: Piece>(left: &[T]) -> T::Held {
    let mut held = T::Held::default();
    for (place, &e) in held.as_mut().iter_mut().zip(left) {
        *place = e.into();
    }
    held
}

/// The pending elements and a piece behind them: all up to the last settled place, and what is then pending.
pub fn joined<T: Piece>(held: T::Held, pending: usize, piece: &[T]) -> (Vec<T>, Vec<T>) {
    let mut stretch = elements(&held.as_ref()[..pending]);
    stretch.extend_from_slice(piece);
    let left = segments(&stretch)
        .last()
        .map_or(0, |(_, s)| if s.sure { 0 } else { s.length });
    let tail = stretch.split_off(stretch.len() - left);
    (stretch, tail)
}
