//! What is measured of two bodies beside each other, whether a clock or a counter does it.
use std::hint::black_box;

/// What one run of each costs, in seconds or in instructions, and the peer's cost divided by ours.
pub struct Pair {
    pub ours: f64,
    pub peer: f64,
    pub ratio: f64,
}

pub trait Meter {
    fn pair(&mut self, ours: &mut dyn FnMut(), peer: &mut dyn FnMut()) -> Pair;
}

/// Keeps the compiler from leaving out what makes a value.
pub fn keep<T>(value: T) {
    black_box(value);
}
