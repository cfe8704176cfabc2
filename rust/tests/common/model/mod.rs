//! The library's answers as the paper says them, in plain Rust: what each call tells, writes and keeps.

pub mod decoder;
pub mod forms;
pub mod index;
pub mod pages;
pub mod pending;
pub mod phrases;
pub mod places;

/// The most bytes, units or code points of a text.
pub const LIMIT: usize = 16_777_216;
/// The most entries that a damage list has room for.
pub const ROOM: usize = 4_096;
/// How many numbers an entry of a damage list is: start, length and cause.
pub const ENTRY: usize = 3;

/// The numbers that an answer tells: the refusal's number and its values, or 0 and what was granted.
pub type Told = Vec<usize>;

/// Refusal 2, first of all where a text stands alone.
pub fn over_limit(length: usize) -> Option<Told> {
    (length > LIMIT).then(|| vec![2])
}
