//! What is to be reached: ratios of times by job, peer and text, the growth of the search, and instructions of repair in pieces.
use crate::inputs::*;
use crate::jobs::{Row, BUILD, CHECK, FROM_1, FROM_5, STREAMING};
use crate::phrases::ABSENT;

/// The shortest text that counts as one of 64 bytes: one that was cut at a character.
const SIXTY_FOUR: usize = 61;
/// The same for 24 bytes.
const TWENTY_FOUR: usize = 21;
/// The same for 1 MiB.
const LONG: usize = (1 << 20) - 3;

/// The texts on which repair in pieces is to execute few instructions.
pub const IN_PIECES: [&str; 6] = [ASCII, CYRILLIC, CJK, EMOJI, DAMAGED, RANDOM];
/// How many times the instructions of our whole repair its pieces may take.
pub const OVER_WHOLE: f64 = 1.3;
/// The most instructions of a piece of one byte.
pub const ONE_BYTE: f64 = 400.0;

/// How many times as long the search of a text may take that is twice as long.
pub const DOUBLED: f64 = 2.3;

/// Whether pieces of so many bytes take few enough instructions a byte, beside the streaming decoder's and our whole repair's.
pub fn few_enough(piece: usize, ours: f64, streaming: f64, whole: f64) -> bool {
    match piece {
        1 => ours <= ONE_BYTE,
        1_000.. => ours < streaming && ours <= OVER_WHOLE * whole,
        _ => ours < streaming,
    }
}

/// The least ratio of a row.
pub fn least(row: &Row) -> Option<f64> {
    let of_kind = if row.bytes < SIXTY_FOUR {
        None
    } else {
        of_kind(row)
    };
    of_kind.or_else(|| anywhere(row))
}

fn of_kind(row: &Row) -> Option<f64> {
    let least = match (row.job.name, row.job.peer, row.kind) {
        (CHECK, "std", ASCII) => 1.0,
        (CHECK, "std", CYRILLIC) => 20.0,
        (CHECK, "std", CJK) => 4.0,
        (CHECK, "std", EMOJI) => 1.8,
        (CHECK, "simdutf8", CYRILLIC) => 1.0,
        (CHECK, "simdutf8", ASCII | CJK) => 0.5,
        ("repair", "std lossy", ASCII | CYRILLIC) => 5.0,
        ("repair", "std lossy", CJK) => 2.5,
        ("repair", "std lossy", DAMAGED) => 1.3,
        (name, "encoding_rs", ASCII | CYRILLIC) if name.ends_with("repairing") => 1.0,
        (BUILD, "plain loop", RANDOM) => 1.0,
        (BUILD, "plain loop", kind) if CLEAN.contains(&kind) => 5.0,
        (BUILD, "plain loop", RETURNS | QUOTES) => 5.0,
        _ => return None,
    };
    Some(least)
}

fn anywhere(row: &Row) -> Option<f64> {
    match (row.job.name, row.job.peer) {
        (CHECK, "std") if row.bytes >= TWENTY_FOUR => Some(0.9),
        _ if row.bytes < SIXTY_FOUR => None,
        ("repair", "std lossy") => Some(0.8),
        ("repair", "encoding_rs") => Some(0.9),
        ("repair in pieces", STREAMING) if row.job.piece >= Some(1_000) => Some(1.0),
        (name, "encoding_rs") if name.ends_with("repairing") => Some(0.7),
        (FROM_1 | FROM_5, _) if row.bytes >= LONG => Some(1.0),
        (name, "std") if name.starts_with(ABSENT) && row.bytes >= LONG => Some(1.0),
        _ => None,
    }
}
