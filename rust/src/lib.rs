//! Check and repair of UTF-8 byte texts, by two routines that are proved to do what they say.
//!
//! The routines are written in Rattle (crate `viewer` of this repository) and linked as a static library. This side only
//! hands slices over and reads the numbers that come back.

/// The most bytes that a text has.
pub const LIMIT: usize = 16_777_216;

const LARGEST: u64 = u64::MAX;

/// Why a call refuses, with its number.
#[derive(Clone, Copy, Debug, PartialEq, Eq)]
pub enum Refusal {
    /// 1: the text is not well-formed; its first damage.
    Damaged { start: usize, length: usize },
    /// 2: the text is over the limit.
    OverLimit,
    /// 3: the output has fewer places than needed.
    NoRoom,
}

impl Refusal {
    /// The refusal's number.
    pub fn number(self) -> u8 {
        match self {
            Refusal::Damaged { .. } => 1,
            Refusal::OverLimit => 2,
            Refusal::NoRoom => 3,
        }
    }
}

mod proved {
    // Nothing compares this declaration with the Rattle source but the tests: a slice passes as a pointer and a length.
    extern "C" {
        pub fn moxandril_check(text: *const u8, text_len: usize) -> u64;
        pub fn moxandril_repair(
            text: *const u8,
            text_len: usize,
            out: *mut u8,
            out_len: usize,
        ) -> u64;
    }
}

/// Is a text well-formed UTF-8? If not, its first damage is told.
pub fn check(text: &[u8]) -> Result<(), Refusal> {
    // SAFETY: the routine reads the slice alone, and has no other precondition.
    match unsafe { proved::moxandril_check(text.as_ptr(), text.len()) } {
        0 => Ok(()),
        LARGEST => Err(Refusal::OverLimit),
        n => Err(Refusal::Damaged {
            start: (n / 4) as usize,
            length: (n % 4) as usize,
        }),
    }
}

/// Writes a text's repaired form from the start of the output: whole segments as they are, U+FFFD for each damage. Answers how
/// many bytes were written; the places behind them, and on a refusal all places, keep what they held.
pub fn repair(text: &[u8], out: &mut [u8]) -> Result<usize, Refusal> {
    // SAFETY: the routine reads the one slice and writes the other alone, and has no other precondition.
    match unsafe {
        proved::moxandril_repair(text.as_ptr(), text.len(), out.as_mut_ptr(), out.len())
    } {
        LARGEST => Err(Refusal::OverLimit),
        n if n == LARGEST - 1 => Err(Refusal::NoRoom),
        n => Ok(n as usize),
    }
}
