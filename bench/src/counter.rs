//! Counting the instructions of two bodies, by the plug-in count.c of the emulator that this program then runs under.
use crate::meter::{Meter, Pair};
use crate::shelf::PAGE;
use std::path::{Path, PathBuf};

/// The descriptor whose closing the plug-in takes for a mark; no file has it, so that nothing is closed.
const MARK: i32 = -0x6d6f78;
/// The parameter of the C library from which size on a buffer gets pages of its own.
const OWN_PAGES: i32 = -3;

extern "C" {
    fn close(descriptor: i32) -> i32;
    fn mallopt(parameter: i32, value: i32) -> i32;
}

fn mark() {
    // SAFETY: no file has the descriptor.
    unsafe { close(MARK) };
}

/// The number in the last line of a file that the plug-in writes.
pub fn last_count(file: &Path) -> u64 {
    let lines = std::fs::read_to_string(file).unwrap_or_default();
    let last = lines.lines().last().and_then(|line| line.parse().ok());
    last.unwrap_or_else(|| panic!("{} has no count: run tools/count", file.display()))
}

pub struct Counter {
    counts: PathBuf,
    /// what is counted of an empty body
    around: u64,
}

impl Counter {
    /// Reads the counts from the plug-in's file. What a peer allocates stands alike in its pages from now on.
    pub fn new(counts: PathBuf) -> Counter {
        // SAFETY: the call sets a number of the allocator alone.
        unsafe { mallopt(OWN_PAGES, PAGE as i32) };
        let mut counter = Counter { counts, around: 0 };
        counter.around = counter.count(&mut || {});
        counter
    }

    /// The instructions of a body's second run.
    fn count(&self, body: &mut dyn FnMut()) -> u64 {
        body();
        mark();
        body();
        mark();
        last_count(&self.counts) - self.around
    }
}

impl Meter for Counter {
    fn pair(&mut self, ours: &mut dyn FnMut(), peer: &mut dyn FnMut()) -> Pair {
        let (ours, peer) = (self.count(ours) as f64, self.count(peer) as f64);
        Pair {
            ours,
            peer,
            ratio: peer / ours,
        }
    }
}
