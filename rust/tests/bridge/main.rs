//! The library from outside: every wrapper of the crates `bridge_texts` and `bridge_places` against a model that is written from the paper.
//!
//! Prints how many cases were compared. An argument names the subjects to run; MOXANDRIL_ROUNDS makes a longer run.
mod calls;
mod causes;
mod classes;
mod codecs;
#[path = "../common/mod.rs"]
mod common;
mod conversions;
mod courses;
mod cutting;
mod cuttings;
mod edges;
mod limits;
mod lines;
mod lookups;
mod pages;
mod pending;
mod phrases;
mod pieces;
mod room;
mod states;
mod watch;

use common::Random;
use std::panic::{catch_unwind, AssertUnwindSafe};
use std::process::ExitCode;
use std::sync::atomic::{AtomicU64, AtomicUsize, Ordering};
use std::time::Instant;

/// A subject's own random numbers, and how many cases it has compared.
pub struct Run {
    pub random: Random,
    pub cases: u64,
    rounds: usize,
}

impl Run {
    /// So many rounds of a usual run, in proportion to the rounds asked for.
    pub fn rounds(&self, usual: usize) -> usize {
        (usual as u128 * self.rounds as u128 / USUAL as u128).max(1) as usize
    }
}

const USUAL: usize = 1_000_000;

type Subject = (&'static str, fn(&mut Run));

/// The subjects, the longest first, so that the last to end are short.
const SUBJECTS: [Subject; 48] = [
    ("lines of short texts, looked up", lines::looked_up),
    ("lines near multiples of 256", lines::near_multiples),
    ("lines of short texts, in two pieces", lines::built_in_two),
    (
        "phrases over two and three letters",
        phrases::of_few_letters,
    ),
    ("phrases in periodic texts", phrases::in_periodic_texts),
    ("limits of lookups and the builder", limits::lookups),
    ("limits of conversions", limits::conversions),
    ("limits of phrases", limits::phrases),
    ("phrases in damaged entries", phrases::in_damaged_entries),
    ("limits of pieces", limits::pieces),
    ("limits of pages", limits::pages),
    ("pages beside Python's codecs", codecs::all),
    ("pages in blocks", pages::in_blocks),
    ("pages of short texts", pages::short),
    ("pages of short texts, back", pages::short_back),
    ("pages refused at every place", pages::refused),
    ("pages of random texts", pages::random),
    ("lines of up to four bytes", lines::of_four),
    ("lines in blocks", lines::in_blocks),
    ("lines in runs", lines::in_runs),
    ("lines by all scalar values", lines::of_all_values),
    ("lookups in falsified indexes", lookups::falsified),
    ("lookups at every offset", lookups::every_offset),
    ("lookups in long texts", lookups::long_texts),
    ("repair in pieces", pieces::repair),
    ("units in pieces", pieces::units),
    ("bytes in pieces, as units", pieces::to_units),
    ("every cutting of units", cuttings::of_units),
    ("every cutting of bytes, as units", cuttings::to_units),
    ("causes of bytes", causes::of_bytes),
    ("the builder in pieces", pieces::build),
    ("block edges", edges::all),
    ("runs and cuts near their edges", edges::in_pieces),
    ("block edges of units in pieces", edges::unit_pieces),
    ("block edges of bytes, as units", edges::pieces_to_units),
    ("states of a decoder", states::decoders),
    ("states of a decoder of units", states::unit_decoders),
    ("states of a decoder to units", states::decoders_to_units),
    ("states of a builder", states::builders),
    ("the watch over a lent state", watch::all),
    ("conversions of random texts", conversions::random),
    ("conversions of short texts", conversions::short),
    ("causes of units", causes::of_units),
    ("cutting", cutting::all),
    ("pending bytes", pending::all),
    ("the most places", room::all),
    ("a lent table of classes", classes::all),
    ("causes of code points", causes::of_codes),
];

/// Runs a subject; says whether it passed. The seed and the number of the case are enough to repeat a failure.
fn passes((name, subject): Subject, number: usize, rounds: usize, total: &AtomicU64) -> bool {
    let seed = 0x9E37_79B9_7F4A_7C15_u64.wrapping_mul(2 * number as u64 + 1);
    let mut run = Run {
        random: Random(seed),
        cases: 0,
        rounds,
    };
    let start = Instant::now();
    let passed = catch_unwind(AssertUnwindSafe(|| subject(&mut run))).is_ok();
    total.fetch_add(run.cases, Ordering::Relaxed);
    let seconds = start.elapsed().as_secs_f64();
    if passed {
        println!("{name}: {} cases, {seconds:.1} s", run.cases);
    } else {
        println!("{name}: FAILED after {} cases, seed {seed:#X}", run.cases);
    }
    passed
}

fn main() -> ExitCode {
    let rounds = std::env::var("MOXANDRIL_ROUNDS")
        .ok()
        .and_then(|n| n.parse().ok());
    let wanted: Vec<String> = std::env::args()
        .skip(1)
        .filter(|a| !a.starts_with('-'))
        .collect();
    let (next, total, failed) = (AtomicUsize::new(0), AtomicU64::new(0), AtomicUsize::new(0));
    let start = Instant::now();
    let work = || loop {
        let number = next.fetch_add(1, Ordering::Relaxed);
        let Some(&subject) = SUBJECTS.get(number) else {
            return;
        };
        let chosen = wanted.is_empty() || wanted.iter().any(|w| subject.0.contains(w.as_str()));
        if chosen && !passes(subject, number, rounds.unwrap_or(USUAL), &total) {
            failed.fetch_add(1, Ordering::Relaxed);
        }
    };
    let threads = std::thread::available_parallelism().map_or(2, |n| n.get());
    std::thread::scope(|scope| (0..threads).for_each(|_| drop(scope.spawn(work))));
    let seconds = start.elapsed().as_secs_f64();
    println!("cases: {} in {seconds:.1} s", total.into_inner());
    match failed.into_inner() {
        0 => ExitCode::SUCCESS,
        n => {
            println!("subjects failed: {n}");
            ExitCode::FAILURE
        }
    }
}
