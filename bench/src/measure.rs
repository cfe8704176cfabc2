//! Measuring by time: one processor where it can be, two bodies in turn, the median of many samples.
use crate::meter::{Meter, Pair};
use std::time::Instant;

pub const SAMPLES: usize = 31;
const SHORTEST_SAMPLE: f64 = 300e-6;

extern "C" {
    fn sched_setaffinity(process: i32, size: usize, mask: *const u64) -> i32;
    fn sched_getcpu() -> i32;
}

/// Stays on the processor that it runs on; says whether that could be had.
pub fn pin() -> bool {
    // SAFETY: the mask is as long as is said, and is read alone.
    unsafe {
        let cpu = sched_getcpu();
        if !(0..1_024).contains(&cpu) {
            return false;
        }
        let mut mask = [0u64; 16];
        mask[cpu as usize / 64] = 1 << (cpu % 64);
        sched_setaffinity(0, 128, mask.as_ptr()) == 0
    }
}

/// Seconds for so many runs.
fn seconds(body: &mut dyn FnMut(), runs: usize) -> f64 {
    let start = Instant::now();
    (0..runs).for_each(|_| body());
    start.elapsed().as_secs_f64()
}

/// How many runs make a sample that is long enough to be timed.
fn runs_for(body: &mut dyn FnMut()) -> usize {
    let mut runs = 1;
    while seconds(body, runs) < SHORTEST_SAMPLE {
        runs *= 2;
    }
    runs
}

pub fn median(mut times: Vec<f64>) -> f64 {
    times.sort_by(f64::total_cmp);
    times[times.len() / 2]
}

/// Measures two bodies in turn: the median seconds of one run of each, and the median of the ratios of neighbouring samples, which a
/// processor that changes its speed disturbs least.
pub struct Clock;

impl Meter for Clock {
    /// Which goes first changes from sample to sample.
    fn pair(&mut self, ours: &mut dyn FnMut(), peer: &mut dyn FnMut()) -> Pair {
        let runs = (runs_for(ours), runs_for(peer));
        let (mut a, mut b) = (Vec::new(), Vec::new());
        for sample in 0..SAMPLES {
            if sample % 2 == 0 {
                a.push(seconds(ours, runs.0) / runs.0 as f64);
            }
            b.push(seconds(peer, runs.1) / runs.1 as f64);
            if sample % 2 == 1 {
                a.push(seconds(ours, runs.0) / runs.0 as f64);
            }
        }
        let ratios = a.iter().zip(&b).map(|(ours, peer)| peer / ours).collect();
        Pair {
            ours: median(a),
            peer: median(b),
            ratio: median(ratios),
        }
    }
}

/// Runs each body once, where a run takes so long that many would take too long.
pub struct Once;

impl Meter for Once {
    fn pair(&mut self, ours: &mut dyn FnMut(), peer: &mut dyn FnMut()) -> Pair {
        let (ours, peer) = (seconds(ours, 1), seconds(peer, 1));
        Pair {
            ours,
            peer,
            ratio: peer / ours,
        }
    }
}

/// The median seconds of one run.
pub fn alone(body: &mut dyn FnMut()) -> f64 {
    let runs = runs_for(body);
    median(
        (0..SAMPLES)
            .map(|_| seconds(body, runs) / runs as f64)
            .collect(),
    )
}
