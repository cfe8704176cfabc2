//! Growth: time per byte at three sizes, and of an indexed lookup at two.
use crate::inputs::{self, Random};
use crate::measure::alone;
use crate::meter::keep;
use crate::{calls, peers};
use std::hint::black_box;

pub const SIZES: [usize; 3] = [64 << 10, 1 << 20, 16 << 20];
pub const LOOKUP_SIZES: [usize; 2] = [64 << 10, 16 << 20];

/// Nanoseconds a byte at each size.
pub struct PerByte {
    pub job: &'static str,
    pub nanoseconds: [f64; 3],
}

fn per_byte(job: &'static str, text: &[u8], mut body: impl FnMut(&[u8])) -> PerByte {
    let nanoseconds = SIZES.map(|size| {
        let part = &text[..size.min(text.len())];
        alone(&mut || body(black_box(part))) * 1e9 / part.len() as f64
    });
    PerByte { job, nanoseconds }
}

/// Check, repair, conversion and build of beginnings of one mixed text.
pub fn calls_by_size() -> Vec<PerByte> {
    let text = inputs::text(inputs::MARKUP, SIZES[2]);
    let mut out = vec![0u8; 3 * text.len()];
    let mut units = vec![0u16; text.len()];
    let mut row = vec![0u32; calls::index_size(text.len())];
    vec![
        per_byte("strict check", &text, |t| keep(calls::check(t))),
        per_byte("repair", &text, |t| keep(calls::repair(t, &mut out))),
        per_byte("bytes to units", &text, |t| {
            keep(calls::repair_to_units(t, &mut units))
        }),
        per_byte("index build", &text, |t| keep(calls::build(t, &mut row))),
    ]
}

/// Nanoseconds of one indexed lookup, over a hundred random units of a text of each size.
pub fn lookup_by_size() -> [f64; 2] {
    LOOKUP_SIZES.map(|size| {
        let text = inputs::text(inputs::MARKUP, size);
        let mut row = vec![0u32; calls::index_size(text.len())];
        calls::build(&text, &mut row);
        let ([end, _, _], mut random) = (peers::count(&text), Random::new(size as u64));
        let offsets: Vec<usize> = (0..100).map(|_| random.below(end)).collect();
        let mut all = || {
            for &offset in &offsets {
                black_box(calls::index_unit(black_box(&text), &row, offset));
            }
        };
        alone(&mut all) * 1e9 / 100.0
    })
}
