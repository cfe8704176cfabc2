//! The functions of pending bytes, and slices that are too short to call anything with.
use crate::calls::{self, NOT_CALLED};
use crate::common::model::pending;
use crate::common::INTERESTING;
use crate::Run;

/// Three numbers, a count and a piece: near what a state holds, or anything.
fn held(run: &mut Run) -> ([usize; 3], usize) {
    let r = &mut run.random;
    let mut held = [0; 3];
    let n = r.below(5);
    for b in held.iter_mut().take(n) {
        *b = r.pick(&INTERESTING) as usize;
    }
    match r.below(20) {
        0 => held[r.below(3)] = 256 + r.below(300),
        1 => held[r.below(3)] = r.next() as usize,
        2 => held[r.below(3)] = r.below(256),
        _ => {}
    }
    (
        held,
        if r.below(30) == 0 {
            r.next() as usize
        } else {
            n
        },
    )
}

fn compare(run: &mut Run) {
    let (held, n) = held(run);
    let length = run.random.below(7);
    let piece = run.random.text(length);
    let are_bytes = held.iter().all(|&b| b < 256);
    let tail = calls::is_tail(&held, n);
    let seam = calls::seam_of(&held, n, &piece);
    if are_bytes {
        assert_eq!(
            tail,
            pending::is_tail::<u8>(held, n) as usize,
            "{n} of {held:02X?}"
        );
        let mut joined = pending::elements::<u8>(&held[..n.min(3)]);
        joined.extend(&piece);
        joined.truncate(4);
        let byte = |i| joined.get(i).map_or(0, |&b| b as usize);
        let expected = [joined.len(), byte(0), byte(1), byte(2), byte(3)];
        assert_eq!(seam, expected, "{n} of {held:02X?}, then {piece:02X?}");
    } else {
        assert_eq!((tail, seam), (NOT_CALLED, vec![NOT_CALLED]), "{held:02X?}");
    }
    assert_eq!(calls::hold(&piece), pending::hold(&piece), "{piece:02X?}");
    run.cases += 3;
}

/// How much of what stands first is settled, by its kind and its size: the same whatever its cause.
fn sizes(run: &mut Run) {
    for n in [0, 1, 2, 3, 4, 1_000, usize::MAX] {
        for cause in (0..=5).chain([u32::MAX]) {
            let kinds = [0, 1, 2, 3, 4, usize::MAX];
            let sizes = kinds.map(|kind| calls::settled_size(kind, n, cause));
            let expected = [0, n, n, 0, NOT_CALLED, NOT_CALLED];
            assert_eq!(sizes, expected, "size {n}, cause {cause}");
            run.cases += 6;
        }
    }
}

pub fn all(run: &mut Run) {
    for _ in 0..run.rounds(40_000) {
        compare(run);
    }
    sizes(run);
    let replies = calls::too_short();
    assert!(replies.iter().all(|&n| n == NOT_CALLED), "{replies:?}");
    run.cases += replies.len() as u64;
}
