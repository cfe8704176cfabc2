//! Cutting: the longest beginning within a maximum in bytes, units or code points.
use crate::calls::*;
use crate::common::model::places::cut;
use crate::common::model::LIMIT;
use crate::common::texts::{every_short, LINE_BYTES};
use crate::Run;

fn compare(run: &mut Run, text: &[u8], most: usize) {
    for measure in 0..3 {
        let got = cuts(CUT[measure], text, most);
        assert_eq!(
            got,
            cut(text, measure, most),
            "measure {measure}, at most {most}, of {text:02X?}"
        );
        run.cases += 1;
    }
}

/// A text has no limit here.
fn over_the_limit(run: &mut Run) {
    let mut text = vec![b'A'; LIMIT + 300];
    text.extend(b"\xE2\x82\xAC\xF0\x9F\x9A\x86");
    let all = text.len();
    let cases = [
        [usize::MAX, all, all, all],
        [LIMIT + 1, LIMIT + 1, LIMIT + 1, LIMIT + 1],
        [LIMIT + 302, LIMIT + 300, LIMIT + 303, all],
        [LIMIT + 306, LIMIT + 303, all, all],
    ];
    for [most, bytes, units, points] in cases {
        let got = CUT.map(|call| cuts(call, &text, most));
        assert_eq!(got, [bytes, units, points], "at most {most}");
        run.cases += 3;
    }
}

pub fn all(run: &mut Run) {
    for text in every_short(&LINE_BYTES, 4) {
        (0..=text.len() + 1).for_each(|most| compare(run, &text, most));
    }
    for _ in 0..run.rounds(300) {
        let length = run.random.below(120);
        let text = run.random.mixture(length);
        (0..=text.len() + 2).for_each(|most| compare(run, &text, most));
    }
    for _ in 0..run.rounds(400) {
        let length = run.random.below(5_000);
        let text = run.random.mixture(length);
        for most in [run.random.below(length + 9), usize::MAX, text.len()] {
            compare(run, &text, most);
        }
    }
    over_the_limit(run);
}
