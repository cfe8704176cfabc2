//! Lines as the senders write them: they end after 0A, after 0D unless 0A follows, and after C2 85, E2 80 A8 and E2 80 A9. Every short text of
//! the bytes of line ends, such texts around multiples of 256, and line ends of every sort at every place of a block and in runs.
use crate::calls::*;
use crate::common::model::index::{built, need, Builder};
use crate::common::model::places::{among, last, places, resume, Place, BYTES, LINES};
use crate::common::texts::{every_short, LINE_BYTES, LINE_ENDS};
use crate::courses::{decode_course, Course};
use crate::lookups;
use crate::pieces::{build_course, try_build};
use crate::Run;

/// Every offset up to one past the end of a text, in each measure.
fn offsets(text: &[u8]) -> impl Iterator<Item = (usize, usize)> {
    (0..=text.len() + 1).flat_map(|offset| [0, 1, 2, 3].map(|measure| (offset, measure)))
}

/// Every text of up to seven bytes, looked up.
pub fn looked_up(run: &mut Run) {
    for text in every_short(&LINE_BYTES, 7) {
        let found = places([0; 4], &text);
        for (offset, measure) in offsets(&text) {
            assert_eq!(
                looks(PLAIN[measure], &text, offset, 8),
                among(&found, measure, offset),
                "measure {measure}, offset {offset}, of {text:02X?}"
            );
            run.cases += 1;
        }
    }
}

/// A text that grows byte by byte, and the model's states behind its beginnings, from the empty one on.
struct Grown {
    text: Vec<u8>,
    states: Vec<Builder>,
}

/// An index of any numbers, of which the inner ones are lent, and what each call leaves of it for a short text: checkpoint 0 alone is written.
const BEFORE: [u32; 9] = [91, 92, 93, 94, 95, 96, 97, 98, 99];
const AFTER: [u32; 9] = [91, 92, 0, 0, 0, 0, 97, 98, 99];

impl Grown {
    /// One call of the builder, from a state to another.
    fn call(&self, run: &mut Run, from: Builder, piece: Option<&[u8]>, to: Builder) {
        let mut row = BEFORE;
        let lent = &mut row[2..8];
        let got = match piece {
            Some(piece) => build_feed(from, piece, lent),
            None => build_finish(from, lent),
        };
        let text = &self.text;
        assert_eq!(got, (vec![0], to), "{piece:02X?} of {text:02X?}, {from:?}");
        assert_eq!(row, AFTER, "{piece:02X?} of {text:02X?}, {from:?}");
        run.cases += 1;
    }

    /// The text in every cutting into two, and its end: each call's answer and state, and the index. What the first piece does is what a shorter
    /// text in one piece does, and was tried with it.
    fn in_two(&self, run: &mut Run) {
        let (fresh, all) = (self.states[0], self.states[self.text.len()]);
        for (cut, &behind) in self.states.iter().enumerate() {
            self.call(run, behind, Some(&self.text[cut..]), all);
        }
        self.call(run, all, None, fresh);
    }

    /// This text, and then all up to a length that begin with it.
    fn grow(&mut self, run: &mut Run, longest: usize) {
        self.in_two(run);
        if self.text.len() == longest {
            return;
        }
        for b in LINE_BYTES {
            self.text.push(b);
            let fed = Builder::fresh().feed(&self.text, need(longest));
            self.states.push(fed.state);
            self.grow(run, longest);
            self.states.pop();
            self.text.pop();
        }
    }
}

/// Every text of up to seven bytes, built in every cutting into two.
pub fn built_in_two(run: &mut Run) {
    let mut grown = Grown {
        text: vec![],
        states: vec![Builder::fresh()],
    };
    grown.grow(run, 7);
}

/// From each place of a text on, by each measure, at each offset.
fn from_places(run: &mut Run, text: &[u8]) {
    for from in places([0; 4], text) {
        let rest = &text[from[BYTES]..];
        for (offset, kind) in offsets(text) {
            let calls: [Goes; 2] = [bridge_places_resume, bridge_places_last];
            let got = calls.map(|call| goes(call, rest, from, kind, offset));
            let expected = [resume, last].map(|model| model(rest, from, kind, offset));
            assert_eq!(
                got, expected,
                "from {from:?}, kind {kind}, offset {offset}, of {rest:02X?}"
            );
            run.cases += 2;
        }
    }
}

/// Every text of up to four bytes: looked up in its index and from each place on, built in every cutting into three, empty pieces included;
/// and of the decoders, in which 0D is never pending, in every cutting into two.
pub fn of_four(run: &mut Run) {
    for text in every_short(&LINE_BYTES, 4) {
        lookups::every(run, &text);
        from_places(run, &text);
        let (text, n, room) = (&text[..], text.len(), 2);
        for first in 0..=n {
            let cuts = &[first, n];
            decode_course(run, PIECES, &Course { text, cuts, room });
            decode_course(run, PIECES_TO_UNITS, &Course { text, cuts, room });
            for second in first..=n {
                let cuts = &[first, second, n];
                build_course(run, &Course { text, cuts, room });
            }
        }
    }
}

/// So many bytes of a letter or a damage, behind an A where they do not fill it.
fn fill(filler: &[u8], n: usize) -> Vec<u8> {
    let mut text = vec![b'A'; n % filler.len()];
    text.extend(filler.repeat(n / filler.len()));
    text
}

/// A text in one piece; and from the state behind its beginning on, cut at each offset.
fn around(run: &mut Run, text: &[u8], state: Builder) {
    let (n, room) = (text.len(), 0);
    let cuts = &[n];
    build_course(run, &Course { text, cuts, room });
    let mut row = filled::<u32>(need(n));
    for cut in state.taken..=n {
        let about = || format!("{state:?}, cut at {cut}, of {text:02X?}");
        let pieces = [Some(&text[state.taken..cut]), Some(&text[cut..]), None];
        pieces.into_iter().fold(state, |state, piece| {
            run.cases += 1;
            try_build(state, piece, &mut row, need(n), about)
        });
    }
    let from = need(state.taken - state.pending);
    assert!(
        inner(&mut row)[from..] == built(text)[from..],
        "built from {state:?} on, of {text:02X?}"
    );
}

/// Each count of the places near the end of a text, plain and in its index.
fn found_around(run: &mut Run, text: &[u8], found: &[Place], row: &[u32]) {
    let near = &found[found.len().saturating_sub(14)..];
    for measure in 0..4 {
        for offset in near[0][measure]..=near[near.len() - 1][measure] + 1 {
            let plain = looks(PLAIN[measure], text, offset, 8);
            let indexed = finds(INDEXED[measure], text, row, offset, 8);
            let expected = among(found, measure, offset);
            assert_eq!(
                [&plain, &indexed],
                [&expected; 2],
                "measure {measure}, offset {offset}, of {text:02X?}"
            );
            run.cases += 2;
        }
    }
}

/// The audit of an index, and of others in which a checkpoint has one line more or less.
fn audited(run: &mut Run, text: &[u8], row: &[u32]) {
    assert_eq!(audit(text, row), 1, "index {row:?}, of {text:02X?}");
    for at in (LINES..row.len()).step_by(4) {
        for off in [row[at] + 1, row[at].wrapping_sub(1)] {
            let mut row = row.to_vec();
            row[at] = off;
            assert_eq!(audit(text, &row), 0, "index {row:?}, of {text:02X?}");
            run.cases += 1;
        }
    }
    run.cases += 1;
}

/// The state behind the beginning of a text.
fn begun(run: &mut Run, text: &[u8]) -> Builder {
    let (fresh, needed) = (Builder::fresh(), need(text.len()));
    let mut row = filled::<u32>(needed);
    run.cases += 1;
    try_build(fresh, Some(text), &mut row, needed, || {
        format!("{text:02X?}")
    })
}

/// Behind a filler that ends up to three bytes from a multiple of 256, every short text, and then more of the filler or nothing.
fn near(run: &mut Run, multiple: usize, longest: u32) {
    for filler in [b"A".as_slice(), b"\xC3\xA9", b"\x80", b"\xE2\x82"] {
        for before in multiple - 3..=multiple + 3 {
            let start = fill(filler, before);
            let state = begun(run, &start[..multiple - 4]);
            for short in every_short(&LINE_BYTES, longest) {
                for behind in [0, 4] {
                    let text = [&start, &short, &fill(filler, behind)[..]].concat();
                    let (found, row) = (places([0; 4], &text), built(&text));
                    around(run, &text, state);
                    found_around(run, &text, &found, &row);
                    audited(run, &text, &row);
                }
            }
        }
    }
}

/// Texts around the first two multiples.
pub fn near_multiples(run: &mut Run) {
    near(run, 256, 3);
    near(run, 512, 2);
}

/// The lengths of pieces, around those of blocks and of spaces between checkpoints.
const SIZES: [usize; 10] = [1, 2, 3, 64, 127, 128, 129, 255, 256, 257];

/// A text in one piece, and in pieces of each size.
fn in_sizes(run: &mut Run, text: &[u8]) {
    for size in SIZES.into_iter().chain([text.len().max(1)]) {
        let all = (size..text.len()).step_by(size).chain([text.len()]);
        let cuts = &all.collect::<Vec<_>>()[..];
        let room = 0;
        build_course(run, &Course { text, cuts, room });
    }
}

/// Every line end, more than one of them, those cut short, and what stands beside them.
const PUTS: [&[u8]; 26] = [
    b"\n",
    b"\r",
    b"\r\n",
    b"\n\r",
    b"\r\r",
    b"\r\r\n",
    b"\r\n\n",
    b"\xC2\x85",
    b"\r\xC2\x85",
    b"\xE2\x80\xA8",
    b"\xE2\x80\xA9",
    b"\r\xE2\x80\xA9",
    b"\xE2\x80\xA8\n",
    b"\x0B",
    b"\x0C",
    b"\xC2",
    b"\xC2\x84",
    b"\xC2\x86",
    b"\xC3\x85",
    b"\r\x85\n",
    b"\xE2\x80",
    b"\x80\xA8",
    b"\xE2\x80\xA7",
    b"\xE2\x80\xAA",
    b"\xE2\x81\xA8",
    b"\xE3\x80\xA9",
];

/// Letters of each length.
const ALPHABET: [&[u8]; 4] = [b"A", b"\xC3\xA9", b"\xE4\xB8\x80", b"\xF0\x9F\x9A\x86"];

/// Each put at every place of two blocks among letters: in one piece, and cut before, in and behind it.
pub fn in_blocks(run: &mut Run) {
    for (put, letter) in PUTS
        .iter()
        .flat_map(|put| ALPHABET.map(|letter| (put, letter)))
    {
        for at in 0..=262 {
            let text = [&fill(letter, at), *put, &fill(letter, 135)].concat();
            let (text, n, room) = (&text[..], text.len(), 0);
            for cut in at..=at + put.len() {
                let cuts = &[cut, n];
                build_course(run, &Course { text, cuts, room });
            }
            let cuts = &[n];
            build_course(run, &Course { text, cuts, room });
            if at % 128 >= 124 {
                in_sizes(run, text);
            }
        }
    }
}

/// A text of line ends of every sort, their bytes and letters; of one sort more than of the others.
fn of_ends(run: &mut Run, length: usize) -> Vec<u8> {
    let (mut text, usual) = (Vec::new(), run.random.pick(&LINE_ENDS));
    while text.len() < length {
        match run.random.below(8) {
            0 => text.push(run.random.pick(&LINE_BYTES)),
            1 => text.extend(run.random.pick(&LINE_ENDS).bytes()),
            2 => text.extend(run.random.character(5).to_string().bytes()),
            _ => text.extend(usual.bytes()),
        }
    }
    text
}

/// Each put again and again, behind some letters, so that blocks end at each of its places; and line ends of every sort.
pub fn in_runs(run: &mut Run) {
    for (put, before) in PUTS.iter().flat_map(|put| (0..3).map(move |n| (put, n))) {
        for length in [259, 1_030, 3_001] {
            let mut text = vec![b'A'; before];
            text.extend(put.iter().cycle().take(length - before));
            in_sizes(run, &text);
        }
    }
    for _ in 0..run.rounds(60) {
        let length = run.random.below(4_000);
        let text = of_ends(run, length);
        in_sizes(run, &text);
    }
}

/// A text in one piece, and the place behind it.
fn counted(run: &mut Run, text: &[u8]) {
    let (cuts, room) = (&[text.len()], 0);
    build_course(run, &Course { text, cuts, room });
    lookups::plainly(run, text, BYTES, text.len());
}

/// Every scalar value alone and behind 0D, many in one text; and all that begins with 0D, C2 and E2, up to three bytes.
pub fn of_all_values(run: &mut Run) {
    let values: Vec<char> = ('\0'..=char::MAX).collect();
    for some in values.chunks(64) {
        counted(run, String::from_iter(some).as_bytes());
        let behind: String = some.iter().flat_map(|&c| ['\r', c]).collect();
        counted(run, behind.as_bytes());
    }
    for (first, second) in [0x0D, 0xC2, 0xE2]
        .into_iter()
        .flat_map(|a| (0..=255).map(move |b| (a, b)))
    {
        let text: Vec<u8> = (0..=255)
            .flat_map(|third| [first, second, third, b'A'])
            .collect();
        counted(run, &text);
    }
}
