//! The index: what is built, lookup in any numbers, the audit, and the builder in pieces.
use super::forms::{segments, Segment};
use super::pending::{elements, hold, is_tail};
use super::places::{places, walk, Place, BYTES, LINES};
use super::{over_limit, Told, LIMIT};

const SPACING: usize = 256;

/// How many numbers the index of a text of so many bytes has.
pub fn need(length: usize) -> usize {
    4 * (length / SPACING + 1)
}

/// Among places that rise, the last at or before each multiple from one number to another, four numbers each.
fn checkpoints(found: &[Place], from: usize, to: usize) -> Vec<u32> {
    let mut row = Vec::new();
    let mut i = 0;
    for k in from..=to {
        while found.get(i + 1).is_some_and(|p| p[BYTES] <= SPACING * k) {
            i += 1;
        }
        row.extend(found[i].map(|n| n as u32));
    }
    row
}

/// The index of a text.
pub fn built(text: &[u8]) -> Vec<u32> {
    checkpoints(&places([0; 4], text), 0, text.len() / SPACING)
}

/// Yes exactly if the first numbers are those of the built index.
pub fn audit(text: &[u8], row: &[u32]) -> bool {
    text.len() <= LIMIT && row.len() >= need(text.len()) && row[..need(text.len())] == built(text)
}

/// Checkpoint k.
fn checkpoint(row: &[u32], k: usize) -> Place {
    [0, 1, 2, 3].map(|i| row[4 * k + i] as usize)
}

/// The checkpoint that a lookup starts from.
fn choose(row: &[u32], n: usize, measure: usize, offset: usize) -> usize {
    if measure == BYTES {
        return offset / SPACING;
    }
    let (mut low, mut high) = (0, n);
    while high - low > 1 {
        let mid = (low + high) / 2;
        let number = checkpoint(row, mid)[measure];
        let goes_up = if measure == LINES {
            number < offset
        } else {
            number <= offset
        };
        if goes_up {
            low = mid;
        } else {
            high = mid;
        }
    }
    low
}

/// Indexed lookup, on any numbers.
pub fn lookup(text: &[u8], row: &[u32], measure: usize, offset: usize) -> Told {
    if let Some(told) = over_limit(text.len()) {
        return told;
    }
    if row.len() < need(text.len()) {
        return vec![3, need(text.len())];
    }
    if measure == BYTES && offset > text.len() {
        return vec![4];
    }
    let j = choose(row, text.len() / SPACING + 1, measure, offset);
    let p = checkpoint(row, j);
    let near = (SPACING * j).saturating_sub(3) <= p[BYTES] && p[BYTES] <= SPACING * j;
    if !near || p[1..].iter().any(|&n| n > LIMIT) || p[measure] > offset {
        return vec![6, j];
    }
    walk(p, &text[p[BYTES]..], measure, offset)
}

/// How many bytes at the end of a text that may go on are not settled: a proper beginning of a sequence, or a 0D with nothing behind it.
fn unsettled(text: &[u8]) -> usize {
    let is_open = |&(at, s): &(usize, Segment)| !s.sure || text[at..] == [0x0D];
    let last = segments(text).pop().filter(is_open);
    last.map_or(0, |(_, s)| s.length)
}

/// What the builder keeps between two pieces, in any numbers.
#[derive(Clone, Copy, Debug, PartialEq, Eq)]
pub struct Builder {
    pub held: [usize; 3],
    pub pending: usize,
    pub taken: usize,
    pub units: usize,
    pub points: usize,
    pub lines: usize,
}

/// What a call tells, the state afterwards, and the numbers that it writes: checkpoint 0, and those from another one on.
#[derive(Clone, Debug, PartialEq, Eq)]
pub struct Built {
    pub told: Told,
    pub state: Builder,
    pub later: Vec<u32>,
    pub from: usize,
}

impl Built {
    /// Writes into an index.
    pub fn write(&self, row: &mut [u32]) {
        if self.told == [0] {
            row[..4].fill(0);
            row[4 * self.from..][..self.later.len()].copy_from_slice(&self.later);
        }
    }
}

impl Builder {
    pub fn fresh() -> Builder {
        Builder::of(&[0; 8])
    }

    /// The state of eight numbers, and its numbers.
    pub fn of(n: &[usize]) -> Builder {
        Builder {
            held: [n[0], n[1], n[2]],
            pending: n[3],
            taken: n[4],
            units: n[5],
            points: n[6],
            lines: n[7],
        }
    }

    pub fn numbers(&self) -> [usize; 8] {
        let [a, b, c] = self.held;
        [
            a,
            b,
            c,
            self.pending,
            self.taken,
            self.units,
            self.points,
            self.lines,
        ]
    }

    /// The bytes that are pending.
    fn left(&self) -> Vec<u8> {
        elements(&self.held[..self.pending])
    }

    /// The state's tests. What may be pending in a decoder may be so here, and a lone 0D besides.
    pub fn is_sound(&self) -> bool {
        let is_return = self.pending == 1 && self.held == [0x0D, 0, 0];
        (is_return || is_tail::<u8>(self.held, self.pending))
            && self.taken <= LIMIT
            && self.pending <= self.taken
            && self.lines <= self.points
            && self.points <= self.units
            && self.units <= self.taken - self.pending
    }

    fn refuse(&self, told: Told) -> Built {
        Built {
            told,
            state: *self,
            later: vec![],
            from: 0,
        }
    }

    /// Refusals 8, 2 and 3.
    fn refusal(&self, more: usize, row: usize) -> Option<Told> {
        if !self.is_sound() {
            return Some(vec![8]);
        }
        let taken = self.taken + more;
        over_limit(taken).or_else(|| (row < need(taken)).then(|| vec![3, need(taken)]))
    }

    /// The state where all of a text from the last settled place on is taken and its last bytes, so many, are left pending; and the checkpoints
    /// passed. Places are those of the whole text: whether a line ends is seen from what stands behind, be it pending.
    fn settle(&self, text: &[u8], left: usize) -> Built {
        let old = self.taken - self.pending;
        let (from, settled) = (old / SPACING + 1, old + text.len() - left);
        let mut found = places([old, self.units, self.points, self.lines], text);
        found.retain(|p| p[BYTES] <= settled);
        let [_, units, points, lines] = found[found.len() - 1];
        Built {
            told: vec![0],
            state: Builder {
                held: hold(&text[text.len() - left..]),
                pending: left,
                taken: old + text.len(),
                units,
                points,
                lines,
            },
            later: checkpoints(&found, from, settled / SPACING),
            from,
        }
    }

    /// Takes a piece, with so many numbers of index.
    pub fn feed(&self, piece: &[u8], row: usize) -> Built {
        if let Some(told) = self.refusal(piece.len(), row) {
            return self.refuse(told);
        }
        let text = [&self.left(), piece].concat();
        self.settle(&text, unsettled(&text))
    }

    /// Ends the text.
    pub fn finish(&self, row: usize) -> Built {
        if let Some(told) = self.refusal(0, row) {
            return self.refuse(told);
        }
        Built {
            state: Builder::fresh(),
            ..self.settle(&self.left(), 0)
        }
    }
}
