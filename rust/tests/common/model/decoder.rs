//! Repair in pieces: the state, its tests, and what each call writes, enters and tells; over bytes or units, written in any form.
use super::forms::{converted, mark, segments, Form};
use super::pending::{elements, hold, is_tail, joined, Piece};
use super::{Told, ENTRY, LIMIT, ROOM};

/// What a decoder keeps between two pieces, in any numbers.
#[derive(Clone, Copy, Debug, PartialEq, Eq)]
pub struct State<T: Piece> {
    pub held: T::Held,
    pub pending: usize,
    pub taken: usize,
    pub whole: usize,
    pub damaged: usize,
    pub count: usize,
    pub room: usize,
}

/// The state of a decoder that takes bytes, whatever it writes.
pub type Decoder = State<u8>;
/// The state of the decoder that takes units.
pub type UnitDecoder = State<u16>;

/// What a call tells, the state afterwards, what it writes from the start of the output, and its entries from one on.
#[derive(Clone, Debug, PartialEq, Eq)]
pub struct Fed<T: Piece, U> {
    pub told: Told,
    pub state: State<T>,
    pub output: Vec<U>,
    pub entries: Vec<u32>,
    pub from_entry: usize,
}

impl<T: Piece> State<T> {
    pub fn fresh(room: usize) -> State<T> {
        State {
            held: T::Held::default(),
            pending: 0,
            taken: 0,
            whole: 0,
            damaged: 0,
            count: 0,
            room,
        }
    }

    /// The state of some numbers: the held ones, and six more.
    pub fn of(numbers: &[usize]) -> State<T> {
        let mut held = T::Held::default();
        let (first, n) = numbers.split_at(T::PENDING);
        held.as_mut().copy_from_slice(first);
        State {
            held,
            pending: n[0],
            taken: n[1],
            whole: n[2],
            damaged: n[3],
            count: n[4],
            room: n[5],
        }
    }

    pub fn numbers(&self) -> Vec<usize> {
        let mut numbers = self.held.as_ref().to_vec();
        numbers.extend([self.pending, self.taken, self.whole]);
        numbers.extend([self.damaged, self.count, self.room]);
        numbers
    }

    /// The state's tests; sums are of whole numbers and never wrap. Where a damage is one element, the count is that of the damaged.
    pub fn is_sound(&self) -> bool {
        let wide = |n: usize| n as u128;
        is_tail::<T>(self.held, self.pending)
            && wide(self.whole) + wide(self.damaged) + wide(self.pending) == wide(self.taken)
            && self.taken <= LIMIT
            && self.count <= self.damaged
            && wide(self.damaged) <= wide(T::DAMAGE) * wide(self.count)
            && self.room <= ROOM
    }

    /// A refusal changes nothing.
    pub fn refuse<U>(&self, told: Told) -> Fed<T, U> {
        Fed {
            told,
            state: *self,
            output: vec![],
            entries: vec![],
            from_entry: 0,
        }
    }

    /// Refusals 8, 2 and 7.
    fn refusal(&self, more: usize, list: usize) -> Option<Told> {
        if !self.is_sound() {
            Some(vec![8])
        } else if self.taken + more > LIMIT {
            Some(vec![2])
        } else if list < ENTRY * self.room {
            Some(vec![7])
        } else {
            None
        }
    }

    /// The state behind a stretch of text from the last settled place, all of which is settled, and its entries. Behind it stands what is not:
    /// segments are read from both joined, as what stops a sequence may itself be pending.
    fn settle(&self, stretch: &[T], behind: &[T]) -> (State<T>, Vec<u32>) {
        let (start, text) = (self.taken - self.pending, [stretch, behind].concat());
        let mut next = State {
            held: T::Held::default(),
            pending: 0,
            taken: start + stretch.len(),
            ..*self
        };
        let mut entries = Vec::new();
        let read = segments(&text).into_iter();
        for (at, s) in read.take_while(|&(at, _)| at < stretch.len()) {
            if s.point.is_some() {
                next.whole += s.length;
                continue;
            }
            if next.count < next.room {
                entries.extend([start + at, s.length, s.cause].map(|n| n as u32));
            }
            next.count += 1;
            next.damaged += s.length;
        }
        (next, entries)
    }

    /// Feeds a piece, with so many places of output and numbers of list.
    pub fn feed<U: Form>(&self, piece: &[T], out: usize, list: usize) -> Fed<T, U> {
        if let Some(told) = self.refusal(piece.len(), list) {
            return self.refuse(told);
        }
        let (stretch, tail) = joined(self.held, self.pending, piece);
        let output: Vec<U> = converted(&stretch);
        if out < output.len() {
            return self.refuse(vec![3, output.len()]);
        }
        let (mut state, entries) = self.settle(&stretch, &tail);
        state.held = hold(&tail);
        state.pending = tail.len();
        state.taken += tail.len();
        Fed {
            told: vec![0, output.len()],
            state,
            output,
            entries,
            from_entry: self.count,
        }
    }

    /// Ends the text.
    pub fn finish<U: Form>(&self, out: usize, list: usize) -> Fed<T, U> {
        if let Some(told) = self.refusal(0, list) {
            return self.refuse(told);
        }
        let left: Vec<T> = elements(&self.held.as_ref()[..self.pending]);
        let output: Vec<U> = converted(&left);
        if out < output.len() {
            return self.refuse(vec![3, output.len()]);
        }
        let (total, entries) = self.settle(&left, &[]);
        Fed {
            told: vec![0, output.len(), total.whole, total.damaged, total.count],
            state: State::fresh(self.room),
            output,
            entries,
            from_entry: self.count,
        }
    }
}

impl Decoder {
    /// The watch takes one byte: its reply, and the state afterwards.
    pub fn watch(&self, b: u8) -> (usize, Decoder) {
        let fed = self.feed::<u8>(&[b], usize::MAX, usize::MAX);
        if fed.told[0] == 0 {
            (fed.state.count, fed.state)
        } else {
            (4_294_967_295, *self)
        }
    }
}

/// The start: what it tells, and the state.
pub fn start<T: Piece>(room: usize) -> (Told, State<T>) {
    if room > ROOM {
        (vec![7], State::fresh(0))
    } else {
        (vec![0], State::fresh(room))
    }
}

/// The most places that a feed of so many elements can need in a form: U+FFFD for each of them, and one for what is pending.
pub fn most<U: Form>(n: usize) -> usize {
    mark::<U>().len() * (n.min(LIMIT) + 1)
}
