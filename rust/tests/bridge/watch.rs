//! The watch over a lent state: the struct itself crosses and is changed in place, byte by byte; each reply and every field are the
//! model's and those of the step by value.
use crate::calls;
use crate::common::model::decoder::Decoder;
use crate::common::model::pending::elements;
use crate::states;
use crate::Run;

/// The library's state, declared again: C's layout is the same on both sides.
#[repr(C)]
#[derive(Clone, Copy, Debug, PartialEq, Eq)]
struct Lent {
    held: [u8; 3],
    pending: usize,
    taken: usize,
    whole: usize,
    damaged: usize,
    count: usize,
    room: usize,
}

#[link(name = "bridge_texts", kind = "static")]
extern "C" {
    fn bridge_pieces_watch(state: *mut Lent, b: u8) -> u32;
}

impl Lent {
    /// The model's state; of each number that is held, the last byte.
    fn of(state: Decoder) -> Lent {
        let held = elements::<u8>(&state.held);
        Lent {
            held: [held[0], held[1], held[2]],
            pending: state.pending,
            taken: state.taken,
            whole: state.whole,
            damaged: state.damaged,
            count: state.count,
            room: state.room,
        }
    }

    fn state(&self) -> Decoder {
        Decoder {
            held: self.held.map(usize::from),
            pending: self.pending,
            taken: self.taken,
            whole: self.whole,
            damaged: self.damaged,
            count: self.count,
            room: self.room,
        }
    }
}

/// Watches some bytes from a state on, all in one place between two states that nobody lends; gives the last state.
fn watch_all(run: &mut Run, from: Decoder, text: &[u8]) -> Decoder {
    let guard = Lent::of(Decoder::of(&[0xA5; 9]));
    let mut row = [guard, Lent::of(from), guard];
    for (i, &b) in text.iter().enumerate() {
        let before = row[1].state();
        let reply = unsafe { bridge_pieces_watch(&mut row[1], b) };
        let got = (reply as usize, row[1].state());
        let about = || format!("byte {i} of {text:02X?}, {before:?}");
        assert_eq!(got, before.watch(b), "{}", about());
        assert_eq!(got, calls::watch_step(before, b), "{}", about());
        assert_eq!((row[0], row[2]), (guard, guard), "{}", about());
        run.cases += 1;
    }
    row[1].state()
}

/// A whole text from the fresh state: at the end the state is that of one feed.
fn text(run: &mut Run) {
    let length = run.random.below(400);
    let text = run.random.mixture(length);
    let room = run.random.pick(&[0, 1, 2, 31, 4_096]);
    let fed = Decoder::fresh(room).feed::<u8>(&text, usize::MAX, usize::MAX);
    let last = watch_all(run, Decoder::fresh(room), &text);
    assert_eq!(last, fed.state, "room {room}, text {text:02X?}");
    run.cases += 1;
}

/// Some bytes from a state on that no call need have made: a refusal leaves every field, whatever the numbers.
fn state(run: &mut Run, state: Decoder) {
    let from = Lent::of(state).state();
    let length = 1 + run.random.below(8);
    let text = run.random.mixture(length);
    let last = watch_all(run, from, &text);
    if !from.is_sound() {
        assert_eq!(last, from, "text {text:02X?}");
    }
}

pub fn all(run: &mut Run) {
    for _ in 0..run.rounds(600) {
        text(run);
    }
    for _ in 0..run.rounds(20_000) {
        let near = states::decoder(run);
        state(run, near);
    }
    for _ in 0..run.rounds(2_000) {
        let numbers = [0; 9].map(|_| run.random.next() as usize);
        state(run, Decoder::of(&numbers));
    }
}
