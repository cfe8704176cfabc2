//! Texts around the edges of blocks and runs: lengths and damage at 0 to 4 from multiples of 128, damage at every place of some texts, for
//! smaller blocks, and in pieces cuts at 0 to 4 from the edges of both.
use crate::calls::{Decoding, PIECES, PIECES_TO_UNITS, UNIT_PIECES};
use crate::common::model::forms::Form;
use crate::common::Random;
use crate::conversions;
use crate::courses::{decode_course, Course, Tested};
use crate::pieces::build_course;
use crate::Run;

const BLOCK: usize = 128;

/// The places at 0 to 4 from the first multiples of the block.
fn near_edges(multiples: usize) -> Vec<usize> {
    let around = |k: usize| (BLOCK * k - 4)..=(BLOCK * k + 4);
    (0..=4).chain((1..=multiples).flat_map(around)).collect()
}

/// Well-formed text of one alphabet and exactly so many bytes; ASCII in front where characters do not fill it.
fn exact(random: &mut Random, alphabet: usize, length: usize) -> Vec<u8> {
    let mut text = String::new();
    loop {
        let c = random.character(alphabet);
        if text.len() + c.len_utf8() > length {
            break;
        }
        text.push(c);
    }
    let mut filled = vec![b'x'; length - text.len()];
    filled.extend(text.bytes());
    filled
}

/// What damages where it stands: bytes that begin nothing, and beginnings alone.
const DAMAGE: [&[u8]; 4] = [b"\x80", b"\xFF", b"\xE2", b"\xF0\x9F"];
/// What is whole in a stretch of another kind; it damages the characters that it cuts into.
const WHOLE: [&[u8]; 7] = [
    b"\n",
    b"\xF0\x9F\x9A\x86",
    b"\r",
    b"\r\n",
    b"\xC2\x85",
    b"\xE2\x80\xA8",
    b"\xE2\x80\xA9",
];

fn bytes(run: &mut Run, text: &[u8], turn: usize) {
    conversions::of_bytes(run, text);
    let c = (turn % 5).min(text.len());
    let cuts = [c, text.len()];
    let room = turn % 3;
    decode_course(
        run,
        PIECES,
        &Course {
            text,
            cuts: &cuts,
            room,
        },
    );
    build_course(
        run,
        &Course {
            text,
            cuts: &cuts,
            room: 0,
        },
    );
}

/// Damage, and then something whole, put over clean text at each place near an edge.
fn damaged(run: &mut Run, clean: &[u8], places: &[usize]) {
    for (turn, &at) in places.iter().enumerate() {
        let kind = turn + clean.len();
        for put in [DAMAGE[kind % 4], WHOLE[kind % WHOLE.len()]] {
            if at + put.len() > clean.len() {
                continue;
            }
            let mut text = clean.to_vec();
            text[at..at + put.len()].copy_from_slice(put);
            bytes(run, &text, turn);
        }
    }
}

/// So many units of one alphabet; the last may be a first half.
fn exact_units(random: &mut Random, alphabet: usize, length: usize) -> Vec<u16> {
    let text: String = (0..length).map(|_| random.character(alphabet)).collect();
    let mut units: Vec<u16> = text.encode_utf16().collect();
    units.truncate(length);
    units
}

fn units(run: &mut Run, length: usize, places: &[usize]) {
    for alphabet in [0, 2, 4] {
        let clean = exact_units(&mut run.random, alphabet, length);
        conversions::of_units(run, &clean);
        for &at in places.iter().filter(|&&at| at < length) {
            let mut text = clean.clone();
            text[at] = run.random.pick(&[0xD83D, 0xDE86, 0xFFFF]);
            conversions::of_units(run, &text);
        }
    }
}

fn codes(run: &mut Run, length: usize, places: &[usize]) {
    let clean: Vec<u32> = (0..length)
        .map(|_| run.random.character(5).into())
        .collect();
    for &at in places.iter().filter(|&&at| at < length) {
        let mut text = clean.clone();
        text[at] = run.random.pick(&[0xD800, 0xDFFF, 0x110000, 0x41]);
        conversions::of_codes(run, &text);
    }
}

pub fn all(run: &mut Run) {
    for _ in 0..run.rounds(1) {
        for &length in &near_edges(5) {
            let places = near_edges(5);
            for alphabet in 0..6 {
                let clean = exact(&mut run.random, alphabet, length);
                bytes(run, &clean, length);
                damaged(run, &clean, &places);
            }
            units(run, length, &places);
            codes(run, length, &places);
        }
        for length in [35, 200, 530] {
            let places: Vec<usize> = (0..length).collect();
            for alphabet in 0..6 {
                let clean = exact(&mut run.random, alphabet, length);
                damaged(run, &clean, &places);
            }
            units(run, length, &places);
        }
    }
}

/// How many bytes a block takes, of any size; behind the first bytes of a text it looks at three more.
const BLOCKS: [usize; 10] = [16, 19, 32, 35, 64, 67, 128, 131, 256, 259];

/// A run, damage, and a second run that is as long as a block or a little shorter.
fn two_runs(run: &mut Run, alphabet: usize, first: usize, damage: &[u8]) -> Vec<u8> {
    let second = run.random.pick(&BLOCKS) - run.random.below(5);
    let mut text = exact(&mut run.random, alphabet, first);
    text.extend(damage);
    text.extend(exact(&mut run.random, alphabet, second));
    text
}

/// Runs between damage, cut at 0 to 4 from where a run ends or begins, and then again a block further on.
pub fn in_pieces(run: &mut Run) {
    for round in 0..run.rounds(6 * BLOCKS.len()) {
        let (alphabet, first) = (round % 6, BLOCKS[round / 6 % BLOCKS.len()]);
        for damage in DAMAGE {
            let text = two_runs(run, alphabet, first, damage);
            for cut in (0..=4).chain(first - 4..=first + damage.len() + 4) {
                let block = run.random.pick(&BLOCKS) + run.random.below(9);
                let again = (cut + block - 4).clamp(cut, text.len());
                let (cuts, room) = ([cut, again, text.len()], cut % 4);
                let text = &text;
                let cuts = &cuts;
                decode_course(run, PIECES, &Course { text, cuts, room });
                decode_course(run, PIECES_TO_UNITS, &Course { text, cuts, room });
                build_course(run, &Course { text, cuts, room });
            }
        }
    }
}

/// Halves alone, in wrong order and before a pair, a pair, and a unit that stands alone.
const HALVES: [&[u16]; 6] = [
    &[0xD83D],
    &[0xDE86],
    &[0xDE86, 0xD83D],
    &[0xD83D, 0xD83D, 0xDE86],
    &[0xDBFF, 0xDFFF],
    &[0x20AC],
];

/// Elements put over a text at a place, and at times again about a block further on; then the text in pieces: the first of up to four
/// elements, the rest at once, or cut where the elements stand.
fn put_over<T, U>(run: &mut Run, decoding: Decoding<T, U>, clean: &[T], put: &[T], at: usize)
where
    T: Tested,
    U: Form,
{
    let (n, size) = (clean.len(), put.len());
    if at + size > n {
        return;
    }
    let mut text = clean.to_vec();
    let again = at + run.random.pick(&[16, 32, 64, BLOCK]) - 4 + run.random.below(9);
    let places = [at, if again + size <= n { again } else { at }];
    for &at in &places[..1 + run.random.below(2)] {
        text[at..at + size].copy_from_slice(put);
    }
    let (text, room, first) = (&text[..], at % 3, ((at + size) % 5).min(n));
    let cut = (at + run.random.below(size + 1)).max(first);
    for cuts in [&[first, n][..], &[first, cut, n]] {
        decode_course(run, decoding, &Course { text, cuts, room });
    }
}

/// Each of some puts, over clean texts: at the end of those with lengths near the edges, near each edge of a long one, and for smaller
/// blocks at every place of a short one.
fn at_edges<T, U>(
    run: &mut Run,
    decoding: Decoding<T, U>,
    clean: impl Fn(&mut Random, usize) -> Vec<T>,
    puts: &[&[T]],
) where
    T: Tested,
    U: Form,
{
    let long = clean(&mut run.random, 4 * BLOCK + 9);
    let short = clean(&mut run.random, 72);
    for put in puts {
        for length in near_edges(3) {
            let text = clean(&mut run.random, length);
            let last = length.saturating_sub(put.len());
            put_over(run, decoding, &text, put, last);
        }
        for at in near_edges(4) {
            put_over(run, decoding, &long, put, at);
        }
        for at in 0..short.len() {
            put_over(run, decoding, &short, put, at);
        }
    }
}

/// Long pieces of units.
pub fn unit_pieces(run: &mut Run) {
    for round in 0..run.rounds(6) {
        let clean = |random: &mut Random, n| exact_units(random, round % 6, n);
        at_edges(run, UNIT_PIECES, clean, &HALVES);
    }
}

/// Long pieces of bytes, written as units.
pub fn pieces_to_units(run: &mut Run) {
    let puts = [&DAMAGE[..], &WHOLE[..]].concat();
    for round in 0..run.rounds(6) {
        let clean = |random: &mut Random, n| exact(random, round % 6, n);
        at_edges(run, PIECES_TO_UNITS, clean, &puts);
    }
}
