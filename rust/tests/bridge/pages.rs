//! The old single-byte pages: page texts as UTF-8 and back, short ones, in blocks, with refusals at every place, and random ones.
use crate::calls::*;
use crate::common::model::pages::{Page, PAGES};
use crate::common::model::Told;
use crate::common::texts::every_short;
use crate::common::Random;
use crate::conversions::in_rooms;
use crate::Run;

/// A page text as UTF-8; turned back, that form gives the text.
fn to_utf8(run: &mut Run, page: &Page, text: &[u8]) {
    let [there, back] = calls_of(page, text);
    let form = page.to_utf8(text);
    in_rooms(run, there, text, &form);
    let form = form.expect("no byte is refused");
    in_rooms(run, back, &form, &Ok(text.to_vec()));
}

/// A text in UTF-8 turned into a page; where it is not refused, what was written gives the text again.
fn from_utf8(run: &mut Run, page: &Page, text: &[u8]) {
    let [there, back] = calls_of(page, text);
    let form = page.of_utf8(text);
    in_rooms(run, back, text, &form);
    if let Ok(form) = form {
        in_rooms(run, there, &form, &Ok(text.to_vec()));
    }
}

/// To UTF-8 and back, with enough places to tell in, or more.
fn calls_of(page: &Page, text: &[u8]) -> [impl Fn(&[u8], &mut [u8]) -> Told; 2] {
    let places = 8 + text.len() % 3;
    [bridge_pages_to_bytes as Turns, bridge_bytes_to_page]
        .map(|call| turning(call, page.page, places))
}

/// Bytes at which a page changes, and those beside them.
const PAGE_BYTES: [u8; 32] = [
    0x00, 0x0A, 0x41, 0x7F, 0x80, 0x9F, 0xA0, 0xA1, 0xA3, 0xA4, 0xA5, 0xA6, 0xA7, 0xA8, 0xAC, 0xAD,
    0xAE, 0xB4, 0xB8, 0xBC, 0xBD, 0xBE, 0xBF, 0xC2, 0xE2, 0xEF, 0xF0, 0xF1, 0xFC, 0xFD, 0xFE, 0xFF,
];

/// Bytes of code points that some pages have and others lack, and bytes that damage.
const UTF8_BYTES: [u8; 26] = [
    0x00, 0x41, 0x7F, 0x80, 0x81, 0x82, 0x84, 0x96, 0xA4, 0xA7, 0xAC, 0xAD, 0xBF, 0xC0, 0xC1, 0xC2,
    0xC3, 0xC4, 0xC5, 0xD0, 0xD1, 0xE0, 0xE2, 0xED, 0xF0, 0xFF,
];

/// Code points that each page has, that some lack, and that none has: beside those of a page, alike in the low bits, and U+FFFD.
const POINTS: [u32; 28] = [
    0x41, 0x0A, 0x80, 0xA0, 0xA4, 0xA7, 0xAD, 0xBE, 0xFF, 0x100, 0x141, 0x152, 0x160, 0x178, 0x17E,
    0x17F, 0x400, 0x401, 0x40D, 0x44F, 0x450, 0x45D, 0x45F, 0x20AC, 0x2116, 0xFFFD, 0x10041,
    0x10FFFF,
];

fn utf8(point: u32) -> Vec<u8> {
    char::from_u32(point).map_or(vec![], |c| c.to_string().into_bytes())
}

/// What damages, alone or before what follows; the last ones are overlong forms of A, U+A9 and U+20AC, which pages have.
const DAMAGES: [&[u8]; 9] = [
    b"\x80",
    b"\xFF",
    b"\xC3",
    b"\xE2\x82",
    b"\xF0\x9F\x9A",
    b"\xED\xA0\x80",
    b"\xC1\x81",
    b"\xE0\x82\xA9",
    b"\xF0\x82\x82\xAC",
];

/// Every pair of bytes, and every three of those at which a page changes.
pub fn short(run: &mut Run) {
    let all: Vec<u8> = (0..=255).collect();
    for page in &PAGES.map(Page::new) {
        every_short(&all, 2).for_each(|text| to_utf8(run, page, &text));
        every_short(&PAGE_BYTES, 3).for_each(|text| to_utf8(run, page, &text));
        to_utf8(run, page, &all);
    }
    not_called(run);
}

/// Every three bytes, and every three code points and damages.
pub fn short_back(run: &mut Run) {
    let (points, damages) = (POINTS.map(utf8), DAMAGES.map(<[u8]>::to_vec));
    let parts: Vec<&[u8]> = points.iter().chain(&damages).map(Vec::as_slice).collect();
    for page in &PAGES.map(Page::new) {
        every_short(&UTF8_BYTES, 3).for_each(|text| from_utf8(run, page, &text));
        every_short(&parts, 3).for_each(|text| from_utf8(run, page, &text.concat()));
    }
}

/// Numbers that are no page's: beside one, and alike in the low bits.
const NO_PAGES: [usize; 11] = [0, 2, 3, 4, 6, 14, 16, 255, 0x101, 0x10005, 1 << 63];

/// Where there is no such page, or too few places to tell in, nothing is called.
fn not_called(run: &mut Run) {
    let far = PAGES.map(|page| page + (1 << 32));
    let unknown = NO_PAGES.into_iter().chain(far).chain([usize::MAX]);
    let untold = PAGES
        .into_iter()
        .flat_map(|page| (0..8).map(move |m| (page, m)));
    for (page, places) in unknown.map(|page| (page, 8)).chain(untold) {
        for text in [b"".as_slice(), b"A", b"A\x80", "\u{416}".as_bytes()] {
            for call in [bridge_pages_to_bytes, bridge_bytes_to_page] {
                let (mut out, before) = (filled::<u8>(9), filled::<u8>(9));
                let told = turning(call, page, places)(text, inner(&mut out));
                assert_eq!(
                    (told, out),
                    (vec![NOT_CALLED], before),
                    "page {page}, {places} places"
                );
                run.cases += 1;
            }
        }
    }
}

/// More than two blocks of 128.
const LONGEST: usize = 275;
/// How far the second of two bytes stands behind the first, by blocks of any size.
const APART: [usize; 14] = [1, 2, 3, 15, 16, 17, 31, 32, 63, 64, 65, 127, 128, 129];

/// ASCII, other at each place of a block.
fn letters(length: usize) -> Vec<u8> {
    (0..length).map(|at| (at * 37 % 0x80) as u8).collect()
}

/// ASCII of each length with one byte above it at each place, and with two; each of these bytes comes up.
pub fn in_blocks(run: &mut Run) {
    for page in &PAGES.map(Page::new) {
        for length in 0..=LONGEST {
            let ascii = letters(length);
            to_utf8(run, page, &ascii);
            for at in 0..length {
                let mut text = ascii.clone();
                text[at] = 0x80 + ((length + 3 * at) % 0x80) as u8;
                to_utf8(run, page, &text);
                let second = at + run.random.pick(&APART);
                if second < length {
                    text[second] = 0x80 + run.random.below(0x80) as u8;
                    to_utf8(run, page, &text);
                }
            }
        }
    }
}

/// A page text of so many bytes, all above ASCII, none, or every second, every eighth and so on.
fn old(random: &mut Random, length: usize) -> Vec<u8> {
    let seldom = random.pick(&[1, 2, 8, 60, 400]);
    let mut byte = || match (random.below(seldom), random.next() as u8) {
        (0, b) => b | 0x80,
        (_, b) => b & 0x7F,
    };
    (0..length).map(|_| byte()).collect()
}

/// A page text in UTF-8, with two parts put in before the bytes at two places, the first of which is not the later one.
fn put_in(
    page: &Page,
    old: &[u8],
    (at, part): (usize, &[u8]),
    (later, other): (usize, &[u8]),
) -> Vec<u8> {
    let between = [&old[..at], &old[at..later], &old[later..]];
    let [before, between, behind] =
        between.map(|old| page.to_utf8(old).expect("no byte is refused"));
    [&before, part, &between, other, &behind].concat()
}

/// Around a place of a page text: a damage, a code point that the page lacks, and two of these, one of them further on. Damage wins wherever it
/// stands, then the first that is lacking.
fn refused_at(run: &mut Run, page: &Page, old: &[u8], at: usize) {
    let lacking: Vec<u32> = POINTS
        .into_iter()
        .filter(|&n| page.byte(n).is_none())
        .collect();
    let [first, second] = [0; 2].map(|_| utf8(run.random.pick(&lacking)));
    let damage = run.random.pick(&DAMAGES);
    let later = at + run.random.below(old.len() - at + 1);
    let pairs = [
        (damage, b"".as_slice()),
        (&first, b""),
        (&first, damage),
        (damage, &first),
        (&first, &second),
    ];
    for (part, other) in pairs {
        from_utf8(run, page, &put_in(page, old, (at, part), (later, other)));
    }
}

/// Refusals at each place of ASCII and of a page's other letters, over the blocks of any size.
pub fn refused(run: &mut Run) {
    for page in &PAGES.map(Page::new) {
        for length in (0..=140).chain([200, 257, LONGEST]) {
            let texts = [letters(length), old(&mut run.random, length)];
            (0..=length).for_each(|at| refused_at(run, page, &texts[at % 2], at));
        }
    }
}

/// A text in UTF-8: of any alphabets, or a page text with code points put in that the page has or lacks, and then at times broken.
fn mixture(random: &mut Random, page: &Page, old: &[u8]) -> Vec<u8> {
    let kind = random.below(3);
    if kind == 0 {
        return random.mixture(old.len());
    }
    let later = random.below(old.len() + 1);
    let at = random.below(later + 1);
    let [part, other] = [0; 2].map(|_| utf8(random.pick(&POINTS)));
    let text = put_in(page, old, (at, &part), (later, &other));
    if kind == 1 {
        random.broken(text)
    } else {
        text
    }
}

/// Texts of all lengths, some of them long.
pub fn random(run: &mut Run) {
    let pages = PAGES.map(Page::new);
    for round in 0..run.rounds(20_000) {
        let length = match round % 1_000 {
            0 => run.random.below(200_000),
            _ => run.random.length(),
        };
        let (page, old) = (&pages[round % 3], old(&mut run.random, length));
        to_utf8(run, page, &old);
        let text = mixture(&mut run.random, page, &old);
        from_utf8(run, page, &text);
    }
}
