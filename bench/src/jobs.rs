//! The jobs: what of ours is measured beside which peer, on which texts. One list serves times and instructions.
use crate::inputs::{self, BROKEN, CLEAN, LINED};
use crate::meter::{Meter, Pair};
use crate::phrases::{Foreign, Last, Long, Phrase, Rare, Short, Usual};
use crate::shelf::{self, Shelf};
use crate::{cases, old_pages, words};

/// A job against a peer.
#[derive(Clone, Copy)]
pub struct Job {
    pub name: &'static str,
    pub peer: &'static str,
    /// only clean texts are compared: damage is refused, or one side would stop at it and the other read on
    pub strict: bool,
    /// how many elements a piece has, where the text comes in pieces
    pub piece: Option<usize>,
    /// the old page that it reads or writes; it is measured on texts of that page alone
    pub page: Option<usize>,
    /// counted by the call and not by the byte, as most of the text is not read
    pub by_call: bool,
    case: fn(&[u8], &mut Shelf, &mut dyn Meter) -> Pair,
}

/// What was measured.
pub struct Row {
    pub job: Job,
    pub kind: &'static str,
    pub bytes: usize,
    measured: Pair,
}

impl Row {
    /// Above 1 ours is faster, or executes less.
    pub fn ratio(&self) -> f64 {
        self.measured.ratio
    }

    /// Gigabytes of input a second, where time was measured.
    pub fn speeds(&self) -> (f64, f64) {
        let speed = |seconds: f64| self.bytes as f64 / seconds / 1e9;
        (speed(self.measured.ours), speed(self.measured.peer))
    }

    /// Instructions a byte, or a call, where they were counted.
    pub fn instructions(&self) -> (f64, f64) {
        let each = if self.job.by_call { 1 } else { self.bytes } as f64;
        (self.measured.ours / each, self.measured.peer / each)
    }
}

const fn job(
    name: &'static str,
    peer: &'static str,
    case: fn(&[u8], &mut Shelf, &mut dyn Meter) -> Pair,
) -> Job {
    Job {
        name,
        peer,
        strict: false,
        piece: None,
        page: None,
        by_call: false,
        case,
    }
}

const fn strict(job: Job) -> Job {
    Job {
        strict: true,
        ..job
    }
}

const fn by_call(job: Job) -> Job {
    Job {
        by_call: true,
        ..job
    }
}

/// Repair in pieces of so many bytes beside the streaming decoder.
const fn streaming<const SIZE: usize>() -> Job {
    Job {
        piece: Some(SIZE),
        ..job(
            "repair in pieces",
            STREAMING,
            cases::pieces_streaming::<SIZE>,
        )
    }
}

/// Repair in pieces of so many bytes beside our repair of the whole text.
const fn beside_whole<const SIZE: usize>() -> Job {
    Job {
        piece: Some(SIZE),
        ..job(
            "repair in pieces",
            "our whole repair",
            cases::pieces_whole::<SIZE>,
        )
    }
}

/// Bytes in pieces of so many, written as units, beside the streaming decoder.
const fn to_units<const SIZE: usize>() -> Job {
    Job {
        piece: Some(SIZE),
        ..job(
            "bytes to units in pieces",
            STREAMING,
            cases::pieces_to_units::<SIZE>,
        )
    }
}

/// Units in pieces of so many, written as bytes, beside the streaming decoder.
const fn from_units<const SIZE: usize>() -> Job {
    Job {
        piece: Some(SIZE),
        ..strict(job(
            "units to bytes in pieces",
            STREAMING,
            cases::unit_pieces::<SIZE>,
        ))
    }
}

/// A page text written as bytes.
const fn from_page<const PAGE: usize>(name: &'static str) -> Job {
    Job {
        page: Some(PAGE),
        ..job(name, "encoding_rs", cases::from_page::<PAGE>)
    }
}

/// Bytes written as a page text.
const fn to_page<const PAGE: usize>(name: &'static str) -> Job {
    Job {
        page: Some(PAGE),
        ..job(name, "encoding_rs", cases::to_page::<PAGE>)
    }
}

/// The first match of a phrase beside std's.
const fn find_std<P: Phrase>() -> Job {
    strict(job(P::JOB, "std", cases::find_std::<P>))
}

/// The first match of a phrase beside that of memchr.
const fn find_memmem<P: Phrase>() -> Job {
    strict(job(P::JOB, "memmem", cases::find_memmem::<P>))
}

pub const CHECK: &str = "strict check";
pub const BUILD: &str = "index build";
pub const STREAMING: &str = "encoding_rs, streaming";
pub const FROM_1: &str = "8859-1 to bytes";
pub const FROM_5: &str = "8859-5 to bytes";
pub const FROM_15: &str = "8859-15 to bytes";
/// How much of a text is fed byte by byte.
pub const BYTE_BY_BYTE: usize = 4_096;

pub const JOBS: [Job; 46] = [
    job(CHECK, "std", cases::check_std),
    strict(job(CHECK, "simdutf8", cases::check_simdutf8)),
    job("repair", "std lossy", cases::repair_std),
    job("repair", "encoding_rs", cases::repair_encoding),
    streaming::<65_536>(),
    streaming::<1_000>(),
    streaming::<64>(),
    streaming::<1>(),
    beside_whole::<65_536>(),
    beside_whole::<1_000>(),
    beside_whole::<64>(),
    job(
        "bytes to units, repairing",
        "encoding_rs",
        cases::units_encoding,
    ),
    job(
        "bytes to units, repairing, no place to spare",
        "encoding_rs",
        cases::units_exact,
    ),
    strict(job("bytes to units, strict", "std", cases::units_std)),
    strict(job(
        "bytes to code points, strict",
        "std",
        cases::points_std,
    )),
    strict(job(
        "units to bytes, repairing",
        "encoding_rs",
        cases::bytes_encoding,
    )),
    strict(job("units to bytes, strict", "std", cases::bytes_std)),
    to_units::<65_536>(),
    to_units::<1_000>(),
    to_units::<64>(),
    from_units::<65_536>(),
    from_units::<1_000>(),
    from_units::<64>(),
    from_page::<1>(FROM_1),
    from_page::<5>(FROM_5),
    from_page::<15>(FROM_15),
    to_page::<1>("bytes to 8859-1"),
    to_page::<5>("bytes to 8859-5"),
    to_page::<15>("bytes to 8859-15"),
    job(BUILD, "plain loop", cases::build_loop),
    strict(job(
        BUILD,
        "bytecount (code points)",
        cases::build_bytecount,
    )),
    job("plain lookup by unit", "plain loop", cases::plain_loop),
    job(
        "plain lookup by unit",
        "loop by ranges",
        cases::plain_ranges,
    ),
    by_call(job(
        "indexed lookup by unit",
        "plain loop",
        cases::indexed_loop,
    )),
    find_std::<Short>(),
    find_memmem::<Short>(),
    find_std::<Usual>(),
    find_memmem::<Usual>(),
    find_std::<Long>(),
    find_memmem::<Long>(),
    find_std::<Rare>(),
    find_memmem::<Rare>(),
    find_std::<Foreign>(),
    find_memmem::<Foreign>(),
    find_std::<Last>(),
    find_memmem::<Last>(),
];

/// How much of a text a check reads that stops at the first damage.
fn read_by_check(text: &[u8]) -> usize {
    match std::str::from_utf8(text) {
        Ok(_) => text.len(),
        Err(e) => e.valid_up_to() + e.error_len().unwrap_or(0),
    }
}

impl Job {
    /// So many elements of its text.
    fn elements(self, n: usize) -> String {
        if self.name.starts_with("units") {
            format!("{} units", words::grouped(n))
        } else {
            words::bytes(n)
        }
    }

    /// Its name with the peer's.
    pub fn title(self) -> String {
        let pieces = self.piece.map(|n| format!(" of {}", self.elements(n)));
        format!(
            "{}{} against {}",
            self.name,
            pieces.unwrap_or_default(),
            self.peer
        )
    }

    /// The kinds of text that it is measured on.
    pub fn kinds(self) -> Vec<&'static str> {
        if let Some(page) = self.page {
            return old_pages::kinds(page).to_vec();
        }
        let broken = if self.strict { 0 } else { BROKEN.len() };
        let lined = if self.name == BUILD { LINED.len() } else { 0 };
        let clean = CLEAN.into_iter().chain(LINED.into_iter().take(lined));
        clean.chain(BROKEN.into_iter().take(broken)).collect()
    }

    /// A text of a kind: in the page that it reads, or in bytes.
    fn text(self, kind: &str, length: usize) -> Vec<u8> {
        match self.page {
            Some(page) if [FROM_1, FROM_5, FROM_15].contains(&self.name) => {
                old_pages::text(page, kind, length)
            }
            _ => inputs::text(kind, length),
        }
    }

    pub fn row(self, kind: &'static str, length: usize, meter: &mut dyn Meter) -> Row {
        let mut text = self.text(kind, length);
        if self.name == CHECK {
            text.truncate(read_by_check(&text));
        }
        if self.piece == Some(1) {
            text.truncate(BYTE_BY_BYTE);
        }
        let mut pages = shelf::pages(text.len());
        let mut shelf = Shelf::new(&mut pages);
        Row {
            job: self,
            kind,
            bytes: text.len(),
            measured: (self.case)(shelf.put(&text), &mut shelf, meter),
        }
    }
}
