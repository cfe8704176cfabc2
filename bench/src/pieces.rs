//! The table of repair in pieces, in instructions: ours, that of the whole text and the streaming decoder's, and what is reached.
use crate::calls::ROOM;
use crate::goals::{few_enough, IN_PIECES, ONE_BYTE, OVER_WHOLE};
use crate::inputs::{BROKEN, CLEAN};
use crate::jobs::{Row, BYTE_BY_BYTE, STREAMING};
use crate::words::{bytes, grouped, three};

/// How many bytes a piece has, in the order of the table.
const PIECES: [usize; 4] = [65_536, 1_000, 64, 1];

/// Ours and the peer's instructions a byte of a job on a kind of text.
fn found(rows: &[Row], kind: &str, piece: Option<usize>, peer: &str) -> (f64, f64) {
    let is = |row: &&Row| row.kind == kind && row.job.piece == piece && row.job.peer == peer;
    let mut repairs = rows.iter().filter(|row| row.job.name.starts_with("repair"));
    repairs
        .find(is)
        .expect("every repair is counted on every text")
        .instructions()
}

/// Whether the goals of a text are reached, or with which pieces they are not.
fn goals(kind: &str, whole: f64, fed: &[(f64, f64); 4]) -> String {
    let mut missed = Vec::new();
    for (piece, &(ours, peer)) in PIECES.into_iter().zip(fed) {
        if !few_enough(piece, ours, peer, whole) {
            missed.push(grouped(piece));
        }
    }
    match (IN_PIECES.contains(&kind), missed.is_empty()) {
        (false, _) => "".into(),
        (true, true) => "reached".into(),
        (true, false) => format!("**not reached** with {}", missed.join(", ")),
    }
}

/// A row for each text.
pub fn table(rows: &[Row]) -> String {
    let sizes = PIECES.map(grouped);
    let (ours, peers) = (sizes.join(" | "), sizes.join(" | encoding_rs, "));
    let mut page = format!(
        "| text | whole | {ours} | encoding_rs, {peers} | goals |\n|{}\n",
        "---|".repeat(11)
    );
    for kind in CLEAN.into_iter().chain(BROKEN) {
        let (whole, _) = found(rows, kind, None, "encoding_rs");
        let fed = PIECES.map(|piece| found(rows, kind, Some(piece), STREAMING));
        let ours = fed.map(|(ours, _)| three(ours)).join(" | ");
        let peers = fed.map(|(_, peer)| three(peer)).join(" | ");
        let (goals, whole) = (goals(kind, whole, &fed), three(whole));
        page += &format!("| {kind} | {whole} | {ours} | {peers} | {goals} |\n");
    }
    page
}

/// What the table is about, and what is to be reached.
pub fn about() -> String {
    let [long, middle, short, one] = PIECES.map(bytes);
    format!(
        "Instructions a byte: of our repair of the whole text, of our repair in pieces of {long}, {middle}, {short} and {one}, and of \
         encoding_rs's streaming decoder in the same pieces. With {one} in a piece they are instructions a call, over the first {} of the \
         text. The list has room for {ROOM} damages, and the output is always long enough. The wrapper of the bridge, which reads and keeps \
         the state as numbers, is part of what is counted. To be reached, on the texts that have a mark: with {long} and with {middle} at \
         most {OVER_WHOLE} times the whole repair, and fewer than encoding_rs; with {short} fewer than encoding_rs; with {one} at most \
         {ONE_BYTE}.\n",
        bytes(BYTE_BY_BYTE),
    )
}
