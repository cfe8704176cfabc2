//! The part of docs/BENCHMARK.md on instructions: repair in pieces, the report's whole run, and every job.
use crate::jobs::Row;
use crate::parts::HEADING;
use crate::pieces;
use crate::words::{bytes, grouped, three};

/// How long the texts are.
pub const LENGTH: usize = 262_144;

const METHOD: &str = "\
Each side is run twice, and the instructions of its second run are counted, without those of calling an empty body. Both sides are \
compared first, as for the times. An instruction is no time: a wide one counts as much as a narrow one, and waiting, for memory or behind \
a wrong guess, counts nothing. But the numbers have no noise, so two states of the library can be told apart by them.

- They are the same wherever they are made: with Debian's compiler rustc-web, on qemu-user's emulated processor `max,-erms`, in an \
empty environment, with each text and output at the start of a page, in one order. That processor has AVX2; it has no fast string \
moves, whose every byte the emulator would count as an instruction. With other versions of the compiler, the emulator, the C library or \
the peers, the peers' numbers may be others.
- The numbers are instructions a byte of the text; those of the indexed lookup are instructions a call. The ratio is the peer's number \
divided by ours: above 1 ours executes fewer.
- The wrappers of the bridge are counted with the calls. What the system does, as where `String::from_utf8_lossy` allocates, is not.
- For the check a damaged text is cut behind the first damage, as for the times.
";

/// The table of every job on every text.
fn jobs(rows: &[Row]) -> String {
    let mut page =
        String::from("| job | text | bytes | ours | peer | ratio |\n|---|---|---|---|---|---|\n");
    for row in rows {
        let (title, kind, bytes) = (row.job.title(), row.kind, grouped(row.bytes));
        let each = if row.job.by_call { ", a call" } else { "" };
        let ((ours, peer), ratio) = (row.instructions(), three(row.ratio()));
        let (ours, peer) = (three(ours), three(peer));
        page += &format!("| {title}{each} | {kind} | {bytes} | {ours} | {peer} | {ratio} |\n");
    }
    page
}

fn report(counts: &[(&'static str, f64)]) -> String {
    let mut page = String::from("| text | instructions a byte |\n|---|---|\n");
    for (kind, count) in counts {
        page += &format!("| {kind} | {} |\n", three(*count));
    }
    page
}

/// The whole part, from its heading on, with the versions of the tools that it was made by.
pub fn part(rows: &[Row], of_report: &[(&'static str, f64)], versions: &str) -> String {
    format!(
        "{HEADING}\nWritten by `tools/count` with {versions}, on texts of {}, less those of a character that would be cut.\n\n{METHOD}\n\
         ### Instructions of repair in pieces\n\n{}\n{}\n### Instructions of the report\n\n\
         The whole run of `report < FILE` on 16 MiB, from its start to its end. `wc -c` and `iconv` are not counted: they are the \
         machine's own programs, others on every machine.\n\n{}\n### Instructions of every job\n\n{}",
        bytes(LENGTH),
        pieces::about(),
        pieces::table(rows),
        report(of_report),
        jobs(rows)
    )
}
