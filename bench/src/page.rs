//! The part of docs/BENCHMARK.md on times: the tables of one run, and how it was measured.
use crate::goals::{least, DOUBLED};
use crate::growth::PerByte;
use crate::jobs::{Job, Row, JOBS};
use crate::measure::SAMPLES;
use crate::periodic::{Line, Table};
use crate::report::{Run, RUNS};
use crate::words::{binary, three};

pub struct Findings {
    pub machine: String,
    pub pinned: bool,
    pub rows: Vec<Row>,
    pub growth: Vec<PerByte>,
    pub lookups: [f64; 2],
    pub periodic: [Table; 3],
    pub stack: Option<Vec<(&'static str, usize)>>,
    pub report: Vec<Run>,
}

const METHOD: &str = "\
Each case runs ours and the peer's in turn in one process. A ratio is the peer's time divided by ours, above 1 ours is faster: the \
median of the ratios of neighbouring samples. The speeds are from the median times of each. Texts are made by the program from fixed seeds. Before it is timed, each case is compared: both \
sides must agree.

- Check and repair are the viewer's routines. The other calls go through the wrappers of the crates `bridge_texts` and `bridge_places`, which \
add a call and a few numbers told.
- Output buffers are made and touched once before the timing, and are not cleared between runs; the same holds for peers that write \
into a ready buffer (encoding_rs, and std's conversions here).
- `String::from_utf8_lossy` allocates where there is damage; on clean text it lends its input and copies nothing, while ours writes the \
whole form. No other peer allocates in the timed part. Ours allocates nothing.
- simdutf8 (basic) and bytecount choose AVX2 at run time where the processor has it. encoding_rs, as Debian has it, is built \
without its SIMD feature and reads words. std's check reads words. \
Ours is compiled for x86-64-v2 (SSE4.2).
- bytecount counts code points alone, while the builder counts three measures and writes checkpoints. The plain loop is Rust's \
`utf8_chunks` and `chars`, counting units, code points and lines, which end after 0A, after 0D unless 0A follows, and after U+0085, U+2028 \
and U+2029.
- The loop by ranges has the reader that the library had before its table of classes, which tests the range of each byte, written once more \
in Rust: a loop for units alone, while ours serves the four measures by one walk. It counts the same lines.
- Ours and std's check stop at the first damage, so a damaged text is cut behind it for them. simdutf8 (basic) reads on to the end, \
and is compared on clean texts alone.
- A ratio that is to be reached stands for texts of 64 bytes and more; that of the check against std from 24 bytes on; that of an \
absent phrase against std, and those of the old pages, for 1 MiB.
- An absent phrase of so many characters is cut from the middle of the text, and its last character changed to another of the text's \
own. One with a rare first byte has eleven characters of the text behind one whose first byte the text has not. One of another script is \
Japanese for texts with Latin letters, German for the others. The phrase that ends the text has twelve characters, or more where those \
stand before its end too. In a short text a phrase has at most half of the bytes. std's `str::find` is handed text and phrase as checked \
ones; ours checks the phrase. memmem is `memmem::find` of memchr, which chooses AVX2 at run time where the processor has it.
- The old pages are ISO 8859-1, 8859-5 and 8859-15; their texts have as many bytes as is said in the page, or in UTF-8 on the way back. \
encoding_rs has windows-1252 in place of 8859-1: it differs in the bytes 80..9F, which no text here has. Both sides have three places for \
each byte. On the way back encoding_rs is handed the text as a checked one; ours checks it.
- Repair in pieces writes into an output that is always long enough, both ours and that of encoding_rs's streaming decoder. Ours is \
also compared with our own repair of the whole text. Byte by byte the beginning of a text is fed.
";

const REPORT: &str = "\
The whole run of `report < FILE` on 16 MiB, beside `wc -c < FILE` and `iconv -f utf-8 -t utf-8 < FILE > /dev/null` as a user would time \
them: from the start of the process to its end. `wc -c` of a file asks for its size and does not read it through. `iconv` would \
stop at the first damage; on the damaged text it is run with `-c`, which leaves damages out and reads on.";

const PERIODIC: &str = "\
Needles that are absent, though nearly all of them stands in the text. The times are microseconds. A doubling is how many times as \
long a search takes in the text of twice the length: the median of the ratios of neighbouring samples, and the larger of the two. The \
plain search, which compares at every place from the start of the needle, is run once, in texts of at most 1 MiB. Where text and needle \
both double, it takes four times as long if it compares much of the needle at many places.";

fn length(bytes: usize) -> String {
    match bytes {
        n if n >= 1 << 19 => "1 MiB".into(),
        n => format!("{n} bytes"),
    }
}

fn goal(row: &Row) -> String {
    least(row).map_or("".into(), |least| {
        let mark = if row.ratio() >= least {
            "reached"
        } else {
            "**not reached**"
        };
        format!("{least} {mark}")
    })
}

/// The table of a job against a peer.
fn table(rows: &[&Row]) -> String {
    let mut page = String::from("| text | length | ours, GB/s | peer, GB/s | ratio | at least |\n");
    page += "|---|---|---|---|---|---|\n";
    for row in rows {
        let (ours, peer) = row.speeds();
        let (kind, long, ratio, goal) = (row.kind, length(row.bytes), row.ratio(), goal(row));
        page += &format!("| {kind} | {long} | {ours:.3} | {peer:.3} | {ratio:.2} | {goal} |\n");
    }
    page
}

fn tables(rows: &[Row]) -> String {
    let mut page = String::new();
    for title in JOBS.map(Job::title) {
        let of_job: Vec<&Row> = rows.iter().filter(|r| r.job.title() == title).collect();
        page += &format!("\n### {title}\n\n{}", table(&of_job));
    }
    page
}

fn report(runs: &[Run]) -> String {
    let mut page = String::from(
        "| text | report, ms | wc -c, ms | iconv, ms | wc -c / report | iconv / report |\n",
    );
    page += "|---|---|---|---|---|---|\n";
    for Run { kind, seconds } in runs {
        let [ours, wc, iconv] = seconds.map(|s| s * 1e3);
        let (by_wc, by_iconv) = (wc / ours, iconv / ours);
        page += &format!(
            "| {kind} | {ours:.1} | {wc:.1} | {iconv:.1} | {by_wc:.2} | {by_iconv:.2} |\n"
        );
    }
    page
}

fn growth(found: &Findings) -> String {
    let mut page = String::from("| call | 64 KiB | 1 MiB | 16 MiB |\n|---|---|---|---|\n");
    for PerByte {
        job,
        nanoseconds: [a, b, c],
    } in &found.growth
    {
        page += &format!("| {job}, ns a byte | {a:.3} | {b:.3} | {c:.3} |\n");
    }
    let [short, long] = found.lookups;
    page + &format!("| indexed lookup, ns | {short:.0} | | {long:.0} |\n")
}

/// The most that a doubling took, and whether that is little enough.
fn doubled(line: &Line) -> String {
    let most = line.doublings.iter().fold(0.0, |a: f64, &b| a.max(b));
    let goal = match (line.is_ours(), most <= DOUBLED) {
        (false, _) => "".into(),
        (true, true) => format!("{DOUBLED} reached"),
        (true, false) => format!("{DOUBLED} **not reached**"),
    };
    format!("{most:.2} | {goal}")
}

fn periodic(table: &Table) -> String {
    let lengths = table.lengths.map(binary).join(" | ");
    let mut page = format!(
        "\nA needle of {}:\n\n| needle and text | search | {lengths} | doubling | at most |\n",
        table.needle
    );
    page += "|---|---|---|---|---|---|---|\n";
    for line in &table.lines {
        let mut times: Vec<String> = line.seconds.iter().map(|s| three(s * 1e6)).collect();
        times.resize(table.lengths.len(), "".into());
        let (pair, search, times) = (line.pair, line.search, times.join(" | "));
        page += &format!("| {pair} | {search} | {times} | {} |\n", doubled(line));
    }
    page
}

fn memory(found: &Findings) -> String {
    let Some(stack) = &found.stack else {
        return "The stack could not be measured in this run.\n".into();
    };
    let mut page = String::from("| call | bytes of stack at most, with its wrapper (512 is the least that is told apart) |\n|---|---|\n");
    for (call, bytes) in stack {
        page += &format!("| {call} | {bytes} |\n");
    }
    page
}

pub fn page(found: &Findings) -> String {
    let pinned = if found.pinned {
        "pinned to one processor"
    } else {
        "not pinned"
    };
    format!(
        "# Benchmark\n\nWritten by `tools/bench` on {}; {pinned}, median of {SAMPLES}.\n\n{METHOD}\n\
         ![ratios at 1 MiB](benchmark.svg)\n\n## Ratios\n{}\n\
         ## The report\n\n{REPORT} The times are medians of {RUNS} runs.\n\n{}\n\
         ## Growth\n\n{}\n### Periodic phrases\n\n{PERIODIC}\n{}\n## Memory\n\n\
         The library has no heap: it is handed all that it writes to. Its stack, on a damaged text of 1 MiB, and on a clean one where a page is written:\n\n{}",
        found.machine,
        tables(&found.rows),
        report(&found.report),
        growth(found),
        found.periodic.iter().map(periodic).collect::<String>(),
        memory(found)
    )
}
