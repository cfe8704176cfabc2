//! Measures the library against its peers, prints the ratios, and writes its part of BENCHMARK.md into a folder: `time` with a clock, and
//! benchmark.svg too; `count` in instructions, under the emulator with its plug-in. `texts` writes the texts that the report is run on.
mod calls;
mod cases;
mod counter;
mod goals;
mod growth;
mod inputs;
mod instructions;
mod jobs;
mod measure;
mod meter;
mod old_pages;
mod page;
mod parts;
mod peers;
mod periodic;
mod phrases;
mod picture;
mod pieces;
mod ranges;
mod report;
mod shelf;
mod stack;
mod words;

use inputs::{ASCII, CJK, CYRILLIC, EMOJI};
use jobs::{Job, Row, JOBS};
use meter::Meter;
use parts::Part;
use std::io::Result;
use std::path::Path;

const LONG: usize = 1 << 20;
const SHORT: [usize; 5] = [8, 24, 64, 200, 1_000];

type Texts = Vec<(&'static str, usize)>;

/// The texts that a job is timed on: all its kinds at 1 MiB, and at the short lengths four clean kinds, or those of a page, if they do not
/// come in pieces.
fn timed(job: Job) -> Texts {
    let mut texts: Texts = job.kinds().into_iter().map(|kind| (kind, LONG)).collect();
    let short = match job.page {
        Some(page) => old_pages::kinds(page).to_vec(),
        None => vec![ASCII, CYRILLIC, CJK, EMOJI],
    };
    if job.piece.is_none() {
        for kind in short {
            texts.extend(SHORT.map(|n| (kind, n)));
        }
    }
    texts
}

fn counted(job: Job) -> Texts {
    let length = instructions::LENGTH;
    job.kinds().into_iter().map(|kind| (kind, length)).collect()
}

fn rows(meter: &mut dyn Meter, texts: fn(Job) -> Texts) -> Vec<Row> {
    let mut rows = Vec::new();
    for job in JOBS {
        println!("{}", job.title());
        for (kind, length) in texts(job) {
            let row = job.row(kind, length, meter);
            println!("{:>8.2}  {kind}, {} bytes", row.ratio(), row.bytes);
            rows.push(row);
        }
    }
    rows
}

/// The processor's name as the system gives it.
fn machine() -> String {
    let info = std::fs::read_to_string("/proc/cpuinfo").unwrap_or_default();
    let name = info
        .lines()
        .find_map(|l| l.strip_prefix("model name")?.split_once(": "));
    name.map_or("an unnamed processor".into(), |(_, name)| name.into())
}

fn time(folder: &Path, target: &Path) -> Result<()> {
    let pinned = measure::pin();
    let rows = rows(&mut measure::Clock, timed);
    let picture = picture::picture(&rows);
    let found = page::Findings {
        machine: machine(),
        pinned,
        rows,
        growth: growth::calls_by_size(),
        lookups: growth::lookup_by_size(),
        periodic: periodic::tables(),
        stack: stack::of_calls(),
        report: report::times(target)?,
    };
    parts::replace(folder, Part::Times, &page::page(&found))?;
    std::fs::write(folder.join("benchmark.svg"), picture)
}

fn count(folder: &Path, target: &Path, versions: &str) -> Result<()> {
    let of_report = report::counts(target)?;
    let mut counter = counter::Counter::new(target.join("counts"));
    let rows = rows(&mut counter, counted);
    let part = instructions::part(&rows, &of_report, versions);
    parts::replace(folder, Part::Instructions, &part)
}

fn main() -> Result<()> {
    let words: Vec<String> = std::env::args().skip(1).collect();
    let words: Vec<&str> = words.iter().map(String::as_str).collect();
    match words[..] {
        ["time", folder, target] => time(folder.as_ref(), target.as_ref()),
        ["count", folder, target, versions] => count(folder.as_ref(), target.as_ref(), versions),
        ["texts", target] => report::write_texts(target.as_ref()),
        _ => {
            eprintln!(
                "moxandril-bench time FOLDER TARGET | count FOLDER TARGET VERSIONS | texts TARGET"
            );
            std::process::exit(2)
        }
    }
}
