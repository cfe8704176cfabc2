//! BENCHMARK.md has two parts, times and then instructions: one is replaced, and the other kept as it stands.
use std::io::{ErrorKind, Result};
use std::path::Path;

/// The line that begins the second part.
pub const HEADING: &str = "## Instructions\n";

pub enum Part {
    Times,
    Instructions,
}

fn split(page: &str) -> (&str, &str) {
    let begins = |&(at, _): &(usize, &str)| at == 0 || page[..at].ends_with('\n');
    let at = page.match_indices(HEADING).find(begins);
    page.split_at(at.map_or(page.len(), |(at, _)| at))
}

/// The page with one part replaced.
fn replaced(page: &str, part: Part, text: &str) -> String {
    let (times, instructions) = split(page);
    let both = match part {
        Part::Times => [text, instructions],
        Part::Instructions => [times, text],
    };
    let there = both
        .map(str::trim_end)
        .into_iter()
        .filter(|p| !p.is_empty());
    there.collect::<Vec<_>>().join("\n\n") + "\n"
}

/// Replaces a part of the page in a folder; the other one is not there where there is no page yet.
pub fn replace(folder: &Path, part: Part, text: &str) -> Result<()> {
    let file = folder.join("BENCHMARK.md");
    let page = match std::fs::read_to_string(&file) {
        Err(e) if e.kind() == ErrorKind::NotFound => String::new(),
        read => read?,
    };
    std::fs::write(file, replaced(&page, part, text))
}
