//! The report's whole run on 16 MiB: beside `wc -c` and `iconv` as a user would time them, and in instructions.
use crate::counter::last_count;
use crate::inputs::{self, ASCII, CYRILLIC, DAMAGED};
use crate::measure::median;
use std::fs::{self, File};
use std::io::Result;
use std::path::{Path, PathBuf};
use std::process::{Command, ExitStatus, Stdio};
use std::time::Instant;

const KINDS: [&str; 3] = [ASCII, CYRILLIC, DAMAGED];
const LENGTH: usize = 16 << 20;
const PROGRAM: &str = concat!(env!("CARGO_MANIFEST_DIR"), "/../crates/report/out/report");
pub const RUNS: usize = 11;

/// Where the text of a kind stands; tools/count puts the count of the report's run beside it.
fn file(target: &Path, kind: &str) -> PathBuf {
    target.join(format!("texts/{}.txt", kind.replace(' ', "-")))
}

/// Writes the texts that the report is run on.
pub fn write_texts(target: &Path) -> Result<()> {
    fs::create_dir_all(target.join("texts"))?;
    let write = |kind| fs::write(file(target, kind), inputs::text(kind, LENGTH));
    KINDS.into_iter().try_for_each(write)
}

/// The median seconds of the report, of `wc -c` and of `iconv` on a text.
pub struct Run {
    pub kind: &'static str,
    pub seconds: [f64; 3],
}

/// From a process's start to its end.
fn run(command: &mut Command, text: &Path) -> Result<(ExitStatus, f64)> {
    command.stdin(File::open(text)?);
    command.stdout(Stdio::null()).stderr(Stdio::null());
    let start = Instant::now();
    let status = command.status()?;
    Ok((status, start.elapsed().as_secs_f64()))
}

/// `iconv` would stop at the first damage; with `-c` it leaves damages out and reads on.
fn commands(kind: &str) -> [Command; 3] {
    let mut all = [
        Command::new(PROGRAM),
        Command::new("wc"),
        Command::new("iconv"),
    ];
    all[1].arg("-c");
    all[2].args(["-f", "utf-8", "-t", "utf-8"]);
    if kind == DAMAGED {
        all[2].arg("-c");
    }
    all
}

/// Times the three on each text, in turn.
pub fn times(target: &Path) -> Result<Vec<Run>> {
    write_texts(target)?;
    let mut runs = Vec::new();
    for kind in KINDS {
        let (mut commands, mut times) = (commands(kind), [(); 3].map(|()| Vec::new()));
        let text = file(target, kind);
        let (status, _) = run(&mut commands[0], &text)?;
        assert!(status.success(), "the report of {kind} failed");
        for _ in 0..RUNS {
            for (command, times) in commands.iter_mut().zip(&mut times) {
                times.push(run(command, &text)?.1);
            }
        }
        let seconds = times.map(median);
        runs.push(Run { kind, seconds });
    }
    Ok(runs)
}

/// Instructions a byte of the whole run on each text, as tools/count had them counted.
pub fn counts(target: &Path) -> Result<Vec<(&'static str, f64)>> {
    let count = |kind| {
        let text = file(target, kind);
        let total = last_count(&text.with_extension("count")) as f64;
        Ok((kind, total / fs::metadata(text)?.len() as f64))
    };
    KINDS.into_iter().map(count).collect()
}
