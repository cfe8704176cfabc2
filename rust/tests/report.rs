//! The report program, fed through a pipe in pieces, against an independent segment reader.
mod common;

use common::{damages, Random};
use moxandril::LIMIT;
use std::io::Write;
use std::process::{Command, Stdio};

/// The program; where it is not compiled for this machine, under the emulator that is named.
fn program() -> Command {
    let report = concat!(env!("CARGO_MANIFEST_DIR"), "/../crates/report/out/report");
    match std::env::var("MOXANDRIL_EMULATOR") {
        Ok(emulator) => {
            let mut command = Command::new(emulator);
            command.arg(report);
            command
        }
        Err(_) => Command::new(report),
    }
}

/// What the program prints of a text that comes in pieces, cut at these places.
fn printed(text: &[u8], cuts: &[usize]) -> String {
    let mut child = program()
        .stdin(Stdio::piped())
        .stdout(Stdio::piped())
        .spawn()
        .expect("the report runs");
    let mut pipe = child.stdin.take().unwrap();
    let (text, cuts) = (text.to_vec(), cuts.to_vec());
    let feeder = std::thread::spawn(move || {
        let mut from = 0;
        for to in cuts.into_iter().chain([text.len()]) {
            // the program may have ended already: over the limit it reads no further
            if pipe
                .write_all(&text[from..to])
                .and_then(|()| pipe.flush())
                .is_err()
            {
                return;
            }
            from = to;
        }
    });
    let out = child.wait_with_output().unwrap();
    feeder.join().unwrap();
    String::from_utf8(out.stdout).unwrap()
}

/// What it should print.
fn expected(text: &[u8]) -> String {
    if text.len() > LIMIT {
        return "refused 2\n".into();
    }
    let found = damages(text);
    let damaged: usize = found.iter().map(|d| d.1).sum();
    let lines: String = found
        .iter()
        .take(32)
        .map(|(start, length, cause)| format!("damage {start} {length} {cause}\n"))
        .collect();
    format!(
        "{lines}total {} whole {} damaged {damaged}\n",
        found.len(),
        text.len() - damaged
    )
}

fn compare(text: &[u8], cuts: &[usize]) {
    assert_eq!(printed(text, cuts), expected(text));
}

#[test]
fn fixed_texts() {
    assert_eq!(
        printed(b"\x41\x80\x42", &[]),
        "damage 1 1 1\ntotal 1 whole 2 damaged 1\n"
    );
    for cuts in [&[][..], &[4], &[4, 5, 7]] {
        assert_eq!(
            printed(b"\x41\x80\xC0\xE2\x82\x41\xF0\x9F", cuts),
            "damage 1 1 1\ndamage 2 1 2\ndamage 3 2 3\ndamage 6 2 4\ntotal 4 whole 2 damaged 6\n"
        );
    }
    compare(b"", &[]);
    compare(b"\xE2\x82\x41", &[1, 2]);
    compare(b"\xE2\x82\xC3", &[1, 2]);
    compare(
        b"text that ends in the middle of a character \xF0\x9F\x9A",
        &[45, 46],
    );
    compare(&[0x80; 33], &[7]);
    compare(&[0x80; 32], &[]);
}

#[test]
fn random_pieces() {
    let mut random = Random(0xD1B5_4A32_D192_ED03);
    for _ in 0..150 {
        let length = random.below(3_000);
        let text = random.text(length);
        let mut cuts: Vec<usize> = (0..random.below(6))
            .map(|_| random.below(text.len() + 1))
            .collect();
        cuts.sort();
        compare(&text, &cuts);
    }
}

#[test]
fn at_the_limit() {
    let mut text = vec![b'A'; LIMIT];
    text[LIMIT - 1] = 0xE2;
    compare(&text, &[65_536, 65_537, 10_000_000]);
    text.push(b'A');
    compare(&text, &[]);
}

#[test]
fn a_read_that_fails() {
    let folder = std::fs::File::open("/").unwrap();
    let out = program().stdin(folder).output().unwrap();
    assert_eq!(String::from_utf8(out.stdout).unwrap(), "read failed\n");
}
