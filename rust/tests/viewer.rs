//! Both routines against Rust's own decoder and an independent segment reader.
mod common;

use common::{damages, repaired, Random, INTERESTING};
use moxandril::{check, repair, Refusal, LIMIT};

const GUARD: u8 = 0xA5;

/// Compares all that the routines say of a text; outputs one byte short, exact and longer, with guards that must stay.
fn compare(text: &[u8]) {
    let first = damages(text).first().copied();
    let said = check(text);
    assert_eq!(
        said,
        first.map_or(Ok(()), |(start, length, _)| Err(Refusal::Damaged {
            start,
            length
        })),
        "check of {text:02X?}"
    );
    match std::str::from_utf8(text) {
        Ok(_) => assert_eq!(said, Ok(())),
        Err(e) => {
            let length = e.error_len().unwrap_or(text.len() - e.valid_up_to());
            assert_eq!(
                said,
                Err(Refusal::Damaged {
                    start: e.valid_up_to(),
                    length
                })
            );
        }
    }
    let form = repaired(text);
    assert_eq!(
        String::from_utf8_lossy(text).as_bytes(),
        form,
        "the two models of repair of {text:02X?}"
    );
    let mut out = vec![GUARD; form.len() + 9];
    if !form.is_empty() {
        assert_eq!(
            repair(text, &mut out[4..4 + form.len() - 1]),
            Err(Refusal::NoRoom)
        );
        assert!(
            out.iter().all(|&b| b == GUARD),
            "a refusal of {text:02X?} changed the output"
        );
    }
    for spare in [0, 3] {
        out.fill(GUARD);
        assert_eq!(
            repair(text, &mut out[4..4 + form.len() + spare]),
            Ok(form.len())
        );
        assert_eq!(&out[4..4 + form.len()], form, "repair of {text:02X?}");
        assert!(out[..4]
            .iter()
            .chain(&out[4 + form.len()..])
            .all(|&b| b == GUARD));
    }
    assert_eq!(check(&form), Ok(()));
}

#[test]
fn fixed_examples() {
    let texts: [&[u8]; 12] = [
        b"",
        b"\xE2\x82\xAC",
        b"\xF0\x9F\x9A\x86",
        b"\xF4\x8F\xBF\xBF",
        b"\xF4\x90\x80\x80",
        b"\xF0\x8F\xBF\xBF",
        b"\xED\xA0\x80",
        b"\xE0\x9F\xBF",
        b"\xC0\x80",
        b"\xE2\x82\x41",
        b"\xF0\x9F\x9A",
        b"\x61\xF1\x80\x80\xE1\x80\xC2\x62\x80\x63\x80\xBF\x64",
    ];
    texts.into_iter().for_each(compare);
    assert_eq!(
        check(b"\xE2\x82\x41"),
        Err(Refusal::Damaged {
            start: 0,
            length: 2
        })
    );
    assert_eq!(check(b"\xE2\x82\x41").unwrap_err().number(), 1);
}

#[test]
fn every_short_text_of_interesting_bytes() {
    for length in 0..=4 {
        for mut code in 0..INTERESTING.len().pow(length) {
            let text: Vec<u8> = (0..length)
                .map(|_| {
                    let b = INTERESTING[code % INTERESTING.len()];
                    code /= INTERESTING.len();
                    b
                })
                .collect();
            compare(&text);
        }
    }
}

#[test]
fn random_and_damaged_texts() {
    let rounds = std::env::var("MOXANDRIL_ROUNDS")
        .ok()
        .and_then(|n| n.parse().ok())
        .unwrap_or(1_000_000);
    let mut random = Random(0x9E37_79B9_7F4A_7C15);
    for round in 0..rounds {
        let length = match round % 100 {
            0 => random.below(5_000),
            1..=9 => random.below(400),
            _ => random.below(48),
        };
        compare(&random.text(length));
    }
}

#[test]
fn at_the_limit() {
    let mut text = vec![b'A'; LIMIT];
    let mut out = vec![GUARD; LIMIT + 2];
    assert_eq!(check(&text), Ok(()));
    assert_eq!(repair(&text, &mut out), Ok(LIMIT));
    assert_eq!(out[..LIMIT], text);
    assert_eq!(out[LIMIT..], [GUARD, GUARD]);
    text[LIMIT - 1] = 0x80;
    assert_eq!(
        check(&text),
        Err(Refusal::Damaged {
            start: LIMIT - 1,
            length: 1
        })
    );
    assert_eq!(repair(&text, &mut out[..LIMIT + 1]), Err(Refusal::NoRoom));
    text.push(b'A');
    out.fill(GUARD);
    assert_eq!(check(&text), Err(Refusal::OverLimit));
    assert_eq!(repair(&text, &mut out), Err(Refusal::OverLimit));
    assert!(out.iter().all(|&b| b == GUARD));
}
