//! How numbers are written in the page.

/// `65,536 bytes`.
pub fn bytes(n: usize) -> String {
    match n {
        1 => "one byte".into(),
        n => format!("{} bytes", grouped(n)),
    }
}

/// `512 KiB`, `2 MiB`.
pub fn binary(n: usize) -> String {
    match n >> 20 {
        0 => format!("{} KiB", n >> 10),
        whole => format!("{whole} MiB"),
    }
}

/// A number with a comma between its groups of three.
pub fn grouped(n: usize) -> String {
    match n {
        0..1_000 => n.to_string(),
        n => format!("{},{:03}", grouped(n / 1_000), n % 1_000),
    }
}

/// Three digits that count, or all before the point.
pub fn three(value: f64) -> String {
    let (mut places, mut scaled) = (0, value);
    while scaled < 99.95 && places < 6 {
        (places, scaled) = (places + 1, scaled * 10.0);
    }
    match places {
        0 => grouped(value.round() as usize),
        _ => format!("{value:.places$}"),
    }
}
