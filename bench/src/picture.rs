//! docs/benchmark.svg: a bar for each ratio at 1 MiB, on a logarithmic scale, with a line at 1.
use crate::jobs::{Job, Row, JOBS};

const LEFT: f64 = 330.0;
const WIDTH: f64 = 900.0;
const BAR: f64 = 16.0;

/// Where a ratio stands: 1/16 at the left, 64 at the right.
fn across(ratio: f64) -> f64 {
    let share = (ratio.clamp(1.0 / 16.0, 64.0).log2() + 4.0) / 10.0;
    LEFT + share * (WIDTH - LEFT - 60.0)
}

fn bar(row: &Row, y: f64) -> String {
    let (from, to) = (across(1.0), across(row.ratio()));
    let colour = if row.ratio() >= 1.0 {
        "#2a7f62"
    } else {
        "#b5523b"
    };
    let (x, width, text) = (from.min(to), (to - from).abs(), y + 12.0);
    format!(
        "<text x=\"{}\" y=\"{text}\" text-anchor=\"end\">{}</text>\n\
         <rect x=\"{x:.1}\" y=\"{y}\" width=\"{width:.1}\" height=\"{}\" fill=\"{colour}\"/>\n\
         <text x=\"{:.1}\" y=\"{text}\">{:.2}</text>\n",
        LEFT - 8.0,
        row.kind,
        BAR - 4.0,
        from.max(to) + 4.0,
        row.ratio()
    )
}

fn scale(height: f64) -> String {
    let mut lines = String::new();
    for power in -4..=6 {
        let (x, ratio) = (across(2f64.powi(power)), 2f64.powi(power));
        let colour = if power == 0 { "#000" } else { "#ddd" };
        lines += &format!(
            "<line x1=\"{x:.1}\" y1=\"20\" x2=\"{x:.1}\" y2=\"{height}\" stroke=\"{colour}\"/>\n"
        );
        lines += &format!("<text x=\"{x:.1}\" y=\"14\" text-anchor=\"middle\">{ratio}</text>\n");
    }
    lines
}

pub fn picture(rows: &[Row]) -> String {
    let (mut bars, mut y) = (String::new(), 24.0);
    for title in JOBS.map(Job::title) {
        let is_long = |r: &&Row| r.job.title() == title && r.bytes >= 1 << 19;
        let long: Vec<&Row> = rows.iter().filter(is_long).collect();
        if long.is_empty() {
            continue;
        }
        bars += &format!(
            "<text x=\"8\" y=\"{}\" font-weight=\"bold\">{title}</text>\n",
            y + 14.0
        );
        y += BAR + 4.0;
        for row in long {
            bars += &bar(row, y);
            y += BAR;
        }
        y += 8.0;
    }
    format!(
        "<svg xmlns=\"http://www.w3.org/2000/svg\" width=\"{WIDTH}\" height=\"{y}\" font-family=\"sans-serif\" font-size=\"12\">\n\
         <rect width=\"100%\" height=\"100%\" fill=\"#fff\"/>\n{}{bars}</svg>\n",
        scale(y)
    )
}
