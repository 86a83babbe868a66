//! The picture of the benchmark: time against rows, one panel a shape, as SVG.

use super::{Series, Times};
use std::fmt::Write as _;

const PANEL: (f64, f64) = (300.0, 190.0);
const MARGIN: (f64, f64) = (46.0, 34.0);
const COLUMNS: usize = 4;
const OURS: &str = "#1b6ca8";
const THEIRS: &str = "#c8553d";

/// The whole picture; `ours` is what our function is called.
pub fn draw(series: &[Series], ours: &str) -> String {
    let lines = series.len().div_ceil(COLUMNS);
    let (width, height) = (PANEL.0 * COLUMNS as f64, PANEL.1 * lines as f64 + 30.0);
    let mut text = format!(
        "<svg xmlns=\"http://www.w3.org/2000/svg\" viewBox=\"0 0 {width} {height}\" \
         font-family=\"sans-serif\" font-size=\"10\">\n\
         <rect width=\"100%\" height=\"100%\" fill=\"white\"/>\n"
    );
    legend(&mut text, ours);
    for (at, one) in series.iter().enumerate() {
        let left = PANEL.0 * (at % COLUMNS) as f64;
        let top = 30.0 + PANEL.1 * (at / COLUMNS) as f64;
        writeln!(text, "<g transform=\"translate({left} {top})\">").unwrap();
        panel(&mut text, one);
        text.push_str("</g>\n");
    }
    text.push_str("</svg>\n");
    text
}

fn legend(text: &mut String, ours: &str) {
    for (left, colour, label) in [(20, OURS, ours), (140, THEIRS, "the crate's resolve alone")] {
        writeln!(text, "<rect x=\"{left}\" y=\"10\" width=\"12\" height=\"4\" fill=\"{colour}\"/>").unwrap();
        writeln!(text, "<text x=\"{}\" y=\"16\">{label}</text>", left + 18).unwrap();
    }
    writeln!(text, "<text x=\"320\" y=\"16\">microseconds against rows</text>").unwrap();
}

fn panel(text: &mut String, series: &Series) {
    let highest = series.times.iter().map(|t| t.ours.max(t.theirs)).fold(1.0, f64::max);
    let widest = series.times.iter().map(|t| t.rows).max().unwrap_or(1) as f64;
    let (right, bottom) = (PANEL.0 - 14.0, PANEL.1 - MARGIN.1);
    let x = |rows: usize| MARGIN.0 + (right - MARGIN.0) * rows as f64 / widest;
    let y = |time: f64| bottom - (bottom - 24.0) * time / highest;
    writeln!(text, "<text x=\"{}\" y=\"14\" font-weight=\"bold\">{}</text>", MARGIN.0, series.name).unwrap();
    writeln!(text, "<path d=\"M{0} 24V{bottom}H{right}\" fill=\"none\" stroke=\"#888\"/>", MARGIN.0).unwrap();
    for part in 0..=2 {
        let time = highest * f64::from(part) / 2.0;
        let (left, level) = (MARGIN.0 - 4.0, y(time) + 3.0);
        writeln!(text, "<text x=\"{left}\" y=\"{level:.1}\" text-anchor=\"end\">{:.0}</text>", time / 1e3).unwrap();
    }
    for Times { rows, .. } in &series.times {
        let (at, under) = (x(*rows), bottom + 12.0);
        writeln!(text, "<text x=\"{at:.1}\" y=\"{under}\" text-anchor=\"middle\">{rows}</text>").unwrap();
    }
    line(text, OURS, series.times.iter().map(|t| (x(t.rows), y(t.ours))));
    line(text, THEIRS, series.times.iter().map(|t| (x(t.rows), y(t.theirs))));
}

fn line(text: &mut String, colour: &str, points: impl Iterator<Item = (f64, f64)>) {
    let points: Vec<String> = points.map(|(x, y)| format!("{x:.1},{y:.1}")).collect();
    let points = points.join(" ");
    writeln!(text, "<polyline points=\"{points}\" fill=\"none\" stroke=\"{colour}\" stroke-width=\"1.6\"/>").unwrap();
}
