//! The table and the plot.

use crate::measures::{median, Line};
use std::fmt::Write;
use std::path::Path;

/// The median ratio over the seeds, with the least and the greatest.
fn ratio(line: &Line) -> (f64, f64, f64) {
    let ratios: Vec<f64> = line.times.iter().map(|(ours, theirs)| ours / theirs).collect();
    let (least, most) = ratios.iter().fold((f64::MAX, 0f64), |(a, b), &r| (a.min(r), b.max(r)));
    (median(ratios), least, most)
}

/// A time in the unit that suits it.
fn said(micros: f64) -> String {
    match micros {
        m if m < 1000.0 => format!("{m:.1} us"),
        m if m < 1e6 => format!("{:.1} ms", m / 1e3),
        m => format!("{:.2} s", m / 1e6),
    }
}

pub fn table(lines: &[Line], seeds: usize) -> String {
    let mut out = format!("Pools of 1,000 vertices and 5,000 random edges unless said. Processor time; medians over {seeds} seeds, of each seed the least of several runs.\nThe ratio is left to right, with the least and the greatest over the seeds.\n\n");
    out.push_str("| the planner | against | left | right | ratio | least to greatest |\n|---|---|---|---|---|---|\n");
    for line in lines {
        let (middle, least, most) = ratio(line);
        let left = said(median(line.times.iter().map(|t| t.0).collect()));
        let right = said(median(line.times.iter().map(|t| t.1).collect()));
        let (ours, theirs) = (&line.ours, &line.theirs);
        writeln!(out, "| {ours} | {theirs} | {left} | {right} | {middle:.2} | {least:.2} to {most:.2} |").unwrap();
    }
    out
}

/// A bar for each line on a scale of powers of ten, from 1/1,000 to 1,000; the middle line is "as fast as the other".
pub fn plot(lines: &[Line]) -> String {
    let (left, unit, row) = (30.0, 110.0, 58.0);
    let at = |ratio: f64| left + (ratio.log10().clamp(-3.0, 3.0) + 3.0) * unit;
    let (width, height) = (at(1000.0) + 30.0, 50.0 + row * lines.len() as f64);
    let mut out = format!("<svg xmlns=\"http://www.w3.org/2000/svg\" width=\"{width}\" height=\"{height}\" font-family=\"sans-serif\" font-size=\"11\">\n");
    writeln!(out, "<rect width=\"100%\" height=\"100%\" fill=\"white\"/>").unwrap();
    for power in -3..=3 {
        let (x, name) = (at(10f64.powi(power)), if power < 0 { format!("1/{}", 10u32.pow(-power as u32)) } else { 10u32.pow(power as u32).to_string() });
        let stroke = if power == 0 { "black" } else { "#ccc" };
        writeln!(out, "<line x1=\"{x}\" y1=\"26\" x2=\"{x}\" y2=\"{}\" stroke=\"{stroke}\"/>", height - 10.0).unwrap();
        writeln!(out, "<text x=\"{x}\" y=\"18\" text-anchor=\"middle\">{name}</text>").unwrap();
    }
    for (i, line) in lines.iter().enumerate() {
        let (y, (middle, least, most)) = (34.0 + row * i as f64, ratio(line));
        let (from, to) = (at(1.0).min(at(middle)), at(1.0).max(at(middle)));
        writeln!(out, "<rect x=\"{from}\" y=\"{}\" width=\"{}\" height=\"12\" fill=\"#4878a8\"/>", y + 28.0, to - from).unwrap();
        writeln!(out, "<line x1=\"{}\" y1=\"{1}\" x2=\"{2}\" y2=\"{1}\" stroke=\"black\" stroke-width=\"2\"/>", at(least), y + 34.0, at(most)).unwrap();
        // the labels stand on white, so that no line of the scale runs through them
        writeln!(out, "<rect x=\"0\" y=\"{y}\" width=\"100%\" height=\"28\" fill=\"white\"/>").unwrap();
        writeln!(out, "<text x=\"{left}\" y=\"{}\">{middle:.2}: {}</text>", y + 11.0, line.ours).unwrap();
        writeln!(out, "<text x=\"{left}\" y=\"{}\" fill=\"#555\">against {}</text>", y + 24.0, line.theirs).unwrap();
    }
    out + "</svg>\n"
}

pub fn write(table: &str, plot: &str) -> std::io::Result<()> {
    let folder = Path::new(env!("CARGO_MANIFEST_DIR")).join("../../target/bench");
    std::fs::create_dir_all(&folder)?;
    std::fs::write(folder.join("bench.md"), table)?;
    std::fs::write(folder.join("bench.svg"), plot)
}
