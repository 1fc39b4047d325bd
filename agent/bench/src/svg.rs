//! A picture of the measured rows, for `--svg DIR`: a bar as long as the median, and a whisker from the lower to the
//! upper quartile. Only what was measured in the run is drawn.

use crate::measure::{ratio, Row};
use std::fmt::Write;
use std::path::PathBuf;

#[cfg(test)]
mod tests;

const WIDTH: f64 = 900.0;
const EDGE: f64 = 16.0;
/// The height of a row, and of the bar in it.
const ROW: f64 = 30.0;
const BAR: f64 = 16.0;
/// The upper edge of the first row, and what is left below the last.
const TOP: f64 = 84.0;
const BELOW: f64 = 50.0;
/// The most marks after the 0 of the scale.
const MARKS: f64 = 8.0;
/// Room for a letter of a row's name, which is wide enough for the common fonts.
const LETTER: f64 = 7.4;
/// Where the columns with the median and the ratio end.
const MEDIANS_END: f64 = 744.0;
const RATIOS_END: f64 = WIDTH - EDGE;
/// Room for the widest median.
const MEDIAN_ROOM: f64 = 84.0;

const INK: &str = "#1b1f24";
const QUIET: &str = "#57606a";
const GRID: &str = "#d0d7de";
/// The row that the others are compared with is grey.
const BASE_FILL: &str = "#8c959f";
const FILL: &str = "#2f6fb7";

/// The arguments without `--svg DIR`, and that folder.
fn split(arguments: impl Iterator<Item = String>) -> (Vec<String>, Option<PathBuf>) {
    let mut rest: Vec<String> = arguments.collect();
    let Some(at) = rest.iter().position(|argument| argument == "--svg") else {
        return (rest, None);
    };
    assert!(at + 1 < rest.len(), "--svg needs a folder");
    let folder = rest.drain(at..at + 2).nth(1).map(PathBuf::from);
    (rest, folder)
}

/// The program's arguments without `--svg DIR`.
pub fn other_arguments() -> impl Iterator<Item = String> {
    split(std::env::args()).0.into_iter()
}

/// Writes a picture into the folder that `--svg` names, if there is one.
pub fn save(name: &str, picture: &str) {
    let Some(folder) = split(std::env::args()).1 else {
        return;
    };
    let file = folder.join(name);
    let written = std::fs::create_dir_all(&folder).and_then(|()| std::fs::write(&file, picture));
    written.unwrap_or_else(|error| panic!("{} cannot be written: {error}", file.display()));
    println!("{} is written", file.display());
}

/// The rows as bars, in their order, each with its median and its ratio to the base row's.
pub fn bars(title: &str, rows: &[Row], base: &str) -> String {
    let letters = rows
        .iter()
        .map(|row| row.name.chars().count())
        .max()
        .unwrap_or(0);
    let left = EDGE + LETTER * letters as f64 + 12.0;
    let most = rows
        .iter()
        .map(|row| row.median.max(row.upper_quartile))
        .fold(0.0, f64::max);
    let scale = Scale::up_to(most, left, MEDIANS_END - MEDIAN_ROOM);
    let bottom = TOP + ROW * rows.len() as f64;
    let mut svg = head(title, base, bottom + BELOW);
    svg += &scale.grid(bottom);
    for (number, row) in rows.iter().enumerate() {
        svg += &bar(
            row,
            base,
            ratio(rows, &row.name, base),
            TOP + ROW * number as f64,
            &scale,
        );
    }
    svg + "</svg>\n"
}

/// The beginning: a white ground, the title, what the marks mean, and the heads of the columns.
fn head(title: &str, base: &str, height: f64) -> String {
    let mut svg = format!(
        "<svg xmlns=\"http://www.w3.org/2000/svg\" width=\"{WIDTH}\" height=\"{height}\" \
         viewBox=\"0 0 {WIDTH} {height}\" font-family=\"sans-serif\" font-size=\"13\" role=\"img\">\n\
         <title>{title}</title>\n<rect width=\"{WIDTH}\" height=\"{height}\" rx=\"6\" fill=\"#ffffff\"/>\n",
        title = escape(title),
    );
    svg += &text(
        EDGE,
        24.0,
        "start",
        INK,
        "font-weight=\"bold\" font-size=\"16\"",
        title,
    );
    svg += &text(
        EDGE,
        48.0,
        "start",
        QUIET,
        "",
        "bar: median; whisker: lower to upper quartile",
    );
    svg += &text(
        MEDIANS_END,
        68.0,
        "end",
        INK,
        "font-weight=\"bold\"",
        "median ms",
    );
    svg += &text(
        RATIOS_END,
        68.0,
        "end",
        INK,
        "font-weight=\"bold\"",
        &format!("/ {base}"),
    );
    svg
}

/// One row: name, bar, whisker, median and ratio.
fn bar(row: &Row, base: &str, ratio: f64, top: f64, scale: &Scale) -> String {
    let (middle, upper) = (top + ROW / 2.0, top + (ROW - BAR) / 2.0);
    let (from, to, width) = (
        scale.at(row.lower_quartile),
        scale.at(row.upper_quartile),
        scale.at(row.median) - scale.left,
    );
    let fill = if row.name == base { BASE_FILL } else { FILL };
    let mut svg = text(EDGE, middle, "start", INK, "", &row.name);
    let _ = writeln!(
        svg,
        "<rect x=\"{:.1}\" y=\"{upper:.1}\" width=\"{width:.1}\" height=\"{BAR}\" fill=\"{fill}\"/>",
        scale.left,
    );
    let (cap, foot) = (middle - 5.0, middle + 5.0);
    let _ = writeln!(
        svg,
        "<path d=\"M{from:.1} {cap}V{foot}M{to:.1} {cap}V{foot}M{from:.1} {middle}H{to:.1}\" \
         stroke=\"{INK}\" stroke-width=\"1.5\" fill=\"none\"/>",
    );
    svg += &text(
        MEDIANS_END,
        middle,
        "end",
        INK,
        "font-family=\"monospace\"",
        &format!("{:.3}", row.median),
    );
    svg += &text(
        RATIOS_END,
        middle,
        "end",
        INK,
        "font-family=\"monospace\"",
        &format!("{ratio:.3}"),
    );
    svg
}

/// A line of text whose middle is at the height `y`.
fn text(x: f64, y: f64, anchor: &str, fill: &str, more: &str, words: &str) -> String {
    let gap = if more.is_empty() { "" } else { " " };
    let (y, words) = (y + 4.5, escape(words));
    format!("<text x=\"{x:.1}\" y=\"{y:.1}\" text-anchor=\"{anchor}\" fill=\"{fill}\"{gap}{more}>{words}</text>\n")
}

fn escape(words: &str) -> String {
    words
        .replace('&', "&amp;")
        .replace('<', "&lt;")
        .replace('>', "&gt;")
        .replace('"', "&quot;")
}

/// Milliseconds from 0 to `end`, between two places of the picture.
struct Scale {
    left: f64,
    right: f64,
    end: f64,
    step: f64,
}

impl Scale {
    /// A scale that ends at the first mark at or after `most`; the marks are 1, 2 or 5 times a power of ten apart.
    fn up_to(most: f64, left: f64, right: f64) -> Scale {
        let least = if most > 0.0 { most / MARKS } else { 1.0 };
        let power = 10f64.powf(least.log10().floor());
        let step = [1.0, 2.0, 5.0]
            .map(|times| times * power)
            .into_iter()
            .find(|step| *step >= least);
        let step = step.unwrap_or(10.0 * power);
        Scale {
            left,
            right,
            end: step * (most / step).ceil().max(1.0),
            step,
        }
    }

    fn at(&self, milliseconds: f64) -> f64 {
        self.left + (self.right - self.left) * milliseconds / self.end
    }

    /// A line and a number at each mark.
    fn grid(&self, bottom: f64) -> String {
        let digits = (-self.step.log10().floor()).max(0.0) as usize;
        let mut svg = String::new();
        for mark in 0..=(self.end / self.step).round() as usize {
            let milliseconds = self.step * mark as f64;
            let x = self.at(milliseconds);
            let _ = writeln!(
                svg,
                "<path d=\"M{x:.1} {TOP}V{bottom}\" stroke=\"{GRID}\" fill=\"none\"/>"
            );
            svg += &text(
                x,
                bottom + 14.0,
                "middle",
                QUIET,
                "",
                &format!("{milliseconds:.digits$}"),
            );
        }
        svg + &text(
            (self.left + self.right) / 2.0,
            bottom + 34.0,
            "middle",
            QUIET,
            "",
            "milliseconds",
        )
    }
}
