//! The pictures, as SVG: ratios file by file, and cost by file size.

use super::measure::{Row, VERSIONS};
use super::Measured;
use second::benchmark::worst::KINDS;
use std::fmt::Write;

/// Colours that differ for the colour-blind too: proved, fast, second, yardstick.
const COLOURS: [&str; 4] = ["#0072b2", "#d55e00", "#7f7f7f", "#009e73"];

struct Picture {
    body: String,
    width: f64,
    height: f64,
}

impl Picture {
    fn new(width: f64, height: f64) -> Picture {
        Picture { body: String::new(), width, height }
    }

    fn line(&mut self, from: (f64, f64), to: (f64, f64), colour: &str, width: f64) {
        let ((x, y), (u, v)) = (from, to);
        let _ = writeln!(
            self.body,
            "<line x1=\"{x:.1}\" y1=\"{y:.1}\" x2=\"{u:.1}\" y2=\"{v:.1}\" stroke=\"{colour}\" stroke-width=\"{width}\"/>"
        );
    }

    fn dot(&mut self, (x, y): (f64, f64), colour: &str) {
        let _ = writeln!(self.body, "<circle cx=\"{x:.1}\" cy=\"{y:.1}\" r=\"4\" fill=\"{colour}\"/>");
    }

    /// `anchor` is start, middle or end.
    fn text(&mut self, (x, y): (f64, f64), anchor: &str, bold: bool, text: &str) {
        let weight = if bold { " font-weight=\"bold\"" } else { "" };
        let _ = writeln!(self.body, "<text x=\"{x:.1}\" y=\"{y:.1}\" text-anchor=\"{anchor}\"{weight}>{text}</text>");
    }

    /// A dot and its meaning; where the next may start.
    fn key(&mut self, (x, y): (f64, f64), colour: &str, text: &str) -> f64 {
        self.dot((x, y - 4.0), colour);
        self.text((x + 10.0, y), "start", false, text);
        x + 34.0 + 6.6 * text.chars().count() as f64
    }

    fn finish(self) -> String {
        let (w, h) = (self.width, self.height);
        format!(
            "<svg xmlns=\"http://www.w3.org/2000/svg\" viewBox=\"0 0 {w:.0} {h:.0}\" width=\"{w:.0}\" height=\"{h:.0}\" \
             font-family=\"sans-serif\" font-size=\"12\" fill=\"#222222\">\n\
             <rect width=\"{w:.0}\" height=\"{h:.0}\" fill=\"#ffffff\"/>\n{}</svg>\n",
            self.body
        )
    }
}

/// A logarithmic axis from `low` at `start` to `high` at `end`.
struct Axis {
    low: f64,
    high: f64,
    start: f64,
    end: f64,
}

impl Axis {
    fn at(&self, value: f64) -> f64 {
        let part = (value / self.low).ln() / (self.high / self.low).ln();
        self.start + part * (self.end - self.start)
    }

    /// The powers of ten on it.
    fn tens(&self) -> Vec<f64> {
        let (first, last) = (self.low.log10().ceil() as i32, self.high.log10().floor() as i32);
        (first..=last).map(|n| 10f64.powi(n)).collect()
    }
}

/// The powers of ten around some numbers.
fn around(numbers: &[f64]) -> (f64, f64) {
    let least = numbers.iter().copied().fold(f64::INFINITY, f64::min);
    let most = numbers.iter().copied().fold(0.0, f64::max);
    (10f64.powf(least.log10().floor()), 10f64.powf(most.log10().ceil()))
}

/// The ratios of a file with their colours: to second, yardstick, fast, so that the last is drawn on top.
fn dots(row: &Row) -> Vec<(f64, &'static str)> {
    let mut dots = vec![(row.ratio(2), COLOURS[2])];
    dots.extend(row.yardstick_ratio().map(|ratio| (ratio, COLOURS[3])));
    dots.push((row.ratio(1), COLOURS[1]));
    dots
}

pub fn ratios(m: &Measured) -> String {
    let groups = [("Usual files", &m.usual), ("Worst files", &m.worst)];
    let count: usize = groups.iter().map(|(_, rows)| rows.len() + 1).sum();
    let (left, top, step) = (170.0, 70.0, 19.0);
    let bottom = top + step * count as f64;
    let mut picture = Picture::new(760.0, bottom + 48.0);
    let all: Vec<f64> = groups.iter().flat_map(|(_, rows)| rows.iter()).flat_map(dots).map(|(ratio, _)| ratio).collect();
    let (low, high) = around(&all);
    let axis = Axis { low, high, start: left, end: 740.0 };
    picture.text((20.0, 24.0), "start", true, "Instructions of one check: the proved check's ÷ those of");
    let mut x = 30.0;
    for (colour, text) in [(1, "the fast version"), (3, "the yardstick"), (2, "the second implementation")] {
        x = picture.key((x, 48.0), COLOURS[colour], text);
    }
    for ten in axis.tens() {
        let (x, one) = (axis.at(ten), ten == 1.0);
        picture.line((x, top - 8.0), (x, bottom), if one { "#222222" } else { "#dddddd" }, 1.0);
        picture.text((x, bottom + 18.0), "middle", false, &format!("{ten}"));
    }
    picture.text((axis.at(1.0) - 6.0, bottom + 36.0), "end", false, "← the proved check takes fewer");
    picture.text((axis.at(1.0) + 6.0, bottom + 36.0), "start", false, "it takes more →");
    let mut y = top;
    for (title, rows) in groups {
        picture.text((20.0, y + 8.0), "start", true, title);
        y += step;
        for row in rows {
            file_row(&mut picture, &axis, row, y);
            y += step;
        }
    }
    picture.finish()
}

fn file_row(picture: &mut Picture, axis: &Axis, row: &Row, y: f64) {
    let name = row.name.trim_end_matches(".bin").trim_end_matches(".cert");
    picture.text((axis.start - 12.0, y + 4.0), "end", false, name);
    picture.line((axis.start, y), (axis.end, y), "#eeeeee", 1.0);
    for (ratio, colour) in dots(row) {
        picture.dot((axis.at(ratio), y), colour);
    }
}

/// A panel for the chains of usual files, then one for each kind.
pub fn growth(m: &Measured) -> String {
    let chain = |row: &&Row| row.name.contains("out0") && !row.name.contains("raw") && !row.name.contains("fig");
    let mut usual: Vec<Row> = m.usual.iter().filter(chain).cloned().collect();
    usual.sort_by_key(|row| row.bytes);
    let mut panels = vec![("mailbox chains (usual)", usual)];
    panels.extend(KINDS.iter().zip(&m.growing).map(|(kind, rows)| (kind.name, rows.clone())));
    let (width, height) = (230.0, 210.0);
    let rows = panels.len().div_ceil(4);
    let mut picture = Picture::new(4.0 * width + 20.0, rows as f64 * height + 70.0);
    picture.text((20.0, 24.0), "start", true, "Instructions of one check by file size in KiB; both scales are logarithmic");
    let mut x = 30.0;
    for (version, text) in VERSIONS.iter().enumerate() {
        x = picture.key((x, 48.0), COLOURS[version], text);
    }
    let all = |panel: &(&str, Vec<Row>)| panel.1.iter().flat_map(|row| row.instructions).map(|n| n as f64).collect::<Vec<_>>();
    let (low, high) = around(&panels.iter().flat_map(all).collect::<Vec<_>>());
    for (i, (name, rows)) in panels.iter().enumerate() {
        let corner = (10.0 + width * (i % 4) as f64, 64.0 + height * (i / 4) as f64);
        panel(&mut picture, corner, name, rows, (low, high));
    }
    picture.finish()
}

fn panel(picture: &mut Picture, (x, y): (f64, f64), name: &str, rows: &[Row], (low, high): (f64, f64)) {
    let across = Axis { low: 1.0, high: 36.0, start: x + 46.0, end: x + 215.0 };
    let up = Axis { low, high, start: y + 172.0, end: y + 24.0 };
    picture.text((across.start, y + 14.0), "start", true, name);
    for ten in up.tens() {
        picture.line((across.start, up.at(ten)), (across.end, up.at(ten)), "#dddddd", 1.0);
        picture.text((across.start - 4.0, up.at(ten) + 4.0), "end", false, &short(ten));
    }
    for size in [1.0, 2.0, 4.0, 8.0, 16.0, 32.0] {
        picture.line((across.at(size), up.start), (across.at(size), up.end), "#eeeeee", 1.0);
        picture.text((across.at(size), up.start + 16.0), "middle", false, &format!("{size}"));
    }
    for version in [2, 1, 0] {
        let place = |row: &Row| (across.at(row.bytes as f64 / 1024.0), up.at(row.instructions[version] as f64));
        let places: Vec<(f64, f64)> = rows.iter().map(place).collect();
        for pair in places.windows(2) {
            picture.line(pair[0], pair[1], COLOURS[version], 2.0);
        }
        places.iter().for_each(|at| picture.dot(*at, COLOURS[version]));
    }
}

/// 10k, 1M, 1G.
fn short(n: f64) -> String {
    match n {
        n if n >= 1e9 => format!("{}G", n / 1e9),
        n if n >= 1e6 => format!("{}M", n / 1e6),
        n if n >= 1e3 => format!("{}k", n / 1e3),
        n => format!("{n}"),
    }
}
