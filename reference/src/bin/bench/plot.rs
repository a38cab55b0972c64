//! The times as a picture: a panel for each call, the engine's line solid and the baseline's dashed.

use crate::cases::LINES;
use crate::timing::Times;
use crate::Measured;
use std::fmt::Write;

const COLUMNS: usize = 3;
/// A panel with its title and axes, and the part of it that has the lines.
const PANEL: (f64, f64) = (320.0, 270.0);
const LEFT: f64 = 58.0;
const TOP: f64 = 34.0;
const WIDTH: f64 = 240.0;
const HEIGHT: f64 = 180.0;
/// What stands above the panels.
const HEAD: f64 = 62.0;

const ENGINE: &str = "stroke=\"#1b5e9c\" stroke-width=\"2\"";
const BASELINE: &str = "stroke=\"#c2571a\" stroke-width=\"2\" stroke-dasharray=\"6 4\"";

/// The picture of all calls.
pub fn picture(measured: &[Measured]) -> String {
    let drawn: Vec<&Measured> = measured.iter().filter(|row| row.is_drawn()).collect();
    let rows = drawn.len().div_ceil(COLUMNS) as f64;
    let (width, height) = (PANEL.0 * COLUMNS as f64, HEAD + PANEL.1 * rows);
    let mut svg = format!(
        "<svg xmlns=\"http://www.w3.org/2000/svg\" viewBox=\"0 0 {width} {height}\" width=\"{width}\" height=\"{height}\" \
         font-family=\"sans-serif\" font-size=\"12\" fill=\"#222\">\n\
         <rect width=\"{width}\" height=\"{height}\" fill=\"#fff\"/>\n"
    );
    svg += &legend();
    for (i, row) in drawn.iter().enumerate() {
        let x = (i % COLUMNS) as f64 * PANEL.0;
        let y = HEAD + (i / COLUMNS) as f64 * PANEL.1;
        writeln!(svg, "<g transform=\"translate({x} {y})\">").unwrap();
        svg += &panel(row.name, &row.times);
        svg += "</g>\n";
    }
    svg + "</svg>\n"
}

fn legend() -> String {
    let head = "Time of one call by the number of record lines; coordinator lines twice as many, at most 999";
    format!(
        "{}<line x1=\"58\" y1=\"44\" x2=\"98\" y2=\"44\" {ENGINE}/>\n{}\
         <line x1=\"180\" y1=\"44\" x2=\"220\" y2=\"44\" {BASELINE}/>\n{}",
        text(58.0, 22.0, "start", head),
        text(104.0, 48.0, "start", "engine"),
        text(226.0, 48.0, "start", "baseline: safe Rust tuned by hand"),
    )
}

fn text(x: f64, y: f64, anchor: &str, words: &str) -> String {
    format!("<text x=\"{x:.1}\" y=\"{y:.1}\" text-anchor=\"{anchor}\">{words}</text>\n")
}

/// One call: its name, both axes, the lines and the ratio at the largest sheets.
fn panel(name: &str, times: &[Times]) -> String {
    let step = tick_step(most_of(times));
    let ticks = (most_of(times) / step).ceil().max(1.0);
    let scale = Scale { top: ticks * step };
    let ratio = times.last().map_or(0.0, |t| t.ratio);
    let mut svg = text(LEFT, 18.0, "start", name);
    for tick in 0..=ticks as usize {
        svg += &y_tick(&scale, tick as f64 * step);
    }
    for lines in (0..=500).step_by(100) {
        svg += &x_tick(lines);
    }
    svg += &text(
        LEFT + WIDTH / 2.0,
        TOP + HEIGHT + 36.0,
        "middle",
        "record lines",
    );
    svg += &text(LEFT - 8.0, TOP - 16.0, "end", "µs");
    // The lines rise from the left, so that this corner is free.
    let ratio = format!("{ratio:.2} times the baseline at 500");
    svg += &text(LEFT + 8.0, TOP + 18.0, "start", &ratio);
    svg += &scale.line(times.iter().map(|t| t.other), BASELINE);
    svg + &scale.line(times.iter().map(|t| t.engine), ENGINE)
}

/// The longest time in microseconds.
fn most_of(times: &[Times]) -> f64 {
    let most = times.iter().map(|t| t.engine.max(t.other) / 1e3);
    most.fold(0.0, f64::max)
}

/// A step of 1, 2 or 5 times a power of ten that parts the axis into 3 to 7.
fn tick_step(most: f64) -> f64 {
    let rough = most / 5.0;
    let power = 10f64.powf(rough.log10().floor());
    let factor = [1.0, 2.0, 5.0, 10.0].into_iter();
    let mut fitting = factor.filter(|factor| factor * power >= rough);
    fitting.next().unwrap_or(10.0) * power
}

fn y_tick(scale: &Scale, value: f64) -> String {
    let y = scale.y(value);
    let right = LEFT + WIDTH;
    let line = format!(
        "<line x1=\"{LEFT}\" y1=\"{y:.1}\" x2=\"{right}\" y2=\"{y:.1}\" stroke=\"#ddd\"/>\n"
    );
    // Rounded, so that steps of a tenth print as such.
    let words = ((value * 1e3).round() / 1e3).to_string();
    line + &text(LEFT - 8.0, y + 4.0, "end", &words)
}

fn x_tick(lines: usize) -> String {
    let (x, foot) = (Scale::x(lines), TOP + HEIGHT);
    let end = foot + 5.0;
    let line =
        format!("<line x1=\"{x:.1}\" y1=\"{foot}\" x2=\"{x:.1}\" y2=\"{end}\" stroke=\"#222\"/>\n");
    line + &text(x, foot + 19.0, "middle", &lines.to_string())
}

/// Where times and numbers of lines lie in a panel.
struct Scale {
    /// Microseconds at the upper end of the axis.
    top: f64,
}

impl Scale {
    fn x(lines: usize) -> f64 {
        LEFT + lines as f64 * WIDTH / 500.0
    }

    fn y(&self, microseconds: f64) -> f64 {
        TOP + HEIGHT * (1.0 - microseconds / self.top)
    }

    /// A line through the times in nanoseconds at each number of lines.
    fn line(&self, times: impl Iterator<Item = f64>, style: &str) -> String {
        let points = LINES.iter().zip(times);
        let point = |(lines, time): (&usize, f64)| {
            format!("{:.1},{:.1}", Scale::x(*lines), self.y(time / 1e3))
        };
        let points: Vec<String> = points.map(point).collect();
        let points = points.join(" ");
        format!("<polyline points=\"{points}\" fill=\"none\" {style}/>\n")
    }
}
