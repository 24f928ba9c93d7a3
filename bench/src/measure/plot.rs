//! Plots with two logarithmic axes, as SVG.

use std::fmt::Write;

#[derive(Clone, Copy, PartialEq, Eq)]
pub enum Stroke {
    Solid,
    Dashed,
    Dotted,
}

/// A line through points, in a colour and with a stroke.
pub struct Series {
    pub colour: &'static str,
    pub stroke: Stroke,
    pub points: Vec<(f64, f64)>,
}

pub struct Panel {
    pub title: String,
    pub across: &'static str,
    /// The ticks across are its powers.
    pub base: i32,
    pub series: Vec<Series>,
}

const WIDTH: f64 = 300.0;
const HEIGHT: f64 = 220.0;
const LEFT: f64 = 60.0;
const TOP: f64 = 40.0;
const CELL: (f64, f64) = (WIDTH + 90.0, HEIGHT + 100.0);

/// The powers of a base around some values, as exponents.
struct Axis {
    base: i32,
    low: f64,
    high: f64,
}

impl Axis {
    fn around(base: i32, values: impl Iterator<Item = f64> + Clone) -> Axis {
        // Rounded, so that a power itself is not taken for a little more or less.
        let log = |value: f64| (value.log(f64::from(base)) * 1e6).round() / 1e6;
        let low = log(values.clone().fold(f64::INFINITY, f64::min)).floor();
        let high = log(values.fold(0.0, f64::max)).ceil();
        match low.is_finite() && high.is_finite() && low < high {
            true => Axis { base, low, high },
            false => Axis { base, low: 0.0, high: 1.0 },
        }
    }

    /// Where a value lies between the axis's ends, from 0 to 1.
    fn place(&self, value: f64) -> f64 {
        (value.log(f64::from(self.base)) - self.low) / (self.high - self.low)
    }

    fn ticks(&self) -> impl Iterator<Item = f64> {
        let base = f64::from(self.base);
        (self.low as i32..=self.high as i32).map(move |power| base.powi(power))
    }
}

/// Panels in rows of so many, with a legend of colours and one of strokes below them.
pub fn svg(
    panels: &[Panel],
    columns: usize,
    colours: &[(&str, String)],
    strokes: &[(Stroke, &str)],
) -> String {
    let rows = panels.len().div_ceil(columns);
    let (wide, high) = (CELL.0 * columns as f64, CELL.1 * rows as f64 + 60.0);
    let mut out = format!(
        "<svg xmlns=\"http://www.w3.org/2000/svg\" viewBox=\"0 0 {wide} {high}\" \
         font-family=\"sans-serif\" font-size=\"11\">\n\
         <rect width=\"100%\" height=\"100%\" fill=\"white\"/>\n"
    );
    for (at, each) in panels.iter().enumerate() {
        let (x, y) = (CELL.0 * (at % columns) as f64 + LEFT, CELL.1 * (at / columns) as f64 + TOP);
        let _ = writeln!(out, "<g transform=\"translate({x} {y})\">\n{}</g>", panel(each));
    }
    let _ = writeln!(out, "{}</svg>", legend(colours, strokes, CELL.1 * rows as f64));
    out
}

fn panel(panel: &Panel) -> String {
    let points = panel.series.iter().flat_map(|series| series.points.iter());
    let across = Axis::around(panel.base, points.clone().map(|point| point.0));
    let up = Axis::around(10, points.map(|point| point.1));
    let mut out = format!("<text x=\"0\" y=\"-14\" font-size=\"13\">{}</text>\n", panel.title);
    out += &grid(&across, &up);
    let (middle, below) = (WIDTH / 2.0, HEIGHT + 34.0);
    let _ = writeln!(out, "{}", text(middle, below, "middle", panel.across));
    for series in &panel.series {
        let place = |&(x, y): &(f64, f64)| {
            format!("{:.1},{:.1}", WIDTH * across.place(x), HEIGHT * (1.0 - up.place(y)))
        };
        let points: Vec<String> = series.points.iter().map(place).collect();
        let look = look(series.colour, series.stroke);
        let _ = writeln!(out, "<polyline points=\"{}\" {look}/>", points.join(" "));
    }
    out
}

/// A line and a number at each tick.
fn grid(across: &Axis, up: &Axis) -> String {
    let mut out = String::new();
    for tick in across.ticks() {
        let x = WIDTH * across.place(tick);
        let _ = writeln!(out, "<path d=\"M{x:.1} 0V{HEIGHT}\" stroke=\"#ddd\"/>");
        let _ = writeln!(out, "{}", text(x, HEIGHT + 16.0, "middle", tick));
    }
    for tick in up.ticks() {
        let y = HEIGHT * (1.0 - up.place(tick));
        let _ = writeln!(out, "<path d=\"M0 {y:.1}H{WIDTH}\" stroke=\"#ddd\"/>");
        let _ = writeln!(out, "{}", text(-6.0, y + 4.0, "end", tick));
    }
    out
}

fn text(x: f64, y: f64, anchor: &str, what: impl std::fmt::Display) -> String {
    format!("<text x=\"{x:.1}\" y=\"{y:.1}\" text-anchor=\"{anchor}\">{what}</text>")
}

fn look(colour: &str, stroke: Stroke) -> String {
    let dashes = match stroke {
        Stroke::Solid => "none",
        Stroke::Dashed => "7 4",
        Stroke::Dotted => "2 3",
    };
    format!("fill=\"none\" stroke=\"{colour}\" stroke-width=\"1.8\" stroke-dasharray=\"{dashes}\"")
}

fn legend(colours: &[(&str, String)], strokes: &[(Stroke, &str)], top: f64) -> String {
    let colours = colours.iter().map(|(colour, text)| (look(colour, Stroke::Solid), text.as_str()));
    let strokes = strokes.iter().map(|&(stroke, text)| (look("#333", stroke), text));
    let rows: [Vec<(String, &str)>; 2] = [colours.collect(), strokes.collect()];
    let mut out = String::new();
    for (row, entries) in rows.into_iter().enumerate() {
        for (at, (look, what)) in entries.into_iter().enumerate() {
            let (x, y) = (LEFT + 260.0 * at as f64, top + 10.0 + 22.0 * row as f64);
            let _ = writeln!(out, "<path d=\"M{x} {y}h30\" {look}/>");
            let _ = writeln!(out, "{}", text(x + 38.0, y + 4.0, "start", what));
        }
    }
    out
}
