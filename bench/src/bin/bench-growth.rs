//! bench-growth PROVED FOLDER SVG: how the programs' time grows with certificates and with facts.

use plain::delivery::receive;
use plain::gate::Gate;
use plain::inputs::{chains, limits, wide, Input};
use plain::measure::cases::Files;
use plain::measure::plot::{svg, Panel, Series, Stroke};
use plain::measure::process::best_time;
use plain::measure::sides::{Pair, Sides, PAIRS};
use plain::measure::table::{cell, ratio, Table};
use plain::request::Asked;
use plain::schedule::plain as plain_schedule;
use std::io;
use std::path::Path;

const SIZES: [u16; 4] = [128, 256, 512, 1024];

type Family = (&'static str, &'static str, fn(u16) -> Input);

const FAMILIES: [Family; 3] = [
    ("#1f77b4", "a chain of names, one fact a round", |count| chains::rising(count - 1)),
    ("#d62728", "the most facts about names", wide::facts),
    ("#2ca02c", "the longest sheet", limits::long_sheet),
];

/// What was measured of a pair of programs on one input.
struct Point {
    family: usize,
    pair: Pair,
    certificates: u16,
    facts: usize,
    proved: Option<f64>,
    plain: f64,
}

fn main() -> io::Result<()> {
    let arguments: Vec<String> = std::env::args().skip(1).collect();
    let [proved, folder, plot] = &arguments[..] else {
        return Err(io::Error::other("usage: bench-growth PROVED FOLDER SVG"));
    };
    std::fs::create_dir_all(folder)?;
    let sides = Sides::new(proved)?;
    let mut points = Vec::new();
    for family in 0..FAMILIES.len() {
        for count in SIZES {
            measure(family, count, Path::new(folder), &sides, &mut points)?;
        }
    }
    print(&points);
    let colours: Vec<(&str, String)> =
        FAMILIES.iter().map(|&(colour, text, _)| (colour, text.to_string())).collect();
    let strokes = [
        (Stroke::Solid, "proved"),
        (Stroke::Dashed, "unproved"),
        (Stroke::Dotted, "unproved, fast"),
    ];
    std::fs::write(plot, svg(&panels(&points), 3, &colours, &strokes))?;
    println!("plotted in {plot}");
    Ok(())
}

fn measure(
    family: usize,
    certificates: u16,
    folder: &Path,
    sides: &Sides,
    points: &mut Vec<Point>,
) -> io::Result<()> {
    let mut input = FAMILIES[family].2(certificates);
    input.name = format!("{}-{certificates}", input.name);
    let files = Files::write(&input, folder, sides)?;
    let facts = facts(&input)?;
    for pair in PAIRS {
        let time = |path: &Path| {
            best_time(path, &files.arguments(pair)).map(|time| 1e3 * time.as_secs_f64())
        };
        let proved = sides.proved(pair).map(|path| time(&path)).transpose()?;
        let plain = time(&sides.plain(pair))?;
        points.push(Point { family, pair, certificates, facts, proved, plain });
    }
    Ok(())
}

/// How many facts the rounds show for the input's question.
fn facts(input: &Input) -> io::Result<usize> {
    let mut gate = Gate::new(input.owner);
    receive(&mut gate, &input.events[..], |_| Ok(()))?;
    let asked = Asked { owner: input.owner, house: input.house, right: input.right };
    Ok(plain_schedule::facts(&gate.registry, asked, gate.day))
}

fn print(points: &[Point]) {
    let mut table = Table::new(&[
        "input",
        "programs",
        "certificates",
        "facts",
        "proved ms",
        "plain ms",
        "ratio",
    ]);
    for point in points {
        table.add(vec![
            FAMILIES[point.family].1.to_string(),
            point.pair.to_string(),
            point.certificates.to_string(),
            point.facts.to_string(),
            cell(point.proved, |time| format!("{time:.2}")),
            format!("{:.2}", point.plain),
            ratio(point.proved, Some(point.plain)),
        ]);
    }
    table.print();
}

/// One panel for each program over certificates, and one for each over facts.
fn panels(points: &[Point]) -> Vec<Panel> {
    let mut panels = Vec::new();
    for (across, base) in [("certificates", 2), ("facts", 10)] {
        for program in ["gate", "find", "until"] {
            let of_program: Vec<&Point> =
                points.iter().filter(|point| point.pair.proved() == program).collect();
            let title = format!("{program}: milliseconds over {across}");
            panels.push(Panel { title, across, base, series: series(&of_program, across) });
        }
    }
    panels
}

fn series(points: &[&Point], across: &str) -> Vec<Series> {
    let mut all = Vec::new();
    for (family, &(colour, _, _)) in FAMILIES.iter().enumerate() {
        for pair in PAIRS {
            let these = points.iter().filter(|point| point.family == family && point.pair == pair);
            let x = |point: &Point| match across {
                "facts" => point.facts as f64,
                _ => f64::from(point.certificates),
            };
            let proved: Vec<(f64, f64)> =
                these.clone().filter_map(|point| Some((x(point), point.proved?))).collect();
            let plain: Vec<(f64, f64)> = these.map(|point| (x(point), point.plain)).collect();
            let fast = pair.is_fast();
            if !proved.is_empty() && !fast {
                all.push(Series { colour, stroke: Stroke::Solid, points: proved });
            }
            if !plain.is_empty() {
                let stroke = if fast { Stroke::Dotted } else { Stroke::Dashed };
                all.push(Series { colour, stroke, points: plain });
            }
        }
    }
    all
}
