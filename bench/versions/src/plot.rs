//! The plot of misses against load, as SVG.

use crate::results::{Results, LOADS};
use crate::table::grouped;

const WIDTH: u32 = 820;
const HEIGHT: u32 = 500;
/// The frame of the plot within the picture.
const LEFT: f64 = 110.0;
const RIGHT: f64 = 590.0;
const TOP: f64 = 60.0;
const FOOT: f64 = 420.0;

/// The lines across: none, one, and each ten times the one below it.
const MARKS: [usize; 7] = [0, 1, 10, 100, 1_000, 10_000, 100_000];

/// One colour, one kind of line and one shape for each version, so that they can be
/// told apart in grey too.
const COLOURS: [&str; 4] = ["#b45f06", "#1f5fa8", "#a61c3c", "#2b7a3d"];
const DASHES: [&str; 4] = ["8 4", "3 3", "12 3 3 3", "none"];
const SHAPES: [&str; 4] = [
    "m-6,-6 h12 v12 h-12 z",
    "m0,-6 l6,11 h-12 z",
    "m0,-7 l7,7 l-7,7 l-7,-7 z",
    "m-8,0 a8,8 0 1,0 16,0 a8,8 0 1,0 -16,0 z",
];

pub fn plot(results: &Results) -> String {
    let mut svg = format!(
        "<svg xmlns=\"http://www.w3.org/2000/svg\" viewBox=\"0 0 {WIDTH} {HEIGHT}\" \
         width=\"{WIDTH}\" height=\"{HEIGHT}\" font-family=\"sans-serif\" font-size=\"15\">\n\
         <title>Jobs that miss, by load and version</title>\n\
         <rect width=\"{WIDTH}\" height=\"{HEIGHT}\" fill=\"#fffdf8\"/>\n"
    );
    svg += &text(350.0, 32.0, "middle", "#222", "Jobs that miss, of 100,000");
    svg += &text(
        350.0,
        472.0,
        "middle",
        "#222",
        "load: rates in percent of the cores",
    );
    svg += &across();
    svg += &along();
    // The planner's line lies at the foot; the others are drawn over it.
    for player in (0..results.players.len()).rev() {
        svg += &curve(results, player);
        svg += &legend(results.players[player], player);
    }
    svg + "</svg>\n"
}

fn across() -> String {
    let mut svg = String::new();
    for mark in MARKS {
        let y = height(mark);
        svg += &format!(
            "<line x1=\"{LEFT}\" y1=\"{y:.1}\" x2=\"{RIGHT}\" y2=\"{y:.1}\" stroke=\"#d5d0c4\"/>\n"
        );
        svg += &text(LEFT - 24.0, y + 5.0, "end", "#444", &grouped(mark));
    }
    svg
}

fn along() -> String {
    let mut svg = String::new();
    for (load, percent) in LOADS.iter().enumerate() {
        let x = across_at(load);
        let foot = FOOT + 26.0;
        svg += &text(x, foot, "middle", "#444", &format!("{percent} %"));
    }
    svg
}

fn curve(results: &Results, player: usize) -> String {
    let (colour, dashes) = (COLOURS[player], DASHES[player]);
    let mut points = String::new();
    let mut shapes = String::new();
    for load in 0..LOADS.len() {
        let outcome = results.at_load(load, player);
        let (x, y) = (
            across_at(load),
            height(per_100_000(outcome.misses, outcome.jobs)),
        );
        points += &format!("{x:.1},{y:.1} ");
        shapes += &shape(x, y, player);
    }
    let points = points.trim_end();
    format!(
        "<polyline points=\"{points}\" fill=\"none\" stroke=\"{colour}\" stroke-width=\"2.5\" \
         stroke-dasharray=\"{dashes}\"/>\n{shapes}"
    )
}

fn legend(name: &str, player: usize) -> String {
    let (x, y) = (RIGHT + 40.0, TOP + 40.0 + 34.0 * player as f64);
    let (end, colour, dashes) = (x + 44.0, COLOURS[player], DASHES[player]);
    let line = format!(
        "<line x1=\"{x}\" y1=\"{y}\" x2=\"{end}\" y2=\"{y}\" stroke=\"{colour}\" \
         stroke-width=\"2.5\" stroke-dasharray=\"{dashes}\"/>\n"
    );
    line + &shape(x + 22.0, y, player) + &text(end + 12.0, y + 5.0, "start", "#222", name)
}

/// The mark of a version, with its middle at this place.
fn shape(x: f64, y: f64, player: usize) -> String {
    let (colour, shape) = (COLOURS[player], SHAPES[player]);
    format!("<path d=\"M{x:.1},{y:.1} {shape}\" fill=\"{colour}\"/>\n")
}

fn text(x: f64, y: f64, anchor: &str, colour: &str, words: &str) -> String {
    format!(
        "<text x=\"{x:.1}\" y=\"{y:.1}\" text-anchor=\"{anchor}\" fill=\"{colour}\">{words}</text>\n"
    )
}

fn per_100_000(misses: usize, jobs: usize) -> usize {
    (misses * 100_000).div_ceil(jobs)
}

fn across_at(load: usize) -> f64 {
    LEFT + (RIGHT - LEFT) * load as f64 / (LOADS.len() - 1) as f64
}

/// 0 at the foot, 1 one step above it, and a step for each tenfold.
fn height(misses: usize) -> f64 {
    let steps = match misses {
        0 => 0.0,
        _ => 1.0 + (misses as f64).log10(),
    };
    FOOT - (FOOT - TOP) * steps / (MARKS.len() - 1) as f64
}
