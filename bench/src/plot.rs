//! docs/growth.svg: how the cost of a call grows with the pending jobs.

use std::fmt::Write;

use crate::calls::Call;
use crate::timing::{time, Times};

const ROUNDS: usize = 51;
const PASSES: usize = 100;
const MOST_JOBS: u64 = 64;

const TITLE: &str = "How the cost of a call grows with the pending jobs";

/// The drawing and, inside of it, the field between the axes.
const WIDTH: f64 = 900.0;
const HEIGHT: f64 = 540.0;
const LEFT: f64 = 80.0;
const RIGHT: f64 = 870.0;
const TOP: f64 = 60.0;
const BOTTOM: f64 = 470.0;

/// One line of the drawing: a time in nanoseconds for each number of pending jobs.
struct Line {
    name: &'static str,
    colour: &'static str,
    dashes: &'static str,
    points: Vec<(u64, f64)>,
}

/// Times a call for each number of pending jobs; a release counts the job that it adds.
fn pass(call: Call) -> Vec<(u64, Times)> {
    let fewest = u64::from(call == Call::Release);
    (fewest..=MOST_JOBS)
        .map(|jobs| (jobs, time(call, &call.board(jobs), ROUNDS)))
        .collect()
}

/// The least of many medians at each point, taken in passes over all points: what else the machine
/// did during some of the passes is not drawn.
fn measured() -> [Vec<(u64, Times)>; 2] {
    let calls = [Call::Advance, Call::Release];
    let mut least = calls.map(pass);
    for _ in 1..PASSES {
        let now = calls.into_iter().flat_map(pass);
        for (so_far, (_, now)) in least.iter_mut().flatten().zip(now) {
            so_far.1 = so_far.1.least(now);
        }
    }
    least
}

/// Which of the three times a line shows.
type Column = fn(&Times) -> f64;
const PLANNER: Column = |times| times.planner;
const SECOND: Column = |times| times.second;
const READ: Column = |times| times.read;

fn lines() -> [Line; 5] {
    let [advance, release] = measured();
    let line = |name, colour, dashes, times: &[(u64, Times)], column: Column| Line {
        name,
        colour,
        dashes,
        points: times
            .iter()
            .map(|(jobs, times)| (*jobs, column(times)))
            .collect(),
    };
    let (blue, orange, grey) = ("#1b4f9c", "#c2570c", "#555555");
    [
        line("planner, release", blue, "7 4", &release, PLANNER),
        line(
            "planner, advance to the boundary",
            blue,
            "",
            &advance,
            PLANNER,
        ),
        line("second library, release", orange, "7 4", &release, SECOND),
        line(
            "second library, advance to the boundary",
            orange,
            "",
            &advance,
            SECOND,
        ),
        line("a plain read of 16 KiB", grey, "2 3", &advance, READ),
    ]
}

fn across(jobs: u64) -> f64 {
    LEFT + (RIGHT - LEFT) * jobs as f64 / MOST_JOBS as f64
}

fn up(nanoseconds: f64, most: f64) -> f64 {
    BOTTOM - (BOTTOM - TOP) * nanoseconds / most
}

fn text(svg: &mut String, x: f64, y: f64, anchor: &str, words: &str) {
    writeln!(
        svg,
        r#"<text x="{x:.1}" y="{y:.1}" text-anchor="{anchor}">{words}</text>"#
    )
    .unwrap();
}

fn stroke(svg: &mut String, from: (f64, f64), to: (f64, f64), colour: &str, dashes: &str) {
    let ((x1, y1), (x2, y2)) = (from, to);
    writeln!(
        svg,
        r#"<line x1="{x1:.1}" y1="{y1:.1}" x2="{x2:.1}" y2="{y2:.1}" stroke="{colour}" {}/>"#,
        dashed(dashes)
    )
    .unwrap();
}

/// The attribute for a line's dashes, none for a solid one.
fn dashed(dashes: &str) -> String {
    match dashes {
        "" => String::new(),
        _ => format!(r#"stroke-dasharray="{dashes}""#),
    }
}

/// The axes with their labels. `step` is the distance of the marks upwards, in nanoseconds.
fn axes(svg: &mut String, most: f64, step: f64) {
    for jobs in (0..=MOST_JOBS).step_by(8) {
        stroke(
            svg,
            (across(jobs), TOP),
            (across(jobs), BOTTOM),
            "#e4e4e4",
            "",
        );
        text(
            svg,
            across(jobs),
            BOTTOM + 20.0,
            "middle",
            &jobs.to_string(),
        );
    }
    for mark in 0..=(most / step) as u64 {
        let y = up(mark as f64 * step, most);
        stroke(svg, (LEFT, y), (RIGHT, y), "#e4e4e4", "");
        text(
            svg,
            LEFT - 8.0,
            y + 5.0,
            "end",
            &format!("{:.1}", mark as f64 * step / 1000.0),
        );
    }
    stroke(svg, (LEFT, BOTTOM), (RIGHT, BOTTOM), "#222222", "");
    stroke(svg, (LEFT, TOP), (LEFT, BOTTOM), "#222222", "");
    text(
        svg,
        (LEFT + RIGHT) / 2.0,
        BOTTOM + 48.0,
        "middle",
        "pending jobs, each with a row of its own",
    );
    text(
        svg,
        LEFT - 8.0,
        TOP - 14.0,
        "start",
        "microseconds for one call",
    );
}

/// A line, and its entry in the legend.
fn draw(svg: &mut String, line: &Line, place: usize, most: f64) {
    let points: Vec<String> = line
        .points
        .iter()
        .map(|&(jobs, time)| format!("{:.1},{:.1}", across(jobs), up(time, most)))
        .collect();
    writeln!(
        svg,
        r#"<polyline fill="none" stroke-width="2" stroke="{}" {} points="{}"/>"#,
        line.colour,
        dashed(line.dashes),
        points.join(" ")
    )
    .unwrap();
    let y = TOP + 20.0 + 22.0 * place as f64;
    stroke(
        svg,
        (LEFT + 20.0, y),
        (LEFT + 64.0, y),
        line.colour,
        line.dashes,
    );
    text(svg, LEFT + 74.0, y + 5.0, "start", line.name);
}

pub fn write() {
    let lines = lines();
    let highest = lines
        .iter()
        .flat_map(|line| &line.points)
        .map(|point| point.1)
        .fold(0.0, f64::max);
    let step = if highest > 5000.0 { 1000.0 } else { 500.0 };
    let most = (highest / step).ceil() * step;
    let mut svg = format!(
        r##"<svg xmlns="http://www.w3.org/2000/svg" viewBox="0 0 {WIDTH} {HEIGHT}"
     font-family="sans-serif" font-size="14" fill="#222222">
<title>{TITLE}</title>
<rect width="{WIDTH}" height="{HEIGHT}" fill="#ffffff"/>
"##
    );
    text(&mut svg, WIDTH / 2.0, 24.0, "middle", TITLE);
    axes(&mut svg, most, step);
    for (place, line) in lines.iter().enumerate() {
        draw(&mut svg, line, place, most);
    }
    svg.push_str("</svg>\n");
    let file = concat!(env!("CARGO_MANIFEST_DIR"), "/../docs/growth.svg");
    std::fs::write(file, svg).expect("docs/growth.svg can be written");
    println!("wrote docs/growth.svg");
}
