//! What grows with the senders at an endpoint and what does not, as a picture.

use crate::figures::{Figures, Step};
use crate::markdown::Report;
use crate::measure::Work;
use crate::scenes::SENDERS;
use comparison::grouped;

const WIDTH: f64 = 760.0;
const HEIGHT: f64 = 560.0;
const LEFT: f64 = 70.0;
const RIGHT: f64 = 540.0;
const PANEL: f64 = 190.0;

/// The marks under a panel; those of fewer senders would touch.
const MARKED: [u32; 5] = [1, 32, 64, 128, 255];

const STYLE: &str = "text{font:13px sans-serif;fill:#222}.title{font-weight:bold}\
    .mark{stroke:#ddd}.axis{stroke:#222}polyline{fill:none;stroke-width:2}";

struct Line {
    name: &'static str,
    colour: &'static str,
    /// How far its name stands below its end.
    lower: f64,
    /// Instructions, for each number of senders, from one of these on.
    from: usize,
    counts: Vec<f64>,
}

/// Lines over one axis, from 0.
struct Panel {
    title: &'static str,
    top: f64,
    most: f64,
    every: usize,
    lines: Vec<Line>,
}

/// The picture, if the instructions are counted.
pub fn svg(report: &Report) -> Option<String> {
    let panels = [check(report)?, steps(report)?].map(|panel| panel.svg()).concat();
    let under = HEIGHT - 12.0;
    let middle = (LEFT + RIGHT) / 2.0;
    let name = text(middle, under, "middle", "senders that wait at the endpoint");
    Some(format!(
        "<svg xmlns=\"http://www.w3.org/2000/svg\" viewBox=\"0 0 {WIDTH} {HEIGHT}\" \
         width=\"{WIDTH}\" height=\"{HEIGHT}\">\n<style>{STYLE}</style>\n\
         <rect width=\"{WIDTH}\" height=\"{HEIGHT}\" fill=\"#fff\"/>\n{panels}{name}</svg>\n"
    ))
}

fn counts(report: &Report, what: usize, count: fn(&Figures) -> Option<f64>) -> Option<Vec<f64>> {
    (0..SENDERS.len()).map(|length| count(report.queue(length, what))).collect()
}

fn check(report: &Report) -> Option<Panel> {
    let counts = counts(report, 0, |figures| figures.count(Work::Check))?;
    let lines = vec![Line { name: "check", colour: "#1b6ca8", lower: 4.0, from: 0, counts }];
    let title = "The check, which every call begins with: instructions";
    Some(Panel { title, top: 40.0, most: 80_000.0, every: 20_000, lines })
}

/// With a single sender nothing is left to do after one look or removal, and the
/// call ends the abort or the deletion too.
fn steps(report: &Report) -> Option<Panel> {
    let line = |what, name, colour, lower| {
        let counts = counts(report, what, |figures| figures.step_count(Step::Core))?;
        Some(Line { name, colour, lower, from: 1, counts })
    };
    let lines = vec![
        line(1, "abort, one look, removed", "#c0392b", 4.0)?,
        line(0, "abort, one look, kept", "#2e8b57", -2.0)?,
        line(2, "delete, one removal", "#8e44ad", 12.0)?,
    ];
    let title = "A call after its check, broken off: instructions";
    Some(Panel { title, top: 300.0, most: 400.0, every: 100, lines })
}

impl Panel {
    fn svg(&self) -> String {
        let mut svg = format!(
            "<text class=\"title\" x=\"{LEFT}\" y=\"{}\">{}</text>\n",
            self.top - 14.0,
            self.title
        );
        for count in (0..=self.most as usize).step_by(self.every) {
            let y = self.y(count as f64);
            svg += &stroke("mark", LEFT, y, RIGHT, y);
            svg += &text(LEFT - 8.0, y + 4.0, "end", &grouped(count as u64));
        }
        let bottom = self.y(0.0);
        svg += &stroke("axis", LEFT, bottom, RIGHT, bottom);
        svg += &stroke("axis", LEFT, self.top, LEFT, bottom);
        for senders in MARKED {
            svg += &stroke("axis", x(senders), bottom, x(senders), bottom + 5.0);
            svg += &text(x(senders), bottom + 19.0, "middle", &senders.to_string());
        }
        svg + &self.lines.iter().map(|line| self.line(line)).collect::<String>()
    }

    fn line(&self, line: &Line) -> String {
        let Line { name, colour, lower, from, counts } = line;
        let places: Vec<(f64, f64)> = SENDERS
            .iter()
            .zip(counts)
            .skip(*from)
            .map(|(&senders, &count)| (x(senders), self.y(count)))
            .collect();
        let joined: Vec<String> = places.iter().map(|(x, y)| format!("{x:.1},{y:.1}")).collect();
        let mut svg = format!("<polyline stroke=\"{colour}\" points=\"{}\"/>\n", joined.join(" "));
        for (x, y) in &places {
            svg += &format!("<circle cx=\"{x:.1}\" cy=\"{y:.1}\" r=\"3\" fill=\"{colour}\"/>\n");
        }
        let last = counts.last().copied().unwrap_or(0.0);
        let label = format!("{name}: {}", grouped(last as u64));
        svg + &text(RIGHT + 8.0, self.y(last) + lower, "start", &label)
    }

    fn y(&self, count: f64) -> f64 {
        self.top + PANEL * (1.0 - count / self.most)
    }
}

fn x(senders: u32) -> f64 {
    LEFT + (RIGHT - LEFT) * senders as f64 / 255.0
}

fn stroke(class: &str, x: f64, y: f64, to_x: f64, to_y: f64) -> String {
    format!(
        "<line class=\"{class}\" x1=\"{x:.1}\" y1=\"{y:.1}\" x2=\"{to_x:.1}\" y2=\"{to_y:.1}\"/>\n"
    )
}

fn text(x: f64, y: f64, anchor: &str, text: &str) -> String {
    format!("<text x=\"{x:.1}\" y=\"{y:.1}\" text-anchor=\"{anchor}\">{text}</text>\n")
}
