//! Samples of what is drawn, with words beside them: the legend, and what each type can do.

use super::bars::{Bond, Rows};
use super::layout::{Frame, SMALL, TYPE_COLUMN};
use super::marks::{draw_courses, outline, Course};
use super::style::HEAD;
use super::svg::Page;
use crate::record::{Job, Plan, KINDS};
use Sample::{Area, Arrow, Kind, Torn};

const LINE_HIGH: f64 = 15.0;
const GAP: f64 = 5.0;
const SWATCH: f64 = 9.0;
const SAMPLE: f64 = 30.0;
const MARK_COLUMN: f64 = 230.0;
/// How far an arrow stands above the foot of its words.
const ARROW_ABOVE: f64 = 4.0;

enum Sample {
    Kind(usize),
    /// A box of a class.
    Area(&'static str),
    Torn,
    Arrow(Bond),
}

impl Sample {
    fn wide(&self) -> f64 {
        match self {
            Kind(_) => SWATCH,
            _ => SAMPLE,
        }
    }

    fn draw(&self, page: &mut Page, x: f64, base: f64) {
        let top = base - SWATCH;
        match self {
            Kind(kind) => page.rect(&format!("work k{kind}"), [x, top, SWATCH, SWATCH]),
            Area(class) => page.rect(class, [x, top, SAMPLE, SWATCH]),
            Torn => page.path("bar plain", &outline([x, top, SAMPLE - GAP, SWATCH], true)),
            Arrow(bond) => draw_courses(page, &[(*bond, arrow(x, base - ARROW_ABOVE))]),
        }
    }
}

/// A straight arrow as wide as a sample.
fn arrow(x: f64, y: f64) -> Course {
    let end = x + SAMPLE - HEAD;
    Course {
        from: [x + 2.0, y],
        line: format!("M{x:.1} {y:.1}H{end:.1}"),
        tip: format!("M{end:.1} {y:.1}h.1"),
    }
}

/// Samples with their words, in columns.
pub struct Keys {
    keys: Vec<(Sample, String)>,
    /// Of each its x and its line.
    places: Vec<(f64, usize)>,
}

impl Keys {
    /// Each takes as many columns as it needs; lines keep the limit.
    fn set(keys: Vec<(Sample, String)>, column: f64, limit: f64) -> Keys {
        let (mut x, mut line) = (0.0, 0);
        let mut places = Vec::new();
        for (sample, words) in &keys {
            let needed = sample.wide() + SMALL.wide(words) + 2.0 * GAP;
            let wide = (needed / column).ceil() * column;
            if x > 0.0 && x + wide > limit {
                (x, line) = (0.0, line + 1);
            }
            places.push((x, line));
            x += wide;
        }
        Keys { keys, places }
    }

    pub fn high(&self) -> f64 {
        let lines = self.places.last().map_or(0, |&(_, line)| line + 1);
        LINE_HIGH * lines as f64
    }

    pub fn draw(&self, page: &mut Page, left: f64, top: f64) {
        for ((sample, words), &(x, line)) in self.keys.iter().zip(&self.places) {
            let [x, base] = [left + x, top + LINE_HIGH * line as f64 + SMALL.1];
            sample.draw(page, x, base);
            page.text(SMALL, x + sample.wide() + GAP, base, words);
        }
    }
}

/// What a type can do.
pub fn abilities(job: &Job, unit: usize) -> Keys {
    let able = (0..KINDS).filter_map(|kind| {
        let timing = job.timing(unit, kind)?;
        let mut words = format!("kind {kind}: {} ns", timing.time);
        if timing.interval != timing.time {
            words += &format!(", interval {} ns", timing.interval);
        }
        Some((Kind(kind), words))
    });
    Keys::set(able.collect(), 1.0, TYPE_COLUMN)
}

/// The marks in the grid, as far as they occur.
pub fn marks(job: &Job, plan: &Plan, rows: &Rows, frame: &Frame, limit: f64) -> Keys {
    let bars = !rows.bars.is_empty();
    let links = |bond| rows.bonds(job).any(|(other, _, _)| other == bond);
    let torn = rows.bars.iter().any(|bar| frame.clips(bar));
    let excess = rows.bars.iter().any(|bar| bar.work.end > bar.steps.end);
    let unselected = job.instances().any(|instance| !plan.selects(instance));
    let [link, chain, broken] = [Bond::Link, Bond::Chain, Bond::Broken];
    let marks = [
        (bars, Area("bar plain"), "an operation's steps (delay)"),
        (bars, Area("work plain"), "its working time, to scale"),
        (bars, Area("spacing"), "holds its instance (spacing)"),
        (links(link), Arrow(link), "link"),
        (links(chain), Arrow(chain), "chain: link within a step"),
        (
            links(broken),
            Arrow(broken),
            "broken link: starts too early",
        ),
        (torn, Torn, "goes on beyond the deadline"),
        (excess, Area("excess"), "work beyond its step"),
        (unselected, Area("unselected"), "instance not selected"),
    ];
    let occurring = marks.into_iter().filter(|&(occurs, _, _)| occurs);
    let keys = occurring.map(|(_, sample, words)| (sample, words.into()));
    Keys::set(keys.collect(), MARK_COLUMN, limit)
}
