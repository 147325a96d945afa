//! What is drawn in the grid: bars, the links between them, and the bars' tags.

use super::bars::{Bar, Bond, Rows};
use super::layout::{
    Frame, BAR_HIGH, LEVEL_HIGH, SPACING_HIGH, SPACING_TOP, TOOTH, WORK_HIGH, WORK_TOP,
};
use super::style::HEAD;
use super::svg::{Face, Page};
use crate::record::Job;

const TEETH: usize = 5;
/// Work stands a little inside its span, so that the bar's edges are seen, and is so wide at least.
const WORK_INSIDE: f64 = 0.6;
const WORK_LEAST: f64 = 1.5;

/// How far the curve of a link reaches out of its ends.
const REACH_LEAST: f64 = 12.0;
const REACH_MOST: f64 = 90.0;
/// A link within one lane hangs below the bars: so far inside its ends, and rounded at its corners.
const HOOK_INSIDE: f64 = 6.0;
const HOOK_ROUND: f64 = 4.0;

const NUMBER: Face = Face("strong over", 11.5);
const DIGIT_WIDE: f64 = 8.1;
const KIND: Face = Face("over", 9.5);
const TAG_PAD: f64 = 2.0;
/// The foot of its letters.
const TAG_FOOT: f64 = 11.0;
/// From this width on a bar has room for the word kind.
const ROOMY: f64 = 70.0;

pub fn draw_bars(page: &mut Page, frame: &Frame, rows: &Rows) {
    for bar in &rows.bars {
        let [operation, start, instance] = [bar.operation, bar.start, bar.instance];
        let [time, delay, spacing] = [bar.timing.time, bar.timing.delay, bar.timing.spacing];
        let tip = format!(
            "operation {operation}: kind {}, start {start}, instance {instance}, \
             time {time} ns, delay {delay}, spacing {spacing}",
            bar.kind
        );
        page.tipped(&tip, |page| draw_bar(page, frame, bar));
    }
}

fn draw_bar(page: &mut Page, frame: &Frame, bar: &Bar) {
    let kind = bar.kind;
    let steps = frame.span(bar, &bar.steps, 0.0, BAR_HIGH);
    let work = |ns| {
        let [x, y, wide, high] = frame.span(bar, ns, WORK_TOP, WORK_HIGH);
        let wide = (wide - 2.0 * WORK_INSIDE).max(WORK_LEAST);
        [x + WORK_INSIDE, y, wide, high]
    };
    page.path(&format!("bar k{kind}"), &outline(steps, frame.clips(bar)));
    page.rect(&format!("work k{kind}"), work(&bar.work));
    if bar.work.end > bar.steps.end {
        let begin = bar.steps.end.max(bar.work.start);
        page.rect("excess", work(&(begin..bar.work.end)));
    }
    page.rect(
        "spacing",
        frame.span(bar, &bar.spacing, SPACING_TOP, SPACING_HIGH),
    );
}

/// A box; its right edge is torn where the bar goes on.
pub fn outline([x, y, wide, high]: [f64; 4], torn: bool) -> String {
    let [right, bottom, half] = [x + wide, y + high, high / (2 * TEETH) as f64];
    let tooth = format!("l{TOOTH} {half:.1}l-{TOOTH} {half:.1}");
    let teeth = tooth.repeat(if torn { TEETH } else { 0 });
    format!("M{x:.1} {y:.1}H{right:.1}{teeth}V{bottom:.1}H{x:.1}Z")
}

/// Where a link is drawn: a dot where it begins, its line, and a last stretch that carries the arrow's head.
pub struct Course {
    pub from: [f64; 2],
    pub line: String,
    pub tip: String,
}

/// Calm links first, so that chains and broken links stand above them; and dots and heads last, so that no line hides them.
pub fn draw_links(page: &mut Page, job: &Job, frame: &Frame, rows: &Rows) {
    let mut bonds: Vec<_> = rows.bonds(job).collect();
    bonds.sort_by_key(|&(bond, _, _)| bond);
    let courses = bonds.into_iter().map(|(bond, first, second)| {
        let course = match rows.level(first, second) {
            Some(level) => hook(frame, first, second, level),
            None => curve(frame, first, second),
        };
        (bond, course)
    });
    draw_courses(page, &courses.collect::<Vec<_>>());
}

pub fn draw_courses(page: &mut Page, courses: &[(Bond, Course)]) {
    for (bond, course) in courses {
        page.path("halo", &course.line);
        page.path(bond.class(), &course.line);
    }
    for (bond, course) in courses {
        let [x, y] = course.from;
        page.path(
            &format!("{}-dot", bond.class()),
            &format!("M{x:.1} {y:.1}h.1"),
        );
        page.path(&format!("{}-tip", bond.class()), &course.tip);
    }
}

/// The y at which a bar's work is done.
fn middle(frame: &Frame, bar: &Bar) -> f64 {
    frame.bar_top(bar) + WORK_TOP + WORK_HIGH / 2.0
}

/// From the end of the first's work to where the arrow's head begins, before the second's.
fn curve(frame: &Frame, first: &Bar, second: &Bar) -> Course {
    let [x1, y1] = [frame.x(first.work.end), middle(frame, first)];
    let [x2, y2] = [frame.x(second.work.start), middle(frame, second)];
    let end = x2 - HEAD;
    let least = ((y2 - y1).abs() / 4.0).clamp(REACH_LEAST, 2.0 * REACH_LEAST);
    let reach = ((end - x1).abs() / 2.0).clamp(least, REACH_MOST);
    let [out, back] = [x1 + reach, end - reach];
    Course {
        from: [x1, y1],
        line: format!("M{x1:.1} {y1:.1}C{out:.1} {y1:.1} {back:.1} {y2:.1} {end:.1} {y2:.1}"),
        tip: format!("M{end:.1} {y2:.1}h.1"),
    }
}

/// Down from the first's work, along its level below the lane, and up to the second's.
fn hook(frame: &Frame, first: &Bar, second: &Bar, level: usize) -> Course {
    let x1 = frame.x(first.work.end) - HOOK_INSIDE;
    let x2 = frame.x(second.work.start) + HOOK_INSIDE;
    let y = middle(frame, first) + WORK_HIGH / 2.0;
    let deep = frame.bar_top(first) + BAR_HIGH + LEVEL_HIGH * (level + 1) as f64;
    let round = HOOK_ROUND.min((x2 - x1).abs() / 2.0).copysign(x2 - x1);
    let [out, back] = [x1 + round, x2 - round];
    let [above, end] = [deep - HOOK_ROUND, y + HEAD];
    let line = format!(
        "M{x1:.1} {y:.1}V{above:.1}Q{x1:.1} {deep:.1} {out:.1} {deep:.1}\
         H{back:.1}Q{x2:.1} {deep:.1} {x2:.1} {above:.1}V{end:.1}"
    );
    let tip = format!("M{x2:.1} {end:.1}v-.1");
    let from = [x1, y];
    Course { from, line, tip }
}

/// The number and the kind of each bar. They are drawn last, so that no link hides them.
pub fn draw_tags(page: &mut Page, frame: &Frame, rows: &Rows) {
    for bar in &rows.bars {
        let [x, y, wide, _] = frame.span(bar, &bar.steps, TAG_PAD, BAR_HIGH);
        let [left, most, base] = [x + TAG_PAD, wide - 2.0 * TAG_PAD, y + TAG_FOOT];
        let number = bar.operation.to_string();
        let kind = format!("{}{}", if wide < ROOMY { "k" } else { "kind " }, bar.kind);
        let number_wide = DIGIT_WIDE * number.len() as f64 + 2.0 * TAG_PAD;
        let tag_wide = (number_wide + KIND.wide(&kind) + TAG_PAD).min(most);
        page.rect("tag", [left, y, tag_wide, WORK_TOP - 2.0 * TAG_PAD]);
        page.text(NUMBER, left + 1.0, base, &number);
        page.text(KIND, left + number_wide, base, &kind);
    }
}
