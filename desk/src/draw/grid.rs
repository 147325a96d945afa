//! The grid below the marks: steps, types and instances with their labels.

use super::bars::Rows;
use super::keys::abilities;
use super::layout::{Frame, LABEL_PAD, MARGIN, SMALL, STRONG, WORDS};
use super::svg::{Face, Page};
use crate::record::{Job, Plan};

const STEP: Face = Face("step", 12.0);
const DEADLINE: Face = Face("quiet deadline-word", 10.5);
const UNSELECTED: Face = Face("grey", 10.5);
/// Of an instance that is not selected and has operations nevertheless.
const UNSELECTED_USED: Face = Face("fault", 10.5);

/// The heads of the columns stand above the grid.
pub const HEADING_HIGH: f64 = 46.0;
const PAD: f64 = 6.0;
/// The foot of the step numbers, above the grid.
const STEP_FOOT: f64 = 8.0;
/// The feet of an instance's two lines, above and below its middle.
const NAME_FOOT: f64 = 3.0;
const WORD_FOOT: f64 = 11.0;

pub fn draw_grid(page: &mut Page, job: &Job, plan: &Plan, rows: &Rows, frame: &Frame) {
    for instance in job.instances() {
        draw_instance(page, plan, rows, frame, instance);
    }
    draw_steps(page, job, frame);
    for unit in job.types() {
        draw_type(page, job, frame, unit);
    }
    let Frame {
        top, bottom, right, ..
    } = *frame;
    page.line("thick", [MARGIN, bottom, right, bottom]);
    page.line("deadline", [right, top - PAD, right, bottom + PAD]);
    page.text(DEADLINE, right + PAD, bottom + 3.0 * PAD, "deadline");
}

fn draw_instance(page: &mut Page, plan: &Plan, rows: &Rows, frame: &Frame, instance: usize) {
    let band = &frame.instances[instance];
    let [left, middle] = [Frame::INSTANCES_LEFT, band.top + band.high / 2.0];
    let (face, words) = match (plan.selects(instance), rows.lanes(instance)) {
        (true, 0) => (SMALL, "selected, idle"),
        (true, _) => (SMALL, "selected"),
        (false, 0) => (UNSELECTED, "not selected"),
        (false, _) => (UNSELECTED_USED, "not selected"),
    };
    if !plan.selects(instance) {
        page.rect(
            "unselected",
            [left, band.top, frame.right - left, band.high],
        );
    }
    page.line("thin", [left, band.top, frame.right, band.top]);
    page.text(
        WORDS,
        left + PAD,
        middle - NAME_FOOT,
        &format!("instance {instance}"),
    );
    page.text(face, left + PAD, middle + WORD_FOOT, words);
}

fn draw_steps(page: &mut Page, job: &Job, frame: &Frame) {
    let base = frame.top - STEP_FOOT;
    let clock = format!("steps of {} ns each", job.clock);
    page.text(SMALL, MARGIN, base, "type");
    page.text(SMALL, Frame::INSTANCES_LEFT + PAD, base, "instance");
    page.text(SMALL, Frame::LEFT, base - WORDS.leading(), &clock);
    for step in 0..job.t {
        let x = Frame::LEFT + frame.step * f64::from(step);
        page.line("thin", [x, frame.top - PAD, x, frame.bottom]);
        page.text(STEP, x + frame.step / 2.0, base, &(step + 1).to_string());
    }
}

fn draw_type(page: &mut Page, job: &Job, frame: &Frame, unit: usize) {
    let top = frame.type_tops[unit];
    let words = format!("type {unit} · cost {}", job.costs[unit]);
    page.line("thick", [MARGIN, top, frame.right, top]);
    let below = page.lines(STRONG, MARGIN, top + LABEL_PAD, &[words]);
    abilities(job, unit).draw(page, MARGIN, below);
}
