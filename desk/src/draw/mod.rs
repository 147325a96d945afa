//! A plan as a picture for the wall: steps across, instances down, a bar for each operation, an arrow for each link.

mod bars;
mod grid;
mod keys;
mod layout;
mod marks;
mod style;
mod svg;
#[cfg(test)]
mod tests;

use crate::record::{Job, Plan};
use bars::Rows;
use layout::{Frame, MARGIN, STRONG, WORDS};
use svg::{Face, Page};

const TITLE: Face = Face("title", 20.0);
const FAULT: Face = Face("fault", 12.0);
/// Between the parts of the page.
const PART_GAP: f64 = 12.0;
/// The verdict's mark stands in a field of its own.
const MARK_FIELD: f64 = 28.0;
/// Above and below the verdict's words.
const VERDICT_PAD: f64 = 9.0;
const TICK: &str = "m-5 .5l3.5 3.5l6 -7";
const CROSS: &str = "m-4 -4l8 8m0 -8l-8 8";

/// What stands above the picture.
pub struct Caption<'a> {
    pub title: &'a str,
    /// The plan's cost where it passes, else the refusal in words.
    pub verdict: Result<u32, &'a str>,
}

/// The whole SVG document, for any job and plan, also where they do not belong together: what has no place in the grid
/// is told below it.
pub fn picture(job: &Job, plan: &Plan, caption: &Caption) -> String {
    let mut page = Page::default();
    let rows = Rows::of(job, plan);
    let mut frame = Frame::new(job);
    let wide = frame.page_wide();
    let limit = wide - 2.0 * MARGIN;

    let below = draw_caption(&mut page, caption, limit);
    let summary = WORDS.wrapped(&summary(job, plan), limit);
    let below = page.lines(WORDS, MARGIN, below, &summary);
    frame.set(job, &rows, below + grid::HEADING_HIGH);
    grid::draw_grid(&mut page, job, plan, &rows, &frame);
    marks::draw_bars(&mut page, &frame, &rows);
    marks::draw_links(&mut page, job, &frame, &rows);
    marks::draw_tags(&mut page, &frame, &rows);

    let mut below = frame.bottom + 2.0 * PART_GAP;
    for remark in remarks(job, plan, &rows) {
        below = page.lines(FAULT, MARGIN, below, &FAULT.wrapped(&remark, limit));
    }
    let keys = keys::marks(job, plan, &rows, &frame, limit);
    keys.draw(&mut page, MARGIN, below + PART_GAP);
    below += PART_GAP + keys.high();
    page.document(caption.title, wide, (below + MARGIN).ceil())
}

/// Title and verdict; gives the y below them.
fn draw_caption(page: &mut Page, caption: &Caption, limit: f64) -> f64 {
    let title = TITLE.wrapped(caption.title, limit);
    let top = page.lines(TITLE, MARGIN, MARGIN / 2.0, &title) + PART_GAP / 2.0;
    let (class, mark, words) = match caption.verdict {
        Ok(cost) => ("passes", TICK, format!("passes, cost {cost}")),
        Err(words) => ("refused", CROSS, words.into()),
    };
    let left = MARGIN + MARK_FIELD;
    let lines = STRONG.wrapped(&words, limit - MARK_FIELD - 2.0 * PART_GAP);
    let high = STRONG.leading() * lines.len().max(1) as f64 + 2.0 * VERDICT_PAD;
    let [x, y] = [left - MARK_FIELD / 2.0, top + high / 2.0];
    page.rect(class, [left, top, limit - MARK_FIELD, high]);
    page.rect(&format!("{class}-mark"), [MARGIN, top, MARK_FIELD, high]);
    page.path("mark", &format!("M{x:.1} {y:.1}{mark}"));
    page.lines(STRONG, left + PART_GAP, top + VERDICT_PAD, &lines);
    top + high + PART_GAP
}

fn summary(job: &Job, plan: &Plan) -> String {
    let selected = job.instances().filter(|&instance| plan.selects(instance));
    format!(
        "{} · {} · {} of {} selected · deadline {} · clock {} ns · wire {} ns",
        many(job.n.into(), "operation"),
        many(job.e.into(), "link"),
        selected.count(),
        many(job.instances().len(), "instance"),
        many(job.t.into(), "step"),
        job.clock,
        job.wire
    )
}

fn many(number: usize, noun: &str) -> String {
    format!("{number} {noun}{}", plural(number))
}

fn plural(number: usize) -> &'static str {
    if number == 1 {
        ""
    } else {
        "s"
    }
}

/// What of job and plan is not in the grid, in words.
fn remarks(job: &Job, plan: &Plan, rows: &Rows) -> Vec<String> {
    let undrawn = rows.undrawn.iter();
    let undrawn = undrawn.map(|(operation, why)| format!("operation {operation} ({why})"));
    let drawn = |operation| rows.bar(operation).is_some();
    let loose = job.links().filter(|&(from, to)| !drawn(from) || !drawn(to));
    let loose = loose.map(|(from, to)| format!("{from} to {to}"));
    let [has, takes] = [job.instances().len(), plan.k.into()];
    let counts = (has != takes).then(|| format!("{has}, the plan is for {takes}"));
    let unplaced = plan.n..job.n;
    let unplaced_head = format!("no row for operation{} ", plural(unplaced.len()));
    let remarks = [
        ("not drawn: ", listed(undrawn)),
        (unplaced_head.as_str(), listed(unplaced)),
        ("rows for no operation: ", listed(job.n..plan.n)),
        ("links not drawn, an end is missing: ", listed(loose)),
        ("instances of the job: ", listed(counts.into_iter())),
    ];
    let told = remarks.into_iter().filter(|(_, list)| !list.is_empty());
    told.map(|(head, list)| head.to_string() + &list).collect()
}

fn listed(items: impl Iterator<Item = impl ToString>) -> String {
    let items: Vec<String> = items.map(|item| item.to_string()).collect();
    items.join(", ")
}
