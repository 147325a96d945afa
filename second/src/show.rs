//! Sheets laid out for a person.

use crate::dossier::Papers;
use crate::hex;
use crate::job::{Ability, Job, UnitType};
use crate::note::check::Proved;
use crate::note::{Mark, Tree};
use crate::plan::{Plan, Row};
use crate::record::KINDS;
use crate::refusal::Refusal;
use crate::search::Searched;
use crate::sheet::{Field, Form};

pub fn refusal(refusal: &Refusal) -> String {
    format!(
        "refused {} ({}), paper {}\n",
        refusal.number(),
        refusal.meaning(),
        refusal.paper as u32
    )
}

/// The judge's verdict, and what the number of a refusal means.
pub fn verdict(verdict: &Result<u32, Refusal>) -> String {
    match verdict {
        Ok(cost) => format!("passed, cost {cost}\n"),
        Err(refusal) => numbered("refused", refusal, ""),
    }
}

/// What the search gives, its plan laid out as by itself.
pub fn searched(searched: &Searched) -> String {
    let after = |visits: &u32| format!(", visits {visits}");
    match searched {
        Searched::Found { best, visits } => format!(
            "found, cost {}{}\n\n{}",
            best.cost,
            after(visits),
            plan(&best.plan)
        ),
        Searched::None { visits } => numbered("none", &Refusal::NO_PLAN, &after(visits)),
        Searched::Spent { budget } => numbered("spent", &Refusal::BUDGET_SPENT, &after(budget)),
        Searched::Refused(refusal) => numbered("refused", refusal, ""),
    }
}

/// What a note proves.
pub fn checked(checked: &Result<Proved, Refusal>) -> String {
    match checked {
        Ok(Proved::Cheapest { cost }) => format!("cheapest, cost {cost}\n"),
        Ok(Proved::None) => "none: no plan meets the rules\n".to_string(),
        Err(refusal) => numbered("refused", refusal, ""),
    }
}

/// The papers of a dossier, by their lengths and their bytes.
pub fn dossier(papers: Papers) -> String {
    let named = ["job", "plan", "note"].into_iter().zip(papers);
    let line = |(name, paper): (&str, &[u8])| format!("{name}, {}\n", hex::counted(paper));
    named.map(line).collect()
}

/// A place of a note's tree, as far to the right as operations are placed there: the row that leads to it, what all rows
/// cost, and its mark.
pub fn place(tree: &Tree, mark: Option<Mark>) -> String {
    let indent = "  ".repeat(tree.depth());
    let row = tree
        .last()
        .map_or("nothing placed".to_string(), |(operation, place)| {
            format!("{operation} at {} on {}", place.start, place.instance)
        });
    let mark = match mark {
        Some(Mark::Close) => "close".to_string(),
        Some(Mark::Split(operation)) => format!("split on {operation}"),
        None => "all placed".to_string(),
    };
    format!("{indent}{row}, cost {}: {mark}\n", tree.cost())
}

/// An outcome by its number and paper, and what the number means.
fn numbered(outcome: &str, refusal: &Refusal, rest: &str) -> String {
    let (number, meaning) = (refusal.number(), refusal.meaning());
    let paper = refusal.paper as u32;
    format!("{outcome} by {number}, paper {paper}{rest}\n{number} means: {meaning}.\n")
}

pub fn job(job: &Job) -> String {
    let mut text = field_table("job", &job.fields());
    text += &format!(
        "\ndeadline {} steps, clock {} ns, wire {} ns\n",
        job.deadline, job.clock, job.wire
    );
    text += &operation_table(job);
    text += &link_table(job);
    text += &type_table(job);
    text
}

pub fn plan(plan: &Plan) -> String {
    let mut text = field_table("plan", &plan.fields());
    text += &row_table(plan);
    text += &picture(plan);
    text
}

fn field_table(sheet: &str, fields: &[Field]) -> String {
    let bits: usize = fields.iter().map(|field| field.width).sum();
    let bytes = bits.div_ceil(8);
    let mut text = format!("{sheet} sheet, {bytes} bytes, {bits} bits in its fields\n\n");
    text += &format!("{:<14}{:<30}{:>6}\n", "bits", "field", "value");
    let mut first = 0;
    for field in fields {
        let places = bit_places(first, field.width);
        text += &format!(
            "{places:<14}{:<30}{:>6}\n",
            field.name.to_string(),
            field.value
        );
        first += field.width;
    }
    if bits < 8 * bytes {
        let places = bit_places(bits, 8 * bytes - bits);
        text += &format!("{places:<14}{:<30}{:>6}\n", "fill", 0);
    }
    text
}

fn bit_places(first: usize, width: usize) -> String {
    if width == 1 {
        return first.to_string();
    }
    format!("{first} to {}", first + width - 1)
}

/// The rows below their heading, or a line that there are none.
fn table(what: &str, heading: &str, rows: &[String]) -> String {
    if rows.is_empty() {
        return format!("\nno {what}\n");
    }
    format!("\n{heading}\n{}\n", rows.join("\n"))
}

fn operation_table(job: &Job) -> String {
    let operations = 0..job.kinds.len() as u16;
    let waits_for: Vec<String> = operations
        .map(|operation| waits_for(job, operation))
        .collect();
    let width = waits_for.iter().map(String::len).max().unwrap_or(0).max(9);
    let heading = format!("operation  kind  {:<width$}  feeds", "waits for");
    let mut rows = Vec::new();
    for (operation, kind) in job.kinds.iter().enumerate() {
        let waits_for = &waits_for[operation];
        let feeds = feeds(job, operation as u16);
        rows.push(format!(
            "{operation:>9}{kind:>6}  {waits_for:<width$}  {feeds}"
        ));
    }
    table("operations", &heading, &rows)
}

fn waits_for(job: &Job, operation: u16) -> String {
    let before = job.links.iter().filter(|link| link.to == operation);
    numbers(before.map(|link| link.from))
}

fn feeds(job: &Job, operation: u16) -> String {
    let after = job.links.iter().filter(|link| link.from == operation);
    numbers(after.map(|link| link.to))
}

fn link_table(job: &Job) -> String {
    let mut rows = Vec::new();
    for (number, link) in job.links.iter().enumerate() {
        rows.push(format!("{number:>4}{:>6}{:>4}", link.from, link.to));
    }
    table("links", "link  from  to", &rows)
}

/// Time/interval of each kind, a dash where the type cannot do it.
fn type_table(job: &Job) -> String {
    let mut heading = "type   cost  copies  instances".to_string();
    for kind in 0..KINDS {
        heading += &format!("{:>11}", format!("kind {kind}"));
    }
    let mut rows = Vec::new();
    let mut next_instance = 0;
    for (number, unit) in job.types.iter().enumerate() {
        let [cost, copies] = [unit.cost, unit.copies];
        let instances = instance_range(next_instance, unit);
        let mut row = format!("{number:>4}{cost:>7}{copies:>8}{instances:>11}");
        for ability in unit.abilities {
            row += &format!("{:>11}", ability_text(ability));
        }
        rows.push(row);
        next_instance += copies;
    }
    table("unit types", &heading, &rows)
}

fn instance_range(first: u16, unit: &UnitType) -> String {
    if unit.copies == 1 {
        return first.to_string();
    }
    format!("{first} to {}", first + unit.copies - 1)
}

fn ability_text(ability: Ability) -> String {
    if ability.time == 0 {
        return "-".to_string();
    }
    format!("{}/{}", ability.time, ability.interval)
}

fn numbers(list: impl Iterator<Item = u16>) -> String {
    let texts: Vec<String> = list.map(|number| number.to_string()).collect();
    if texts.is_empty() {
        return "-".to_string();
    }
    texts.join(",")
}

fn row_table(plan: &Plan) -> String {
    let mut rows = Vec::new();
    for (operation, row) in plan.rows.iter().enumerate() {
        rows.push(format!(
            "{operation:>9}{:>7}{:>10}",
            row.start, row.instance
        ));
    }
    table("rows", "operation  start  instance", &rows)
}

/// Steps across, instances down, each operation at its start. The plan's sheet alone tells no delays.
fn picture(plan: &Plan) -> String {
    let instances_used = plan
        .rows
        .iter()
        .map(|row| row.instance + 1)
        .max()
        .unwrap_or(0);
    let instances = instances_used.max(plan.selection.len() as u16);
    if instances == 0 {
        return "\nno instances\n".to_string();
    }
    let starts: Vec<u16> = plan.rows.iter().map(|row| row.start).collect();
    let first_step = starts.iter().copied().min().unwrap_or(1).min(1);
    let last_step = starts.iter().copied().max().unwrap_or(1).max(1);
    let width = place_width(plan, instances, last_step);
    let mut text = "\noperations at their starts, steps across, instances down:\n".to_string();
    text += "instance  selected ";
    for step in first_step..=last_step {
        text += &format!(" {step:>width$}");
    }
    for instance in 0..instances {
        text += &format!("\n{instance:>8}  {:>8} ", selection_mark(plan, instance));
        for step in first_step..=last_step {
            text += &format!(" {:>width$}", operations_at(plan, instance, step));
        }
    }
    text + "\n"
}

/// The width of the widest place of the picture, so that all steps are equally wide.
fn place_width(plan: &Plan, instances: u16, last_step: u16) -> usize {
    let mut width = last_step.to_string().len();
    for instance in 0..instances {
        for step in 0..=last_step {
            width = width.max(operations_at(plan, instance, step).len());
        }
    }
    width
}

/// A row may name an instance that the plan has no selection bit for.
fn selection_mark(plan: &Plan, instance: u16) -> &'static str {
    match plan.selection.get(usize::from(instance)) {
        Some(true) => "yes",
        Some(false) => "no",
        None => "beyond K",
    }
}

fn operations_at(plan: &Plan, instance: u16, step: u16) -> String {
    let place = Row {
        start: step,
        instance,
    };
    let rows = plan
        .rows
        .iter()
        .enumerate()
        .filter(|(_, row)| **row == place);
    let operations: Vec<String> = rows.map(|(operation, _)| operation.to_string()).collect();
    if operations.is_empty() {
        return ".".to_string();
    }
    operations.join(",")
}

#[cfg(test)]
mod tests {
    use super::*;
    use crate::note::check::check_and_tell;
    use crate::note::write::write;
    use crate::samples::{empty_job, empty_plan, full_job, full_plan, job_p, plan_of_case_1};
    use crate::search::walk;

    #[test]
    fn the_fields_of_job_p_stand_at_their_bits() {
        let text = job(&job_p());
        for line in [
            "0 to 3        form                               1",
            "4 to 8        N, operations                      3",
            "25 to 34      clock in ns                      100",
            "45 to 47      operation 0: kind                  1",
            "54 to 58      link 0: from                       0",
            "422 to 431    type 1: interval of kind 7         0",
        ] {
            assert!(text.lines().any(|shown| shown == line), "{line} in\n{text}");
        }
    }

    #[test]
    fn fill_is_shown_where_there_is_any() {
        assert!(plan(&plan_of_case_1()).contains("44 to 47      fill"));
        assert!(!job(&job_p()).contains("fill"));
    }

    #[test]
    fn the_picture_of_case_1() {
        let expected = [
            "instance  selected  1 2 3",
            "       0        no  . . .",
            "       1       yes  . . 2",
            "       2       yes  0 1 .",
        ];
        let text = picture(&plan_of_case_1());
        assert!(text.ends_with(&(expected.join("\n") + "\n")), "{text}");
    }

    #[test]
    fn the_picture_of_rows_that_no_job_would_allow() {
        let row = Row {
            start: 0,
            instance: 1,
        };
        let plan = Plan {
            selection: vec![false],
            rows: vec![row, row],
        };
        let expected = [
            "instance  selected    0   1",
            "       0        no    .   .",
            "       1  beyond K  0,1   .",
        ];
        let text = picture(&plan);
        assert!(text.ends_with(&(expected.join("\n") + "\n")), "{text}");
    }

    #[test]
    fn a_refusal_is_one_line() {
        let text = refusal(&Refusal::OUTPUT_TOO_SHORT);
        assert_eq!(text, "refused 22 (output too short), paper 4\n");
    }

    #[test]
    fn a_verdict_says_what_its_number_means() {
        assert_eq!(verdict(&Ok(40)), "passed, cost 40\n");
        let refused = verdict(&Err(Refusal::OUTPUT_TOO_SHORT));
        assert_eq!(
            refused,
            "refused by 22, paper 4\n22 means: output too short.\n"
        );
    }

    #[test]
    fn a_search_tells_its_visits() {
        let found = searched(&walk(&job_p(), 14));
        let expected = format!("found, cost 40, visits 14\n\n{}", plan(&plan_of_case_1()));
        assert_eq!(found, expected);
        let spent = "spent by 30, paper 4, visits 13\n30 means: visits exceed the budget.\n";
        assert_eq!(searched(&walk(&job_p(), 13)), spent);
        let none = "none by 31, paper 0, visits 5\n31 means: no plan meets the rules.\n";
        assert_eq!(searched(&Searched::None { visits: 5 }), none);
    }

    #[test]
    fn the_tree_of_a_note_for_none() {
        let job = Job {
            deadline: 2,
            ..job_p()
        };
        let note = write(&job.sheet(), &[], 5).expect("a note");
        let mut text = String::new();
        let mut tell = |tree: &Tree, mark| text += &place(tree, mark);
        let proved = check_and_tell(&job.sheet(), &[], &note, &mut tell);
        let lines = [
            "nothing placed, cost 0: split on 0",
            "  0 at 1 on 2, cost 30: split on 1",
            "    1 at 2 on 2, cost 30: split on 2",
            "  0 at 2 on 2, cost 30: split on 1",
            "    1 at 1 on 2, cost 30: split on 2",
        ];
        assert_eq!(text, lines.join("\n") + "\n");
        assert_eq!(checked(&proved), "none: no plan meets the rules\n");
    }

    #[test]
    fn the_papers_of_a_dossier_are_told_apart() {
        let text = dossier([&[0x10, 0], &[], &[0x38]]);
        assert_eq!(
            text,
            "job, 2 bytes: 10 00\nplan, 0 bytes: \nnote, 1 bytes: 38\n"
        );
    }

    #[test]
    fn every_extreme_can_be_shown() {
        assert!(job(&empty_job()).contains("no unit types"));
        assert!(job(&full_job()).contains("1023/1023"));
        assert!(plan(&empty_plan()).contains("no instances"));
        assert!(plan(&full_plan()).contains("      15       yes"));
    }
}
