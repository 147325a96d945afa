//! The text of a plan.

use super::lines::{counted, Lines, Mistake};
use super::NOTHING;
use crate::record::{Plan, OP_CELLS};

pub fn plan_text(plan: &Plan) -> String {
    let bits: String = plan
        .selection()
        .iter()
        .map(|bit| format!(" {bit}"))
        .collect();
    let rows: String = plan
        .operations()
        .map(|operation| row_text(plan, operation))
        .collect();
    let none = if plan.n == 0 { NOTHING } else { "" };
    format!("plan\n  selection{bits}\n\nrows\n{rows}{none}")
}

fn row_text(plan: &Plan, operation: usize) -> String {
    let (start, instance) = plan.row(operation);
    format!("  {operation:>2} start {start} instance {instance}\n")
}

/// The plan of a text. What its cells do not hold is counted all the same: the library refuses it then, by 3.
pub fn made(lines: &mut Lines) -> Result<Plan, Mistake> {
    let mut plan = Plan::EMPTY;
    lines.heading("plan")?;
    let selection = lines.headed("selection")?.numbers()?;
    plan.k = counted(selection.len());
    for (cell, bit) in plan.selection.iter_mut().zip(selection) {
        *cell = bit;
    }
    lines.heading("rows")?;
    rows_made(lines, &mut plan)?;
    Ok(plan)
}

fn rows_made(lines: &mut Lines, plan: &mut Plan) -> Result<(), Mistake> {
    let mut operation = 0;
    while lines.numbered() {
        let mut line = lines.item(operation)?;
        let [start, instance] = [line.value("start")?, line.value("instance")?];
        line.end()?;
        if operation < OP_CELLS {
            [plan.starts[operation], plan.insts[operation]] = [start, instance];
        }
        operation += 1;
    }
    plan.n = counted(operation);
    Ok(())
}
