//! The text of a job.

use super::lines::{counted, Lines, Mistake};
use super::{commented, NOTHING};
use crate::record::{Job, KINDS, LINK_CELLS, OP_CELLS, TYPE_CELLS};

/// The text of a job, with what follows from its numbers as comments.
pub fn job_text(job: &Job) -> String {
    let mut text = "job\n".to_string();
    text += &commented(&format!("  deadline {}", job.t), "steps");
    text += &commented(&format!("  clock {}", job.clock), "ns");
    text += &commented(&format!("  wire {}", job.wire), "ns");
    text += "\noperations\n";
    text += &job
        .operations()
        .map(|operation| operation_text(job, operation))
        .collect::<String>();
    text += if job.n == 0 { NOTHING } else { "" };
    text += "\ntypes\n";
    text += &job
        .types()
        .map(|unit| type_text(job, unit))
        .collect::<String>();
    text += if job.m == 0 { NOTHING } else { "" };
    text
}

fn operation_text(job: &Job, operation: usize) -> String {
    let before: Vec<String> = job.before(operation).map(|from| from.to_string()).collect();
    let after = if before.is_empty() {
        String::new()
    } else {
        format!(" after {}", before.join(", "))
    };
    format!("  {operation:>2} kind {}{after}\n", job.kinds[operation])
}

fn type_text(job: &Job, unit: usize) -> String {
    let line = format!(
        "  {unit:>2} cost {} copies {}",
        job.costs[unit], job.copies[unit]
    );
    let instances = job.instances_of(unit);
    let numbers = match instances.len() {
        1 => format!("instance {}", instances.start),
        _ => format!("instances {} to {}", instances.start, instances.end - 1),
    };
    let kinds = (0..KINDS).map(|kind| ability_text(job, unit, kind));
    commented(&line, &numbers) + &kinds.collect::<String>()
}

/// The line of a kind that a type can do.
fn ability_text(job: &Job, unit: usize, kind: usize) -> String {
    let Some(timing) = job.timing(unit, kind) else {
        return String::new();
    };
    let line = format!(
        "     kind {kind} time {} interval {}",
        timing.time, timing.interval
    );
    commented(
        &line,
        &format!("delay {}, spacing {}", timing.delay, timing.spacing),
    )
}

/// The job of a text. What its cells do not hold is counted all the same: the library refuses it then, by 3.
pub fn made(lines: &mut Lines) -> Result<Job, Mistake> {
    let mut job = Job::EMPTY;
    lines.heading("job")?;
    job.t = lines.value("deadline")?;
    job.clock = lines.value("clock")?;
    job.wire = lines.value("wire")?;
    lines.heading("operations")?;
    operations_made(lines, &mut job)?;
    lines.heading("types")?;
    types_made(lines, &mut job)?;
    Ok(job)
}

fn operations_made(lines: &mut Lines, job: &mut Job) -> Result<(), Mistake> {
    let mut links = Vec::new();
    let mut operation = 0;
    while lines.numbered() {
        let mut line = lines.item(operation)?;
        let kind = line.value("kind")?;
        if !line.ended() {
            line.word("after")?;
            let here = counted(operation);
            links.push((line.number()?, here));
            links.extend(line.numbers()?.into_iter().map(|from| (from, here)));
        }
        if operation < OP_CELLS {
            job.kinds[operation] = kind;
        }
        operation += 1;
    }
    job.n = counted(operation);
    links.sort();
    job.e = counted(links.len());
    for (cell, &(from, to)) in links.iter().enumerate().take(LINK_CELLS) {
        [job.from[cell], job.to[cell]] = [from, to];
    }
    Ok(())
}

fn types_made(lines: &mut Lines, job: &mut Job) -> Result<(), Mistake> {
    let mut unit = 0;
    while lines.numbered() {
        let mut line = lines.item(unit)?;
        let [cost, copies] = [line.value("cost")?, line.value("copies")?];
        line.end()?;
        let abilities = abilities_made(lines)?;
        if unit < TYPE_CELLS {
            [job.costs[unit], job.copies[unit]] = [cost, copies];
            for (kind, (time, interval)) in abilities.into_iter().enumerate() {
                let cell = KINDS * unit + kind;
                [job.times[cell], job.intervals[cell]] = [time, interval];
            }
        }
        unit += 1;
    }
    job.m = counted(unit);
    Ok(())
}

/// Time and interval of each kind; both are 0 where the text does not name the kind.
fn abilities_made(lines: &mut Lines) -> Result<[(u16, u16); KINDS], Mistake> {
    let mut abilities = [None; KINDS];
    while lines.first_word() == Some("kind") {
        let mut line = lines.headed("kind")?;
        let kind = line.number()?;
        let Some(ability) = abilities.get_mut(usize::from(kind)) else {
            return Err(line.mistake(format!("kind {kind}, and kinds are 0 to {}", KINDS - 1)));
        };
        if ability.is_some() {
            return Err(line.mistake(format!("kind {kind} stands twice in one type")));
        }
        *ability = Some((line.value("time")?, line.value("interval")?));
        line.end()?;
    }
    Ok(abilities.map(Option::unwrap_or_default))
}
