//! A closing note in words: its marks one after another, or, where its job is at hand and the library has accepted it, its
//! tree place by place.

use crate::library::{self, Paper, Refusal, NOTE_BYTES};
use crate::record::{Job, Plan, OP_CELLS};

const HEADER_BITS: usize = 5;
const OPERATION_BITS: usize = 5;

/// How many marks or places are told; a longer note is cut there.
const TOLD: usize = 200;

/// What a mark says of its place.
#[derive(Clone, Copy, PartialEq)]
enum Mark {
    Close,
    Split(usize),
}

/// The marks of a note, from the bit behind its header on.
struct Marks<'a> {
    note: &'a [u8],
    at: usize,
}

impl Marks<'_> {
    fn of(note: &[u8]) -> Marks<'_> {
        Marks {
            note,
            at: HEADER_BITS,
        }
    }

    /// A bit; none behind the last one.
    fn bit(&self, at: usize) -> Option<usize> {
        let byte = self.note.get(at / 8)?;
        Some(usize::from(byte >> (7 - at % 8) & 1))
    }

    fn split(&self) -> Option<usize> {
        let bits = self.at + 1..self.at + 1 + OPERATION_BITS;
        bits.map(|at| self.bit(at))
            .try_fold(0, |number, bit| Some(2 * number + bit?))
    }

    /// Whether only zero bits are left: marks that close, or fill.
    fn only_zeros_left(&self) -> bool {
        (self.at..8 * self.note.len()).all(|at| self.bit(at) == Some(0))
    }
}

impl Iterator for Marks<'_> {
    type Item = Mark;

    fn next(&mut self) -> Option<Mark> {
        let mark = match self.bit(self.at)? {
            0 => Mark::Close,
            _ => Mark::Split(self.split()?),
        };
        self.at += match mark {
            Mark::Close => 1,
            Mark::Split(_) => 1 + OPERATION_BITS,
        };
        Some(mark)
    }
}

fn mark_text(mark: Mark) -> String {
    match mark {
        Mark::Close => "close".to_string(),
        Mark::Split(operation) => format!("split on {operation}"),
    }
}

fn verdict_text(note: &[u8]) -> String {
    let verdict = match Marks::of(note).bit(HEADER_BITS - 1) {
        Some(1) => "verdict 1, a plan",
        _ => "verdict 0, none",
    };
    format!("note, {} bytes, {verdict}\n", note.len())
}

/// A note by itself. Where its tree ends only the job tells, so the zero bits at its end are left as they are.
pub fn note_text(note: &[u8]) -> Result<String, Refusal> {
    if let Some(number) = header_fault(note) {
        let paper = Paper::Note;
        return Err(Refusal { number, paper });
    }
    let mut text = verdict_text(note);
    let mut marks = Marks::of(note);
    for _ in 0..TOLD {
        if marks.only_zeros_left() {
            let left = 8 * note.len() - marks.at;
            return Ok(
                text + &format!("  {left} zero bits: marks that close, or fill; its job tells\n")
            );
        }
        text += &match marks.next() {
            None => return Ok(text + "  a split, whose number runs out of bits\n"),
            Some(Mark::Split(operation)) if operation >= OP_CELLS => {
                return Ok(text + &format!("  split on {operation}, which no job has\n"));
            }
            Some(mark) => format!("  {}\n", mark_text(mark)),
        };
    }
    Ok(text + "  and so on\n")
}

/// What is wrong with a note before its tree, whatever its job.
fn header_fault(note: &[u8]) -> Option<u32> {
    match Paper::of_form(note) {
        _ if note.len() > NOTE_BYTES => Some(Refusal::NOTE_LONG),
        _ if note.is_empty() => Some(Refusal::BITS_RUN_OUT),
        Some(Paper::Note) => None,
        _ => Some(Refusal::FORM_DIFFERS),
    }
}

/// An accepted note beside its job: the tree, a line for each place.
pub fn tree_text(job: &Job, note: &[u8]) -> String {
    let mut tree = Tree {
        job,
        marks: Marks::of(note),
        rows: Vec::new(),
        told: 0,
        text: verdict_text(note),
    };
    tree.place(0);
    if tree.told > TOLD {
        tree.text += "  and so on\n";
    }
    tree.text
}

/// An operation that is placed: its number, start and instance.
type Row = (usize, usize, usize);

struct Tree<'a> {
    job: &'a Job,
    marks: Marks<'a>,
    rows: Vec<Row>,
    told: usize,
    text: String,
}

impl Tree<'_> {
    /// Tells of the place that has been come to, which costs this much, and of all places below it.
    fn place(&mut self, cost: u32) {
        self.told += 1;
        if self.told > TOLD {
            return;
        }
        let all = self.rows.len() == self.job.operations().len();
        let mark = if all { None } else { self.marks.next() };
        let children = match mark {
            Some(Mark::Split(operation)) => self.children(operation),
            _ => Vec::new(),
        };
        let mark = match mark {
            None => "all placed".to_string(),
            Some(mark @ Mark::Split(_)) if children.is_empty() => {
                format!("{}, no live option", mark_text(mark))
            }
            Some(mark) => mark_text(mark),
        };
        self.text += &format!("{}, cost {cost}: {mark}\n", self.last_row());
        for (row, cost) in children {
            self.rows.push(row);
            self.place(cost);
            self.rows.pop();
        }
    }

    /// The live options of an operation, starts then instances ascending, with what each costs.
    fn children(&self, operation: usize) -> Vec<(Row, u32)> {
        let starts = 1..=usize::from(self.job.t);
        let options = starts.flat_map(|start| {
            self.job
                .instances()
                .map(move |instance| (operation, start, instance))
        });
        options
            .filter_map(|row| {
                Some((
                    row,
                    live(self.job, &[&self.rows[..], &[row]].concat()).ok()?,
                ))
            })
            .collect()
    }

    /// The row that led here, as far to the right as operations are placed.
    fn last_row(&self) -> String {
        let indent = "  ".repeat(self.rows.len() + 1);
        match self.rows.last() {
            None => format!("{indent}nothing placed"),
            Some((operation, start, instance)) => {
                format!("{indent}{operation} at {start} on {instance}")
            }
        }
    }
}

/// The cost of some rows, if they are live. They are when the judge passes them, in a job of these operations and the
/// links among them, with the smallest selection that holds their instances and keeps selection order.
fn live(job: &Job, rows: &[Row]) -> Result<u32, Refusal> {
    let mut rows = rows.to_vec();
    rows.sort();
    let part = library::write_job(&part(job, &rows))?;
    library::judge(&part, &library::write_plan(&plan(job, &rows))?)
}

/// The job of these operations alone, numbered anew in their order.
fn part(job: &Job, rows: &[Row]) -> Job {
    let mut part = Job {
        n: rows.len() as u16,
        e: 0,
        m: job.m,
        t: job.t,
        clock: job.clock,
        wire: job.wire,
        ..Job::EMPTY
    };
    (part.costs, part.copies, part.times, part.intervals) =
        (job.costs, job.copies, job.times, job.intervals);
    for (cell, &(operation, ..)) in rows.iter().enumerate() {
        part.kinds[cell] = job.kinds[operation];
    }
    let place = |operation: usize| rows.iter().position(|row| row.0 == operation);
    let among = job
        .links()
        .filter_map(|(from, to)| Some((place(from)?, place(to)?)));
    for (cell, (from, to)) in among.enumerate() {
        part.e += 1;
        part.from[cell] = from as u16;
        part.to[cell] = to as u16;
    }
    part
}

/// The plan of these rows, with their smallest selection.
fn plan(job: &Job, rows: &[Row]) -> Plan {
    let mut plan = Plan {
        n: rows.len() as u16,
        k: job.instances().len() as u16,
        ..Plan::EMPTY
    };
    for (cell, &(_, start, instance)) in rows.iter().enumerate() {
        plan.starts[cell] = start as u16;
        plan.insts[cell] = instance as u16;
        let of_type = job
            .type_of(instance)
            .map_or(0..0, |unit| job.instances_of(unit));
        plan.selection[instance..of_type.end].fill(1);
    }
    plan
}
