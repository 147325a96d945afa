//! Closing notes: a tree of places, gone through mark by mark.

pub mod check;
pub mod making;
pub mod write;

use crate::job::Job;
use crate::judge::judge;
use crate::plan::Row;
use crate::refusal::{Fault, Refusal};
use crate::rules::{are_live, cost, smallest_selection, Place};
use crate::sheet::Form;

/// The most bytes that a note has.
pub const NOTE_BYTES: usize = 60_000;

const FORM: u16 = 3;
const VERDICT_BITS: usize = 1;
const MARK_BITS: usize = 1;
const NUMBER_BITS: usize = 5;

/// What stands in a note at a place where an operation is still unplaced.
#[derive(Clone, Copy, Debug, PartialEq, Eq)]
pub enum Mark {
    Close,
    Split(u16),
}

/// The marks of a tree one after the other, read from a note or chosen for one.
pub trait Marks {
    fn mark(&mut self, tree: &Tree) -> Result<Mark, Refusal>;

    /// Where all operations are placed there is no mark.
    fn all_placed(&mut self, _tree: &Tree) {}
}

/// The job, and the cost of the plan lent; None where the plan's sheet has no bytes. The plan is judged.
pub fn lent(job_sheet: &[u8], plan_sheet: &[u8]) -> Result<(Job, Option<u32>), Refusal> {
    let job = Job::read(job_sheet)?;
    if plan_sheet.is_empty() {
        return Ok((job, None));
    }
    let cost = judge(job_sheet, plan_sheet)?;
    Ok((job, Some(cost)))
}

/// The tree, at one of its places.
pub struct Tree<'job> {
    job: &'job Job,
    /// The cost of the plan lent. None under verdict 0.
    claim: Option<u32>,
    /// One cell for each operation.
    places: Vec<Option<Place>>,
    /// The operations placed, the last one last.
    order: Vec<usize>,
}

impl<'job> Tree<'job> {
    pub fn new(job: &'job Job, claim: Option<u32>) -> Tree<'job> {
        Tree {
            job,
            claim,
            places: vec![None; job.kinds.len()],
            order: Vec::new(),
        }
    }

    pub fn unplaced(&self) -> Vec<u16> {
        let operations = 0..self.places.len();
        let unplaced = operations.filter(|&operation| self.places[operation].is_none());
        unplaced.map(|operation| operation as u16).collect()
    }

    /// How many operations are placed.
    pub fn depth(&self) -> usize {
        self.order.len()
    }

    /// The operation placed last.
    pub fn last(&self) -> Option<(usize, Place)> {
        let operation = *self.order.last()?;
        Some((operation, self.places[operation]?))
    }

    /// The cost of the smallest selection for the operations placed.
    pub fn cost(&self) -> u32 {
        let placed = self.places.iter().flatten();
        let rows: Vec<Row> = placed.map(Place::row).collect();
        cost(self.job, &smallest_selection(self.job, &rows))
    }

    /// The cost is not below the claim. Under verdict 0 this is never so.
    pub fn may_close(&self) -> bool {
        self.claim.is_some_and(|claim| self.cost() >= claim)
    }

    /// The live options of an operation that is not placed, starts and then instances ascending.
    pub fn options(&self, operation: u16) -> Vec<Place> {
        let operation = usize::from(operation);
        let mut places = self.places.clone();
        let mut options = Vec::new();
        for start in 1..=self.job.deadline {
            for instance in 0..self.job.instances() as u16 {
                places[operation] = Place::of(self.job, operation, Row { start, instance });
                if places[operation].is_some() && are_live(self.job, &places) {
                    options.extend(places[operation]);
                }
            }
        }
        options
    }

    /// This place, and then its children.
    pub fn go_through(&mut self, marks: &mut impl Marks) -> Result<(), Refusal> {
        if self.unplaced().is_empty() {
            marks.all_placed(self);
            return allow(self.may_close(), Fault::Cheaper);
        }
        match marks.mark(self)? {
            Mark::Close => allow(self.may_close(), Fault::CloseBroken),
            Mark::Split(operation) => {
                allow(self.unplaced().contains(&operation), Fault::SplitBroken)?;
                self.go_through_children(marks, operation)
            }
        }
    }

    fn go_through_children(
        &mut self,
        marks: &mut impl Marks,
        operation: u16,
    ) -> Result<(), Refusal> {
        let cell = usize::from(operation);
        for option in self.options(operation) {
            self.places[cell] = Some(option);
            self.order.push(cell);
            self.go_through(marks)?;
            self.order.pop();
            self.places[cell] = None;
        }
        Ok(())
    }
}

fn allow(holds: bool, fault: Fault) -> Result<(), Refusal> {
    if holds {
        return Ok(());
    }
    Err(Refusal::of_note(fault))
}
