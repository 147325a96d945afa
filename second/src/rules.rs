//! The rules of a plan, each by itself.

use crate::job::{Ability, Job};
use crate::plan::{Plan, Row};
use crate::refusal::Fault;

/// Where an operation is placed: its row, and what the row's instance needs for the operation's kind.
#[derive(Clone, Copy, Debug, PartialEq, Eq)]
pub struct Place {
    pub start: u16,
    pub instance: u16,
    /// In ns.
    pub time: u16,
    /// Time / clock rounded up, in steps.
    pub delay: u16,
    /// Interval / clock rounded up, in steps.
    pub spacing: u16,
}

impl Place {
    /// None where the instance is not below K, or not able to do the operation's kind.
    pub fn of(job: &Job, operation: usize, row: Row) -> Option<Place> {
        let Ability { time, interval } = ability(job, operation, row)?;
        if time == 0 {
            return None;
        }
        Some(Place {
            start: row.start,
            instance: row.instance,
            time,
            delay: time.div_ceil(job.clock),
            spacing: interval.div_ceil(job.clock),
        })
    }

    pub fn row(&self) -> Row {
        Row {
            start: self.start,
            instance: self.instance,
        }
    }

    /// The last step of the operation.
    pub fn finish(&self) -> u16 {
        self.start + self.delay - 1
    }
}

/// The place of each operation, None where its row gives it none, and where there is no row for it yet.
pub fn places(job: &Job, rows: &[Row]) -> Vec<Option<Place>> {
    (0..job.kinds.len())
        .map(|operation| Place::of(job, operation, *rows.get(operation)?))
        .collect()
}

/// What the row's instance does with the operation's kind. None where the instance is not below K.
fn ability(job: &Job, operation: usize, row: Row) -> Option<Ability> {
    let unit = job.instance_types().nth(usize::from(row.instance))?;
    Some(unit.abilities[usize::from(job.kinds[operation])])
}

pub fn counts_are_equal(job: &Job, plan: &Plan) -> bool {
    plan.rows.len() == job.kinds.len() && plan.selection.len() == job.instances()
}

/// Selection order: within a type no selected instance precedes an unselected one.
pub fn selection_order_holds(job: &Job, plan: &Plan) -> bool {
    let mut next = 0;
    for unit in &job.types {
        let first = next;
        next += usize::from(unit.copies);
        for instance in first..next {
            let unselected_follows = plan.selection[instance..next].contains(&false);
            if plan.selection[instance] && unselected_follows {
                return false;
            }
        }
    }
    true
}

/// What the operation's row breaks, in the order of the refusals. Where the operation has no place there is no delay
/// either, and of the last rule only the start is left to ask for.
pub fn broken_by_row(job: &Job, plan: &Plan, operation: usize) -> Vec<Fault> {
    let row = plan.rows[operation];
    let place = Place::of(job, operation, row);
    let selected = plan.selection.get(usize::from(row.instance));
    let mut broken = Vec::new();
    if selected.is_none() {
        broken.push(Fault::RowInstance);
    } else if place.is_none() {
        broken.push(Fault::RowKind);
    }
    if selected == Some(&false) {
        broken.push(Fault::RowUnselected);
    }
    if row.start < 1 || place.is_some_and(|place| place.finish() > job.deadline) {
        broken.push(Fault::RowStep);
    }
    broken
}

/// Precedence: for a link (a, b), b's start is at least a's start + a's delay, or both starts are equal and both delays
/// are 1. Here as below, one place for each operation, None while it is not placed.
pub fn precedence_holds(job: &Job, places: &[Option<Place>]) -> bool {
    for link in &job.links {
        let ends = [link.from, link.to].map(|operation| places[usize::from(operation)]);
        let [Some(a), Some(b)] = ends else { continue };
        let chained = a.start == b.start && a.delay == 1 && b.delay == 1;
        if b.start < a.start + a.delay && !chained {
            return false;
        }
    }
    true
}

/// Resource: two operations on one instance have different starts, and the later start exceeds the earlier by at least
/// the spacing of the earlier operation. So each holds the instance for its spacing from its start on, and no two hold
/// it in one step.
pub fn resource_holds(places: &[Option<Place>]) -> bool {
    for (operation, one) in places.iter().enumerate() {
        for other in &places[operation + 1..] {
            let (Some(one), Some(other)) = (one, other) else {
                continue;
            };
            if one.instance == other.instance && !are_spaced(one, other) {
                return false;
            }
        }
    }
    true
}

fn are_spaced(one: &Place, other: &Place) -> bool {
    let (earlier, later) = if one.start < other.start {
        (one, other)
    } else {
        (other, one)
    };
    earlier.start != later.start && later.start - earlier.start >= earlier.spacing
}

/// Chain: for operations joined by successive links and all started in one step, two or more, the times plus one wire
/// for each link total at most the clock. Every such run of operations is gone through.
pub fn chain_holds(job: &Job, places: &[Option<Place>]) -> bool {
    let mut run = Vec::new();
    (0..places.len()).all(|first| runs_hold(job, places, &mut run, first))
}

/// The run with this operation put to its end, and every run that goes on from there.
fn runs_hold(job: &Job, places: &[Option<Place>], run: &mut Vec<usize>, end: usize) -> bool {
    run.push(end);
    let mut hold = run.len() < 2 || total(job, places, run) <= usize::from(job.clock);
    for link in &job.links {
        let [from, to] = [link.from, link.to].map(usize::from);
        if from == end && start_in_one_step(places[from], places[to]) {
            hold = hold && runs_hold(job, places, run, to);
        }
    }
    run.pop();
    hold
}

fn start_in_one_step(a: Option<Place>, b: Option<Place>) -> bool {
    match (a, b) {
        (Some(a), Some(b)) => a.start == b.start,
        _ => false,
    }
}

/// The times of the run's operations plus one wire for each of its links.
fn total(job: &Job, places: &[Option<Place>], run: &[usize]) -> usize {
    let placed = run.iter().filter_map(|&operation| places[operation]);
    let times: usize = placed.map(|place| usize::from(place.time)).sum();
    times + usize::from(job.wire) * (run.len() - 1)
}

/// The operations placed are live: the rules on rows, precedence, resource and chain hold among them. Of the rule on
/// rows the steps are left to ask for: only an able instance gives a place, and it is selected because it does.
pub fn are_live(job: &Job, places: &[Option<Place>]) -> bool {
    let in_steps = |place: &Place| place.start >= 1 && place.finish() <= job.deadline;
    places.iter().flatten().all(in_steps)
        && precedence_holds(job, places)
        && resource_holds(places)
        && chain_holds(job, places)
}

/// The smallest selection that holds the instances of these rows and keeps selection order.
pub fn smallest_selection(job: &Job, rows: &[Row]) -> Vec<bool> {
    selection_from(job, rows, |_, first_used| first_used)
}

/// Of each type the instances from one number on. `first_selected` gives it, from the type's first instance and the
/// first that a row uses, or the end of the type where none does.
pub fn selection_from(
    job: &Job,
    rows: &[Row],
    mut first_selected: impl FnMut(u16, u16) -> u16,
) -> Vec<bool> {
    let mut selection = Vec::new();
    for unit in &job.types {
        let first = selection.len() as u16;
        let end = first + unit.copies;
        let used = rows.iter().map(|row| row.instance);
        let first_used = used.filter(|used| (first..end).contains(used)).min();
        let selected_from = first_selected(first, first_used.unwrap_or(end));
        selection.extend((first..end).map(|instance| instance >= selected_from));
    }
    selection
}

/// The sum of costs of selected instances.
pub fn cost(job: &Job, selection: &[bool]) -> u32 {
    let mut cost = 0;
    for (unit, selected) in job.instance_types().zip(selection) {
        if *selected {
            cost += u32::from(unit.cost);
        }
    }
    cost
}

#[cfg(test)]
mod tests {
    use super::*;
    use crate::samples::{empty_job, unit_for_one_kind};
    use std::ops::RangeInclusive;

    /// The place of one operation that needs this time.
    fn place(time: u16, clock: u16, row: Row) -> Option<Place> {
        let job = Job {
            kinds: vec![0],
            types: vec![unit_for_one_kind(0, 1, 2, time)],
            clock,
            ..empty_job()
        };
        Place::of(&job, 0, row)
    }

    #[test]
    fn delay_and_spacing_are_rounded_up() {
        let row = Row {
            start: 2,
            instance: 1,
        };
        for (time, clock, delay) in [(163, 55, 3), (165, 55, 3), (166, 55, 4), (1, 55, 1)] {
            let place = place(time, clock, row).expect("a place");
            assert_eq!([place.delay, place.spacing], [delay; 2]);
            assert_eq!(place.finish(), 2 + delay - 1);
        }
    }

    /// A place on one and the same instance.
    fn sharing((start, spacing): (u16, u16)) -> Option<Place> {
        let row = Row { start, instance: 0 };
        Some(Place {
            spacing,
            ..place(1, 1, row)?
        })
    }

    /// Whether two operations may share an instance, each by its start and its spacing, however they are numbered.
    fn may_share(one: (u16, u16), other: (u16, u16)) -> bool {
        let in_both_orders =
            [[one, other], [other, one]].map(|pair| resource_holds(&pair.map(sharing)));
        assert_eq!(in_both_orders[0], in_both_orders[1]);
        in_both_orders[0]
    }

    #[test]
    fn the_spacing_of_the_earlier_operation_just_holds() {
        for (earlier, later) in [(3, 1), (1, 3), (4, 2), (2, 4), (3, 3)] {
            assert!(may_share((5, earlier), (5 + earlier, later)));
            assert!(!may_share((5, earlier), (5 + earlier - 1, later)));
        }
    }

    #[test]
    fn equal_starts_are_refused_whatever_the_spacings() {
        for (one, other) in every_two(1..=4) {
            assert!(!may_share((5, one), (5, other)), "{one}, {other}");
        }
    }

    #[test]
    fn no_two_operations_hold_one_instance_in_one_step() {
        let steps_held = |(start, spacing)| start..start + spacing;
        for starts in every_two(1..=9) {
            for spacings in every_two(1..=4) {
                let [one, other] = [(starts.0, spacings.0), (starts.1, spacings.1)];
                let overlap = steps_held(one).any(|step| steps_held(other).contains(&step));
                assert_eq!(may_share(one, other), !overlap, "{one:?}, {other:?}");
            }
        }
    }

    fn every_two(numbers: RangeInclusive<u16>) -> impl Iterator<Item = (u16, u16)> {
        let others = numbers.clone();
        numbers.flat_map(move |one| others.clone().map(move |other| (one, other)))
    }

    #[test]
    fn no_place_beyond_k_or_for_a_kind_not_done() {
        let [last, beyond] = [1, 2].map(|instance| Row { start: 1, instance });
        assert!(place(10, 55, last).is_some());
        assert_eq!(place(10, 55, beyond), None);
        assert_eq!(place(0, 55, last), None);
    }
}
