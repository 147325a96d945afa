//! Whether an answer is one that an entry can give.

use crate::library::{Answer, Entry, CHEAPEST, FOUND, NONE, PASSED, REFUSED, SPENT, WRITTEN};
use crate::refusal::Refusal;

const GREATEST_COST: u32 = 1_048_560;

/// What is wrong with the answer of a call with this budget and this room, as far as the answer alone tells.
pub fn fault_of(entry: Entry, budget: u32, room: usize, answer: &Answer) -> Option<&'static str> {
    let tests = [
        (
            entry.outcomes().contains(&answer.outcome),
            "an outcome that the entry does not have",
        ),
        (
            only_its_own_numbers(entry, answer),
            "a number that does not belong to the outcome",
        ),
        (
            numbers_are_known(entry, answer),
            "a number or paper that the entry does not give",
        ),
        (answer.cost <= GREATEST_COST, "a cost above the greatest"),
        (
            visits_keep_to(budget, answer),
            "visits that the budget does not allow",
        ),
        (
            length_keeps_to(entry, room, answer),
            "a length that no such sheet has, or that the output has not",
        ),
    ];
    let (_, fault) = tests.into_iter().find(|(holds, _)| !holds)?;
    Some(fault)
}

/// Whatever does not belong to the outcome is 0. The search's none has a number, a paper and visits, that of the checks
/// nothing.
fn only_its_own_numbers(entry: Entry, answer: &Answer) -> bool {
    let (numbered, visited): (&[u32], &[u32]) = match entry {
        Entry::Search => (&[REFUSED, NONE, SPENT], &[FOUND, NONE, SPENT]),
        _ => (&[REFUSED], &[]),
    };
    let zero_but_for = |number, outcomes: &[u32]| number == 0 || outcomes.contains(&answer.outcome);
    zero_but_for(answer.number, numbered)
        && zero_but_for(answer.paper, numbered)
        && zero_but_for(answer.cost, &[PASSED, FOUND, CHEAPEST])
        && zero_but_for(answer.visits, visited)
        && zero_but_for(answer.length, &[FOUND, WRITTEN])
}

/// Spent and none have one number each, which no refusal has.
fn numbers_are_known(entry: Entry, answer: &Answer) -> bool {
    let refusal = (answer.number, answer.paper);
    let of = |refusal: Refusal| (refusal.number(), refusal.paper as u32);
    let [spent, none] = [Refusal::BUDGET_SPENT, Refusal::NO_PLAN].map(of);
    let given = |&(paper, numbers): &(_, &[u32])| {
        answer.paper == paper as u32 && numbers.contains(&answer.number)
    };
    match answer.outcome {
        REFUSED => entry.refusals().iter().any(given) && refusal != spent && refusal != none,
        SPENT => refusal == spent,
        NONE if entry == Entry::Search => refusal == none,
        _ => true,
    }
}

fn visits_keep_to(budget: u32, answer: &Answer) -> bool {
    match answer.outcome {
        SPENT => answer.visits == budget,
        FOUND => (1..=budget).contains(&answer.visits),
        NONE if answer.number != 0 => (1..=budget).contains(&answer.visits),
        _ => true,
    }
}

fn length_keeps_to(entry: Entry, room: usize, answer: &Answer) -> bool {
    let most = entry.most_written().min(room) as u32;
    match answer.outcome {
        FOUND | WRITTEN => (1..=most).contains(&answer.length),
        _ => true,
    }
}

#[cfg(test)]
mod tests {
    use super::*;
    use crate::refusal::{Fault, Paper};

    const BUDGET: u32 = 14;
    const ROOM: usize = 20;

    fn sound(entry: Entry, answer: Answer) -> bool {
        fault_of(entry, BUDGET, ROOM, &answer).is_none()
    }

    fn found() -> Answer {
        Answer {
            outcome: FOUND,
            cost: 40,
            visits: 14,
            length: 6,
            ..Answer::NOTHING
        }
    }

    #[test]
    fn what_entries_give_is_sound() {
        assert!(sound(Entry::ReadJob, Answer::read()));
        assert!(sound(Entry::Judge, Answer::judged(Ok(GREATEST_COST))));
        assert!(sound(Entry::Search, found()));
        assert!(sound(Entry::Slide, Answer::written(ROOM)));
        assert!(sound(Entry::Slide, Answer::refused(Refusal::DISTANCE_FAR)));
        assert!(sound(
            Entry::CheckDossier,
            Answer {
                outcome: NONE,
                ..Answer::NOTHING
            }
        ));
    }

    #[test]
    fn outcomes_of_other_entries_and_unknown_ones_are_not() {
        assert!(!sound(Entry::Judge, Answer::read()));
        assert!(!sound(Entry::CheckNote, found()));
        assert!(!sound(
            Entry::Judge,
            Answer {
                outcome: 8,
                ..Answer::NOTHING
            }
        ));
    }

    #[test]
    fn a_number_that_does_not_belong_is_not() {
        let written = Answer::written(6);
        assert!(!sound(Entry::Tidy, Answer { cost: 1, ..written }));
        assert!(!sound(
            Entry::Tidy,
            Answer {
                paper: 1,
                ..written
            }
        ));
        let refused = Answer::refused(Refusal::OUTPUT_TOO_SHORT);
        assert!(!sound(
            Entry::Tidy,
            Answer {
                length: 1,
                ..refused
            }
        ));
        let none = Answer {
            outcome: NONE,
            ..Answer::NOTHING
        };
        assert!(!sound(Entry::CheckNote, Answer { number: 31, ..none }));
        assert!(!sound(Entry::Search, none));
    }

    #[test]
    fn refusals_are_those_of_the_entry() {
        let order = Answer::refused(Refusal::of_plan(Fault::SelectionOrder));
        assert!(sound(Entry::Slide, order) && !sound(Entry::Tidy, order));
        assert!(!sound(
            Entry::Slide,
            Answer {
                paper: Paper::Job as u32,
                ..order
            }
        ));
        assert!(!sound(Entry::Slide, Answer { number: 0, ..order }));
        let spent = Answer::refused(Refusal::BUDGET_SPENT);
        assert!(!sound(Entry::Search, spent));
        let spent = Answer {
            outcome: SPENT,
            visits: BUDGET,
            ..spent
        };
        assert!(sound(Entry::Search, spent));
        assert!(!sound(
            Entry::Search,
            Answer {
                number: 31,
                paper: 0,
                ..spent
            }
        ));
    }

    #[test]
    fn costs_visits_and_lengths_keep_to_their_limits() {
        assert!(!sound(Entry::Judge, Answer::judged(Ok(GREATEST_COST + 1))));
        for visits in [0, BUDGET + 1] {
            assert!(!sound(Entry::Search, Answer { visits, ..found() }));
        }
        for length in [0, ROOM as u32 + 1] {
            assert!(!sound(Entry::Search, Answer { length, ..found() }));
        }
        assert!(fault_of(Entry::Tidy, 0, 100, &Answer::written(31)).is_none());
        assert!(fault_of(Entry::Tidy, 0, 100, &Answer::written(32)).is_some());
        assert!(fault_of(Entry::WriteNote, 0, 70_000, &Answer::written(60_001)).is_some());
    }
}
