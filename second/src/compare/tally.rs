//! How often each entry was compared, and which answers it gave.

use crate::library::{Answer, Entry};
use std::collections::{BTreeMap, BTreeSet};
use std::ops::RangeInclusive;

/// The numbers of judging. Each must be met often among all plans, and as the one rule broken.
const JUDGING: RangeInclusive<u32> = 10..=18;

/// How often a number of judging and every answer of these entries must be met at least.
const OFTEN: u64 = 20;
const OFTEN_ASKED: [Entry; 6] = [
    Entry::Search,
    Entry::CheckNote,
    Entry::WriteNote,
    Entry::Slide,
    Entry::Tidy,
    Entry::CheckDossier,
];

/// The entries that can find that there is no plan, and say so without a number.
const PROVE_NONE: [Entry; 2] = [Entry::CheckNote, Entry::CheckDossier];

pub struct Tally {
    answers: BTreeMap<(Entry, Outcome), u64>,
    alone: BTreeMap<u32, u64>,
    pub round_trips: u64,
    pub walks_confirmed: u64,
    pub notes_confirmed: u64,
    pub slid_judged: u64,
    pub tidied_judged: u64,
    pub dossiers_unpacked: u64,
}

/// The search's outcomes spent and none are counted by paper and number, as refusals are. The none of the note check and
/// of the dossier check has neither.
#[derive(Clone, Copy, PartialEq, Eq, PartialOrd, Ord)]
enum Outcome {
    Done,
    None,
    Refused { paper: u32, number: u32 },
}

impl Tally {
    pub fn new() -> Tally {
        Tally {
            answers: BTreeMap::new(),
            alone: BTreeMap::new(),
            round_trips: 0,
            walks_confirmed: 0,
            notes_confirmed: 0,
            slid_judged: 0,
            tidied_judged: 0,
            dossiers_unpacked: 0,
        }
    }

    pub fn count(&mut self, entry: Entry, answer: &Answer) {
        let outcome = if answer.has_number() {
            let (paper, number) = (answer.paper, answer.number);
            Outcome::Refused { paper, number }
        } else if answer.is_none() {
            Outcome::None
        } else {
            Outcome::Done
        };
        *self.answers.entry((entry, outcome)).or_insert(0) += 1;
    }

    /// A plan breaks this rule and no other.
    pub fn count_alone(&mut self, number: u32) {
        *self.alone.entry(number).or_insert(0) += 1;
    }

    pub fn total(&self) -> u64 {
        self.answers.values().sum()
    }

    fn total_of(&self, wanted: Entry) -> u64 {
        let of_entry = self
            .answers
            .iter()
            .filter(|((entry, _), _)| *entry == wanted);
        of_entry.map(|(_, count)| count).sum()
    }

    fn times(&self, entry: Entry, outcome: Outcome) -> u64 {
        self.answers.get(&(entry, outcome)).copied().unwrap_or(0)
    }

    fn times_alone(&self, number: u32) -> u64 {
        self.alone.get(&number).copied().unwrap_or(0)
    }

    /// One line for each answer that an entry can give but was seen to give too seldom.
    pub fn met_too_seldom(&self) -> Vec<String> {
        let mut lines = Vec::new();
        let mut require = |what: String, times: u64, least: u64| {
            if times < least {
                lines.push(format!("{what}: met {times} times, not {least} or more"));
            }
        };
        for entry in Entry::ALL {
            let name = entry.name();
            let done = self.times(entry, Outcome::Done);
            let often = OFTEN_ASKED.contains(&entry);
            let least = if often { OFTEN } else { 1 };
            require(format!("{name}, anything but a refusal"), done, least);
            if PROVE_NONE.contains(&entry) {
                let none = self.times(entry, Outcome::None);
                require(format!("{name}, none"), none, least);
            }
            for (paper, number) in refusals_of(entry) {
                let times = self.times(entry, Outcome::Refused { paper, number });
                let of_judging = JUDGING.contains(&number);
                let least = if of_judging { OFTEN } else { least };
                let what = format!("{name}, refusal {number}, paper {paper}");
                require(what, times, least);
            }
        }
        for number in JUDGING {
            let what = format!("plans that break no rule but {number}");
            require(what, self.times_alone(number), OFTEN);
        }
        lines
    }

    /// One line for each refusal that an entry gave and that document 01 does not have it give.
    pub fn unheard_of(&self) -> Vec<String> {
        let mut lines = Vec::new();
        for (&(entry, outcome), times) in &self.answers {
            let Outcome::Refused { paper, number } = outcome else {
                continue;
            };
            if !refusals_of(entry).contains(&(paper, number)) {
                let name = entry.name();
                lines.push(format!(
                    "{name}, refusal {number}, paper {paper}: met {times} times, and never should be"
                ));
            }
        }
        lines
    }

    /// Entries across, papers and numbers down; behind them how often the number was that of the one rule broken.
    pub fn table(&self) -> String {
        let names = Entry::ALL.map(|entry| entry.name().to_string());
        let totals = Entry::ALL.map(|entry| self.total_of(entry).to_string());
        let done = Entry::ALL.map(|entry| self.times(entry, Outcome::Done).to_string());
        let mut table = line("", &names, "alone");
        table += &line("comparisons", &totals, "");
        table += &line("done", &done, "");
        let none = Entry::ALL.map(|entry| {
            if PROVE_NONE.contains(&entry) {
                self.times(entry, Outcome::None).to_string()
            } else {
                "-".to_string()
            }
        });
        table += &line("none", &none, "");
        let refusals: BTreeSet<(u32, u32)> = Entry::ALL.into_iter().flat_map(refusals_of).collect();
        for (paper, number) in refusals {
            let times = Entry::ALL.map(|entry| self.times_text(entry, paper, number));
            let alone = if JUDGING.contains(&number) {
                self.times_alone(number).to_string()
            } else {
                String::new()
            };
            table += &line(&format!("paper {paper}, {number:>2}"), &times, &alone);
        }
        table
    }

    /// A dash where the entry cannot give this refusal.
    fn times_text(&self, entry: Entry, paper: u32, number: u32) -> String {
        if !refusals_of(entry).contains(&(paper, number)) {
            return "-".to_string();
        }
        let times = self.times(entry, Outcome::Refused { paper, number });
        times.to_string()
    }
}

fn line(title: &str, cells: &[String], last: &str) -> String {
    let mut line = format!("{title:<12}");
    for cell in cells {
        line += &format!("{cell:>14}");
    }
    line += &format!("{last:>14}");
    line.trim_end().to_string() + "\n"
}

/// Paper and number of each refusal that the entry can give.
fn refusals_of(entry: Entry) -> Vec<(u32, u32)> {
    let mut refusals = Vec::new();
    for &(paper, numbers) in entry.refusals() {
        refusals.extend(numbers.iter().map(|number| (paper as u32, *number)));
    }
    refusals
}

#[cfg(test)]
mod tests {
    use super::*;
    use crate::note::check::Proved;
    use crate::refusal::{Fault, Paper, Refusal};
    use crate::samples::empty_job;
    use crate::search::{walk, Searched};

    const OF_NOTES: usize = (2 + 6 + 13 + 8) + (1 + 6 + 13 + 1 + 1);
    const OF_MOVES: usize = (1 + 6 + 13 + 1 + 2) + (1 + 6 + 12 + 1);
    const OF_DOSSIERS: usize = 2 + 5 + 6 + 13 + 8;
    const OF_SHEETS: usize = (1 + 6) + (1 + 5) + (1 + 4) + (1 + 3);
    const EVERY_ANSWER: usize =
        OF_SHEETS + (1 + 6 + 13) + (1 + 7 + 2) + OF_NOTES + OF_MOVES + OF_DOSSIERS;

    #[test]
    fn an_answer_never_met_is_named() {
        let mut tally = Tally::new();
        assert_eq!(tally.met_too_seldom().len(), EVERY_ANSWER + 9);
        tally.count(Entry::WriteJob, &Answer::refused(Refusal::OUTPUT_TOO_SHORT));
        tally.count(Entry::WriteJob, &Answer::written(6));
        assert_eq!(tally.total(), 2);
        let missing = tally.met_too_seldom();
        assert_eq!(missing.len(), EVERY_ANSWER + 9 - 2);
        let line = "job writer, refusal 7, paper 0: met 0 times, not 1 or more";
        assert!(missing.contains(&line.to_string()));
        assert!(!missing
            .iter()
            .any(|line| line.contains("refusal 22, paper 4") && line.contains("job writer")));
    }

    #[test]
    fn a_refusal_that_is_not_the_entrys_is_named() {
        let mut tally = Tally::new();
        let refused = Answer::refused(Refusal {
            fault: Fault::SelectionOrder,
            paper: Paper::Plan,
        });
        tally.count(Entry::Judge, &refused);
        assert!(tally.unheard_of().is_empty());
        tally.count(Entry::Tidy, &refused);
        let line = "tidy, refusal 11, paper 1: met 1 times, and never should be";
        assert_eq!(tally.unheard_of(), [line]);
    }

    #[test]
    fn a_rule_met_19_times_is_named() {
        let mut tally = Tally::new();
        let fault = Fault::Chain;
        let refused = Answer::refused(Refusal {
            fault,
            paper: Paper::Plan,
        });
        let lines = [
            "judge, refusal 18, paper 1: met 19 times, not 20 or more",
            "plans that break no rule but 18: met 19 times, not 20 or more",
        ];
        for times in 1..=20 {
            tally.count(Entry::Judge, &refused);
            tally.count_alone(fault as u32);
            let missing = tally.met_too_seldom();
            let named = lines.map(|line| missing.contains(&line.to_string()));
            assert_eq!(named, [times == 19; 2]);
        }
    }

    #[test]
    fn every_answer_of_the_search_must_be_met_20_times() {
        let mut tally = Tally::new();
        let answers = [
            Searched::None { visits: 1 },
            Searched::Spent { budget: 1 },
            Searched::Refused(Refusal::OUTPUT_TOO_SHORT),
            walk(&empty_job(), 1),
        ]
        .map(|searched| Answer::searched(&searched));
        let named = |tally: &Tally| {
            let lines = tally.met_too_seldom();
            let of_search = lines.iter().filter(|line| line.starts_with("search, "));
            of_search.count()
        };
        assert_eq!(named(&tally), 1 + 7 + 2);
        for times in 1..=20 {
            for answer in &answers {
                tally.count(Entry::Search, answer);
            }
            assert_eq!(named(&tally), if times < 20 { 10 } else { 6 });
        }
    }

    #[test]
    fn a_note_for_none_is_told_from_one_for_a_plan() {
        let mut tally = Tally::new();
        let lines = ["note check", "dossier check"]
            .map(|name| format!("{name}, none: met 19 times, not 20 or more"));
        for (proved, named) in [(Proved::Cheapest { cost: 0 }, false), (Proved::None, true)] {
            for entry in [Entry::CheckNote, Entry::CheckDossier] {
                for _ in 0..19 {
                    tally.count(entry, &Answer::checked(Ok(proved)));
                }
            }
            let missing = tally.met_too_seldom();
            assert_eq!(
                lines.each_ref().map(|line| missing.contains(line)),
                [named; 2]
            );
        }
    }

    #[test]
    fn papers_are_told_apart_in_the_table() {
        let mut tally = Tally::new();
        for paper in [Paper::Job, Paper::Plan, Paper::Plan] {
            let fault = Fault::BitsRunOut;
            tally.count(Entry::Judge, &Answer::refused(Refusal { fault, paper }));
        }
        let table = tally.table();
        let judged = |title: &str| {
            let line = table.lines().find(|line| line.starts_with(title));
            let mut cells = line?[title.len()..].split_whitespace();
            cells.nth(Entry::Judge as usize)
        };
        assert_eq!(judged("paper 0,  1"), Some("1"));
        assert_eq!(judged("paper 1,  1"), Some("2"));
    }
}
