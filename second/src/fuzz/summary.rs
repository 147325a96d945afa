//! How many byte strings each entry was handed, and what came of them.

use crate::library::{Answer, Entry, OUTCOMES};

pub struct Summary {
    /// By entry and outcome.
    times: [[u64; OUTCOMES.len()]; Entry::ALL.len()],
}

impl Summary {
    pub fn new() -> Summary {
        Summary {
            times: [[0; OUTCOMES.len()]; Entry::ALL.len()],
        }
    }

    /// The answer's outcome is one that is known.
    pub fn count(&mut self, entry: Entry, answer: &Answer) {
        self.times[entry as usize][answer.outcome as usize] += 1;
    }

    /// Entries down, outcomes across; a dash where the entry has no such outcome.
    pub fn table(&self) -> String {
        let mut table = line("", ["strings"].into_iter().chain(OUTCOMES));
        for entry in Entry::ALL {
            let times = self.times[entry as usize];
            let mut cells = vec![times.iter().sum::<u64>().to_string()];
            for (outcome, times) in times.iter().enumerate() {
                let possible = entry.outcomes().contains(&(outcome as u32));
                cells.push(if possible {
                    times.to_string()
                } else {
                    "-".to_string()
                });
            }
            table += &line(entry.name(), cells.iter().map(String::as_str));
        }
        table
    }
}

fn line<'cells>(title: &str, cells: impl Iterator<Item = &'cells str>) -> String {
    let mut line = format!("{title:<14}");
    for cell in cells {
        line += &format!("{cell:>9}");
    }
    line + "\n"
}

#[cfg(test)]
mod tests {
    use super::*;
    use crate::refusal::Refusal;

    #[test]
    fn outcomes_are_counted_by_entry() {
        let mut summary = Summary::new();
        summary.count(Entry::WritePlan, &Answer::written(6));
        summary.count(Entry::WritePlan, &Answer::written(6));
        let refused = Answer::refused(Refusal::OUTPUT_TOO_SHORT);
        summary.count(Entry::WritePlan, &refused);
        let table = summary.table();
        let cells = |title: &str| -> Vec<&str> {
            let line = table.lines().find(|line| line.starts_with(title));
            line.expect("a line")[14..].split_whitespace().collect()
        };
        assert_eq!(
            cells("plan writer"),
            ["3", "1", "-", "-", "-", "-", "-", "2", "-"]
        );
        assert_eq!(
            cells("plan reader"),
            ["0", "0", "-", "-", "-", "-", "-", "-", "0"]
        );
    }
}
