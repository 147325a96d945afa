//! What the numbers of refusals mean, in document 01's words.

use crate::files::{named, Filed};
use crate::library::{Paper, Refusal};

impl Paper {
    pub fn name(self) -> &'static str {
        match self {
            Paper::Job => "job",
            Paper::Plan => "plan",
            Paper::Note => "note",
            Paper::Dossier => "dossier",
            Paper::Request => "the request itself",
        }
    }

    /// The paper whose form some bytes begin with.
    pub fn of_form(bytes: &[u8]) -> Option<Paper> {
        match bytes.first()? >> 4 {
            1 => Some(Paper::Job),
            2 => Some(Paper::Plan),
            3 => Some(Paper::Note),
            4 => Some(Paper::Dossier),
            _ => None,
        }
    }
}

impl Refusal {
    pub const BITS_RUN_OUT: u32 = 1;
    pub const FORM_DIFFERS: u32 = 2;
    pub const COUNTS_DIFFER: u32 = 10;
    pub const OUTPUT_SHORT: u32 = 22;
    pub const BUDGET_SPENT: u32 = 30;
    pub const NO_PLAN: u32 = 31;
    pub const NOTE_LONG: u32 = 40;
    pub const CHEAPER: u32 = 44;

    /// Number, paper and meaning.
    pub fn told(&self) -> String {
        let (number, paper, name) = (self.number, self.paper as u32, self.paper.name());
        format!(
            "refused by {number}, paper {paper} ({name}): {}",
            meaning(number)
        )
    }

    /// The same of a paper in a file: the file's name before it, and which form it has where another was wanted.
    pub fn told_of(&self, filed: &Filed) -> String {
        let other = match (self.number, Paper::of_form(&filed.bytes)) {
            (Refusal::FORM_DIFFERS, Some(form)) if form != self.paper => {
                format!("; it begins as a {} does", form.name())
            }
            _ => String::new(),
        };
        format!("{}: {}{other}", named(&filed.name), self.told())
    }
}

/// When a number is given.
pub fn meaning(number: u32) -> &'static str {
    match number {
        1 => "bits run out",
        2 => "form differs",
        3 => "N (0 to 24), E (0 to 64), M (0 to 8), K (0 to 16) or clock (1 to 1,023) outside its limit",
        4 => "link breaks its rule: a < b < N, strictly ascending by a, then b",
        5 => "type breaks its rule (copies 1 to 7; time 0 and interval 0, or 1 ≤ interval ≤ time ≤ 1,023), or copies so far exceed 16",
        6 => "fill not zero, or bytes follow",
        7 => "record to be written: T, wire, a kind, a selection bit or a row's number too wide for its field, or an unused cell not zero",
        10 => "plan's N or K differs from the job's",
        11 => "selection order: within a type a selected instance precedes an unselected one",
        12 => "row: instance not below K",
        13 => "row: instance not able to do the kind",
        14 => "row: instance unselected",
        15 => "row: start below 1, or start + delay - 1 above T",
        16 => "precedence: for a link (a, b), b's start must be ≥ a's start + a's delay, or both starts equal and both delays 1",
        17 => "resource: two operations on one instance must have different starts, and the later start must exceed the earlier by at least the spacing of the earlier operation",
        18 => "chain: for operations joined by successive links and all started in one step, the times plus one wire for each link must total at most the clock",
        20 => "slide distance outside -31 to 31",
        21 => "a moved start leaves its limits",
        22 => "output too short",
        30 => "visits exceed the budget",
        31 => "no plan meets the rules",
        40 => "note over 60,000 bytes",
        41 => "verdict 1 without plan, or 0 with one",
        42 => "split on a number ≥ N or already placed",
        43 => "bit 0 not allowed: the cost is below the claim, or verdict 0",
        44 => "all placed and cheaper, or verdict 0",
        50 => "lengths do not total the dossier",
        51 => "dossier over 65,536 bytes",
        _ => "a number that document 01 does not have",
    }
}

#[cfg(test)]
mod tests {
    use super::*;
    use crate::header;

    #[test]
    fn every_number_of_the_header_and_no_other_has_a_meaning() {
        let named = header::named("The number of a refusal");
        assert_eq!(named.len(), 28);
        for number in 0..100 {
            let has_meaning = meaning(number) != meaning(0);
            let is_named = named.iter().any(|&(_, named)| named == number as usize);
            assert_eq!(has_meaning, is_named, "{number}");
        }
    }

    #[test]
    fn a_refusal_names_file_paper_number_and_meaning() {
        let refusal = Refusal {
            number: 2,
            paper: Paper::Job,
        };
        let filed = Filed {
            name: "case1.plan".into(),
            bytes: vec![0x21, 0x8d],
        };
        let told =
            "case1.plan: refused by 2, paper 0 (job): form differs; it begins as a plan does";
        assert_eq!(refusal.told_of(&filed), told);
    }
}
