//! Records made at random are shown and made again; texts that say nothing sound are refused in plain words.

use super::*;
use crate::record::{INST_CELLS, KINDS, LINK_CELLS, OP_CELLS};

/// Numbers that look random, the same in every run.
struct Random(u64);

impl Random {
    /// A number from `least` to `most`.
    fn within(&mut self, least: u16, most: u16) -> u16 {
        self.0 = self
            .0
            .wrapping_mul(6364136223846793005)
            .wrapping_add(1442695040888963407);
        least + ((self.0 >> 33) % (u64::from(most - least) + 1)) as u16
    }

    fn job(&mut self) -> Job {
        let mut job = Job {
            t: self.within(0, 31),
            clock: self.within(1, 1023),
            wire: self.within(0, 1023),
            ..Job::EMPTY
        };
        job.n = self.within(0, OP_CELLS as u16);
        for operation in job.operations() {
            job.kinds[operation] = self.within(0, KINDS as u16 - 1);
        }
        self.add_links(&mut job);
        self.add_types(&mut job);
        job
    }

    fn add_links(&mut self, job: &mut Job) {
        let pairs = job
            .operations()
            .flat_map(|from| (from + 1..usize::from(job.n)).map(move |to| (from, to)));
        let one_in = self.within(1, 9);
        let chosen: Vec<_> = pairs
            .filter(|_| self.within(1, one_in) == 1)
            .take(LINK_CELLS)
            .collect();
        job.e = chosen.len() as u16;
        for (cell, (from, to)) in chosen.into_iter().enumerate() {
            [job.from[cell], job.to[cell]] = [from as u16, to as u16];
        }
    }

    fn add_types(&mut self, job: &mut Job) {
        job.m = self.within(0, 8);
        let mut spare = INST_CELLS as u16 - job.m;
        for unit in job.types() {
            let more = self.within(0, spare.min(6));
            spare -= more;
            [job.costs[unit], job.copies[unit]] = [self.within(0, u16::MAX), 1 + more];
            for cell in KINDS * unit..KINDS * (unit + 1) {
                if self.within(0, 1) == 1 {
                    job.times[cell] = self.within(1, 1023);
                    job.intervals[cell] = self.within(1, job.times[cell]);
                }
            }
        }
    }

    fn plan(&mut self) -> Plan {
        let mut plan = Plan {
            n: self.within(0, OP_CELLS as u16),
            k: self.within(0, INST_CELLS as u16),
            ..Plan::EMPTY
        };
        for instance in 0..usize::from(plan.k) {
            plan.selection[instance] = self.within(0, 1);
        }
        for operation in plan.operations() {
            [plan.starts[operation], plan.insts[operation]] =
                [self.within(0, 31), self.within(0, 15)];
        }
        plan
    }
}

#[test]
fn records_are_shown_and_made_again() {
    let mut random = Random(1);
    for _ in 0..2000 {
        let (job, plan) = (random.job(), random.plan());
        let texts = [job_text(&job), plan_text(&plan)];
        let records = [Record::Job(Box::new(job)), Record::Plan(Box::new(plan))];
        for (text, record) in texts.iter().zip(records) {
            assert!(record.sheet().is_ok());
            assert_eq!(made(text), Ok(record), "{text}");
        }
    }
}

#[test]
fn a_text_may_be_laid_out_in_other_ways() {
    let house = plan_text(&Random(7).plan());
    let loose = house
        .replace(' ', "  ")
        .replace('\n', "  # a comment\n\n")
        .replace("start", "\tstart");
    assert_eq!(made(&loose), made(&house));
}

const JOB: &str = "job\ndeadline 3\nclock 100\nwire 5\noperations\n0 kind 1\ntypes\n0 cost 10 copies 2\nkind 1 time 40 interval 40\n";

#[test]
fn mistakes_are_told_with_their_line() {
    let cases = [
        (
            JOB.replace("clock", "clok"),
            "line 3: `clok` where `clock` should stand",
        ),
        (
            JOB.replace("0 kind 1", "1 kind 1"),
            "line 6: number 1 where 0 should stand",
        ),
        (
            JOB.replace("0 kind 1", "0 kind one"),
            "line 6: `one` where a number should stand",
        ),
        (
            JOB.replace("0 kind 1", "0 kind 1 before 2"),
            "line 6: `before` where `after` should stand",
        ),
        (
            JOB.replace("cost 10", "cost 70000"),
            "line 8: `70000` is more than 65535, the most of any number",
        ),
        (
            JOB.replace("copies 2", "copies"),
            "line 8: the line ends where a number should stand",
        ),
        (
            JOB.replace("wire 5", "wire 5 ns"),
            "line 4: `ns` where the end of the line should stand",
        ),
        (
            JOB.replace("kind 1 time", "kind 8 time"),
            "line 9: kind 8, and kinds are 0 to 7",
        ),
        (
            JOB.replace("interval 40\n", "interval 40\nkind 1 time 1 interval 1"),
            "line 10: kind 1 stands twice in one type",
        ),
        (
            JOB.to_string() + "plan",
            "line 10: `plan` where the end of the text should stand",
        ),
        (
            JOB[..JOB.find("types").unwrap()].to_string(),
            "the text ends too soon: `types` is missing",
        ),
        (
            String::new(),
            "the text ends too soon: `job` or `plan` is missing",
        ),
        (
            "note".to_string(),
            "line 1: `note` where `job` or `plan` should stand",
        ),
    ];
    for (text, told) in cases {
        assert_eq!(
            made(&text).map_err(|mistake| mistake.to_string()),
            Err(told.to_string()),
            "{text}"
        );
    }
}

/// What fits the text and not the record is for the library to refuse, and never made smaller.
#[test]
fn too_many_are_refused_by_the_library() {
    let many = |count: usize, line: &str| {
        (0..count)
            .map(|number| format!("{number} {line}\n"))
            .collect::<String>()
    };
    let cases = [
        (JOB.replace("0 kind 1\n", &many(25, "kind 1")), 3),
        (JOB.replace("0 kind 1\n", &many(65536, "kind 1")), 3),
        (JOB.replace("0 kind 1\n", "0 kind 1 after 0\n"), 4),
        (JOB.replace("0 kind 1\n", "0 kind 8\n"), 7),
        (
            JOB.replace("0 cost 10 copies 2\n", &many(9, "cost 1 copies 1")),
            3,
        ),
        (JOB.replace("copies 2", "copies 8"), 5),
        (format!("plan\nselection{}\nrows\n", " 1".repeat(17)), 3),
        (
            format!("plan\nselection\nrows\n{}", many(25, "start 1 instance 0")),
            3,
        ),
        ("plan\nselection 2\nrows\n".to_string(), 7),
        (
            "plan\nselection\nrows\n0 start 32 instance 0\n".to_string(),
            7,
        ),
    ];
    for (text, number) in cases {
        let sheet = made(&text).expect("a record").sheet();
        assert_eq!(
            sheet.map_err(|refusal| refusal.number),
            Err(number),
            "{text}"
        );
    }
}
