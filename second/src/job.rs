//! The job and its sheet.

use crate::bits::BitReader;
use crate::record::{
    all_zero, JobRecord, Record, KINDS, MAX_INSTANCES, MAX_LINKS, MAX_OPERATIONS, MAX_TYPES,
};
use crate::refusal::{Fault, Paper};
use crate::sheet::{Field, FieldName, Form};
use std::iter::repeat_n;

const HEADER_WITHOUT_FORM: usize = 5 + 7 + 4 + 5 + 10 + 10;
const TYPE_BITS: usize = 16 + 3 + KINDS * (10 + 10);

#[derive(Clone, Debug, PartialEq, Eq)]
pub struct Job {
    pub kinds: Vec<u16>,
    pub links: Vec<Link>,
    pub types: Vec<UnitType>,
    pub deadline: u16,
    pub clock: u16,
    pub wire: u16,
}

/// Links compare by `from`, then by `to`.
#[derive(Clone, Copy, Debug, PartialEq, Eq, PartialOrd, Ord)]
pub struct Link {
    pub from: u16,
    pub to: u16,
}

#[derive(Clone, Copy, Debug, PartialEq, Eq)]
pub struct UnitType {
    pub cost: u16,
    pub copies: u16,
    pub abilities: [Ability; KINDS],
}

/// What a unit type does with one kind; time 0 where it cannot do it.
#[derive(Clone, Copy, Debug, PartialEq, Eq)]
pub struct Ability {
    pub time: u16,
    pub interval: u16,
}

impl Ability {
    fn keeps_rule(self) -> bool {
        if self.time == 0 {
            return self.interval == 0;
        }
        self.time <= 1023 && 1 <= self.interval && self.interval <= self.time
    }
}

impl Job {
    /// The type of each instance. Instances are numbered type by type.
    pub fn instance_types(&self) -> impl Iterator<Item = &UnitType> {
        let types = self.types.iter();
        types.flat_map(|unit| repeat_n(unit, usize::from(unit.copies)))
    }

    /// K, the total of copies.
    pub fn instances(&self) -> usize {
        self.types.iter().map(|unit| usize::from(unit.copies)).sum()
    }
}

fn check_limits(n: usize, e: usize, m: usize, clock: u16) -> Result<(), Fault> {
    if n > MAX_OPERATIONS || e > MAX_LINKS || m > MAX_TYPES || !(1..=1023).contains(&clock) {
        return Err(Fault::OutsideLimit);
    }
    Ok(())
}

/// A job that grows link by link and type by type, in the order of the sheet.
impl Job {
    fn add_link(&mut self, link: Link) -> Result<(), Fault> {
        let ascends = self.links.last().is_none_or(|previous| *previous < link);
        let ends_among_operations = usize::from(link.to) < self.kinds.len();
        if !ascends || link.from >= link.to || !ends_among_operations {
            return Err(Fault::LinkRule);
        }
        self.links.push(link);
        Ok(())
    }

    fn add_type(&mut self, unit: UnitType) -> Result<(), Fault> {
        let keeps_rule = (1..=7).contains(&unit.copies)
            && self.instances() + usize::from(unit.copies) <= MAX_INSTANCES
            && unit.abilities.iter().all(|ability| ability.keeps_rule());
        if !keeps_rule {
            return Err(Fault::TypeRule);
        }
        self.types.push(unit);
        Ok(())
    }
}

impl Form for Job {
    const FORM: u16 = 1;
    const PAPER: Paper = Paper::Job;
    type Record = JobRecord;

    fn read_rest(bits: &mut BitReader) -> Result<Job, Fault> {
        bits.need(HEADER_WITHOUT_FORM)?;
        let [n, e, m] = [5, 7, 4].map(|width| usize::from(bits.take(width)));
        let [deadline, clock, wire] = [5, 10, 10].map(|width| bits.take(width));
        check_limits(n, e, m, clock)?;
        bits.need(3 * n)?;
        let mut job = Job {
            kinds: (0..n).map(|_| bits.take(3)).collect(),
            links: vec![],
            types: vec![],
            deadline,
            clock,
            wire,
        };
        for _ in 0..e {
            bits.need(5 + 5)?;
            let [from, to] = [5, 5].map(|width| bits.take(width));
            job.add_link(Link { from, to })?;
        }
        for _ in 0..m {
            bits.need(TYPE_BITS)?;
            job.add_type(read_type(bits))?;
        }
        Ok(job)
    }

    fn of_record(record: &JobRecord) -> Result<Job, Fault> {
        let [n, e, m] = [record.n, record.e, record.m].map(usize::from);
        check_limits(n, e, m, record.clock)?;
        let mut job = Job {
            kinds: record.kinds[..n].to_vec(),
            links: vec![],
            types: vec![],
            deadline: record.t,
            clock: record.clock,
            wire: record.wire,
        };
        for number in 0..e {
            let [from, to] = [record.from[number], record.to[number]];
            job.add_link(Link { from, to })?;
        }
        for number in 0..m {
            job.add_type(type_of(record, number))?;
        }
        let kinds_fit = job.kinds.iter().all(|kind| *kind <= 7);
        let fits = job.deadline <= 31 && job.wire <= 1023 && kinds_fit;
        if !fits || !unused_cells_are_zero(record, n, e, m) {
            return Err(Fault::Record);
        }
        Ok(job)
    }

    fn record(&self) -> JobRecord {
        let mut record = JobRecord {
            n: self.kinds.len() as u16,
            e: self.links.len() as u16,
            m: self.types.len() as u16,
            t: self.deadline,
            clock: self.clock,
            wire: self.wire,
            ..JobRecord::EMPTY
        };
        record.kinds[..self.kinds.len()].copy_from_slice(&self.kinds);
        for (number, link) in self.links.iter().enumerate() {
            record.from[number] = link.from;
            record.to[number] = link.to;
        }
        for (number, unit) in self.types.iter().enumerate() {
            record.costs[number] = unit.cost;
            record.copies[number] = unit.copies;
            for (kind, ability) in unit.abilities.iter().enumerate() {
                record.times[KINDS * number + kind] = ability.time;
                record.intervals[KINDS * number + kind] = ability.interval;
            }
        }
        record
    }

    fn header_rest(&self) -> Vec<Field> {
        vec![
            Field::new(FieldName::Operations, 5, self.kinds.len() as u16),
            Field::new(FieldName::Links, 7, self.links.len() as u16),
            Field::new(FieldName::Types, 4, self.types.len() as u16),
            Field::new(FieldName::Deadline, 5, self.deadline),
            Field::new(FieldName::Clock, 10, self.clock),
            Field::new(FieldName::Wire, 10, self.wire),
        ]
    }

    fn body(&self) -> Vec<Field> {
        let mut fields = Vec::new();
        for (operation, kind) in self.kinds.iter().enumerate() {
            fields.push(Field::new(FieldName::Kind(operation), 3, *kind));
        }
        for (number, link) in self.links.iter().enumerate() {
            fields.push(Field::new(FieldName::From(number), 5, link.from));
            fields.push(Field::new(FieldName::To(number), 5, link.to));
        }
        for (number, unit) in self.types.iter().enumerate() {
            fields.push(Field::new(FieldName::Cost(number), 16, unit.cost));
            fields.push(Field::new(FieldName::Copies(number), 3, unit.copies));
            for (kind, ability) in unit.abilities.iter().enumerate() {
                let [time, interval] = [ability.time, ability.interval];
                fields.push(Field::new(FieldName::Time(number, kind), 10, time));
                fields.push(Field::new(FieldName::Interval(number, kind), 10, interval));
            }
        }
        fields
    }
}

fn read_type(bits: &mut BitReader) -> UnitType {
    let [cost, copies] = [16, 3].map(|width| bits.take(width));
    let abilities = [(); KINDS].map(|()| {
        let [time, interval] = [10, 10].map(|width| bits.take(width));
        Ability { time, interval }
    });
    UnitType {
        cost,
        copies,
        abilities,
    }
}

fn type_of(record: &JobRecord, number: usize) -> UnitType {
    UnitType {
        cost: record.costs[number],
        copies: record.copies[number],
        abilities: std::array::from_fn(|kind| Ability {
            time: record.times[KINDS * number + kind],
            interval: record.intervals[KINDS * number + kind],
        }),
    }
}

fn unused_cells_are_zero(record: &JobRecord, n: usize, e: usize, m: usize) -> bool {
    all_zero(&record.kinds[n..])
        && all_zero(&record.from[e..])
        && all_zero(&record.to[e..])
        && all_zero(&record.costs[m..])
        && all_zero(&record.copies[m..])
        && all_zero(&record.times[KINDS * m..])
        && all_zero(&record.intervals[KINDS * m..])
}

#[cfg(test)]
mod tests {
    use super::*;
    use crate::samples::{empty_job, full_job, job_p};
    use crate::sheet::pack;
    use crate::sheet::trial::{assert_refused, assert_written, fault, read};

    const EMPTY: &str = "10 00 00 00 20 00";
    const P: &str = "11 82 21 8c 80 29 20 02 08 80 02 90 50 14 00 00 00 00 00 00 00 00 00 00 00 00 00 \
                     00 00 00 00 00 00 f1 00 00 01 68 5a 00 00 00 00 00 00 00 00 00 00 00 00 00 00 00";

    /// The fault in job P's sheet with some of its fields changed, counted from 0.
    fn fault_of_p_with(changes: &[(usize, u16)]) -> Option<Fault> {
        let mut fields = job_p().fields();
        for (place, value) in changes {
            fields[*place].value = *value;
        }
        fault(Job::read(&pack(&fields)))
    }

    #[test]
    fn empty_sheet_is_the_empty_job() {
        assert_eq!(read(EMPTY), Ok(empty_job()));
        assert_written::<Job>(&empty_job().record(), EMPTY);
    }

    #[test]
    fn sheet_of_job_p() {
        assert_eq!(read(P), Ok(job_p()));
        assert_written::<Job>(&job_p().record(), P);
    }

    #[test]
    fn record_of_job_p() {
        let record = job_p().record();
        assert_eq!([record.n, record.e, record.m, record.t], [3, 2, 2, 3]);
        assert_eq!([record.clock, record.wire], [100, 5]);
        assert_eq!(record.kinds[..4], [1, 1, 0, 0]);
        assert_eq!(record.from[..3], [0, 1, 0]);
        assert_eq!(record.to[..3], [2, 2, 0]);
        assert_eq!(record.costs[..3], [10, 30, 0]);
        assert_eq!(record.copies[..3], [2, 1, 0]);
        assert_eq!([record.times[0], record.intervals[0]], [40, 40]);
        assert_eq!([record.times[9], record.intervals[9]], [90, 90]);
        assert_eq!(record.times.iter().sum::<u16>(), 130);
    }

    #[test]
    fn largest_sheet_has_274_bytes() {
        let sheet = full_job().sheet();
        assert_eq!(sheet.len(), 274);
        assert_eq!(Job::read(&sheet), Ok(full_job()));
    }

    #[test]
    fn reader_1_bits_run_out() {
        let short = ["", "10", "10 00 00 00 20", "1c 00 00 00 20 00"];
        assert_refused::<Job>(&short, Fault::BitsRunOut);
        let whole = job_p().sheet();
        for length in 0..whole.len() {
            assert_eq!(fault(Job::read(&whole[..length])), Some(Fault::BitsRunOut));
        }
    }

    #[test]
    fn reader_2_form_differs_before_the_header_runs_out() {
        assert_refused::<Job>(&["20", "00", "20 00 00 00 20 00"], Fault::FormDiffers);
    }

    #[test]
    fn reader_3_outside_its_limit_before_the_kinds_run_out() {
        for beyond in [(1, 25), (1, 31), (2, 65), (2, 127), (3, 9), (3, 15), (5, 0)] {
            let fault = fault_of_p_with(&[beyond]);
            assert_eq!(fault, Some(Fault::OutsideLimit), "{beyond:?}");
        }
        let beyond = ["10 00 00 00 00 00", "1c 80 00 00 20 00"];
        assert_refused::<Job>(&beyond, Fault::OutsideLimit);
    }

    #[test]
    fn reader_4_link_breaks_its_rule() {
        // Fields 10 to 13: from and to of the two links (0, 2) and (1, 2).
        let second_is_the_first = fault_of_p_with(&[(12, 0)]);
        assert_eq!(second_is_the_first, Some(Fault::LinkRule));
        let second_descends = fault_of_p_with(&[(12, 0), (13, 1)]);
        assert_eq!(second_descends, Some(Fault::LinkRule));
        let to_itself = fault_of_p_with(&[(12, 2)]);
        assert_eq!(to_itself, Some(Fault::LinkRule));
        let to_no_operation = fault_of_p_with(&[(13, 3)]);
        assert_eq!(to_no_operation, Some(Fault::LinkRule));
        assert_eq!(fault_of_p_with(&[(11, 1)]), None, "(0, 1) and (1, 2)");
    }

    #[test]
    fn reader_5_type_breaks_its_rule() {
        // Fields 14 to 31: cost, copies and eight times and intervals of type 0; type 1 from 32 on.
        for broken in [(15, 0), (33, 0), (16, 0), (17, 0), (17, 41), (19, 1)] {
            let fault = fault_of_p_with(&[broken]);
            assert_eq!(fault, Some(Fault::TypeRule), "{broken:?}");
        }
        assert_eq!(fault_of_p_with(&[(15, 7), (33, 7)]), None, "14 copies");
        assert_eq!(fault_of_p_with(&[(17, 1)]), None, "40/1");
    }

    #[test]
    fn reader_5_copies_so_far_exceed_16() {
        let mut fields = full_job().fields();
        let last_copies = fields.len() - 17;
        assert_eq!(fields[last_copies].value, 2);
        fields[last_copies].value = 3;
        assert_eq!(fault(Job::read(&pack(&fields))), Some(Fault::TypeRule));
        fields[last_copies].value = 1;
        assert!(Job::read(&pack(&fields)).is_ok());
    }

    #[test]
    fn reader_6_fill_not_zero_or_bytes_follow() {
        let behind_empty = [
            "10 00 00 00 20 01",
            "10 00 00 00 20 04",
            "10 00 00 00 20 00 00",
        ];
        assert_refused::<Job>(&behind_empty, Fault::Fill);
        assert_refused::<Job>(&[&format!("{P} 00")], Fault::Fill);
    }
}
