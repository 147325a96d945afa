//! The plan and its sheet.

use crate::bits::BitReader;
use crate::record::{all_zero, PlanRecord, Record, MAX_INSTANCES, MAX_OPERATIONS};
use crate::refusal::{Fault, Paper};
use crate::sheet::{Field, FieldName, Form};

/// The largest numbers that the fields of a row hold.
pub const LARGEST_START: u16 = 31;
pub const LARGEST_INSTANCE: u16 = 15;

const HEADER_WITHOUT_FORM: usize = 5 + 5;

#[derive(Clone, Debug, PartialEq, Eq)]
pub struct Plan {
    pub selection: Vec<bool>,
    pub rows: Vec<Row>,
}

/// Rows compare by start, then by instance.
#[derive(Clone, Copy, Debug, PartialEq, Eq, PartialOrd, Ord)]
pub struct Row {
    pub start: u16,
    pub instance: u16,
}

/// The selection of `k` instances whose bits these are, instance 0 the lowest.
pub fn selection_of(bits: u32, k: usize) -> Vec<bool> {
    (0..k).map(|instance| (bits >> instance) & 1 == 1).collect()
}

fn check_limits(n: usize, k: usize) -> Result<(), Fault> {
    if n > MAX_OPERATIONS || k > MAX_INSTANCES {
        return Err(Fault::OutsideLimit);
    }
    Ok(())
}

impl Form for Plan {
    const FORM: u16 = 2;
    const PAPER: Paper = Paper::Plan;
    type Record = PlanRecord;

    fn read_rest(bits: &mut BitReader) -> Result<Plan, Fault> {
        bits.need(HEADER_WITHOUT_FORM)?;
        let [n, k] = [5, 5].map(|width| usize::from(bits.take(width)));
        check_limits(n, k)?;
        bits.need(k + (5 + 4) * n)?;
        let selection = (0..k).map(|_| bits.take(1) == 1).collect();
        let mut rows = Vec::new();
        for _ in 0..n {
            let [start, instance] = [5, 4].map(|width| bits.take(width));
            rows.push(Row { start, instance });
        }
        Ok(Plan { selection, rows })
    }

    fn of_record(record: &PlanRecord) -> Result<Plan, Fault> {
        let [n, k] = [record.n, record.k].map(usize::from);
        check_limits(n, k)?;
        if !fits_its_fields(record, n, k) || !unused_cells_are_zero(record, n, k) {
            return Err(Fault::Record);
        }
        let rows = (0..n).map(|operation| Row {
            start: record.starts[operation],
            instance: record.insts[operation],
        });
        Ok(Plan {
            selection: record.selection[..k].iter().map(|&bit| bit == 1).collect(),
            rows: rows.collect(),
        })
    }

    fn record(&self) -> PlanRecord {
        let mut record = PlanRecord {
            n: self.rows.len() as u16,
            k: self.selection.len() as u16,
            ..PlanRecord::EMPTY
        };
        for (instance, selected) in self.selection.iter().enumerate() {
            record.selection[instance] = u16::from(*selected);
        }
        for (number, row) in self.rows.iter().enumerate() {
            record.starts[number] = row.start;
            record.insts[number] = row.instance;
        }
        record
    }

    fn header_rest(&self) -> Vec<Field> {
        vec![
            Field::new(FieldName::Operations, 5, self.rows.len() as u16),
            Field::new(FieldName::Instances, 5, self.selection.len() as u16),
        ]
    }

    fn body(&self) -> Vec<Field> {
        let mut fields = Vec::new();
        for (instance, selected) in self.selection.iter().enumerate() {
            let name = FieldName::Selection(instance);
            fields.push(Field::new(name, 1, u16::from(*selected)));
        }
        for (number, row) in self.rows.iter().enumerate() {
            fields.push(Field::new(FieldName::Start(number), 5, row.start));
            fields.push(Field::new(FieldName::Instance(number), 4, row.instance));
        }
        fields
    }
}

fn fits_its_fields(record: &PlanRecord, n: usize, k: usize) -> bool {
    record.selection[..k].iter().all(|bit| *bit <= 1)
        && record.starts[..n]
            .iter()
            .all(|start| *start <= LARGEST_START)
        && record.insts[..n]
            .iter()
            .all(|instance| *instance <= LARGEST_INSTANCE)
}

fn unused_cells_are_zero(record: &PlanRecord, n: usize, k: usize) -> bool {
    all_zero(&record.selection[k..])
        && all_zero(&record.starts[n..])
        && all_zero(&record.insts[n..])
}

#[cfg(test)]
mod tests {
    use super::*;
    use crate::samples::{empty_plan, full_plan, plan_of_case_1};
    use crate::sheet::trial::{assert_refused, assert_written, read};

    const EMPTY: &str = "20 00";
    const CASE_1: &str = "21 8d 84 84 43 10";

    #[test]
    fn empty_sheet_is_the_empty_plan() {
        assert_eq!(read(EMPTY), Ok(empty_plan()));
        assert_written::<Plan>(&PlanRecord::EMPTY, EMPTY);
    }

    #[test]
    fn sheet_of_case_1() {
        assert_eq!(read(CASE_1), Ok(plan_of_case_1()));
        assert_written::<Plan>(&plan_of_case_1().record(), CASE_1);
    }

    #[test]
    fn record_of_case_1() {
        let record = plan_of_case_1().record();
        assert_eq!([record.n, record.k], [3, 3]);
        assert_eq!(record.selection[..4], [0, 1, 1, 0]);
        assert_eq!(record.starts[..4], [1, 2, 3, 0]);
        assert_eq!(record.insts[..4], [2, 2, 1, 0]);
    }

    #[test]
    fn largest_sheet_has_31_bytes() {
        let sheet = full_plan().sheet();
        assert_eq!(sheet.len(), 31);
        assert_eq!(Plan::read(&sheet), Ok(full_plan()));
    }

    #[test]
    fn reader_1_bits_run_out() {
        let short = ["", "20", "21 8d", "21 8d 84 84 43"];
        assert_refused::<Plan>(&short, Fault::BitsRunOut);
    }

    #[test]
    fn reader_2_form_differs_before_the_header_runs_out() {
        assert_refused::<Plan>(&["10", "30", "10 00"], Fault::FormDiffers);
    }

    #[test]
    fn reader_3_outside_its_limit_before_the_rows_run_out() {
        // N 25; N 31; K 17; K 31.
        assert_refused::<Plan>(&["2c 80", "2f 80", "20 44", "20 7c"], Fault::OutsideLimit);
        // N 24; K 16.
        assert_refused::<Plan>(&["2c 00", "20 40"], Fault::BitsRunOut);
    }

    #[test]
    fn reader_6_fill_not_zero_or_bytes_follow() {
        let filled = ["20 01", "20 02", "20 00 00", "21 8d 84 84 43 11"];
        assert_refused::<Plan>(&filled, Fault::Fill);
    }
}
