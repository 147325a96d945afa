//! What all sheets share: a list of fields, the form first, and zero bits to fill the last byte.

use crate::bits::{BitReader, BitWriter};
use crate::record::Record;
use crate::refusal::{Fault, Paper, Refusal};
use std::fmt;

pub const FORM_BITS: usize = 4;

/// What the sheets of one form hold: a job or a plan.
pub trait Form: Sized {
    /// The form itself, the first field of the sheet.
    const FORM: u16;
    const PAPER: Paper;
    type Record: Record;

    /// The sheet behind its form, up to the fill.
    fn read_rest(bits: &mut BitReader) -> Result<Self, Fault>;

    fn of_record(record: &Self::Record) -> Result<Self, Fault>;

    /// The record, every unused cell zero.
    fn record(&self) -> Self::Record;

    /// The header's fields behind the form.
    fn header_rest(&self) -> Vec<Field>;

    /// The fields behind the header.
    fn body(&self) -> Vec<Field>;

    fn read(sheet: &[u8]) -> Result<Self, Refusal> {
        read_whole(sheet).map_err(refused::<Self>)
    }

    /// The sheet of a record, for an output of `room` bytes.
    fn write(record: &Self::Record, room: usize) -> Result<Vec<u8>, Refusal> {
        let held = Self::of_record(record).map_err(refused::<Self>)?;
        fitted(held.sheet(), room)
    }

    fn header(&self) -> Vec<Field> {
        let form = Field::new(FieldName::Form, FORM_BITS, Self::FORM);
        [vec![form], self.header_rest()].concat()
    }

    fn fields(&self) -> Vec<Field> {
        [self.header(), self.body()].concat()
    }

    fn sheet(&self) -> Vec<u8> {
        pack(&self.fields())
    }
}

fn read_whole<F: Form>(sheet: &[u8]) -> Result<F, Fault> {
    let mut bits = BitReader::new(sheet);
    bits.need(FORM_BITS)?;
    if bits.take(FORM_BITS) != F::FORM {
        return Err(Fault::FormDiffers);
    }
    let held = F::read_rest(&mut bits)?;
    if !bits.only_fill_left() {
        return Err(Fault::Fill);
    }
    Ok(held)
}

/// The sheet, where an output of `room` bytes has room for it.
pub fn fitted(sheet: Vec<u8>, room: usize) -> Result<Vec<u8>, Refusal> {
    if sheet.len() > room {
        return Err(Refusal::OUTPUT_TOO_SHORT);
    }
    Ok(sheet)
}

fn refused<F: Form>(fault: Fault) -> Refusal {
    let paper = F::PAPER;
    Refusal { fault, paper }
}

#[derive(Clone, Copy, Debug)]
pub enum FieldName {
    Form,
    Operations,
    Links,
    Types,
    Deadline,
    Clock,
    Wire,
    Kind(usize),
    From(usize),
    To(usize),
    Cost(usize),
    Copies(usize),
    Time(usize, usize),
    Interval(usize, usize),
    Instances,
    Selection(usize),
    Start(usize),
    Instance(usize),
}

#[derive(Clone, Copy, Debug)]
pub struct Field {
    pub name: FieldName,
    pub width: usize,
    pub value: u16,
}

impl Field {
    pub fn new(name: FieldName, width: usize, value: u16) -> Field {
        Field { name, width, value }
    }

    /// The largest number that the field holds.
    pub fn maximum(&self) -> u16 {
        u16::MAX >> (16 - self.width)
    }
}

/// The sheet's bytes. No rule is looked at: broken sheets are packed for trial too.
pub fn pack(fields: &[Field]) -> Vec<u8> {
    let mut bits = BitWriter::new();
    for field in fields {
        bits.put(field.value, field.width);
    }
    bits.into_bytes()
}

impl fmt::Display for FieldName {
    fn fmt(&self, out: &mut fmt::Formatter<'_>) -> fmt::Result {
        match self {
            FieldName::Form => write!(out, "form"),
            FieldName::Operations => write!(out, "N, operations"),
            FieldName::Links => write!(out, "E, links"),
            FieldName::Types => write!(out, "M, unit types"),
            FieldName::Deadline => write!(out, "T, deadline in steps"),
            FieldName::Clock => write!(out, "clock in ns"),
            FieldName::Wire => write!(out, "wire in ns"),
            FieldName::Kind(operation) => write!(out, "operation {operation}: kind"),
            FieldName::From(link) => write!(out, "link {link}: from"),
            FieldName::To(link) => write!(out, "link {link}: to"),
            FieldName::Cost(unit) => write!(out, "type {unit}: cost"),
            FieldName::Copies(unit) => write!(out, "type {unit}: copies"),
            FieldName::Time(unit, kind) => write!(out, "type {unit}: time of kind {kind}"),
            FieldName::Interval(unit, kind) => write!(out, "type {unit}: interval of kind {kind}"),
            FieldName::Instances => write!(out, "K, instances"),
            FieldName::Selection(instance) => write!(out, "instance {instance}: selection"),
            FieldName::Start(row) => write!(out, "row {row}: start"),
            FieldName::Instance(row) => write!(out, "row {row}: instance"),
        }
    }
}

/// What the tests of both forms ask.
#[cfg(test)]
pub mod trial {
    use super::*;
    use crate::hex;

    pub fn read<F: Form>(digits: &str) -> Result<F, Refusal> {
        F::read(&hex::bytes_of(digits).expect("hex"))
    }

    /// The fault refused, where it is laid at the paper's own door.
    pub fn fault<F: Form>(answer: Result<F, Refusal>) -> Option<Fault> {
        let refusal = answer.err()?;
        (refusal.paper == F::PAPER).then_some(refusal.fault)
    }

    /// Every sheet is refused by this fault.
    pub fn assert_refused<F: Form>(sheets: &[&str], expected: Fault) {
        for sheet in sheets {
            assert_eq!(fault(read::<F>(sheet)), Some(expected), "{sheet}");
        }
    }

    /// The writer gives the sheet of these digits wherever there is room for it.
    pub fn assert_written<F: Form>(record: &F::Record, digits: &str) {
        let sheet = hex::bytes_of(digits).expect("hex");
        let length = sheet.len();
        assert_eq!(F::write(record, length - 1), Err(Refusal::OUTPUT_TOO_SHORT));
        assert_eq!(F::write(record, length), Ok(sheet));
    }
}

#[cfg(test)]
mod tests {
    use super::*;

    #[test]
    fn the_largest_number_of_a_field() {
        assert_eq!(Field::new(FieldName::Kind(0), 3, 0).maximum(), 7);
        assert_eq!(Field::new(FieldName::Cost(0), 16, 0).maximum(), 65_535);
    }
}
