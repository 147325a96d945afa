//! The second program of Tolmupung: it reads, writes and judges the office's sheets, slides and tidies plans, searches for
//! the cheapest, and checks and writes closing notes and checks dossiers by the written rules alone. It compares the
//! library with itself, and hands the library arbitrary bytes.

mod bits;
pub mod compare;
pub mod diffeq;
pub mod dossier;
mod every_plan;
pub mod fuzz;
pub mod hex;
mod job;
pub mod judge;
pub mod library;
pub mod note;
pub mod output;
pub mod plan;
pub mod planned;
pub mod random;
pub mod record;
pub mod refusal;
mod rules;
pub mod samples;
pub mod search;
pub mod sheet;
pub mod show;
pub mod slide;
pub mod small;
pub mod tidy;
