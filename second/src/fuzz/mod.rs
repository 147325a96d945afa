//! The library handed arbitrary bytes and numbers: every call ends, gives an answer that its entry can give, and writes
//! where it should and nowhere else. What the answers ought to be is left to the comparison.

mod answers;
mod calls;
mod sound;
mod strings;
mod summary;
mod watch;

use calls::Call;
use sound::Pool;
use std::process::ExitCode;
use std::sync::Arc;
use summary::Summary;
use watch::Watch;

/// How often the run tells how far it is.
const PROGRESS_LINES: u64 = 10;

/// One call for each byte string that is made arbitrary, the entries in turn. Each call is drawn from the seed and its
/// own number alone.
pub fn run(seed: u64, count: u64) -> ExitCode {
    let repeat = format!("repeat with: second fuzz {seed} {count}");
    eprintln!("{count} byte strings, seed {seed}; should the run break off, {repeat}");
    let pool = Arc::new(Pool::new(seed));
    let watch = {
        let (pool, repeat) = (Arc::clone(&pool), repeat.clone());
        Watch::begin(move |number| {
            let call = Call::draw(&pool, seed, number);
            format!("call {number} does not end\n\n{}\n{repeat}", call.text())
        })
    };
    let mut summary = Summary::new();
    for number in 0..count {
        watch.at(number);
        let call = Call::draw(&pool, seed, number);
        match call.make() {
            Ok(answer) => summary.count(call.entry, &answer),
            Err(fault) => {
                println!("call {number}: {fault}\n\n{}\n{repeat}", call.text());
                return ExitCode::FAILURE;
            }
        }
        if (number + 1) % count.div_ceil(PROGRESS_LINES) == 0 {
            eprintln!("{} of {count}", number + 1);
        }
    }
    println!("seed {seed}\n\n{}", summary.table());
    println!("{count} byte strings, none crashed, hung or wrote where it should not");
    ExitCode::SUCCESS
}
