//! Benchmarks: the library beside the second program, and beside a walk and notes in C, on the same jobs in one run.

mod judge;
mod note;
mod report;
mod search;
mod timing;

use std::env;
use std::process::ExitCode;
use timing::Speeds;

const CALLED_WRONGLY: u8 = 2;

struct Benchmark {
    /// The word that selects it.
    word: &'static str,
    /// What is counted, and for whom beside the library.
    what: &'static str,
    peer: &'static str,
    /// The library's speed beside the peer's, of the fastest rounds of each, below which something is wrong. Against C one half is
    /// asked, and runs of one build differ by up to a quarter.
    least_ratio: f64,
    /// A name and the speeds for each line.
    lines: fn() -> Vec<(String, Speeds)>,
}

const BENCHMARKS: [Benchmark; 3] = [
    Benchmark {
        word: "judge",
        what: "answers",
        peer: "second",
        least_ratio: 1.0,
        lines: judge::run,
    },
    Benchmark {
        word: "search",
        what: "visits",
        peer: "C",
        least_ratio: 0.4,
        lines: search::run,
    },
    Benchmark {
        word: "note",
        what: "marks",
        peer: "C",
        least_ratio: 0.4,
        lines: note::run,
    },
];

fn main() -> ExitCode {
    let words: Vec<String> = env::args_os()
        .skip(1)
        .map(|word| word.to_string_lossy().into_owned())
        .collect();
    match words.as_slice() {
        [] => measure(&BENCHMARKS),
        [word] if word == "report" => report::run(),
        [word] => {
            let named = |benchmark: &&Benchmark| benchmark.word == word;
            BENCHMARKS
                .iter()
                .find(named)
                .map_or_else(usage, |found| measure(std::slice::from_ref(found)))
        }
        _ => usage(),
    }
}

/// Fails where a line is too slow.
fn measure(benchmarks: &[Benchmark]) -> ExitCode {
    let mut status = ExitCode::SUCCESS;
    for benchmark in benchmarks {
        let least = benchmark.least_ratio;
        let lines = (benchmark.lines)();
        println!("{}", timing::heading(benchmark.what, benchmark.peer));
        for (name, speeds) in lines {
            println!("{}", speeds.line(&name));
            let fastest = speeds.fastest_ratio();
            if fastest < least {
                println!("too slow: {fastest:.2} of the fastest rounds should be at least {least}");
                status = ExitCode::FAILURE;
            }
        }
    }
    status
}

fn usage() -> ExitCode {
    eprintln!("usage: bench [WORD]   without a word, every benchmark; the words are:");
    for benchmark in BENCHMARKS {
        eprintln!("  {}", benchmark.word);
    }
    eprintln!("  report   the report's differential equation, our costs and times beside its own");
    ExitCode::from(CALLED_WRONGLY)
}
