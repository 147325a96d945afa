//! What is said on standard error while work is long. Where nobody listens there it is lost, and the work goes on.

use std::io::{self, Write};
use std::sync::mpsc::{self, RecvTimeoutError};
use std::thread;
use std::time::{Duration, Instant};

/// The time between two lines of progress.
const PAUSE: Duration = Duration::from_secs(2);

/// A line on standard error, in one piece, so that lines of several processes do not mix.
pub fn tell(line: &str) {
    let _ = io::stderr().write_all(format!("{line}\n").as_bytes());
}

/// How many of some files have been checked.
pub struct Progress {
    done: usize,
    all: usize,
    told: Instant,
}

impl Progress {
    pub fn over(all: usize) -> Progress {
        Progress {
            done: 0,
            all,
            told: Instant::now(),
        }
    }

    pub fn step(&mut self) {
        self.done += 1;
        if self.told.elapsed() >= PAUSE {
            self.told = Instant::now();
            tell(&format!("checked {} of {}", self.done, self.all));
        }
    }
}

/// Does some work, and tells from time to time how long it has taken. Where no thread can be had for that, nothing is told.
pub fn timed<T: Send>(what: &str, work: impl FnOnce() -> T + Send) -> T {
    thread::scope(|scope| {
        let (finished, wait) = mpsc::channel::<()>();
        let began = Instant::now();
        let telling = move || {
            while wait.recv_timeout(PAUSE) == Err(RecvTimeoutError::Timeout) {
                tell(&format!("{what}, {} s so far", began.elapsed().as_secs()));
            }
        };
        let _ = thread::Builder::new().spawn_scoped(scope, telling);
        let done = work();
        drop(finished);
        done
    })
}
