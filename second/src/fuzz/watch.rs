//! A watch over calls that do not end.

use std::process;
use std::sync::atomic::{AtomicU64, Ordering};
use std::sync::Arc;
use std::thread;
use std::time::{Duration, Instant};

/// No call takes as long as this.
const LONGEST: Duration = Duration::from_secs(20);
const BETWEEN_LOOKS: Duration = Duration::from_millis(500);

pub struct Watch {
    number: Arc<AtomicU64>,
}

impl Watch {
    /// Where a call takes too long, `text` tells of the call of this number, and the program ends with failure.
    pub fn begin(text: impl Fn(u64) -> String + Send + 'static) -> Watch {
        let number = Arc::new(AtomicU64::new(0));
        let watched = Arc::clone(&number);
        thread::spawn(move || {
            let number = first_too_long(&watched, LONGEST, BETWEEN_LOOKS);
            println!("{}", text(number));
            process::exit(1);
        });
        Watch { number }
    }

    /// The call of this number begins.
    pub fn at(&self, number: u64) {
        self.number.store(number, Ordering::Relaxed);
    }
}

/// Looks at the number of the current call until it stays the same for too long.
fn first_too_long(number: &AtomicU64, longest: Duration, between_looks: Duration) -> u64 {
    let mut seen = number.load(Ordering::Relaxed);
    let mut since = Instant::now();
    loop {
        thread::sleep(between_looks);
        let now = number.load(Ordering::Relaxed);
        if now != seen {
            (seen, since) = (now, Instant::now());
        } else if since.elapsed() > longest {
            return seen;
        }
    }
}

#[cfg(test)]
mod tests {
    use super::*;

    #[test]
    fn the_call_that_does_not_end_is_named() {
        let number = Arc::new(AtomicU64::new(0));
        let watched = Arc::clone(&number);
        let calls = thread::spawn(move || {
            for call in 1..=7 {
                thread::sleep(Duration::from_millis(20));
                watched.store(call, Ordering::Relaxed);
            }
        });
        let longest = Duration::from_millis(1000);
        let named = first_too_long(&number, longest, Duration::from_millis(5));
        assert!(calls.join().is_ok());
        assert_eq!(named, 7);
    }
}
