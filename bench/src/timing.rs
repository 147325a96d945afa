//! Rounds of the library and of its peer in turn, timed.

use std::time::{Duration, Instant};

/// How much each does in a second.
pub struct Speeds {
    library: f64,
    peer: f64,
    fastest_ratio: f64,
}

/// The heading over lines of speeds; `what` is done in a second.
pub fn heading(what: &str, peer: &str) -> String {
    let [what, ratio] = [format!("{what} in a second"), format!("library/{peer}")];
    format!("{what:<40}{:>12}{peer:>12}{ratio:>16}", "library")
}

impl Speeds {
    /// In each of the rounds the library and then the peer does as much as `amount`; the median round counts, and
    /// beside it the fastest of each.
    pub fn of(
        rounds: usize,
        amount: usize,
        mut library: impl FnMut(),
        mut peer: impl FnMut(),
    ) -> Speeds {
        let mut times = [Vec::new(), Vec::new()];
        for _ in 0..rounds {
            times[0].push(timed(&mut library));
            times[1].push(timed(&mut peer));
        }
        let [library_fastest, peer_fastest] = times.each_ref().map(|times| fastest(times));
        let [library, peer] = times.map(|times| amount as f64 / median(times).as_secs_f64());
        Speeds {
            library,
            peer,
            fastest_ratio: peer_fastest.as_secs_f64() / library_fastest.as_secs_f64(),
        }
    }

    /// How many times as fast as its peer the library is.
    pub fn ratio(&self) -> f64 {
        self.library / self.peer
    }

    /// The same of the fastest rounds, which the machine's other work disturbs least.
    pub fn fastest_ratio(&self) -> f64 {
        self.fastest_ratio
    }

    pub fn line(&self, name: &str) -> String {
        let Speeds { library, peer, .. } = self;
        let ratio = self.ratio();
        format!("{name:<40}{library:>12.0}{peer:>12.0}{ratio:>16.2}")
    }
}

fn timed(round: &mut impl FnMut()) -> Duration {
    let started = Instant::now();
    round();
    started.elapsed()
}

fn median(mut times: Vec<Duration>) -> Duration {
    times.sort();
    times[times.len() / 2]
}

fn fastest(times: &[Duration]) -> Duration {
    times.iter().min().copied().unwrap_or_default()
}

#[cfg(test)]
mod tests {
    use super::*;

    #[test]
    fn the_median_is_the_middle_one() {
        let times = [9, 1, 5, 2, 7].map(Duration::from_secs);
        assert_eq!(median(times.to_vec()), Duration::from_secs(5));
    }

    #[test]
    fn the_fastest_is_the_least() {
        let times = [9, 1, 5, 2, 7].map(Duration::from_secs);
        assert_eq!(fastest(&times), Duration::from_secs(1));
    }

    #[test]
    fn a_line_is_as_wide_as_the_heading() {
        let speeds = Speeds {
            library: 300.0,
            peer: 200.0,
            fastest_ratio: 1.6,
        };
        let line = speeds.line("judge");
        assert_eq!(line.len(), heading("answers", "second").len());
        assert!(line.ends_with(" 300         200            1.50"));
    }
}
