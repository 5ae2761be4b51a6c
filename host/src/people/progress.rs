//! How far a long run is, on standard error.
use std::time::{Duration, Instant};

/// Says nothing in the first second, and then once a second at most.
pub struct Progress {
    what: &'static str,
    all: usize,
    done: usize,
    said: Instant,
}

const PAUSE: Duration = Duration::from_secs(1);

impl Progress {
    pub fn new(what: &'static str, all: usize) -> Progress {
        Progress { what, all, done: 0, said: Instant::now() }
    }

    /// One more is done.
    pub fn step(&mut self) {
        self.done += 1;
        if self.said.elapsed() >= PAUSE {
            eprintln!("{} of {} {}", self.done, self.all, self.what);
            self.said = Instant::now();
        }
    }
}
