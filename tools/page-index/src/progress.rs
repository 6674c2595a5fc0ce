//! Progress on standard error, where something takes longer than a second.
use std::time::{Duration, Instant};

const EVERY: Duration = Duration::from_secs(1);

/// Counts the steps of a task, and says every second how many there were.
pub struct Progress {
    what: &'static str,
    steps: u64,
    next: Instant,
}

impl Progress {
    pub fn new(what: &'static str) -> Progress {
        Progress { what, steps: 0, next: Instant::now() + EVERY }
    }

    pub fn step(&mut self) {
        self.steps += 1;
        let now = Instant::now();
        if now >= self.next {
            eprintln!("page-index: {} {}", self.steps, self.what);
            self.next = now + EVERY;
        }
    }
}
