//! One line on standard error that says how far a long read or write has come.
use std::io::{self, IsTerminal, Write};
use std::time::{Duration, Instant};

/// Before the first line, and between two.
const PAUSE: Duration = Duration::from_millis(500);
/// The clock is looked at once in so many steps.
const STEPS: u32 = 1 << 10;

/// Shown only on a terminal, and rubbed out at the end.
pub struct Progress {
    terminal: bool,
    next: Instant,
    steps: u32,
    width: usize,
}
impl Progress {
    /// Shown at all only if it is wanted.
    pub fn new(wanted: bool) -> Self {
        Progress { terminal: wanted && io::stderr().is_terminal(), next: Instant::now() + PAUSE, steps: 0, width: 0 }
    }
    pub fn step(&mut self, text: impl FnOnce() -> String) {
        self.steps = self.steps.wrapping_add(1);
        if self.terminal && self.steps % STEPS == 0 && Instant::now() >= self.next {
            self.show(&text());
            self.next = Instant::now() + PAUSE;
        }
    }
    fn show(&mut self, text: &str) {
        // What cannot be shown is not missed.
        let _ = write!(io::stderr(), "\r{text:<width$}", width = self.width);
        self.width = text.chars().count();
    }
}
impl Drop for Progress {
    fn drop(&mut self) {
        if self.width > 0 {
            self.show("");
            self.width = 0;
            self.show("");
        }
    }
}
