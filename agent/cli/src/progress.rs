//! The line that tells people how far a long work has come.

use std::io::{self, IsTerminal, Write};
use std::time::{Duration, Instant};

/// Nothing is shown before this time has passed.
const PATIENCE: Duration = Duration::from_secs(1);
/// The line is written anew at most this often.
const PAUSE: Duration = Duration::from_millis(100);

/// A line on standard error, where that is a terminal: written over and over, and taken away when
/// the work is done. Elsewhere nothing is written.
pub struct Progress {
    what: &'static str,
    terminal: bool,
    begun: Instant,
    shown: Option<Instant>,
}

impl Progress {
    /// Begins a work; `what` names it.
    pub fn of(what: &'static str) -> Progress {
        Progress {
            what,
            terminal: io::stderr().is_terminal(),
            begun: Instant::now(),
            shown: None,
        }
    }

    /// Tells that so many of so many parts are done.
    pub fn tell(&mut self, done: u64, all: u64) {
        if !self.terminal {
            return;
        }
        let now = Instant::now();
        if let Some(text) = self.line(now, done, all) {
            let _ = io::stderr().write_all(text.as_bytes());
            self.shown = Some(now);
        }
    }

    /// The line, if it is time for one.
    fn line(&self, now: Instant, done: u64, all: u64) -> Option<String> {
        let due = match self.shown {
            None => now - self.begun >= PATIENCE,
            Some(shown) => now - shown >= PAUSE,
        };
        due.then(|| format!("\r\x1b[K{}: {done} of {all}", self.what))
    }
}

impl Drop for Progress {
    fn drop(&mut self) {
        if self.shown.is_some() {
            let _ = io::stderr().write_all(b"\r\x1b[K");
        }
    }
}

#[cfg(test)]
mod tests {
    use super::*;

    #[test]
    fn the_line_comes_after_a_second_and_then_ten_times_a_second() {
        let mut progress = Progress::of("moving");
        progress.terminal = false;
        let begun = progress.begun;
        let after = |milliseconds| begun + Duration::from_millis(milliseconds);
        assert_eq!(progress.line(after(999), 1, 9), None);
        let first = progress.line(after(1000), 2, 9);
        assert_eq!(first.as_deref(), Some("\r\x1b[Kmoving: 2 of 9"));
        progress.shown = Some(after(1000));
        assert_eq!(progress.line(after(1099), 3, 9), None);
        let second = progress.line(after(1100), 4, 9);
        assert_eq!(second.as_deref(), Some("\r\x1b[Kmoving: 4 of 9"));
        progress.shown = None;
    }

    #[test]
    fn nothing_is_shown_where_nobody_looks() {
        let mut progress = Progress::of("moving");
        progress.terminal = false;
        progress.begun -= Duration::from_secs(5);
        progress.tell(1, 2);
        assert!(progress.shown.is_none());
    }
}
