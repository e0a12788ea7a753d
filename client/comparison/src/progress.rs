//! How far a run is, on standard error.

use std::io::{stderr, IsTerminal, Write};
use std::time::{Duration, Instant};

pub struct Progress {
    count: u64,
    start: Instant,
    is_terminal: bool,
    /// When a line was shown last.
    shown: Instant,
}

impl Progress {
    pub fn of(count: u64) -> Progress {
        let start = Instant::now();
        Progress { count, start, is_terminal: stderr().is_terminal(), shown: start }
    }

    /// Shows a line where one is due after so many inputs: on a terminal five times a second in place of the last one, else each 10 % or 10
    /// seconds.
    pub fn show(&mut self, inputs: u64, differ: usize) {
        let is_tenth = inputs % self.count.div_ceil(10) == 0 || inputs == self.count;
        // The clock is asked now and then only.
        if !is_tenth && inputs % 64 != 0 {
            return;
        }
        let pause = Duration::from_millis(if self.is_terminal { 200 } else { 10_000 });
        if is_tenth || self.shown.elapsed() >= pause {
            self.shown = Instant::now();
            self.write(inputs, differ);
        }
    }

    fn write(&self, inputs: u64, differ: usize) {
        let rate = inputs as f64 / self.start.elapsed().as_secs_f64().max(0.001);
        let line = format!("{inputs} of {} inputs, {rate:.0} a second, {differ} differ", self.count);
        // A line that cannot be shown is no trouble of the run.
        let _ = if self.is_terminal { write!(stderr(), "\r{line}\x1b[K") } else { writeln!(stderr(), "{line}") };
    }

    /// Ends the line on a terminal.
    pub fn end(&self) {
        if self.is_terminal {
            eprintln!();
        }
    }
}
