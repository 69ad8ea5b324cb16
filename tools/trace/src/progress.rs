//! How far a long recording is, on standard error, if that is a terminal.

use std::io::{self, IsTerminal, Write};
use std::time::{Duration, Instant};

pub struct Progress {
    what: &'static str,
    of: usize,
    /// When it was told last; none if nobody is there to be told.
    told: Option<Instant>,
    said: bool,
}

const OFTEN: Duration = Duration::from_millis(100);

impl Progress {
    pub fn new(what: &'static str, of: usize) -> Progress {
        let told = io::stderr().is_terminal().then(Instant::now);
        Progress { what, of, told, said: false }
    }

    pub fn at(&mut self, done: usize) {
        let Some(told) = self.told.filter(|_| done.is_multiple_of(256)) else { return };
        if told.elapsed() >= OFTEN {
            self.told = Some(Instant::now());
            self.said = true;
            let _ = write!(io::stderr(), "\r{}: {done} of {}", self.what, self.of);
        }
    }
}

impl Drop for Progress {
    fn drop(&mut self) {
        if self.said {
            // the line is cleared
            let _ = write!(io::stderr(), "\r\x1b[K");
        }
    }
}
