//! How far something long is, with an estimate, on standard error if that is a terminal; else nothing.

use std::io::{self, IsTerminal, Write};
use std::time::{Duration, Instant};

pub struct Progress {
    what: String,
    of: usize,
    started: Instant,
    told: Option<Instant>,
    shown: bool,
}

const OFTEN: Duration = Duration::from_millis(200);

impl Progress {
    pub fn new(what: String, of: usize) -> Progress {
        Progress {
            what,
            of,
            started: Instant::now(),
            told: None,
            shown: io::stderr().is_terminal(),
        }
    }

    /// So many are done; of them something is to be said.
    pub fn at(&mut self, done: usize, said: &str) {
        let now = Instant::now();
        let soon = self.told.is_some_and(|told| now - told < OFTEN);
        if !self.shown || soon && done < self.of {
            return;
        }
        self.told = Some(now);
        let left = estimate(self.started.elapsed(), done, self.of);
        let left = left.map_or(String::new(), |left| format!(", some {left} more"));
        let said = if said.is_empty() { String::new() } else { format!(", {said}") };
        let _ = write!(io::stderr(), "\r\x1b[K{}: {done} of {}{said}{left}", self.what, self.of);
    }
}

impl Drop for Progress {
    fn drop(&mut self) {
        if self.told.is_some() {
            let _ = write!(io::stderr(), "\r\x1b[K");
        }
    }
}

/// How long the rest takes if it goes on so; nothing before something is done.
pub fn estimate(taken: Duration, done: usize, of: usize) -> Option<String> {
    if done == 0 || done >= of {
        return None;
    }
    let seconds = taken.as_secs_f64() * (of - done) as f64 / done as f64;
    Some(match seconds.ceil() as u64 {
        s if s < 90 => format!("{s} s"),
        s if s < 5400 => format!("{} min", s.div_ceil(60)),
        s => format!("{} h", s.div_ceil(3600)),
    })
}

#[cfg(test)]
mod tests {
    use super::*;

    #[test]
    fn estimates() {
        let of = |seconds, done, of| estimate(Duration::from_secs(seconds), done, of);
        assert_eq!(of(5, 0, 9), None);
        assert_eq!(of(5, 9, 9), None);
        assert_eq!(of(10, 1, 2).as_deref(), Some("10 s"));
        assert_eq!(of(60, 1, 11).as_deref(), Some("10 min"));
        assert_eq!(of(3600, 1, 4).as_deref(), Some("3 h"));
    }
}
