//! Gaps that the recorder itself tells: a recording that was stopped, a connection to the bus that was not there, and what a bus
//! monitor says in its status: frames that were lost, by its flag or its counter, and frames that it could not read.

use crate::recordings::{Note, Recorded};

/// Why frames may be missing at a place.
#[derive(Clone, Debug, PartialEq, Eq)]
pub enum Why {
    /// Stopped, and started again: at which times, where they are told.
    Stopped(Option<String>, Option<String>),
    /// Without a connection to the bus.
    Unconnected,
    /// By the flag of the bus monitor.
    Lost,
    /// By its counter, which has only three bits: so many at least.
    Counted(u8),
    /// A frame that can't be read.
    Unreadable,
}

/// The bits of a bus monitor's status: errors of frame, bit and parity; frames lost; a counter.
const ERRORS: u8 = 0xE0;
const LOST: u8 = 0x08;
const COUNTER: u8 = 0x07;

/// Whether the status says that the frame itself was not received as it was sent.
pub fn damaged(status: Option<u8>) -> bool {
    status.is_some_and(|status| status & ERRORS != 0)
}

/// The gaps of which the status of frames tells. A counter that never moves counts nothing.
pub fn by_status(frames: &[Recorded]) -> Vec<Note> {
    let counter = |f: &Recorded| f.status.map(|status| status & COUNTER);
    let mut all = frames.iter().filter_map(counter);
    let first = all.next();
    let counts = all.any(|c| Some(c) != first);
    let mut notes = Vec::new();
    let mut last: Option<u8> = None;
    for (before, frame) in frames.iter().enumerate() {
        let Some(status) = frame.status else { continue };
        let mut note = |gap| notes.push(Note { before, line: frame.line, gap });
        let due = last.map(|last| (last + 1) & COUNTER);
        let missed = due.map_or(0, |due| (status & COUNTER).wrapping_sub(due) & COUNTER);
        if status & LOST != 0 {
            note(Why::Lost);
        } else if counts && missed != 0 {
            note(Why::Counted(missed));
        }
        last = Some(status & COUNTER);
    }
    notes
}

#[cfg(test)]
mod tests {
    use super::*;

    fn frames(status: &[Option<u8>]) -> Vec<Recorded> {
        let frame = |(i, &status): (usize, &Option<u8>)| Recorded {
            line: i + 1,
            time: None,
            bytes: Vec::new(),
            wire: true,
            status,
        };
        status.iter().enumerate().map(frame).collect()
    }

    fn told(status: &[u8]) -> Vec<(usize, Why)> {
        let status: Vec<_> = status.iter().map(|&s| Some(s)).collect();
        by_status(&frames(&status)).into_iter().map(|note| (note.before, note.gap)).collect()
    }

    #[test]
    fn counters() {
        assert_eq!(told(&[5, 6, 7, 0, 1]), []);
        assert_eq!(told(&[0, 0, 0]), []);
        assert_eq!(told(&[5, 6, 1, 2]), [(2, Why::Counted(2))]);
        assert_eq!(told(&[5, 6, 6]), [(2, Why::Counted(7))]);
        assert_eq!(told(&[0, 0x08]), [(1, Why::Lost)]);
        assert_eq!(told(&[3, 0x0D, 6]), [(1, Why::Lost)]);
        assert_eq!(by_status(&frames(&[Some(1), None, Some(2)])), []);
    }

    #[test]
    fn errors() {
        let of = [0x80, 0x40, 0x20, 0x10, 0x0F].map(|status| damaged(Some(status)));
        assert_eq!(of, [true, true, true, false, false]);
        assert!(!damaged(None));
    }
}
