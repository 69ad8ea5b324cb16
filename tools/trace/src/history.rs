//! The history of each place: every event that changed it, with what stood there before and after.

/// A run of bytes that an event changed: what was there, and behind it what it left.
struct Delta {
    event: u32,
    at: usize,
    length: usize,
    start: usize,
}

/// A change of a run of bytes by an event.
#[derive(Clone, Debug, PartialEq, Eq)]
pub struct Step {
    pub event: u32,
    pub old: Vec<u8>,
    pub new: Vec<u8>,
}

pub struct History {
    deltas: Vec<Delta>,
    bytes: Vec<u8>,
    /// Of each byte of the sheet the deltas that it is in.
    of: Vec<Vec<u32>>,
}

impl History {
    pub fn new(length: usize) -> History {
        History { deltas: Vec::new(), bytes: Vec::new(), of: vec![Vec::new(); length] }
    }

    /// What an event changed.
    pub fn note(&mut self, event: u32, before: &[u8], after: &[u8]) {
        let mut at = 0;
        while at < before.len() {
            if before[at] == after[at] {
                at += 1;
                continue;
            }
            let length = before[at..].iter().zip(&after[at..]).take_while(|(a, b)| a != b).count();
            let number = self.deltas.len() as u32;
            self.deltas.push(Delta { event, at, length, start: self.bytes.len() });
            self.bytes.extend(&before[at..at + length]);
            self.bytes.extend(&after[at..at + length]);
            self.of[at..at + length].iter_mut().for_each(|of| of.push(number));
            at += length;
        }
    }

    /// The changes of a run of bytes, whose first content is given, in order.
    pub fn steps(&self, at: usize, first: &[u8]) -> Vec<Step> {
        let upto = at + first.len();
        let mut numbers: Vec<u32> = self.of[at..upto].iter().flatten().copied().collect();
        numbers.sort_unstable();
        numbers.dedup();
        let mut steps: Vec<Step> = Vec::new();
        let mut now = first.to_vec();
        for delta in numbers.iter().map(|&n| &self.deltas[n as usize]) {
            let old = now.clone();
            let new = &self.bytes[delta.start + delta.length..delta.start + 2 * delta.length];
            for (i, &byte) in new.iter().enumerate() {
                if (at..upto).contains(&(delta.at + i)) {
                    now[delta.at + i - at] = byte;
                }
            }
            match steps.last_mut().filter(|step| step.event == delta.event) {
                Some(step) => step.new.clone_from(&now),
                None => steps.push(Step { event: delta.event, old, new: now.clone() }),
            }
        }
        steps
    }
}

#[cfg(test)]
mod tests {
    use super::*;

    fn step(event: u32, old: &[u8], new: &[u8]) -> Step {
        Step { event, old: old.to_vec(), new: new.to_vec() }
    }

    #[test]
    fn steps() {
        let sheets: [[u8; 6]; 5] = [
            [0, 1, 2, 3, 4, 5],
            [0, 9, 2, 9, 4, 5], // two runs of one event
            [0, 9, 2, 9, 4, 6],
            [0, 9, 2, 9, 4, 6], // nothing
            [7, 1, 2, 3, 4, 6],
        ];
        let mut history = History::new(6);
        for (i, pair) in sheets.windows(2).enumerate() {
            history.note(i as u32 + 1, &pair[0], &pair[1]);
        }
        let of = |at: usize, length: usize| history.steps(at, &sheets[0][at..at + length]);
        let due = [step(1, &[1, 2, 3], &[9, 2, 9]), step(4, &[9, 2, 9], &[1, 2, 3])];
        assert_eq!(of(1, 3), due);
        assert_eq!(of(5, 1), [step(2, &[5], &[6])]);
        assert_eq!(of(2, 1), []);
        assert_eq!(of(0, 2), [step(1, &[0, 1], &[0, 9]), step(4, &[0, 9], &[7, 1])]);
    }
}
