//! The answers that are due by playing, and those that the recording has: the same, another, once more, or one that no event
//! asked for.

use std::collections::{HashMap, VecDeque};

/// To whom an answer goes.
#[derive(Clone, Copy, Debug, PartialEq, Eq)]
pub enum To {
    One(u16),
    /// A group, or all by 0.
    Group(u16),
}

#[derive(Clone, Debug, PartialEq, Eq)]
struct Due {
    to: To,
    number: u8,
    event: usize,
    apdu: Vec<u8>,
}

/// What a recorded answer is.
#[derive(Clone, Debug, PartialEq, Eq)]
pub enum Compared {
    /// What playing gives of this event.
    Same(usize),
    /// Another than playing gives of it, which is this.
    Other(usize, Vec<u8>),
    /// The last one once more.
    Again,
    Unasked,
}

/// So many answers that are on no connection are waited for: requests without one go to many devices.
const MOST: usize = 64;

#[derive(Clone, Debug, Default)]
pub struct Answers {
    connected: HashMap<u16, VecDeque<Due>>,
    /// The last that was recorded on each connection.
    last: HashMap<u16, (u8, Vec<u8>)>,
    loose: VecDeque<Due>,
}

/// The bits of an APDU that are no transport's.
fn same(a: &[u8], b: &[u8]) -> bool {
    match (a, b) {
        ([a0, a @ ..], [b0, b @ ..]) => a0 & 3 == b0 & 3 && a == b,
        _ => a == b,
    }
}

impl Answers {
    /// An answer is due to the partner of a connection, with a number.
    pub fn due_on(&mut self, partner: u16, number: u8, event: usize, apdu: &[u8]) {
        let due = Due { to: To::One(partner), number, event, apdu: apdu.to_vec() };
        self.connected.entry(partner).or_default().push_back(due);
    }

    /// An answer is due on no connection.
    pub fn due(&mut self, to: To, event: usize, apdu: &[u8]) {
        self.loose.push_back(Due { to, number: 0, event, apdu: apdu.to_vec() });
        if self.loose.len() > MOST {
            self.loose.pop_front();
        }
    }

    /// A connection ends or begins anew: the events whose answers have not come.
    pub fn ends(&mut self, partner: u16) -> Vec<usize> {
        self.last.remove(&partner);
        let due = self.connected.remove(&partner).unwrap_or_default();
        due.into_iter().map(|due| due.event).collect()
    }

    /// The events whose answers on connections have not come.
    pub fn missing(&self) -> Vec<usize> {
        let mut all: Vec<usize> = self.connected.values().flatten().map(|due| due.event).collect();
        all.sort_unstable();
        all
    }

    /// An answer on a connection, and the events before it whose answers are missing.
    pub fn on(&mut self, partner: u16, number: u8, apdu: &[u8]) -> (Compared, Vec<usize>) {
        let due = self.connected.entry(partner).or_default();
        let Some(at) = due.iter().position(|due| due.number == number) else {
            let last = self.last.get(&partner);
            let again = last.is_some_and(|last| last.0 == number && same(&last.1, apdu));
            return (if again { Compared::Again } else { Compared::Unasked }, Vec::new());
        };
        let missing = due.drain(..at).map(|due| due.event).collect();
        self.last.insert(partner, (number, apdu.to_vec()));
        let compared = match due.pop_front() {
            Some(due) if same(&due.apdu, apdu) => Compared::Same(due.event),
            Some(due) => Compared::Other(due.event, due.apdu),
            None => Compared::Unasked,
        };
        (compared, missing)
    }

    /// An answer on no connection. Where several are due to one, that which is the same, else another; of several the last, since
    /// a device answers at once.
    pub fn loose(&mut self, to: To, apdu: &[u8]) -> Compared {
        let exact = self.loose.iter().rposition(|due| due.to == to && same(&due.apdu, apdu));
        let found = exact.or_else(|| self.loose.iter().rposition(|due| due.to == to));
        match found.and_then(|at| self.loose.remove(at)) {
            Some(due) if exact.is_some() => Compared::Same(due.event),
            Some(due) => Compared::Other(due.event, due.apdu),
            None => Compared::Unasked,
        }
    }
}

#[cfg(test)]
mod tests {
    use super::*;

    const A: u16 = 0x11FA;

    #[test]
    fn on_a_connection() {
        let mut all = Answers::default();
        all.due_on(A, 0, 7, &[3, 0xD2, 1]);
        all.due_on(A, 1, 8, &[3, 0xD6, 1]);
        all.due_on(A, 2, 9, &[3, 0xD6, 2]);
        // transport's bits are not compared
        assert_eq!(all.on(A, 0, &[0x43, 0xD2, 1]), (Compared::Same(7), vec![]));
        assert_eq!(all.on(A, 0, &[0x43, 0xD2, 1]), (Compared::Again, vec![]));
        assert_eq!(all.on(A, 0, &[0x43, 0xD2, 2]), (Compared::Unasked, vec![]));
        let due = vec![3, 0xD6, 2];
        assert_eq!(all.on(A, 2, &[0x4B, 0xD6, 3]), (Compared::Other(9, due), vec![8]));
        assert_eq!(all.ends(A), []);
        all.due_on(A, 0, 10, &[3, 0xD2, 1]);
        assert_eq!(all.missing(), [10]);
        assert_eq!(all.ends(A), [10]);
        assert_eq!(all.on(A, 0, &[0x43, 0xD2, 1]), (Compared::Unasked, vec![]));
    }

    #[test]
    fn on_none() {
        let mut all = Answers::default();
        let group = To::Group(0x0801);
        all.due(group, 1, &[0, 0x40]);
        all.due(To::One(A), 2, &[3, 0x40]);
        all.due(group, 3, &[0, 0x41]);
        assert_eq!(all.loose(group, &[0, 0x41]), Compared::Same(3));
        assert_eq!(all.loose(group, &[0, 0x42]), Compared::Other(1, vec![0, 0x40]));
        assert_eq!(all.loose(group, &[0, 0x42]), Compared::Unasked);
        assert_eq!(all.loose(To::One(A), &[3, 0x40]), Compared::Same(2));
        for event in 0..MOST + 1 {
            all.due(group, event, &[0, 0x40]);
        }
        // of two that ask for the same the last; the first of all is no longer waited for
        for event in (1..MOST + 1).rev() {
            assert_eq!(all.loose(group, &[0, 0x40]), Compared::Same(event));
        }
        assert_eq!(all.loose(group, &[0, 0x40]), Compared::Unasked);
    }
}
