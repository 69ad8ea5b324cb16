//! Whose turn it is on a connection: the sequence number that is next, data that waits for the device's acknowledgement, and
//! whether an acknowledgement is of something that was recorded. By the partner's address, for what a connection was is still
//! acknowledged when a Restart has closed it.

use std::collections::HashMap;

/// So many frames behind what it is due to stands what a device sends at once.
const AT_ONCE: usize = 12;

/// Numbers have four bits.
const NUMBERS: u8 = 16;

/// What a number is to a connection.
#[derive(Clone, Copy, Debug, PartialEq, Eq)]
pub enum Turn {
    Next,
    /// The one before, with the same data: the partner has no acknowledgement yet.
    Again,
    /// Another one, or the one before with other data.
    Out,
}

/// What an acknowledgement of the device, T_ACK or T_NAK, is of.
#[derive(Clone, Debug, PartialEq, Eq)]
pub enum Of {
    /// An event, and those before it that had none: the device took them too.
    Event(usize, Vec<usize>),
    /// Once more of data that was sent once more.
    Again,
    /// Data that was out of turn here, or nobody's partner's.
    Odd,
    /// Nothing that was recorded.
    Nothing,
}

#[derive(Clone, Debug)]
struct Waiting {
    number: u8,
    event: usize,
    copies: usize,
}

/// A partner's connection.
#[derive(Clone, Debug, Default)]
struct Line {
    next: u8,
    /// The data before it, if there is any; and a number of data that was not taken.
    data: Option<Vec<u8>>,
    untaken: Option<u8>,
    waiting: Vec<Waiting>,
    /// The number that was acknowledged last, and how often it was sent beyond that.
    last: Option<(u8, usize)>,
    /// Numbers of data out of turn, a bit for each.
    odd: u16,
    /// Numbers of the answers that were due, a bit for each, and the next of them.
    answers: u16,
    answer: u8,
    /// The device ended it, or turned it away, and its partner may not have heard.
    ended: bool,
    /// A disconnect of the device is due to it, since this frame.
    owed: Option<usize>,
}

/// All connections of a recording.
#[derive(Clone, Debug, Default)]
pub struct Transport {
    lines: HashMap<u16, Line>,
}

impl Transport {
    fn line(&mut self, partner: u16) -> &mut Line {
        self.lines.entry(partner).or_default()
    }

    /// A connect, a second one too: numbers begin at 0. What waited is acknowledged no more.
    pub fn connects(&mut self, partner: u16) -> Vec<usize> {
        let old = self.lines.insert(partner, Line::default());
        old.map_or(Vec::new(), |line| line.waiting.into_iter().map(|w| w.event).collect())
    }

    /// Somebody is turned away: a disconnect of the device is due.
    pub fn turns_away(&mut self, partner: u16, frame: usize) {
        let line = self.line(partner);
        (line.ended, line.owed) = (true, Some(frame));
        line.waiting.clear();
    }

    /// A frame of a partner: no disconnect is due any more to what it sent before.
    pub fn sends(&mut self, partner: u16) {
        self.line(partner).owed = None;
    }

    /// Whether a disconnect of the device is due, which is this one: it comes at once, with few frames of others between.
    pub fn owed(&mut self, partner: u16, frame: usize) -> bool {
        self.line(partner).owed.take().is_some_and(|since| frame - since <= AT_ONCE)
    }

    /// The device ended a connection: the events that it had not acknowledged.
    pub fn ends(&mut self, partner: u16) -> Vec<usize> {
        let line = self.line(partner);
        line.ended = true;
        line.waiting.drain(..).map(|w| w.event).collect()
    }

    /// A partner ends its connection: nothing that it sent is acknowledged any more.
    pub fn leaves(&mut self, partner: u16) {
        let line = self.line(partner);
        line.waiting.clear();
        (line.last, line.odd) = (None, 0);
    }

    /// A Restart closes a connection; what its partner sent is acknowledged yet.
    pub fn cut_off(&mut self, partner: u16, frame: usize) {
        let line = self.line(partner);
        (line.ended, line.owed) = (true, Some(frame));
    }

    /// Whether a partner may not know yet that it has no connection.
    pub fn ended(&self, partner: u16) -> bool {
        self.lines.get(&partner).is_some_and(|line| line.ended)
    }

    pub fn turn(&mut self, partner: u16, number: u8, data: &[u8]) -> Turn {
        let line = self.line(partner);
        if number == line.next {
            return Turn::Next;
        }
        let before = (number + 1) % NUMBERS == line.next;
        if before && line.data.as_ref().is_none_or(|last| last == data) {
            return Turn::Again;
        }
        if before {
            // an acknowledgement to come may be of either
            line.waiting.retain(|w| w.number != number);
        }
        Turn::Out
    }

    /// Data in turn, which is an event; whether other data had its number, and was not taken.
    pub fn takes(&mut self, partner: u16, number: u8, event: usize, data: &[u8]) -> bool {
        let line = self.line(partner);
        line.next = (number + 1) % NUMBERS;
        line.data = Some(data.to_vec());
        line.waiting.push(Waiting { number, event, copies: 1 });
        line.untaken.take() == Some(number)
    }

    /// Data in turn that was not taken.
    pub fn passes(&mut self, partner: u16, number: u8) {
        let line = self.line(partner);
        line.untaken = Some(number);
        line.odd |= 1 << number;
    }

    /// The same once more.
    pub fn again(&mut self, partner: u16, number: u8) {
        let line = self.line(partner);
        if let Some(w) = line.waiting.iter_mut().find(|w| w.number == number) {
            w.copies += 1;
        } else if let Some((_, copies)) = line.last.as_mut().filter(|last| last.0 == number) {
            *copies += 1;
        } else {
            // a device acknowledges the number before the first too
            line.last = Some((number, 1));
        }
    }

    /// Data that is no event.
    pub fn odd(&mut self, partner: u16, number: u8) {
        self.line(partner).odd |= 1 << number;
    }

    /// T_ACK of the device.
    pub fn acknowledged(&mut self, partner: u16, number: u8) -> Of {
        let line = self.line(partner);
        if let Some(at) = line.waiting.iter().position(|w| w.number == number) {
            let mut taken: Vec<Waiting> = line.waiting.drain(..=at).collect();
            let Some(w) = taken.pop() else { return Of::Nothing };
            line.last = Some((number, w.copies - 1));
            return Of::Event(w.event, taken.into_iter().map(|w| w.event).collect());
        }
        if let Some((_, copies)) = line.last.as_mut().filter(|last| last.0 == number && last.1 > 0)
        {
            *copies -= 1;
            return Of::Again;
        }
        line.of_odd(number)
    }

    /// T_NAK of the device: the data still waits, for it may be sent once more.
    pub fn refused(&mut self, partner: u16, number: u8) -> Of {
        let line = self.line(partner);
        match line.waiting.iter().find(|w| w.number == number) {
            Some(w) => Of::Event(w.event, Vec::new()),
            None => line.of_odd(number),
        }
    }

    /// An answer shows that an event was taken: it waits no more, nor do those before it, which were taken too.
    pub fn answered(&mut self, partner: u16, event: usize) -> Vec<usize> {
        let line = self.line(partner);
        match line.waiting.iter().position(|w| w.event == event) {
            Some(at) => line.waiting.drain(..=at).map(|w| w.event).collect(),
            None => Vec::new(),
        }
    }

    /// An answer is due on the connection: its number.
    pub fn answers(&mut self, partner: u16) -> u8 {
        let line = self.line(partner);
        let number = line.answer;
        line.answer = (number + 1) % NUMBERS;
        line.answers |= 1 << number;
        number
    }

    /// Whether an answer of this number was due, which the partner acknowledges.
    pub fn was_due(&self, partner: u16, number: u8) -> bool {
        self.lines.get(&partner).is_some_and(|line| line.answers & 1 << number != 0)
    }

    /// Whether data waits that has this number, and which number is next.
    pub fn waits(&self, partner: u16, number: u8) -> bool {
        self.lines.get(&partner).is_some_and(|line| line.waiting.iter().any(|w| w.number == number))
    }

    pub fn next(&self, partner: u16) -> u8 {
        self.lines.get(&partner).map_or(0, |line| line.next)
    }
}

impl Line {
    fn of_odd(&mut self, number: u8) -> Of {
        if self.odd & 1 << number != 0 {
            self.odd &= !(1 << number);
            return Of::Odd;
        }
        Of::Nothing
    }
}

#[cfg(test)]
mod tests {
    use super::*;

    const A: u16 = 0x11FA;

    #[test]
    fn turns() {
        let mut t = Transport::default();
        assert_eq!(t.connects(A), []);
        let turns = [0, 1, 15].map(|number| t.turn(A, number, &[1]));
        assert_eq!(turns, [Turn::Next, Turn::Out, Turn::Again]);
        for number in 0..16 {
            assert_eq!(t.turn(A, number, &[number]), Turn::Next);
            assert!(!t.takes(A, number, number.into(), &[number]));
            assert_eq!(t.turn(A, number, &[number]), Turn::Again);
        }
        assert_eq!(t.turn(A, 0, &[0]), Turn::Next);
        assert_eq!(t.connects(A), (0..16).collect::<Vec<_>>());
        assert_eq!(t.next(A), 0);
    }

    #[test]
    fn leaving() {
        let mut t = Transport::default();
        t.connects(A);
        t.takes(A, 0, 7, &[1]);
        t.leaves(A);
        assert_eq!(t.acknowledged(A, 0), Of::Nothing);
    }

    /// Who is turned away is told so once, before it sends again.
    #[test]
    fn turned_away() {
        let mut t = Transport::default();
        assert!(!t.owed(A, 0));
        t.turns_away(A, 1);
        assert_eq!([t.owed(A, 2), t.owed(A, 2), t.ended(A)], [true, false, true]);
        t.turns_away(A, 3);
        t.sends(A);
        assert!(!t.owed(A, 4));
        t.turns_away(A, 5);
        assert!(!t.owed(A, 18));
    }

    /// Two requests with one number: which of them an acknowledgement is of is not known.
    #[test]
    fn two_of_a_number() {
        let mut t = Transport::default();
        t.connects(A);
        t.takes(A, 0, 7, &[1]);
        assert_eq!(t.turn(A, 0, &[2]), Turn::Out);
        t.odd(A, 0);
        assert_eq!(t.acknowledged(A, 0), Of::Odd);
        t.connects(A);
        t.passes(A, 0);
        assert_eq!(t.turn(A, 0, &[2]), Turn::Next);
        assert!(t.takes(A, 0, 8, &[2]));
        assert_eq!(t.acknowledged(A, 0), Of::Event(8, vec![]));
    }

    #[test]
    fn acknowledgements() {
        let mut t = Transport::default();
        t.connects(A);
        assert_eq!(t.acknowledged(A, 0), Of::Nothing);
        t.takes(A, 0, 10, &[0]);
        assert_eq!(t.refused(A, 0), Of::Event(10, vec![]));
        t.again(A, 0);
        assert_eq!(t.acknowledged(A, 0), Of::Event(10, vec![]));
        // sent twice, so acknowledged twice and not three times
        assert_eq!(t.acknowledged(A, 0), Of::Again);
        assert_eq!(t.acknowledged(A, 0), Of::Nothing);
        t.again(A, 0);
        assert_eq!(t.acknowledged(A, 0), Of::Again);
        // one that was skipped was taken too
        t.takes(A, 1, 11, &[1]);
        t.takes(A, 2, 12, &[2]);
        assert_eq!(t.acknowledged(A, 2), Of::Event(12, vec![11]));
        t.odd(A, 9);
        assert_eq!([t.refused(A, 9), t.acknowledged(A, 9)], [Of::Odd, Of::Nothing]);
        t.takes(A, 3, 13, &[3]);
        assert_eq!(t.ends(A), [13]);
        assert!(t.ended(A));
        t.connects(A);
        assert!(!t.ended(A));
    }

    /// Number 15 right behind a connect is the one before 0: acknowledged, and not taken.
    #[test]
    fn before_the_first() {
        let mut t = Transport::default();
        t.connects(A);
        assert_eq!(t.turn(A, 15, &[]), Turn::Again);
        t.again(A, 15);
        assert_eq!([t.acknowledged(A, 15), t.acknowledged(A, 15)], [Of::Again, Of::Nothing]);
    }

    #[test]
    fn answers() {
        let mut t = Transport::default();
        t.connects(A);
        t.takes(A, 0, 5, &[0]);
        t.takes(A, 1, 6, &[1]);
        assert_eq!([t.answers(A), t.answers(A)], [0, 1]);
        assert_eq!([0, 1, 2].map(|n| t.was_due(A, n)), [true, true, false]);
        assert_eq!(t.answered(A, 6), [5, 6]);
        assert_eq!(t.answered(A, 6), []);
        t.connects(A);
        assert!(!t.was_due(A, 0));
    }
}
