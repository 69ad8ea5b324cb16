//! Two runs on two bridges: how they begin, and what is seen of each event.

use model::device::{Session, Sessions};
use model::gen::Rng;

use crate::play::{Play, REQUEST};
use crate::Bridge;

/// The commands by which a run begins.
pub fn start(sheet: &[u8], store: &[u8], sessions: Sessions) -> Vec<Play> {
    let lent = [Play::Sheet(sheet.to_vec()), Play::Store(store.to_vec())];
    let found = (0..).zip(sessions).map(|(c, session): (u8, Session)| Play::Found(c, session));
    lent.into_iter().chain(found).collect()
}

/// So many bytes of replies after those to the commands by which a run begins.
pub fn received(bridge: &mut Bridge, due: usize) -> Vec<u8> {
    let start = 9 + 9 + 2 * 4; // the replies to sheet, store and sessions
    let mut got = bridge.receive(start + due);
    got.drain(..start.min(got.len()));
    got
}

/// What is seen of an event: outcome and answer, both sessions and the sheet's hash afterwards,
/// if the reply tells them.
pub struct Seen {
    pub outcome: u8,
    pub answer: Vec<u8>,
    pub sessions: Option<[u8; 4]>,
    pub sheet: Option<[u8; 8]>,
}

impl Seen {
    /// The session of a connection.
    pub fn session(&self, connection: usize) -> Option<[u8; 2]> {
        self.sessions.map(|of| of[2 * connection..][..2].try_into().unwrap())
    }

    /// Whether outcome and answer are the same.
    pub fn told_as(&self, other: &Seen) -> bool {
        (self.outcome, &self.answer) == (other.outcome, &other.answer)
    }
}

/// What is seen of a call on the store, whose number and bytes count as its answer.
fn seen_of_store(play: &Play, replies: &mut &[u8]) -> Option<Seen> {
    let front = match play {
        Play::Save => 3,
        Play::Restore(..) => 5,
        _ => 1,
    };
    let sheet = if matches!(play, Play::Remove(_)) { 0 } else { 8 };
    let (reply, rest) = replies.split_at_checked(front + sheet + 8)?;
    *replies = rest;
    let sessions = (front == 5).then(|| reply[1..5].try_into().unwrap());
    let mut answer = reply[front + sheet..].to_vec();
    if front == 3 {
        answer.extend(&reply[1..3]);
    }
    let sheet = reply[front..front + sheet].try_into().ok();
    Some(Seen { outcome: reply[0], answer, sessions, sheet })
}

/// Takes the reply to a play off the front; none if there is none, or the buffer is changed
/// past the answer.
pub fn seen(play: &Play, replies: &mut &[u8]) -> Option<Seen> {
    if play.on_store() {
        return seen_of_store(play, replies);
    }
    let found: &[u8] = match play {
        Play::Request(ask) => &ask.buffer,
        _ => &[],
    };
    let request = matches!(play, Play::Request(_));
    let front = if request { REQUEST } else { 1 + 4 }; // the others tell no count and no parts
    let at = if request { 2 } else { 1 };
    let (reply, rest) = replies.split_at_checked(front + found.len() + 8)?;
    *replies = rest;
    let count = if request { reply[1] as usize } else { 0 };
    let buffer = &reply[front..reply.len() - 8];
    let (answer, behind) = buffer.split_at_checked(count)?;
    (behind == &found[count..]).then(|| Seen {
        outcome: reply[0],
        answer: answer.to_vec(),
        sessions: reply[at..at + 4].try_into().ok(),
        sheet: reply[reply.len() - 8..].try_into().ok(),
    })
}

/// The event with other bytes in its buffer, of the same number.
pub fn alike(rng: &mut Rng, play: &Play) -> Play {
    let mut other = play.clone();
    if let Play::Request(ask) = &mut other {
        ask.buffer = rng.bytes(ask.buffer.len());
    }
    other
}
