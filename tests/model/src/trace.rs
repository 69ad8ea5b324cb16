//! A recorded trace: its check, and its events played one after the other.

use crate::device::{self, Sessions, Way};
use crate::faults::Fault;

pub const MOST: usize = 512;
pub const ENTRY: usize = 8;
/// A line of the log: outcome, count, and the answer's sixteen bytes.
pub const LINE: usize = 18;

/// An event of a trace; the connection and the mode have four bits each.
#[derive(Clone, Debug, PartialEq, Eq)]
pub enum Event {
    Request { connection: u8, mode: u8, group: u16, apdu: Vec<u8> },
    Connect(u8),
    Disconnect(u8),
    Button(bool),
}

fn word(bytes: &[u8], at: usize) -> usize {
    u16::from_be_bytes([bytes[at], bytes[at + 1]]) as usize
}

/// 0, or why the trace is refused, 50 to 58.
pub fn check(fault: Fault, trace: &[u8]) -> u8 {
    if trace.len() < 2 {
        return 50;
    }
    let n = word(trace, 0);
    if n > MOST {
        return 51;
    }
    let mut next = 2 + ENTRY * n;
    if next > trace.len() {
        return 52;
    }
    for e in trace[2..next].chunks(ENTRY) {
        let (kind, offset, length) = (e[0], word(e, 4), e[6] as usize);
        let broken = [
            (53, kind > 4),
            (54, kind != 0 && length > 0),
            (55, e[7] != 0),
            (56, offset != next && fault != Fault::OffsetsUnjudged),
            (57, offset.max(next) + length > trace.len()),
        ];
        if let Some((number, _)) = broken.iter().find(|(_, broken)| *broken) {
            return *number;
        }
        next += length;
    }
    if next != trace.len() {
        return 58;
    }
    0
}

/// The events of a trace that is not refused.
pub fn events(fault: Fault, trace: &[u8]) -> Vec<Event> {
    let n = word(trace, 0);
    let event = |e: &[u8]| {
        let (mut connection, mode) = (e[1] >> 4, e[1] & 15);
        if fault == Fault::ConnectionFromLowBits {
            connection = mode;
        }
        let offset = word(e, 4);
        match e[0] {
            0 => Event::Request {
                connection,
                mode,
                group: word(e, 2) as u16,
                apdu: trace[offset..offset + e[6] as usize].to_vec(),
            },
            1 => Event::Connect(connection),
            2 => Event::Disconnect(connection),
            kind => Event::Button(kind == 3),
        }
    };
    trace[2..2 + ENTRY * n].chunks(ENTRY).map(event).collect()
}

/// The trace of these events, if it has room for them.
pub fn bytes(events: &[Event]) -> Vec<u8> {
    let mut table = (events.len() as u16).to_be_bytes().to_vec();
    let mut apdus: Vec<u8> = Vec::new();
    for event in events {
        let (kind, mode, group, apdu) = match event {
            Event::Request { connection, mode, group, apdu } => {
                (0, connection << 4 | mode & 15, *group, &apdu[..])
            }
            Event::Connect(c) => (1, c << 4, 0, &[][..]),
            Event::Disconnect(c) => (2, c << 4, 0, &[][..]),
            Event::Button(on) => (if *on { 3 } else { 4 }, 0, 0, &[][..]),
        };
        let offset = 2 + ENTRY * events.len() + apdus.len();
        table.extend([kind, mode]);
        table.extend(group.to_be_bytes());
        table.extend((offset as u16).to_be_bytes());
        table.extend([apdu.len() as u8, 0]);
        apdus.extend(apdu);
    }
    table.extend(apdus);
    table
}

/// One event: outcome, count and answer as a line of the log.
fn line(fault: Fault, sessions: &mut Sessions, sheet: &mut [u8], event: &Event) -> [u8; LINE] {
    let mut line = [0; LINE];
    line[0] = match event {
        Event::Request { connection, mode, group, apdu } => {
            let mut answer = [0; 16];
            let way = Way { mode: *mode, connection: *connection, group: *group };
            let reply = device::request_with(fault, sessions, way, apdu, sheet, &mut answer);
            let count = reply.count as usize;
            line[1] = reply.count;
            line[2..2 + count].copy_from_slice(&answer[..count]);
            reply.outcome
        }
        Event::Connect(c) => device::connect_with(fault, sessions, *c),
        Event::Disconnect(c) => device::disconnect_with(fault, sessions, *c),
        Event::Button(on) => device::button_with(fault, sheet, *on),
    };
    line
}

/// The marks of a sheet's bytes and of both levels, and how many events were marked before.
pub struct Marks<'a> {
    pub of: &'a mut [u32],
    pub played: u32,
}

impl Marks<'_> {
    /// What is another after event k of a call than it was.
    fn note(&mut self, fault: Fault, k: usize, was: (&[u8], &Sessions), is: (&[u8], &Sessions)) {
        let played = if fault == Fault::NumbersBeginAnew { 0 } else { self.played };
        let number = played + k as u32 + 1;
        let stays = |mark: u32| fault == Fault::FirstMarkStays && mark != 0;
        let (bytes, levels) = self.of.split_at_mut(is.0.len());
        for (mark, (b, a)) in bytes.iter_mut().zip(was.0.iter().zip(is.0)) {
            if b != a && !stays(*mark) {
                *mark = number;
            }
        }
        for (mark, (b, a)) in levels.iter_mut().zip(was.1.iter().zip(is.1)) {
            if b.level != a.level && fault != Fault::LevelsUnmarked {
                *mark = number;
            }
        }
    }
}

/// Plays at most `limit` events from the place on: why not, or 0, and how many were handled.
pub fn play(
    fault: Fault,
    sessions: &mut Sessions,
    sheet: &mut [u8],
    trace: &[u8],
    place: (u64, u64),
    log: &mut [u8],
) -> (u8, u16) {
    play_marked(fault, sessions, sheet, trace, place, log, None)
}

/// The same with marks, if there are any.
pub fn play_marked(
    fault: Fault,
    sessions: &mut Sessions,
    sheet: &mut [u8],
    trace: &[u8],
    (from, limit): (u64, u64),
    log: &mut [u8],
    mut marks: Option<Marks>,
) -> (u8, u16) {
    let refusal = check(fault, trace);
    if refusal != 0 {
        return (refusal, 0);
    }
    let all = events(fault, trace);
    let from = if fault == Fault::PlaceNotKept { 0 } else { from.min(all.len() as u64) as usize };
    let limit = if fault == Fault::LimitOffByOne { limit.saturating_add(1) } else { limit };
    let handled = limit.min((all.len() - from) as u64) as usize;
    if LINE * handled > log.len() && fault != Fault::LogUnjudged {
        return (59, 0);
    }
    if let Some(marks) = &marks {
        if marks.of.len() != sheet.len() + sessions.len() {
            return (70, 0);
        }
        if marks.played.checked_add(handled as u32).is_none() {
            return (71, 0);
        }
    }
    let (mut counted, mut passed) = (0, false);
    for (k, event) in all[from..from + handled].iter().enumerate() {
        // by the fault, what follows a refused request is passed over
        if std::mem::take(&mut passed) {
            counted += 1;
            continue;
        }
        let was = (sheet.to_vec(), *sessions);
        let line = line(fault, sessions, sheet, event);
        if let Some(marks) = &mut marks {
            marks.note(fault, k, (&was.0, &was.1), (sheet, sessions));
        }
        if let Some(place) = log.get_mut(LINE * k..LINE * (k + 1)) {
            place.copy_from_slice(&line);
        }
        let refused = line[0] > 1;
        passed = refused && fault == Fault::PassesAfterRefused;
        counted += u16::from(!(refused && fault == Fault::RefusedUncounted));
    }
    (0, counted)
}
