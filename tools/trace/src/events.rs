//! A trace's bytes and its events. Whether a trace is good the archive says; where it is not is looked for here.

use sheet::layout::word;

use crate::archive;
use crate::words;

/// So many events a trace has at most.
pub const MOST: usize = 512;
const ENTRY: usize = 8;
/// The last place at which an APDU can begin.
const LAST_START: usize = 65_535;
/// No trace is longer: the last APDU begins at the last place and has 255 bytes. Of a longer file a byte more is read.
pub const LONGEST: usize = LAST_START + 255;

pub const REQUEST: u8 = 0;
pub const CONNECT: u8 = 1;
pub const DISCONNECT: u8 = 2;
pub const BUTTON_ON: u8 = 3;
pub const BUTTON_OFF: u8 = 4;

/// The mode of a request on a connection.
pub const CONNECTED: u8 = 3;

/// All that an entry says; what its kind does not use may be anything.
#[derive(Clone, Debug, PartialEq, Eq, Default)]
pub struct Event {
    pub kind: u8,
    pub mode: u8,
    pub connection: u8,
    pub group: u16,
    pub apdu: Vec<u8>,
}

impl Event {
    pub fn connect(connection: u8) -> Event {
        Event { kind: CONNECT, connection, ..Event::default() }
    }

    pub fn disconnect(connection: u8) -> Event {
        Event { kind: DISCONNECT, connection, ..Event::default() }
    }

    /// The connection whose rights count: that of a request in mode 3.
    pub fn rights(&self) -> Option<usize> {
        let counts = self.kind == REQUEST && self.mode == CONNECTED && self.connection < 2;
        counts.then_some(self.connection.into())
    }
}

/// The events of a trace, or why it is refused and where.
pub fn read(trace: &[u8]) -> Result<Vec<Event>, String> {
    let refusal = archive::trace_check(trace);
    if refusal != 0 {
        return Err(format!("{refusal}: {}: {}", words::outcome(refusal), place(trace, refusal)));
    }
    Ok(entries(trace)
        .map(|e| {
            let at = word(e, 4) as usize;
            Event {
                kind: e[0],
                mode: e[1] & 15,
                connection: e[1] >> 4,
                group: word(e, 2),
                apdu: trace[at..at + e[6] as usize].to_vec(),
            }
        })
        .collect())
}

fn entries(trace: &[u8]) -> impl Iterator<Item = &[u8]> {
    let n = word(trace, 0) as usize;
    trace[2..2 + ENTRY * n].chunks_exact(ENTRY)
}

/// Where a refused trace is wrong.
fn place(t: &[u8], refusal: u8) -> String {
    match refusal {
        50 => return format!("offset 0: {}", words::many(t.len(), "byte")),
        51 => return format!("offset 0: {} events, more than {MOST}", word(t, 0)),
        52 => {
            let ends = 2 + ENTRY * word(t, 0) as usize;
            return format!("offset 2: the table ends at {ends}, the trace at {}", t.len());
        }
        _ => {}
    }
    let mut end = 2 + ENTRY * word(t, 0) as usize;
    for (k, e) in entries(t).enumerate() {
        let (at, length) = (word(e, 4) as usize, e[6] as usize);
        let wrong = |field: usize, what: String| {
            format!("offset {}: event {}, {what}", 2 + ENTRY * k + field, k + 1)
        };
        match refusal {
            53 if e[0] > BUTTON_OFF => return wrong(0, format!("kind {}", e[0])),
            54 if length > 0 && e[0] != REQUEST => {
                return wrong(6, format!("a length of {length} and no request"))
            }
            55 if e[7] != 0 => return wrong(7, format!("the last byte is {}", e[7])),
            56 if at != end => {
                return wrong(
                    4,
                    format!("its APDU begins at {at}, what is before it ends at {end}"),
                )
            }
            57 if end + length > t.len() => {
                return wrong(
                    6,
                    format!("its APDU ends at {}, the trace at {}", end + length, t.len()),
                )
            }
            _ => end += length,
        }
    }
    let least = if t.len() > LONGEST { "at least " } else { "" };
    format!("offset {end}: {least}{} left over", words::many(t.len() - end, "byte"))
}

/// The bytes of as many events as a trace can have.
pub fn write(events: &[Event]) -> Vec<u8> {
    let mut at = 2 + ENTRY * events.len();
    let mut out = (events.len() as u16).to_be_bytes().to_vec();
    for e in events {
        out.extend([e.kind, e.connection << 4 | e.mode]);
        out.extend(e.group.to_be_bytes());
        out.extend((at as u16).to_be_bytes());
        out.extend([e.apdu.len() as u8, 0]);
        at += e.apdu.len();
    }
    events.iter().for_each(|e| out.extend(&e.apdu));
    out
}

/// How many of these events, from the first on, make up one trace.
fn fit(events: &[Event]) -> usize {
    let mut bytes = 0;
    for (n, e) in events.iter().enumerate() {
        if n == MOST || 2 + ENTRY * (n + 1) + bytes > LAST_START {
            return n;
        }
        bytes += e.apdu.len();
    }
    events.len()
}

/// The lengths of the traces that events make up, one after the other; no events are one trace too.
pub fn lengths(mut events: &[Event]) -> Vec<usize> {
    let mut all = Vec::new();
    loop {
        let n = fit(events);
        all.push(n);
        events = &events[n..];
        if events.is_empty() {
            return all;
        }
    }
}
