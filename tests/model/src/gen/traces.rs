//! Traces: good ones, of two tools at work on a sheet or of anything at all, and refused ones of each kind.

use super::{Event as Asked, Rng, Tools};
use crate::device::{self, Sessions};
use crate::sheet;
use crate::trace::{self, Event, ENTRY, MOST};

/// The trace's form of an event, if a trace can hold it: four bits for a mode and for a connection.
fn event(asked: &Asked) -> Option<Event> {
    Some(match asked {
        Asked::Connect(c) => Event::Connect(c & 15),
        Asked::Disconnect(c) => Event::Disconnect(c & 15),
        Asked::Button(on) => Event::Button(*on),
        Asked::Request(ask) => Event::Request {
            connection: ask.way.connection & 15,
            mode: ask.way.mode & 15,
            group: ask.way.group,
            apdu: ask.apdu.clone(),
        },
        Asked::Found(..) => return None,
    })
}

/// Does an event, so that the next one is drawn for what it leaves.
fn follow(asked: &mut Asked, sheet: &mut [u8], sessions: &mut Sessions) {
    match asked {
        Asked::Connect(c) => drop(device::connect(sessions, *c)),
        Asked::Disconnect(c) => drop(device::disconnect(sessions, *c)),
        Asked::Button(on) => drop(device::button(sheet, *on)),
        Asked::Request(a) => {
            device::request(sessions, a.way, &a.apdu, sheet, &mut a.buffer);
        }
        Asked::Found(..) => {}
    }
}

/// So many events on a sheet: of two tools, or of anybody.
fn events(rng: &mut Rng, sheet: &[u8], sessions: &Sessions, n: usize) -> Vec<Event> {
    let (mut sheet, mut sessions) = (sheet.to_vec(), *sessions);
    let good = sheet::rule(&sheet) == 0;
    if good {
        sheet[0] = 2; // what happens to an old one is drawn as for the converted one
    }
    let mut tools = (good && rng.chance(60)).then(|| Tools::new(&sheet));
    let mut all = Vec::new();
    while all.len() < n {
        let mut asked = match &mut tools {
            Some(tools) => tools.event(rng, &sheet, &sessions),
            None => super::event(rng, &sheet),
        };
        let Some(made) = event(&asked) else { continue };
        follow(&mut asked, &mut sheet, &mut sessions);
        all.push(made);
    }
    all
}

/// A trace that can be played: often of no events or of few, now and then of all that there may be.
pub fn trace(rng: &mut Rng, sheet: &[u8], sessions: &Sessions) -> Vec<u8> {
    let n = match rng.below(12) {
        0 => 0,
        1 => 1,
        2 => rng.pick(&[MOST, MOST - 1, rng.clone().within(100, MOST)]),
        _ => rng.within(2, 40),
    };
    let mut all = events(rng, sheet, sessions, n);
    if n > 0 && rng.chance(25) {
        // a request longer than any that is served, and one that is empty
        let k = rng.below(n);
        let length = rng.pick(&[0, 1, 17, 200, 255]);
        let apdu = rng.bytes(length);
        all[k] = Event::Request { connection: 0, mode: rng.below(16) as u8, group: 0, apdu };
    }
    trace::bytes(&all)
}

/// A trace that is refused, or would be if the broken part were another.
pub fn bad_trace(rng: &mut Rng, sheet: &[u8], sessions: &Sessions) -> Vec<u8> {
    let n = rng.within(1, 6);
    let all = events(rng, sheet, sessions, n);
    let mut t = trace::bytes(&all);
    let at = 2 + ENTRY * rng.below(n);
    match rng.below(13) {
        0 => t.truncate(rng.below(2)),
        1 => t[..2].copy_from_slice(&(513 + rng.below(9) as u16).to_be_bytes()),
        2 => t.truncate(rng.within(2, 1 + ENTRY * n)),
        3 => t[1] = t[1].wrapping_add(rng.pick(&[1, 255])),
        4 => t[at] = rng.pick(&[5, 6, 255]),
        5 => {
            // a length where there is no APDU, or an APDU where there is none any more
            t[at] = rng.within(1, 4) as u8;
            t[at + 6] = t[at + 6].max(rng.below(2) as u8);
        }
        6 => t[at + 7] = rng.pick(&[1, 128, 255]),
        7 | 8 => {
            let offset = u16::from_be_bytes([t[at + 4], t[at + 5]]);
            let other = rng.pick(&[offset.wrapping_add(1), offset.wrapping_sub(1), 0]);
            t[at + 4..at + 6].copy_from_slice(&other.to_be_bytes());
        }
        9 => t[at + 6] = t[at + 6].wrapping_add(rng.pick(&[1, 255])),
        10 => drop(t.pop()),
        11 => t.push(rng.byte()),
        _ => {
            // more APDUs than an offset can tell: the first that it can't is refused
            let apdu = vec![0; 255];
            let long = Event::Request { connection: 0, mode: 0, group: 0, apdu };
            t = trace::bytes(&vec![long; rng.within(240, 280)]);
        }
    }
    t
}
