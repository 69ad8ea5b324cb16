//! Whose connection is whose, in plain code: what `kelindap_heard` says of a frame. The tool asks that call; this stands
//! beside it where an archive has none, and in the tests.

use sheet::layout::word;

use crate::archive::{self, Arrival, Link};

/// The bit of control 2 that says a group, or all.
pub const GROUP: u8 = 0x80;
/// Data in modes 0 to 3, of which the last is on a connection; then what opens and ends one.
pub const CONNECTED: u8 = 3;
pub const CONNECT: u8 = 4;
pub const DISCONNECT: u8 = 5;

/// No connection.
pub const NOBODY: u8 = 255;

/// The connection of an address: open, and it connected last.
pub fn place_of(link: &Link, address: u16) -> Option<u8> {
    (0..2)
        .find(|&c: &usize| link.sessions.of[c].open && link.address[c] == address)
        .map(|c| c as u8)
}

fn free(link: &Link) -> Option<u8> {
    (0..2).find(|&c: &usize| !link.sessions.of[c].open).map(|c| c as u8)
}

/// What a frame is to the device with this sheet.
pub fn heard(link: Link, sheet: &[u8], frame: &[u8]) -> Arrival {
    let f = archive::frame_read(frame);
    let (source, sequence) = (f.source, f.transport & 15);
    let negative = f.outcome == 0 && frame[f.tpdu_offset] & 0xC3 == 0xC3;
    let arrived =
        |event, connection, group| Arrival { event, connection, group, source, sequence, negative };
    let nothing = |event| arrived(event, NOBODY, 0);
    if f.outcome != 0 {
        return nothing(f.outcome);
    }
    if f.control2 & GROUP == 0 && f.destination != word(sheet, 16) {
        return nothing(60);
    }
    if f.control2 & GROUP == 0 && f.source == word(sheet, 16) {
        return nothing(65);
    }
    let place = place_of(&link, f.source);
    let (place, none) = match f.event {
        mode if mode < CONNECTED => {
            return arrived(mode, NOBODY, f.destination);
        }
        CONNECTED => (place, 61),
        CONNECT => (place.or(free(&link)), 62),
        DISCONNECT => (place, 63),
        other => (Some(place.unwrap_or(NOBODY)), other),
    };
    let group = if f.event == CONNECTED { f.destination } else { 0 };
    place.map_or(nothing(none), |connection| arrived(f.event, connection, group))
}
