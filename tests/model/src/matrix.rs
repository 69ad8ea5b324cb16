//! Which outcomes a request can end in, by rules, service and mode.
//!
//! An APDU belongs to a row by its length first: one that is not 2 to 16
//! bytes long is "malformed length". Any other belongs to a service by its
//! ten-bit code alone, whatever its length, mode or fields; a code the device
//! does not serve, a tool's answer included, is "unknown code".
//!
//! A cell holds the outcomes that some sheet of these rules, sessions, connection,
//! group address and answer buffer can bring about. Short buffers (3) and bad
//! sheets (4) come first and so stand in every cell, and so do old sheets (14)
//! under rules 0, the only ones that they have. A bad length (5) hides the
//! mode; a mode above 3 (6) hides the connection and the service; a connection
//! that is closed, or that there is not (7), is seen in mode 3 alone. 13 never
//! comes from a request. A sheet that breaks a rule counts by `sheet::rules` too.

use crate::sheet::{LATER, OLD};

/// Bit k stands for outcome k.
pub type Outcomes = u16;

/// A row's name and its cells under rules 0 for modes 0, 1, 2, 3 and any above, old sheets apart.
pub type Row = (&'static str, [Outcomes; 5]);

pub const UNKNOWN: usize = 19;
pub const MALFORMED: usize = 20;

const fn set(outcomes: &[u8]) -> Outcomes {
    let mut bits = 0;
    let mut i = 0;
    while i < outcomes.len() {
        bits |= 1 << outcomes[i];
        i += 1;
    }
    bits
}

// Cells that say nothing of the service.
const BADLEN: Outcomes = set(&[3, 4, 5]);
const NOMODE: Outcomes = set(&[3, 4, 6]);
const UNKN: Outcomes = set(&[3, 4, 8]);
const UNKN_3: Outcomes = set(&[3, 4, 7, 8]);
const WRONG: Outcomes = set(&[3, 4, 9]);
const WRONG_3: Outcomes = set(&[3, 4, 7, 9]);

// Cells of modes 0 to 2 that serve.
const TELLS: Outcomes = set(&[3, 4, 10, 2, 0]); // answers, or is not for us
const TAKES: Outcomes = set(&[3, 4, 10, 2, 1]); // stores, or is not for us
const JUDGED: Outcomes = set(&[3, 4, 10, 11, 0]); // answers either way
const SILENT: Outcomes = set(&[3, 4, 10, 1]); // cannot be denied and has no answer

// Cells of mode 3 that serve.
const TELLS_3: Outcomes = set(&[3, 4, 7, 10, 2, 0]);
const JUDGED_3: Outcomes = set(&[3, 4, 7, 10, 11, 0]);
const VERIFIED_3: Outcomes = set(&[3, 4, 7, 10, 11, 12, 0, 1]); // verify decides on answering
const ALWAYS_3: Outcomes = set(&[3, 4, 7, 10, 0]); // Authorize cannot be denied
const SILENT_3: Outcomes = set(&[3, 4, 7, 10, 1]); // Restart neither, and has no answer

#[rustfmt::skip]
pub const ROWS: [Row; 21] = [
    //                      mode 0   1       2       3           above
    ("group_read",         [TELLS,  WRONG,  WRONG,  WRONG_3,    NOMODE]),
    ("group_response",     [TAKES,  WRONG,  WRONG,  WRONG_3,    NOMODE]),
    ("group_write",        [TAKES,  WRONG,  WRONG,  WRONG_3,    NOMODE]),
    ("address_write",      [WRONG,  TAKES,  WRONG,  WRONG_3,    NOMODE]),
    ("address_read",       [WRONG,  TELLS,  WRONG,  WRONG_3,    NOMODE]),
    ("serial_read",        [WRONG,  TELLS,  WRONG,  WRONG_3,    NOMODE]),
    ("serial_write",       [WRONG,  TAKES,  WRONG,  WRONG_3,    NOMODE]),
    ("descriptor_read",    [WRONG,  WRONG,  TELLS,  TELLS_3,    NOMODE]),
    ("property_read",      [WRONG,  WRONG,  JUDGED, JUDGED_3,   NOMODE]),
    ("property_write",     [WRONG,  WRONG,  JUDGED, JUDGED_3,   NOMODE]),
    ("description_read",   [WRONG,  WRONG,  JUDGED, JUDGED_3,   NOMODE]),
    ("memory_read",        [WRONG,  WRONG,  WRONG,  JUDGED_3,   NOMODE]),
    ("memory_write",       [WRONG,  WRONG,  WRONG,  VERIFIED_3, NOMODE]),
    ("memory_bit_write",   [WRONG,  WRONG,  WRONG,  VERIFIED_3, NOMODE]),
    ("authorize_request",  [WRONG,  WRONG,  WRONG,  ALWAYS_3,   NOMODE]),
    ("key_write",          [WRONG,  WRONG,  WRONG,  JUDGED_3,   NOMODE]),
    ("restart",            [WRONG,  WRONG,  WRONG,  SILENT_3,   NOMODE]),
    ("user_memory_read",   [WRONG,  WRONG,  WRONG,  JUDGED_3,   NOMODE]),
    ("user_memory_write",  [WRONG,  WRONG,  WRONG,  VERIFIED_3, NOMODE]),
    ("unknown code",       [UNKN,   UNKN,   UNKN,   UNKN_3,     NOMODE]),
    ("malformed length",   [BADLEN, BADLEN, BADLEN, BADLEN,     BADLEN]),
];

/// The rows that the later rules change, by number: `descriptor_read` and `restart`.
const CHANGED: [(usize, [Outcomes; 5]); 2] =
    [(7, [WRONG, WRONG, JUDGED, JUDGED_3, NOMODE]), (16, [WRONG, WRONG, SILENT, SILENT_3, NOMODE])];

/// The cells of a row under the rules of this number.
pub fn cells(rules: u8, row: usize) -> [Outcomes; 5] {
    if rules != LATER {
        return ROWS[row].1.map(|cell| cell | 1 << OLD);
    }
    let changed = CHANGED.iter().find(|&&(k, _)| k == row);
    changed.map_or(ROWS[row].1, |&(_, cells)| cells)
}

/// The row an APDU belongs to.
pub fn row(apdu: &[u8]) -> usize {
    if apdu.len() < 2 || apdu.len() > 16 {
        return MALFORMED;
    }
    match (apdu[0] & 3, apdu[1]) {
        (0, 0x00) => 0,
        (0, 0x40..=0x7F) => 1,
        (0, 0x80..=0xBF) => 2,
        (0, 0xC0) => 3,
        (1, 0x00) => 4,
        (3, 0xDC) => 5,
        (3, 0xDE) => 6,
        (3, 0x00..=0x3F) => 7,
        (3, 0xD5) => 8,
        (3, 0xD7) => 9,
        (3, 0xD8) => 10,
        (2, 0x00..=0x0F) => 11,
        (2, 0x80..=0x8F) => 12,
        (3, 0xD0) => 13,
        (3, 0xD1) => 14,
        (3, 0xD3) => 15,
        (3, 0x80) => 16,
        (2, 0xC0) => 17,
        (2, 0xC2) => 18,
        _ => UNKNOWN,
    }
}

/// The cell of a row that a mode belongs to.
pub fn column(mode: u8) -> usize {
    mode.min(4) as usize
}

/// The outcomes of a connect and of a disconnect: carried out, or there is no such connection.
pub const NAMED: Outcomes = set(&[1, 7]);

/// The outcomes that can follow from this APDU's service in this mode.
pub fn can(rules: u8, apdu: &[u8], mode: u8) -> Outcomes {
    cells(rules, row(apdu))[column(mode)]
}

/// The calls on the sheet alone, and what each can give.
pub const SHEET: [(&str, &[usize]); 3] = [
    ("check of a sheet", &[0, 1, 2, 3, 4, 5, 6, 7, 8, 9, 14]),
    ("button", &[1, 4, 14]),
    ("conversion", &[1, 4]),
];

/// The calls on a store of versions, and the outcomes that each can have.
pub const STORE: [(&str, &[usize]); 5] = [
    ("check of a store", &[0, 30]),
    ("save", &[0, 4, 14, 30, 31, 32, 33]),
    ("restore", &[1, 4, 14, 30, 34, 35, 36, 37]),
    ("remove", &[1, 30, 34]),
    ("versions, none or some", &[0, 1]),
];

/// Why a trace is refused, and why it is not played; 0 if it is not.
pub const TRACE: [(&str, &[usize]); 2] = [
    ("check of a trace", &[0, 50, 51, 52, 53, 54, 55, 56, 57, 58]),
    ("playing", &[0, 50, 51, 52, 53, 54, 55, 56, 57, 58, 59]),
];

/// Why a frame is no event, of hearing and of serving; 0 if it is one. And the outcomes of the events served: whoever is heard
/// on a connection has it, so 7 is none of them, and the modes and the answer buffer are the link's own.
pub const LINK: [(&str, &[usize]); 3] = [
    ("hearing", &[0, 40, 41, 42, 43, 44, 45, 60, 61, 62, 63, 65]),
    ("serving", &[0, 40, 41, 42, 43, 44, 45, 60, 61, 62, 63, 64, 65]),
    ("an event served", &[0, 1, 2, 4, 5, 8, 9, 10, 11, 12, 14]),
];
