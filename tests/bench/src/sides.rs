//! The sides: the proved library by its C interface, the plain model behind
//! functions that can't be inlined either, and nothing at all, which shows what
//! the loop around a call takes.

use model::device::{Reply, Session, Sessions, Way};
use model::faults::Fault;

#[repr(C)]
#[derive(Clone, Copy)]
struct CSession {
    open: bool,
    level: u8,
}

#[repr(C)]
struct CSessions {
    of: [CSession; 2],
}

#[repr(C)]
struct CReply {
    outcome: u8,
    count: u8,
    changed: [CPart; 2],
}

extern "C" {
    fn kelindap_check(sheet: *const u8, length: usize) -> u8;
    fn kelindap_request(
        sessions: *mut CSessions,
        sheet: *mut u8,
        sheet_length: usize,
        mode: u8,
        connection: u8,
        group: u16,
        apdu: *const u8,
        apdu_length: usize,
        answer: *mut u8,
        answer_length: usize,
    ) -> CReply;
    fn kelindap_property(sheet: *const u8, length: usize, object: u8, id: u8) -> CPart;
    fn kelindap_group(sheet: *const u8, length: usize, address: u16) -> CPart;
}

#[repr(C)]
struct CPart {
    offset: usize,
    length: usize,
}

/// What a request is made of, its buffers lent.
pub struct Lent<'a> {
    pub sessions: Sessions,
    pub way: Way,
    pub apdu: &'a [u8],
    pub sheet: &'a mut [u8],
    pub answer: &'a mut [u8],
}

#[derive(Clone, Copy)]
pub enum Side {
    Proved,
    Plain,
    Nothing,
}

impl Side {
    pub fn check(self, sheet: &[u8]) -> u8 {
        match self {
            Side::Proved => unsafe { kelindap_check(sheet.as_ptr(), sheet.len()) },
            Side::Plain => plain_check(sheet),
            Side::Nothing => no_check(sheet),
        }
    }

    /// Offset and length of a property's body, and of a group's.
    pub fn property(self, sheet: &[u8], object: u8, id: u8) -> (usize, usize) {
        match self {
            Side::Proved => {
                let part = unsafe { kelindap_property(sheet.as_ptr(), sheet.len(), object, id) };
                (part.offset, part.length)
            }
            Side::Plain => plain_property(sheet, object, id),
            Side::Nothing => no_part(sheet),
        }
    }

    pub fn group(self, sheet: &[u8], address: u16) -> (usize, usize) {
        match self {
            Side::Proved => {
                let part = unsafe { kelindap_group(sheet.as_ptr(), sheet.len(), address) };
                (part.offset, part.length)
            }
            Side::Plain => plain_group(sheet, address),
            Side::Nothing => no_part(sheet),
        }
    }

    /// Reply and sessions.
    pub fn request(self, l: &mut Lent) -> (Reply, Sessions) {
        match self {
            Side::Proved => {
                let mut sessions =
                    CSessions { of: l.sessions.map(|s| CSession { open: s.open, level: s.level }) };
                let reply = unsafe {
                    kelindap_request(
                        &mut sessions,
                        l.sheet.as_mut_ptr(),
                        l.sheet.len(),
                        l.way.mode,
                        l.way.connection,
                        l.way.group,
                        l.apdu.as_ptr(),
                        l.apdu.len(),
                        l.answer.as_mut_ptr(),
                        l.answer.len(),
                    )
                };
                let sessions = sessions.of.map(|s| Session { open: s.open, level: s.level });
                let changed = reply.changed.map(|part| (part.offset, part.length));
                (Reply { outcome: reply.outcome, count: reply.count, changed }, sessions)
            }
            Side::Plain => {
                let mut sessions = l.sessions;
                let reply = plain_request(&mut sessions, l.way, l.apdu, l.sheet, l.answer);
                (reply, sessions)
            }
            Side::Nothing => {
                let mut sessions = l.sessions;
                let reply = no_request(&mut sessions, l.way, l.apdu, l.sheet, l.answer);
                (reply, sessions)
            }
        }
    }
}

#[inline(never)]
fn plain_check(sheet: &[u8]) -> u8 {
    model::sheet::check(sheet)
}

#[inline(never)]
fn plain_property(sheet: &[u8], object: u8, id: u8) -> (usize, usize) {
    model::sheet::property(Fault::None, sheet, object, id)
}

#[inline(never)]
fn plain_group(sheet: &[u8], address: u16) -> (usize, usize) {
    model::sheet::group(Fault::None, sheet, address)
}

#[inline(never)]
fn no_part(sheet: &[u8]) -> (usize, usize) {
    (std::hint::black_box(sheet.len()), 0)
}

#[inline(never)]
fn plain_request(
    sessions: &mut Sessions,
    way: Way,
    apdu: &[u8],
    sheet: &mut [u8],
    answer: &mut [u8],
) -> Reply {
    model::device::request(sessions, way, apdu, sheet, answer)
}

#[inline(never)]
fn no_check(sheet: &[u8]) -> u8 {
    std::hint::black_box(sheet.len() as u8)
}

#[inline(never)]
fn no_request(sessions: &mut Sessions, way: Way, _: &[u8], _: &mut [u8], _: &mut [u8]) -> Reply {
    let changed = [(0, 0); 2];
    Reply { outcome: std::hint::black_box(way.mode), count: sessions[0].level, changed }
}
