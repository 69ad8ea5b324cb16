//! The device: sessions, the button, and requests against a sheet. Here stands
//! what comes before a service; the services stand in a file for each family.

mod access;
mod groups;
mod memory;
mod network;
mod properties;

use crate::faults::{Fault, Faults};
use crate::pdu::{self, Pdu};
use crate::sheet::{self, Memory, FLAGS, LATER, PROGRAMMING};

#[derive(Clone, Copy, Debug, PartialEq, Eq)]
pub struct Session {
    pub open: bool,
    pub level: u8,
}

impl Session {
    pub const CLOSED: Session = Session { open: false, level: 3 };
    pub const OPEN: Session = Session { open: true, level: 3 };
}

/// The sessions of connections 0 and 1; there is no other connection.
pub type Sessions = [Session; 2];

pub const FRESH: Sessions = [Session::CLOSED; 2];

/// How a request came. The connection counts in mode 3 alone, the group address in mode 0.
#[derive(Clone, Copy, Debug)]
pub struct Way {
    pub mode: u8,
    pub connection: u8,
    pub group: u16,
}

impl Way {
    /// On a connection.
    pub fn on(connection: u8) -> Way {
        Way { mode: 3, connection, group: 0 }
    }
}

/// Offset and length of a part of the sheet.
pub type Part = (usize, usize);

/// The outcome, how many bytes of the answer buffer were filled, and what was stored.
#[derive(Clone, Copy, Debug, PartialEq, Eq)]
pub struct Reply {
    pub outcome: u8,
    pub count: u8,
    pub changed: [Part; 2],
}

impl Reply {
    /// With the parts that were stored; the second is (0, 0) if there is one alone.
    fn storing(self, first: Part, second: Part) -> Reply {
        Reply { changed: [first, second], ..self }
    }
}

/// No part.
const NONE: Part = (0, 0);

pub fn connect(sessions: &mut Sessions, connection: u8) -> u8 {
    connect_with(Fault::None, sessions, connection)
}

pub fn connect_with(fault: Fault, sessions: &mut Sessions, connection: u8) -> u8 {
    let Some(session) = sessions.get_mut(connection as usize) else {
        return if fault == Fault::UnknownConnects { 1 } else { 7 };
    };
    let level = if fault == Fault::ConnectKeepsLevel { session.level } else { 3 };
    *session = Session { open: true, level };
    if fault == Fault::ConnectResetsBoth {
        sessions.iter_mut().for_each(|s| s.level = 3);
    }
    1
}

pub fn disconnect(sessions: &mut Sessions, connection: u8) -> u8 {
    disconnect_with(Fault::None, sessions, connection)
}

pub fn disconnect_with(fault: Fault, sessions: &mut Sessions, connection: u8) -> u8 {
    let Some(session) = sessions.get_mut(connection as usize) else {
        return 7;
    };
    *session = Session::CLOSED;
    if fault == Fault::DisconnectEndsBoth {
        *sessions = FRESH;
    }
    1
}

pub fn button(sheet: &mut [u8], on: bool) -> u8 {
    button_with(Fault::None, sheet, on)
}

pub fn button_with(fault: Fault, sheet: &mut [u8], on: bool) -> u8 {
    let refusal = sheet::refusal(fault, sheet);
    if refusal != 0 {
        return refusal;
    }
    if on {
        sheet[FLAGS] |= PROGRAMMING;
    } else {
        sheet[FLAGS] &= !PROGRAMMING;
    }
    1
}

pub fn request(
    sessions: &mut Sessions,
    way: Way,
    apdu: &[u8],
    sheet: &mut [u8],
    answer: &mut [u8],
) -> Reply {
    step(Faults::<false>(Fault::None), sessions, way, apdu, sheet, answer)
}

pub fn request_with(
    fault: Fault,
    sessions: &mut Sessions,
    way: Way,
    apdu: &[u8],
    sheet: &mut [u8],
    answer: &mut [u8],
) -> Reply {
    step(Faults::<true>(fault), sessions, way, apdu, sheet, answer)
}

/// The modes a code is served in by these rules, bit m for mode m; no bit if unknown.
fn modes(rules: u8, code: u16) -> u8 {
    match code {
        0x380 if rules == LATER => 0b1100,
        0x000 | 0x040..=0x0BF => 0b0001,
        0x0C0 | 0x100 | 0x3DC | 0x3DE => 0b0010,
        0x300..=0x33F | 0x3D5 | 0x3D7 | 0x3D8 => 0b1100,
        0x200..=0x20F | 0x280..=0x28F | 0x2C0 | 0x2C2 | 0x380 | 0x3D0 | 0x3D1 | 0x3D3 => 0b1000,
        _ => 0,
    }
}

fn silent(outcome: u8) -> Reply {
    Reply { outcome, count: 0, changed: [NONE; 2] }
}

fn reply(outcome: u8, pdu: Pdu, data: &[u8], answer: &mut [u8]) -> Reply {
    let count = pdu::write(&pdu, data, answer).expect("the device's answers can be written");
    Reply { outcome, count: count as u8, changed: [NONE; 2] }
}

fn permits<const ON: bool>(faults: Faults<ON>, level: u8, needed: u8) -> bool {
    if faults.is(Fault::LevelsReversed) {
        level >= needed
    } else {
        level <= needed
    }
}

/// A request that is served: whose it is, by which rules, and what it is lent.
struct Asked<'a, const ON: bool> {
    faults: Faults<ON>,
    way: Way,
    /// The connection it came on, which counts in mode 3 alone.
    own: usize,
    level: u8,
    rules: u8,
    data: &'a [u8],
    sessions: &'a mut Sessions,
    sheet: &'a mut [u8],
    answer: &'a mut [u8],
}

impl<const ON: bool> Asked<'_, ON> {
    fn is(&self, fault: Fault) -> bool {
        self.faults.is(fault)
    }

    /// Whether it may do what needs this level.
    fn may(&self, needed: u8) -> bool {
        permits(self.faults, self.level, needed)
    }
}

/// The connection that a request came on and the level that it has, or 7.
fn level<const ON: bool>(
    faults: Faults<ON>,
    sessions: &Sessions,
    way: Way,
) -> Result<(usize, u8), u8> {
    // outside mode 3 the number of the connection is not read
    let last = if faults.is(Fault::UnknownTakenForSecond) { 1 } else { u8::MAX };
    let own = way.connection.min(last) as usize;
    let level = match (way.mode, sessions.get(own)) {
        (3, Some(session)) if session.open => session.level.min(3),
        (3, _) => return Err(7),
        (_, None) if faults.is(Fault::NumberAlwaysRead) => return Err(7),
        _ => 3,
    };
    if way.mode == 3 && faults.is(Fault::BetterLevelCounts) {
        let open = sessions.iter().filter(|s| s.open);
        return Ok((own, open.map(|s| s.level).fold(level, u8::min)));
    }
    Ok((own, level))
}

fn step<const ON: bool>(
    faults: Faults<ON>,
    sessions: &mut Sessions,
    way: Way,
    apdu: &[u8],
    sheet: &mut [u8],
    answer: &mut [u8],
) -> Reply {
    if answer.len() < 16 {
        return silent(3);
    }
    let refusal = sheet::refusal(faults.which(), sheet);
    if refusal != 0 {
        return silent(refusal);
    }
    if !(2..=16).contains(&apdu.len()) {
        return silent(5);
    }
    if way.mode > 3 {
        return silent(6);
    }
    let (own, level) = match level(faults, sessions, way) {
        Ok(found) => found,
        Err(outcome) => return silent(outcome),
    };
    if way.mode == 2 && faults.is(Fault::UnconnectedTakesLevel) {
        sessions.get_mut(own).into_iter().for_each(|s| s.level = 3);
    }
    let rules = if faults.is(Fault::AlwaysLater) { LATER } else { sheet::rules(sheet) };
    let modes = modes(rules, pdu::code(apdu));
    if modes == 0 {
        return silent(8);
    }
    if modes >> way.mode & 1 == 0 {
        return silent(9);
    }
    let (pdu, data) = match pdu::read(apdu) {
        Ok((pdu, range)) => (pdu, &apdu[range]),
        Err(outcome) => return silent(outcome),
    };
    Asked { faults, way, own, level, rules, data, sessions, sheet, answer }.serve(pdu)
}

impl<const ON: bool> Asked<'_, ON> {
    fn serve(self, pdu: Pdu) -> Reply {
        match pdu {
            Pdu::GroupRead => self.group_read(),
            Pdu::GroupResponse { v } => self.group_store(4, v),
            Pdu::GroupWrite { v } => self.group_store(2, v),

            Pdu::AddressWrite { address } => self.address_write(address),
            Pdu::AddressRead => self.address_read(),
            Pdu::SerialRead { serial } => self.serial_read(serial),
            Pdu::SerialWrite { serial, address } => self.serial_write(serial, address),
            Pdu::DescriptorRead { t } => self.descriptor_read(t),

            Pdu::PropertyRead { object, id, n, s } => self.property_read(object, id, n, s),
            Pdu::PropertyWrite { object, id, n, s } => self.property_write(object, id, n, s),
            Pdu::DescriptionRead { object, id, index } => self.description_read(object, id, index),

            Pdu::MemoryRead { n, address } => self.memory_read(Memory::Device, n, address),
            Pdu::MemoryWrite { n, address } => self.memory_write(Memory::Device, n, address),
            Pdu::MemoryBitWrite { n, address } => self.memory_bit_write(n, address),
            Pdu::UserMemoryRead { n, address } => self.memory_read(Memory::User, n, address),
            Pdu::UserMemoryWrite { n, address } => self.memory_write(Memory::User, n, address),

            Pdu::AuthorizeRequest { key } => self.authorize(key),
            Pdu::KeyWrite { level, key } => self.key_write(level, key),
            Pdu::Restart => self.restart(),

            Pdu::AddressResponse
            | Pdu::SerialResponse { .. }
            | Pdu::DescriptorResponse { .. }
            | Pdu::PropertyResponse { .. }
            | Pdu::DescriptionResponse { .. }
            | Pdu::MemoryResponse { .. }
            | Pdu::AuthorizeResponse { .. }
            | Pdu::KeyResponse { .. }
            | Pdu::UserMemoryResponse { .. } => unreachable!("no answer has a mode"),
        }
    }
}
