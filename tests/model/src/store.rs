//! The store of versions: its check, saving, restoring and removing. A good
//! store is taken apart into a list, the list is changed and laid out again.

use crate::device::Sessions;
use crate::faults::Fault;
use crate::sheet;

pub const HEAD: usize = 8;
pub const ENTRY: usize = 8;
pub const LONGEST: usize = 32_768;
/// So many versions are kept at most.
pub const MOST: usize = 8;
/// The one kind of version that there is.
pub const KIND: u16 = 1;
/// The length of a property's entry, and where in it the count stands.
const PROPERTY: usize = 12;
const COUNT: usize = 6;

#[derive(Clone, Debug, PartialEq, Eq)]
pub struct Version {
    pub number: u16,
    pub body: Vec<u8>,
}

/// What a good store says: the last number given, and the versions in the order of their numbers.
#[derive(Clone, Debug, Default, PartialEq, Eq)]
pub struct Store {
    pub last: u16,
    pub versions: Vec<Version>,
}

fn word(bytes: &[u8], at: usize) -> u16 {
    u16::from_be_bytes([bytes[at], bytes[at + 1]])
}

impl Store {
    /// The store in these bytes, if it is a good one.
    pub fn read(bytes: &[u8]) -> Option<Store> {
        if !(HEAD..=LONGEST).contains(&bytes.len()) {
            return None;
        }
        let (n, last) = (word(bytes, 0) as usize, word(bytes, 2));
        if n > MOST || bytes[4..HEAD] != [0; 4] || HEAD + ENTRY * n > bytes.len() {
            return None;
        }
        let mut store = Store { last, versions: Vec::new() };
        let (mut before, mut next) = (0, HEAD + ENTRY * n);
        for entry in bytes[HEAD..HEAD + ENTRY * n].chunks(ENTRY) {
            let (number, kind) = (word(entry, 0), word(entry, 2));
            let (offset, length) = (word(entry, 4) as usize, word(entry, 6) as usize);
            if number <= before || number > last || kind != KIND || offset != next {
                return None;
            }
            let body = bytes.get(offset..offset + length)?.to_vec();
            store.versions.push(Version { number, body });
            before = number;
            next += length;
        }
        Some(store)
    }

    /// Where the table ends.
    fn table(&self) -> usize {
        HEAD + ENTRY * self.versions.len()
    }

    /// Where the last body ends.
    pub fn end(&self) -> usize {
        self.table() + self.versions.iter().map(|v| v.body.len()).sum::<usize>()
    }

    /// Head, table and bodies.
    pub fn bytes(&self) -> Vec<u8> {
        let mut words = vec![self.versions.len() as u16, self.last, 0, 0];
        let mut offset = self.table();
        for v in &self.versions {
            words.extend([v.number, KIND, offset as u16, v.body.len() as u16]);
            offset += v.body.len();
        }
        let mut bytes: Vec<u8> = words.into_iter().flat_map(u16::to_be_bytes).collect();
        self.versions.iter().for_each(|v| bytes.extend(&v.body));
        bytes
    }

    /// Puts it into the front of a buffer.
    fn lay(&self, buffer: &mut [u8]) {
        let bytes = self.bytes();
        buffer[..bytes.len()].copy_from_slice(&bytes);
    }

    fn place(&self, number: u64) -> Option<usize> {
        self.versions.iter().position(|v| u64::from(v.number) == number)
    }
}

/// 0, or 30 for a store that is not good.
pub fn check(store: &[u8]) -> u8 {
    match Store::read(store) {
        Some(_) => 0,
        None => 30,
    }
}

/// The versions that a store keeps, by number and length; none of one that is not good.
pub fn kept(fault: Fault, store: &[u8]) -> Vec<(u16, u16)> {
    let good = Store::read(store).unwrap_or_default();
    let entry = if fault == Fault::LengthWithEntry { ENTRY } else { 0 };
    good.versions.iter().map(|v| (v.number, (v.body.len() + entry) as u16)).collect()
}

/// What a version of a sheet that breaks no rule holds.
pub fn settings(sheet: &[u8]) -> Vec<u8> {
    let mut body = u16::from(sheet[2]).to_be_bytes().to_vec();
    for p in sheet::properties(sheet) {
        body.extend(&sheet[p.entry..p.entry + PROPERTY]);
    }
    for p in sheet::properties(sheet) {
        body.extend(&sheet[p.body..p.body + p.size * p.maximum as usize]);
    }
    body
}

/// Outcome and number, which is 0 on a refusal.
pub fn save(fault: Fault, sheet: &[u8], buffer: &mut [u8]) -> (u8, u16) {
    let refusal = sheet::refusal(fault, sheet);
    if refusal != 0 {
        return (refusal, 0);
    }
    let Some(mut store) = Store::read(buffer) else {
        return (30, 0);
    };
    let body = settings(sheet);
    let entry = if fault == Fault::RoomWithoutEntry { 0 } else { ENTRY };
    let full = store.versions.len() == MOST;
    let mut refusals = [
        (31, store.last == u16::MAX),
        (32, full),
        (33, store.end() + entry + body.len() > buffer.len()),
    ];
    match fault {
        Fault::PlacesBeforeNumbers => refusals.swap(0, 1),
        Fault::RoomBeforePlaces => refusals.swap(1, 2),
        _ => {}
    }
    if let Some(&(number, _)) = refusals.iter().find(|(_, refused)| *refused) {
        return (number, 0);
    }
    if fault == Fault::NumbersFromZero {
        let number = store.last;
        store.last += 1;
        store.versions.push(Version { number, body });
        store.lay(buffer);
        return (0, number);
    }
    let old = store.clone();
    store.last += 1;
    store.versions.push(Version { number: store.last, body });
    if store.end() > buffer.len() {
        return (33, store.last); // by the fault, which is seen all the same
    }
    store.lay(buffer);
    if fault == Fault::OffsetsNotMoved {
        keep_offsets(&old, buffer, |k| k);
    }
    (0, store.last)
}

/// By a fault the entries have the offsets that they had; `was` tells which entry was which.
fn keep_offsets(old: &Store, buffer: &mut [u8], was: impl Fn(usize) -> usize) {
    let bytes = old.bytes();
    for k in 0..old.versions.len() {
        let (from, to) = (HEAD + ENTRY * was(k) + 4, HEAD + ENTRY * k + 4);
        if from + 2 <= old.table() && to + 2 <= buffer.len() {
            buffer[to..to + 2].copy_from_slice(&bytes[from..from + 2]);
        }
    }
}

/// Whether two versions, by their bodies, have the same entries apart from counts.
fn same_entries(a: &[u8], b: &[u8]) -> bool {
    let n = PROPERTY * word(b, 0) as usize;
    let counted = |i: usize| (COUNT..COUNT + 2).contains(&(i % PROPERTY));
    a.len() == b.len() && a[..2] == b[..2] && (0..n).all(|i| counted(i) || a[2 + i] == b[2 + i])
}

/// Whether a version has a count above its maximum.
fn counts_high(body: &[u8]) -> bool {
    let n = word(body, 0) as usize;
    body[2..2 + PROPERTY * n].chunks(PROPERTY).any(|e| word(e, COUNT) > word(e, 4))
}

pub fn restore(
    fault: Fault,
    sessions: &Sessions,
    connection: u8,
    sheet: &mut [u8],
    store: &[u8],
    number: u64,
) -> u8 {
    let refusal = sheet::refusal(fault, sheet);
    if refusal != 0 {
        return refusal;
    }
    let Some(store) = Store::read(store) else {
        return 30;
    };
    let needed = if fault == Fault::RestoresAtLevelOne { 1 } else { 0 };
    let either = fault == Fault::RestoresByEither;
    let allowed = sessions
        .iter()
        .zip(0u8..)
        .any(|(s, c)| (c == connection || either) && s.open && s.level <= needed);
    if fault == Fault::LevelBeforeNumber && !allowed {
        return 35;
    }
    let Some(k) = store.place(number) else {
        return 34;
    };
    let own = settings(sheet);
    let body = &store.versions[k].body;
    let same = same_entries(body, &own);
    let refusals = [(35, !allowed), (36, !same), (37, same && counts_high(body))];
    let untested = if fault == Fault::CountsUntested { 37 } else { 0 };
    let refused = refusals.iter().find(|&&(number, broken)| broken && number != untested);
    if refused.is_some() && !(fault == Fault::RestoresFirst && body.len() == own.len()) {
        return refused.map_or(0, |r| r.0);
    }
    give(fault, sheet, body);
    refused.map_or(1, |r| r.0)
}

/// The counts and bodies of the sheet's properties become the version's.
fn give(fault: Fault, sheet: &mut [u8], version: &[u8]) {
    let properties: Vec<sheet::Property> = sheet::properties(sheet).collect();
    let mut at = 2 + PROPERTY * properties.len();
    for (k, p) in properties.iter().enumerate() {
        let (count, long) = (2 + PROPERTY * k + COUNT, p.size * p.maximum as usize);
        let spared = fault == Fault::RestoresByLevels && !p.writable();
        if !spared && fault != Fault::RestoreLeavesCounts {
            sheet[p.entry + COUNT..p.entry + COUNT + 2].copy_from_slice(&version[count..count + 2]);
        }
        if !spared {
            sheet[p.body..p.body + long].copy_from_slice(&version[at..at + long]);
        }
        at += long;
    }
}

pub fn remove(fault: Fault, buffer: &mut [u8], number: u64) -> u8 {
    let Some(mut store) = Store::read(buffer) else {
        return 30;
    };
    let Some(k) = store.place(number) else {
        return 34;
    };
    let (old, end, was) = (store.clone(), store.end(), buffer.to_vec());
    store.versions.remove(k);
    if fault == Fault::NumberReused {
        store.last = store.versions.last().map_or(0, |v| v.number);
    }
    store.lay(buffer);
    buffer[store.end()..end].fill(0);
    match fault {
        Fault::OffsetsNotMoved => keep_offsets(&old, buffer, |j| j + usize::from(j >= k)),
        Fault::HoleLeft => buffer[store.table()..end].copy_from_slice(&was[store.table()..end]),
        Fault::BytesNotZeroed => buffer[store.end()..end].copy_from_slice(&was[store.end()..end]),
        Fault::TouchesBehind => buffer[end..].fill(0),
        _ => {}
    }
    1
}
