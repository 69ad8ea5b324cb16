//! The device sheet: its check, views of its entries, the lookups, and the conversion of an old one.

use crate::faults::Fault;

pub const FLAGS: usize = 14;
pub const USERS: usize = 15;
pub const PROGRAMMING: u8 = 1;
pub const VERIFY: u8 = 2;
pub const SERIAL: usize = 6;
pub const MASK: usize = 12;
pub const ADDRESS: usize = 16;
pub const KEYS: usize = 18;
pub const RULES: usize = 30;
/// The verdict on a sheet of edition 1 that breaks no rule, and the outcome of what is asked of it.
pub const OLD: u8 = 14;
/// The number of the later rules, which edition 2 alone may name.
pub const LATER: u8 = 1;
pub const HEAD: usize = 32;
pub const LONGEST: usize = 16_384;

/// The sample sheet, from the one file that has it.
pub const SAMPLE: [u8; 69] = listed(include_bytes!("../../../hosts/sample_sheet.inc"));
/// The same as it was in edition 1.
pub const OLD_SAMPLE: [u8; 69] = {
    let mut old = SAMPLE;
    old[0] = 1;
    old
};
/// A sheet with both memories, likewise.
pub const PUMP: [u8; 101] = listed(include_bytes!("../../../hosts/pump_sheet.inc"));

/// The sheet whose regions touch: what follows "# sheet" at the head of its cases.
pub fn touching() -> Vec<u8> {
    let cases = include_str!("../../vectors/ranges.tsv");
    let lines = cases.lines().filter_map(|line| line.strip_prefix("# sheet "));
    let hex: String =
        lines.filter_map(|l| l.split('\t').next()).flat_map(|b| b.split(' ')).collect();
    let byte = |i| u8::from_str_radix(&hex[i..i + 2], 16).expect("hex digits");
    (0..hex.len()).step_by(2).map(byte).collect()
}

/// The bytes of a C list: every 0x and two digits.
const fn listed<const N: usize>(text: &[u8]) -> [u8; N] {
    let mut bytes = [0; N];
    let (mut i, mut n) = (0, 0);
    while i + 3 < text.len() {
        if text[i] == b'0' && text[i + 1] == b'x' {
            bytes[n] = 16 * digit(text[i + 2]) + digit(text[i + 3]);
            n += 1;
        }
        i += 1;
    }
    assert!(n == N);
    bytes
}

const fn digit(c: u8) -> u8 {
    match c {
        b'0'..=b'9' => c - b'0',
        b'A'..=b'F' => c - b'A' + 10,
        _ => panic!("no hex digit"),
    }
}

fn word(high: u8, low: u8) -> u16 {
    u16::from_be_bytes([high, low])
}

/// True if one of the two level nibbles is above 3.
fn level_too_high(levels: u8) -> bool {
    levels & 0xCC != 0
}

struct Tables<'a> {
    regions: &'a [[u8; 8]],
    properties: &'a [[u8; 12]],
    groups: &'a [[u8; 8]],
    users: &'a [[u8; 8]],
}

/// The number of user regions: edition 2 has it in byte 15, edition 1 has none.
fn user_count(sheet: &[u8]) -> usize {
    if sheet[0] == 2 {
        sheet[USERS] as usize
    } else {
        0
    }
}

/// The length of the head and of all entries, by the numbers in the head.
pub fn contents(sheet: &[u8]) -> usize {
    let (r, p, g) = (sheet[1] as usize, sheet[2] as usize, sheet[3] as usize);
    HEAD + 8 * r + 12 * p + 8 * g + 8 * user_count(sheet)
}

/// Splits the contents; the caller knows that they fit into the sheet.
fn tables(sheet: &[u8]) -> Tables<'_> {
    let (r, p, g) = (sheet[1] as usize, sheet[2] as usize, sheet[3] as usize);
    let (regions, rest) = sheet[HEAD..contents(sheet)].split_at(8 * r);
    let (properties, rest) = rest.split_at(12 * p);
    let (groups, users) = rest.split_at(8 * g);
    Tables {
        regions: regions.as_chunks().0,
        properties: properties.as_chunks().0,
        groups: groups.as_chunks().0,
        users: users.as_chunks().0,
    }
}

/// Rule 6 of the regions of one memory.
fn regions_bad(entries: &[[u8; 8]]) -> bool {
    let mut free = 0; // first address after the previous region
    for e in entries {
        let address = word(e[0], e[1]) as u32;
        let length = word(e[2], e[3]) as u32;
        let end = address + length;
        if length == 0 || end > 65_536 || address < free || level_too_high(e[6]) || e[7] != 0 {
            return true;
        }
        free = end;
    }
    false
}

/// The bodies of the regions of one memory: true if each stands where the one
/// before ended, the first at `next`, which moves on to the end of the last.
fn regions_chained(entries: &[[u8; 8]], next: &mut usize) -> bool {
    let mut chained = true;
    for e in entries {
        chained &= word(e[4], e[5]) as usize == *next;
        *next += word(e[2], e[3]) as usize;
    }
    chained
}

/// 0 if the sheet breaks no rule of its own edition, else the number of the first broken.
///
/// One pass over the entries, but for the two memories' regions, of which rule
/// 6 comes first. A misplaced body (rule 9) only counts once all entries have
/// passed 6 to 8, so it is remembered in `chained` until the end.
pub fn rule(sheet: &[u8]) -> u8 {
    let len = sheet.len();
    if !(HEAD..=LONGEST).contains(&len) {
        return 1;
    }
    let edition = sheet[0];
    if edition != 1 && edition != 2 {
        return 2;
    }
    if sheet[1] > 16 || sheet[2] > 64 || sheet[3] > 64 || edition == 2 && sheet[USERS] > 16 {
        return 3;
    }
    if word(sheet[4], sheet[5]) as usize != len || contents(sheet) > len {
        return 4;
    }
    let latest = if edition == 2 { LATER } else { 0 };
    if edition == 1 && sheet[USERS] != 0
        || sheet[RULES] > latest
        || sheet[31] | (sheet[FLAGS] & !(PROGRAMMING | VERIFY)) != 0
    {
        return 5;
    }

    let tables = tables(sheet);
    if regions_bad(tables.regions) || regions_bad(tables.users) {
        return 6;
    }
    let mut next = contents(sheet);
    let mut chained = regions_chained(tables.regions, &mut next);

    let mut last = 0; // starting at 0 also refuses id 0 of object 0
    for e in tables.properties {
        let name = word(e[0], e[1]);
        let size = e[3];
        let maximum = word(e[4], e[5]);
        let count = word(e[6], e[7]);
        if e[1] == 0
            || name <= last
            || e[2] & 0x40 != 0
            || !(1..=10).contains(&size)
            || !(1..=4095).contains(&maximum)
            || count > maximum
            || level_too_high(e[10])
            || e[11] != 0
        {
            return 7;
        }
        last = name;
        chained &= word(e[8], e[9]) as usize == next;
        next += size as usize * maximum as usize;
    }

    let mut last = 0; // starting at 0 also refuses address 0
    for e in tables.groups {
        let address = word(e[0], e[1]);
        if address <= last || e[2] > 14 || e[3] > 7 || e[6] | e[7] != 0 {
            return 8;
        }
        last = address;
        chained &= word(e[4], e[5]) as usize == next;
        if e[2] == 0 {
            chained &= sheet.get(next).is_some_and(|&v| v < 64);
            next += 1;
        } else {
            next += e[2] as usize;
        }
    }

    chained &= regions_chained(tables.users, &mut next);
    if chained && next == len {
        0
    } else {
        9
    }
}

/// 0 if the sheet is accepted, else the number of the first rule broken, or `OLD`.
pub fn check(sheet: &[u8]) -> u8 {
    match rule(sheet) {
        0 if sheet[0] == 1 => OLD,
        rule => rule,
    }
}

/// Why nothing is asked of a sheet: 4 if it breaks a rule, `OLD` if it is old; 0 if it is accepted.
pub fn refusal(fault: Fault, sheet: &[u8]) -> u8 {
    if fault == Fault::OldBeforeBad && sheet.first() == Some(&1) {
        return OLD;
    }
    match check(sheet) {
        OLD if fault == Fault::OldServed => 0,
        OLD => OLD,
        0 => 0,
        _ => 4,
    }
}

/// Makes an old sheet one of edition 2, and gives 1; any other stays, and gets 4.
pub fn convert(fault: Fault, sheet: &mut [u8]) -> u8 {
    match check(sheet) {
        OLD => {}
        0 if fault == Fault::ConvertsAgain => return 1,
        1..=9 if fault == Fault::ConvertsBad && sheet.first() == Some(&1) => {}
        _ => return 4,
    }
    sheet[0] = 2;
    match fault {
        Fault::ConvertsToLater => sheet[RULES] = LATER,
        Fault::ConvertClaimsUser => sheet[USERS] = 1,
        Fault::ConvertEndsProgramming => sheet[FLAGS] &= !PROGRAMMING,
        _ => {}
    }
    1
}

/// The number of the rules that a sheet names, 0 if it is none that can: 0 as
/// in 01, 1 the later ones.
pub fn rules(sheet: &[u8]) -> u8 {
    u8::from(sheet.first() == Some(&2) && sheet.get(RULES) == Some(&LATER))
}

/// A region entry; `body` is where its bytes start in the sheet.
#[derive(Clone, Copy, Debug)]
pub struct Region {
    pub address: u32,
    pub length: u32,
    pub body: usize,
    pub read: u8,
    pub write: u8,
}

/// A property entry; `entry` is where the entry itself stands in the sheet.
#[derive(Clone, Copy, Debug)]
pub struct Property {
    pub entry: usize,
    pub object: u8,
    pub id: u8,
    pub kind: u8,
    pub size: usize,
    pub maximum: u16,
    pub count: u16,
    pub body: usize,
    pub levels: u8,
}

impl Property {
    pub fn writable(&self) -> bool {
        self.kind & 0x80 != 0
    }
    pub fn read(&self) -> u8 {
        self.levels >> 4
    }
    pub fn write(&self) -> u8 {
        self.levels & 15
    }
}

/// A group entry; `code` 0 is a six-bit value kept in one byte.
#[derive(Clone, Copy, Debug)]
pub struct Group {
    pub address: u16,
    pub code: u8,
    pub flags: u8,
    pub body: usize,
}

impl Group {
    pub fn length(&self) -> usize {
        self.code.max(1) as usize
    }
}

// The three walks below expect a sheet that breaks no rule.

/// The two memories: the device's, and user memory, which edition 2 has.
#[derive(Clone, Copy, Debug, PartialEq, Eq)]
pub enum Memory {
    Device,
    User,
}

pub fn regions(sheet: &[u8], memory: Memory) -> impl Iterator<Item = Region> + '_ {
    let entries = match memory {
        Memory::Device => tables(sheet).regions,
        Memory::User => tables(sheet).users,
    };
    entries.iter().map(|e| Region {
        address: word(e[0], e[1]) as u32,
        length: word(e[2], e[3]) as u32,
        body: word(e[4], e[5]) as usize,
        read: e[6] >> 4,
        write: e[6] & 15,
    })
}

pub fn properties(sheet: &[u8]) -> impl Iterator<Item = Property> + '_ {
    let first = HEAD + 8 * sheet[1] as usize;
    tables(sheet).properties.iter().enumerate().map(move |(i, e)| Property {
        entry: first + 12 * i,
        object: e[0],
        id: e[1],
        kind: e[2],
        size: e[3] as usize,
        maximum: word(e[4], e[5]),
        count: word(e[6], e[7]),
        body: word(e[8], e[9]) as usize,
        levels: e[10],
    })
}

pub fn groups(sheet: &[u8]) -> impl Iterator<Item = Group> + '_ {
    tables(sheet).groups.iter().map(|e| Group {
        address: word(e[0], e[1]),
        code: e[2],
        flags: e[3],
        body: word(e[4], e[5]) as usize,
    })
}

// Lookups: offset and length of a body, (0, 0) if there is none or the sheet is not accepted.

pub fn property(fault: Fault, sheet: &[u8], object: u8, id: u8) -> (usize, usize) {
    if refusal(fault, sheet) != 0 {
        return (0, 0);
    }
    let found = properties(sheet).find(|p| (p.object, p.id) == (object, id));
    found.map_or((0, 0), |p| (p.body, p.size * p.maximum as usize))
}

pub fn region(fault: Fault, sheet: &[u8], memory: Memory, k: usize) -> (usize, usize) {
    if refusal(fault, sheet) != 0 {
        return (0, 0);
    }
    regions(sheet, memory).nth(k).map_or((0, 0), |r| (r.body, r.length as usize))
}

pub fn group(fault: Fault, sheet: &[u8], address: u16) -> (usize, usize) {
    if refusal(fault, sheet) != 0 {
        return (0, 0);
    }
    let found = groups(sheet).find(|g| g.address == address);
    found.map_or((0, 0), |g| (g.body, g.length()))
}
