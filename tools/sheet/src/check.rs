//! The rules S1 to S9, each broken one with the field and the entry that break it; and old sheets, which break none.

use std::fmt;

use crate::layout::{
    body_at, body_length, contents, count, entries, group_address, memory_address, name, word,
    Kind, HEAD, KINDS, LATER, LONGEST,
};

/// What stands in the place of a rule where a sheet is old.
pub const OLD: u8 = 14;

/// Why a sheet is not accepted: the first rule that it breaks, or that it is old.
#[derive(Clone, Debug, PartialEq, Eq)]
pub struct Broken {
    pub rule: u8,
    /// The entry that breaks it, by kind and number from 0; none if it is the head or the sheet as a whole.
    pub entry: Option<(Kind, usize)>,
    pub why: String,
}

impl fmt::Display for Broken {
    fn fmt(&self, f: &mut fmt::Formatter<'_>) -> fmt::Result {
        match self.rule {
            OLD => write!(f, "old: {}", self.why),
            rule => write!(f, "S{rule}: {}", self.why),
        }
    }
}

/// A rule broken by the head or the sheet as a whole, if the test says so.
fn whole(rule: u8, broken: bool, why: impl FnOnce() -> String) -> Result<(), Broken> {
    if broken {
        return Err(Broken { rule, entry: None, why: why() });
    }
    Ok(())
}

/// Accepted, or why not: the first rule broken, and after all of them that it is old.
pub fn check(s: &[u8]) -> Result<(), Broken> {
    rules(s)?;
    whole(OLD, s[0] == 1, || "convert it".to_string())
}

/// The first rule broken, if there is one: S1 to S5, then S6 of all regions of both memories, S7, S8, S9.
pub fn rules(s: &[u8]) -> Result<(), Broken> {
    head(s)?;
    regions(s, Kind::Region)?;
    regions(s, Kind::User)?;
    properties(s)?;
    groups(s)?;
    bodies(s)
}

/// S1 to S5.
fn head(s: &[u8]) -> Result<(), Broken> {
    whole(1, s.len() < HEAD, || format!("the sheet has {} bytes, fewer than {HEAD}", s.len()))?;
    whole(1, s.len() > LONGEST, || format!("the sheet has more than {LONGEST} bytes"))?;
    whole(2, s[0] != 1 && s[0] != 2, || format!("edition {}, not 1 or 2", s[0]))?;
    for kind in KINDS {
        let (n, most) = (count(s, kind), kind.most());
        whole(3, n > most, || format!("{n} {}, more than {most}", kind.plural()))?;
    }
    let stated = word(s, 4) as usize;
    whole(4, stated != s.len(), || {
        format!("the head states {stated} bytes, the sheet has {}", s.len())
    })?;
    let contents = contents(s);
    whole(4, contents > s.len(), || {
        format!("head and entries take {contents} bytes, the sheet has {}", s.len())
    })?;
    for at in [15, 30, 31] {
        let zero = at == 31 || s[0] == 1; // edition 2 has numbers in the first two
        whole(5, zero && s[at] != 0, || format!("byte {at} of the head is {}, not 0", s[at]))?;
    }
    whole(5, s[30] > LATER, || format!("rules {}, not 0 or {LATER}", s[30]))?;
    whole(5, s[14] > 3, || format!("flags {}, of which only 1 and 2 may be set", s[14]))
}

/// A rule broken by an entry, if there is a fault in it.
fn of_entry(rule: u8, kind: Kind, i: usize, e: &[u8], fault: Option<String>) -> Result<(), Broken> {
    match fault {
        None => Ok(()),
        Some(fault) => {
            Err(Broken { rule, entry: Some((kind, i)), why: format!("{}, {fault}", name(kind, e)) })
        }
    }
}

/// A level above 3 in a levels byte.
fn levels(byte: u8) -> Option<String> {
    let (read, write) = (byte >> 4, byte & 15);
    if read > 3 {
        return Some(format!("read level {read} above 3"));
    }
    (write > 3).then(|| format!("write level {write} above 3"))
}

/// A byte of an entry that is not 0.
fn zero(e: &[u8], at: usize) -> Option<String> {
    (e[at] != 0).then(|| format!("byte {at} of the entry is {}, not 0", e[at]))
}

/// S6, of the regions of one memory.
fn regions(s: &[u8], kind: Kind) -> Result<(), Broken> {
    let mut free = 0; // the first address above the region before
    for (i, e) in entries(s, kind).enumerate() {
        let (address, length) = (word(e, 0) as usize, word(e, 2) as usize);
        let fault = if length == 0 {
            Some("length 0".to_string())
        } else if address + length > 65_536 {
            Some(format!("length {length} runs past the last address, ffffh"))
        } else if address < free {
            Some(format!(
                "first address below the end of the region before, {}",
                memory_address(free)
            ))
        } else {
            levels(e[6]).or(zero(e, 7))
        };
        of_entry(6, kind, i, e, fault)?;
        free = address + length;
    }
    Ok(())
}

/// S7.
fn properties(s: &[u8]) -> Result<(), Broken> {
    let mut before = None;
    for (i, e) in entries(s, Kind::Property).enumerate() {
        of_entry(7, Kind::Property, i, e, property_fault(before, e))?;
        before = Some((e[0], e[1]));
    }
    Ok(())
}

/// What S7 says of a property behind the one of that object and id, if there is one.
pub fn property_fault(before: Option<(u8, u8)>, e: &[u8]) -> Option<String> {
    let rising = match before {
        Some((object, id)) if (e[0], e[1]) <= (object, id) => {
            Some(format!("object and id not above the property before, {object}/{id}"))
        }
        _ => None,
    };
    (e[1] == 0).then(|| "id 0".to_string()).or(rising).or_else(|| shape(e))
}

/// What S7 says of one property alone, after object and id.
fn shape(e: &[u8]) -> Option<String> {
    let (kind, size, maximum, count) = (e[2], e[3], word(e, 4), word(e, 6));
    if kind & 0x40 != 0 {
        Some(format!("type {kind:02x}h, of which bit 6 must be 0"))
    } else if !(1..=10).contains(&size) {
        Some(format!("size {size}, not 1 to 10"))
    } else if !(1..=4095).contains(&maximum) {
        Some(format!("maximum {maximum}, not 1 to 4095"))
    } else if count > maximum {
        Some(format!("count {count} above maximum {maximum}"))
    } else {
        levels(e[10]).or(zero(e, 11))
    }
}

/// S8.
fn groups(s: &[u8]) -> Result<(), Broken> {
    let mut before = 0;
    for (i, e) in entries(s, Kind::Group).enumerate() {
        let address = word(e, 0);
        let fault = if address == 0 {
            Some("address 0".to_string())
        } else if address <= before {
            Some(format!("address not above the group object before, {}", group_address(before)))
        } else if e[2] > 14 {
            Some(format!("length code {} above 14", e[2]))
        } else if e[3] > 7 {
            Some(format!("flags {} above 7", e[3]))
        } else {
            zero(e, 6).or(zero(e, 7))
        };
        of_entry(8, Kind::Group, i, e, fault)?;
        before = address;
    }
    Ok(())
}

/// S9.
fn bodies(s: &[u8]) -> Result<(), Broken> {
    let mut next = contents(s);
    for kind in KINDS {
        for (i, e) in entries(s, kind).enumerate() {
            let at = body_at(kind, e);
            let fault = if at != next {
                Some(format!("its body starts at {at}, and the one before ends at {next}"))
            } else if kind == Kind::Group && e[2] == 0 {
                six_bits(s, at)
            } else {
                None
            };
            of_entry(9, kind, i, e, fault)?;
            next += body_length(kind, e);
        }
    }
    whole(9, next != s.len(), || format!("the last body ends at {next}, the sheet at {}", s.len()))
}

/// A six-bit value that is none.
fn six_bits(s: &[u8], at: usize) -> Option<String> {
    match s.get(at) {
        None => Some(format!("its body at {at} lies past the end of the sheet")),
        Some(&value) => (value > 63).then(|| format!("six-bit value {value} above 63")),
    }
}
