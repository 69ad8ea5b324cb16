//! What differs between two accepted sheets, by meaning. Nothing shows a key.

use std::collections::BTreeMap;
use std::fmt;

use crate::json::Json;
use crate::layout::{
    group_address, hex, individual_address, memory_address, Group, Levels, Property, Region, Sheet,
};
use crate::show::{byte_line, element, flag_words, switch};

/// Something that one sheet has other than the other.
#[derive(Clone, Debug, PartialEq, Eq)]
pub struct Difference {
    /// The place, such as `property 1/51 element 1`.
    pub what: String,
    pub change: Change,
}

#[derive(Clone, Debug, PartialEq, Eq)]
pub enum Change {
    /// From one value to another.
    Values(String, String),
    /// A key, which is not shown.
    Key,
    /// An entry that is new, and what it is.
    Entry(String),
    /// The value of a place that is new.
    Value(String),
    Gone,
}

impl fmt::Display for Difference {
    fn fmt(&self, f: &mut fmt::Formatter<'_>) -> fmt::Result {
        let what = &self.what;
        match &self.change {
            Change::Values(old, new) => write!(f, "{what}: {old} → {new}"),
            Change::Key => write!(f, "{what} changed"),
            Change::Entry(told) => write!(f, "{what} is new: {told}"),
            Change::Value(new) => write!(f, "{what}: new, {new}"),
            Change::Gone => write!(f, "{what} is gone"),
        }
    }
}

impl Difference {
    /// For other programs: the place, what became of it, the values before and after where they are told, and the line.
    pub fn json(&self) -> Json {
        let (change, from, to) = match &self.change {
            Change::Values(from, to) => ("changed", Some(from), Some(to)),
            Change::Key => ("changed", None, None),
            Change::Entry(to) | Change::Value(to) => ("new", None, Some(to)),
            Change::Gone => ("gone", None, None),
        };
        Json::Object(vec![
            ("what", self.what.as_str().into()),
            ("change", change.into()),
            ("from", from.cloned().into()),
            ("to", to.cloned().into()),
            ("line", self.to_string().into()),
        ])
    }
}

/// The lines that tell one sheet from the other: none exactly if their bytes are the same.
pub fn lines(a: &Sheet, b: &Sheet) -> Vec<String> {
    differences(a, b).iter().map(Difference::to_string).collect()
}

/// The same, each taken apart.
pub fn differences(a: &Sheet, b: &Sheet) -> Vec<Difference> {
    let mut out = Lines(Vec::new());
    head(&mut out, a, b);
    memory(&mut out, "", &a.regions, &b.regions);
    all_properties(&mut out, &a.properties, &b.properties);
    let (ga, gb) = (by(&a.groups, |g| g.address), by(&b.groups, |g| g.address));
    let named = |address| format!("group object {}", group_address(address));
    both(&mut out, &ga, &gb, named, group, new_group);
    memory(&mut out, "user ", &a.users, &b.users);
    out.0
}

/// The lines of the properties alone.
pub fn properties(a: &[Property], b: &[Property]) -> Vec<String> {
    let mut out = Lines(Vec::new());
    all_properties(&mut out, a, b);
    out.0.iter().map(Difference::to_string).collect()
}

fn all_properties(out: &mut Lines, a: &[Property], b: &[Property]) {
    let (a, b) = (by(a, |p| (p.object, p.id)), by(b, |p| (p.object, p.id)));
    let named = |(object, id)| format!("property {object}/{id}");
    both(out, &a, &b, named, property, new_property);
}

struct Lines(Vec<Difference>);

impl Lines {
    fn say(&mut self, what: impl ToString, change: Change) {
        self.0.push(Difference { what: what.to_string(), change });
    }

    /// A line if the two texts differ.
    fn compare(&mut self, what: &str, a: impl ToString, b: impl ToString) {
        let (a, b) = (a.to_string(), b.to_string());
        if a != b {
            self.say(what, Change::Values(a, b));
        }
    }

    fn levels(&mut self, what: &str, a: Levels, b: Levels) {
        self.compare(&format!("{what} read level"), a.read, b.read);
        self.compare(&format!("{what} write level"), a.write, b.write);
    }
}

fn head(out: &mut Lines, a: &Sheet, b: &Sheet) {
    out.compare("edition", a.edition, b.edition);
    out.compare("rules", a.rules, b.rules);
    out.compare("serial number", hex(&a.serial), hex(&b.serial));
    out.compare("mask version", hex(&a.mask), hex(&b.mask));
    out.compare("programming mode", switch(a.programming), switch(b.programming));
    out.compare("verify", switch(a.verify), switch(b.verify));
    out.compare("individual address", individual_address(a.address), individual_address(b.address));
    for level in 0..a.keys.len() {
        if a.keys[level] != b.keys[level] {
            out.say(format!("key of level {level}"), Change::Key);
        }
    }
}

/// Entries by what names them.
fn by<T, K: Ord>(entries: &[T], key: impl Fn(&T) -> K) -> BTreeMap<K, &T> {
    entries.iter().map(|e| (key(e), e)).collect()
}

/// Entries that only one sheet has, with what a new one is, and what differs in those that both have.
fn both<T, K: Ord + Copy>(
    out: &mut Lines,
    a: &BTreeMap<K, &T>,
    b: &BTreeMap<K, &T>,
    name: impl Fn(K) -> String,
    differ: impl Fn(&mut Lines, &str, &T, &T),
    tell: impl Fn(&mut Lines, &str, &T),
) {
    let mut keys: Vec<K> = a.keys().chain(b.keys()).copied().collect();
    keys.sort();
    keys.dedup();
    for key in keys {
        match (a.get(&key), b.get(&key)) {
            (Some(x), Some(y)) => differ(out, &name(key), x, y),
            (None, Some(y)) => tell(out, &name(key), y),
            _ => out.say(name(key), Change::Gone),
        }
    }
}

/// One memory, which a word before its regions and bytes tells from the other.
fn memory(out: &mut Lines, whose: &str, a: &[Region], b: &[Region]) {
    regions(out, whose, a, b);
    bytes(out, whose, a, b);
}

fn regions(out: &mut Lines, whose: &str, a: &[Region], b: &[Region]) {
    let name = |address: u16| format!("{whose}region {}", memory_address(address.into()));
    let (a, b) = (by(a, |r| r.address), by(b, |r| r.address));
    let differ = |out: &mut Lines, name: &str, x: &Region, y: &Region| {
        out.compare(&format!("{name} length"), x.body.len(), y.body.len());
        out.levels(name, x.levels, y.levels);
    };
    both(out, &a, &b, name, differ, |out, name, new| {
        let told = format!("length {}, {}", new.body.len(), levels(new.levels));
        out.say(name, Change::Entry(told));
    });
}

/// The levels of what is new.
fn levels(levels: Levels) -> String {
    format!("read level {}, write level {}", levels.read, levels.write)
}

/// The bytes of memory with their addresses, which rise from region to region.
fn bytes_of(regions: &[Region]) -> impl Iterator<Item = (usize, u8)> + '_ {
    regions.iter().flat_map(|r| {
        r.body.iter().enumerate().map(|(i, &byte)| (usize::from(r.address) + i, byte))
    })
}

/// Neighbours on one line, up to so many.
const TO_A_LINE: usize = 8;

/// Bytes at addresses that both sheets have; and those that are new and not 0.
fn bytes(out: &mut Lines, whose: &str, a: &[Region], b: &[Region]) {
    if a == b {
        return;
    }
    let (mut changed, mut new) = (Vec::new(), Vec::new());
    let mut before = bytes_of(a).peekable();
    for (at, byte) in bytes_of(b) {
        while before.next_if(|&(address, _)| address < at).is_some() {}
        match before.next_if(|&(address, _)| address == at) {
            Some((_, old)) if old != byte => changed.push((at, old, byte)),
            None if byte != 0 => new.push((at, byte)),
            _ => {}
        }
    }
    for run in changed.chunk_by(|x, y| x.0 + 1 == y.0) {
        for line in run.chunks(TO_A_LINE) {
            let (old, new): (Vec<u8>, Vec<u8>) =
                line.iter().map(|&(_, old, new)| (old, new)).unzip();
            let at = memory_address(line[0].0);
            let change = Change::Values(byte_line(&old), byte_line(&new));
            out.say(format!("{whose}memory {at}"), change);
        }
    }
    for run in new.chunk_by(|x, y| x.0 + 1 == y.0) {
        for line in run.chunks(TO_A_LINE) {
            let bytes: Vec<u8> = line.iter().map(|&(_, byte)| byte).collect();
            let at = memory_address(line[0].0);
            out.say(format!("{whose}memory {at}"), Change::Value(byte_line(&bytes)));
        }
    }
}

fn can(p: &Property) -> &'static str {
    if p.writable {
        "writable"
    } else {
        "not writable"
    }
}

fn property(out: &mut Lines, name: &str, a: &Property, b: &Property) {
    out.compare(&format!("{name} type"), a.class, b.class);
    out.compare(name, can(a), can(b));
    out.compare(&format!("{name} size"), a.size, b.size);
    out.compare(&format!("{name} maximum"), a.maximum, b.maximum);
    out.compare(&format!("{name} count"), a.count, b.count);
    out.levels(name, a.levels, b.levels);
    if a.size != b.size {
        return; // no element of one can be held against one of the other
    }
    let size = a.size as usize;
    let (mut old, mut new) = (a.body.chunks(size), b.body.chunks(size));
    let zero = vec![0; size];
    for i in 1..=a.maximum.max(b.maximum) {
        let (x, y) = (old.next().unwrap_or(&zero), new.next().unwrap_or(&zero));
        if x != y {
            out.compare(&format!("{name} element {i}"), element(x), element(y));
        }
    }
}

/// A property that is new, and its elements that are not 0.
fn new_property(out: &mut Lines, name: &str, p: &Property) {
    let told = format!(
        "type {}, {}, size {}, maximum {}, count {}, {}",
        p.class,
        can(p),
        p.size,
        p.maximum,
        p.count,
        levels(p.levels)
    );
    out.say(name, Change::Entry(told));
    for (i, x) in
        p.body.chunks(p.size as usize).enumerate().filter(|(_, x)| x.iter().any(|&b| b != 0))
    {
        out.say(format!("{name} element {}", i + 1), Change::Value(element(x)));
    }
}

fn flags(g: &Group) -> String {
    match flag_words(g.flags) {
        words if words.is_empty() => "none".to_string(),
        words => words.trim_start().to_string(),
    }
}

fn new_group(out: &mut Lines, name: &str, g: &Group) {
    let value = byte_line(&g.body);
    let told = format!("length code {}, flags {}, value {value}", g.code, flags(g));
    out.say(name, Change::Entry(told));
}

fn group(out: &mut Lines, name: &str, a: &Group, b: &Group) {
    out.compare(&format!("{name} length code"), a.code, b.code);
    out.compare(&format!("{name} flags"), flags(a), flags(b));
    out.compare(name, byte_line(&a.body), byte_line(&b.body));
}
