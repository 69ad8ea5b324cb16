//! What each byte of an accepted sheet means, and by that what has changed between two sheets of one layout.

use crate::layout::{
    body_at, body_length, entries, group_address, hex, individual_address, memory_address, name,
    word, Kind, HEAD, KINDS, WRITABLE,
};
use crate::show::{byte_line, element, flag_words, switch};

/// What a run of bytes holds.
#[derive(Clone, Copy, Debug, PartialEq, Eq)]
enum Form {
    /// What says where and how long everything is: the same in all sheets of one layout.
    Fixed,
    Number,
    Digits,
    Bytes,
    /// A byte of device memory or user memory, with its address: neighbours are told together.
    Memory(Kind, usize),
    Flags,
    Address,
    Key,
    Type,
    Levels,
    GroupFlags,
}

/// What a request names to write a place, if it can: such places are the locations, and what it takes to write one is a
/// level.
#[derive(Clone, Copy, Debug, PartialEq, Eq)]
pub enum Target {
    Nothing,
    Memory(usize),
    User(usize),
    /// Object, id and element.
    Element(u8, u8, usize),
    Count(u8, u8),
    Key(usize),
}

/// A run of bytes with one meaning.
#[derive(Clone, Debug, PartialEq, Eq)]
pub struct Place {
    pub at: usize,
    pub length: usize,
    pub name: String,
    form: Form,
    pub target: Target,
}

/// What all bytes of an accepted sheet mean, in their order.
pub fn places(s: &[u8]) -> Vec<Place> {
    let mut all = Places(Vec::new());
    all.head();
    let mut at = HEAD;
    for kind in KINDS {
        for e in entries(s, kind) {
            all.entry(kind, &name(kind, e), e, at);
            at += kind.length();
        }
    }
    for kind in KINDS {
        for e in entries(s, kind) {
            all.body(kind, e);
        }
    }
    all.0
}

struct Places(Vec<Place>);

impl Places {
    fn next(&self) -> usize {
        self.0.last().map_or(0, |p| p.at + p.length)
    }

    fn put(&mut self, length: usize, name: impl ToString, form: Form) {
        self.put_location(length, name, form, Target::Nothing);
    }

    /// The same of what a request can name.
    fn put_location(&mut self, length: usize, name: impl ToString, form: Form, target: Target) {
        self.0.push(Place { at: self.next(), length, name: name.to_string(), form, target });
    }

    fn head(&mut self) {
        self.put(1, "edition", Form::Number);
        self.put(5, "numbers and length", Form::Fixed);
        self.put(6, "serial number", Form::Digits);
        self.put(2, "mask version", Form::Digits);
        self.put(1, "flags", Form::Flags);
        self.put(1, "number of user regions", Form::Fixed);
        self.put(2, "individual address", Form::Address);
        for level in 0..3 {
            self.put_location(4, format!("key of level {level}"), Form::Key, Target::Key(level));
        }
        self.put(1, "rules", Form::Number);
        self.put(1, "zero", Form::Fixed);
    }

    fn entry(&mut self, kind: Kind, name: &str, e: &[u8], at: usize) {
        debug_assert_eq!(at, self.next());
        match kind {
            Kind::Region | Kind::User => {
                self.put(6, name, Form::Fixed);
                self.put(1, name, Form::Levels);
                self.put(1, name, Form::Fixed);
            }
            Kind::Property => {
                self.put(2, name, Form::Fixed);
                self.put(1, name, Form::Type);
                self.put(3, name, Form::Fixed);
                let count = Target::Count(e[0], e[1]);
                self.put_location(2, format!("{name} count"), Form::Number, count);
                self.put(2, name, Form::Fixed);
                self.put(1, name, Form::Levels);
                self.put(1, name, Form::Fixed);
            }
            Kind::Group => {
                self.put(3, name, Form::Fixed);
                self.put(1, format!("{name} flags"), Form::GroupFlags);
                self.put(4, name, Form::Fixed);
            }
        }
    }

    fn body(&mut self, kind: Kind, e: &[u8]) {
        debug_assert_eq!(body_at(kind, e), self.next());
        match kind {
            Kind::Region | Kind::User => {
                let whose = if kind == Kind::User { "user " } else { "" };
                for i in 0..body_length(kind, e) {
                    let address = word(e, 0) as usize + i;
                    let name = format!("{whose}memory {}", memory_address(address));
                    let target = match kind {
                        Kind::User => Target::User(address),
                        _ => Target::Memory(address),
                    };
                    self.put_location(1, name, Form::Memory(kind, address), target);
                }
            }
            Kind::Property => {
                for i in 1..=word(e, 4) {
                    let element = format!("property {}/{} element {i}", e[0], e[1]);
                    let target = Target::Element(e[0], e[1], i.into());
                    self.put_location(e[3] as usize, element, Form::Number, target);
                }
            }
            Kind::Group => {
                let object = format!("group object {}", group_address(word(e, 0)));
                self.put(body_length(kind, e), object, Form::Bytes);
            }
        }
    }
}

impl Place {
    fn of<'a>(&self, s: &'a [u8]) -> &'a [u8] {
        &s[self.at..self.at + self.length]
    }

    /// What the bytes of this place say, its name before it; of a key nothing.
    pub fn named(&self, bytes: &[u8]) -> String {
        let name = match self.form {
            Form::Flags => "programming mode",
            _ => &self.name,
        };
        match self.value(bytes) {
            Some(value) => format!("{name}: {value}"),
            None => name.to_string(),
        }
    }

    /// What the bytes of this place say, of a place that an event can change; of a key nothing.
    pub fn value(&self, bytes: &[u8]) -> Option<String> {
        match self.form {
            Form::Number => Some(element(bytes)),
            Form::Bytes | Form::Memory(..) => Some(byte_line(bytes)),
            Form::Flags => Some(switch(bytes[0] & 1 != 0).to_string()),
            Form::Address => Some(individual_address(word(bytes, 0))),
            Form::Key => None,
            _ => Some(hex(bytes)),
        }
    }

    /// What tells the new bytes of this place from the old ones: of a key only that it changed.
    pub fn told(&self, a: &[u8], b: &[u8]) -> Vec<String> {
        let name = &self.name;
        let mut lines = Vec::new();
        let mut compare = |what: &str, a: String, b: String| {
            if a != b {
                lines.push(format!("{what}: {a} → {b}"));
            }
        };
        let bit = |byte: u8, bit: u8| switch(byte & bit != 0).to_string();
        match self.form {
            Form::Fixed => compare(name, hex(a), hex(b)),
            Form::Number => compare(name, element(a), element(b)),
            Form::Digits => compare(name, hex(a), hex(b)),
            Form::Bytes | Form::Memory(..) => {
                compare(name, byte_line(a), byte_line(b));
            }
            Form::Flags => {
                compare("programming mode", bit(a[0], 1), bit(b[0], 1));
                compare("verify", bit(a[0], 2), bit(b[0], 2));
            }
            Form::Address => {
                compare(name, individual_address(word(a, 0)), individual_address(word(b, 0)));
            }
            Form::Key => lines.push(format!("{name} changed")),
            Form::Type => {
                let can = |t: u8| if t & WRITABLE != 0 { "writable" } else { "not writable" };
                compare(
                    &format!("{name} type"),
                    (a[0] & 0x3F).to_string(),
                    (b[0] & 0x3F).to_string(),
                );
                compare(name, can(a[0]).to_string(), can(b[0]).to_string());
            }
            Form::Levels => {
                compare(
                    &format!("{name} read level"),
                    (a[0] >> 4).to_string(),
                    (b[0] >> 4).to_string(),
                );
                compare(
                    &format!("{name} write level"),
                    (a[0] & 15).to_string(),
                    (b[0] & 15).to_string(),
                );
            }
            Form::GroupFlags => {
                let words = |flags| match flag_words(flags).trim_start() {
                    "" => "none".to_string(),
                    words => words.to_string(),
                };
                compare(name, words(a[0]), words(b[0]));
            }
        }
        lines
    }
}

/// A place at which two sheets differ.
#[derive(Clone, Debug, PartialEq, Eq)]
pub struct Change<K> {
    pub at: usize,
    pub length: usize,
    /// What differs, in the words of `diff`.
    pub lines: Vec<String>,
    /// Of a run of memory that of its first byte.
    pub target: Target,
    /// The bytes that differ, each by its offset, with what the caller knows of it.
    pub bytes: Vec<(usize, K)>,
    /// The place itself, or the run of memory.
    pub place: Place,
}

/// Neighbours of memory on one line, up to so many.
const TO_A_LINE: usize = 8;

/// Whether two accepted sheets have all at the same places.
pub fn same_layout(a: &[u8], b: &[u8]) -> bool {
    a.len() == b.len() && places(a).iter().all(|p| p.form != Form::Fixed || p.of(a) == p.of(b))
}

/// What differs between two accepted sheets of one layout, in the order of the bytes. Neighbours of memory are one change
/// if the caller knows the same of each.
pub fn changes<K: Copy + PartialEq>(
    a: &[u8],
    b: &[u8],
    known: impl Fn(usize) -> K,
) -> Vec<Change<K>> {
    touched(a, b, known, |at| a[at] != b[at])
}

/// The same of all places with a byte that was touched, of which some say what they did at first: these have no lines.
pub fn touched<K: Copy + PartialEq>(
    a: &[u8],
    b: &[u8],
    known: impl Fn(usize) -> K,
    was: impl Fn(usize) -> bool,
) -> Vec<Change<K>> {
    let mut out: Vec<Change<K>> = Vec::new();
    let places = places(a);
    let mut i = 0;
    while i < places.len() {
        let first = &places[i];
        i += 1;
        if !(first.at..first.at + first.length).any(&was) {
            continue;
        }
        let differs = first.of(a) != first.of(b);
        let mut run = first.clone();
        if let Form::Memory(kind, address) = first.form {
            let joins = |p: &Place, length: usize| {
                p.form == Form::Memory(kind, address + length)
                    && was(p.at)
                    && (p.of(a) != p.of(b)) == differs
                    && known(p.at) == known(first.at)
            };
            while run.length < TO_A_LINE && places.get(i).is_some_and(|p| joins(p, run.length)) {
                run.length += 1;
                i += 1;
            }
        }
        let bytes = (run.at..run.at + run.length).filter(|&at| was(at));
        out.push(Change {
            at: run.at,
            length: run.length,
            lines: if differs { run.told(run.of(a), run.of(b)) } else { Vec::new() },
            target: run.target,
            bytes: bytes.map(|at| (at, known(at))).collect(),
            place: run,
        });
    }
    out
}
