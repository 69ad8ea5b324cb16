//! The bytes of a sheet's text. A fault names the line and the field, and there are then no bytes.

use std::fmt;

use crate::check::{check, Broken};
use crate::layout::{name, Group, Kind, Levels, Property, Region, Sheet, LATER};
use crate::show::{plain, END, GROUP_FLAGS, HIDDEN};

/// What is wrong with a text, and in which line, from 1.
#[derive(Clone, Debug, PartialEq, Eq)]
pub struct Fault {
    pub line: usize,
    pub what: String,
}

impl fmt::Display for Fault {
    fn fmt(&self, f: &mut fmt::Formatter<'_>) -> fmt::Result {
        write!(f, "line {}: {}", self.line, self.what)
    }
}

type Read<T> = Result<T, String>;

/// The bytes of a text; they are an accepted sheet.
pub fn bytes(text: &str) -> Result<Vec<u8>, Fault> {
    let mut draft = Draft::default();
    let mut last = 1;
    for (i, line) in text.lines().enumerate() {
        last = i + 1;
        let line = line.split('#').next().unwrap_or("");
        let words: Vec<&str> = line.split_whitespace().collect();
        draft.line(last, &words).map_err(|what| Fault { line: last, what })?;
    }
    draft.whole(last)
}

// ---- words ----

/// A word as a message has it: its first 24 characters, those that can be printed.
pub fn short(word: &str) -> String {
    let more = if word.chars().nth(24).is_some() { ".." } else { "" };
    plain(word).chars().take(24).chain(more.chars()).collect()
}

/// The same in quotation marks.
fn shown(word: &str) -> String {
    format!("\"{}\"", short(word))
}

/// A number from `least` to `most`: decimal, or hex digits and h.
fn number(field: &str, word: &str, least: u128, most: u128) -> Read<u128> {
    let (digits, radix) = match word.strip_suffix('h') {
        Some(digits) => (digits, 16),
        None => (word, 10),
    };
    if digits.is_empty() || !digits.chars().all(|c| c.is_digit(radix)) {
        return Err(format!("{field} is no number: {}", shown(word)));
    }
    match u128::from_str_radix(digits, radix) {
        Ok(value) if (least..=most).contains(&value) => Ok(value),
        _ => Err(format!("{field} is {}, not {least} to {most}", shown(word))),
    }
}

fn byte(field: &str, word: &str, most: u8) -> Read<u8> {
    number(field, word, 0, most.into()).map(|value| value as u8)
}

/// So many bytes in hex.
fn hex_bytes<const N: usize>(field: &str, word: &str) -> Read<[u8; N]> {
    let mut bytes = [0; N];
    let mut digits = 0;
    for c in word.chars() {
        let Some(digit) = c.to_digit(16).filter(|_| digits < 2 * N) else {
            digits = 0;
            break;
        };
        bytes[digits / 2] = bytes[digits / 2] << 4 | digit as u8;
        digits += 1;
    }
    if digits != 2 * N {
        return Err(format!("{field} is not {} hex digits: {}", 2 * N, shown(word)));
    }
    Ok(bytes)
}

fn on_or_off(field: &str, word: &str) -> Read<bool> {
    match word {
        "on" => Ok(true),
        "off" => Ok(false),
        _ => Err(format!("{field} is on or off: {}", shown(word))),
    }
}

/// Parts of so many bits, the first the highest, such as those of an address.
fn parts(field: &str, word: &str, mark: char, bits: &[u32]) -> Read<u16> {
    let words: Vec<&str> = word.split(mark).collect();
    if words.len() != bits.len() {
        return Err(format!(
            "{field} has not {} parts with {mark} between them: {}",
            bits.len(),
            shown(word)
        ));
    }
    let mut value = 0;
    for (part, &bits) in words.iter().zip(bits) {
        value = value << bits | number(field, part, 0, (1 << bits) - 1)? as u16;
    }
    Ok(value)
}

/// The one word of a line after its name.
fn only<'a>(field: &str, words: &[&'a str]) -> Read<&'a str> {
    match words {
        [word] => Ok(word),
        [] => Err(format!("{field} has no value")),
        [_, more, ..] => Err(format!("{field} has one value, and {} is more", shown(more))),
    }
}

/// Keeps a value that is given once.
fn once<T>(field: &str, place: &mut Option<T>, value: T) -> Read<()> {
    if place.is_some() {
        return Err(format!("{field} is given twice"));
    }
    *place = Some(value);
    Ok(())
}

// ---- the fields of an entry ----

/// The words after an entry's name, each field to be taken from them once.
struct Fields<'a> {
    entry: String,
    words: Vec<&'a str>,
}

impl<'a> Fields<'a> {
    fn new(kind: &str, words: &[&'a str]) -> Read<(Fields<'a>, &'a str)> {
        let (key, rest) = words.split_first().ok_or(format!("{kind} has no name"))?;
        Ok((Fields { entry: format!("{kind} {}", short(key)), words: rest.to_vec() }, key))
    }

    fn fault(&self, what: impl fmt::Display) -> String {
        format!("{}, {what}", self.entry)
    }

    /// True if the word is there; it is then taken.
    fn flag(&mut self, word: &str) -> bool {
        let at = self.words.iter().position(|&w| w == word);
        at.map(|at| self.words.remove(at)).is_some()
    }

    /// The number after a field's name.
    fn number(&mut self, field: &str, least: u128, most: u128) -> Read<u128> {
        let at = self
            .words
            .iter()
            .position(|&w| w == field)
            .ok_or(self.fault(format!("{field} is missing")))?;
        if at + 1 == self.words.len() {
            return Err(self.fault(format!("{field} has no value")));
        }
        self.words.remove(at);
        let word = self.words.remove(at);
        number(field, word, least, most).map_err(|what| self.fault(what))
    }

    /// A level, such as r3.
    fn level(&mut self, mark: char, field: &str) -> Read<u8> {
        let is_level = |w: &&str| w.len() == 2 && w.starts_with(mark);
        let at = self
            .words
            .iter()
            .position(is_level)
            .ok_or(self.fault(format!("{field} is missing: {mark}0 to {mark}3")))?;
        let word = self.words.remove(at);
        byte(field, &word[1..], 3).map_err(|what| self.fault(what))
    }

    fn levels(&mut self) -> Read<Levels> {
        Ok(Levels { read: self.level('r', "read level")?, write: self.level('w', "write level")? })
    }

    /// Nothing is left over.
    fn end(self) -> Read<()> {
        match self.words.first() {
            None => Ok(()),
            Some(word) => {
                Err(self.fault(format!("{} is no field of it, or one too many", shown(word))))
            }
        }
    }
}

// ---- a sheet on its way ----

#[derive(Default)]
struct Draft {
    /// The edition, 2 if it is not given.
    edition: Option<u8>,
    /// The rules, 0 if they are not given.
    rules: Option<u8>,
    serial: Option<[u8; 6]>,
    mask: Option<[u8; 2]>,
    programming: Option<bool>,
    verify: Option<bool>,
    address: Option<u16>,
    keys: [Option<[u8; 4]>; 3],
    regions: Vec<Region>,
    properties: Vec<Property>,
    groups: Vec<Group>,
    users: Vec<Region>,
    /// The line of each entry, by kind.
    lines: [Vec<usize>; 4],
    /// The kind of the entry whose body the next lines have.
    last: Option<Kind>,
    /// The last line was read: what comes before it is the whole text.
    ended: bool,
}

impl Draft {
    fn line(&mut self, line: usize, words: &[&str]) -> Read<()> {
        let Some((first, rest)) = words.split_first() else { return Ok(()) };
        if self.ended {
            return Err(format!("{} stands behind the {END}", shown(first)));
        }
        match *first {
            "edition" => {
                let edition = number("edition", only("edition", rest)?, 1, 2)?;
                if edition == 1 {
                    return Err("edition 1 is old: write 2".to_string());
                }
                once("edition", &mut self.edition, edition as u8)
            }
            "rules" => {
                let rules = byte("rules", only("rules", rest)?, LATER)?;
                once("rules", &mut self.rules, rules)
            }
            "serial" => {
                once("serial", &mut self.serial, hex_bytes("serial", only("serial", rest)?)?)
            }
            "mask" => once("mask", &mut self.mask, hex_bytes("mask", only("mask", rest)?)?),
            "programming" => {
                let on = on_or_off("programming", only("programming", rest)?)?;
                once("programming", &mut self.programming, on)
            }
            "verify" => {
                once("verify", &mut self.verify, on_or_off("verify", only("verify", rest)?)?)
            }
            "address" => {
                let address = parts("address", only("address", rest)?, '.', &[4, 4, 8])?;
                once("address", &mut self.address, address)
            }
            "key" => self.key(rest),
            "region" => {
                self.regions.push(region("region", rest)?);
                self.begun(Kind::Region, line)
            }
            "property" => self.property(rest).and_then(|()| self.begun(Kind::Property, line)),
            "group" => self.group(rest).and_then(|()| self.begun(Kind::Group, line)),
            "user" => {
                self.users.push(region("user", rest)?);
                self.begun(Kind::User, line)
            }
            END => match rest {
                [] => {
                    self.ended = true;
                    Ok(())
                }
                [more, ..] => Err(format!("{END} stands alone, and {} is more", shown(more))),
            },
            _ => self.body(words),
        }
    }

    /// An entry has begun. One too many ends the reading, so that no text takes more room than a sheet's.
    fn begun(&mut self, kind: Kind, line: usize) -> Read<()> {
        self.lines[kind as usize].push(line);
        self.last = Some(kind);
        if self.lines[kind as usize].len() > kind.most() {
            return Err(format!("S3: more than {} {}", kind.most(), kind.plural()));
        }
        Ok(())
    }

    fn key(&mut self, words: &[&str]) -> Read<()> {
        let [level, key] = words else {
            return Err("key has a level and eight hex digits".to_string());
        };
        let level = byte("level of the key", level, 2)?;
        let field = format!("key {level}");
        if *key == HIDDEN {
            return Err(format!("{field} is hidden: show the sheet with --keys"));
        }
        once(&field, &mut self.keys[level as usize], hex_bytes(&field, key)?)
    }

    fn property(&mut self, words: &[&str]) -> Read<()> {
        let (mut fields, key) = Fields::new("property", words)?;
        let key = parts("object/id", key, '/', &[8, 8]).map_err(|what| fields.fault(what))?;
        let [object, id] = key.to_be_bytes();
        let property = Property {
            object,
            id,
            class: fields.number("type", 0, 63)? as u8,
            writable: fields.flag("writable"),
            size: fields.number("size", 1, 10)? as u8,
            maximum: fields.number("maximum", 1, 4095)? as u16,
            count: fields.number("count", 0, 4095)? as u16,
            levels: fields.levels()?,
            body: Vec::new(),
        };
        fields.end()?;
        self.properties.push(property);
        Ok(())
    }

    fn group(&mut self, words: &[&str]) -> Read<()> {
        let (mut fields, key) = Fields::new("group", words)?;
        let address =
            parts("group address", key, '/', &[5, 3, 8]).map_err(|what| fields.fault(what))?;
        let code = fields.number("code", 0, 14)? as u8;
        let flags =
            GROUP_FLAGS.iter().map(|(bit, word)| if fields.flag(word) { *bit } else { 0 }).sum();
        fields.end()?;
        self.groups.push(Group { address, code, flags, body: Vec::new() });
        Ok(())
    }

    /// A line of bytes or elements, which belongs to the entry before it.
    fn body(&mut self, words: &[&str]) -> Read<()> {
        let none = || format!("{} is no name of a field, and no entry has begun", shown(words[0]));
        match self.last.ok_or_else(none)? {
            Kind::Region => {
                self.regions.last_mut().map_or(Ok(()), |r| byte_run("region", &mut r.body, words))
            }
            Kind::Group => self
                .groups
                .last_mut()
                .map_or(Ok(()), |g| byte_run("group object", &mut g.body, words)),
            Kind::Property => self.properties.last_mut().map_or(Ok(()), |p| elements(p, words)),
            Kind::User => self
                .users
                .last_mut()
                .map_or(Ok(()), |r| byte_run("user region", &mut r.body, words)),
        }
    }

    /// The bytes, once all lines are read.
    fn whole(mut self, last: usize) -> Result<Vec<u8>, Fault> {
        if !self.ended {
            let what = format!("{END} is missing as the last line: the text may have been cut off");
            return Err(Fault { line: last, what });
        }
        self.fill()?;
        let lines = self.lines.clone();
        let sheet = self
            .sheet()
            .map_err(|field| Fault { line: last, what: format!("{field} is missing") })?;
        let bytes = sheet.bytes();
        let at = |b: Broken| Fault {
            line: b.entry.map_or(last, |(kind, i)| lines[kind as usize][i]),
            what: b.to_string(),
        };
        check(&bytes).map_err(at)?;
        Ok(bytes)
    }

    /// Elements that are not given are 0; bytes of a group object must be all there.
    fn fill(&mut self) -> Result<(), Fault> {
        for p in &mut self.properties {
            p.body.resize(p.size as usize * p.maximum as usize, 0);
        }
        for (g, &line) in self.groups.iter().zip(&self.lines[Kind::Group as usize]) {
            let due = g.code.max(1) as usize;
            if g.body.len() != due {
                let e = g.address.to_be_bytes();
                let entry = name(Kind::Group, &e);
                let what = format!(
                    "{entry}, its body has {} bytes, and code {} wants {due}",
                    g.body.len(),
                    g.code
                );
                return Err(Fault { line, what });
            }
        }
        Ok(())
    }

    /// The values, or the first field of the head that is missing.
    fn sheet(self) -> Result<Sheet, &'static str> {
        Ok(Sheet {
            edition: self.edition.unwrap_or(2),
            rules: self.rules.unwrap_or(0),
            serial: self.serial.ok_or("serial")?,
            mask: self.mask.ok_or("mask")?,
            programming: self.programming.ok_or("programming")?,
            verify: self.verify.ok_or("verify")?,
            address: self.address.ok_or("address")?,
            keys: [
                self.keys[0].ok_or("key 0")?,
                self.keys[1].ok_or("key 1")?,
                self.keys[2].ok_or("key 2")?,
            ],
            regions: self.regions,
            properties: self.properties,
            groups: self.groups,
            users: self.users,
        })
    }
}

/// A region of the memory that the word stands for, without its bytes.
fn region(word: &str, words: &[&str]) -> Read<Region> {
    let (mut fields, key) = Fields::new(word, words)?;
    let address = number("first address", key, 0, 65_535).map_err(|what| fields.fault(what))?;
    let levels = fields.levels()?;
    fields.end()?;
    Ok(Region { address: address as u16, levels, body: Vec::new() })
}

/// Bytes in hex, two digits each.
fn byte_run(entry: &str, body: &mut Vec<u8>, words: &[&str]) -> Read<()> {
    for word in words {
        let at = body.len();
        let [byte] = hex_bytes("", word)
            .or_else(|_| hex_bytes(&format!("byte {at} of the {entry}"), word))?;
        if at == 65_535 {
            return Err(format!("byte {at} of the {entry} is one too many"));
        }
        body.push(byte);
    }
    Ok(())
}

/// Elements of a property, as numbers.
fn elements(p: &mut Property, words: &[&str]) -> Read<()> {
    let size = p.size as usize;
    let most = (1 << (8 * size)) - 1;
    for word in words {
        let at = p.body.len() / size + 1;
        let field = || format!("property {}/{}, element {at}", p.object, p.id);
        if at > p.maximum as usize {
            return Err(format!("{} is one too many: maximum {}", field(), p.maximum));
        }
        let value = number("", word, 0, most).or_else(|_| number(&field(), word, 0, most))?;
        p.body.extend(&value.to_be_bytes()[16 - size..]);
    }
    Ok(())
}
