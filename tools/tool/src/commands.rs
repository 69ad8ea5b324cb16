//! The commands of one unit.

use sheet::asked::Asked;
use sheet::layout::{individual_address, memory_address};
use sheet::make::short;
use sheet::program::{line, Said};
use sheet::show::byte_line;
use sheet::survey::property_named;

use crate::bus::{Bus, HERE};
use crate::key::{self, Key};
use crate::record::Record;
use crate::report::{reason, Refused};
use crate::trouble::Trouble;
use crate::unit::{Description, Patience, Stored, Unit, MEMORY, PROPERTY, USER_MEMORY};
use crate::values;
use crate::{address, group, readout, scan, survey};

/// The commands that offer no key.
const KEYLESS: [&str; 5] = ["address", "descriptor", "group read", "group write", "scan"];

/// Does what the words ask for.
pub fn obey(asked: &Asked) -> Said {
    let keyed = asked.option("--key-file").is_some() || asked.flag("--ask-key");
    if keyed && KEYLESS.contains(&asked.command) {
        return Err(format!("{} offers no key, and one is named", asked.command));
    }
    match (asked.command, &asked.words[..]) {
        ("read", [unit, which]) => read(asked, unit, which),
        ("write", [unit, which, values @ ..]) => write(asked, unit, which, values),
        ("describe", [unit, what]) => describe(asked, unit, what),
        ("memory read", [unit, at, n]) => memory_read(asked, unit, at, n, false),
        ("memory write", [unit, at, bytes @ ..]) => memory_write(asked, unit, at, bytes, false),
        ("user-memory read", [unit, at, n]) => memory_read(asked, unit, at, n, true),
        ("user-memory write", [unit, at, bytes @ ..]) => memory_write(asked, unit, at, bytes, true),
        ("authorize", [unit]) => authorize(asked, unit),
        ("key", [unit, level]) => key_write(asked, unit, level),
        ("restart", [unit]) => restart(asked, unit),
        ("address", []) => address::address(asked),
        ("descriptor", [unit]) => descriptor(asked, unit),
        ("group read", [to, class]) => group::read(asked, to, class),
        ("group write", [to, class, value]) => group::write(asked, to, class, value),
        ("scan", [line]) => scan::scan(asked, line),
        ("readout", [unit]) => readout::command(asked, unit),
        ("survey", addresses) => survey::survey(asked, addresses),
        (command, _) => Err(format!("{command} has no such words")),
    }
}

/// The tunnel that the words name.
pub fn bus(asked: &Asked) -> Result<Bus, String> {
    let keys = asked.flag("--record-keys");
    let record = match asked.option("--record") {
        None if keys => return Err("--record-keys needs --record FILE".to_string()),
        None => None,
        Some(name) => Some(Record::new(name, keys)?),
    };
    let via = asked.option("--via").unwrap_or(HERE);
    Bus::open(via, asked.flag("--nat"), record).map_err(|(trouble, _)| trouble.to_string())
}

/// The key that is to be offered, if there is one: of a file, or asked for.
pub fn key(asked: &Asked, needed: bool) -> Result<Option<Key>, String> {
    match (asked.option("--key-file"), asked.flag("--ask-key") || needed) {
        (Some(_), true) if asked.flag("--ask-key") => {
            Err("--key-file and --ask-key are two ways to one key".to_string())
        }
        (Some(name), _) => key::of_file(name).map(Some),
        (None, true) => key::asked("key").map(Some),
        (None, false) => Ok(None),
    }
}

/// What a command does on a connection to one unit, at the level of the key; and what could not be recorded.
pub fn with_unit(
    asked: &Asked,
    word: &str,
    key: Option<Key>,
    act: impl FnOnce(&mut Unit) -> Result<(String, u8), Trouble>,
) -> Said {
    let address = values::address(word)?;
    let mut bus = bus(asked)?;
    let mut unit = Unit::connect(&mut bus, address, Patience::default());
    let done = match key {
        Some(key) => unit.authorize(key).and_then(|_| act(&mut unit)),
        None => act(&mut unit),
    };
    unit.close();
    done_on(bus, done.map_err(|trouble| of_unit(address, &trouble)))
}

/// Trouble with its unit before it, if it is the unit's.
pub fn of_unit(address: u16, trouble: &Trouble) -> String {
    match trouble {
        Trouble::Interrupted | Trouble::Interface(_) | Trouble::Word(_) => trouble.to_string(),
        _ => format!("{}: {trouble}", individual_address(address)),
    }
}

/// The end of a command: what it says, unless the recording has a gap.
pub fn done_on(bus: Bus, done: Result<(String, u8), String>) -> Said {
    let unrecorded = bus.unrecorded();
    drop(bus);
    let (text, status) = done?;
    match unrecorded {
        Some(why) => Err(format!("{}; it was done all the same: {}", why, text.trim_end())),
        None => Ok((text.into_bytes(), status)),
    }
}

pub fn which(word: &str) -> Result<(u8, u8), String> {
    let named = property_named(word).filter(|which| which.1 != 0);
    named.ok_or(format!("no property, as 1/51: \"{}\"", short(word)))
}

fn number(asked: &Asked, option: &str, most: u64) -> Result<Option<u64>, String> {
    asked.option(option).map(|word| values::number(option, word, most)).transpose()
}

fn refused(text: String) -> (String, u8) {
    (text + "\n", 1)
}

// ---- properties ----

/// The count of valid elements; none if reading it is refused.
pub fn count(unit: &mut Unit, which: (u8, u8)) -> Result<Option<u16>, Trouble> {
    match unit.property_read(which, 0, 1)? {
        None => Ok(None),
        Some(bytes) if bytes.len() == 2 => Ok(Some(u16::from_be_bytes([bytes[0], bytes[1]]))),
        Some(bytes) => Err(Trouble::Strange(format!("a count of {} bytes, not 2", bytes.len()))),
    }
}

/// So many elements from one on; none if that is refused.
pub fn elements(
    unit: &mut Unit,
    which: (u8, u8),
    s: u16,
    n: u16,
) -> Result<Option<Vec<Vec<u8>>>, Trouble> {
    let Some(first) = unit.property_read(which, s, 1)? else { return Ok(None) };
    let size = first.len();
    let mut all = vec![first];
    while all.len() < usize::from(n) {
        let left = usize::from(n) - all.len();
        let many = left.min(PROPERTY / size).min(15);
        let Some(bytes) = unit.property_read(which, s + all.len() as u16, many as u8)? else {
            return Ok(None);
        };
        if bytes.len() != many * size {
            let words = format!("elements of {} bytes behind one of {size}", bytes.len() / many);
            return Err(Trouble::Strange(words));
        }
        all.extend(bytes.chunks(size).map(<[u8]>::to_vec));
    }
    Ok(Some(all))
}

fn read(asked: &Asked, word: &str, property: &str) -> Said {
    let which = which(property)?;
    let hex = asked.flag("--hex");
    let from = number(asked, "--from", 4095)?;
    let many = number(asked, "--count", 4095)?.filter(|n| *n > 0);
    let key = key(asked, false)?;
    with_unit(asked, word, key, |unit| {
        let (s, n) = match (from, many) {
            (Some(s), n) => (s as u16, n.unwrap_or(1) as u16),
            (None, Some(n)) => (1, n as u16),
            (None, None) => match count(unit, which)? {
                Some(0) => return Ok((String::new(), 0)),
                Some(n) => (1, n),
                None => {
                    let refusal = Refused { which, s: 0, n: 1, write: false };
                    return reason(unit, refusal).map(refused);
                }
            },
        };
        match elements(unit, which, s, n)? {
            Some(all) => {
                let lines = all.iter().map(|bytes| values::element(bytes, hex) + "\n");
                Ok((lines.collect(), 0))
            }
            None => reason(unit, Refused { which, s, n, write: false }).map(refused),
        }
    })
}

/// The bytes that an element of a type has, where all of a type have as many.
pub fn size_of(class: u8) -> Option<usize> {
    Some(match class {
        1 | 2 => 1,
        3..=5 => 2,
        6 | 7 | 13 => 3,
        8..=10 => 4,
        11 | 15 => 8,
        12 => 10,
        14 => 5,
        17..=26 => usize::from(class - 16),
        _ => return None,
    })
}

/// The size of a property's elements: of one that can be read, else by its type.
fn size(unit: &mut Unit, which: (u8, u8), old: Option<&Vec<u8>>) -> Result<Option<usize>, Trouble> {
    if let Some(bytes) = old {
        return Ok(Some(bytes.len()));
    }
    if let Some(first) = unit.property_read(which, 1, 1)? {
        return Ok(Some(first.len()));
    }
    let described = unit.description(which.0, which.1, 0)?;
    Ok(described.and_then(|d| size_of(d.class)))
}

fn write(asked: &Asked, word: &str, property: &str, words: &[&str]) -> Said {
    let which = which(property)?;
    let hex = asked.flag("--hex");
    let from = number(asked, "--from", 4095)?.unwrap_or(1) as u16;
    if from == 0 && words != ["0"] {
        return Err("element 0 is the count, and only 0 can be written to it".to_string());
    }
    let key = key(asked, false)?;
    with_unit(asked, word, key, |unit| {
        let mut text = String::new();
        for (i, value) in words.iter().enumerate() {
            let s = from + i as u16;
            let old = unit.property_read(which, s, 1)?;
            let Some(size) = size(unit, which, old.as_ref())? else {
                let refusal = Refused { which, s, n: 1, write: true };
                return Ok(refused(text + &reason(unit, refusal)?));
            };
            let new = values::element_of(value, size, hex).map_err(Trouble::Word)?;
            let Some(told) = unit.property_write(which, s, 1, &new)? else {
                let refusal = Refused { which, s, n: 1, write: true };
                return Ok(refused(text + &reason(unit, refusal)?));
            };
            if told != new {
                let told = values::element(&told, hex);
                return Err(Trouble::Strange(format!("asked to write {value}, it answers {told}")));
            }
            let (object, id) = which;
            let before = old.map_or("not there".to_string(), |old| values::element(&old, hex));
            let now = values::element(&new, hex);
            let what = if s == 0 { "count".to_string() } else { format!("element {s}") };
            text += &format!("property {object}/{id} {what}: {before} → {now}\n");
            text += &match unit.property_read(which, s, 1)? {
                Some(back) if back == new => format!("read back: {now}\n"),
                Some(back) => {
                    let back = values::element(&back, hex);
                    let words = format!("it answers a write of {now}, and reads {back}");
                    return Err(Trouble::Strange(words));
                }
                None => "not read back: reading is refused\n".to_string(),
            };
        }
        Ok((text, 0))
    })
}

/// A property as its description tells it, in the words of a sheet's text.
pub fn described(d: &Description) -> String {
    let writable = if d.writable { " writable" } else { "" };
    let (object, id, class, maximum) = (d.object, d.id, d.class, d.maximum);
    format!(
        "property {object}/{id} type {class}{writable} maximum {maximum} r{} w{}",
        d.read, d.write
    )
}

fn describe(asked: &Asked, word: &str, what: &str) -> Said {
    let object = values::number("an object", what, 255);
    let named = property_named(what);
    if what != "all" && named.is_none() && object.is_err() {
        return Err(format!(
            "neither all, nor an object, nor a property as 1/51: \"{}\"",
            short(what)
        ));
    }
    let key = key(asked, false)?;
    with_unit(asked, word, key, |unit| {
        if let Some((object, id)) = named {
            return Ok(match unit.description(object, id, 0)? {
                Some(d) => (described(&d) + "\n", 0),
                None => refused(format!("refused: there is no property {object}/{id}")),
            });
        }
        let objects = object.as_ref().map_or(0..=255, |&o| o as u8..=o as u8);
        let all = readout::properties(unit, objects)?;
        if all.is_empty() && what != "all" {
            return Ok(refused(format!("refused: object {what} has no property")));
        }
        Ok((all.iter().map(|d| described(d) + "\n").collect(), 0))
    })
}

// ---- memory ----

/// The bytes from an address on, in as many requests as it takes; or the address of what is refused.
pub fn bytes(
    unit: &mut Unit,
    user: bool,
    at: u16,
    n: u32,
) -> Result<Result<Vec<u8>, u16>, Trouble> {
    let most = if user { USER_MEMORY } else { MEMORY };
    let mut all = Vec::new();
    while (all.len() as u32) < n {
        let many = most.min(n as usize - all.len());
        let from = at + all.len() as u16;
        match unit.memory_read(user, from, many as u8)? {
            Some(bytes) => all.extend(bytes),
            None => return Ok(Err(from)),
        }
    }
    Ok(Ok(all))
}

fn memory_name(user: bool) -> &'static str {
    if user {
        "user memory"
    } else {
        "memory"
    }
}

/// That memory has no description, so that no reason can be known.
fn memory_refused(unit: &Unit, user: bool, at: u16, doing: &str) -> (String, u8) {
    let (at, memory) = (memory_address(at.into()), memory_name(user));
    let level = unit.level;
    refused(format!("refused: {doing} {memory} at {at} at level {level}; memory has no description that says why"))
}

/// Address and number of bytes, which end with the memory.
fn range(at: &str, n: u64) -> Result<(u16, u32), String> {
    let at = values::number("an address", at, 65_535)?;
    if n == 0 || at + n > 65_536 {
        return Err(format!(
            "{n} bytes from {} on are no part of a memory",
            memory_address(at as usize)
        ));
    }
    Ok((at as u16, n as u32))
}

fn memory_read(asked: &Asked, word: &str, at: &str, n: &str, user: bool) -> Said {
    let (at, n) = range(at, values::number("a number of bytes", n, 65_536)?)?;
    let key = key(asked, false)?;
    with_unit(asked, word, key, |unit| {
        Ok(match bytes(unit, user, at, n)? {
            Ok(bytes) => {
                let row = |(i, row): (usize, &[u8])| {
                    format!("{}  {}\n", memory_address(usize::from(at) + 16 * i), byte_line(row))
                };
                (bytes.chunks(16).enumerate().map(row).collect(), 0)
            }
            Err(from) => memory_refused(unit, user, from, "reading"),
        })
    })
}

fn memory_write(asked: &Asked, word: &str, at: &str, words: &[&str], user: bool) -> Said {
    let new = values::bytes(words)?;
    let (at, _) = range(at, new.len() as u64)?;
    let key = key(asked, false)?;
    let most = if user { USER_MEMORY } else { MEMORY };
    let name = memory_name(user);
    with_unit(asked, word, key, |unit| {
        let mut text = String::new();
        for (i, part) in new.chunks(most).enumerate() {
            let from = at + (i * most) as u16;
            let old = unit.memory_read(user, from, part.len() as u8)?;
            let stored = unit.memory_write(user, from, part)?;
            if stored == Stored::Refused {
                let (why, status) = memory_refused(unit, user, from, "writing");
                return Ok((text + &why, status));
            }
            let back = unit.memory_read(user, from, part.len() as u8)?;
            let place = memory_address(from.into());
            let before = old.map_or("not readable".to_string(), |old| byte_line(&old));
            let now = byte_line(part);
            match (stored, back) {
                (_, Some(back)) if back == part => {
                    text += &format!("{name} {place}: {before} → {now}\nread back: {now}\n");
                }
                (Stored::Answered(told), None) if told == part => {
                    text += &format!("{name} {place}: {before} → {now}\n");
                    text += "not read back: reading is refused\n";
                }
                (Stored::Unanswered, Some(_)) => {
                    let (why, status) = memory_refused(unit, user, from, "writing");
                    return Ok((text + &why, status));
                }
                (Stored::Unanswered, None) => {
                    let why = "it answers no writes, and reading is refused";
                    text +=
                        &format!("{name} {place}: whether {now} is stored can't be known: {why}\n");
                    return Ok((text, 1));
                }
                (_, back) => {
                    let back = back.map_or("nothing".to_string(), |back| byte_line(&back));
                    return Err(Trouble::Strange(format!("written {now}, it reads {back}")));
                }
            }
        }
        Ok((text, 0))
    })
}

// ---- keys, restart, descriptor ----

fn authorize(asked: &Asked, word: &str) -> Said {
    let key = key(asked, true)?;
    with_unit(asked, word, key, |unit| {
        let level = unit.level;
        Ok(match level {
            3 => refused("refused: the key gives level 3, which everybody has".to_string()),
            level => (format!("level {level}\n"), 0),
        })
    })
}

fn key_write(asked: &Asked, word: &str, level: &str) -> Said {
    let level = values::number("a level", level, 2)? as u8;
    let key = key(asked, true)?;
    let new = match asked.option("--new-key-file") {
        Some(name) => key::of_file(name)?,
        None => {
            let new = key::asked("new key")?;
            if key::asked("once more")? != new {
                return Err("the two differ, and nothing is written".to_string());
            }
            new
        }
    };
    with_unit(asked, word, key, |unit| {
        let had = unit.level;
        if !unit.key_write(level, new)? {
            let needs = format!("the key of level {level} needs level {level} or less");
            return Ok(refused(format!("refused: level {had}, and {needs}")));
        }
        let mut text = format!("key of level {level} changed\n");
        match unit.authorize(new)? {
            gives if gives == level => text += &format!("offered: it gives level {gives}\n"),
            gives if gives < level => {
                text += &format!("offered: it gives level {gives}, whose key is the same\n");
            }
            gives => {
                let words = format!("the new key of level {level} gives level {gives}");
                return Err(Trouble::Strange(words));
            }
        }
        Ok((text, 0))
    })
}

fn restart(asked: &Asked, word: &str) -> Said {
    let key = key(asked, false)?;
    with_unit(asked, word, key, |unit| {
        unit.descriptor()?;
        unit.restart()?;
        Ok((format!("{} restarts\n", individual_address(unit.address)), 0))
    })
}

fn descriptor(asked: &Asked, word: &str) -> Said {
    with_unit(asked, word, None, |unit| {
        let mask = unit.descriptor()?;
        Ok((String::from_utf8_lossy(&line(sheet::layout::hex(&mask))).into_owned(), 0))
    })
}
