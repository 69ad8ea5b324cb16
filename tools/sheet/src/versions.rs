//! A store of versions for people: what it keeps, and what tells a version from a sheet. docs/STORE.md has the layout.

use crate::check::{check, property_fault};
use crate::diff;
use crate::layout::{body_length, entries, name, properties, word, Kind, Property};
use crate::show::property_text;

pub const LONGEST: usize = 32_768;
const HEAD: usize = 8;
const ENTRY: usize = 8;
const MOST: usize = 8;

/// What a good store says.
#[derive(Clone, Debug, PartialEq, Eq)]
pub struct Store {
    /// The last number given.
    pub last: u16,
    pub versions: Vec<Version>,
    pub length: usize,
    /// Bytes behind the last body.
    pub free: usize,
}

#[derive(Clone, Debug, PartialEq, Eq)]
pub struct Version {
    pub number: u16,
    pub body: Vec<u8>,
}

impl Store {
    /// The store in these bytes, or what is wrong with it.
    pub fn read(s: &[u8]) -> Result<Store, String> {
        let long = s.len();
        fault(long < HEAD, || format!("the store has {long} bytes, fewer than {HEAD}"))?;
        fault(long > LONGEST, || format!("the store has more than {LONGEST} bytes"))?;
        let (n, last) = (word(s, 0) as usize, word(s, 2));
        fault(n > MOST, || format!("{n} versions, more than {MOST}"))?;
        for (at, &byte) in s.iter().enumerate().take(HEAD).skip(4) {
            fault(byte != 0, || format!("byte {at} of the head is {byte}, not 0"))?;
        }
        let table = HEAD + ENTRY * n;
        fault(table > long, || format!("the table ends at {table}, the store at {long}"))?;
        let (mut before, mut end) = (0, table);
        let mut versions = Vec::new();
        for (k, e) in s[HEAD..table].chunks(ENTRY).enumerate() {
            let [number, kind, offset, length] = [0, 2, 4, 6].map(|at| word(e, at));
            let which = || format!("version {number}, entry {k} of the table");
            fault(number <= before, || format!("{}: the number is not above {before}", which()))?;
            fault(number > last, || format!("{}: the last number given is {last}", which()))?;
            fault(kind != 1, || format!("{}: kind {kind}, not 1", which()))?;
            fault(offset as usize != end, || {
                format!(
                    "{}: its body starts at {offset}, and what is before it ends at {end}",
                    which()
                )
            })?;
            let start = end;
            end += length as usize;
            fault(end > long, || {
                format!("{}: its body ends at {end}, the store at {long}", which())
            })?;
            versions.push(Version { number, body: s[start..end].to_vec() });
            before = number;
        }
        Ok(Store { last, versions, length: long, free: long - end })
    }

    pub fn version(&self, number: u64) -> Option<&Version> {
        self.versions.iter().find(|v| u64::from(v.number) == number)
    }
}

fn fault(broken: bool, why: impl FnOnce() -> String) -> Result<(), String> {
    if broken {
        return Err(why());
    }
    Ok(())
}

/// The properties that a version holds, and where their bodies stood in the sheet.
struct Settings {
    properties: Vec<Property>,
    offsets: Vec<u16>,
}

impl Settings {
    /// Of a body, or what is wrong with it. A count above its maximum is let in: it is for a restore to judge.
    fn read(body: &[u8]) -> Result<Settings, String> {
        let long = body.len();
        fault(long < 2, || format!("{long} bytes have no number of properties"))?;
        let size = Kind::Property.length();
        let n = word(body, 0) as usize;
        let table = 2 + size * n;
        fault(table > long, || format!("{n} entries end at {table}, the version at {long}"))?;
        let (mut before, mut end) = (None, table);
        let mut pairs = Vec::new();
        for e in body[2..table].chunks(size) {
            let mut counted = e.to_vec();
            counted[6..8].fill(0);
            if let Some(why) = property_fault(before, &counted) {
                return Err(format!("{}, {why}", name(Kind::Property, e)));
            }
            before = Some((e[0], e[1]));
            let start = end;
            end += body_length(Kind::Property, e);
            fault(end > long, || {
                format!(
                    "{}: its body ends at {end}, the version at {long}",
                    name(Kind::Property, e)
                )
            })?;
            pairs.push((e, body[start..end].to_vec()));
        }
        fault(end != long, || format!("the last body ends at {end}, the version at {long}"))?;
        let offsets = pairs.iter().map(|(e, _)| word(e, 8)).collect();
        Ok(Settings { properties: properties(pairs.into_iter()), offsets })
    }

    /// Of a sheet that breaks no rule.
    fn of(sheet: &[u8]) -> Settings {
        let all = entries(sheet, Kind::Property);
        let pairs = all.map(|e| {
            let at = word(e, 8) as usize;
            (e, sheet[at..at + body_length(Kind::Property, e)].to_vec())
        });
        let offsets = entries(sheet, Kind::Property).map(|e| word(e, 8)).collect();
        Settings { properties: properties(pairs), offsets }
    }
}

pub fn number_of(n: usize, what: &str, many: &str) -> String {
    format!("{n} {}", if n == 1 { what } else { many })
}

/// A store as text: each version with its properties as `show` has them.
pub fn text(store: &Store) -> String {
    let mut out = format!(
        "{}, last number {}, {}, {} free\n",
        number_of(store.versions.len(), "version", "versions"),
        store.last,
        number_of(store.length, "byte", "bytes"),
        store.free
    );
    for v in &store.versions {
        let long = number_of(v.body.len(), "byte", "bytes");
        match Settings::read(&v.body) {
            Ok(held) => {
                let n = number_of(held.properties.len(), "property", "properties");
                out += &format!("\nversion {}: {n}, {long}\n", v.number);
                held.properties
                    .iter()
                    .for_each(|p| out += property_text(p).trim_start_matches('\n'));
            }
            Err(why) => out += &format!("\nversion {}: no settings, {long}: {why}\n", v.number),
        }
    }
    out
}

/// What tells a sheet that breaks no rule from a version, by meaning: none exactly if it is accepted and has the version's
/// settings. The last line says so if a restore would be refused for sheet or version. Else what is wrong with the version.
pub fn lines(version: &Version, sheet: &[u8]) -> Result<Vec<String>, String> {
    let held = Settings::read(&version.body)
        .map_err(|why| format!("version {} holds no settings: {why}", version.number))?;
    let now = Settings::of(sheet);
    let mut lines = diff::properties(&held.properties, &now.properties);
    for (p, offset) in held.properties.iter().zip(&held.offsets) {
        let same = |q: &&(&Property, &u16)| (q.0.object, q.0.id) == (p.object, p.id);
        let other = now.properties.iter().zip(&now.offsets).collect::<Vec<_>>();
        if let Some((_, at)) = other.iter().find(same).filter(|(_, at)| *at != offset) {
            lines.push(format!("property {}/{} offset: {offset} → {at}", p.object, p.id));
        }
    }
    if check(sheet).is_err() {
        lines.push("a restore is refused by 14: the sheet is old, convert it".to_string());
    } else if !alike(&held, &now) {
        lines.push(
            "a restore is refused by 36: entries differ in more than their counts".to_string(),
        );
    } else if let Some(p) = held.properties.iter().find(|p| p.count > p.maximum) {
        lines.push(format!(
            "a restore is refused by 37: property {}/{}, count {} above maximum {}",
            p.object, p.id, p.count, p.maximum
        ));
    }
    Ok(lines)
}

/// Whether all but counts and bodies is the same.
fn alike(a: &Settings, b: &Settings) -> bool {
    let bare = |p: &Property| Property { count: 0, body: Vec::new(), ..p.clone() };
    let bares = |s: &Settings| s.properties.iter().map(bare).collect::<Vec<_>>();
    a.offsets == b.offsets && bares(a) == bares(b)
}
