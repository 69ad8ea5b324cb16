//! Many dumps beside one reference: what deviates by meaning and in how many units, broken and old sheets, keys that are
//! public, of zeros, of two levels or shared, serial numbers and addresses that are there twice, heights out of a bound, what is
//! open to all, rules 1. No key is told. Units that were read over a bus stand beside it by the same code: of them less is known.

use std::collections::{BTreeMap, HashMap};

use crate::diff;
use crate::json::Json;
use crate::kinds::{self, File};
use crate::layout::{hex, individual_address, name, Kind, Property, Region, Sheet, LATER};
use crate::show::{element, PUBLIC};
use crate::slots;

/// A key that nobody set.
const ZEROS: [u8; 4] = [0; 4];

/// What is looked for.
#[derive(Clone, Copy, Debug, PartialEq, Eq)]
pub struct Wanted {
    /// Object and id of the property that holds the height.
    pub height: (u8, u8),
    /// The most by which a height may differ from the reference's; without one no height is judged.
    pub bound: Option<u128>,
}

/// The mounting height of the sample's probe.
pub const HEIGHT: (u8, u8) = (1, 51);

#[derive(Clone, Debug, PartialEq, Eq)]
pub enum Verdict {
    Accepted,
    Old,
    /// With the rule, and what breaks it.
    Broken(String),
    /// Over a bus; or not, and why.
    Read,
    Unread(String),
}

impl Verdict {
    pub fn word(&self) -> &'static str {
        match self {
            Verdict::Accepted => "accepted",
            Verdict::Old => "old",
            Verdict::Broken(_) => "broken",
            Verdict::Read => "read",
            Verdict::Unread(_) => "not read",
        }
    }
}

/// What is known of a unit. Over a bus it is no more than can be asked for: no keys, no levels of memory, no rules, and the
/// serial number only if a property tells it; in the sheet these are the reference's.
pub struct Seen {
    pub name: String,
    pub verdict: Verdict,
    pub sheet: Option<Sheet>,
    pub serial: bool,
    /// What could not be read of it.
    pub notes: Vec<String>,
}

/// The verdict on a dump, of a sheet or of the medium that keeps it, and what it says. An old one says what its conversion does,
/// which changes the edition alone.
pub fn judged(bytes: &[u8]) -> (Verdict, Option<Sheet>) {
    let bytes = match slots::kept(bytes.to_vec()) {
        Ok(bytes) => bytes,
        Err(why) => return (Verdict::Broken(why), None),
    };
    match Sheet::read(&bytes) {
        Ok(old) if old.edition == 1 => (Verdict::Old, Some(converted(old))),
        Ok(sheet) => (Verdict::Accepted, Some(sheet)),
        Err(broken) => (Verdict::Broken(kinds::fault(&bytes, File::Sheet, broken)), None),
    }
}

fn converted(old: Sheet) -> Sheet {
    Sheet { edition: 2, ..old }
}

/// Something that units share, by their numbers.
#[derive(Clone, Debug, PartialEq, Eq)]
pub struct Shared {
    pub what: String,
    pub units: Vec<usize>,
}

/// A unit and what was found of it alone.
#[derive(Clone, Debug, PartialEq, Eq)]
pub struct Unit {
    pub name: String,
    pub verdict: Verdict,
    /// Individual address and serial number, by which units differ as they should.
    pub address: String,
    pub serial: String,
    /// The levels whose key is FFFFFFFFh, and those whose key is 0.
    pub public: Vec<usize>,
    pub zeros: Vec<usize>,
    /// Levels whose key is that of a level with more rights, which it gives.
    pub doubled: Vec<(usize, usize)>,
    pub heights: Vec<String>,
    pub later: bool,
    /// What deviates in it and what is open, by the survey's numbers of these.
    pub deviations: Vec<usize>,
    pub open: Vec<usize>,
    pub notes: Vec<String>,
}

#[derive(Clone, Debug, PartialEq, Eq)]
pub struct Survey {
    pub reference: String,
    pub units: Vec<Unit>,
    /// What deviates from the reference; what is open to all; each with its units, those of most units first.
    pub deviations: Vec<Shared>,
    pub open: Vec<Shared>,
    /// Keys that more than one unit has: each time whose key of which level, the reference's among them as the last.
    pub keys: Vec<Vec<(Option<usize>, usize)>>,
    /// Serial numbers and individual addresses that more than one unit has.
    pub serials: Vec<Shared>,
    pub addresses: Vec<Shared>,
    pub wanted: Wanted,
    /// Whether the units were read over a bus.
    pub bus: bool,
}

/// The survey of dumps, by name and bytes, or what is wrong with the reference or with reading one. A dump may be longer than
/// a sheet: it is then broken.
pub fn survey(
    reference: (&str, &[u8]),
    dumps: impl Iterator<Item = Result<(String, Vec<u8>), String>>,
    wanted: Wanted,
) -> Result<Survey, String> {
    let seen = dumps.map(|dump| {
        let (name, bytes) = dump?;
        let (verdict, sheet) = judged(&bytes);
        Ok(Seen { name, verdict, sheet, serial: true, notes: Vec::new() })
    });
    survey_of(reference, seen, wanted, false)
}

/// The survey of units by what is known of them, from dumps or over a bus.
pub fn survey_of(
    reference: (&str, &[u8]),
    seen: impl Iterator<Item = Result<Seen, String>>,
    wanted: Wanted,
    bus: bool,
) -> Result<Survey, String> {
    let (verdict, sheet) = judged(reference.1);
    let Some(base) = sheet else {
        let Verdict::Broken(why) = verdict else { unreachable!("what is accepted has a sheet") };
        return Err(format!("{}: {why}", reference.0));
    };
    let (object, id) = wanted.height;
    if wanted.bound.is_some() && property(&base, wanted.height).is_none() {
        let named = format!("no property {object}/{id}, to which a bound is given");
        return Err(format!("{}: {named}", reference.0));
    }
    let mut found = Found::default();
    let mut units = Vec::new();
    for seen in seen {
        let mut seen = seen?;
        let number = units.len();
        units.push(match seen.sheet.take() {
            Some(sheet) => found.unit(number, seen, &base, &sheet, wanted, bus),
            None => Unit {
                name: seen.name,
                verdict: seen.verdict,
                address: String::new(),
                serial: String::new(),
                public: Vec::new(),
                zeros: Vec::new(),
                doubled: Vec::new(),
                heights: Vec::new(),
                later: false,
                deviations: Vec::new(),
                open: Vec::new(),
                notes: seen.notes,
            },
        });
    }
    let keys = found.shared_keys(&base);
    let (deviations, open) = (by_share(found.deviations), by_share(found.open));
    let twice = |found| by_share(found).into_iter().filter(|s| s.units.len() > 1).collect();
    let (serials, addresses) = (twice(found.serials), twice(found.addresses));
    for (k, shared) in deviations.iter().enumerate() {
        shared.units.iter().for_each(|&unit| units[unit].deviations.push(k));
    }
    for (k, shared) in open.iter().enumerate() {
        shared.units.iter().for_each(|&unit| units[unit].open.push(k));
    }
    let reference = reference.0.to_string();
    Ok(Survey { reference, units, deviations, open, keys, serials, addresses, wanted, bus })
}

#[derive(Default)]
struct Found {
    deviations: HashMap<String, Vec<usize>>,
    open: HashMap<String, Vec<usize>>,
    serials: HashMap<String, Vec<usize>>,
    addresses: HashMap<String, Vec<usize>>,
    keys: BTreeMap<[u8; 4], Vec<(Option<usize>, usize)>>,
}

/// Those of most units first, and else by their words.
fn by_share(found: HashMap<String, Vec<usize>>) -> Vec<Shared> {
    let mut all: Vec<Shared> =
        found.into_iter().map(|(what, units)| Shared { what, units }).collect();
    all.sort_unstable_by(|a, b| {
        b.units.len().cmp(&a.units.len()).then_with(|| a.what.cmp(&b.what))
    });
    all
}

fn property(sheet: &Sheet, (object, id): (u8, u8)) -> Option<&Property> {
    sheet.properties.iter().find(|p| (p.object, p.id) == (object, id))
}

fn number(bytes: &[u8]) -> u128 {
    bytes.iter().fold(0, |number, &b| number << 8 | u128::from(b))
}

impl Found {
    fn unit(
        &mut self,
        number: usize,
        seen: Seen,
        base: &Sheet,
        sheet: &Sheet,
        wanted: Wanted,
        bus: bool,
    ) -> Unit {
        // what names a unit is no deviation, nor are keys of its own
        let (serial, address, keys) = (base.serial, base.address, base.keys);
        let named = Sheet { serial, address, keys, ..sheet.clone() };
        for line in diff::lines(base, &named) {
            self.deviations.entry(line).or_default().push(number);
        }
        for what in open(sheet, bus) {
            self.open.entry(what).or_default().push(number);
        }
        let levels = if bus { 0..0 } else { 0..3 };
        for level in levels.clone() {
            self.keys.entry(sheet.keys[level]).or_default().push((Some(number), level));
        }
        let address = individual_address(sheet.address);
        let serial = if seen.serial { hex(&sheet.serial) } else { String::new() };
        self.addresses.entry(address.clone()).or_default().push(number);
        if seen.serial {
            self.serials.entry(serial.clone()).or_default().push(number);
        }
        let with =
            |key: [u8; 4]| levels.clone().filter(|&level| sheet.keys[level] == key).collect();
        let given = |level: usize| (0..level).find(|&l| sheet.keys[l] == sheet.keys[level]);
        let doubled = levels.clone().filter_map(|l| given(l).map(|gives| (l, gives)));
        Unit {
            name: seen.name,
            verdict: seen.verdict,
            address,
            serial,
            public: with(PUBLIC),
            zeros: with(ZEROS),
            doubled: doubled.collect(),
            heights: heights(base, sheet, wanted),
            later: !bus && sheet.rules == LATER,
            deviations: Vec::new(),
            open: Vec::new(),
            notes: seen.notes,
        }
    }

    /// The keys of more than one unit, the public one and that of zeros apart, which are told as such; those of most units first.
    fn shared_keys(&self, base: &Sheet) -> Vec<Vec<(Option<usize>, usize)>> {
        let mut all: Vec<_> = self
            .keys
            .iter()
            .filter(|(&key, _)| key != PUBLIC && key != ZEROS)
            .map(|(key, owners)| {
                let of_base = (0..3).filter(|&level| base.keys[level] == *key);
                owners.iter().copied().chain(of_base.map(|level| (None, level))).collect::<Vec<_>>()
            })
            .filter(|owners| owners.iter().any(|owner| owner.0 != owners[0].0))
            .collect();
        all.sort_by_key(|owners| (std::cmp::Reverse(owners.len()), owners.clone()));
        all
    }
}

/// What anybody may write: memory, and properties that can be written at all. Over a bus no levels of memory are told.
fn open(sheet: &Sheet, bus: bool) -> Vec<String> {
    let region = |kind: Kind, address: u16| name(kind, &address.to_be_bytes());
    let known = |regions: &[Region]| if bus { Vec::new() } else { regions.to_vec() };
    let (regions, users) = (known(&sheet.regions), known(&sheet.users));
    let regions = regions.iter().map(|r| (r.levels, region(Kind::Region, r.address)));
    let properties = sheet.properties.iter().filter(|p| p.writable);
    let properties = properties.map(|p| (p.levels, name(Kind::Property, &[p.object, p.id])));
    let users = users.iter().map(|r| (r.levels, region(Kind::User, r.address)));
    let all = regions.chain(properties).chain(users);
    all.filter(|(levels, _)| levels.write == 3).map(|(_, what)| what).collect()
}

/// The heights further from the reference's than the bound, and those of the reference's that are missing. One that the
/// reference has not is held to the nearest that it has.
fn heights(base: &Sheet, sheet: &Sheet, wanted: Wanted) -> Vec<String> {
    let (Some(bound), Some(there)) = (wanted.bound, property(base, wanted.height)) else {
        return Vec::new();
    };
    let what = format!("property {}/{}", wanted.height.0, wanted.height.1);
    let Some(here) = property(sheet, wanted.height) else {
        return vec![format!("{what} is missing")];
    };
    let valid = |p: &Property| {
        let size = p.size as usize;
        p.body.chunks(size).take(p.count.into()).map(<[u8]>::to_vec).collect::<Vec<_>>()
    };
    let (here, there) = (valid(here), valid(there));
    let missing = here.len()..there.len();
    let missing = missing.map(|i| format!("{what} element {} is missing", i + 1));
    let by = |new: &[u8], old: &[u8]| match (number(new), number(old)) {
        (new, old) if new >= old => (new - old, "above"),
        (new, old) => (old - new, "below"),
    };
    let told = here.iter().enumerate().filter_map(|(i, new)| {
        let (value, n) = (element(new), i + 1);
        if let Some(old) = there.get(i) {
            let (by, way) = by(new, old);
            let old = element(old);
            return (by > bound)
                .then(|| format!("{what} element {n} is {value}, {by} {way} the reference's {old}"));
        }
        match there.iter().map(|old| (by(new, old), old)).min_by_key(|((by, _), _)| *by) {
            Some(((by, way), old)) if by > bound => {
                let old = element(old);
                Some(format!("{what} element {n} is {value}, which the reference has not, {by} {way} its nearest, {old}"))
            }
            Some(_) => None,
            None => Some(format!("{what} element {n} is {value}, and the reference has none")),
        }
    });
    told.chain(missing).collect()
}

// ---- what is told ----

/// A finding of a unit: its kind, what it is, and how many units share it.
type Finding = (&'static str, String, usize);

/// So many names stand behind what they share, and so many deviations behind a unit; JSON and CSV have them all.
const NAMES: usize = 6;
const DEVIATIONS: usize = 12;

impl Survey {
    fn count(&self, word: &str) -> usize {
        self.units.iter().filter(|u| u.verdict.word() == word).count()
    }

    /// Whether there is nothing to tell of any unit.
    pub fn clean(&self) -> bool {
        let alone = |u: &Unit| {
            matches!(u.verdict, Verdict::Accepted | Verdict::Read)
                && u.notes.is_empty()
                && u.public.is_empty()
                && u.zeros.is_empty()
                && u.doubled.is_empty()
                && u.heights.is_empty()
                && !u.later
        };
        let shared = self.deviations.is_empty() && self.open.is_empty() && self.keys.is_empty();
        let shared = shared && self.serials.is_empty() && self.addresses.is_empty();
        shared && self.units.iter().all(alone)
    }

    fn owner(&self, (unit, level): (Option<usize>, usize)) -> String {
        let whose = unit.map_or("the reference", |unit| &self.units[unit].name);
        format!("{whose} level {level}")
    }

    /// All that was found of a unit, the deviations of most units first.
    fn findings(&self, unit: usize) -> Vec<Finding> {
        let mut all: Vec<Finding> = Vec::new();
        let mut say = |kind, what, units| all.push((kind, what, units));
        let u = &self.units[unit];
        match &u.verdict {
            Verdict::Broken(why) => say("broken", why.clone(), self.count("broken")),
            Verdict::Old => say("old", "edition 1: to be converted".to_string(), self.count("old")),
            Verdict::Unread(why) => say("not read", why.clone(), self.count("not read")),
            Verdict::Accepted | Verdict::Read => {}
        }
        for note in &u.notes {
            let units = self.units.iter().filter(|u| u.notes.contains(note)).count();
            say("read in part", note.clone(), units);
        }
        for shared in u.deviations.iter().map(|&k| &self.deviations[k]) {
            say("deviation", shared.what.clone(), shared.units.len());
        }
        for level in &u.public {
            let units = self.units.iter().filter(|u| u.public.contains(level)).count();
            say("public key", format!("key of level {level} is FFFFFFFFh"), units);
        }
        for level in &u.zeros {
            let units = self.units.iter().filter(|u| u.zeros.contains(level)).count();
            say("key of zeros", format!("key of level {level} is 00000000h"), units);
        }
        for (level, gives) in &u.doubled {
            let units = self.units.iter().filter(|u| !u.doubled.is_empty()).count();
            say("key of two levels", doubled(*level, *gives), units);
        }
        for (kind, all) in [("serial number", &self.serials), ("address", &self.addresses)] {
            for shared in all.iter().filter(|shared| shared.units.contains(&unit)) {
                let others = shared.units.iter().filter(|&&other| other != unit);
                let others: Vec<&str> = others.map(|&o| self.units[o].name.as_str()).collect();
                let what = format!("{} is that of {} too", shared.what, others.join(", "));
                say(kind, what, shared.units.len());
            }
        }
        for owners in &self.keys {
            let mine = owners.iter().filter(|owner| owner.0 == Some(unit));
            let others: Vec<String> = owners
                .iter()
                .filter(|owner| owner.0 != Some(unit))
                .map(|&owner| self.owner(owner))
                .collect();
            for (_, level) in mine {
                let what = format!("key of level {level} is that of {}", others.join(", "));
                say("shared key", what, sharing(owners));
            }
        }
        for what in &u.heights {
            let units = self.units.iter().filter(|u| !u.heights.is_empty()).count();
            say("height", what.clone(), units);
        }
        for shared in u.open.iter().map(|&k| &self.open[k]) {
            say("open to all", format!("{} has write level 3", shared.what), shared.units.len());
        }
        if u.later {
            let units = self.units.iter().filter(|u| u.later).count();
            say("rules", "rules 1".to_string(), units);
        }
        all
    }

    /// For people: heights first, then what most units share.
    pub fn text(&self) -> String {
        let mut out = format!("{} beside {}: ", many(self.units.len(), "unit"), self.reference);
        let words: &[&str] =
            if self.bus { &["read", "not read"] } else { &["accepted", "old", "broken"] };
        let counts: Vec<String> =
            words.iter().map(|word| format!("{} {word}", self.count(word))).collect();
        out += &format!("{}\n", counts.join(", "));
        out += &self.heights_text();
        if self.bus {
            let unread = self.units.iter().filter_map(|u| match &u.verdict {
                Verdict::Unread(why) => Some(format!("{}: {why}", u.name)),
                _ => None,
            });
            out += &section("units that were not read", unread.collect());
            let notes = self.units.iter();
            let notes = notes.flat_map(|u| u.notes.iter().map(|n| format!("{}: {n}", u.name)));
            out += &section("units that were read in part", notes.collect());
        }
        out += &shared_text("deviations, those of most units first", self, &self.deviations);
        if !self.bus {
            out += &self.dumps_text();
        }
        out += &shared_text("serial numbers of several units", self, &self.serials);
        out += &shared_text("addresses of several units", self, &self.addresses);
        out += &shared_text("open to all, write level 3", self, &self.open);
        out += &if self.bus {
            "\nnot told on a bus: keys, group objects, levels of memory, verify mode, rules\n"
                .to_string()
        } else {
            let later = self.units.iter().filter(|u| u.later).map(|u| u.name.clone());
            section("rules 1", later.collect())
        };
        out + &self.table()
    }

    fn heights_text(&self) -> String {
        let (object, id) = self.wanted.height;
        let Some(bound) = self.wanted.bound else {
            return "\nheights: no bound is given\n".to_string();
        };
        let title =
            format!("heights, property {object}/{id}, further than {bound} from the reference's");
        let heights = self.units.iter();
        let lines = heights.flat_map(|u| u.heights.iter().map(|h| format!("{}: {h}", u.name)));
        section(&title, lines.collect())
    }

    /// What only a dump tells.
    fn dumps_text(&self) -> String {
        let broken = self.units.iter().filter_map(|u| match &u.verdict {
            Verdict::Broken(why) => Some(format!("{}: {why}", u.name)),
            _ => None,
        });
        let mut out = section("broken sheets", broken.collect());
        let old = self.units.iter().filter(|u| u.verdict == Verdict::Old).map(|u| u.name.clone());
        out += &section("old sheets, to be converted", old.collect());
        let levels = |of: fn(&Unit) -> &[usize]| {
            let some = self.units.iter().filter(|u| !of(u).is_empty());
            let line = |u: &Unit| {
                let levels: Vec<String> = of(u).iter().map(ToString::to_string).collect();
                format!("{}: level {}", u.name, levels.join(", "))
            };
            some.map(line).collect()
        };
        out += &section("public keys, FFFFFFFFh", levels(|u| &u.public));
        out += &section("keys of zeros", levels(|u| &u.zeros));
        let twice = self.units.iter().flat_map(|u| {
            u.doubled.iter().map(|&(level, gives)| format!("{}: {}", u.name, doubled(level, gives)))
        });
        out += &section("keys of two levels", twice.collect());
        let keys = self.keys.iter().map(|owners| {
            let named = owners.iter().map(|&owner| self.owner(owner));
            format!("{}: {}", many(sharing(owners), "unit"), some(named))
        });
        out + &section("shared keys", keys.collect())
    }

    /// Each unit with its deviations.
    fn table(&self) -> String {
        let mut out = "\nunits\n".to_string();
        let wide = |of: fn(&Unit) -> &str| {
            self.units.iter().map(|u| of(u).chars().count()).max().unwrap_or(0)
        };
        let (names, addresses) = (wide(|u| &u.name), wide(|u| &u.address));
        for u in &self.units {
            let found = u.deviations.iter().take(DEVIATIONS);
            let mut found: Vec<&str> = found.map(|&k| self.deviations[k].what.as_str()).collect();
            let more = format!("and {} more", u.deviations.len().saturating_sub(DEVIATIONS));
            if u.deviations.len() > DEVIATIONS {
                found.push(&more);
            }
            let line = format!(
                "  {:names$}  {:addresses$}  {:12}  {:8}  {}",
                u.name,
                u.address,
                u.serial,
                u.verdict.word(),
                found.join("; ")
            );
            out += line.trim_end();
            out += "\n";
        }
        out
    }

    /// A row for each finding, and one for a unit of which nothing was found.
    pub fn csv(&self) -> String {
        let mut out = "unit,address,serial,verdict,finding,what,units\r\n".to_string();
        for (i, u) in self.units.iter().enumerate() {
            let mut findings = self.findings(i);
            if findings.is_empty() {
                findings.push(("", String::new(), 0));
            }
            for (kind, what, units) in findings {
                let units = units.to_string();
                let row = [&u.name, &u.address, &u.serial, u.verdict.word(), kind, &what, &units];
                out += &row.map(cell).join(",");
                out += "\r\n";
            }
        }
        out
    }

    pub fn json(&self) -> Json {
        let names = |units: &[usize]| {
            Json::from(units.iter().map(|&u| self.units[u].name.as_str()).collect::<Vec<_>>())
        };
        let shared = |all: &[Shared]| {
            let one = |s: &Shared| {
                Json::Object(vec![
                    ("what", s.what.as_str().into()),
                    ("number", s.units.len().into()),
                    ("units", names(&s.units)),
                ])
            };
            Json::List(all.iter().map(one).collect())
        };
        let units = (0..self.units.len()).map(|i| {
            let u = &self.units[i];
            let findings = self.findings(i).into_iter().map(|(kind, what, units)| {
                Json::Object(vec![
                    ("finding", kind.into()),
                    ("what", what.into()),
                    ("units", units.into()),
                ])
            });
            Json::Object(vec![
                ("unit", u.name.as_str().into()),
                ("address", Some(u.address.as_str()).filter(|a| !a.is_empty()).into()),
                ("serial", Some(u.serial.as_str()).filter(|s| !s.is_empty()).into()),
                ("verdict", u.verdict.word().into()),
                ("findings", Json::List(findings.collect())),
            ])
        });
        let keys = self.keys.iter().map(|owners| {
            let one = |&(unit, level): &(Option<usize>, usize)| {
                let unit = unit.map(|unit| self.units[unit].name.as_str());
                Json::Object(vec![("unit", unit.into()), ("level", level.into())])
            };
            Json::List(owners.iter().map(one).collect())
        });
        let counts = if self.bus {
            vec![("read", self.count("read").into()), ("not_read", self.count("not read").into())]
        } else {
            let count = |word| (word, self.count(word).into());
            ["accepted", "old", "broken"].map(count).to_vec()
        };
        let mut all = vec![("reference", self.reference.as_str().into())];
        all.extend(counts);
        all.extend([
            ("deviations", shared(&self.deviations)),
            ("open", shared(&self.open)),
            ("shared_keys", Json::List(keys.collect())),
            ("serials", shared(&self.serials)),
            ("addresses", shared(&self.addresses)),
            ("units", Json::List(units.collect())),
        ]);
        Json::Object(all)
    }
}

/// A key that two levels have gives the one with more rights.
fn doubled(level: usize, gives: usize) -> String {
    format!("key of level {level} is that of level {gives}, and gives level {gives}")
}

/// How many units have a key, the reference apart.
fn sharing(owners: &[(Option<usize>, usize)]) -> usize {
    let mut units: Vec<usize> = owners.iter().filter_map(|owner| owner.0).collect();
    units.dedup();
    units.len()
}

fn many(n: usize, what: &str) -> String {
    format!("{n} {what}{}", if n == 1 { "" } else { "s" })
}

fn section(title: &str, lines: Vec<String>) -> String {
    if lines.is_empty() {
        return format!("\n{title}: none\n");
    }
    let mut out = format!("\n{title}\n");
    for line in lines {
        out += "  ";
        out += &line;
        out += "\n";
    }
    out
}

/// The first few of many names.
fn some(names: impl ExactSizeIterator<Item = String>) -> String {
    let n = names.len();
    let first: Vec<String> = names.take(NAMES).collect();
    match n {
        n if n > NAMES => format!("{} and {} more", first.join(", "), n - NAMES),
        _ => first.join(", "),
    }
}

fn shared_text(title: &str, survey: &Survey, all: &[Shared]) -> String {
    let line = |s: &Shared| {
        let names = s.units.iter().map(|&u| survey.units[u].name.clone());
        format!("{:>4}  {}\n          {}", s.units.len(), s.what, some(names))
    };
    section(title, all.iter().map(line).collect())
}

/// What a spreadsheet would take for a formula.
const FORMULA: [char; 6] = ['=', '+', '-', '@', '\t', '\r'];

/// A cell of a table for spreadsheets, in quotation marks where it needs them; one that would begin a formula begins with an
/// apostrophe.
fn cell(text: &str) -> String {
    if text.starts_with(FORMULA) {
        return cell(&format!("'{text}"));
    }
    if text.contains([',', '"', '\r', '\n']) {
        return format!("\"{}\"", text.replace('"', "\"\""));
    }
    text.to_string()
}

/// The property that a word such as 1/51 names.
pub fn property_named(word: &str) -> Option<(u8, u8)> {
    let number = |word: &str| word.parse().ok().filter(|n: &u8| n.to_string() == word);
    let (object, id) = word.split_once('/')?;
    Some((number(object)?, number(id)?))
}

/// The property that holds the height and the bound, by the words of a command line.
pub fn wanted(height: Option<&str>, bound: Option<&str>) -> Result<Wanted, String> {
    let height = match height {
        None => HEIGHT,
        Some(word) => property_named(word)
            .ok_or(format!("--height: no object and id, as 1/51: \"{word}\""))?,
    };
    let bound = bound.map(|word| {
        let digits = !word.is_empty() && word.bytes().all(|b| b.is_ascii_digit());
        let number = if digits { word.parse().ok() } else { None };
        number.ok_or(format!("--bound: no number: \"{word}\""))
    });
    Ok(Wanted { height, bound: bound.transpose()? })
}
