//! Many units beside one reference, over the bus: each is read by the reference's plan, kept if there is a folder, and told by the
//! code of `sheet survey`. Nothing is written to a unit. One that does not answer, or no more, costs seconds, and is tried again
//! at the end.

use std::collections::BTreeMap;
use std::path::{Path, PathBuf};
use std::time::Duration;

use sheet::asked::Asked;
use sheet::kinds::{self, File};
use sheet::layout::{individual_address, memory_address, Property as Entry, Sheet};
use sheet::program::{line, read, Said};
use sheet::show::plain;
use sheet::survey::{survey_of, wanted, Seen, Verdict};

use crate::bus::Bus;
use crate::commands;
use crate::kept;
use crate::key::Key;
use crate::progress::Progress;
use crate::readout::{Plan, Readout};
use crate::record::Record;
use crate::scan::SERIAL;
use crate::sys;
use crate::trouble::Trouble;
use crate::unit::{Patience, Unit};
use crate::values;

/// How long a unit may take if nobody says otherwise, in seconds; and how long it may be quiet at the first try.
const LIMIT: u64 = 60;
const QUIET: u64 = 4_000;
/// An interface that went away is tried again after so many milliseconds each.
const AGAIN: [u64; 3] = [500, 1_000, 2_000];

/// A sheet that is a reference: its bytes, and what it says, converted if it is old.
pub fn reference(name: &str) -> Result<(Vec<u8>, Sheet), String> {
    let bytes = read(name, kinds::MOST)?;
    match sheet::survey::judged(&bytes) {
        (_, Some(sheet)) => Ok((bytes, sheet)),
        (Verdict::Broken(why), None) => Err(format!("{name}: {why}")),
        _ => Err(format!("{name}: {}", kinds::fault(&bytes, File::Sheet, "no sheet"))),
    }
}

/// Why a unit was not read: at the first try, and once more if that was another reason.
struct Unread(String);

impl Unread {
    fn failed(before: Option<Unread>, trouble: &Trouble) -> Unread {
        let now = trouble.to_string();
        Unread(match before {
            Some(Unread(first)) if first != now => format!("{first}; once more: {now}"),
            _ => now,
        })
    }
}

struct Hall<'a> {
    asked: &'a Asked<'a>,
    plan: Plan,
    key: Option<Key>,
    folder: Option<PathBuf>,
    limit: u64,
    bus: Option<Bus>,
    /// Kept while there is no bus.
    record: Option<Record>,
    read: BTreeMap<u16, Readout>,
    unread: BTreeMap<u16, Unread>,
    /// Of those that were read: that they could not be kept.
    unkept: BTreeMap<u16, String>,
}

pub fn survey(asked: &Asked, words: &[&str]) -> Said {
    if asked.flag("--json") && asked.flag("--csv") {
        return Err("--json and --csv are two forms, and one is written".to_string());
    }
    let addresses = values::addresses(words)?;
    let name = asked.option("--reference").unwrap_or_default();
    let (bytes, base) = reference(name)?;
    let wanted = wanted(asked.option("--height"), asked.option("--bound"))?;
    let limit = asked.option("--limit").map(|word| values::number("--limit", word, 86_400));
    let limit = limit.transpose()?.unwrap_or(LIMIT).max(1) * 1000;
    let folder = asked.option("--into").map(PathBuf::from);
    if let Some(folder) = &folder {
        let made = std::fs::create_dir_all(folder);
        made.map_err(|why| format!("{}: {why}", folder.display()))?;
    }
    // what can be told of a unit that was never read needs no bus: the reference is judged first
    survey_of((&plain(name), &bytes), std::iter::empty(), wanted, true)?;
    let key = commands::key(asked, false)?;
    let mut hall = Hall {
        asked,
        plan: Plan::of(&base),
        key,
        folder,
        limit,
        bus: None,
        record: None,
        read: BTreeMap::new(),
        unread: BTreeMap::new(),
        unkept: BTreeMap::new(),
    };
    hall.all(&addresses)?;
    let unrecorded = hall.bus.as_ref().and_then(Bus::unrecorded);
    hall.bus = None;
    let seen = addresses.iter().map(|&address| Ok(hall.seen(address, &base)));
    let survey = survey_of((&plain(name), &bytes), seen, wanted, true)?;
    if let Some(why) = unrecorded {
        eprintln!("{}", plain(&why));
    }
    let out = match (asked.flag("--json"), asked.flag("--csv")) {
        (true, _) => line(survey.json()),
        (_, true) => survey.csv().into_bytes(),
        _ => survey.text().into_bytes(),
    };
    Ok((out, u8::from(!survey.clean())))
}

impl Hall<'_> {
    /// Reads all that is not kept yet; what failed once more at the end.
    fn all(&mut self, addresses: &[u16]) -> Result<(), String> {
        let keyed = self.key.is_some();
        if let Some(folder) = &self.folder {
            let kept = addresses.iter().filter_map(|&a| kept::kept(folder, a, &self.plan, keyed));
            self.read = kept.map(|read| (read.address, read)).collect();
        }
        let left: Vec<u16> =
            addresses.iter().filter(|a| !self.read.contains_key(a)).copied().collect();
        if left.is_empty() {
            return Ok(());
        }
        self.bus = Some(commands::bus(self.asked)?);
        let quick = Patience { limit: Some(self.limit), quiet: Some(QUIET) };
        self.pass("survey", &left, quick, addresses.len())?;
        let again: Vec<u16> = self.unread.keys().copied().collect();
        let patient = Patience { limit: Some(self.limit), quiet: None };
        self.pass("survey, once more", &again, patient, addresses.len())
    }

    /// Reads some units one after the other.
    fn pass(
        &mut self,
        what: &str,
        some: &[u16],
        patience: Patience,
        of: usize,
    ) -> Result<(), String> {
        let mut progress = Progress::new(what.to_string(), some.len());
        for (i, &address) in some.iter().enumerate() {
            let failed = self.unread.len();
            progress.at(i, &format!("{} of {of} read, {failed} without", self.read.len()));
            if !self.ready() {
                let gone = "was not asked: the interface is gone".to_string();
                self.unread.entry(address).or_insert(Unread(gone));
                continue;
            }
            match self.one(address, patience) {
                Ok(read) => {
                    self.unread.remove(&address);
                    self.keep(&read);
                    self.read.insert(address, read);
                }
                Err(Trouble::Interrupted) => return Err(self.interrupted(of)),
                Err(trouble) => {
                    if matches!(trouble, Trouble::Interface(_)) {
                        self.lost();
                    }
                    let before = self.unread.remove(&address);
                    self.unread.insert(address, Unread::failed(before, &trouble));
                }
            }
        }
        Ok(())
    }

    fn interrupted(&self, of: usize) -> String {
        let read = self.read.len();
        match &self.folder {
            Some(folder) => {
                let folder = folder.display();
                format!("interrupted: {read} of {of} units stand in {folder}, and the same command goes on from there")
            }
            None => format!(
                "interrupted after {read} of {of} units; with --into DIR they would have been kept"
            ),
        }
    }

    fn one(&mut self, address: u16, patience: Patience) -> Result<Readout, Trouble> {
        let Some(bus) = &mut self.bus else {
            return Err(Trouble::Interface("the interface is gone".to_string()));
        };
        let mut unit = Unit::connect(bus, address, patience);
        let read = Readout::read(&mut unit, &self.plan, self.key);
        unit.close();
        read
    }

    /// The tunnel is of no use any more; what it recorded goes on.
    fn lost(&mut self) {
        if let Some(mut bus) = self.bus.take() {
            self.record = bus.record.take();
        }
    }

    /// Whether there is a tunnel, a new one if need be.
    fn ready(&mut self) -> bool {
        let via = self.asked.option("--via").unwrap_or(crate::bus::HERE);
        for pause in AGAIN {
            if self.bus.is_some() || sys::interrupted() {
                break;
            }
            std::thread::sleep(Duration::from_millis(pause));
            match Bus::open(via, self.asked.flag("--nat"), self.record.take()) {
                Ok(bus) => self.bus = Some(bus),
                Err((_, record)) => self.record = record,
            }
        }
        self.bus.is_some() || sys::interrupted()
    }

    /// Keeps a readout; what can't be kept is told, and the rest goes on.
    fn keep(&mut self, read: &Readout) {
        let Some(folder) = &self.folder else { return };
        if let Err(why) = kept::keep(Path::new(folder), read, &self.plan, self.key.is_some()) {
            self.unkept
                .insert(read.address, format!("read, and not kept in {}: {why}", folder.display()));
        }
    }

    /// What is known of a unit.
    fn seen(&self, address: u16, base: &Sheet) -> Seen {
        let name = individual_address(address);
        if let Some(read) = self.read.get(&address) {
            let (sheet, mut notes) = beside(base, read);
            if self.key.is_some() && read.level == 3 {
                notes.push("the key gives level 3, which everybody has".to_string());
            }
            notes.extend(self.unkept.get(&address).cloned());
            let serial = read.serial().is_some();
            return Seen { name, verdict: Verdict::Read, sheet: Some(sheet), serial, notes };
        }
        let why = self.unread.get(&address).map_or("was not asked", |unread| &unread.0);
        let why = why.to_string();
        Seen { name, verdict: Verdict::Unread(why), sheet: None, serial: false, notes: Vec::new() }
    }
}

/// A sheet of what was read; what was not is as in the reference, and told if it was asked for.
pub fn beside(base: &Sheet, read: &Readout) -> (Sheet, Vec<String>) {
    let mut notes = Vec::new();
    let level = read.level;
    let mut sheet = Sheet { address: read.address, ..base.clone() };
    sheet.mask.copy_from_slice(&read.mask);
    if let Some(serial) = read.serial() {
        sheet.serial = serial;
    }
    sheet.properties.clear();
    for p in &read.properties {
        let d = &p.described;
        let like = |q: &&Entry| (q.object, q.id) == (d.object, d.id);
        let known = base.properties.iter().find(like);
        let named = format!("property {}/{}", d.object, d.id);
        let told = p.elements.first().map(|e| e.len() as u8);
        let size = told.or(known.map(|q| q.size)).or(commands::size_of(d.class).map(|n| n as u8));
        let Some(size) = size else {
            notes.push(format!(
                "{named}: is there, which the reference has not, and its elements can't be read"
            ));
            continue;
        };
        if p.count.is_none() {
            notes.push(format!("{named}: reading is refused at level {level}"));
        }
        let mut body = vec![0; usize::from(size) * usize::from(d.maximum)];
        if let Some(q) = known.filter(|q| q.size == size) {
            let both = body.len().min(q.body.len());
            body[..both].copy_from_slice(&q.body[..both]);
        }
        let elements = p.elements.concat();
        // a serial number is a unit's own, and told as such
        let own = known.is_some() && (d.object, d.id) == SERIAL && read.serial().is_some();
        if !own {
            body[..elements.len()].copy_from_slice(&elements);
        }
        sheet.properties.push(Entry {
            object: d.object,
            id: d.id,
            class: d.class,
            writable: d.writable,
            size,
            maximum: d.maximum,
            count: p.count.or(known.map(|q| q.count)).unwrap_or(0),
            levels: sheet::layout::Levels { read: d.read, write: d.write },
            body,
        });
    }
    for (word, regions, to) in [
        ("region", &read.regions, &mut sheet.regions),
        ("user region", &read.users, &mut sheet.users),
    ] {
        for r in regions {
            let place = to.iter_mut().find(|q| q.address == r.address);
            match (&r.bytes, place) {
                (Some(bytes), Some(place)) if bytes.len() == place.body.len() => {
                    place.body.clone_from(bytes);
                }
                _ => {
                    let at = memory_address(r.address.into());
                    notes.push(format!("{word} {at}: reading is refused at level {level}"));
                }
            }
        }
    }
    (sheet, notes)
}
