//! What one unit holds, read property by property and region by region at the level that its key gave; as text, in the words of
//! a sheet's, which `kept` reads again.

use std::ops::RangeInclusive;

use sheet::asked::Asked;
use sheet::layout::{hex, individual_address, memory_address, Sheet};
use sheet::program::Said;
use sheet::show::{byte_line, element};

use crate::commands::{self, bytes, count, elements};
use crate::key::Key;
use crate::progress::Progress;
use crate::scan::SERIAL;
use crate::survey::reference;
use crate::trouble::Trouble;
use crate::unit::{Description, Unit};
use crate::values;

/// What is asked for.
#[derive(Clone, Debug, PartialEq, Eq)]
pub struct Plan {
    pub objects: RangeInclusive<u8>,
    /// Address and length of regions of memory and of user memory.
    pub regions: Vec<(u16, u16)>,
    pub users: Vec<(u16, u16)>,
    /// Without regions that are known: memory is looked for at each address that this divides.
    pub step: Option<u16>,
}

/// Without a reference memory is looked for so often: a request each.
pub const STEP: u16 = 256;

impl Plan {
    /// What a sheet has. Object 0 is asked for its serial number.
    pub fn of(sheet: &Sheet) -> Plan {
        let last = sheet.properties.iter().map(|p| p.object).max().unwrap_or(0);
        let places = |regions: &[sheet::layout::Region]| {
            regions.iter().map(|r| (r.address, r.body.len() as u16)).collect()
        };
        Plan {
            objects: 0..=last,
            regions: places(&sheet.regions),
            users: places(&sheet.users),
            step: None,
        }
    }

    /// In words, by which a readout that is kept is known to be of the same plan.
    pub fn words(&self) -> String {
        let places = |all: &[(u16, u16)]| {
            let all: Vec<String> = all.iter().map(|(at, n)| format!("{at:04x}+{n}")).collect();
            if all.is_empty() {
                "-".to_string()
            } else {
                all.join(",")
            }
        };
        let objects = format!("{}-{}", self.objects.start(), self.objects.end());
        format!("objects {objects} regions {} users {}", places(&self.regions), places(&self.users))
    }
}

#[derive(Clone, Debug, PartialEq, Eq)]
pub struct Property {
    pub described: Description,
    /// Without it reading is refused.
    pub count: Option<u16>,
    pub elements: Vec<Vec<u8>>,
}

#[derive(Clone, Debug, PartialEq, Eq)]
pub struct Region {
    pub address: u16,
    pub length: u16,
    /// None if reading is refused.
    pub bytes: Option<Vec<u8>>,
}

#[derive(Clone, Debug, PartialEq, Eq)]
pub struct Readout {
    pub address: u16,
    pub level: u8,
    pub mask: Vec<u8>,
    pub properties: Vec<Property>,
    pub regions: Vec<Region>,
    pub users: Vec<Region>,
}

/// The descriptions of all properties in some objects.
pub fn properties(
    unit: &mut Unit,
    objects: RangeInclusive<u8>,
) -> Result<Vec<Description>, Trouble> {
    let mut all = Vec::new();
    // a survey has a progress of its own, and does not ask all objects
    let all_of_them = objects == (0..=255);
    let mut progress = all_of_them.then(|| Progress::new("objects".to_string(), 256));
    for object in objects {
        if let Some(progress) = &mut progress {
            progress.at(object.into(), &format!("{} properties", all.len()));
        }
        for index in 0..=255 {
            match unit.description(object, 0, index)? {
                Some(d) => all.push(d),
                None => break,
            }
        }
    }
    Ok(all)
}

impl Readout {
    /// Reads a unit by a plan; a key that is there is offered first.
    pub fn read(unit: &mut Unit, plan: &Plan, key: Option<Key>) -> Result<Readout, Trouble> {
        let mask = unit.descriptor()?;
        if let Some(key) = key {
            unit.authorize(key)?;
        }
        let mut all = Vec::new();
        for described in properties(unit, plan.objects.clone())? {
            let which = (described.object, described.id);
            let count = count(unit, which)?.filter(|&n| n <= described.maximum);
            let read = match count {
                Some(0) => Some(Vec::new()),
                Some(n) => elements(unit, which, 1, n)?,
                None => None,
            };
            let (count, elements) = (count.filter(|_| read.is_some()), read.unwrap_or_default());
            all.push(Property { described, count, elements });
        }
        all.sort_by_key(|p| (p.described.object, p.described.id));
        let (mut regions, mut users) = (Vec::new(), Vec::new());
        for (user, from, to) in
            [(false, &plan.regions, &mut regions), (true, &plan.users, &mut users)]
        {
            for &(address, length) in from {
                let bytes = bytes(unit, user, address, length.into())?.ok();
                to.push(Region { address, length, bytes });
            }
        }
        if let Some(step) = plan.step {
            regions = looked_for(unit, false, step)?;
            users = looked_for(unit, true, step)?;
        }
        let (address, level) = (unit.address, unit.level);
        Ok(Readout { address, level, mask, properties: all, regions, users })
    }

    /// The serial number, if a property tells it.
    pub fn serial(&self) -> Option<[u8; 6]> {
        let p = self.properties.iter().find(|p| (p.described.object, p.described.id) == SERIAL)?;
        p.elements.first()?.as_slice().try_into().ok()
    }

    pub fn text(&self) -> String {
        let mut out = format!("unit {}\nlevel {}\n", individual_address(self.address), self.level);
        out += &format!("mask {}\n", hex(&self.mask));
        let serial = self.serial().map_or("not told".to_string(), |s| hex(&s));
        out += &format!("serial {serial}\n");
        for p in &self.properties {
            out += &property_text(p);
        }
        for (word, regions) in [("region", &self.regions), ("user", &self.users)] {
            for r in regions {
                out += &region_text(word, r);
            }
        }
        out + "\nend\n"
    }
}

fn property_text(p: &Property) -> String {
    let d = &p.described;
    let writable = if d.writable { " writable" } else { "" };
    let (object, id, class, maximum) = (d.object, d.id, d.class, d.maximum);
    let size = p.elements.first().map_or(String::new(), |e| format!(" size {}", e.len()));
    let count = p.count.map_or(" refused".to_string(), |n| format!(" count {n}"));
    let head =
        format!("\nproperty {object}/{id} type {class}{writable}{size} maximum {maximum}{count}");
    let mut out = format!("{head} r{} w{}\n", d.read, d.write);
    for row in p.elements.chunks(8) {
        let words: Vec<String> = row.iter().map(|bytes| element(bytes)).collect();
        out += &format!("    {}\n", words.join(" "));
    }
    out
}

fn region_text(word: &str, r: &Region) -> String {
    let refused = if r.bytes.is_none() { " refused" } else { "" };
    let at = memory_address(r.address.into());
    let mut out = format!("\n{word} {at} length {}{refused}\n", r.length);
    for row in r.bytes.as_deref().unwrap_or_default().chunks(16) {
        out += &format!("    {}\n", byte_line(row));
    }
    out
}

/// Memory that can be read, looked for at each address that the step divides, and from there on to both sides.
fn looked_for(unit: &mut Unit, user: bool, step: u16) -> Result<Vec<Region>, Trouble> {
    let mut all: Vec<Region> = Vec::new();
    let what = if user { "user memory" } else { "memory" };
    let mut progress = Progress::new(what.to_string(), 65_536);
    for at in (0..=65_535u32).step_by(step.into()) {
        progress.at(at as usize, &format!("{} regions", all.len()));
        let end = all.last().map_or(0, |r| u32::from(r.address) + u32::from(r.length));
        if at < end || unit.memory_read(user, at as u16, 1)?.is_none() {
            continue;
        }
        let first = grown(unit, user, at, end)?;
        let mut bytes = Vec::new();
        let mut next = first;
        while next <= 65_535 {
            let many = (65_536 - next).min(11);
            // a whole row, or byte by byte to the region's end
            if let Some(row) = unit.memory_read(user, next as u16, many as u8)? {
                bytes.extend(row);
                next += many;
            } else if let Some(one) = unit.memory_read(user, next as u16, 1)? {
                bytes.extend(one);
                next += 1;
            } else {
                break;
            }
        }
        let length = bytes.len() as u16;
        all.push(Region { address: first as u16, length, bytes: Some(bytes) });
    }
    Ok(all)
}

/// The first address from which on memory can be read up to this one.
fn grown(unit: &mut Unit, user: bool, at: u32, end: u32) -> Result<u32, Trouble> {
    let mut first = at;
    while first > end && unit.memory_read(user, (first - 1) as u16, 1)?.is_some() {
        first -= 1;
    }
    Ok(first)
}

pub fn command(asked: &Asked, word: &str) -> Said {
    let plan = match asked.option("--reference") {
        Some(name) => Plan::of(&reference(name)?.1),
        None => {
            let step = asked.option("--step").map(|word| values::number("--step", word, 32_768));
            let step = step.transpose()?.map_or(STEP, |n| n as u16);
            if step == 0 {
                return Err("--step: 0 leads nowhere".to_string());
            }
            Plan { objects: 0..=255, regions: Vec::new(), users: Vec::new(), step: Some(step) }
        }
    };
    let key = commands::key(asked, false)?;
    commands::with_unit(asked, word, None, |unit| {
        let read = Readout::read(unit, &plan, key)?;
        let note = match plan.step {
            Some(1) | None => String::new(),
            Some(n) => format!(
                "# memory was looked for at every {n}th address: --step 1 finds every region\n"
            ),
        };
        Ok((note + &read.text(), 0))
    })
}
