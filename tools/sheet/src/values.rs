//! A sheet, and what a check says of one, for other programs: as JSON. Keys are hidden unless they are asked for, as in the text.

use crate::check::{Broken, OLD};
use crate::json::Json;
use crate::layout::{
    group_address, hex, individual_address, memory_address, Group, Kind, Levels, Property, Region,
    Sheet,
};
use crate::show::{element, GROUP_FLAGS, HIDDEN, PUBLIC};

/// All that a sheet says, under the names that its text has.
pub fn sheet(sheet: &Sheet, keys: bool) -> Json {
    Json::Object(vec![
        ("edition", sheet.edition.into()),
        ("old", (sheet.edition == 1).into()),
        ("rules", sheet.rules.into()),
        ("serial", hex(&sheet.serial).into()),
        ("mask", hex(&sheet.mask).into()),
        ("programming", sheet.programming.into()),
        ("verify", sheet.verify.into()),
        ("address", individual_address(sheet.address).into()),
        ("keys", list(sheet.keys.iter().enumerate(), |(level, of)| key(level, of, keys))),
        ("regions", list(&sheet.regions, region)),
        ("properties", list(&sheet.properties, property)),
        ("groups", list(&sheet.groups, group)),
        ("users", list(&sheet.users, region)),
    ])
}

fn list<T>(values: impl IntoIterator<Item = T>, told: impl Fn(T) -> Json) -> Json {
    Json::List(values.into_iter().map(told).collect())
}

fn key(level: usize, key: &[u8; 4], shown: bool) -> Json {
    let public = *key == PUBLIC;
    let word = if shown || public { hex(key) } else { HIDDEN.to_string() };
    Json::Object(vec![("level", level.into()), ("key", word.into()), ("public", public.into())])
}

fn levels(levels: Levels) -> [(&'static str, Json); 2] {
    [("read_level", levels.read.into()), ("write_level", levels.write.into())]
}

fn region(r: &Region) -> Json {
    let mut fields = vec![
        ("address", r.address.into()),
        ("name", memory_address(r.address.into()).into()),
        ("length", r.body.len().into()),
    ];
    fields.extend(levels(r.levels));
    fields.push(("bytes", hex(&r.body).into()));
    Json::Object(fields)
}

/// Elements as the text has them: numbers of up to four bytes as numbers, longer ones as hex digits and h; all of the body.
fn property(p: &Property) -> Json {
    let one = |bytes: &[u8]| match bytes.len() {
        ..=4 => Json::Number(bytes.iter().fold(0, |number, &b| number << 8 | u64::from(b))),
        _ => element(bytes).into(),
    };
    let mut fields = vec![
        ("object", p.object.into()),
        ("id", p.id.into()),
        ("type", p.class.into()),
        ("writable", p.writable.into()),
        ("size", p.size.into()),
        ("maximum", p.maximum.into()),
        ("count", p.count.into()),
    ];
    fields.extend(levels(p.levels));
    fields.push(("elements", list(p.body.chunks(p.size as usize), one)));
    Json::Object(fields)
}

fn group(g: &Group) -> Json {
    let flags = GROUP_FLAGS.map(|(bit, word)| (word, (g.flags & bit != 0).into()));
    let mut fields = vec![
        ("address", g.address.into()),
        ("name", group_address(g.address).into()),
        ("code", g.code.into()),
    ];
    fields.extend(flags);
    fields.push(("bytes", hex(&g.body).into()));
    Json::Object(fields)
}

/// What a check says: accepted, or old, or the rule that is broken first, with the entry's kind and its number from 0.
pub fn verdict(file: &str, checked: &Result<(), Broken>) -> Json {
    let broken = checked.as_ref().err();
    let old = broken.is_some_and(|broken| broken.rule == OLD);
    let rule = broken.filter(|_| !old).map(|broken| format!("S{}", broken.rule));
    let entry = broken.and_then(|broken| broken.entry).map_or(Json::Null, |(kind, number)| {
        let word = match kind {
            Kind::Region => "region",
            Kind::Property => "property",
            Kind::Group => "group",
            Kind::User => "user",
        };
        Json::Object(vec![("kind", word.into()), ("number", number.into())])
    });
    Json::Object(vec![
        ("file", file.into()),
        ("accepted", checked.is_ok().into()),
        ("old", old.into()),
        ("rule", rule.into()),
        ("entry", entry),
        ("why", broken.map(|broken| broken.why.clone()).into()),
    ])
}
