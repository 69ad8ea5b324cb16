//! `sheet check|show|make|diff`: the device sheet as text; `sheet convert`: an old one made new; `sheet versions`: its store of
//! versions; `sheet slots`: the medium that keeps either through power cuts; `sheet survey`: many dumps beside one. Exit status 0;
//! 1 if a sheet is not accepted, or not old where that is asked for, a store not good, neither slot of a medium counts, two differ,
//! or a survey found something;
//! 2 with a line on standard error for anything else: a file that can't be read, a text with a fault, a wrong word.
//! `--help` and `--version` are asked for, so they go to standard output with status 0.

use std::fs;
use std::io::{self, Write};
use std::process::ExitCode;

use sheet::asked::Asked;
use sheet::check::{check, rules};
use sheet::convert::converted;
use sheet::diff;
use sheet::json::Json;
use sheet::kinds::{self, File};
use sheet::layout::Sheet;
use sheet::program::{line, read, to_a_terminal, Program, Said};
use sheet::show::{self, plain};
use sheet::versions::{self, Store};
use sheet::{list, make, slots, values};

mod surveyed;

const PROGRAM: Program = Program { help: include_str!("../kelindap-sheet.txt") };

/// The longest text that is read: some twenty times that of the longest sheet.
const LONGEST_TEXT: u64 = 1 << 22;

fn main() -> ExitCode {
    PROGRAM.run(obey)
}

fn obey(asked: &Asked) -> Said {
    match (asked.command, &asked.words[..]) {
        ("check", [file]) => checked(file, asked.flag("--json")),
        ("show", [file]) => shown(file, asked.flag("--keys"), asked.flag("--json")),
        ("make", [text]) => made(text, asked.flag("--c")),
        ("diff", [a, b]) => differ(a, b, asked.flag("--json")),
        ("convert", [old, new]) => convert(old, new, asked.flag("--force")),
        ("versions", [store]) => listed(store),
        ("versions diff", [store, number, file]) => since(store, number, file),
        ("slots", [file]) => medium(file, asked.flag("--json")),
        ("survey", [folder]) => surveyed::surveyed(folder, asked),
        (command, _) => Err(format!("{command} has no such words")),
    }
}

/// The bytes of a file that should be a sheet, or a medium that keeps one: one that breaks a rule too, but none that is something else.
fn load(name: &str) -> Result<Vec<u8>, String> {
    let bytes = kept(name)?;
    match rules(&bytes).err().and_then(|_| kinds::other(&bytes, File::Sheet)) {
        Some(what) => Err(format!("{name}: {what}")),
        None => Ok(bytes),
    }
}

/// The bytes of a file, or those that a dump of a medium keeps.
fn kept(name: &str) -> Result<Vec<u8>, String> {
    slots::kept(read(name, slots::MOST)?).map_err(|why| format!("{name}: {why}"))
}

/// A sheet that breaks no rule.
fn whole(name: &str) -> Result<Sheet, String> {
    load(name).and_then(|bytes| Sheet::read(&bytes).map_err(|broken| format!("{name}: {broken}")))
}

fn checked(name: &str, json: bool) -> Said {
    let verdict = check(&load(name)?);
    let status = u8::from(verdict.is_err());
    let said = match (&verdict, json) {
        (verdict, true) => line(values::verdict(&plain(name), verdict)),
        (Ok(()), false) => line("OK"),
        (Err(broken), false) => line(broken),
    };
    Ok((said, status))
}

fn shown(name: &str, keys: bool, json: bool) -> Said {
    let bytes = load(name)?;
    Ok(match Sheet::read(&bytes) {
        Ok(sheet) if json => (line(values::sheet(&sheet, keys)), 0),
        Ok(sheet) => (show::text(&sheet, keys).into_bytes(), 0),
        Err(broken) if json => (line(values::verdict(&plain(name), &Err(broken))), 1),
        Err(broken) => (line(broken), 1),
    })
}

fn made(name: &str, as_list: bool) -> Said {
    if !as_list && to_a_terminal() {
        return Err("a sheet is no text for a terminal: make TEXT > FILE".to_string());
    }
    let bytes = read(name, LONGEST_TEXT + 1)?;
    if bytes.len() as u64 > LONGEST_TEXT {
        return Err(format!("{name}: more than {LONGEST_TEXT} bytes, which is no sheet's text"));
    }
    let made = match std::str::from_utf8(&bytes) {
        Ok(text) => make::bytes(text).map_err(|fault| fault.to_string()),
        Err(why) => {
            let upto = &bytes[..why.valid_up_to()];
            let at = 1 + upto.iter().filter(|&&b| b == b'\n').count();
            Err(format!("line {at}: a byte that is no text"))
        }
    };
    let fault = |fault: String| match kinds::of(&bytes) {
        Some(File::Text) => fault, // its first line is wrong, or not there
        _ => kinds::fault(&bytes, File::SheetText, fault),
    };
    let out = |sheet: Vec<u8>| if as_list { list::text(&sheet).into_bytes() } else { sheet };
    made.map(|sheet| (out(sheet), 0)).map_err(|why| format!("{name}: {}", fault(why)))
}

/// Converts a sheet into a file, which is not there yet unless it may be replaced; what has changed.
fn convert(old: &str, new: &str, force: bool) -> Said {
    if new == "-" {
        return Err("a sheet is converted into a file, and - is none".to_string());
    }
    let bytes = load(old)?;
    let made = match converted(&bytes) {
        Ok(made) => made,
        Err(why) => return Ok((line(why), 1)),
    };
    keep(new, &made, force).map_err(|why| match why.kind() {
        io::ErrorKind::AlreadyExists => format!("{new} is there already: --force replaces it"),
        _ => format!("{new}: {why}"),
    })?;
    let lines = Sheet::read(&bytes).and_then(|old| Ok(diff::lines(&old, &Sheet::read(&made)?)));
    Ok((lines.map_err(|broken| broken.to_string())?.iter().flat_map(line).collect(), 0))
}

/// Writes a file that is not there yet. To replace one, it is written beside it under another name and then renamed, so that at
/// any moment the old one or the new one is there, whole.
fn keep(name: &str, bytes: &[u8], replace: bool) -> io::Result<()> {
    let beside = format!("{name}.{}", std::process::id());
    let first = if replace { &beside } else { name };
    let mut file = fs::File::create_new(first)?;
    let written = file.write_all(bytes).and_then(|()| file.sync_all());
    let done = written.and_then(|()| if replace { fs::rename(first, name) } else { Ok(()) });
    if done.is_err() {
        let _ = fs::remove_file(first); // a part of a sheet is none
    }
    done
}

fn differ(a: &str, b: &str, json: bool) -> Said {
    let found = diff::differences(&whole(a)?, &whole(b)?);
    let status = u8::from(!found.is_empty());
    if !json {
        return Ok((found.iter().flat_map(line).collect(), status));
    }
    let object = vec![
        ("from", plain(a).into()),
        ("to", plain(b).into()),
        ("same", found.is_empty().into()),
        ("differences", Json::List(found.iter().map(diff::Difference::json).collect())),
    ];
    Ok((line(Json::Object(object)), status))
}

/// A store, or what is wrong with it; or with the file, if it is something else.
fn stored(name: &str) -> Result<Result<Store, String>, String> {
    let bytes = kept(name)?;
    match (Store::read(&bytes), kinds::other(&bytes, File::Store)) {
        (Ok(store), _) => Ok(Ok(store)),
        (Err(_), Some(what)) => Err(format!("{name}: {what}")),
        (Err(why), None) => Ok(Err(format!("30: {why}"))),
    }
}

/// Both slots of a medium; one that is something else is told as that.
fn medium(name: &str, json: bool) -> Said {
    let bytes = read(name, slots::MOST)?;
    match kinds::other(&bytes, File::Medium) {
        Some(what) => Err(format!("{name}: {what}")),
        None if bytes.len() % 2 == 1 || bytes.len() < 2 * slots::HEAD => {
            let long = versions::number_of(bytes.len(), "byte", "bytes");
            Err(format!(
                "{name}: {long} are no two slots: each is a half of a dump, and has {} at least",
                slots::HEAD
            ))
        }
        None => {
            let status = u8::from(slots::Medium::of(&bytes).counts().is_none());
            Ok((
                if json {
                    line(slots::json(&plain(name), &bytes))
                } else {
                    slots::text(&bytes).into_bytes()
                },
                status,
            ))
        }
    }
}

fn listed(name: &str) -> Said {
    Ok(match stored(name)? {
        Ok(store) => (versions::text(&store).into_bytes(), 0),
        Err(why) => (line(why), 1),
    })
}

/// What has changed in a sheet since a version was saved.
fn since(store: &str, number: &str, file: &str) -> Said {
    let kept = stored(store)?.map_err(|why| format!("{store}: {why}"))?;
    let n = number.parse().map_err(|_| format!("no number of a version: \"{number}\""))?;
    let version =
        kept.version(n).ok_or_else(|| format!("{store}: no version has the number {n}"))?;
    let bytes = load(file)?;
    rules(&bytes).map_err(|broken| format!("{file}: {broken}"))?;
    let lines = versions::lines(version, &bytes).map_err(|why| format!("{store}: {why}"))?;
    let status = u8::from(!lines.is_empty());
    Ok((lines.iter().flat_map(line).collect(), status))
}
