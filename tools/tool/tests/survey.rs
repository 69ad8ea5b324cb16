//! Forty units on a line, of which some are silent, slow, lose every third frame, are old, or answer for another: the report of
//! the survey is held, line by line, to what is known of them.

mod hall;

use std::collections::BTreeMap;
use std::fs;
use std::os::unix::fs::PermissionsExt;
use std::path::PathBuf;

use hall::{honest, Interface, Unit, Way, CONNECTS, DISCONNECTS, ENDS, WRITES};
use sheet::asked::{heard, Heard};
use sheet::layout::Sheet;
use sheet::survey::{survey_of, Seen, Verdict, Wanted};

const HELP: &str = include_str!("../kelindap-tool.txt");
const HURRY: u64 = 10;

const REFERENCE: &str = "edition 2
serial 00c501020304
mask 07b0
programming off
verify on
address 1.1.1
key 0 5a17c0de
key 1 22222222
key 2 33333333
region 0100h r3 w2
    00 01 02 03 04 05 06 07 08 09 0a 0b 0c 0d 0e 0f 10 11 12 13
region 0200h r1 w1
    a0 a1
property 0/11 type 22 size 6 maximum 1 count 1 r3 w0
    00c501020304h
property 1/51 type 4 writable size 2 maximum 3 count 2 r3 w1
    1000 1100
property 1/52 type 9 writable size 4 maximum 1 count 1 r3 w3
    70000
user 0000h r3 w1
    07
group 1/0/1 code 1 read write
    00
end
";

fn reference() -> (Vec<u8>, Sheet) {
    let bytes = sheet::make::bytes(REFERENCE).unwrap();
    let sheet = Sheet::read(&bytes).unwrap();
    (bytes, sheet)
}

pub struct Folder(pub PathBuf);

impl Folder {
    pub fn new(name: &str) -> Folder {
        let path = std::env::temp_dir().join(format!("kelindap-{name}-{}", std::process::id()));
        let _ = fs::remove_dir_all(&path);
        fs::create_dir_all(&path).unwrap();
        Folder(path)
    }

    fn file(&self, name: &str, bytes: &[u8]) -> String {
        let path = self.0.join(name);
        fs::write(&path, bytes).unwrap();
        fs::set_permissions(&path, PermissionsExt::from_mode(0o600)).unwrap();
        path.to_str().unwrap().to_string()
    }
}

impl Drop for Folder {
    fn drop(&mut self) {
        let _ = fs::remove_dir_all(&self.0);
    }
}

/// What the program says to these words, and its status.
fn said(words: &[&str]) -> Result<(String, u8), String> {
    tool::bus::hurry(HURRY);
    match heard(HELP, words).unwrap_or_else(|wrong| panic!("{}", wrong.told("tool"))) {
        Heard::Asked(asked) => tool::commands::obey(&asked)
            .map(|(bytes, status)| (String::from_utf8(bytes).unwrap(), status)),
        _ => panic!("help"),
    }
}

/// A unit's sheet: its own address and serial, and what is changed in it.
fn sheet_of(at: u16, change: impl Fn(&mut Sheet)) -> Vec<u8> {
    let mut sheet = reference().1;
    sheet.address = at;
    sheet.serial[5] = at as u8;
    sheet.properties[0].body[5] = at as u8;
    sheet.keys[1] = [0x22; 4];
    change(&mut sheet);
    sheet.bytes()
}

/// The units of the hall, with what is due of each: its sheet by the bus, or why it was not read.
fn hall() -> BTreeMap<u16, (Unit, Option<&'static str>)> {
    let mut all = BTreeMap::new();
    let mut put = |number: u16, way: Way, due: Option<&'static str>, sheet: Vec<u8>| {
        all.insert(0x1100 + number, (Unit::new(sheet, way), due));
    };
    for number in 1..=40u16 {
        let at = 0x1100 + number;
        let same = sheet_of(at, |_| {});
        let height = |value: u16| {
            sheet_of(at, |s| s.properties[1].body[..2].copy_from_slice(&value.to_be_bytes()))
        };
        match number {
            3 => put(number, Way::Silent, Some("does not answer"), same),
            4 => put(number, Way::Absent, Some("nobody has this address"), same),
            7 => put(number, Way::Slow(400), None, height(1500)),
            8 => put(number, Way::Slow(900), None, same),
            11 => put(number, Way::Loses(3), None, height(640)),
            12 => put(number, Way::Loses(3), None, same),
            14 => {
                let mut old = sheet_of(at, |s| s.users.clear());
                old[0] = 1;
                let why = "acknowledges the descriptor, and does not answer it";
                put(number, Way::Good, Some(why), old);
            }
            17 => {
                let why = "does not answer, and 1.1.18 answers in its place";
                put(number, Way::AnsweredBy(0x1112), Some(why), same);
            }
            21 => {
                let why = "stopped answering; once more: does not answer";
                put(number, Way::Stops(6), Some(why), same);
            }
            22 => {
                let why = "answers strangely: asked for property 0/11 from element 0, it answers property response";
                put(number, Way::Strange, Some(why), same);
            }
            23 => {
                let why = "turns us away: perhaps all its connections are taken";
                put(number, Way::TurnsAway, Some(why), same);
            }
            24 => put(number, Way::Doubles, None, height(1201)),
            // by meaning: a count, a level, memory, a property that is gone, one that is new, another mask
            27 => put(number, Way::Good, None, sheet_of(at, |s| s.properties[1].count = 3)),
            28 => put(number, Way::Good, None, sheet_of(at, |s| s.properties[1].levels.write = 3)),
            29 => put(number, Way::Good, None, sheet_of(at, |s| s.regions[0].body[13] = 0xEE)),
            30 => put(number, Way::Good, None, sheet_of(at, |s| drop(s.properties.remove(2)))),
            31 => put(
                number,
                Way::Good,
                None,
                sheet_of(at, |s| {
                    let mut new = s.properties[2].clone();
                    new.id = 99;
                    s.properties.push(new);
                }),
            ),
            32 => put(number, Way::Good, None, sheet_of(at, |s| s.mask = [0x57, 0xB0])),
            33 => put(number, Way::Good, None, sheet_of(at, |s| s.users[0].body[0] = 8)),
            34 => put(number, Way::Good, None, sheet_of(at, |s| s.properties[1].count = 0)),
            35 => put(number, Way::Good, None, sheet_of(at, |s| s.properties[0].body[5] = 36)),
            38..=40 => put(number, Way::Good, None, height(1250)),
            _ => put(number, Way::Good, None, same),
        }
    }
    all
}

/// What a bus tells of a sheet at a level: the rest is the reference's.
fn by_bus(bytes: &[u8], level: u8) -> (Sheet, Vec<String>) {
    let base = reference().1;
    let own = Sheet::read(bytes).unwrap();
    let serial = own.properties[0].body.clone().try_into().unwrap();
    let mut notes = Vec::new();
    let mut seen = Sheet { serial, address: own.address, mask: own.mask, ..base.clone() };
    seen.properties = own.properties.clone();
    for p in &mut seen.properties {
        let like = base.properties.iter().find(|q| (q.object, q.id) == (p.object, p.id));
        let valid = usize::from(p.size) * usize::from(p.count);
        if let Some(q) = like {
            let serial = (p.object, p.id) == (0, 11); // told as the unit's serial number
            let from = if serial { 0 } else { valid };
            p.body[from..].copy_from_slice(&q.body[from..]);
        }
    }
    for (r, own) in seen.regions.iter_mut().zip(&own.regions) {
        if level <= own.levels.read {
            r.body = own.body.clone();
        } else {
            notes.push(format!("region {:04x}h: reading is refused at level {level}", own.address));
        }
    }
    for (r, own) in seen.users.iter_mut().zip(&own.users) {
        r.body = own.body.clone();
    }
    (seen, notes)
}

fn due(
    units: &BTreeMap<u16, (Unit, Option<&str>)>,
    name: &str,
    level: u8,
) -> sheet::survey::Survey {
    let wanted = Wanted { height: (1, 51), bound: Some(200) };
    let seen = units.iter().map(|(&at, (unit, due))| {
        let name = format!("1.1.{}", at & 255);
        Ok(match due {
            Some(why) => {
                let verdict = Verdict::Unread(why.to_string());
                Seen { name, verdict, sheet: None, serial: false, notes: Vec::new() }
            }
            None => {
                let (sheet, notes) = by_bus(&unit.sheet, level);
                Seen { name, verdict: Verdict::Read, sheet: Some(sheet), serial: true, notes }
            }
        })
    });
    survey_of((name, &reference().0), seen, wanted, true).unwrap()
}

/// Lines that one text has and the other has not.
fn wrong_lines<'a>(got: &'a str, due: &'a str) -> Vec<&'a str> {
    let (got, due): (Vec<&str>, Vec<&str>) = (got.lines().collect(), due.lines().collect());
    let mut wrong: Vec<&str> = got.iter().filter(|line| !due.contains(line)).copied().collect();
    wrong.extend(due.iter().filter(|line| !got.contains(line)));
    wrong
}

#[test]
fn forty_units() {
    let folder = Folder::new("hall");
    let name = folder.file("tank.sheet", &reference().0);
    let key = folder.file("key", b"22222222\n");
    let into = folder.0.join("read").to_str().unwrap().to_string();
    let units = hall();
    let behind = units.iter().map(|(&at, (unit, _))| (at, unit.clone())).collect();
    let interface = Interface::new(behind, HURRY, honest);
    let via = format!("127.0.0.1:{}", interface.port);
    let words = |more: &[&'static str]| {
        let mut all = vec!["survey", "1.1.1-40", "--reference", &name, "--bound", "200"];
        all.extend(["--via", &via, "--limit", "400"]);
        all.extend(more);
        all.iter().map(|w| w.to_string()).collect::<Vec<_>>()
    };
    let run = |more: &[&'static str], last: &[&str]| {
        let words = words(more);
        let words: Vec<&str> =
            words.iter().map(String::as_str).chain(last.iter().copied()).collect();
        said(&words)
    };
    let started = std::time::Instant::now();
    let (text, status) = run(&[], &["--into", &into]).unwrap();
    let due = due(&units, &name, 3);
    assert_eq!(wrong_lines(&text, &due.text()), [""; 0], "wrong lines\n{text}");
    assert_eq!(text, due.text());
    assert_eq!(status, 1);
    // nothing was written, every connection ended, the channel closed
    assert_eq!(interface.count(WRITES), 0);
    assert_eq!(interface.count(CONNECTS), interface.count(DISCONNECTS));
    assert!(interface.count(ENDS) >= 39, "{}", interface.count(ENDS));
    println!("40 units in {:?}, at {HURRY} times the clock", started.elapsed());

    // what was read is not asked for again: without an interface the report is the same but for those that were not read
    let kept = fs::read_dir(&into).unwrap().count();
    assert_eq!(kept, units.values().filter(|(_, due)| due.is_none()).count());
    let connects = interface.count(CONNECTS);
    let some = ["survey", "1.1.1,1.1.7,1.1.11-12,1.1.27-40", "--reference", &name, "--via", &via];
    let some: Vec<&str> = some.iter().copied().chain(["--into", &into]).collect();
    let (again, _) = said(&some).unwrap();
    assert_eq!(interface.count(CONNECTS), connects, "it was asked for again");
    assert!(again.contains("18 units beside") && again.contains("18 read, 0 not read"), "{again}");
    // with a key it is, for more can be read
    let more = [&some[..], &["--key-file", &key]].concat();
    let more: Vec<&str> = more.iter().map(|w| if *w == some[1] { "1.1.27" } else { w }).collect();
    let (again, _) = said(&more).unwrap();
    assert_eq!(interface.count(CONNECTS), connects + 1);
    assert!(again.contains("units that were read in part: none"), "{again}");
    for file in fs::read_dir(&into).unwrap() {
        let text = fs::read_to_string(file.unwrap().path()).unwrap();
        assert!(!text.contains("22222222") && !text.contains("5a17c0de"), "{text}");
    }
    // as JSON and CSV, from what is kept
    let (json, _) = said(&[&some[..], &["--json"]].concat()).unwrap();
    assert!(
        json.starts_with("{\"reference\":") && json.contains("\"read\":18,\"not_read\":0"),
        "{json}"
    );
    let (csv, _) = said(&[&some[..], &["--csv"]].concat()).unwrap();
    assert!(csv.starts_with("unit,address,serial,verdict,finding,what,units\r\n"));
    assert!(
        csv.contains(
            "1.1.28,1.1.28,00c50102031c,read,open to all,property 1/51 has write level 3,1\r\n"
        ),
        "{csv}"
    );
}
