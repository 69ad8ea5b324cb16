//! Stores of versions: as text, each fault's words, what differs from a sheet; and random ones against the model.

use std::path::PathBuf;
use std::process::Command;

use model::device::{Session, Sessions};
use model::faults::Fault;
use model::gen::{self, stores, Rng};
use model::sheet::{OLD_SAMPLE, PUMP, SAMPLE};
use model::store;
use sheet::versions::{lines, text, Store, Version};

const INSTALLER: Sessions = [Session { open: true, level: 0 }, Session::CLOSED];

fn with_height(height: u16) -> Vec<u8> {
    let mut sheet = SAMPLE.to_vec();
    sheet[64..66].copy_from_slice(&height.to_be_bytes());
    sheet
}

/// A store of 70 bytes with two versions of the sample sheet, of which the second has a height of 1250.
fn two() -> Vec<u8> {
    let mut buffer = vec![0; 70];
    store::save(Fault::None, &SAMPLE, &mut buffer);
    store::save(Fault::None, &with_height(1250), &mut buffer);
    buffer
}

const TWO: &str = "2 versions, last number 2, 70 bytes, 10 free

version 1: 1 property, 18 bytes
property 1/51 type 4 writable size 2 maximum 2 count 1 r3 w1
    1000

version 2: 1 property, 18 bytes
property 1/51 type 4 writable size 2 maximum 2 count 1 r3 w1
    1250
";

#[test]
fn by_hand() {
    let store = Store::read(&two()).unwrap();
    assert_eq!(text(&store), TWO);
    let empty = Store::read(&[0, 0, 0, 7, 0, 0, 0, 0]).unwrap();
    assert_eq!(text(&empty), "0 versions, last number 7, 8 bytes, 0 free\n");
    let since = |number, sheet: &[u8]| lines(store.version(number).unwrap(), sheet).unwrap();
    assert!(since(1, &SAMPLE).is_empty());
    assert_eq!(since(1, &with_height(9000)), ["property 1/51 element 1: 1000 → 9000"]);
    assert_eq!(since(2, &with_height(9000)), ["property 1/51 element 1: 1250 → 9000"]);
    let mut cleared = SAMPLE;
    cleared[47] = 0;
    assert_eq!(since(1, &cleared), ["property 1/51 count: 1 → 0"]);
    // memory, keys and addresses are no settings
    let mut other = SAMPLE;
    other[17..30].fill(9);
    other[60] = 0;
    assert!(since(1, &other).is_empty());
    assert_eq!(since(1, &OLD_SAMPLE), ["a restore is refused by 14: the sheet is old, convert it"]);
    let refused = "a restore is refused by 36: entries differ in more than their counts";
    assert_eq!(since(1, &PUMP), ["property 1/51 offset: 64 → 80", refused]);
    let mut open = SAMPLE;
    open[50] = 0x33;
    assert_eq!(since(1, &open), ["property 1/51 write level: 1 → 3", refused]);
}

/// A version that a sheet could not have, and one that it could but for a count.
#[test]
fn no_settings() {
    let body = store::settings(&SAMPLE);
    let of = |body: Vec<u8>| Version { number: 1, body };
    let mut high = body.clone();
    high[9] = 3;
    assert_eq!(
        lines(&of(high), &SAMPLE).unwrap(),
        [
            "property 1/51 count: 3 → 1",
            "a restore is refused by 37: property 1/51, count 3 above maximum 2"
        ]
    );
    let cases = [
        (vec![], "0 bytes have no number of properties"),
        (vec![0, 2, 0], "2 entries end at 26, the version at 3"),
        (body[..17].to_vec(), "property 1/51: its body ends at 18, the version at 17"),
        ([&body[..], &[0]].concat(), "the last body ends at 18, the version at 19"),
    ];
    for (bytes, why) in cases {
        let why_so = format!("version 1 holds no settings: {why}");
        assert_eq!(lines(&of(bytes.clone()), &SAMPLE), Err(why_so));
        let (last, free) = (1, 0);
        let store = Store { last, versions: vec![of(bytes.clone())], length: 99, free };
        let said = format!("\nversion 1: no settings, {} bytes: {why}\n", bytes.len());
        assert!(text(&store).ends_with(&said), "{}", text(&store));
    }
    let mut bad = body;
    bad[5] = 11;
    let why = "version 1 holds no settings: property 1/51, size 11, not 1 to 10";
    assert_eq!(lines(&of(bad), &SAMPLE), Err(why.to_string()));
}

#[test]
fn faults() {
    let told = |at: usize, value: u8| {
        let mut bad = two();
        bad[at] = value;
        Store::read(&bad).unwrap_err()
    };
    assert_eq!(told(1, 9), "9 versions, more than 8");
    assert_eq!(told(6, 1), "byte 6 of the head is 1, not 0");
    assert_eq!(told(9, 0), "version 0, entry 0 of the table: the number is not above 0");
    assert_eq!(told(17, 1), "version 1, entry 1 of the table: the number is not above 1");
    assert_eq!(told(3, 1), "version 2, entry 1 of the table: the last number given is 1");
    assert_eq!(told(19, 2), "version 2, entry 1 of the table: kind 2, not 1");
    let starts = "its body starts at 43, and what is before it ends at 42";
    assert_eq!(told(21, 43), format!("version 2, entry 1 of the table: {starts}"));
    let ends = "version 2, entry 1 of the table: its body ends at 71, the store at 70";
    assert_eq!(told(23, 29), ends);
    assert_eq!(Store::read(&[0; 7]).unwrap_err(), "the store has 7 bytes, fewer than 8");
    assert_eq!(Store::read(&[0; 40_000]).unwrap_err(), "the store has more than 32768 bytes");
    let short = Store::read(&two()[..20]).unwrap_err();
    assert_eq!(short, "the table ends at 24, the store at 20");
}

/// The model gives the same verdict, keeps the same versions, and refuses to restore where a line says so.
#[test]
fn random() {
    let mut seen = std::collections::BTreeMap::new();
    for seed in 0..6000 {
        let rng = &mut Rng::new(seed);
        let sheet = gen::whole_sheet(rng);
        let old = sheet[0] == 1;
        let bad = seed % 3 == 0;
        let bytes = if bad { stores::bad_store(rng, &sheet) } else { stores::store(rng, &sheet) };
        let read = Store::read(&bytes);
        assert_eq!(read.is_ok(), store::check(&bytes) == 0, "seed {seed}");
        let Ok(read) = read else { continue };
        let kept = store::Store::read(&bytes).unwrap().versions;
        let same = |(a, b): (&Version, &store::Version)| a.number == b.number && a.body == b.body;
        assert!(kept.len() == read.versions.len() && read.versions.iter().zip(&kept).all(same));
        for version in &read.versions {
            let number = version.number.into();
            let outcome =
                store::restore(Fault::None, &INSTALLER, 0, &mut sheet.clone(), &bytes, number);
            let Ok(lines) = lines(version, &sheet) else {
                assert_eq!(outcome, if old { 14 } else { 36 }, "seed {seed}");
                continue;
            };
            let last = lines.last().and_then(|l| l.strip_prefix("a restore is refused by "));
            let said = last.map_or(1, |l| l[..2].parse().unwrap());
            assert_eq!(said, outcome, "seed {seed}, version {number}");
            let same = version.body == store::settings(&sheet);
            assert_eq!(lines.is_empty(), same && !old, "seed {seed}");
            *seen.entry(outcome).or_insert(0) += 1;
        }
    }
    for outcome in [1, 14, 36, 37] {
        assert!(seen.get(&outcome).is_some_and(|&n| n > 100), "{seen:?}");
    }
}

#[test]
fn program() {
    let room = PathBuf::from(env!("CARGO_TARGET_TMPDIR")).join("versions");
    std::fs::create_dir_all(&room).unwrap();
    let write = |name: &str, bytes: &[u8]| std::fs::write(room.join(name), bytes).unwrap();
    write("store", &two());
    write("bad", &two()[..20]);
    write("sheet", &with_height(9000));
    write("same", &SAMPLE);
    write("broken", &[1; 40]);
    let told = |words: &[&str]| {
        let mut program = Command::new(env!("CARGO_BIN_EXE_sheet"));
        let got = program.args(words).current_dir(&room).output().unwrap();
        let text = |bytes| String::from_utf8(bytes).unwrap();
        (got.status.code().unwrap(), text(got.stdout), text(got.stderr))
    };
    let said = |status, out: &str, err: &str| (status, out.to_string(), err.to_string());
    assert_eq!(told(&["versions", "store"]), said(0, TWO, ""));
    let bad = "30: the table ends at 24, the store at 20\n";
    assert_eq!(told(&["versions", "bad"]), said(1, bad, ""));
    let line = "property 1/51 element 1: 1000 → 9000\n";
    assert_eq!(told(&["versions", "diff", "store", "1", "sheet"]), said(1, line, ""));
    assert_eq!(told(&["versions", "diff", "store", "1", "same"]), said(0, "", ""));
    let none = "sheet: store: no version has the number 3\n";
    assert_eq!(told(&["versions", "diff", "store", "3", "same"]), said(2, "", none));
    let word = "sheet: no number of a version: \"x\"\n";
    assert_eq!(told(&["versions", "diff", "store", "x", "same"]), said(2, "", word));
    assert_eq!(told(&["versions", "diff", "bad", "1", "same"]).2, format!("sheet: bad: {bad}"));
    assert_eq!(told(&["versions", "diff", "store", "1", "broken"]).0, 2);
    assert_eq!(told(&["versions", "diff", "store", "1"]).0, 2);
}
