//! The survey: each finding, its forms, its words and faults; and that four hundred long sheets take no long time.

use std::ffi::OsStr;
use std::fs;
use std::os::unix::ffi::OsStrExt;
use std::os::unix::fs::symlink;
use std::path::{Path, PathBuf};
use std::process::{Command, Stdio};

const REFERENCE: &str = "edition 2
rules 0
serial 00c501020304
mask 07b0
programming off
verify on
address 1.1.5
key 0 5a17c0de
key 1 22222222
key 2 77777777

region 0100h r3 w2
    a0 a1 a2 a3

property 1/51 type 4 writable size 2 maximum 2 count 1 r3 w1
    1000
property 1/52 type 4 size 2 maximum 1 count 1 r3 w3
    5

group 1/0/1 code 1 read write
    00

user 0200h r3 w2
    01 02

end
";

/// A dump by its name and what is changed in the reference's text.
type Dump = (&'static str, &'static [(&'static str, &'static str)]);

const DUMPS: [Dump; 10] = [
    (
        "a.sheet",
        &[
            ("0304", "0311"),
            ("1.1.5", "1.1.11"),
            ("5a17", "1111"),
            ("2222", "1234"),
            ("7777", "1235"),
        ],
    ),
    (
        "b.sheet",
        &[
            ("0304", "0312"),
            ("1.1.5", "1.1.12"),
            ("    1000", "    1250"),
            ("r3 w2", "r3 w3"),
            ("5a17", "1112"),
            ("7777", "1236"),
        ],
    ),
    (
        "c.sheet",
        &[
            ("0304", "0313"),
            ("1.1.5", "1.1.13"),
            ("    1000", "    640"),
            ("rules 0", "rules 1"),
            ("5a17c0de", "ffffffff"),
            ("22222222", "abcdef01"),
            ("7777", "1237"),
        ],
    ),
    (
        "d.sheet",
        &[
            ("0304", "0314"),
            ("1.1.5", "1.1.14"),
            ("    1000", "    1250"),
            ("5a17", "1113"),
            ("22222222", "01020304"),
            ("77777777", "abcdef01"),
            ("0200h r3 w2", "0200h r3 w3"),
        ],
    ),
    (
        "e.sheet",
        &[
            ("property 1/51 type 4 writable size 2 maximum 2 count 1 r3 w1\n    1000\n", ""),
            ("5a17", "1114"),
            ("2222", "1238"),
            ("7777", "1239"),
        ],
    ),
    (
        "f, \"old\".sheet",
        &[
            ("edition 2\nrules 0", "edition 1"),
            ("user 0200h r3 w2\n    01 02\n", ""),
            ("5a17", "1115"),
            ("2222", "1240"),
            ("7777", "1241"),
        ],
    ),
    (
        "g.sheet",
        &[
            ("    1000", "    1000 0"),
            ("r3 w1", "r3 w3"),
            ("5a17", "1116"),
            ("2222", "1242"),
            ("7777", "1243"),
        ],
    ),
    // one key for two levels, a key of zeros, a serial number and an address that are there already, a name that is a formula
    (
        "=1+1.sheet",
        &[
            ("0304", "0311"),
            ("1.1.5", "1.1.12"),
            ("5a17c0de", "33334444"),
            ("22222222", "33334444"),
            ("77777777", "00000000"),
        ],
    ),
    // a counted element that the reference has not, and out of bound
    (
        "h.sheet",
        &[
            ("0304", "0318"),
            ("1.1.5", "1.1.18"),
            ("count 1 r3 w1\n    1000", "count 2 r3 w1\n    1000 640"),
            ("5a17", "1118"),
            ("2222", "1246"),
            ("7777", "1247"),
        ],
    ),
    ("same.sheet", &[("5a17", "1117"), ("2222", "1244"), ("7777", "1245")]),
];

fn text(changes: &[(&str, &str)]) -> String {
    changes.iter().fold(REFERENCE.to_string(), |text, (from, to)| {
        assert!(text.contains(from), "{from}");
        text.replacen(from, to, 1)
    })
}

fn room(name: &str) -> PathBuf {
    let room = PathBuf::from(env!("CARGO_TARGET_TMPDIR")).join(name);
    let _ = fs::remove_dir_all(&room);
    fs::create_dir_all(room.join("dumps/folder")).unwrap();
    fs::write(room.join("reference"), sheet::make::bytes(REFERENCE).unwrap()).unwrap();
    for (name, changes) in DUMPS {
        fs::write(room.join("dumps").join(name), made(&text(changes))).unwrap();
    }
    fs::write(room.join("dumps/notes.txt"), "no dump\n").unwrap();
    fs::write(room.join("dumps/long"), [1; 20_000]).unwrap();
    room
}

/// The bytes of a text; those of an old sheet are its conversion's but for the edition.
fn made(text: &str) -> Vec<u8> {
    let mut bytes = sheet::make::bytes(&text.replace("edition 1", "edition 2")).unwrap();
    bytes[0] = if text.contains("edition 1") { 1 } else { 2 };
    bytes
}

fn told(room: &Path, words: &[&str]) -> (i32, String, String) {
    let program = env!("CARGO_BIN_EXE_sheet");
    let got =
        Command::new(program).args(words).current_dir(room).stdin(Stdio::null()).output().unwrap();
    let text = |bytes| String::from_utf8(bytes).unwrap();
    (got.status.code().unwrap(), text(got.stdout), text(got.stderr))
}

fn said(status: i32, out: &str, err: &str) -> (i32, String, String) {
    (status, out.to_string(), err.to_string())
}

/// What the program says is what stands in a file; WRITE_GOLDEN in the environment writes it there.
fn golden(room: &Path, name: &str, words: &[&str]) {
    let (status, out, err) = told(room, words);
    assert_eq!((status, err.as_str()), (1, ""));
    let path = format!("{}/tests/golden/{name}", env!("CARGO_MANIFEST_DIR"));
    if std::env::var_os("WRITE_GOLDEN").is_some() {
        fs::write(&path, &out).unwrap();
    }
    assert_eq!(out, fs::read_to_string(&path).unwrap(), "{name}");
}

#[test]
fn every_finding() {
    let room = room("survey");
    let words = ["survey", "dumps", "--reference", "reference", "--bound", "200"];
    golden(&room, "survey.txt", &words);
    golden(&room, "survey.json", &[&words[..], &["--json"]].concat());
    golden(&room, "survey.csv", &[&words[..], &["--csv"]].concat());
    // no key stands in any of them
    for name in ["survey.txt", "survey.json", "survey.csv"] {
        let path = format!("{}/tests/golden/{name}", env!("CARGO_MANIFEST_DIR"));
        let text = fs::read_to_string(path).unwrap().to_lowercase();
        for key in ["5a17c0de", "22222222", "77777777", "abcdef01", "1111c0de", "12342222"] {
            assert!(!text.contains(key), "{name} has {key}");
        }
    }
}

#[test]
fn bounds() {
    let room = room("bounds");
    let none = text(&[("count 1 r3 w1", "count 0 r3 w1")]);
    fs::write(room.join("dumps/none.sheet"), made(&none)).unwrap();
    let heights = |words: &[&str]| {
        let words = [&["survey", "dumps", "--reference", "reference"][..], words].concat();
        let out = told(&room, &words).1;
        let lines = out.lines().skip_while(|line| !line.starts_with("heights"));
        lines.take_while(|line| !line.is_empty()).map(str::to_string).collect::<Vec<_>>()
    };
    assert_eq!(heights(&[]), ["heights: no bound is given"]);
    let title = "heights, property 1/51, further than 250 from the reference's";
    let below = "  c.sheet: property 1/51 element 1 is 640, 360 below the reference's 1000";
    let missing = "  e.sheet: property 1/51 is missing";
    let more = "  h.sheet: property 1/51 element 2 is 640, which the reference has not, 360 below its nearest, 1000";
    let none = "  none.sheet: property 1/51 element 1 is missing";
    assert_eq!(heights(&["--bound", "250"]), [title, below, missing, more, none]);
    assert_eq!(heights(&["--bound", "249"]).len(), 7);
    assert_eq!(
        heights(&["--bound", "360", "--height", "1/52"]),
        ["heights, property 1/52, further than 360 from the reference's: none"]
    );
}

/// Nothing to tell: status 0.
#[test]
fn clean() {
    let room = room("clean");
    fs::create_dir(room.join("one")).unwrap();
    let text = text(&[("0304", "0311"), ("1.1.5", "1.1.11")]);
    fs::write(room.join("one/unit"), made(&text)).unwrap();
    let words = ["survey", "one", "--reference", "reference", "--csv"];
    let (status, out, err) = told(&room, &words);
    // the reference's keys are the unit's
    assert_eq!((status, err.as_str(), out.lines().count()), (1, "", 4));
    assert!(
        out.contains(",shared key,key of level 1 is that of the reference level 1,1\r\n"),
        "{out}"
    );
    let keys = [("5a17c0de", "00000001"), ("22222222", "00000002"), ("77777777", "00000003")];
    let other = keys.iter().fold(text, |text, (from, to)| text.replace(from, to));
    fs::write(room.join("one/unit"), made(&other)).unwrap();
    let nothing = "unit,address,serial,verdict,finding,what,units\r
unit,1.1.11,00c501020311,accepted,,,0\r
";
    assert_eq!(told(&room, &words), said(0, nothing, ""));
    fs::create_dir(room.join("none")).unwrap();
    fs::copy(room.join("reference"), room.join("none/reference")).unwrap();
    // the reference itself is no unit
    let out = "0 units beside none/reference: 0 accepted, 0 old, 0 broken\n";
    let (status, text, _) = told(&room, &["survey", "none", "--reference", "none/reference"]);
    assert_eq!((status, text.starts_with(out)), (0, true), "{text}");
}

#[test]
fn faults() {
    let room = room("survey-faults");
    fs::write(room.join("bad"), "x").unwrap();
    let cases: [(&[&str], &str); 9] = [
        (
            &["nothing", "--reference", "reference"],
            "nothing: No such file or directory (os error 2)",
        ),
        (&["reference", "--reference", "reference"], "reference: Not a directory (os error 20)"),
        (&["dumps", "--reference", "nothing"], "nothing: No such file or directory (os error 2)"),
        (&["dumps", "--reference", "bad"], "bad: this is a text, and a sheet is wanted"),
        (&["dumps", "--reference", "reference", "--bound", "x"], "--bound: no number: \"x\""),
        (&["dumps", "--reference", "reference", "--bound", "-1"], "--bound: no number: \"-1\""),
        (
            &["dumps", "--reference", "reference", "--height", "51"],
            "--height: no object and id, as 1/51: \"51\"",
        ),
        (
            &["dumps", "--reference", "reference", "--height", "+1/51"],
            "--height: no object and id, as 1/51: \"+1/51\"",
        ),
        (
            &["dumps", "--reference", "reference", "--height", "9/9", "--bound", "1"],
            "reference: no property 9/9, to which a bound is given",
        ),
    ];
    for (words, what) in cases {
        let words = [&["survey"][..], words].concat();
        assert_eq!(told(&room, &words), said(2, "", &format!("sheet: {what}\n")), "{words:?}");
    }
    let more = "sheet survey --help says more";
    let cases: [(&[&str], String); 6] = [
        (&[], format!("DIR and --reference SHEET are missing; {more}")),
        (&["dumps"], format!("--reference SHEET is missing; {more}")),
        (&["dumps", "--reference"], format!("--reference needs SHEET; {more}")),
        (
            &["dumps", "dumps", "--reference", "reference"],
            format!("a word too many: \"dumps\"; {more}"),
        ),
        (
            &["dumps", "--reference=reference", "--json", "--csv"],
            "--json and --csv are two forms, and one is written".to_string(),
        ),
        (&["dumps", "--reference", "reference", "--al"], format!("no option \"--al\"; {more}")),
    ];
    for (words, what) in cases {
        let words = [&["survey"][..], words].concat();
        assert_eq!(told(&room, &words), said(2, "", &format!("sheet: {what}\n")), "{words:?}");
    }
    // a link to a dump that is not there: a unit that would be missed
    symlink("nowhere", room.join("dumps/unit")).unwrap();
    let missed = "sheet: dumps/unit: No such file or directory (os error 2)\n";
    let words = ["survey", "dumps", "--reference", "reference"];
    assert_eq!(told(&room, &words), said(2, "", missed));
    fs::remove_file(room.join("dumps/unit")).unwrap();
    fs::write(room.join("dumps").join(OsStr::from_bytes(b"\xffx")), "").unwrap();
    let no_text = "sheet: dumps: a name that is no text: \u{fffd}x\n";
    assert_eq!(told(&room, &words), said(2, "", no_text));
}

/// Of many names the first six; JSON has them all.
#[test]
fn many_names() {
    let room = room("names");
    fs::create_dir(room.join("eight")).unwrap();
    for unit in 0..8 {
        let other = made(&text(&[("    1000", "    1250")]));
        fs::write(room.join(format!("eight/{unit}")), other).unwrap();
    }
    let words = ["survey", "eight", "--reference", "reference", "--json"];
    let out = told(&room, &words[..4]).1;
    let named =
        "   8  property 1/51 element 1: 1000 → 1250\n          0, 1, 2, 3, 4, 5 and 2 more\n";
    assert!(out.contains(named), "{out}");
    let all = "\"number\":8,\"units\":[\"0\",\"1\",\"2\",\"3\",\"4\",\"5\",\"6\",\"7\"]";
    assert!(told(&room, &words).1.contains(all));
}

/// Four hundred of the longest sheets, each other than the reference in every byte of memory, are told in a time that nobody
/// waits for; `make bench` measures it.
#[test]
fn four_hundred() {
    let room = room("many");
    fs::create_dir(room.join("many")).unwrap();
    let head = "edition 2\nserial 00c501020304\nmask 07b0\nprogramming off\nverify on\naddress 1.1.5\nkey 0 00000000\nkey 1 00000001\nkey 2 00000002\nregion 0000h r3 w2\n";
    let text = |byte: u8| {
        let line = format!("{}\n", format!("{byte:02x} ").repeat(16));
        head.to_string() + &line.repeat(1021) + "end\n"
    };
    fs::write(room.join("reference"), made(&text(0))).unwrap();
    for unit in 0..400 {
        fs::write(room.join(format!("many/{unit:03}")), made(&text(unit as u8 | 1))).unwrap();
    }
    let (status, out, _) = told(&room, &["survey", "many", "--reference", "reference"]);
    assert_eq!(status, 1);
    assert!(out.starts_with("400 units beside reference: 400 accepted, 0 old, 0 broken\n"));
    assert_eq!(out.matches("; and 2030 more\n").count(), 400);
    assert_eq!(
        out.lines().filter(|line| line.contains("memory ") && line.starts_with("   ")).count(),
        128 * 2042
    );
}
