//! docs/TRACE.md runs: each line of it that begins with $ and has one of the tools in it says what stands below it. What
//! docs/WHAT-HAPPENED.md tells an operator to type is taken by the tools.
//! The sheet tool is the one beside this program; where it was not built, this test has nothing to say.

mod room;

use std::fs;
use std::path::{Path, PathBuf};
use std::process::{Command, Output};

const DOCUMENT: &str = include_str!("../../../docs/TRACE.md");
const OPERATOR: &str = include_str!("../../../docs/WHAT-HAPPENED.md");

/// The commands of the document, each with the lines that stand below it.
fn commands(text: &str) -> Vec<(String, String)> {
    let mut all: Vec<(String, String)> = Vec::new();
    let mut inside = false;
    for line in text.lines() {
        if let Some(command) = line.strip_prefix("    $ build/") {
            all.push((format!("build/{command}"), String::new()));
            inside = true;
        } else if let (true, Some(line)) = (inside, line.strip_prefix("    ")) {
            all.last_mut().unwrap().1 += &format!("{line}\n");
        } else if inside && line.is_empty() {
            all.last_mut().unwrap().1 += "\n";
        } else {
            inside = false;
        }
    }
    all.into_iter().map(|(command, said)| (command, said.trim_end().to_string())).collect()
}

/// A folder with both tools and the examples in it; none where the sheet tool was not built.
fn bench(name: &str) -> Option<PathBuf> {
    let trace = Path::new(env!("CARGO_BIN_EXE_trace"));
    let sheet = trace.with_file_name("sheet");
    if !sheet.exists() {
        eprintln!("the sheet tool was not built: the document was not run");
        return None;
    }
    let room = room::room(name);
    fs::create_dir(room.join("build")).unwrap();
    fs::copy(trace, room.join("build/trace")).unwrap();
    fs::copy(&sheet, room.join("build/sheet")).unwrap();
    copy(Path::new(concat!(env!("CARGO_MANIFEST_DIR"), "/../../examples")), &room.join("examples"));
    Some(room)
}

/// A folder with all that is in another. No link: `rt ci` refuses one anywhere below the checkout.
fn copy(from: &Path, to: &Path) {
    fs::create_dir(to).unwrap();
    for entry in fs::read_dir(from).unwrap().map(Result::unwrap) {
        let at = to.join(entry.file_name());
        if entry.path().is_dir() {
            copy(&entry.path(), &at);
        } else {
            fs::copy(entry.path(), at).unwrap();
        }
    }
}

/// What a shell does with a line in a folder.
fn typed(room: &Path, line: &str) -> Output {
    Command::new("sh").args(["-c", line]).current_dir(room).output().unwrap()
}

#[test]
fn for_the_operator() {
    let Some(room) = bench("operator") else { return };
    for line in [
        "build/sheet make examples/accident/before.txt > before.sheet",
        "build/sheet make examples/accident/after.txt > after.sheet",
        "cp before.sheet tank.sheet && cp before.sheet handover.sheet && cp examples/accident/laptop.hex morning.hex",
        "mkdir dumps && cp before.sheet dumps/1.sheet && cp after.sheet dumps/2.sheet",
    ] {
        assert!(typed(&room, line).status.success(), "{line}");
    }
    let lines: Vec<&str> = OPERATOR.lines().filter_map(|l| l.strip_prefix("    ")).collect();
    let ours = |l: &&&str| l.starts_with("build/sheet ") || l.starts_with("build/trace ");
    assert!(lines.iter().filter(ours).count() >= 6, "{lines:?}");
    for line in lines.iter().filter(ours) {
        let got = typed(&room, line);
        assert_eq!(String::from_utf8(got.stderr).unwrap(), "", "{line}");
        assert!(got.status.code().is_some_and(|c| c < 2), "{line}");
    }
    assert!(OPERATOR.contains("`property 1/51 element 1: 1000 → 640`"));
    let told = typed(&room, "build/sheet diff before.sheet after.sheet");
    assert!(String::from_utf8(told.stdout)
        .unwrap()
        .contains("property 1/51 element 1: 1000 → 640\n"));
}

#[test]
fn as_it_stands() {
    let Some(room) = bench("document") else { return };
    let commands = commands(DOCUMENT);
    assert!(commands.len() >= 6, "{commands:?}");
    let mut written = DOCUMENT.to_string();
    for (command, said) in commands {
        let got = typed(&room, &command);
        assert_eq!(String::from_utf8(got.stderr).unwrap(), "", "{command}");
        let out = String::from_utf8(got.stdout).unwrap();
        if std::env::var_os("WRITE_GOLDEN").is_some() {
            let indented = |text: &str| {
                let line =
                    |l: &str| if l.is_empty() { "\n".to_string() } else { format!("    {l}\n") };
                text.lines().map(line).collect::<String>()
            };
            let (old, new) = (indented(&said), indented(out.trim_end()));
            let line = format!("    $ {command}\n");
            assert!(written.contains(&(line.clone() + &old)), "{command}");
            written = written.replacen(&(line.clone() + &old), &(line + &new), 1);
            continue;
        }
        assert_eq!(out.trim_end(), said, "{command}");
    }
    if std::env::var_os("WRITE_GOLDEN").is_some() {
        fs::write(concat!(env!("CARGO_MANIFEST_DIR"), "/../../docs/TRACE.md"), written).unwrap();
    }
}

/// What the document shows elsewhere stands so in the programs' files.
#[test]
fn shown() {
    let times = "    times of a trace: events=9 bytes=107 sum=e7d8485e\n    1 time=2026-03-02T08:02:11.004 from=1.1.251\n    2 time=2026-03-02T08:02:11.210 from=1.1.251\n";
    assert!(DOCUMENT.contains(times));
    let room = room::room("shown");
    let words = ["make", "hex", "laptop.hex", "laptop.trace", "--sheet", "before"];
    assert_eq!(room::told(&room, &words).0, 0);
    let side = fs::read_to_string(room.join("laptop.trace.times")).unwrap();
    let indented: String = side.lines().take(3).map(|line| format!("    {line}\n")).collect();
    assert_eq!(indented, times);
    let evidence = "    evidence of a trace: form=1 events=9 bytes=107 sum=e7d8485e\n    device heard=yes\n    1 line=4\n    2 line=5 data=yes taken=acknowledged answer=same\n";
    assert!(DOCUMENT.contains(evidence));
    let side = fs::read_to_string(room.join("laptop.trace.evidence")).unwrap();
    let indented: String = side.lines().take(4).map(|line| format!("    {line}\n")).collect();
    assert_eq!(indented, evidence);
    fs::write(room.join("bad.hex"), room::LAPTOP.replacen("0643d10022222222", "064g", 1)).unwrap();
    let fault = room::told(&room, &["make", "hex", "bad.hex", "x", "--sheet", "before"]).2;
    assert_eq!(fault, "trace: bad.hex: line 5, column 44: no hex digit\n");
}
