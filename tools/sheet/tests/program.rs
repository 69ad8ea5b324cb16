//! The program itself: what it writes where, and its exit status.

use std::fs;
use std::path::PathBuf;
use std::process::{Command, Output, Stdio};

use model::sheet::{OLD_SAMPLE, SAMPLE};

/// A folder of the test's own, with the sample sheet in it, another, a damaged one and texts.
fn room(name: &str) -> PathBuf {
    let room = PathBuf::from(env!("CARGO_TARGET_TMPDIR")).join(name);
    fs::create_dir_all(&room).unwrap();
    let write = |name: &str, bytes: &[u8]| fs::write(room.join(name), bytes).unwrap();
    write("sample", &SAMPLE);
    write("old", &OLD_SAMPLE);
    let mut other = SAMPLE;
    other[64..66].copy_from_slice(&[0x04, 0xE2]);
    write("other", &other);
    other[47] = 3;
    write("bad", &other);
    write("long", &[1; 20_000]);
    write("noise", b"edition 1\nserial \xff\n");
    room
}

fn run(room: &PathBuf, words: &[&str]) -> Output {
    let program = env!("CARGO_BIN_EXE_sheet");
    Command::new(program).args(words).current_dir(room).stdin(Stdio::null()).output().unwrap()
}

/// Status, standard output and standard error.
fn told(room: &PathBuf, words: &[&str]) -> (i32, String, String) {
    let got = run(room, words);
    let text = |bytes| String::from_utf8(bytes).unwrap();
    (got.status.code().unwrap(), text(got.stdout), text(got.stderr))
}

fn said(status: i32, out: &str, err: &str) -> (i32, String, String) {
    (status, out.to_string(), err.to_string())
}

#[test]
fn check() {
    let room = room("check");
    assert_eq!(told(&room, &["check", "sample"]), said(0, "OK\n", ""));
    assert_eq!(told(&room, &["check", "old"]), said(1, "old: convert it\n", ""));
    let broken = "S7: property 1/51, count 3 above maximum 2\n";
    assert_eq!(told(&room, &["check", "bad"]), said(1, broken, ""));
    assert_eq!(told(&room, &["show", "bad"]), said(1, broken, ""));
    assert_eq!(
        told(&room, &["check", "long"]),
        said(1, "S1: the sheet has more than 16384 bytes\n", "")
    );
    assert_eq!(
        told(&room, &["check", "-"]),
        said(1, "S1: the sheet has 0 bytes, fewer than 32\n", "")
    );
    let missing = "sheet: nothing: No such file or directory (os error 2)\n";
    assert_eq!(told(&room, &["check", "nothing"]), said(2, "", missing));
    assert_eq!(
        told(&room, &["check", "."]),
        said(2, "", "sheet: .: Is a directory (os error 21)\n")
    );
}

#[test]
fn show_and_make() {
    let room = room("make");
    let (status, text, err) = told(&room, &["show", "--keys", "sample"]);
    assert_eq!((status, err.as_str()), (0, ""));
    fs::write(room.join("text"), &text).unwrap();
    let made = run(&room, &["make", "text"]);
    assert_eq!((made.status.code(), made.stdout, made.stderr), (Some(0), SAMPLE.to_vec(), vec![]));
    let listed = told(&room, &["make", "--c", "text"]);
    assert_eq!(listed, told(&room, &["make", "text", "--c"]));
    assert_eq!((listed.0, listed.2.as_str()), (0, ""));
    let byte = |word: &str| u8::from_str_radix(word.strip_prefix("0x")?, 16).ok();
    let lines = listed.1.lines().filter(|line| !line.starts_with("/*"));
    assert!(lines.clone().all(|line| line.len() < 16 * 6 && line.ends_with(',')));
    let bytes: Vec<u8> = lines
        .flat_map(|line| line.split(", "))
        .filter_map(|w| byte(w.trim_end_matches(',')))
        .collect();
    assert_eq!(bytes, SAMPLE);
    assert_eq!(told(&room, &["make", "--c", "noise"]), told(&room, &["make", "noise"]));
    let hidden = told(&room, &["show", "sample"]).1;
    assert!(
        hidden.contains(
            "key 0 hidden\nkey 1 hidden\nkey 2 ffffffff  # public: it opens level 2 to all\n"
        ) && !hidden.contains("1111")
    );
    fs::write(room.join("text"), text.replace("count 1", "count x")).unwrap();
    let fault = "sheet: text: line 15: property 1/51, count is no number: \"x\"\n";
    assert_eq!(told(&room, &["make", "text"]), said(2, "", fault));
    assert_eq!(
        told(&room, &["make", "noise"]),
        said(2, "", "sheet: noise: line 2: a byte that is no text\n")
    );
    let (status, out, err) = told(&room, &["make", "/dev/zero"]);
    assert_eq!((status, out.as_str()), (2, ""));
    assert!(err.contains("more than 4194304 bytes"), "{err}");
}

#[test]
fn diff() {
    let room = room("diff");
    assert_eq!(told(&room, &["diff", "sample", "sample"]), said(0, "", ""));
    let line = "property 1/51 element 1: 1000 → 1250\n";
    assert_eq!(told(&room, &["diff", "sample", "other"]), said(1, line, ""));
    assert_eq!(told(&room, &["diff", "old", "sample"]), said(1, "edition: 1 → 2\n", ""));
    let broken = "sheet: bad: S7: property 1/51, count 3 above maximum 2\n";
    assert_eq!(told(&room, &["diff", "sample", "bad"]), said(2, "", broken));
    assert_eq!(told(&room, &["diff", "sample", "nothing"]).0, 2);
}

/// An old sheet goes into a file that is not there yet, or that may be replaced; what is not old goes nowhere.
#[test]
fn convert() {
    let room = room("convert");
    let holds = |name: &str, bytes: &[u8]| assert_eq!(fs::read(room.join(name)).unwrap(), bytes);
    let gone = |name: &str| assert!(!room.join(name).exists(), "{name}");
    let _ = fs::remove_file(room.join("new"));
    let done = said(0, "edition: 1 → 2\n", "");
    assert_eq!(told(&room, &["convert", "old", "new"]), done);
    holds("new", &SAMPLE);
    holds("old", &OLD_SAMPLE);
    // what is there stays
    let there = |name: &str| format!("sheet: {name} is there already: --force replaces it\n");
    for name in ["new", "other", "old"] {
        let before = fs::read(room.join(name)).unwrap();
        assert_eq!(told(&room, &["convert", "old", name]), said(2, "", &there(name)));
        holds(name, &before);
    }
    assert_eq!(told(&room, &["convert", "old", "."]), said(2, "", &there(".")));
    // unless it is told to go
    assert_eq!(told(&room, &["convert", "--force", "old", "other"]), done);
    holds("other", &SAMPLE);
    assert_eq!(told(&room, &["convert", "old", "old", "--force"]), done);
    holds("old", &SAMPLE);
    assert_eq!(fs::read_dir(&room).unwrap().count(), 7, "something is left over");
    // what is not old
    let none = "OK, and not old: nothing is converted\n";
    assert_eq!(told(&room, &["convert", "old", "another"]), said(1, none, ""));
    assert_eq!(told(&room, &["convert", "--force", "sample", "another"]), said(1, none, ""));
    let broken = "S7: property 1/51, count 3 above maximum 2\n";
    assert_eq!(told(&room, &["convert", "bad", "another"]), said(1, broken, ""));
    gone("another");
    assert_eq!(told(&room, &["convert", "--force", "bad", "other"]).0, 1);
    holds("other", &SAMPLE);
    // what can't be read or written
    assert_eq!(told(&room, &["convert", "nothing", "another"]).0, 2);
    fs::write(room.join("old"), OLD_SAMPLE).unwrap();
    for words in
        [["convert", "old", "no/folder"].as_slice(), &["convert", "--force", "old", "no/x"]]
    {
        let (status, out, err) = told(&room, words);
        assert!((status, out.as_str()) == (2, "") && err.starts_with("sheet: no/"), "{err}");
    }
    let dash = "sheet: a sheet is converted into a file, and - is none\n";
    assert_eq!(told(&room, &["convert", "old", "-"]), said(2, "", dash));
}

/// A text with more entries than a sheet can have is refused before it takes room for them.
#[test]
fn hostile_text() {
    let room = room("hostile");
    let line = "property 1/51 type 4 size 10 maximum 4095 count 0 r3 w1\n";
    fs::write(room.join("text"), line.repeat(70_000)).unwrap();
    let program = env!("CARGO_BIN_EXE_sheet");
    let got = Command::new("sh")
        .args(["-c", "ulimit -v 524288 && exec \"$0\" make text", program])
        .current_dir(&room)
        .output()
        .unwrap();
    let told = (got.status.code(), got.stdout.len(), String::from_utf8(got.stderr).unwrap());
    let fault = "sheet: text: line 65: S3: more than 64 properties\n";
    assert_eq!(told, (Some(2), 0, fault.to_string()));
}

/// What can't be printed stands in no message, be it in a text or in a name.
#[test]
fn plain_messages() {
    let room = room("plain");
    fs::write(room.join("text"), "property \u{1b}[2J\u{202e}x type 4\n").unwrap();
    let fault =
        "sheet: text: line 1: property ?[2J?x, object/id has not 2 parts with / between them: \"?[2J?x\"\n";
    assert_eq!(told(&room, &["make", "text"]), said(2, "", fault));
    let missing = "sheet: ?[2J?: No such file or directory (os error 2)\n";
    assert_eq!(told(&room, &["check", "\u{1b}[2J\n"]), said(2, "", missing));
}

#[test]
fn asked_for() {
    let room = room("asked");
    let text = include_str!("../kelindap-sheet.txt");
    assert_eq!(told(&room, &["--help"]), said(0, text, ""));
    let header = include_str!("../../../include/kelindap_common.h");
    let (status, version, err) = told(&room, &["--version"]);
    assert_eq!((status, err.as_str()), (0, ""));
    let number = version.trim_end().strip_prefix("sheet of kelindap ").unwrap();
    assert!(header.contains(&format!("KELINDAP_VERSION_TEXT \"{number}\"")), "{version}");
}

/// Each command's help has what the whole says of it, and nothing of another.
#[test]
fn help_by_command() {
    let room = room("help");
    let help = "SYNOPSIS
    kelindap-sheet convert [--force] FILE NEW

DESCRIPTION
    convert FILE NEW
        writes the old sheet FILE as one of edition 2 to the file NEW, and says what differs: the edition, and nothing else. A
        NEW that is there already stays, unless --force says that it is to be replaced. Status 1 if FILE is not old

OPTIONS
    --force
        of convert: write over a file that is there

EXAMPLES
    kelindap-sheet convert old.sheet converted.sheet
        a sheet of edition 1 made one of edition 2
";
    for words in [
        &["convert", "--help"][..],
        &["convert", "old", "--help"],
        &["convert", "--forse", "--help"],
        &["help", "convert"],
    ] {
        assert_eq!(told(&room, words), said(0, help, ""), "{words:?}");
    }
    let whole = include_str!("../kelindap-sheet.txt");
    let commands =
        ["check", "show", "make", "diff", "convert", "versions", "versions diff", "survey"];
    for command in commands {
        let words: Vec<&str> = command.split(' ').chain(["--help"]).collect();
        let (status, text, err) = told(&room, &words);
        assert_eq!((status, err.as_str()), (0, ""));
        assert!(text.starts_with(&format!("SYNOPSIS\n    kelindap-sheet {command} ")), "{text}");
        assert!(text.contains("\nDESCRIPTION\n") && text.contains("\nEXAMPLES\n"), "{text}");
        for line in text.lines().filter(|line| !line.is_empty()) {
            assert!(whole.lines().any(|there| there == line), "{line}");
            let other = |other: &&str| {
                !other.starts_with(command)
                    && !command.starts_with(*other)
                    && line.starts_with(&format!("    kelindap-sheet {other} "))
            };
            assert!(!commands.iter().any(other), "{command}: {line}");
        }
    }
}

/// A file of another kind than is wanted is told as what it is, by every command that takes one.
#[test]
fn another_kind() {
    let room = room("kinds");
    let text = told(&room, &["show", "--keys", "sample"]).1;
    fs::write(room.join("text"), text).unwrap();
    fs::write(room.join("trace"), [0, 1, 1, 0, 0, 0, 0, 10, 0, 0]).unwrap();
    let store = [0, 1, 0, 1, 0, 0, 0, 0, 0, 1, 0, 1, 0, 16, 0, 2, 0, 0];
    fs::write(room.join("store"), store).unwrap();
    let wanted = "and a sheet is wanted";
    let cases: [(&[&str], String); 16] = [
        (&["check", "text"], format!("text: this is the text of a sheet, {wanted}")),
        (&["check", "--json", "text"], format!("text: this is the text of a sheet, {wanted}")),
        (&["check", "trace"], format!("trace: this is a trace, {wanted}")),
        (&["show", "store"], format!("store: this is a store of versions, {wanted}")),
        (&["diff", "text", "sample"], format!("text: this is the text of a sheet, {wanted}")),
        (&["diff", "sample", "trace"], format!("trace: this is a trace, {wanted}")),
        (&["convert", "text", "new"], format!("text: this is the text of a sheet, {wanted}")),
        (&["make", "sample"], "sample: this is a sheet, and the text of a sheet is wanted".into()),
        (&["make", "bad"], "bad: this is a sheet, and the text of a sheet is wanted".into()),
        (&["make", "trace"], "trace: this is a trace, and the text of a sheet is wanted".into()),
        (
            &["versions", "text"],
            "text: this is the text of a sheet, and a store of versions is wanted".into(),
        ),
        (
            &["versions", "sample"],
            "sample: this is a sheet, and a store of versions is wanted".into(),
        ),
        (
            &["versions", "diff", "trace", "1", "sample"],
            "trace: this is a trace, and a store of versions is wanted".into(),
        ),
        (
            &["versions", "diff", "store", "1", "text"],
            format!("text: this is the text of a sheet, {wanted}"),
        ),
        (
            &["survey", ".", "--reference", "text"],
            format!("text: this is the text of a sheet, {wanted}"),
        ),
        (
            &["survey", ".", "--reference", "store"],
            format!("store: this is a store of versions, {wanted}"),
        ),
    ];
    for (words, what) in cases {
        assert_eq!(told(&room, words), said(2, "", &format!("sheet: {what}\n")), "{words:?}");
    }
    // what is of the right kind and has a fault is told by its fault
    assert_eq!(told(&room, &["check", "bad"]).0, 1);
    assert_eq!(told(&room, &["versions", "store"]).0, 0);
}

/// For other programs: what a check, a sheet and a comparison say. Keys are hidden as in the text.
#[test]
fn json() {
    let room = room("json");
    let good = "{\"file\":\"sample\",\"accepted\":true,\"old\":false,\"rule\":null,\"entry\":null,\"why\":null}\n";
    assert_eq!(told(&room, &["check", "--json", "sample"]), said(0, good, ""));
    let bad = "{\"file\":\"bad\",\"accepted\":false,\"old\":false,\"rule\":\"S7\",\"entry\":{\"kind\":\"property\",\"number\":0},\"why\":\"property 1/51, count 3 above maximum 2\"}\n";
    assert_eq!(told(&room, &["check", "bad", "--json"]), said(1, bad, ""));
    assert_eq!(told(&room, &["show", "bad", "--json"]), said(1, bad, ""));
    let old = "{\"file\":\"old\",\"accepted\":false,\"old\":true,\"rule\":null,\"entry\":null,\"why\":\"convert it\"}\n";
    assert_eq!(told(&room, &["check", "--json", "old"]), said(1, old, ""));
    let (status, hidden, _) = told(&room, &["show", "--json", "sample"]);
    assert_eq!(status, 0);
    let keys = "\"keys\":[{\"level\":0,\"key\":\"hidden\",\"public\":false},{\"level\":1,\"key\":\"hidden\",\"public\":false},{\"level\":2,\"key\":\"ffffffff\",\"public\":true}]";
    assert!(hidden.contains(keys) && !hidden.contains("1111"), "{hidden}");
    let shown = told(&room, &["show", "--json", "--keys", "sample"]).1;
    let sample = "{\"edition\":2,\"old\":false,\"rules\":0,\"serial\":\"00c501020304\",\"mask\":\"07b0\",\"programming\":false,\"verify\":true,\"address\":\"1.1.5\",\"keys\":[{\"level\":0,\"key\":\"11111111\",\"public\":false},{\"level\":1,\"key\":\"22222222\",\"public\":false},{\"level\":2,\"key\":\"ffffffff\",\"public\":true}],\"regions\":[{\"address\":256,\"name\":\"0100h\",\"length\":4,\"read_level\":3,\"write_level\":2,\"bytes\":\"a0a1a2a3\"}],\"properties\":[{\"object\":1,\"id\":51,\"type\":4,\"writable\":true,\"size\":2,\"maximum\":2,\"count\":1,\"read_level\":3,\"write_level\":1,\"elements\":[1000,0]}],\"groups\":[{\"address\":2049,\"name\":\"1/0/1\",\"code\":1,\"read\":true,\"write\":true,\"response\":false,\"bytes\":\"00\"}],\"users\":[]}\n";
    assert_eq!(shown, sample);
    let line = "{\"from\":\"sample\",\"to\":\"other\",\"same\":false,\"differences\":[{\"what\":\"property 1/51 element 1\",\"change\":\"changed\",\"from\":\"1000\",\"to\":\"1250\",\"line\":\"property 1/51 element 1: 1000 → 1250\"}]}\n";
    assert_eq!(told(&room, &["diff", "--json", "sample", "other"]), said(1, line, ""));
    let same = "{\"from\":\"sample\",\"to\":\"sample\",\"same\":true,\"differences\":[]}\n";
    assert_eq!(told(&room, &["diff", "sample", "--json", "sample"]), said(0, same, ""));
    // of a key nothing but that it changed
    let mut keyed = SAMPLE;
    keyed[18] = 0x77;
    fs::write(room.join("keyed"), keyed).unwrap();
    let key = "{\"what\":\"key of level 0\",\"change\":\"changed\",\"from\":null,\"to\":null,\"line\":\"key of level 0 changed\"}";
    assert!(told(&room, &["diff", "--json", "sample", "keyed"]).1.contains(key));
    // what is new and what is gone
    let text = told(&room, &["show", "--keys", "sample"]).1;
    fs::write(room.join("text"), text.replace("group 1/0/1", "group 1/0/2")).unwrap();
    fs::write(room.join("moved"), run(&room, &["make", "text"]).stdout).unwrap();
    let moved = told(&room, &["diff", "--json", "sample", "moved"]).1;
    assert!(
        moved.contains(
            "{\"what\":\"group object 1/0/1\",\"change\":\"gone\",\"from\":null,\"to\":null,"
        ),
        "{moved}"
    );
    assert!(moved.contains("{\"what\":\"group object 1/0/2\",\"change\":\"new\",\"from\":null,\"to\":\"length code 1, flags read write, value 00\","), "{moved}");
}

/// Who closes the pipe has seen enough: no word on it, and the status is what it would have been. Its name is that by which it
/// was started.
#[test]
fn closed_pipe_and_name() {
    let room = room("pipe");
    let program = env!("CARGO_BIN_EXE_sheet");
    let closed = |words: &str| {
        let script = format!("({program} {words}; echo $? >&2) | true");
        let got = Command::new("sh").args(["-c", &script]).current_dir(&room).output().unwrap();
        String::from_utf8(got.stderr).unwrap()
    };
    // longer than a pipe holds, so that it is met with certainty
    let line = format!(
        "property 1/51 type 4 size 2 maximum 4095 count 4095 r3 w1\n{}",
        "    65535\n".repeat(4095)
    );
    let text = told(&room, &["show", "--keys", "sample"]).1;
    let at = text.find("property").unwrap();
    let end = text.find("group").unwrap();
    fs::write(room.join("text"), format!("{}{line}\n{}", &text[..at], &text[end..])).unwrap();
    fs::write(room.join("full"), run(&room, &["make", "text"]).stdout).unwrap();
    assert_eq!(closed("show full"), "0\n");
    assert_eq!(closed("show --json full"), "0\n");
    assert_eq!(closed("diff sample full"), "1\n");
    // the link of a run before; writing to it would write to the program
    let _ = fs::remove_file(room.join("linked"));
    std::os::unix::fs::symlink(program, room.join("linked")).unwrap();
    let got = Command::new(room.join("linked")).args(["chek"]).output().unwrap();
    let told = String::from_utf8(got.stderr).unwrap();
    assert_eq!(told, "linked: no command \"chek\", perhaps check; linked --help says more\n");
    let got = Command::new(room.join("linked")).args(["--version"]).output().unwrap();
    assert!(String::from_utf8(got.stdout).unwrap().starts_with("linked of kelindap "));
}

/// Words that are no command, and an output that can't be written.
#[test]
fn wrong_use() {
    let room = room("wrong");
    let cases: [(&[&str], &str); 20] = [
        (&[], "no command is given; sheet --help says more"),
        (&["chek", "a"], "no command \"chek\", perhaps check; sheet --help says more"),
        (&["shew", "a"], "no command \"shew\", perhaps show; sheet --help says more"),
        (&["ver"], "no command \"ver\", perhaps versions; sheet --help says more"),
        (&["flash", "a"], "no command \"flash\"; sheet --help says more"),
        (&["\u{1b}[2J"], "no command \"?[2J\"; sheet --help says more"),
        (&["--hepl"], "no option \"--hepl\", perhaps --help; sheet --help says more"),
        (&["--help", "x"], "--help stands alone, and \"x\" is more; sheet --help says more"),
        (&["help", "chek"], "no command \"chek\", perhaps check; sheet --help says more"),
        (&["check"], "FILE is missing; sheet check --help says more"),
        (&["check", "a", "b"], "a word too many: \"b\"; sheet check --help says more"),
        (
            &["show", "--key", "a"],
            "no option \"--key\", perhaps --keys; sheet show --help says more",
        ),
        (&["show", "--keys", "--keys", "a"], "--keys is given twice; sheet show --help says more"),
        (
            &["show", "--keys=1", "a"],
            "no option \"--keys=1\", perhaps --keys; sheet show --help says more",
        ),
        (&["diff", "a"], "FILE is missing; sheet diff --help says more"),
        (&["diff", "-", "-"], "-: standard input is named twice, and can be read once"),
        (&["convert"], "FILE and NEW are missing; sheet convert --help says more"),
        (
            &["convert", "--forse", "old", "new"],
            "no option \"--forse\", perhaps --force; sheet convert --help says more",
        ),
        (&["versions", "diff", "a", "1"], "FILE is missing; sheet versions diff --help says more"),
        (&["check", "--", "--keys"], "--keys: No such file or directory (os error 2)"),
    ];
    for (words, what) in cases {
        assert_eq!(told(&room, words), said(2, "", &format!("sheet: {what}\n")), "{words:?}");
    }
    let full = fs::OpenOptions::new().write(true).open("/dev/full").unwrap();
    let got = Command::new(env!("CARGO_BIN_EXE_sheet"))
        .args(["show", "sample"])
        .current_dir(&room)
        .stdout(full)
        .output()
        .unwrap();
    assert_eq!(got.status.code(), Some(2));
    assert!(String::from_utf8(got.stderr).unwrap().starts_with("sheet: standard output: "));
}
