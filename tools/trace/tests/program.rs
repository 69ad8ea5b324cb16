//! The program itself: what it writes where, its exit status, and what it leaves in a folder.

mod room;

use std::fs;
use std::process::{Command, Stdio};

use room::{files, room, run, said, told};
use trace::archive;

const MADE: &str = "laptop.trace: 9 events, its times and its evidence
left out: 16 of 25 frames
     4  an acknowledgement (45)
     3  for another device (60)
     8  sent by the device
     1  a repetition
";

fn make(room: &std::path::Path) {
    let words = ["make", "hex", "laptop.hex", "laptop.trace", "--sheet", "before"];
    assert_eq!(told(room, &words), said(0, MADE, ""));
}

#[test]
fn made_and_shown() {
    let room = room("made");
    make(&room);
    assert_eq!(
        files(&room),
        [
            "after",
            "before",
            "laptop.hex",
            "laptop.trace",
            "laptop.trace.evidence",
            "laptop.trace.times"
        ]
    );
    let (status, text, err) = told(&room, &["show", "--keys", "laptop.trace"]);
    assert_eq!((status, err.as_str(), text.lines().count()), (0, "", 10));
    assert!(text.contains("\n2 request mode=3 connection=0 group=0000 apdu=43d10022222222 time=2026-03-02T08:02:11.210 from=1.1.251  # authorize_request key=22222222\n"));
    fs::write(room.join("text"), &text).unwrap();
    assert_eq!(
        told(&room, &["make", "text", "text", "again"]),
        said(0, "again: 9 events, and its times\n", "")
    );
    for (a, b) in [("laptop.trace", "again"), ("laptop.trace.times", "again.times")] {
        assert_eq!(fs::read(room.join(a)).unwrap(), fs::read(room.join(b)).unwrap());
    }
    let hidden = told(&room, &["show", "laptop.trace"]).1;
    assert!(!hidden.contains("2222222") && hidden.contains("apdu=43d100ffffffff"));
    fs::write(room.join("text"), hidden).unwrap();
    let fault =
        "trace: text: line 2: apdu is hidden, for it has a key: show the trace with --keys\n";
    assert_eq!(told(&room, &["make", "text", "text", "third"]), said(2, "", fault));
    assert!(!room.join("third").exists());
    // without its side file a trace has no times
    fs::rename(room.join("laptop.trace.times"), room.join("times")).unwrap();
    assert!(!told(&room, &["show", "laptop.trace"]).1.contains("time="));
    // and one of another trace is refused
    fs::write(
        room.join("laptop.trace.times"),
        "times of a trace: events=9 bytes=107 sum=00000000\nend\n",
    )
    .unwrap();
    let fault = "trace: laptop.trace.times: line 1: it is not of this trace\n";
    assert_eq!(told(&room, &["show", "laptop.trace"]), said(2, "", fault));
}

/// Files that are there stay, unless --force is given; then they are new, and times of before are gone.
#[test]
fn no_overwriting() {
    let room = room("force");
    make(&room);
    let first = fs::read(room.join("laptop.trace")).unwrap();
    fs::write(room.join("text"), "button on\nend\n").unwrap();
    let words = ["make", "text", "text", "laptop.trace"];
    let there = "trace: laptop.trace: it is there already, and --force is not given\n";
    assert_eq!(told(&room, &words), said(2, "", there));
    assert_eq!(fs::read(room.join("laptop.trace")).unwrap(), first);
    fs::remove_file(room.join("laptop.trace")).unwrap();
    let there = "trace: laptop.trace.times: it is there already, and --force is not given\n";
    assert_eq!(told(&room, &words), said(2, "", there));
    assert!(!room.join("laptop.trace").exists());
    let words = ["make", "text", "text", "laptop.trace", "--force"];
    assert_eq!(told(&room, &words), said(0, "laptop.trace: 1 event\n", ""));
    assert_eq!(files(&room), ["after", "before", "laptop.hex", "laptop.trace", "text"]);
    assert_eq!(told(&room, &words), said(0, "laptop.trace: 1 event\n", ""));
    // a folder that is not there, and one in place of a file
    let (status, out, err) = told(&room, &["make", "text", "text", "no/trace"]);
    assert_eq!((status, out.as_str()), (2, ""));
    assert!(err.starts_with("trace: no/trace: "), "{err}");
    let nameless = "trace: no/..: no name of a file\n";
    assert_eq!(told(&room, &["make", "text", "text", "no/.."]), said(2, "", nameless));
    fs::create_dir(room.join("folder")).unwrap();
    let (status, _, err) = told(&room, &["make", "text", "text", "folder", "--force"]);
    assert_eq!(status, 2);
    assert!(err.starts_with("trace: folder: "), "{err}");
    assert_eq!(files(&room), ["after", "before", "folder", "laptop.hex", "laptop.trace", "text"]);
    assert!(files(&room.join("folder")).is_empty());
}

/// With --force too, a fault leaves every file as it was: here a folder stands where the trace is to be, or its times.
#[test]
fn forced_whole() {
    let room = room("forced");
    fs::create_dir(room.join("a.trace")).unwrap();
    fs::write(room.join("a.trace.times"), "mine").unwrap();
    let words = ["make", "hex", "laptop.hex", "a.trace", "--sheet", "before", "--force"];
    assert_eq!(told(&room, &words), said(2, "", "trace: a.trace: it is a folder\n"));
    assert_eq!(fs::read(room.join("a.trace.times")).unwrap(), b"mine");
    fs::create_dir(room.join("b.times")).unwrap();
    fs::write(room.join("b"), "mine").unwrap();
    fs::write(room.join("text"), "button on\nend\n").unwrap();
    let words = ["make", "text", "text", "b", "--force"];
    assert_eq!(told(&room, &words), said(2, "", "trace: b.times: it is a folder\n"));
    assert_eq!(fs::read(room.join("b")).unwrap(), b"mine");
    let there =
        ["a.trace", "a.trace.times", "after", "b", "b.times", "before", "laptop.hex", "text"];
    assert_eq!(files(&room), there);
    // and a fault of the last of several, once the others are in place
    let name = |name: &str| room.join(name).to_str().unwrap().to_string();
    let set = [(name("b"), vec![1]), (name("c"), vec![2]), (name("d/."), vec![3])];
    fs::remove_dir(room.join("b.times")).unwrap();
    assert!(trace::output::write(&set, &[], true).unwrap_err().starts_with(&name("d/.: ")));
    assert_eq!(fs::read(room.join("b")).unwrap(), b"mine");
    let there = ["a.trace", "a.trace.times", "after", "b", "before", "laptop.hex", "text"];
    assert_eq!(files(&room), there);
    assert_eq!(trace::output::write(&set[..2], &[name("text")], true), Ok(()));
    assert_eq!(fs::read(room.join("b")).unwrap(), [1]);
    let there = ["a.trace", "a.trace.times", "after", "b", "before", "c", "laptop.hex"];
    assert_eq!(files(&room), there);
}

/// A recording of more than 512 events becomes several traces, which go on one after the other; a fault leaves none.
#[test]
fn several() {
    let room = room("several");
    let press =
        |i: usize| if i.is_multiple_of(2) { "button on time=1\n" } else { "button off time=2\n" };
    let text: String = (0..1025).map(press).collect::<String>() + "end\n";
    fs::write(room.join("text"), &text).unwrap();
    let out = "day-1.trace: 512 events, and its times\nday-2.trace: 512 events, and its times\nday-3.trace: 1 event, and its times\n";
    assert_eq!(told(&room, &["make", "text", "text", "day.trace"]), said(0, out, ""));
    let (status, out, err) =
        told(&room, &["play", "before", "day-1.trace", "day-2.trace", "day-3.trace"]);
    assert_eq!((status, err.as_str()), (0, ""));
    assert_eq!(out.lines().count(), 1025 + 3 + 3);
    let lines: Vec<&str> = out.lines().filter(|line| line.starts_with('#')).collect();
    assert_eq!(lines, ["# day-1.trace", "# day-2.trace", "# day-3.trace"]);
    let (status, out, _) =
        told(&room, &["explain", "before", "day-1.trace", "day-2.trace", "day-3.trace"]);
    assert_eq!(status, 0);
    let last =
        "1025 events of day-1.trace, day-2.trace, day-3.trace on before: 1 byte changed, at 1 place

programming mode: off → on
  by event 1 of day-3.trace: button on, at 1
  at the device itself; no level is asked for it
    changed 1025 times: --all lists them
";
    assert_eq!(out, last);
    for name in ["day-1.trace", "day-1.trace.times", "day-3.trace.times"] {
        fs::remove_file(room.join(name)).unwrap();
    }
    let there = "trace: day-2.trace.times: it is there already, and --force is not given\n";
    assert_eq!(told(&room, &["make", "text", "text", "day.trace"]), said(2, "", there));
    let left = [
        "after",
        "before",
        "day-2.trace",
        "day-2.trace.times",
        "day-3.trace",
        "laptop.hex",
        "text",
    ];
    assert_eq!(files(&room), left);
}

#[test]
fn forms() {
    let room = room("forms");
    let ets = "<CommunicationLog><Telegram Timestamp=\"2026-03-02T07:15:01Z\" RawData=\"2900BCE011140801010081\"/></CommunicationLog>";
    fs::write(room.join("ets"), ets).unwrap();
    fs::write(
        room.join("knxtool"),
        "L_Busmon: BC 11 14 08 01 E1 00 81 2F :L_Data low from 1.1.20\n",
    )
    .unwrap();
    for form in ["ets", "knxtool"] {
        let unwired = match form {
            "knxtool" => "not acknowledged on the wire: event 1 (line 1)\n",
            _ => "",
        };
        let out = format!(
            "{form}.trace: 1 event, its times and its evidence\nleft out: 0 of 1 frame\n{unwired}"
        );
        let words = ["make", form, form, &format!("{form}.trace"), "--sheet", "before"];
        assert_eq!(told(&room, &words), said(0, &out, ""));
    }
    assert_eq!(
        fs::read(room.join("ets.trace")).unwrap(),
        fs::read(room.join("knxtool.trace")).unwrap()
    );
    let text = told(&room, &["show", "ets.trace"]).1;
    assert_eq!(text, "1 request mode=0 connection=0 group=0801 apdu=0081 time=2026-03-02T07:15:01Z from=1.1.20  # to 1/0/1: group_write v=1 data=-\nend\n");
    // as an editor on another system saves it
    let marked = format!("\u{feff}{}", room::LAPTOP.replace('\n', "\r\n"));
    fs::write(room.join("marked.hex"), marked).unwrap();
    let words = ["make", "hex", "marked.hex", "laptop.trace", "--sheet", "before"];
    assert_eq!(told(&room, &words), said(0, MADE, ""));
    // of a quiet bus there is an export too
    fs::write(room.join("quiet"), "<CommunicationLog></CommunicationLog>").unwrap();
    let words = ["make", "ets", "quiet", "quiet.trace", "--sheet", "before"];
    assert_eq!(told(&room, &words), said(0, "quiet.trace: 0 events, and its evidence\n", ""));
    let words = ["make", "hex", "laptop.hex", "x"];
    let missing = "trace: --sheet is missing: whose frames, by the device's sheet at their start\n";
    assert_eq!(told(&room, &words), said(2, "", missing));
    fs::write(room.join("text"), "end\n").unwrap();
    let words = ["make", "text", "text", "x", "--sheet", "before"];
    let too_many = "trace: --sheet: a text says the connections by itself\n";
    assert_eq!(told(&room, &words), said(2, "", too_many));
    let words = ["make", "text", "text", "-"];
    let no_file = "trace: -: a trace is made in a file, with its times beside it\n";
    assert_eq!(told(&room, &words), said(2, "", no_file));
    assert_eq!(told(&room, &["make", "text", "text", "x"]), said(0, "x: 0 events\n", ""));
}

/// Standard input, for a sheet, a trace or a recording.
#[test]
fn standard_input() {
    let room = room("input");
    make(&room);
    let with = |words: &[&str], input: &str| {
        let input = fs::File::open(room.join(input)).unwrap();
        let program = env!("CARGO_BIN_EXE_trace");
        let got =
            Command::new(program).args(words).current_dir(&room).stdin(input).output().unwrap();
        (got.status.code(), String::from_utf8(got.stdout).unwrap())
    };
    let (status, out) = with(&["play", "-", "laptop.trace"], "before");
    assert_eq!((status, out.lines().last()), (Some(1), Some("sheet changed")));
    let (status, out) = with(&["show", "-"], "laptop.trace");
    assert_eq!((status, out.lines().count(), out.contains("time=")), (Some(0), 10, false));
    let (status, _) = with(&["make", "hex", "-", "again", "--sheet", "before"], "laptop.hex");
    assert_eq!(status, Some(0));
    // it can be read once
    let twice = said(2, "", "trace: -: standard input is named twice, and can be read once\n");
    assert_eq!(told(&room, &["play", "-", "-"]), twice);
    assert_eq!(told(&room, &["explain", "-", "laptop.trace", "--final", "-"]), twice);
    assert_eq!(told(&room, &["make", "hex", "-", "x", "--sheet", "-"]), twice);
}

#[test]
fn statuses() {
    let room = room("statuses");
    make(&room);
    assert_eq!(told(&room, &["play", "before", "laptop.trace"]).0, 1);
    fs::write(room.join("text"), "connect connection=0\nend\n").unwrap();
    assert_eq!(told(&room, &["make", "text", "text", "short"]).0, 0);
    let out = "1 connect connection=0 outcome=1 answer=-  # carried out
session 0 open=1 level=3
session 1 open=0 level=3
sheet unchanged
";
    assert_eq!(told(&room, &["play", "before", "short"]), said(0, out, ""));
    assert_eq!(told(&room, &["explain", "before", "laptop.trace"]).0, 0);
    assert_eq!(told(&room, &["explain", "before", "laptop.trace", "--final", "after"]).0, 1);
    let same = "1 event of short on before: 0 bytes changed, at 0 places\n\nbefore is what the events give, byte by byte\n";
    assert_eq!(
        told(&room, &["explain", "before", "short", "--final", "before"]),
        said(0, same, "")
    );
    let older = told(&room, &["explain", "before", "laptop.trace", "--final", "before"]);
    assert_eq!(older.0, 1);
    assert!(older.1.contains("before: 2 bytes other than the events leave them, at 2 places; 0 of these no event of the traces gave\nall of it was so before: the dump may be older than the end of the traces, or the device did not take the last events, or somebody wrote past it what was there before\n"), "{}", older.1);
}

/// A dump whose bytes were all so before, but at no time together: the switch is as event 5 left it, the height as before
/// event 3. It is no older state, and not told as one.
#[test]
fn never_at_once() {
    let room = room("mixed");
    make(&room);
    let mut dump = fs::read(room.join("before")).unwrap();
    dump[68] = 1;
    fs::write(room.join("mixed"), &dump).unwrap();
    let words = ["explain", "before", "laptop.trace", "--final", "mixed"];
    let (status, out, _) = told(&room, &words);
    assert_eq!(status, 1);
    let told_so = "mixed: 1 byte other than the events leave them, at 1 place; 0 of these no event of the traces gave
each byte was so before, but never all of them at once: somebody wrote past the device, or the traces lack events

property 1/51 element 1: 1020 → 1000
  byte 65: last changed by event 3 of laptop.trace: property_write object=1 id=51 n=1 s=1 data=03fc, at 2026-03-02T08:02:12.512, from 1.1.251; at first it was what the dump has
";
    assert!(out.contains(told_so), "{out}");
    let json = |dump: &str| told(&room, &[&words[..4], &[dump, "--json"]].concat()).1;
    assert!(json("mixed").contains("\"explained\":false,\"earlier\":false,"));
    assert!(json("before").contains("\"explained\":false,\"earlier\":true,"));
}

/// A value that an event gave and another changed; and of many requests that asked for a place in vain the first four.
#[test]
fn given_and_in_vain() {
    let room = room("given");
    let vain = "request mode=3 connection=1 apdu=03d7013310010280\n".repeat(6);
    let text = format!(
        "connect connection=0
request mode=3 connection=0 apdu=03d10022222222
request mode=3 connection=0 apdu=03d70133100103f2
request mode=3 connection=0 apdu=03d70133100103f3
connect connection=1
{vain}end
"
    );
    fs::write(room.join("text"), text).unwrap();
    assert_eq!(told(&room, &["make", "text", "text", "t"]), said(0, "t: 11 events\n", ""));
    let mut dump = fs::read(room.join("before")).unwrap();
    dump[65] = 0xF2;
    fs::write(room.join("dump"), &dump).unwrap();
    let (status, out, _) = told(&room, &["explain", "before", "t", "--final", "dump"]);
    let asked = |event: usize| {
        format!("  asked for and not done, refused (11), by event {event} of t: property_write object=1 id=51 n=1 s=1 data=0280\n")
    };
    let told_so = "dump: 1 byte other than the events leave them, at 1 place; 0 of these no event of the traces gave
all of it was so before: the dump may be older than the end of the traces, or the device did not take the last events, or somebody wrote past it what was there before

property 1/51 element 1: 1011 → 1010
  byte 65: last changed by event 4 of t: property_write object=1 id=51 n=1 s=1 data=03f3; the dump has what it was by event 3 of t: property_write object=1 id=51 n=1 s=1 data=03f2
".to_string() + &(6..10).map(asked).collect::<String>() + "  and asked for in vain 2 times more\n";
    assert_eq!(status, 1);
    assert!(out.ends_with(&told_so), "{out}");
}

/// Dumps that no event leads to.
#[test]
fn impossible_dumps() {
    let room = room("impossible");
    make(&room);
    let sheet = fs::read(room.join("before")).unwrap();
    let mut broken = sheet.clone();
    broken[47] = 3;
    fs::write(room.join("broken"), &broken).unwrap();
    let (status, out, err) =
        told(&room, &["explain", "before", "laptop.trace", "--final", "broken"]);
    assert_eq!((status, err.as_str()), (1, ""));
    let told_so =
        "broken is not accepted, and no event gives such a sheet: somebody wrote past the device, or this is no whole dump of it

S7: property 1/51, count 3 above maximum 2
byte 47: 01 → 03
byte 65: fc → e8
byte 68: 01 → 00
";
    assert!(out.ends_with(told_so), "{out}");
    fs::write(room.join("short"), &sheet[..40]).unwrap();
    let (status, out, _) = told(&room, &["explain", "before", "laptop.trace", "--final", "short"]);
    assert_eq!(status, 1);
    assert!(
        out.ends_with("no whole dump of it\n\nS4: the head states 69 bytes, the sheet has 40\n"),
        "{out}"
    );
    let text = room::BEFORE.replace("a0 a1 a2 a3", "a0 a1 a2");
    fs::write(room.join("other"), sheet::make::bytes(&text).unwrap()).unwrap();
    let (status, out, _) = told(&room, &["explain", "before", "laptop.trace", "--final", "other"]);
    assert_eq!(status, 1);
    let told_so = "other has another layout, which no event gives: somebody wrote past the device, or this is no whole dump of it

region 0100h length: 4 → 3
property 1/51 element 1: 1020 → 1000
group object 1/0/1: 01 → 00
";
    assert!(out.ends_with(told_so), "{out}");
}

/// Files that can't be read, are no sheets, no traces or no text: a line that says which and where, and nothing else.
#[test]
fn bad_input() {
    let room = room("bad");
    make(&room);
    let mut broken = fs::read(room.join("before")).unwrap();
    broken[47] = 3;
    fs::write(room.join("broken"), &broken).unwrap();
    fs::write(room.join("noise"), b"\xC3\xBC 29\n29 \xff\n").unwrap();
    fs::write(room.join("bad.hex"), "29 00\n29 0x\n").unwrap();
    let mut old = fs::read(room.join("before")).unwrap();
    old[0] = 1;
    fs::write(room.join("old"), &old).unwrap();
    let what = "trace: old: old: convert it\n";
    assert_eq!(told(&room, &["play", "old", "laptop.trace"]), said(2, "", what));
    fs::write(room.join("page"), "\n <html><p/></html>\n").unwrap();
    fs::write(room.join("many"), [&[2, 1][..], &[0; 58]].concat()).unwrap();
    let before = files(&room);
    let cases: [(&[&str], &str); 13] = [
        (&["show", "nothing"], "nothing: No such file or directory (os error 2)"),
        (&["show", "."], ".: Is a directory (os error 21)"),
        (&["show", "many"], "many: 51: too many events: offset 0: 513 events, more than 512"),
        (&["play", "broken", "laptop.trace"], "broken: S7: property 1/51, count 3 above maximum 2"),
        (&["play", "nothing", "laptop.trace"], "nothing: No such file or directory (os error 2)"),
        (
            &["play", "before", "many"],
            "many: 51: too many events: offset 0: 513 events, more than 512",
        ),
        (
            &["explain", "before", "laptop.trace", "--final", "nothing"],
            "nothing: No such file or directory (os error 2)",
        ),
        (&["explain", "many", "laptop.trace"], "many: S4: the head states 0 bytes, the sheet has 60"),
        (
            &["make", "hex", "noise", "x", "--sheet", "before"],
            "noise: line 2, column 4: a byte that is no text",
        ),
        (
            &["make", "hex", "bad.hex", "x", "--sheet", "before"],
            "bad.hex: line 2, column 5: no hex digit",
        ),
        (
            &["make", "ets", "bad.hex", "x", "--sheet", "before"],
            "bad.hex: this is a recording in hex, and a recording of ETS is wanted",
        ),
        (
            &["make", "ets", "page", "x", "--sheet", "before"],
            "page: line 2, column 2: neither a Telegram in it nor CommunicationLog as its name: no export",
        ),
        (
            &["make", "hex", "laptop.hex", "x", "--sheet", "broken"],
            "broken: S7: property 1/51, count 3 above maximum 2",
        ),
    ];
    for (words, what) in cases {
        assert_eq!(told(&room, words), said(2, "", &format!("trace: {what}\n")), "{words:?}");
        assert_eq!(files(&room), before);
    }
    let long = fs::File::create(room.join("long")).unwrap();
    long.set_len((1 << 28) + 1).unwrap();
    let what = "trace: long: more than 268435456 bytes\n";
    assert_eq!(told(&room, &["make", "text", "long", "x"]), said(2, "", what));
    fs::write(room.join("many"), "button on\n".repeat(2_000_001)).unwrap();
    let what = "trace: many: line 2000001: more than 2000000 events\n";
    assert_eq!(told(&room, &["make", "text", "many", "x"]), said(2, "", what));
    fs::write(room.join("many"), "29\n".repeat(2_000_001)).unwrap();
    let what = "trace: many: line 2000001: more than 2000000 frames\n";
    let words = ["make", "hex", "many", "x", "--sheet", "before"];
    assert_eq!(told(&room, &words), said(2, "", what));
    // a whole export on one line, of as many frames
    let export = format!("<a>{}", "<Telegram RawData=\"29\"/>".repeat(2_000_001));
    fs::write(room.join("many"), export).unwrap();
    let what = "trace: many: line 1, column 48000004: more than 2000000 frames\n";
    let words = ["make", "ets", "many", "x", "--sheet", "before"];
    assert_eq!(told(&room, &words), said(2, "", what));
    fs::remove_file(room.join("many")).unwrap();
    long.set_len(70_000).unwrap();
    let what =
        "trace: long: 58: bytes behind the last APDU: offset 2: at least 65789 bytes left over\n";
    assert_eq!(told(&room, &["show", "long"]), said(2, "", what));
}

/// What can't be printed stands in no message, be it in a text or in a name.
#[test]
fn plain_messages() {
    let room = room("plain");
    fs::write(room.join("text"), "\u{1b}[2J\u{202e}x\n").unwrap();
    let fault = "trace: text: line 1: \"?[2J?x\" is no request, connect, disconnect or button\n";
    assert_eq!(told(&room, &["make", "text", "text", "x"]), said(2, "", fault));
    let missing = "trace: ?[2J?: No such file or directory (os error 2)\n";
    assert_eq!(told(&room, &["show", "\u{1b}[2J\n"]), said(2, "", missing));
    fs::write(room.join("text"), "end\n").unwrap();
    let out = "?[2J?: 0 events\n";
    assert_eq!(told(&room, &["make", "text", "text", "\u{1b}[2J\u{202e}"]), said(0, out, ""));
}

/// What the program says is what stands in a file; WRITE_GOLDEN in the environment writes it there.
fn golden(room: &std::path::Path, name: &str, words: &[&str], status: i32) {
    let (got, out, err) = told(room, words);
    assert_eq!((got, err.as_str()), (status, ""));
    let path = format!("{}/tests/golden/{name}", env!("CARGO_MANIFEST_DIR"));
    if std::env::var_os("WRITE_GOLDEN").is_some() {
        fs::write(&path, &out).unwrap();
    }
    assert_eq!(out, fs::read_to_string(&path).unwrap(), "{name}");
}

#[test]
fn json() {
    let room = room("json");
    let words = ["make", "hex", "laptop.hex", "laptop.trace", "--sheet", "before", "--json"];
    let out = "{\"traces\":[{\"trace\":\"laptop.trace\",\"events\":9,\"times\":true,\"evidence\":true}],\"frames\":25,\"left_out\":[{\"number\":45,\"why\":\"an acknowledgement (45)\",\"frames\":4},{\"number\":60,\"why\":\"for another device (60)\",\"frames\":3},{\"number\":null,\"why\":\"sent by the device\",\"frames\":8},{\"number\":null,\"why\":\"a repetition\",\"frames\":1}],\"shows\":[]}\n";
    assert_eq!(told(&room, &words), said(0, out, ""));
    golden(&room, "show.json", &["show", "--json", "laptop.trace"], 0);
    golden(&room, "show-keys.json", &["show", "--json", "--keys", "laptop.trace"], 0);
    golden(&room, "play.json", &["play", "--json", "before", "laptop.trace"], 1);
    golden(&room, "explain.json", &["explain", "--json", "before", "laptop.trace"], 0);
    golden(
        &room,
        "final.json",
        &["explain", "--json", "before", "laptop.trace", "--final", "after"],
        1,
    );
    golden(
        &room,
        "older.json",
        &["explain", "--json", "before", "laptop.trace", "--final", "before"],
        1,
    );
}

/// Every kind of place, changed by events and past them.
#[test]
fn kinds() {
    let room = room("kinds");
    fs::write(room.join("kinds"), sheet::make::bytes(KINDS).unwrap()).unwrap();
    let mut after = KINDS.to_string();
    for (from, to) in PAST {
        assert!(after.contains(from), "{from}");
        after = after.replacen(from, to, 1);
    }
    fs::write(room.join("kinds.after"), sheet::make::bytes(&after).unwrap()).unwrap();
    fs::write(room.join("text"), EVENTS).unwrap();
    assert_eq!(
        told(&room, &["make", "text", "text", "kinds.trace"]),
        said(0, "kinds.trace: 26 events\n", "")
    );
    golden(&room, "kinds.play", &["play", "kinds", "kinds.trace"], 1);
    golden(&room, "kinds.txt", &["explain", "kinds", "kinds.trace", "--final", "kinds.after"], 1);
    golden(
        &room,
        "kinds.json",
        &["explain", "--json", "kinds", "kinds.trace", "--final", "kinds.after"],
        1,
    );
}

const KINDS: &str = "edition 2
serial 00c501020305
mask 07b0
programming off
verify on
address 1.1.6
key 0 11111111
key 1 22222222
key 2 ffffffff

region 0100h r3 w2
    a0 a1 a2 a3
region 0104h r3 w3
    b0 b1 b2 b3 b4 b5 b6 b7

property 1/51 type 4 writable size 2 maximum 4 count 1 r3 w1
    1000
property 2/7 type 3 size 1 maximum 1 count 1 r3 w3
    7

group 1/0/1 code 1 read write
    00

user 0100h r3 w1
    c0 c1 c2 c3

end
";

/// What somebody wrote past the device.
const PAST: [(&str, &str); 10] = [
    ("serial 00c501020305", "serial 00c501020306"),
    ("verify on", "verify off"),
    ("key 0 11111111", "key 0 11111112"),
    ("r3 w2\n    a0 a1", "r2 w2\n    55 a1"),
    ("type 4 writable size 2 maximum 4 count 1", "type 5 size 2 maximum 4 count 3"),
    ("    1000", "    1000 0 77"),
    ("    7\n", "    8\n"),
    ("read write\n    00", "read\n    09"),
    ("c0 c1", "c0 66"),
    ("b6 b7", "99 b7"),
];

const EVENTS: &str = "connect connection=0
request mode=3 connection=0 apdu=03d10011111111 # the key of level 0
request mode=3 connection=0 apdu=03d30133333333 # a new one of level 1
request mode=3 connection=0 apdu=03d70133200103f10457 # two elements, and with them the count
request mode=3 connection=0 apdu=03d70133100103f2 # the low byte of the first
request mode=3 connection=0 apdu=028201000102 # two bytes of memory
request mode=3 connection=0 apdu=0281010103 # the second of them again
connect connection=1
request mode=3 connection=1 apdu=0284010405060708 # open to all
request mode=3 connection=1 apdu=0281010209 # not open
request mode=3 connection=1 apdu=03d100ffffffff # the public key, of level 2
request mode=3 connection=1 apdu=0281010209 # now it is
request mode=3 connection=1 apdu=03d70133100103f3 # the height is not
request mode=3 connection=1 apdu=03d300ffffffff # nor key 0
request mode=3 connection=1 apdu=02c201010066 # nor user memory
request mode=3 connection=0 apdu=02c20101020a # for level 0 it is
request mode=3 connection=1 apdu=03d000
request mode=3 connection=1 apdu=03d001010bf00f # bits of memory, open to all
request mode=0 group=0801 apdu=008001
request mode=0 group=0802 apdu=008002
button on
request mode=1 apdu=00c01155
request mode=2 apdu=03d50133100103
button off
request mode=4 apdu=0300
request mode=3 connection=7 apdu=0300
end
";

#[test]
fn asked_for() {
    let room = room("asked");
    let text = include_str!("../kelindap-trace.txt");
    assert_eq!(told(&room, &["--help"]), said(0, text, ""));
    let header = include_str!("../../../include/kelindap_common.h");
    let (status, version, err) = told(&room, &["--version"]);
    assert_eq!((status, err.as_str()), (0, ""));
    let number = version.trim_end().strip_prefix("trace of kelindap ").unwrap();
    assert!(header.contains(&format!("KELINDAP_VERSION_TEXT \"{number}\"")), "{version}");
    let numbers: Vec<u32> = number.split('.').map(|n| n.parse().unwrap()).collect();
    let own = 65536 * numbers[0] + 256 * numbers[1] + numbers[2];
    assert_eq!(archive::versions(), [own; 2]);
}

/// Each command's help has what the whole says of it; that of make tells the forms too.
#[test]
fn help_by_command() {
    let room = room("help");
    let whole = include_str!("../kelindap-trace.txt");
    for command in ["show", "make", "play", "explain"] {
        let (status, text, err) = told(&room, &[command, "--help"]);
        assert_eq!((status, err.as_str()), (0, ""));
        assert!(text.starts_with(&format!("SYNOPSIS\n    kelindap-trace {command} ")), "{text}");
        assert!(text.lines().all(|line| whole.lines().any(|there| there == line)), "{text}");
        assert_eq!(text.contains("\nFORMS\n    text\n"), command == "make", "{text}");
        assert_eq!(text.contains("\n    --final DUMP\n"), command == "explain", "{text}");
        assert_eq!(told(&room, &["help", command]).1, text);
    }
}

/// A file of another kind than is wanted is told as what it is; a sheet and a trace exchanged too.
#[test]
fn another_kind() {
    let room = room("kinds");
    make(&room);
    fs::write(room.join("text"), room::BEFORE).unwrap();
    let cases: [(&[&str], &str); 12] = [
        (&["show", "before"], "before: this is a sheet, and a trace is wanted"),
        (&["show", "text"], "text: this is the text of a sheet, and a trace is wanted"),
        (&["show", "laptop.hex"], "laptop.hex: this is a recording in hex, and a trace is wanted"),
        (
            &["show", "laptop.trace.times"],
            "laptop.trace.times: this is the side file of a trace, and a trace is wanted",
        ),
        (&["play", "laptop.trace", "before"], "before: this is a sheet, and a trace is wanted"),
        (
            &["play", "laptop.trace", "laptop.trace"],
            "laptop.trace: this is a trace, and a sheet is wanted",
        ),
        (
            &["explain", "text", "laptop.trace"],
            "text: this is the text of a sheet, and a sheet is wanted",
        ),
        (
            &["explain", "before", "laptop.trace", "--final", "text"],
            "text: this is the text of a sheet, and a sheet is wanted",
        ),
        (
            &["make", "hex", "laptop.trace", "x", "--sheet", "before"],
            "laptop.trace: this is a trace, and a recording in hex is wanted",
        ),
        (
            &["make", "text", "laptop.hex", "x"],
            "laptop.hex: this is a recording in hex, and the text of a trace is wanted",
        ),
        (
            &["make", "ets", "laptop.hex", "x", "--sheet", "before"],
            "laptop.hex: this is a recording in hex, and a recording of ETS is wanted",
        ),
        (
            &["make", "hex", "laptop.hex", "x", "--sheet", "text"],
            "text: this is the text of a sheet, and a sheet is wanted",
        ),
    ];
    for (words, what) in cases {
        assert_eq!(told(&room, words), said(2, "", &format!("trace: {what}\n")), "{words:?}");
    }
    assert!(!room.join("x").exists());
}

/// Who closes the pipe has seen enough: no word on it, and the status is what it would have been.
#[test]
fn closed_pipe() {
    let room = room("pipe");
    let text: String = "button on time=1\n".repeat(512 * 20) + "end\n";
    fs::write(room.join("text"), text).unwrap();
    assert_eq!(told(&room, &["make", "text", "text", "t"]).0, 0);
    let program = env!("CARGO_BIN_EXE_trace");
    let names: Vec<String> = (1..=20).map(|n| format!("t-{n:02}")).collect();
    let script = format!("({program} play before {}; echo $? >&2) | true", names.join(" "));
    let got = Command::new("sh").args(["-c", &script]).current_dir(&room).output().unwrap();
    assert_eq!(String::from_utf8(got.stderr).unwrap(), "0\n");
}

/// Words that are no command, and an output that can't be written.
#[test]
fn wrong_use() {
    let room = room("wrong");
    make(&room);
    let cases: [(&[&str], &str); 15] = [
        (&[], "no command is given; trace --help says more"),
        (&["show"], "TRACE is missing; trace show --help says more"),
        (&["show", "a", "b"], "a word too many: \"b\"; trace show --help says more"),
        (&["shew", "a"], "no command \"shew\", perhaps show; trace --help says more"),
        (
            &["show", "--key", "a"],
            "no option \"--key\", perhaps --keys; trace show --help says more",
        ),
        (&["show", "--keys", "--keys", "a"], "--keys is given twice; trace show --help says more"),
        (&["show", "--force", "a"], "no option \"--force\"; trace show --help says more"),
        (&["play", "before"], "TRACE is missing; trace play --help says more"),
        (&["play"], "SHEET and TRACE are missing; trace play --help says more"),
        (&["explain", "before"], "TRACE is missing; trace explain --help says more"),
        (
            &["explain", "before", "laptop.trace", "--final"],
            "--final needs DUMP; trace explain --help says more",
        ),
        (&["make", "hex", "laptop.hex"], "TRACE is missing; trace make --help says more"),
        (&["make", "pcap", "laptop.hex", "x"], "no form \"pcap\"; trace make --help says more"),
        (
            &["make", "knxtol", "laptop.hex", "x"],
            "no form \"knxtol\", perhaps knxtool; trace make --help says more",
        ),
        (
            &["make", "hex", "laptop.hex", "x", "--sheet", "before", "--sheet", "before"],
            "--sheet is given twice; trace make --help says more",
        ),
    ];
    for (words, what) in cases {
        assert_eq!(told(&room, words), said(2, "", &format!("trace: {what}\n")), "{words:?}");
    }
    let full = fs::OpenOptions::new().write(true).open("/dev/full").unwrap();
    let got = Command::new(env!("CARGO_BIN_EXE_trace"))
        .args(["show", "laptop.trace"])
        .current_dir(&room)
        .stdout(full)
        .output()
        .unwrap();
    assert_eq!(got.status.code(), Some(2));
    assert!(String::from_utf8(got.stderr).unwrap().starts_with("trace: standard output: "));
}

/// How far it is, where standard error is a terminal, and nothing of it elsewhere. The terminal is that of script, where it
/// is installed.
const FRAMES: usize = 2_000_000;

#[test]
fn progress() {
    let room = room("progress");
    let frame = "2900b06011fa11060080\n"; // of another device, so that no trace is written
    fs::write(room.join("long.hex"), frame.repeat(FRAMES)).unwrap();
    let words = ["make", "hex", "long.hex", "long.trace", "--sheet", "before"];
    let got = run(&room, &words);
    assert_eq!((got.status.code(), got.stderr.len()), (Some(0), 0));
    let script = Command::new("script").arg("--version").stdout(Stdio::null()).status();
    if !script.is_ok_and(|status| status.success()) {
        eprintln!("no script is installed: no terminal was tried");
        return;
    }
    let program = env!("CARGO_BIN_EXE_trace");
    let line = format!("{program} {} --force > /dev/null", words.join(" "));
    let got = Command::new("script")
        .args(["-qec", &line, "/dev/null"])
        .current_dir(&room)
        .stdin(Stdio::null())
        .output()
        .unwrap();
    let said = String::from_utf8(got.stdout).unwrap();
    assert!(
        got.status.success()
            && said.contains("\rframes: ")
            && said.contains(&format!(" of {FRAMES}")),
        "{said:?}"
    );
}
