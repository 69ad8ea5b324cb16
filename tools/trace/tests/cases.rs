//! The worked trace by hand, each refusal with its place, each fault of a text and of a side file.

use trace::events::{self, Event};
use trace::evidence::{self, Evidence};
use trace::text;
use trace::times::{self, Known};

/// The trace of docs/TRACE.md.
const WORKED: [u8; 44] = [
    0x00, 0x05, 0x01, 0x1A, 0x00, 0x00, 0x00, 0x2A, 0x00, 0x00, 0x00, 0x13, 0x12, 0x34, 0x00, 0x2A,
    0x02, 0x00, 0x03, 0x00, 0x00, 0x00, 0x00, 0x2C, 0x00, 0x00, 0x04, 0x00, 0x00, 0x00, 0x00, 0x2C,
    0x00, 0x00, 0x02, 0x0F, 0x00, 0x00, 0x00, 0x2C, 0x00, 0x00, 0x03, 0x00,
];

const TEXT: &str = "1 connect connection=1 mode=10
2 request mode=3 connection=1 group=1234 apdu=0300  # descriptor_read t=0
3 button on
4 button off
5 disconnect connection=0 mode=15
end
";

fn bytes(text: &str) -> Result<Vec<u8>, String> {
    let events = text::events(text)?;
    Ok(events::write(&events.into_iter().map(|(event, _)| event).collect::<Vec<_>>()))
}

#[test]
fn by_hand() {
    let read = events::read(&WORKED).unwrap();
    assert_eq!(text::text(&read, &[], true), TEXT);
    assert_eq!(text::text(&read, &[], false), TEXT);
    assert_eq!(bytes(TEXT).unwrap(), WORKED);
    let document = include_str!("../../../docs/TRACE.md");
    let digits: String = document
        .split("## A worked trace")
        .nth(1)
        .unwrap()
        .lines()
        .filter(|line| line.matches('|').count() == 4 && line[2..].starts_with(char::is_numeric))
        .filter_map(|line| line.split('|').nth(2))
        .flat_map(|cell| cell.chars().filter(char::is_ascii_hexdigit).collect::<Vec<_>>())
        .take(88)
        .collect();
    assert_eq!(digits.to_lowercase(), sheet::layout::hex(&WORKED));
}

/// Other ways to write the same.
#[test]
fn free_forms() {
    let other = "# a trace\r\n\n  connect mode=10 connection=1\n2 request apdu=0300 group=1234 connection=1 mode=3\n
        button on # pressed\r\nbutton off\ndisconnect connection=0 mode=15 group=0000\nend";
    assert_eq!(bytes(other).unwrap(), WORKED);
    assert_eq!(bytes("end\n").unwrap(), [0, 0]);
    let least = Event { mode: 2, apdu: vec![3, 0], ..Event::default() };
    assert_eq!(bytes("request mode=2 apdu=0300\nend").unwrap(), events::write(&[least]));
}

#[test]
fn hidden_keys() {
    let shown = |apdu: &str| {
        let text = format!("request mode=3 connection=0 apdu={apdu}\nend\n");
        let read = events::read(&bytes(&text).unwrap()).unwrap();
        [false, true].map(|keys| {
            let text = text::text(&read, &[], keys);
            text.lines().next().unwrap().split("apdu=").nth(1).unwrap().to_string()
        })
    };
    let hidden = |words: &str| format!("hidden  # {words}");
    let [without, with] = shown("43d10022222222");
    assert_eq!(without, hidden("authorize_request key=hidden"));
    assert_eq!(with, "43d10022222222  # authorize_request key=22222222");
    let [without, with] = shown("03d30122222222");
    assert_eq!(without, hidden("key_write level=1 key=hidden"));
    assert_eq!(with, "03d30122222222  # key_write level=1 key=22222222");
    // the public key hides nothing; one of another length may be a slip with the key in it
    let public = "03d100ffffffff  # authorize_request key=ffffffff";
    assert_eq!(shown("03d100ffffffff"), [public, public]);
    assert_eq!(shown("03d1002222222233")[0], hidden("unfit length or value (10)"));
    assert_eq!(shown("03d1")[0], hidden("unfit length or value (10)"));
    assert_eq!(shown("-"), ["-  # the length is wrong (5)"; 2]);
    assert_eq!(shown("03"), ["03  # the length is wrong (5)"; 2]);
}

#[test]
fn refusals() {
    let refused = |changes: &[(usize, u8)], upto: usize| {
        let mut trace = WORKED.to_vec();
        for &(at, byte) in changes {
            trace[at] = byte;
        }
        trace.resize(upto, 0);
        events::read(&trace).unwrap_err()
    };
    assert_eq!(refused(&[], 0), "50: too short for a trace: offset 0: 0 bytes");
    assert_eq!(refused(&[], 1), "50: too short for a trace: offset 0: 1 byte");
    assert_eq!(refused(&[(0, 2)], 44), "51: too many events: offset 0: 517 events, more than 512");
    assert_eq!(
        refused(&[(1, 6)], 44),
        "52: the table does not fit: offset 2: the table ends at 50, the trace at 44"
    );
    assert_eq!(refused(&[(2, 5)], 44), "53: an unknown kind of event: offset 2: event 1, kind 5");
    assert_eq!(
        refused(&[(8, 1)], 44),
        "54: a length of an event that has none: offset 8: event 1, a length of 1 and no request"
    );
    assert_eq!(
        refused(&[(25, 7)], 44),
        "55: an entry's last byte is not zero: offset 25: event 3, the last byte is 7"
    );
    assert_eq!(
        refused(&[(15, 0x29)], 44),
        "56: an offset other than the end before: offset 14: event 2, its APDU begins at 41, what is before it ends at 42"
    );
    assert_eq!(
        refused(&[(16, 3)], 44),
        "57: an APDU past the end of the trace: offset 16: event 2, its APDU ends at 45, the trace at 44"
    );
    assert_eq!(refused(&[], 46), "58: bytes behind the last APDU: offset 44: 2 bytes left over");
}

#[test]
fn faults() {
    let cases = [
        ("3 button on", "4 button on", "line 3: event \"4\" stands where 3 is due"),
        ("3 button on", "3", "line 3: event 3 is not said"),
        ("button on", "button up", "line 3: button is on or off: \"up\""),
        ("button on", "button", "line 3: button is on or off, and neither is said"),
        ("button on", "press on", "line 3: \"press\" is no request, connect, disconnect or button"),
        ("button on", "button on apdu=00", "line 3: \"apdu\" is no field of a button"),
        ("connect connection=1", "connect", "line 1: connection of the connect is missing"),
        ("connection=1 mode", "connection=16 mode", "line 1: connection is \"16\", not 0 to 15"),
        ("mode=10", "mode=-1", "line 1: mode is \"-1\", not 0 to 15"),
        ("mode=10", "mode=1 mode=1", "line 1: mode is given twice"),
        ("mode=10", "mode", "line 1: \"mode\" is no field with its value"),
        ("mode=3 ", "", "line 2: mode of the request is missing"),
        ("mode=3 connection=1", "mode=3", "line 2: connection of the request is missing"),
        ("mode=3 connection=1 group=1234", "mode=0", "line 2: group of the request is missing"),
        ("group=1234", "group=12g4", "line 2: group is not 4 hex digits: \"12g4\""),
        ("group=1234", "group=1/0/1", "line 2: group is not 4 hex digits: \"1/0/1\""),
        (" apdu=0300", "", "line 2: apdu of the request is missing"),
        ("apdu=0300", "apdu=030", "line 2: apdu is not bytes in hex: \"030\""),
        ("apdu=0300", "apdu=", "line 2: apdu has 0 bytes, not 1 to 255, or - for none"),
        (
            "apdu=0300",
            "apdu=hidden",
            "line 2: apdu is hidden, for it has a key: show the trace with --keys",
        ),
        ("button on", "button on time=;", "line 3: no time: \";\""),
        ("button on", "button on time=1 time=1", "line 3: time is given twice"),
        (
            "button on",
            "button on from=1.16.1",
            "line 3: no individual address, as 1.1.250: \"1.16.1\"",
        ),
        (
            "button on",
            "button on from=1.1.01",
            "line 3: no individual address, as 1.1.250: \"1.1.01\"",
        ),
        ("end\n", "end of it\n", "line 6: \"of\" is one word too many"),
        ("end\n", "end\nend\n", "line 7: \"end\" stands behind the end"),
        ("end\n", "", "line 5: end is missing as the last line: the text may have been cut off"),
        (
            "3 button on",
            "\u{1b}[31mpress\u{202e}23456789012345678901",
            "line 3: \"?[31mpress?2345678901234..\" is no request, connect, disconnect or button",
        ),
    ];
    for (from, to, what) in cases {
        assert!(TEXT.contains(from));
        assert_eq!(text::events(&TEXT.replacen(from, to, 1)).unwrap_err(), what);
    }
    let long = format!("request mode=2 apdu={}\nend", "00".repeat(256));
    let what = "line 1: apdu has 256 bytes, not 1 to 255, or - for none";
    assert_eq!(text::events(&long).unwrap_err(), what);
    assert!(text::events("").unwrap_err().starts_with("line 1: end is missing"));
}

/// A text that was cut off, wherever, is refused.
#[test]
fn cut_off() {
    for upto in 0..TEXT.trim_end().len() {
        assert!(text::events(&TEXT[..upto]).is_err(), "cut off behind {:?}", &TEXT[..upto]);
    }
}

fn known() -> Vec<Known> {
    let mut known = vec![Known::default(); 5];
    known[1] = Known { time: Some("08:15:02.1".to_string()), from: Some(0x11FA) };
    known[4].from = Some(0xFFFF);
    known
}

const TIMES: &str = "times of a trace: events=5 bytes=44 sum=SUM
2 time=08:15:02.1 from=1.1.250
5 from=15.15.255
end
";

#[test]
fn side_file() {
    let written = times::write(&WORKED, &known()).unwrap();
    let sum = written.split("sum=").nth(1).unwrap().split('\n').next().unwrap();
    assert_eq!(sum, "50756af2");
    assert_eq!(written, TIMES.replace("SUM", sum));
    assert_eq!(times::read(&written, &WORKED, 5).unwrap(), known());
    assert_eq!(times::write(&WORKED, &vec![Known::default(); 5]), None);
    let cases = [
        ("sum=50", "sum=51", "line 1: it is not of this trace"),
        ("events=5", "events=6", "line 1: it is not of this trace"),
        ("times of", "time of", "line 1: it is not of this trace"),
        ("2 time", "x time", "line 2: no number of an event: \"x\""),
        ("2 time", "0 time", "line 2: event 0 is not one of 1 to 5"),
        ("5 from", "2 from", "line 3: event 2 is not one of 3 to 5"),
        ("5 from", "6 from", "line 3: event 6 is not one of 3 to 5"),
        ("5 from", "5 mode", "line 3: mode is neither time nor from"),
        ("15.15.255", "15.15", "line 3: no individual address, as 1.1.250: \"15.15\""),
        ("end", "", "line 4: end is missing as the last line: it may have been cut off"),
        ("end", "end\nend", "line 5: \"end\" stands behind the end"),
        ("end", "end now", "line 4: \"now\" is one word too many"),
    ];
    for (from, to, what) in cases {
        assert!(written.contains(from), "{from}");
        let fault = times::read(&written.replacen(from, to, 1), &WORKED, 5).unwrap_err();
        assert_eq!(fault, what);
    }
}

const EVIDENCE: &str = "evidence of a trace: form=1 events=5 bytes=44 sum=50756af2
device heard=yes
1 line=4
2 line=5 data=yes taken=acknowledged answer=same
3 line=7 data=yes taken=ended answer=absent silence=30
4 line=8 taken=unwired
5 line=9 data=yes taken=refused twofold=yes
gap behind=0 line=3 why=stopped from=8:00 to=16:00
gap behind=1 line=5 why=unconnected
gap behind=2 line=5 why=lost
gap behind=2 line=6 why=counted frames=3
gap behind=5 line=9 why=unreadable
loss behind=3 line=7 sign=turn times=1
loss behind=4 line=8 sign=stray-receipt times=2
parted behind=4 line=8 asked=no
own behind=1 line=5 group=0801
forged behind=2 line=6 what=itself
forged behind=3 line=7 what=disconnect
left behind=4 line=8 why=out-of-turn time=8:15 from=1.1.250 apdu=47d70133
left behind=4 line=8 why=untaken apdu=-
back behind=5 line=9 times=2
end
";

/// Every line of evidence, there and back, and its faults.
#[test]
fn evidence_file() {
    let read = |text: &str| evidence::read(text, &WORKED, 5);
    let all = read(EVIDENCE).unwrap();
    assert_eq!(evidence::write(&WORKED, &all), EVIDENCE);
    assert!(!all.clean() && !all.fits() && all.device);
    // the parts of several traces hold all of it, each once, and together again they are the whole
    let parts = [all.part(0, 2, false), all.part(2, 5, true)];
    let count = |e: &Evidence| {
        [e.events.len(), e.gaps.len(), e.losses.len(), e.own.len(), e.forged.len(), e.left.len()]
    };
    assert_eq!(count(&parts[0]), [2, 4, 0, 1, 1, 0]);
    assert_eq!(count(&parts[1]), [3, 1, 2, 0, 1, 2]);
    assert_eq!(parts[1].behind(2).losses, all.losses);
    assert_eq!(parts[1].losses[0].at.behind, 1);
    let cases = [
        ("form=1", "form=2", "line 1: form 2, and 1 is read"),
        ("sum=50", "sum=51", "line 1: it is not of this trace"),
        ("heard=yes", "heard=may", "line 2: heard is \"may\", not yes or no"),
        ("1 line=4\n", "", "line 3: \"2\" stands where event 1 is due"),
        ("1 line=4", "1 line=x", "line 3: line is no number: \"x\""),
        ("1 line=4", "1 line=4 line=4", "line 3: line is given twice"),
        ("1 line=4", "1 line=4 x=4", "line 3: \"x\" does not belong here"),
        ("taken=ended", "taken=so", "line 5: taken is \"so\", which is not known"),
        ("answer=same", "answer=so", "line 4: answer is \"so\", which is not known"),
        ("why=lost", "why=so", "line 10: why is \"so\", which is not known"),
        ("sign=turn", "sign=so", "line 13: sign is \"so\", which is not known"),
        ("sign=turn times", "sign=turn time", "line 13: times is missing"),
        ("what=itself", "what=so", "line 17: what is \"so\", which is not known"),
        ("own behind=1", "own behind=6", "line 16: behind 6 of 5 events"),
        ("group=0801", "group=1/0/1", "line 16: group is not 4 hex digits: \"1/0/1\""),
        ("apdu=47d70133", "apdu=4", "line 19: apdu is not bytes in hex"),
        ("end\n", "", "line 21: end is missing as the last line: it may have been cut off"),
        ("end\n", "end\nend\n", "line 23: \"end\" stands behind the end"),
        ("5 line=9 data=yes taken=refused twofold=yes\n", "", "line 21: event 5 is missing"),
    ];
    for (from, to, what) in cases {
        assert!(EVIDENCE.contains(from), "{from}");
        assert_eq!(read(&EVIDENCE.replacen(from, to, 1)).unwrap_err(), what);
    }
}

/// So many events, and APDUs so long, fit in one trace; what is more goes on in the next.
#[test]
fn several() {
    let of = |n: usize, length: usize| {
        vec![Event { mode: 2, apdu: vec![3; length], ..Event::default() }; n]
    };
    assert_eq!(events::lengths(&[]), [0]);
    assert_eq!(events::lengths(&of(512, 2)), [512]);
    assert_eq!(events::lengths(&of(513, 2)), [512, 1]);
    assert_eq!(events::lengths(&of(1300, 16)), [512, 512, 276]);
    // 2 + 8 n + 255 (n - 1) is at most 65535
    assert_eq!(events::lengths(&of(500, 255)), [250, 250]);
    for part in [of(250, 255), of(512, 16)] {
        assert_eq!(events::read(&events::write(&part)).unwrap(), part);
    }
    assert!(events::read(&events::write(&of(251, 255))).is_err());
    use trace::make::names;
    assert_eq!(names("day.trace", 1), ["day.trace"]);
    assert_eq!(names("a.b/day.trace", 2), ["a.b/day-1.trace", "a.b/day-2.trace"]);
    assert_eq!(names("a.b/day", 2), ["a.b/day-1", "a.b/day-2"]);
    assert_eq!(names("a/.day", 2), ["a/.day-1", "a/.day-2"]);
    assert_eq!(names("day.trace", 12)[..2], ["day-01.trace", "day-02.trace"]);
}
