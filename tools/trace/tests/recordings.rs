//! Recordings: the forms and their faults; frames off the wire; whose connection is whose.

use trace::archive;
use trace::events::Event;
use trace::make::{from_frames, Made, Why};
use trace::progress::Progress;
use trace::recordings::{self, Form, Recorded, Recording};
use trace::text;

fn recorded(line: usize, time: Option<&str>, digits: &str, wire: bool) -> Recorded {
    let bytes = text::bytes_of(digits).unwrap();
    Recorded { line, time: time.map(str::to_string), bytes, wire, status: None }
}

fn whole(form: Form, text: &str) -> Result<Recording, String> {
    recordings::read(form, text, false)
}

fn read(form: Form, text: &str) -> Result<Vec<Recorded>, String> {
    whole(form, text).map(|recording| recording.frames)
}

#[test]
fn hex_frames() {
    let text =
        "# a recording\n2900BCE011140801010081\n\n08:15:01.5 29 00 bc e0 11 14 08 01 01 00 80 # off
12.5\t2900bce011140801010081\r\n2026-03-02 8:15:1 2900bce011140801010081\n";
    let same = "2900bce011140801010081";
    let all = [
        recorded(2, None, same, false),
        recorded(4, Some("08:15:01.5"), "2900bce011140801010080", false),
        recorded(5, Some("12.5"), same, false),
        recorded(6, Some("2026-03-02T8:15:1"), same, false),
    ];
    assert_eq!(read(Form::Hex, text).unwrap(), all);
    let cases = [
        ("\n29 00 bx", "line 2, column 8: no hex digit"),
        ("2900b", "line 1, column 6: half a byte"),
        ("08:15 2900b", "line 1, column 12: half a byte"),
        ("08:15", "line 1, column 6: a time and no frame"),
        ("2026-03-02 08:15 +01:00 29", "line 1, column 18: a time has a date and a clock at most"),
        (
            "1772439302 2900",
            "line 1, column 1: a frame is one word, or a word of two digits for each byte",
        ),
        ("29 0", "line 1, column 4: a frame is one word, or a word of two digits for each byte"),
        ("8:15;2 29", "line 1, column 1: no time: \"8:15;2\""),
        ("über 29", "line 1, column 1: no hex digit"),
        ("29 üb", "line 1, column 4: no hex digit"),
    ];
    for (text, what) in cases {
        assert_eq!(read(Form::Hex, text).unwrap_err(), what);
    }
}

const ETS: &str = "\u{feff}<?xml version=\"1.0\" encoding=\"utf-8\"?>
<CommunicationLog xmlns=\"http://knx.org/xml/telegrams/01\">
  <!-- of a group monitor -->
  <RecordStart Timestamp=\"2026-03-02T07:15:00.1Z\" Mode=\"LinkLayer\" Host=\"hall &amp; tank\" />
  <Telegram Timestamp=\"2026-03-02T07:15:01.0042Z\" Service=\"L_Data.ind\" FrameFormat=\"CommonEmi\" RawData=\"2900BCE011140801010081\" />
  <Telegram RawData='2B0703010404024502BC11140801E100812F' Service='L_Busmon.ind'></Telegram>
</CommunicationLog>
";

#[test]
fn ets_export() {
    let all = [
        recorded(5, Some("2026-03-02T07:15:01.0042Z"), "2900bce011140801010081", false),
        Recorded { status: Some(4), ..recorded(6, None, "bc11140801e100812f", true) },
    ];
    assert_eq!(read(Form::Ets, ETS).unwrap(), all);
    let cases = [
        (
            "<?xml",
            "<!DOCTYPE x><?xml",
            "line 1, column 1: a declaration such as DOCTYPE, which no export has",
        ),
        ("CommonEmi", "Emi2", "line 5, column 3: a Telegram of the format \"Emi2\", not CommonEmi"),
        ("RawData=\"29", "Raw=\"29", "line 5, column 3: a Telegram without RawData"),
        (
            "2900BCE0",
            "2900BCEX",
            "line 5, column 3: RawData is not bytes in hex from its digit 8 on",
        ),
        (
            "010081\"",
            "01008\"",
            "line 5, column 3: RawData is not bytes in hex from its digit 22 on",
        ),
        ("07:15:01.0042Z", "07 15", "line 5, column 3: no time: \"2026-03-02T07 15\""),
        ("&amp;", "&nbsp;", "line 4, column 79: & and no character's name behind it"),
        ("&amp;", "&#55296;", "line 4, column 79: & and no character's name behind it"),
        ("hall", "<hall", "line 4, column 74: < in a value"),
        ("Mode=\"", "Mode=", "line 4, column 56: a value in quotation marks is due"),
        ("Mode=", "Mode", "line 4, column 55: = is due"),
        ("Mode=", "Mode =", ""),
        ("Mode=\"", "Mode \"", "line 4, column 56: = is due"),
        ("Mode=", "Host=", "line 4, column 72: Host is given twice"),
        ("\" Mode", "\"Mode", "line 4, column 50: a blank, > or /> is due"),
        ("</Telegram>", "</Telegramm>", "line 6, column 83: Telegramm ends and is not open"),
        ("</CommunicationLog>", "", "line 8, column 1: the end: CommunicationLog has not ended"),
        ("</CommunicationLog>", "</CommunicationLog", "line 8, column 1: > is due"),
        ("</CommunicationLog>", "</CommunicationLog><x/>", "line 7, column 20: a second root"),
        (
            "</CommunicationLog>",
            "</CommunicationLog>x",
            "line 7, column 20: text outside of all elements",
        ),
        ("-->", "->", "line 3, column 3: a comment without its end"),
        ("<!-- of", "<![CDATA[ of", "line 3, column 3: a CDATA section without its end"),
        ("<!-- of", "<![CDATA[<x>]]><!-- of", ""),
        ("?>", ">", "line 1, column 1: an instruction without its end"),
        ("<RecordStart", "< RecordStart", "line 4, column 4: a name is due"),
    ];
    for (from, to, what) in cases {
        assert!(ETS.contains(from), "{from}");
        let got = read(Form::Ets, &ETS.replacen(from, to, 1));
        assert_eq!(got.err().unwrap_or_default(), what, "{to}");
    }
    assert_eq!(
        read(Form::Ets, "").unwrap_err(),
        "line 1, column 1: the end, and no element before it"
    );
    let deep = "<a>".repeat(65);
    let what = "line 1, column 196: more than 64 elements in each other";
    assert_eq!(read(Form::Ets, &deep).unwrap_err(), what);
    let many: String = (0..65).map(|i| format!(" a{i}=''")).collect();
    let what = read(Form::Ets, &format!("<a{many}/>")).unwrap_err();
    assert!(what.ends_with(": more than 64 attributes"), "{what}");
    assert_eq!(read(Form::Ets, "<a b='").unwrap_err(), "line 1, column 7: a value without its end");
    // an export that was cut off, wherever, is refused
    let whole = ETS.trim_end();
    for upto in (0..whole.len()).filter(|&upto| whole.is_char_boundary(upto)) {
        assert!(read(Form::Ets, &whole[..upto]).is_err(), "cut off behind {:?}", &whole[..upto]);
    }
}

#[test]
fn knxtool_text() {
    let text = "L_Busmon: BC 11 14 08 01 E1 00 81 2F :L_Data low from 1.1.20 to 1/0/1 hops: 06 T_Data_Group A_GroupValue_Write (small) 01
LPDU: BC 11 14 08 01 E1 00 81 2F :L_Data low from 1.1.20 to 1/0/1
2026-3-02 8:15:4 : L_Busmonitor: CC :L_ACK
BC 11 14 08 01 E1 00 81 2F 
TS-Base: 00012345
(0, 0001a2b3) BC 11 14 08 01 E1 00 81 2F 
Logfile opened

L_Busmon: empty LPDU
";
    let same = "bc11140801e100812f";
    let all = [
        recorded(1, None, same, true),
        recorded(2, None, same, true),
        recorded(3, Some("2026-3-02T8:15:4"), "cc", true),
        recorded(4, None, same, true),
        Recorded { status: Some(0), ..recorded(6, Some("0001a2b3"), same, true) },
    ];
    assert_eq!(read(Form::Knxtool, text).unwrap(), all);
    let cases = [
        (
            "LPDU: BC 1",
            "line 1, column 10: a frame is one word, or a word of two digits for each byte",
        ),
        ("LPDU: BC 1G", "line 1, column 11: no hex digit"),
        ("BC 11 :L_Data", "line 1, column 7: neither bytes nor a label before them"),
        ("(0, 0001a2b3 BC", "line 1, column 16: ) is due"),
        ("Open failed", "line 1, column 1: no hex digit"),
    ];
    for (text, what) in cases {
        assert_eq!(read(Form::Knxtool, text).unwrap_err(), what);
    }
}

// ---- events ----

fn sheet() -> Vec<u8> {
    sheet::make::bytes(include_str!("../../../examples/accident/before.txt")).unwrap()
}

fn made_of(form: Form, text: &str) -> Made {
    assert_eq!(archive::check(&sheet()), 0);
    from_frames(&whole(form, text).unwrap(), &sheet(), &mut Progress::new("frames", 0))
}

/// The events as text, without numbers and what is known, and what was left out.
fn told(made: &Made) -> (Vec<String>, Vec<(Why, usize)>) {
    let events = made.events.iter().map(|(event, _)| text::event(event, true)).collect();
    (events, made.left.iter().map(|(why, frames)| (*why, *frames)).collect())
}

fn hears(frames: &[&str]) -> (Vec<String>, Vec<(Why, usize)>) {
    told(&made_of(Form::Hex, &frames.join("\n")))
}

const A: &str = "11fa";
const B: &str = "11fb";
const C: &str = "11fc";
const OWN: &str = "1105";

/// A frame from an address to another: its TPDU.
fn to(from: &str, destination: &str, tpdu: &str) -> String {
    format!("2900b060{from}{destination}{:02x}{tpdu}", tpdu.len() / 2 - 1)
}

fn connect(from: &str) -> String {
    to(from, OWN, "80")
}

fn disconnect(from: &str) -> String {
    to(from, OWN, "81")
}

/// Descriptor_Read on a connection, with a sequence number.
fn asks(from: &str, sequence: u8) -> String {
    to(from, OWN, &format!("{:02x}00", 0x43 | sequence << 2))
}

fn hear(frames: &[String]) -> (Vec<String>, Vec<(Why, usize)>) {
    hears(&frames.iter().map(String::as_str).collect::<Vec<_>>())
}

fn on(connection: u8, sequence: u8) -> String {
    let first = 0x43 | sequence << 2;
    format!("request mode=3 connection={connection} group=0000 apdu={first:02x}00")
}

#[test]
fn whose_connection() {
    let (events, left) = hear(&[
        asks(A, 0),    // no partner yet: 61
        connect(A),    // 0
        connect(B),    // 1
        connect(C),    // turned away: 62
        asks(C, 0),    // 61
        asks(A, 0),    // on 0
        asks(B, 0),    // on 1
        disconnect(C), // 63
        connect(A),    // 0 again, and it keeps its number
        asks(A, 0),    // on 0, a new connection's first
        disconnect(A), // 0 is free
        connect(C),    // and goes to the third
        asks(C, 0),    // on 0
        asks(A, 1),    // 61
        asks(B, 1),    // on 1
    ]);
    let expected = [
        "connect connection=0".to_string(),
        "connect connection=1".to_string(),
        on(0, 0),
        on(1, 0),
        "connect connection=0".to_string(),
        on(0, 0),
        "disconnect connection=0".to_string(),
        "connect connection=0".to_string(),
        on(0, 0),
        on(1, 1),
    ];
    assert_eq!(events, expected);
    assert_eq!(left, [(Why::Number(61), 3), (Why::Number(62), 1), (Why::Number(63), 1)]);
}

#[test]
fn for_another() {
    let (events, left) = hear(&[
        to(A, "1106", "80"),
        to(A, "1106", "c2"),
        "2900bce011140801010081".to_string(),
        "2900bce01114000001010001".replace("01010001", "010100"),
        to(A, OWN, "0300"),
        to(A, OWN, "c2"),
        to(A, OWN, "82"),
        "2b00".to_string(),
        "29".to_string(),
        "29003060110511fa0143".to_string() + "00",
        "2900b06011fa11050200".to_string(),
        "2d00b06011fa11050080".to_string(),
    ]);
    let expected = [
        "request mode=0 connection=0 group=0801 apdu=0081",
        "request mode=1 connection=0 group=0000 apdu=0100",
        "request mode=2 connection=0 group=0000 apdu=0300",
    ];
    assert_eq!(events, expected);
    let left_out = [
        (Why::Number(40), 2),
        (Why::Number(41), 1),
        (Why::Number(42), 1),
        (Why::Number(43), 1),
        (Why::Number(44), 1),
        (Why::Number(45), 1),
        (Why::Number(60), 2),
    ];
    assert_eq!(left, left_out);
}

/// What the device sends is no event, but that it ends a connection itself.
#[test]
fn sent_by_the_device() {
    let (events, left) = hear(&[
        connect(A),
        to(OWN, A, "c2"),
        to(OWN, C, "81"), // a third one turned away
        to(OWN, A, "81"), // a time limit
        asks(A, 0),
        connect(B),
        asks(B, 0),
    ]);
    let expected = [
        "connect connection=0".to_string(),
        "disconnect connection=0".to_string(),
        "connect connection=0".to_string(),
        on(0, 0),
    ];
    assert_eq!(events, expected);
    assert_eq!(left, [(Why::Number(61), 1), (Why::OfTheDevice, 2)]);
}

/// A restart ends both connections, and an address that is written is the device's from then on.
#[test]
fn follows_the_device() {
    let by_serial = "03de00c5010203041199000000".to_string() + "00";
    let (events, left) = hear(&[
        connect(A),
        connect(B),
        to(A, OWN, "4380"), // restart
        asks(B, 0),         // 61: it was B's too
        format!("2900b0e011fa00000d{by_serial}"),
        connect(A), // 60: the device is 1.1.153 now
        to(A, "1199", "80"),
        to("1199", A, "81"), // it ends the connection
        to(A, "1199", "4300"),
    ]);
    let expected = [
        "connect connection=0".to_string(),
        "connect connection=1".to_string(),
        "request mode=3 connection=0 group=0000 apdu=4380".to_string(),
        format!("request mode=1 connection=0 group=0000 apdu={by_serial}"),
        "connect connection=0".to_string(),
        "disconnect connection=0".to_string(),
    ];
    assert_eq!(events, expected);
    assert_eq!(left, [(Why::Number(60), 1), (Why::Number(61), 2)]);
}

#[test]
fn repetitions() {
    let repeated = |frame: String| frame.replacen("2900b0", "290090", 1);
    let switched = "2900bce011140801010081".to_string();
    let again = "29009ce011140801010081".to_string();
    let (events, left) = hear(&[
        connect(A),
        asks(A, 0),
        asks(A, 0),           // the sequence number once more
        repeated(asks(A, 0)), // and said to be so
        asks(A, 1),
        asks(A, 0), // out of turn: 2 is due
        switched.clone(),
        again.clone(),    // of the same
        switched.clone(), // a second time
        to(A, OWN, "0300"),
        again.clone(), // a repetition of what was not recorded
        again,
    ]);
    let on_group = "request mode=0 connection=0 group=0801 apdu=0081".to_string();
    let expected = [
        "connect connection=0".to_string(),
        on(0, 0),
        on(0, 1),
        on_group.clone(),
        on_group.clone(),
        "request mode=2 connection=0 group=0000 apdu=0300".to_string(),
        on_group,
    ];
    assert_eq!(events, expected);
    assert_eq!(left, [(Why::OutOfTurn, 1), (Why::Repeated, 4)]);
}

/// Of a request to send and its confirmation one counts, and the confirmation has the source.
#[test]
fn confirmations() {
    let code = |frame: &str, code: &str| code.to_string() + &frame[2..];
    let source = |frame: &str| frame.replacen(A, "0000", 1);
    let (first, second) = (connect(A), asks(A, 0));
    let failed = code(&second, "2e").replacen("2e00b0", "2e00b1", 1);
    let made = made_of(
        Form::Hex,
        &[
            code(&source(&first), "11"),
            code(&first, "2e"),
            code(&source(&second), "11"),
            failed.clone(),
            code(&second, "11"),
            code(&second, "2e"),
            code(&asks(A, 1), "11"), // with no confirmation
            failed,
        ]
        .join("\n"),
    );
    let (events, left) = told(&made);
    assert_eq!(events, ["connect connection=0".to_string(), on(0, 0), on(0, 1)]);
    assert!(made.events.iter().all(|(_, known)| known.from == Some(0x11FA)));
    assert_eq!(left, [(Why::Confirmed, 2), (Why::Unsent, 3)]);
    // the same sent twice are two, whatever bit 5 of their confirmations
    let switched = "2e009ce011140801010081".to_string();
    let (events, left) = hear(&[switched.clone(), switched]);
    assert_eq!((events.len(), left), (2, Vec::new()));
}

#[test]
fn off_the_wire() {
    let text = "BC 11 14 08 01 E1 00 81 2F
9C 11 14 08 01 E1 00 81 0F
CC
BC 11 14 08 01 E1 00 81 00
BC 11 14
B0 11 FA 11 05 60 80 50
3C E0 11 14 08 01 01 00 81 AF
";
    let made = made_of(Form::Knxtool, text);
    let (events, left) = told(&made);
    let expected = [
        "request mode=0 connection=0 group=0801 apdu=0081".to_string(),
        "connect connection=0".to_string(),
    ];
    assert_eq!(events, expected);
    let left_out = [(Why::Number(42), 1), (Why::Repeated, 1), (Why::Signal, 1), (Why::Damaged, 2)];
    assert_eq!(left, left_out);
    let from = made.events.iter().map(|(_, known)| known.from).collect::<Vec<_>>();
    assert_eq!(from, [Some(0x1114), Some(0x11FA)]);
}

/// However often the same shows behind an event, evidence tells it once.
#[test]
fn short_evidence() {
    let own = "2900bce0110508010300".to_string();
    let frames = [
        vec!["29".to_string(); 1000],
        vec![to(OWN, A, "c2"); 1000],
        vec![to(OWN, OWN, "80"); 1000],
        vec![own.replace("0300", "0200") + "8001"; 1000],
        vec!["2900bce01105080202008001".to_string(); 1000],
        vec![to(A, OWN, "4300"); 1000],
    ];
    let made = made_of(Form::Hex, &frames.concat().join("\n"));
    let e = made.evidence.unwrap();
    let kept = [e.gaps.len(), e.losses.len(), e.forged.len(), e.own.len(), e.left.len()];
    assert_eq!(kept, [1, 1, 1, 1, 200]);
    assert_eq!(e.losses[0].times, 1000);
    // the last of those to a group that the device has; to one that it has not, none
    assert_eq!((e.own[0].group, e.own[0].at.line), (0x0801, 4000));
}

/// All words for what is left out.
#[test]
fn words() {
    let numbers = (0..=255).map(Why::Number).filter(|why| !why.words().starts_with("no outcome"));
    assert!(numbers.count() > 20);
    let own = [
        Why::OfTheDevice,
        Why::NotItsOwn,
        Why::OutOfTurn,
        Why::Untaken,
        Why::Repeated,
        Why::Confirmed,
        Why::Unsent,
        Why::Signal,
        Why::Damaged,
    ];
    let words = [
        "sent by the device",
        "a disconnect under the device's address, behind which it went on: forged, or the recording is not whole",
        "data out of turn",
        "data that the device did not take",
        "a repetition",
        "a request to send, told again by its confirmation",
        "not sent, by its confirmation",
        "an acknowledgement on the wire",
        "damaged on the wire",
    ];
    assert_eq!(own.map(Why::words), words);
    let words = [
        (40, "too short for a frame (40)"),
        (45, "an acknowledgement (45)"),
        (60, "for another device (60)"),
        (61, "connected data from nobody's partner (61)"),
        (62, "no place for a third partner (62)"),
        (63, "a disconnect from nobody's partner (63)"),
        (65, "under the device's own address to itself: a forged sender or an echo (65)"),
    ];
    for (number, words) in words {
        assert_eq!(Why::Number(number).words(), words);
    }
    assert_eq!(Event::connect(1).connection, 1);
}
