//! Recordings, texts, side files and traces with bytes changed, cut out and put in at random: each is read, or refused with a
//! line that says where.

use model::gen::Rng;
use trace::events;
use trace::evidence;
use trace::recordings::{read, Form};
use trace::text;
use trace::times::{self, Known};

const TRIES: u64 = 3_000;

const HEX: &str = include_str!("../../../examples/accident/laptop.hex");
const ETS: &str = "<?xml version=\"1.0\"?>\n<CommunicationLog xmlns=\"x\"><!-- c -->
<Telegram Timestamp=\"2026-03-02T07:15:01Z\" RawData=\"2900BCE011140801010081\" a='&amp;'/>\n</CommunicationLog>\n";
const KNXTOOL: &str = "L_Busmon: BC 11 14 08 01 E1 00 81 2F :L_Data low\n2026-3-02 8:15:4 : LPDU: CC :L_ACK\n(0, 0001a2b3) BC 11\n";
const TEXT: &str = "1 connect connection=1 mode=10 time=1 from=1.1.1\nrequest mode=3 connection=1 group=1234 apdu=0300 # x\nbutton on\nend\n";

/// A few bytes of a text changed; what is then no text is replaced.
fn changed(rng: &mut Rng, text: &[u8]) -> Vec<u8> {
    let mut bytes = text.to_vec();
    for _ in 0..rng.within(1, 6) {
        let at = rng.below(bytes.len());
        let byte = rng.pick(b"<>/=\"'&;#:() \n\t09afZ.-\xC3\xFF\x00");
        match rng.below(4) {
            0 => bytes[at] = byte,
            1 => bytes.insert(at, byte),
            2 if bytes.len() > 1 => drop(bytes.remove(at)),
            _ => bytes.truncate(at.max(1)),
        }
    }
    bytes
}

/// Reads texts that were changed: how many were refused.
fn tried(seed: u64, text: &str, read: impl Fn(&str) -> Result<(), String>) -> usize {
    let mut refused = 0;
    for seed in seed..seed + TRIES {
        let bytes = changed(&mut Rng::new(seed), text.as_bytes());
        let text = String::from_utf8_lossy(&bytes);
        if let Err(why) = read(&text) {
            let number = why.strip_prefix("line ").and_then(|rest| rest.split([':', ',']).next());
            let line: usize = number.and_then(|n| n.parse().ok()).unwrap_or(0);
            assert!((1..=text.lines().count() + 1).contains(&line), "{why} of {text:?}");
            assert!(!why.chars().any(char::is_control), "{why:?}");
            refused += 1;
        }
    }
    refused
}

#[test]
fn texts() {
    let forms = [(Form::Hex, HEX), (Form::Ets, ETS), (Form::Knxtool, KNXTOOL)];
    for (i, (form, recording)) in (0..).zip(forms) {
        assert!(read(form, recording, false).is_ok());
        let refused = tried(i * TRIES, recording, |text| read(form, text, false).map(drop));
        assert!(refused > 500, "{form:?}: {refused}");
    }
    assert!(text::events(TEXT).is_ok());
    assert!(tried(5 * TRIES, TEXT, |text| text::events(text).map(drop)) > 500);
    let trace = text::events("request mode=2 apdu=0300\nend").unwrap();
    let trace = events::write(&[trace[0].0.clone()]);
    let known = Known { time: Some("8:15".to_string()), from: Some(0x11FA) };
    let side = times::write(&trace, &[known]).unwrap();
    assert!(times::read(&side, &trace, 1).is_ok());
    assert!(tried(6 * TRIES, &side, |text| times::read(text, &trace, 1).map(drop)) > 500);
    let line = "1 line=3 data=yes taken=ended answer=absent silence=30\ngap behind=1 line=4 why=counted frames=2\nleft behind=1 line=4 why=untaken time=8:15 apdu=0300\n";
    let none = evidence::write(&trace, &evidence::Evidence::default());
    let first = none.lines().next().unwrap().replace("events=0", "events=1");
    let side = format!("{first}\ndevice heard=yes\n{line}end\n");
    assert!(evidence::read(&side, &trace, 1).is_ok());
    assert!(tried(7 * TRIES, &side, |text| evidence::read(text, &trace, 1).map(drop)) > 500);
}

#[test]
fn traces() {
    let (whole, _): (Vec<_>, Vec<_>) = text::events(TEXT).unwrap().into_iter().unzip();
    let whole = events::write(&whole);
    let mut refused = 0;
    for seed in 0..TRIES {
        let bytes = changed(&mut Rng::new(seed), &whole);
        match events::read(&bytes) {
            Ok(events) => assert_eq!(events::write(&events), bytes),
            Err(why) => {
                refused += 1;
                assert!(why.contains(": offset "), "{why}");
            }
        }
    }
    assert!(refused > 1000, "{refused}");
}
