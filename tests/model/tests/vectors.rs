//! Fixed cases: those of tests/vectors, the marked ones among them, further ones, and the PDU layouts.

use model::device::{button, connect, disconnect, request, Reply, Session, Sessions, Way, FRESH};
use model::faults::Fault;
use model::gen::{any_sheet, Rng};
use model::pdu::{self, Pdu};
use model::sheet::{self, touching, Memory, OLD, OLD_SAMPLE, PUMP, SAMPLE};

fn hex(text: &str) -> Vec<u8> {
    let digits: Vec<u8> = text.chars().filter_map(|c| c.to_digit(16)).map(|d| d as u8).collect();
    assert!(digits.len().is_multiple_of(2), "{text}");
    digits.chunks(2).map(|d| d[0] << 4 | d[1]).collect()
}

/// Everything there is after one request to the sample sheet.
struct After {
    reply: Reply,
    answer: Vec<u8>,
    sheet: Vec<u8>,
    sessions: Sessions,
}

/// What the fixed cases find on connection 1, while they use connection 0.
const OTHER: Session = Session { open: true, level: 1 };

/// `at`: "L1" is mode 3 at level 1, "M2" mode 2 (group 0801h), "closed" mode
/// 3 without connection, "B1" mode 1 after the button, "V1" as L1 without
/// verify, "G0" mode 0 with a group that is not there, "X4" mode 4.
fn run(at: &str, apdu: &str) -> After {
    let mut sheet = SAMPLE.to_vec();
    let number = at.as_bytes()[at.len() - 1].wrapping_sub(b'0');
    let mut session = Session { open: true, level: 3 };
    let (mut mode, mut group) = (number, 0x0801);
    match &at[..1] {
        "M" | "X" => session.open = false,
        "B" => assert_eq!(button(&mut sheet, true), 1),
        "G" => group = 0x0802,
        "L" => (mode, session.level) = (3, number),
        "V" => {
            sheet[14] &= !2;
            (mode, session.level) = (3, number);
        }
        "c" => {
            mode = 3;
            session.open = false;
        }
        _ => panic!("{at}"),
    }
    let (mut sessions, way) = ([session, OTHER], Way { mode, connection: 0, group });
    let mut buffer = [0x5A; 20];
    let reply = request(&mut sessions, way, &hex(apdu), &mut sheet, &mut buffer);
    let (answer, rest) = buffer.split_at(reply.count as usize);
    assert!(rest.iter().all(|&b| b == 0x5A), "{at} {apdu}: wrote past the answer");
    After { reply, answer: answer.to_vec(), sheet, sessions }
}

fn expect(cases: &[(&str, &str, &str, u8)]) {
    for &(at, apdu, answer, outcome) in cases {
        let after = run(at, apdu);
        assert_eq!(after.reply.outcome, outcome, "{at} {apdu}");
        assert_eq!(after.answer, hex(answer), "{at} {apdu}");
        if outcome > 1 {
            let mut before = SAMPLE.to_vec();
            match &at[..1] {
                "B" => before[14] |= 1,
                "V" => before[14] &= !2,
                _ => {}
            }
            assert_eq!(after.sheet, before, "{at} {apdu}: sheet changed");
        }
    }
}

/// A number that `at` may name, such as that of "level" in "mode=3 level=1".
fn found(at: &str, name: &str) -> Option<u16> {
    let value = at.split(' ').find_map(|pair| pair.strip_prefix(name)?.strip_prefix('='));
    value.map(|value| value.parse().unwrap())
}

fn named(at: &str, name: &str) -> u16 {
    found(at, name).unwrap_or_else(|| panic!("{at}: no {name}"))
}

/// Plays every row of a file that the tests share, each from the sheet, and counts the marked cases.
fn play_rows(rows: &str, from: &[u8]) -> usize {
    let mut marked = 0;
    for row in rows.lines().filter(|row| !row.starts_with('#')) {
        let [source, at, apdu, answer, outcome, change] = row.split('\t').collect::<Vec<_>>()[..]
        else {
            panic!("{row}")
        };
        marked += usize::from(source.starts_with("01 marked case"));
        let mut sheet = from.to_vec();
        sheet[14] = (named(at, "button") + 2 * named(at, "verify")) as u8;
        sheet[30] = found(at, "rules").unwrap_or(0) as u8;
        let session = Session { open: named(at, "open") == 1, level: named(at, "level") as u8 };
        let (mut after, mut stored) = (session, sheet.clone());
        for pair in change.split(' ').filter(|&pair| pair != "-") {
            let (name, value) = pair.split_once('=').unwrap();
            match name {
                "open" => after.open = value == "1",
                "level" => after.level = value.parse().unwrap(),
                _ => {
                    let from: usize = name[6..name.len() - 1].parse().unwrap();
                    let bytes = hex(value);
                    stored[from..from + bytes.len()].copy_from_slice(&bytes);
                }
            }
        }
        let mut buffer = [0x5A; 20];
        let mode = named(at, "mode") as u8;
        let (mut sessions, group) = ([session, OTHER], named(at, "group"));
        let way = Way { mode, connection: 0, group };
        let reply = request(&mut sessions, way, &hex(apdu), &mut sheet, &mut buffer);
        let restarts = outcome == "1" && pdu::code(&hex(apdu)) == 0x380;
        let other = if restarts { Session::CLOSED } else { OTHER };
        let due = hex(answer.trim_matches('-'));
        assert_eq!(reply.outcome.to_string(), outcome, "{row}");
        assert_eq!(&buffer[..reply.count as usize], due, "{row}");
        assert!(buffer[due.len()..].iter().all(|&b| b == 0x5A), "{row}: wrote past the answer");
        assert_eq!((sessions, sheet), ([after, other], stored), "{row}");
    }
    marked
}

#[test]
fn shared_cases() {
    assert_eq!(play_rows(include_str!("../../vectors/device.tsv"), &SAMPLE), 16);
    assert_eq!(play_rows(include_str!("../../vectors/pump.tsv"), &PUMP), 0);
    assert_eq!(play_rows(include_str!("../../vectors/ranges.tsv"), &touching()), 0);
}

/// Every range of a byte to thirteen on the sheet whose regions touch, at every level: what
/// each address holds and permits is spelled here, and no region is.
#[test]
fn ranges_byte_by_byte() {
    let device: Vec<(u32, u8, u8, u8)> = [
        (0x0100..=0x0103, 0xA0, 3, 2),
        (0x0104..=0x0105, 0xA4, 3, 1),
        (0x0106..=0x0106, 0xA6, 2, 0),
        (0x0108..=0x010B, 0xA8, 3, 3),
        (0xFFF4..=0xFFF9, 0xF4, 3, 3),
        (0xFFFA..=0xFFFA, 0xFA, 1, 3),
        (0xFFFB..=0xFFFF, 0xFB, 3, 3),
    ]
    .into_iter()
    .flat_map(|(addresses, held, read, write)| {
        addresses.zip(held..).map(move |(address, held)| (address, held, read, write))
    })
    .collect();
    let found = |address: u32| device.iter().find(|byte| byte.0 == address);
    let sheet = touching();
    let addresses = (0x00F0..=0x0120).chain(0xFFE0..=0xFFFF).chain(0..=3);
    for (address, n) in addresses.flat_map(|a| (0..=13).map(move |n| (a, n))) {
        let range: Option<Vec<_>> = (0..n).map(|i| found(address + i)).collect();
        let range = range.filter(|_| (1..=12).contains(&n));
        for level in 0..4 {
            let due = range.as_ref().filter(|bytes| bytes.iter().all(|b| level <= b.2));
            let [high, low] = (address as u16).to_be_bytes();
            let mut answer = vec![0x02, 0x40, high, low];
            if let Some(bytes) = due {
                answer[1] += n as u8;
                answer.extend(bytes.iter().map(|b| b.1));
            }
            let mut sessions = [Session { open: true, level }, OTHER];
            let (mut after, mut buffer) = (sheet.clone(), [0; 16]);
            let apdu = [0x02, n as u8, high, low];
            let reply = request(&mut sessions, Way::on(0), &apdu, &mut after, &mut buffer);
            assert_eq!(&buffer[..reply.count as usize], answer, "{address:04x} {n} {level}");
            assert_eq!((reply.outcome == 0, &after), (due.is_some(), &sheet));

            if n > 12 {
                continue;
            }
            let due = range.as_ref().filter(|bytes| bytes.iter().all(|b| level <= b.3));
            let data = vec![0x5A; n as usize];
            let apdu = [&[0x02, 0x80 + n as u8, high, low][..], &data].concat();
            let reply = request(&mut sessions, Way::on(0), &apdu, &mut after, &mut buffer);
            assert_eq!(reply.outcome == 0, due.is_some(), "{address:04x} {n} {level}");
            let changed = after.iter().zip(&sheet).filter(|(new, old)| new != old).count();
            assert_eq!(changed, due.map_or(0, |bytes| bytes.len()), "{address:04x} {n} {level}");
        }
    }
}

#[test]
fn further_cases() {
    expect(&[
        ("M0", "0000", "004000", 0),
        ("M0", "008055", "", 1),
        ("M0", "0081", "", 10),
        ("M0", "008155", "", 10),
        ("M0", "004055", "", 2),
        ("G0", "0081", "", 2),
        ("M0", "0001", "", 8),
        ("M1", "0100", "", 2),
        ("B1", "0100", "0140", 0),
        ("B1", "00C01234", "", 1),
        ("M1", "03DC00C501020304", "03DD00C50102030400000000", 0),
        ("M1", "03DC00C501020305", "", 2),
        ("M1", "03DE00C5010203041207DEADBEEF", "", 1),
        ("M2", "0300", "034007B0", 0),
        ("M2", "0302", "", 2),
        ("M2", "03D501332001", "03D601330001", 11),
        ("M2", "03D501331002", "03D601330002", 11),
        ("M2", "03D501331003", "03D601330003", 11),
        ("M2", "03D501330001", "03D601330001", 11),
        ("M2", "03D501332000", "03D601330000", 11),
        ("M2", "03D502331001", "03D602330001", 11),
        ("L1", "03D701332001AABBCCDD", "03D601332001AABBCCDD", 0),
        ("L1", "03D7013310020102", "03D6013310020102", 0),
        ("L1", "03D7013310000000", "03D6013310000000", 0),
        ("L1", "03D7013310000001", "03D601330000", 11),
        ("L1", "03D70133100000", "03D601330000", 11),
        ("L1", "03D7013320010102", "03D601330001", 11),
        ("L2", "03D7013310010384", "03D601330001", 11),
        ("M2", "03D8010000", "03D901330084000231", 0),
        ("M2", "03D8013305", "03D901330084000231", 0),
        ("M2", "03D8010001", "03D901000100000000", 11),
        ("M2", "03D8023300", "03D902330000000000", 11),
        ("L3", "02000100", "02400100", 11),
        ("L3", "020D0100", "02400100", 11),
        ("L3", "02100100", "", 8),
        ("L3", "020400FF", "024000FF", 11),
        ("L3", "0204FFFF", "0240FFFF", 11),
        ("L2", "028201021122", "024201021122", 0),
        ("L2", "028201031122", "02400103", 11),
        ("L3", "0281010055", "02400100", 11),
        ("L2", "02800100", "02400100", 11),
        ("L2", "02810100", "", 10),
        ("L2", "03D0020100FFFF0102", "02420100A1A3", 0),
        ("L2", "03D0000100", "02400100", 11),
        ("L2", "03D0060100 0102030405060708090A0B", "", 10),
        ("L2", "03D0", "", 10),
        ("L3", "03D00101000FF0", "02400100", 11),
        ("V1", "0281010055", "", 1),
        ("V3", "0281010055", "", 12),
        ("V2", "02800100", "", 12),
        ("L3", "03D15522222222", "03D201", 0),
        ("L2", "03D10011111111", "03D200", 0),
        ("L1", "03D301AABBCCDD", "03D401", 0),
        ("L1", "03D302FFFFFFFF", "03D402", 0),
        ("L0", "03D303AABBCCDD", "03D4FF", 11),
        ("L2", "03D301AABBCCDD", "03D4FF", 11),
        ("L3", "0380", "", 1),
        ("M2", "0380", "", 9),
        ("L3", "0381", "", 8),
        ("closed", "0381", "", 7),
        ("X4", "0381", "", 6),
        ("X4", "03", "", 5),
        ("L3", "FE040100", "02440100A0A1A2A3", 0),
        ("M0", "0204", "", 9),
    ]);
}

#[test]
fn what_is_stored() {
    // A case, where the sheet changes, and the new bytes; nothing else moves.
    let cases = [
        ("M0", "008055", 68, "55"),
        ("B1", "00C01234", 16, "1234"),
        ("M1", "03DE00C5010203041207DEADBEEF", 16, "1207"),
        ("L1", "03D7013310010384", 64, "0384"),
        ("L1", "0281010055", 60, "55"),
        ("L1", "03D00101000FF0", 60, "F0"),
        ("L2", "028201021122", 62, "1122"),
        ("L2", "03D0020100FFFF0102", 60, "A1A3"),
        ("V1", "0281010055", 60, "55"),
        ("L1", "03D301AABBCCDD", 22, "AABBCCDD"),
        ("L2", "03D10011111111", 0, ""),
        ("L1", "03D302FFFFFFFF", 26, "FFFFFFFF"),
        ("L1", "03D7013310000000", 46, "0000"),
    ];
    for (at, apdu, from, bytes) in cases {
        let mut sheet = SAMPLE.to_vec();
        let bytes = hex(bytes);
        sheet[from..from + bytes.len()].copy_from_slice(&bytes);
        match &at[..1] {
            "B" => sheet[14] |= 1,
            "V" => sheet[14] &= !2,
            _ => {}
        }
        assert_eq!(run(at, apdu).sheet, sheet, "{at} {apdu}");
    }
    // These move the count as well.
    let two = run("L1", "03D701332001AABBCCDD").sheet;
    assert_eq!((&two[46..48], &two[64..68]), (&[0, 2][..], &hex("AABBCCDD")[..]));
    let second = run("L1", "03D7013310020102").sheet;
    assert_eq!((&second[46..48], &second[64..68]), (&[0, 2][..], &hex("03E80102")[..]));
}

#[test]
fn bit_table() {
    for (and, xor, new) in
        [("00", "00", "00"), ("00", "FF", "FF"), ("FF", "00", "A0"), ("FF", "FF", "5F")]
    {
        let after = run("L2", &format!("03D0010100{and}{xor}"));
        assert_eq!(after.answer, hex(&format!("02410100{new}")));
    }
}

#[test]
fn sessions_and_button() {
    let mut sessions = [Session { open: true, level: 0 }, OTHER];
    assert_eq!(connect(&mut sessions, 0), 1);
    assert_eq!(sessions, [Session::OPEN, OTHER]);
    assert_eq!(disconnect(&mut sessions, 0), 1);
    assert_eq!(sessions, [Session::CLOSED, OTHER]);
    assert_eq!(disconnect(&mut sessions, 1), 1);
    assert_eq!(sessions, FRESH);
    assert_eq!(connect(&mut sessions, 1), 1);
    assert_eq!(sessions, [Session::CLOSED, Session::OPEN]);

    assert_eq!(run("L0", "0380").sessions, FRESH);
    assert_eq!(run("L0", "03D302AABBCCDD").sessions, [Session { open: true, level: 0 }, OTHER]);

    let mut sheet = SAMPLE;
    assert_eq!((button(&mut sheet, true), sheet[14]), (1, 3));
    let mut buffer = [0; 16];
    sessions = [Session { open: true, level: 200 }, OTHER];
    let apdu = hex("03D302AABBCCDD");
    let reply = request(&mut sessions, Way::on(0), &apdu, &mut sheet, &mut buffer);
    assert_eq!(
        (reply, sessions[0].level),
        (Reply { outcome: 11, count: 3, changed: [(0, 0); 2] }, 200)
    );
    let reply = request(&mut sessions, Way::on(0), &[3, 0x80], &mut sheet, &mut buffer);
    assert_eq!((reply, sheet[14]), (Reply { outcome: 1, count: 0, changed: [(14, 1), (0, 0)] }, 2));
    assert_eq!((button(&mut sheet, false), sheet), (1, SAMPLE));
    sheet[0] = 3;
    assert_eq!((button(&mut sheet, true), sheet[14]), (4, 2));
    sheet[0] = 1;
    assert_eq!((button(&mut sheet, true), sheet), (OLD, OLD_SAMPLE));
}

#[test]
fn conversion() {
    let mut sheet = OLD_SAMPLE;
    assert_eq!((sheet::convert(Fault::None, &mut sheet), sheet), (1, SAMPLE));
    assert_eq!((sheet::convert(Fault::None, &mut sheet), sheet), (4, SAMPLE));
    let mut pump = PUMP;
    assert_eq!((sheet::convert(Fault::None, &mut pump), pump), (4, PUMP));
    for (at, byte) in [(0, 0), (0, 3), (5, 0x44), (14, 4), (15, 1), (30, 1), (39, 1)] {
        let mut bad = OLD_SAMPLE;
        bad[at] = byte;
        let found = bad;
        assert_eq!((sheet::convert(Fault::None, &mut bad), bad), (4, found), "byte {at} = {byte}");
    }
    assert_eq!(sheet::convert(Fault::None, &mut []), 4);
}

/// A device and what two tools do with it, each request with outcome and answer.
struct Desk {
    sheet: Vec<u8>,
    sessions: Sessions,
}

impl Desk {
    fn ask(&mut self, mode: u8, connection: u8, apdu: &str, outcome: u8, answer: &str) {
        let mut buffer = [0; 16];
        let (sessions, sheet) = (&mut self.sessions, &mut self.sheet);
        let way = Way { mode, connection, group: 0 };
        let reply = request(sessions, way, &hex(apdu), sheet, &mut buffer);
        let told = &buffer[..reply.count as usize];
        assert_eq!((reply.outcome, told), (outcome, &hex(answer)[..]), "{connection} {apdu}");
    }
}

#[test]
fn two_tools() {
    let at = |level| Session { open: true, level };
    let mut d = Desk { sheet: SAMPLE.to_vec(), sessions: FRESH };
    assert_eq!((connect(&mut d.sessions, 0), connect(&mut d.sessions, 1)), (1, 1));
    // the key that one shows gives the other nothing
    d.ask(3, 0, "03D10022222222", 0, "03D201");
    assert_eq!(d.sessions, [at(1), at(3)]);
    d.ask(3, 1, "03D7013310010384", 11, "03D601330001");
    d.ask(3, 0, "03D7013310010384", 0, "03D6013310010384");
    d.ask(3, 1, "03D501331001", 0, "03D6013310010384");
    // nor does the other's wrong key, connect or disconnect take anything from it
    d.ask(3, 1, "03D10033333333", 0, "03D203");
    assert_eq!((connect(&mut d.sessions, 1), d.sessions), (1, [at(1), at(3)]));
    assert_eq!((disconnect(&mut d.sessions, 1), d.sessions), (1, [at(1), Session::CLOSED]));
    d.ask(3, 1, "03D501331001", 7, "");
    assert_eq!(connect(&mut d.sessions, 1), 1);
    // a key is judged as it stands when it is offered, whoever wrote it
    d.ask(3, 1, "03D10022222222", 0, "03D201");
    d.ask(3, 0, "03D301ABCDEF01", 0, "03D401");
    assert_eq!(d.sessions, [at(1), at(1)]);
    d.ask(3, 1, "03D7013310010385", 0, "03D6013310010385");
    d.ask(3, 1, "03D10022222222", 0, "03D203");
    d.ask(3, 1, "03D7013310010386", 11, "03D601330001");
    d.ask(3, 1, "03D100ABCDEF01", 0, "03D201");
    // a restart by either closes both
    d.ask(3, 1, "0380", 1, "");
    assert_eq!(d.sessions, FRESH);
    d.sessions = [at(0), at(2)];
    d.ask(3, 0, "0380", 1, "");
    assert_eq!(d.sessions, FRESH);
    // without a connection under the later rules alone
    d.sheet = PUMP.to_vec();
    d.sessions = [at(0), at(2)];
    d.ask(2, 0, "0380", 9, "");
    assert_eq!(d.sessions, [at(0), at(2)]);
    d.sheet[30] = 1;
    d.ask(2, 77, "0380", 1, "");
    assert_eq!(d.sessions, FRESH);
}

#[test]
fn no_other_connection() {
    let at = |level| Session { open: true, level };
    for number in 2..=255 {
        let mut d = Desk { sheet: SAMPLE.to_vec(), sessions: [at(0), at(1)] };
        assert_eq!(connect(&mut d.sessions, number), 7);
        assert_eq!(disconnect(&mut d.sessions, number), 7);
        for apdu in ["03D501331001", "0380", "03FF", "03D10022222222"] {
            d.ask(3, number, apdu, 7, "");
        }
        d.ask(2, number, "03D501331001", 0, "03D60133100103E8");
        d.ask(2, number, "03D7013310010384", 11, "03D601330001");
        assert_eq!((d.sessions, &d.sheet[..]), ([at(0), at(1)], &SAMPLE[..]));
    }
}

#[test]
fn order_of_refusals() {
    let mut sessions = [Session::CLOSED, OTHER];
    let mut bad = SAMPLE;
    bad[0] = 3;
    let (mut good, mut old) = (SAMPLE, OLD_SAMPLE);
    // of edition 1, but no old sheet
    let mut worse = OLD_SAMPLE;
    worse[30] = 1;
    let mut ask = |sheet: &mut [u8], room, mode, apdu: &[u8]| {
        let mut buffer = vec![9; room];
        let way = Way { mode, connection: 0, group: 0 };
        let reply = request(&mut sessions, way, apdu, sheet, &mut buffer);
        assert!(buffer.iter().all(|&b| b == 9) && reply.count == 0);
        reply.outcome
    };
    assert_eq!(ask(&mut bad, 15, 4, &[]), 3);
    assert_eq!(ask(&mut bad, 16, 4, &[]), 4);
    assert_eq!(ask(&mut worse, 16, 4, &[]), 4);
    assert_eq!(ask(&mut old, 15, 4, &[]), 3);
    assert_eq!(ask(&mut old, 16, 4, &[]), OLD);
    assert_eq!(ask(&mut old, 16, 2, &[3, 0]), OLD);
    assert_eq!(ask(&mut good, 16, 4, &[]), 5);
    assert_eq!(ask(&mut good, 16, 4, &[0; 17]), 5);
    assert_eq!(ask(&mut good, 16, 4, &[1, 0x40]), 6);
    assert_eq!(ask(&mut good, 16, 3, &[1, 0x40]), 7);
    assert_eq!(ask(&mut good, 16, 2, &[1, 0x40, 0]), 8);
    assert_eq!(ask(&mut good, 16, 2, &[1, 0, 0]), 9);
    assert_eq!(ask(&mut good, 16, 1, &[1, 0, 0]), 10);
    assert_eq!(ask(&mut good, 16, 1, &[1, 0]), 2);
}

/// Reads, compares, and writes back; `back` is what writing gives.
fn reads(apdu: &str, pdu: Pdu, data: &str, back: &str) {
    let bytes = hex(apdu);
    let (found, range) = pdu::read(&bytes).unwrap_or_else(|n| panic!("{apdu}: {n}"));
    assert_eq!((found, &bytes[range]), (pdu, &hex(data)[..]), "{apdu}");
    let mut out = [0x5A; 18];
    let count = pdu::write(&pdu, &hex(data), &mut out).unwrap();
    assert_eq!(out[..count], hex(back), "{apdu}");
    assert!(out[count..].iter().all(|&b| b == 0x5A));
}

#[test]
fn layouts() {
    let serial = [0, 0xC5, 1, 2, 3, 4];
    let key = [0x22; 4];
    let (object, id, index) = (1, 0x33, 0);
    let address = 0x0100;
    let same = |apdu: &str, pdu: Pdu, data: &str| reads(apdu, pdu, data, apdu);
    same("0000", Pdu::GroupRead, "");
    same("004055", Pdu::GroupResponse { v: 0 }, "55");
    same("0041", Pdu::GroupResponse { v: 1 }, "");
    same("0040", Pdu::GroupResponse { v: 0 }, "");
    same("008055", Pdu::GroupWrite { v: 0 }, "55");
    same("0081", Pdu::GroupWrite { v: 1 }, "");
    same("00BF", Pdu::GroupWrite { v: 63 }, "");
    same("0080", Pdu::GroupWrite { v: 0 }, "");
    same("00C01105", Pdu::AddressWrite { address: 0x1105 }, "");
    same("0100", Pdu::AddressRead, "");
    same("0140", Pdu::AddressResponse, "");
    same("03DC00C501020304", Pdu::SerialRead { serial }, "");
    same("03DD00C5010203040000 0000", Pdu::SerialResponse { serial, domain: 0 }, "");
    reads(
        "03DD00C5010203041234 5678",
        Pdu::SerialResponse { serial, domain: 0x1234 },
        "",
        "03DD00C5010203041234 0000",
    );
    same("03DE00C501020304110500000000", Pdu::SerialWrite { serial, address: 0x1105 }, "");
    reads(
        "03DE00C5010203041105DEADBEEF",
        Pdu::SerialWrite { serial, address: 0x1105 },
        "",
        "03DE00C501020304110500000000",
    );
    same("0300", Pdu::DescriptorRead { t: 0 }, "");
    same("0340", Pdu::DescriptorResponse { t: 0 }, "");
    same("034007B0", Pdu::DescriptorResponse { t: 0 }, "07B0");
    same("037F", Pdu::DescriptorResponse { t: 63 }, "");
    same("03D501331001", Pdu::PropertyRead { object, id, n: 1, s: 1 }, "");
    same("03D60133100103E8", Pdu::PropertyResponse { object, id, n: 1, s: 1 }, "03E8");
    same("03D601330001", Pdu::PropertyResponse { object, id, n: 0, s: 1 }, "");
    same("03D7013310010384", Pdu::PropertyWrite { object, id, n: 1, s: 1 }, "0384");
    same("03D8013300", Pdu::DescriptionRead { object, id, index }, "");
    same(
        "03D901330084000231",
        Pdu::DescriptionResponse { object, id, index, kind: 0x84, maximum: 2, access: 0x31 },
        "",
    );
    same(
        "03D9013300FF0FFFFF",
        Pdu::DescriptionResponse { object, id, index, kind: 255, maximum: 4095, access: 255 },
        "",
    );
    same("02040100", Pdu::MemoryRead { n: 4, address }, "");
    same("020F0100", Pdu::MemoryRead { n: 15, address }, "");
    same("02440100A0A1A2A3", Pdu::MemoryResponse { n: 4, address }, "A0A1A2A3");
    same("02400100", Pdu::MemoryResponse { n: 0, address }, "");
    same("0281010055", Pdu::MemoryWrite { n: 1, address }, "55");
    same("03D00101000FF0", Pdu::MemoryBitWrite { n: 1, address }, "0FF0");
    same("03D10022222222", Pdu::AuthorizeRequest { key }, "");
    reads("03D15522222222", Pdu::AuthorizeRequest { key }, "", "03D10022222222");
    same("03D201", Pdu::AuthorizeResponse { level: 1 }, "");
    same("03D301AABBCCDD", Pdu::KeyWrite { level: 1, key: [0xAA, 0xBB, 0xCC, 0xDD] }, "");
    same("03D401", Pdu::KeyResponse { level: 1 }, "");
    same("03D4FF", Pdu::KeyResponse { level: 255 }, "");
    same("0380", Pdu::Restart, "");
    same("02C0040200", Pdu::UserMemoryRead { n: 4, address: 0x200 }, "");
    same("02C0140200", Pdu::UserMemoryRead { n: 0x14, address: 0x200 }, "");
    same("02C0FFFFFF", Pdu::UserMemoryRead { n: 255, address: 0xFFFF }, "");
    same("02C1040200B0B1B2B3", Pdu::UserMemoryResponse { n: 4, address: 0x200 }, "B0B1B2B3");
    same("02C1000200", Pdu::UserMemoryResponse { n: 0, address: 0x200 }, "");
    same("02C20202011122", Pdu::UserMemoryWrite { n: 2, address: 0x201 }, "1122");
    same(
        "02C20B0200 000102030405060708090A",
        Pdu::UserMemoryWrite { n: 11, address: 0x200 },
        "000102030405060708090A",
    );
    reads("FF80", Pdu::Restart, "", "0380");
    same(
        "004000112233445566778899AABBCCDD",
        Pdu::GroupResponse { v: 0 },
        "00112233445566778899AABBCCDD",
    );
}

#[test]
fn reading_refused() {
    let five = ["", "03", "0000000000000000000000000000000000"];
    #[rustfmt::skip]
    let ten = [
        "000000", "008155", "004155", "00C0", "00C00102FF", "010000", "014000", "03DC", "03DD",
        "03DE", "03DE00C5010203041105", "030000", "03D5", "03D6", "03D60133 10", "03D7",
        "03D701331001", "03D8", "03D9", "03D9013300841000 31", "03D90133008400", "0200", "0240",
        "0280", "020401", "0281010011 22", "0244010011", "024D0100 000000000000000000000000",
        "028D0100 000000000000000000000000", "03D0", "03D001",
        "03D0060100 0102030405060708090A0B", "03D0 FF 0100", "03D1", "03D2", "03D20102", "03D3",
        "03D4", "038001", "02C0", "02C1", "02C2", "02C00402", "02C0040200FF", "02C10402 00B0B1B2",
        "02C10C0200 000102030405060708090A", "02C2010200", "02C21202011122", "02C2FF0200",
    ];
    for (list, number) in [(&five[..], 5), (&ten[..], 10)] {
        for apdu in list {
            assert_eq!(pdu::read(&hex(apdu)), Err(number), "{apdu}");
        }
    }
    #[rustfmt::skip]
    let unknown = [
        "03DF", "0180", "01C0", "02C4", "02C5", "02C6", "03E0", "03E1", "03E2", "03E3", "0001",
        "003F", "00C1", "0101", "0141", "02100100", "0250", "0290", "03810100", "03A1000000",
        "02BF", "02C3", "02C3040200", "02C7", "02FF", "0382", "03BF",
    ];
    for apdu in unknown {
        assert_eq!(pdu::read(&hex(apdu)), Err(8), "{apdu}");
    }
    for low in 0xC0..=0xCF {
        assert_eq!(pdu::read(&[3, low]), Err(8));
    }
}

#[test]
fn writing_refused() {
    let cases = [
        (Pdu::GroupRead, 1),
        (Pdu::GroupWrite { v: 64 }, 0),
        (Pdu::GroupWrite { v: 1 }, 1),
        (Pdu::GroupResponse { v: 0 }, 15),
        (Pdu::DescriptorRead { t: 64 }, 0),
        (Pdu::DescriptorResponse { t: 64 }, 0),
        (Pdu::DescriptorResponse { t: 0 }, 15),
        (Pdu::PropertyRead { object: 0, id: 0, n: 16, s: 0 }, 0),
        (Pdu::PropertyRead { object: 0, id: 0, n: 0, s: 4096 }, 0),
        (Pdu::PropertyWrite { object: 0, id: 0, n: 1, s: 1 }, 0),
        (Pdu::PropertyWrite { object: 0, id: 0, n: 1, s: 1 }, 11),
        (Pdu::PropertyResponse { object: 0, id: 0, n: 1, s: 1 }, 11),
        (Pdu::MemoryRead { n: 16, address: 0 }, 0),
        (Pdu::MemoryWrite { n: 2, address: 0 }, 1),
        (Pdu::MemoryWrite { n: 13, address: 0 }, 13),
        (Pdu::MemoryResponse { n: 13, address: 0 }, 13),
        (Pdu::MemoryBitWrite { n: 6, address: 0 }, 12),
        (Pdu::MemoryBitWrite { n: 1, address: 0 }, 1),
        (
            Pdu::DescriptionResponse {
                object: 0,
                id: 0,
                index: 0,
                kind: 0,
                maximum: 4096,
                access: 0,
            },
            0,
        ),
    ];
    for (pdu, length) in cases {
        let mut out = [0x5A; 16];
        assert_eq!(pdu::write(&pdu, &vec![0; length], &mut out), Err(13), "{pdu:?} {length}");
        assert_eq!(pdu::write(&pdu, &vec![0; length], &mut out[..15]), Err(3));
        assert_eq!(out, [0x5A; 16]);
    }
    assert_eq!(pdu::write(&Pdu::Restart, &[], &mut [0; 15]), Err(3));
}

#[test]
fn rules_of_the_sheet() {
    assert_eq!((sheet::check(&SAMPLE), sheet::check(&OLD_SAMPLE)), (0, OLD));
    assert_eq!(sheet::check(&[]), 1);
    assert_eq!(sheet::check(&SAMPLE[..31]), 1);
    assert_eq!(sheet::check(&SAMPLE[..68]), 4);
    assert_eq!(sheet::check(&vec![1; 16_385]), 1);
    // position, new byte, rule
    #[rustfmt::skip]
    let cases = [
        (0, 0, 2), (0, 3, 2), (0, 2, 0), (0, 1, OLD), (1, 17, 3), (2, 65, 3), (3, 65, 3), (1, 6, 4), (5, 0x44, 4), (14, 4, 5),
        (15, 1, 6), (30, 1, 0), (30, 2, 5), (31, 1, 5), (35, 0, 6), (34, 0xFF, 6), (38, 0x42, 6),
        (38, 0x34, 6), (39, 1, 6), (41, 0, 7), (42, 0xC4, 7), (43, 0, 7), (43, 11, 7),
        (45, 0, 7), (44, 16, 7), (47, 3, 7), (50, 0x41, 7), (50, 0x34, 7), (51, 1, 7),
        (54, 15, 8), (55, 8, 8), (58, 1, 8), (59, 1, 8), (35, 5, 9), (37, 0x3D, 9), (43, 3, 9),
        (49, 0x41, 9), (54, 2, 9), (57, 0x45, 9), (54, 0, 0), (38, 0x33, 0), (14, 3, 0),
        (47, 2, 0), (55, 7, 0),
    ];
    for (at, byte, rule) in cases {
        let mut sheet = SAMPLE;
        sheet[at] = byte;
        assert_eq!(sheet::check(&sheet), rule, "byte {at} = {byte}");
        // in edition 1 bytes 15 and 30 are 0, and what breaks no rule is old
        let mut sheet = OLD_SAMPLE;
        sheet[at] = byte;
        let rule = if matches!(at, 15 | 30) { 5 } else { rule };
        let old = rule == 0 && at > 0;
        assert_eq!(sheet::check(&sheet), if old { OLD } else { rule }, "old, byte {at} = {byte}");
    }
    // A six-bit value of 64; a misplaced body yields to a bad entry further on.
    let mut sheet = SAMPLE;
    (sheet[54], sheet[68]) = (0, 64);
    assert_eq!(sheet::check(&sheet), 9);
    let mut sheet = SAMPLE;
    (sheet[37], sheet[55]) = (0, 8);
    assert_eq!(sheet::check(&sheet), 8);
    // The bare head, and a full address space behind one region.
    let mut bare = [0; 32];
    (bare[0], bare[5]) = (1, 32);
    assert_eq!(sheet::check(&bare), OLD);
    bare[0] = 2;
    assert_eq!(sheet::check(&bare), 0);
    let mut sheet = SAMPLE;
    (sheet[32], sheet[33]) = (0xFF, 0xFC);
    assert_eq!(sheet::check(&sheet), 0);
    sheet[33] = 0xFD;
    assert_eq!(sheet::check(&sheet), 6);
}

#[test]
fn rules_of_edition_2() {
    assert_eq!(sheet::check(&PUMP), 0);
    assert_eq!(sheet::check(&PUMP[..100]), 4);
    // changes of position and byte, then the rule
    #[rustfmt::skip]
    let cases: [(&[(usize, u8)], u8); 38] = [
        (&[(0, 0)], 2), (&[(0, 3)], 2), (&[(0, 255)], 2),
        (&[(15, 17)], 3), (&[(15, 255)], 3), (&[(1, 17)], 3), (&[(15, 17), (5, 0)], 3),
        (&[(15, 16)], 4), (&[(15, 6)], 4), (&[(15, 17), (0, 1)], 5), (&[(0, 1)], 5),
        (&[(15, 5)], 6), (&[(15, 3)], 6), (&[(15, 1)], 9), (&[(15, 0)], 9),
        (&[(30, 1)], 0), (&[(30, 2)], 5), (&[(30, 255)], 5), (&[(31, 1)], 5), (&[(30, 1), (31, 1)], 5),
        (&[(14, 4)], 5), (&[(15, 16), (30, 2)], 4), (&[(30, 1), (0, 1)], 5), (&[(30, 2), (63, 0)], 5),
        (&[(63, 0)], 6), (&[(66, 0x41)], 6), (&[(66, 0x34)], 6), (&[(67, 1)], 6),
        (&[(69, 3)], 6), (&[(68, 0)], 6), (&[(68, 0xFF), (69, 0xF5)], 6),
        (&[(68, 0xFF), (69, 0xF4)], 0), (&[(67, 1), (41, 0)], 6), (&[(75, 1), (55, 8)], 6),
        (&[(65, 0x56)], 9), (&[(63, 5), (69, 5)], 9), (&[(71, 11)], 9), (&[(57, 0x55), (65, 0x54)], 9),
    ];
    for (changes, rule) in cases {
        let mut sheet = PUMP;
        for &(at, byte) in changes {
            sheet[at] = byte;
        }
        assert_eq!(sheet::check(&sheet), rule, "{changes:?}");
    }
    // User regions may stand anywhere beside device memory: below, around, above.
    for first in [[0, 0xFC], [0, 0xFE], [1, 0]] {
        let mut sheet = PUMP;
        sheet[60..62].copy_from_slice(&first);
        assert_eq!(sheet::check(&sheet), 0);
    }
    // Without user regions the two editions have the same rules, but for their number and byte 30.
    let mut rng = Rng::new(6);
    for _ in 0..20_000 {
        let mut sheet = any_sheet(&mut rng);
        if sheet.len() < 32 {
            continue;
        }
        sheet[15] = 0;
        let [first, second] = [1, 2].map(|edition| {
            sheet[0] = edition;
            sheet::rule(&sheet)
        });
        let later = sheet[30] == 1 && (second == 0 || second > 5);
        assert_eq!(first, if later { 5 } else { second });
    }
}

#[test]
fn lookups() {
    let region = |sheet: &[u8], memory, k| sheet::region(Fault::None, sheet, memory, k);
    let property = |sheet: &[u8], object, id| sheet::property(Fault::None, sheet, object, id);
    let group = |sheet: &[u8], address| sheet::group(Fault::None, sheet, address);
    assert_eq!(region(&SAMPLE, Memory::Device, 0), (60, 4));
    assert_eq!(property(&SAMPLE, 1, 0x33), (64, 4));
    assert_eq!(group(&SAMPLE, 0x0801), (68, 1));
    assert_eq!(region(&SAMPLE, Memory::Device, 1), (0, 0));
    assert_eq!(property(&SAMPLE, 1, 0), (0, 0));
    assert_eq!(group(&SAMPLE, 0), (0, 0));
    assert_eq!(region(&SAMPLE, Memory::User, 0), (0, 0));
    assert_eq!(region(&PUMP, Memory::Device, 0), (76, 4));
    assert_eq!(region(&PUMP, Memory::Device, 1), (0, 0));
    assert_eq!(region(&PUMP, Memory::User, 0), (85, 4));
    assert_eq!(region(&PUMP, Memory::User, 1), (89, 12));
    assert_eq!(region(&PUMP, Memory::User, 2), (0, 0));
    assert_eq!(region(&PUMP[..100], Memory::User, 0), (0, 0));
    for bad in [&SAMPLE[..68], &OLD_SAMPLE] {
        assert_eq!(region(bad, Memory::Device, 0), (0, 0));
        assert_eq!((property(bad, 1, 0x33), group(bad, 0x0801)), ((0, 0), (0, 0)));
    }
}
