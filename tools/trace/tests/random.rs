//! Random traces on random sheets: there and back as text; played as the model plays; each changed byte by the event that
//! changed it last, with its level and the offer of the key, by the model's steps.

use model::device::{self, Session, Sessions};
use model::faults::Fault;
use model::gen::traces::{bad_trace, trace};
use model::gen::{sheet, Rng};
use model::trace as plain;
use sheet::json::Json;
use trace::archive::{self, Link, Marking};
use trace::events;
use trace::explain::{Final, Story};
use trace::link;
use trace::marks;
use trace::play::{logged, play, Trace, LINE};
use trace::progress::Progress;
use trace::text;
use trace::times::{self, Known};

const TRACES: u64 = 300;
const FRESH: Sessions = [Session::CLOSED; 2];

fn drawn(seed: u64) -> (Vec<u8>, Trace) {
    let mut rng = Rng::new(seed);
    let mut sheet = sheet(&mut rng);
    sheet[0] = 2; // one of edition 1 is that of edition 2 but for this byte
    let bytes = trace(&mut rng, &sheet, &FRESH);
    let events = events::read(&bytes).unwrap();
    let known = events.iter().map(|_| Known {
        time: rng.chance(50).then(|| format!("{}.{}", rng.below(9000), rng.below(1000))),
        from: rng.chance(50).then(|| rng.word()),
    });
    let known = known.collect();
    (sheet, Trace { name: format!("trace {seed}"), bytes, events, known, evidence: None })
}

/// The text of a trace makes the same trace and the same side file.
#[test]
fn there_and_back() {
    for seed in 0..TRACES {
        let (_, t) = drawn(seed);
        assert_eq!(events::write(&t.events), t.bytes, "seed {seed}");
        let text = text::text(&t.events, &t.known, true);
        let (events, known): (Vec<_>, Vec<_>) = text::events(&text).unwrap().into_iter().unzip();
        assert!(events::write(&events) == t.bytes && known == t.known, "seed {seed}");
        if let Some(side) = times::write(&t.bytes, &t.known) {
            assert_eq!(times::read(&side, &t.bytes, t.events.len()).unwrap(), t.known);
        }
    }
}

/// What the model refuses is refused by the same number, and the place that is told lies in the trace.
#[test]
fn refused() {
    for seed in 0..4 * TRACES {
        let mut rng = Rng::new(seed);
        let sheet = sheet(&mut rng);
        let bytes = bad_trace(&mut rng, &sheet, &FRESH);
        let due = plain::check(Fault::None, &bytes);
        let told = events::read(&bytes).err();
        assert_eq!(due != 0, told.is_some(), "seed {seed}");
        let Some(told) = told else { continue };
        assert!(told.starts_with(&format!("{due}: ")), "seed {seed}: {told}");
        let offset = told.split(": offset ").nth(1).and_then(|rest| rest.split(':').next());
        assert!(offset.unwrap().parse::<usize>().unwrap() <= bytes.len(), "seed {seed}: {told}");
    }
}

fn step(event: &plain::Event, sessions: &mut Sessions, sheet: &mut [u8]) -> (u8, Vec<u8>) {
    let mut answer = [0; 16];
    match event {
        plain::Event::Connect(c) => (device::connect(sessions, *c), Vec::new()),
        plain::Event::Disconnect(c) => (device::disconnect(sessions, *c), Vec::new()),
        plain::Event::Button(on) => (device::button(sheet, *on), Vec::new()),
        plain::Event::Request { connection, mode, group, apdu } => {
            let way = device::Way { mode: *mode, connection: *connection, group: *group };
            let reply = device::request(sessions, way, apdu, sheet, &mut answer);
            (reply.outcome, answer[..reply.count.into()].to_vec())
        }
    }
}

/// A field of an object.
fn field<'a>(value: &'a Json, name: &str) -> &'a Json {
    let Json::Object(fields) = value else { panic!("{value} is no object") };
    &fields.iter().find(|field| field.0 == name).expect(name).1
}

fn list<'a>(value: &'a Json, name: &str) -> &'a [Json] {
    let Json::List(values) = field(value, name) else { panic!("{name} is no list") };
    values
}

/// The number of an event, its level if it is a request, and the number of the event that offered the key, if there is one.
type Rights = (Json, Json, Json);

/// What is told of the events that changed something.
fn rights_told(story: &Story) -> Vec<Rights> {
    let told = story.json("sheet", None);
    let by = list(&told, "changes").iter().flat_map(|change| list(change, "by"));
    by.map(|by| {
        let event = field(by, "event");
        let offer = match field(event, "offer") {
            Json::Null => Json::Null,
            offer => field(offer, "number").clone(),
        };
        (field(event, "number").clone(), field(event, "level").clone(), offer)
    })
    .collect()
}

#[test]
fn played_and_explained() {
    let (mut changed_bytes, mut offers) = (0, 0);
    for seed in 0..TRACES {
        let (first, t) = drawn(seed);
        let (mut sessions, mut sheet) = (FRESH, first.clone());
        let mut marks = vec![0; first.len()];
        let mut log = Vec::new();
        let (mut gave, mut rights) = ([0; 2], Vec::new());
        for (i, event) in plain::events(Fault::None, &t.bytes).iter().enumerate() {
            rights.push(match event {
                plain::Event::Request { connection: c @ (0 | 1), mode: 3, .. } => {
                    let (level, offer) = (sessions[*c as usize].level, gave[*c as usize]);
                    (Some(level), (level < 3).then_some(offer))
                }
                plain::Event::Request { .. } => (Some(3), None),
                _ => (None, None),
            });
            let (before, held) = (sheet.clone(), sessions);
            log.push(step(event, &mut sessions, &mut sheet));
            for p in (0..sheet.len()).filter(|&p| before[p] != sheet[p]) {
                marks[p] = i + 1;
            }
            for c in (0..2).filter(|&c| held[c].level != sessions[c].level) {
                gave[c] = i + 1;
            }
        }
        let traces = [t];
        let played = play(&first, &traces);
        assert!(played.sheet == sheet, "seed {seed}");
        let lines: Vec<(u8, Vec<u8>)> = played.logs[0]
            .chunks(LINE)
            .map(|line| (logged(line).0, logged(line).1.to_vec()))
            .collect();
        assert_eq!(lines, log, "seed {seed}");
        for (c, session) in played.sessions.of.iter().enumerate() {
            assert_eq!((session.open, session.level), (sessions[c].open, sessions[c].level));
        }

        let story = Story::new(&first, &traces, Some(&sheet), &mut Progress::new("events", 0));
        let changed = story.changed();
        let told: Vec<(usize, u32)> = changed.iter().flat_map(|c| c.bytes.clone()).collect();
        let mut told = told;
        told.sort_unstable();
        let due: Vec<(usize, u32)> =
            (0..sheet.len()).filter(|&p| marks[p] > 0).map(|p| (p, marks[p] as u32)).collect();
        assert_eq!(told, due, "seed {seed}");
        changed_bytes += due.len();
        assert!(story.beside(&sheet).explained(), "seed {seed}");
        for (number, level, offer) in rights_told(&story) {
            let Json::Number(n) = number else { panic!("seed {seed}: {number}") };
            let due = &rights[n as usize - 1];
            assert_eq!((level, offer), (due.0.into(), due.1.into()), "seed {seed}, event {n}");
            offers += usize::from(due.1.is_some());
        }

        // a byte more that nobody wrote is found
        let mut rng = Rng::new(!seed);
        let mut other = sheet.clone();
        let at = rng.below(other.len());
        other[at] ^= 1 << rng.below(8);
        let story = Story::new(&first, &traces, Some(&other), &mut Progress::new("events", 0));
        let beside = story.beside(&other);
        assert!(!beside.explained(), "seed {seed}");
        match beside {
            Final::Places(places) => {
                assert_eq!(archive::check(&other), 0);
                let bytes = places.iter().flat_map(|c| c.bytes.iter().map(|b| b.0));
                assert_eq!(bytes.collect::<Vec<_>>(), [at], "seed {seed}");
            }
            Final::Layout(_) => assert_eq!(archive::check(&other), 0),
            Final::Broken(_, bytes) => {
                assert_ne!(archive::check(&other), 0);
                assert_eq!(bytes, [(at, sheet[at], other[at])]);
            }
        }
    }
    assert!(changed_bytes > 300 && offers > 30, "{changed_bytes} {offers}");
}

/// The archive has the call that is held to the plain code, which would else be held to itself.
fn is_asked(has: bool) {
    assert!(has, "the archive has not the call");
}

/// The archive's marks are the plain ones, at once and in pieces.
#[test]
fn same_marks() {
    is_asked(cfg!(marked));
    for seed in 0..TRACES {
        let (sheet, t) = drawn(seed);
        let n = t.events.len();
        let mut log = vec![0; LINE * n];
        let [mut whole, mut pieces, mut plain] = [(); 3].map(|()| Marking::new(&sheet));
        assert_eq!(archive::play_marked(&mut whole, &t.bytes, 0, n, &mut log), Ok(n));
        let half = n / 2;
        assert_eq!(archive::play_marked(&mut pieces, &t.bytes, 0, half, &mut log), Ok(half));
        assert_eq!(archive::play_marked(&mut pieces, &t.bytes, half, n, &mut log), Ok(n - half));
        assert_eq!(marks::play_marked(&mut plain, &t.bytes, 0, n, &mut log), Ok(n));
        for m in [&whole, &pieces] {
            let same = m.marks == plain.marks && m.sheet == plain.sheet && m.played == plain.played;
            assert!(same && m.sessions == plain.sessions, "seed {seed}");
        }
    }
}

/// The archive hears frames as the plain code does: of few senders, to this device and to others, of every meaning.
#[test]
fn same_hearing() {
    is_asked(cfg!(heard));
    let sheet = sheet::make::bytes(include_str!("../../../examples/accident/before.txt")).unwrap();
    let mut met = std::collections::BTreeMap::new();
    for seed in 0..70 * TRACES {
        let mut rng = Rng::new(seed);
        let session =
            |rng: &mut Rng| archive::Session { open: rng.chance(60), level: rng.byte() & 3 };
        let sessions = archive::Sessions { of: [session(&mut rng), session(&mut rng)] };
        let of = [0x11FA, 0x11FB, 0x11FC, 0x1105];
        let link = Link { sessions, address: [rng.pick(&of), rng.pick(&of)] };
        let mut frame = vec![rng.pick(&[0x29, 0x29, 0x29, 0x11, 0x2B]), 0, 0xB0];
        frame.push(rng.pick(&[0x60, 0x60, 0xE0]));
        frame.extend(rng.pick(&of).to_be_bytes());
        frame.extend(rng.pick(&[0x1105_u16, 0x1105, 0x1105, 0x1106, 0x0801, 0]).to_be_bytes());
        let (first, more) = rng.pick(&[
            (0x80, 0),
            (0x81, 0),
            (0x43, 1),
            (0x00, 1),
            (0xC2, 0),
            (0x82, 0),
            (0x43, 6),
        ]);
        frame.extend([more, first]);
        frame.extend(rng.bytes(more.into()));
        if rng.chance(5) {
            frame.truncate(rng.below(frame.len()));
        }
        // to a group under the device's own address the tool has a rule of its own, and asks nobody
        if frame.get(3) == Some(&0xE0) && frame.get(4..6) == Some(&[0x11, 0x05]) {
            continue;
        }
        let heard = archive::heard(link, &sheet, &frame);
        assert_eq!(heard, link::heard(link, &sheet, &frame), "seed {seed}");
        *met.entry(heard.event).or_insert(0) += 1;
    }
    let met: Vec<u8> = met.into_keys().collect();
    assert_eq!(met, [0, 1, 2, 3, 4, 5, 40, 41, 43, 44, 45, 60, 61, 62, 63, 65]);
}
