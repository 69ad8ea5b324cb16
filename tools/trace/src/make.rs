//! The events of a recording: each frame is read by the archive, heard by the device that the sheet is, and played on it, so
//! that address and sessions are at every frame what they were. What is no event is left out and counted; what the recording
//! shows beside its events is evidence (hearing.rs).

use std::collections::{BTreeMap, BTreeSet, HashMap, VecDeque};

use sheet::json::Json;

use crate::events::{self, Event};
use crate::evidence::{self, At, Evidence, Sign};
use crate::gaps;
use crate::hearing::Hearing;
use crate::progress::Progress;
use crate::recordings::{Recorded, Recording};
use crate::sentences;
use crate::times::Known;
use crate::words;

/// Why a frame is no event.
#[derive(Clone, Copy, Debug, PartialEq, Eq, PartialOrd, Ord)]
pub enum Why {
    /// By the numbers of the archives.
    Number(u8),
    OfTheDevice,
    /// A disconnect under the device's address that was not its own.
    NotItsOwn,
    OutOfTurn,
    /// Data that the device did not acknowledge, nor take, as what follows it shows.
    Untaken,
    Repeated,
    Confirmed,
    Unsent,
    Signal,
    Damaged,
}

impl Why {
    pub fn words(self) -> String {
        let words = match self {
            Why::Number(ITSELF) => sentences::ITSELF,
            Why::Number(number) => words::outcome(number),
            Why::OfTheDevice => "sent by the device",
            Why::NotItsOwn => sentences::NOT_ITS_OWN,
            Why::OutOfTurn => "data out of turn",
            Why::Untaken => "data that the device did not take",
            Why::Repeated => "a repetition",
            Why::Confirmed => "a request to send, told again by its confirmation",
            Why::Unsent => "not sent, by its confirmation",
            Why::Signal => "an acknowledgement on the wire",
            Why::Damaged => "damaged on the wire",
        };
        match self.number() {
            Some(number) => format!("{words} ({number})"),
            None => words.to_string(),
        }
    }

    pub fn number(self) -> Option<u8> {
        match self {
            Why::Number(number) => Some(number),
            _ => None,
        }
    }
}

/// The number of a frame under the device's own address to itself.
pub const ITSELF: u8 = 65;

/// The events of a recording, what was left out, and what the recording shows. A text has events alone.
#[derive(Default)]
pub struct Made {
    pub events: Vec<(Event, Known)>,
    pub frames: usize,
    pub left: BTreeMap<Why, usize>,
    pub evidence: Option<Evidence>,
}

const REQ: u8 = 0x11;
pub const IND: u8 = 0x29;
const CON: u8 = 0x2E;
/// Bit 0 of control 1 of a confirmation: the frame was not sent.
const FAILED: u8 = 1;
/// Bit 5 of control 1 of an indication: clear in a repetition.
pub const FIRST: u8 = 0x20;

/// A frame as the USB interface would hand it up, of one as on the wire: control, source, destination, address type with hop
/// count and length, the TPDU, a sum over all that makes FFh.
fn off_the_wire(wire: &[u8]) -> Result<Vec<u8>, Why> {
    let [control, s0, s1, d0, d1, length, tpdu @ .., _] = wire else {
        return Err(if wire.len() == 1 { Why::Signal } else { Why::Damaged });
    };
    if wire.iter().fold(0, |sum, byte| sum ^ byte) != 0xFF {
        return Err(Why::Damaged);
    }
    let mut frame = vec![IND, 0, *control, length & 0xF0, *s0, *s1, *d0, *d1, length & 0x0F];
    frame.extend(tpdu);
    Ok(frame)
}

/// What of a frame tells it from others that are sent: control 2, destination and TPDU. A request to send has no source yet.
fn content(frame: &[u8]) -> Option<Vec<u8>> {
    let at = 2 + *frame.get(1)? as usize + 1;
    let mut content = vec![*frame.get(at)?];
    content.extend(frame.get(at + 3..)?);
    Some(content)
}

/// The frames that reached the bus, each once: a confirmation stands for the request to send, which may lack its source.
fn sent(recorded: &[Recorded]) -> Vec<Result<Vec<u8>, Why>> {
    let mut all: Vec<Result<Vec<u8>, Why>> = Vec::with_capacity(recorded.len());
    let mut waiting: HashMap<Vec<u8>, VecDeque<usize>> = HashMap::new();
    for (i, r) in recorded.iter().enumerate() {
        if gaps::damaged(r.status) {
            all.push(Err(Why::Damaged));
            continue;
        }
        if r.wire {
            all.push(off_the_wire(&r.bytes));
            continue;
        }
        let mut frame = Ok(r.bytes.clone());
        let code = r.bytes.first().copied();
        if let (Some(code @ (REQ | CON)), Some(content)) = (code, content(&r.bytes)) {
            let asked = waiting.entry(content).or_default();
            if code == REQ {
                asked.push_back(i);
            } else {
                let control = 2 + r.bytes[1] as usize;
                let failed = r.bytes[control] & FAILED != 0;
                if let Some(request) = asked.pop_front() {
                    all[request] = Err(if failed { Why::Unsent } else { Why::Confirmed });
                }
                let mut indication = r.bytes.clone();
                // bit 5 is the sender's wish there, and tells no repetition
                (indication[0], indication[control]) = (IND, r.bytes[control] | FIRST);
                frame = if failed { Err(Why::Unsent) } else { Ok(indication) };
            }
        }
        all.push(frame);
    }
    all
}

/// The events of a recording for the device with this sheet, which must be accepted. Data that the device did not acknowledge
/// is an event, of which that is told; unless the rest of the recording does not fit to it, and does without it. If the rest
/// fits with it alone, the device took it, and the recording lacks its acknowledgement. Where gaps are told, what fits shows no
/// more than that it may be so.
pub fn from_frames(recording: &Recording, sheet: &[u8], progress: &mut Progress) -> Made {
    let frames = sent(&recording.frames);
    let (mut made, unacknowledged) = heard(recording, &frames, sheet, &BTreeSet::new(), progress);
    let fits = |made: &Made| made.evidence.as_ref().is_some_and(Evidence::fits);
    let shown = made.evidence.as_ref().is_some_and(|evidence| evidence.device);
    if !shown || unacknowledged.is_empty() {
        return made;
    }
    let (other, _) = heard(recording, &frames, sheet, &unacknowledged, progress);
    let told = made.evidence.as_ref().is_some_and(|evidence| !evidence.gaps.is_empty());
    match (fits(&made), fits(&other)) {
        (false, true) if !told => return other,
        (true, false) => {
            let at = At {
                behind: made.events.len(),
                line: recording.frames.last().map_or(0, |frame| frame.line),
            };
            if let Some(evidence) = &mut made.evidence {
                evidence.loss(at, Sign::NoAcknowledgement);
            }
        }
        _ => {}
    }
    made
}

/// The events without data in these frames, and the frames of data that was not acknowledged.
fn heard(
    recording: &Recording,
    frames: &[Result<Vec<u8>, Why>],
    sheet: &[u8],
    untaken: &BTreeSet<usize>,
    progress: &mut Progress,
) -> (Made, BTreeSet<usize>) {
    let mut made = Made { frames: recording.frames.len(), ..Made::default() };
    let mut device = Hearing::new(sheet, recording, frames, untaken);
    for i in 0..frames.len() {
        progress.at(i);
        match device.hear(i) {
            Ok((event, known)) => made.events.push((event, known)),
            Err(why) => *made.left.entry(why).or_default() += 1,
        }
    }
    let unacknowledged = device.unacknowledged();
    made.evidence = Some(device.finish());
    (made, unacknowledged)
}

// ---- traces ----

/// One trace of several that go on one after the other, with its side files if there are any.
pub struct Part {
    pub bytes: Vec<u8>,
    pub events: usize,
    pub times: Option<String>,
    pub evidence: Option<String>,
}

pub fn parts(made: &Made) -> Vec<Part> {
    let (all, known): (Vec<Event>, Vec<Known>) = made.events.iter().cloned().unzip();
    let lengths = events::lengths(&all);
    let (mut from, n) = (0, lengths.len());
    let parts = lengths.into_iter().enumerate().map(|(i, length)| {
        let range = from..from + length;
        from += length;
        let bytes = events::write(&all[range.clone()]);
        let times = crate::times::write(&bytes, &known[range.clone()]);
        let mine = made.evidence.as_ref();
        let mine = mine.map(|evidence| evidence.part(range.start, range.end, i + 1 == n));
        let evidence = mine.map(|mine| evidence::write(&bytes, &mine));
        Part { bytes, events: length, times, evidence }
    });
    parts.collect()
}

/// The names of so many traces: the name that was given, or with a number before its ending.
pub fn names(name: &str, parts: usize) -> Vec<String> {
    if parts == 1 {
        return vec![name.to_string()];
    }
    let digits = parts.to_string().len();
    let file = name.rfind('/').map_or(0, |slash| slash + 1);
    let (stem, ending) = match name[file..].rfind('.') {
        Some(dot) if dot > 0 => name.split_at(file + dot),
        _ => (name, ""),
    };
    (1..=parts).map(|part| format!("{stem}-{part:0digits$}{ending}")).collect()
}

/// What was made, and what was left out.
pub fn text(made: &Made, parts: &[Part], names: &[String]) -> String {
    let mut out = String::new();
    for (part, name) in parts.iter().zip(names) {
        let beside = match (&part.times, &part.evidence) {
            (Some(_), Some(_)) => ", its times and its evidence",
            (Some(_), None) => ", and its times",
            (None, Some(_)) => ", and its evidence",
            (None, None) => "",
        };
        out += &format!("{name}: {}{beside}\n", words::many(part.events, "event"));
    }
    if made.frames > 0 {
        let left: usize = made.left.values().sum();
        out += &format!("left out: {left} of {}\n", words::many(made.frames, "frame"));
    }
    for (why, frames) in &made.left {
        out += &format!("{frames:>6}  {}\n", why.words());
    }
    let shows = made.evidence.as_ref().map(sentences::shows).unwrap_or_default();
    shows.into_iter().fold(out, |out, line| out + &line + "\n")
}

pub fn json(made: &Made, parts: &[Part], names: &[String]) -> Json {
    let traces = parts.iter().zip(names).map(|(part, name)| {
        Json::Object(vec![
            ("trace", name.as_str().into()),
            ("events", part.events.into()),
            ("times", part.times.is_some().into()),
            ("evidence", part.evidence.is_some().into()),
        ])
    });
    let left = made.left.iter().map(|(why, frames)| {
        Json::Object(vec![
            ("number", why.number().into()),
            ("why", why.words().into()),
            ("frames", (*frames).into()),
        ])
    });
    Json::Object(vec![
        ("traces", Json::List(traces.collect())),
        ("frames", made.frames.into()),
        ("left_out", Json::List(left.collect())),
        ("shows", made.evidence.as_ref().map(sentences::shows).unwrap_or_default().into()),
    ])
}
