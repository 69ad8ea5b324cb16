//! Recordings as files, and all that `make` and `explain` say of each, for whoever has to say the same (tests/page/said.js).

use model::gen::Rng;
use sheet::check;
use sheet::json::Json;
use sheet::kinds::{self, File};
use sheet::layout::hex;
use trace::decode;
use trace::events;
use trace::evidence;
use trace::explain::Story;
use trace::gaps::Why;
use trace::make;
use trace::play::Trace;
use trace::progress::Progress;
use trace::recordings::{self, Form, Note, Recorded};
use trace::text;
use trace::times;

/// The forms of a recording: their words, and whether frames are as on the wire.
pub const FORMS: [(&str, Form, bool); 4] = [
    ("hex", Form::Hex, false),
    ("ets", Form::Ets, false),
    ("ets", Form::Ets, true),
    ("knxtool", Form::Knxtool, true),
];

/// A frame of the USB interface as it is on the wire.
fn wired(frame: &[u8]) -> Vec<u8> {
    let mut wire = vec![frame[2]];
    wire.extend(&frame[4..8]);
    wire.push(frame[3] & 0xF0 | frame[8] & 0x0F);
    wire.extend(&frame[9..]);
    wire.push(wire.iter().fold(0xFF, |sum, byte| sum ^ byte));
    wire
}

/// A telegram of an export.
fn telegram(time: &str, raw: &[u8]) -> String {
    let raw = hex(raw);
    format!("<Telegram Timestamp=\"{time}\" FrameFormat=\"CommonEmi\" RawData=\"{raw}\" />\n")
}

/// A recording as the text of a form. A gap is told as the form can tell it; so many of seven frames on the wire are acknowledged there,
/// and in another form not sent by the recorder's own interface.
pub fn as_text(form: usize, frames: &[Recorded], notes: &[Note], acknowledged: usize) -> String {
    let (word, _, wire) = FORMS[form];
    let mut out = String::new();
    let mut counter = 0;
    for (i, r) in frames.iter().enumerate() {
        let time = r.time.as_deref().unwrap_or("8:00");
        let mut status = 0;
        for note in notes.iter().filter(|note| note.before == i) {
            match (&note.gap, word, wire) {
                (Why::Lost, "ets", true) => status = 8,
                (Why::Counted(n), "ets", true) => counter += n,
                (Why::Counted(_), "ets", false) => {
                    out +=
                        "<Connection State=\"Closed\" />\n<Connection State=\"Established\" />\n";
                }
                (_, "ets", _) => {
                    out += &format!("<RecordStop Timestamp=\"{time}\" />\n<RecordStart />\n");
                }
                // a frame that can't be read
                (_, "hex", _) => out += &format!("{time} 2900bc\n"),
                _ => out += "L_Busmon: BC 11 22\n",
            }
        }
        let mut shown = match wire {
            true => vec![wired(&r.bytes)],
            false => vec![r.bytes.clone()],
        };
        match (wire, i % 7 < acknowledged) {
            (true, true) => shown.push(vec![0xCC]),
            // what the recorder's own interface sent: asked for without a source, and confirmed
            (false, false) if acknowledged < 5 => {
                shown = vec![r.bytes.clone(), r.bytes.clone()];
                (shown[0][0], shown[1][0]) = (0x11, 0x2E);
                shown[0][4..6].fill(0);
                shown[1][2] &= !0x20;
            }
            _ => {}
        }
        for bytes in &shown {
            out += &match (word, wire) {
                ("hex", _) => format!("{time} {}\n", hex(bytes)),
                ("knxtool", _) => {
                    let bytes: Vec<String> = bytes.iter().map(|b| format!("{b:02X}")).collect();
                    format!("{} L_Busmon: {} :L_Data\n", time.replace('T', " "), bytes.join(" "))
                }
                (_, false) => telegram(time, bytes),
                (_, true) => {
                    let mut raw = vec![0x2B, 3, 3, 1, status | counter & 7];
                    (status, counter) = (0, counter.wrapping_add(1));
                    raw.extend(bytes);
                    telegram(time, &raw)
                }
            };
        }
    }
    match word {
        "ets" => format!("<CommunicationLog>\n{out}</CommunicationLog>\n"),
        _ => out,
    }
}

fn wanted(form: Form) -> File {
    match form {
        Form::Hex => File::Frames,
        Form::Ets => File::Ets,
        Form::Knxtool => File::Knxtool,
    }
}

/// A line for another program: the recording, the sheets, and what is said.
pub fn line(form: usize, text: &str, sheet: &[u8], dump: Option<&[u8]>, all: bool) -> String {
    let (word, read, _) = FORMS[form];
    let said = match recordings::read(read, text, false) {
        // as the program tells it
        Err(why) => match kinds::of(text.as_bytes()) {
            Some(File::Text) => why + "\n",
            _ => kinds::fault(text.as_bytes(), wanted(read), why) + "\n",
        },
        Ok(recording) => {
            let made = make::from_frames(&recording, sheet, &mut Progress::new("frames", 0));
            let parts = make::parts(&made);
            let names = make::names("a.trace", parts.len());
            let mut out = make::text(&made, &parts, &names);
            let mut traces = Vec::new();
            for (part, name) in parts.into_iter().zip(names) {
                let (times, side) =
                    (part.times.unwrap_or_default(), part.evidence.unwrap_or_default());
                out += &(times.clone() + &side);
                let events = events::read(&part.bytes).unwrap();
                let known = match times.is_empty() {
                    true => vec![times::Known::default(); events.len()],
                    false => times::read(&times, &part.bytes, events.len()).unwrap(),
                };
                let evidence = Some(evidence::read(&side, &part.bytes, events.len()).unwrap());
                traces.push(Trace { name, bytes: part.bytes, events, known, evidence });
            }
            let story = Story::new(sheet, &traces, dump, &mut Progress::new("events", 0));
            let beside = dump.map(|dump| story.beside(dump));
            out + &story.text("before", beside.as_ref().map(|beside| ("dump", beside)), all)
        }
    };
    let fields = vec![
        ("what", "recording".into()),
        ("form", word.into()),
        ("text", text.into()),
        ("sheet", hex(sheet).as_str().into()),
        ("dump", dump.map(hex).into()),
        ("all", all.into()),
        ("said", said.as_str().into()),
    ];
    Json::Object(fields).to_string() + "\n"
}

/// What is put into a text to spoil it.
const PIECES: [&str; 32] = [
    "<",
    ">",
    "&",
    "&amp;",
    "&#x41;",
    "&#65;",
    "&#xD800;",
    "\"",
    "'",
    " ",
    "g",
    "0",
    "f",
    "\u{85}",
    "\u{feff}",
    "é",
    "𝄞",
    "\u{301}",
    "(",
    ")",
    ":",
    "#",
    "=",
    "\r\n",
    "\t",
    "-",
    "+1",
    ",",
    ".",
    "/",
    "end\n",
    "99999999999999999999",
];

/// A text that somebody changed at some places, or cut off.
pub fn spoiled(rng: &mut Rng, text: &str) -> String {
    let mut chars: Vec<char> = text.chars().collect();
    for _ in 0..rng.below(3) {
        let at = rng.below(chars.len() + 1);
        match rng.below(5) {
            0 => chars.truncate(chars.len() - rng.below(chars.len() / 8 + 1)),
            1 if at < chars.len() => drop(chars.remove(at)),
            2 => {
                let to = (at + rng.below(40)).min(chars.len());
                let copy = chars[at..to].to_vec();
                chars.splice(at..at, copy);
            }
            _ => drop(chars.splice(at..at, rng.pick(&PIECES).chars())),
        }
    }
    chars.into_iter().collect()
}

/// The same of bytes.
fn spoiled_bytes(rng: &mut Rng, bytes: &[u8]) -> Vec<u8> {
    let mut bytes = bytes.to_vec();
    for _ in 0..rng.below(3) {
        let at = rng.below(bytes.len());
        match rng.below(6) {
            0 if at > 0 => bytes.truncate(at),
            1 => bytes.push(rng.below(256) as u8),
            2 => bytes[at] = rng.below(256) as u8,
            _ => bytes[at] ^= 1 << rng.below(8),
        }
    }
    bytes
}

fn told<T>(read: Result<T, impl ToString>, good: impl FnOnce(T) -> String) -> String {
    read.map_or_else(|why| why.to_string(), good)
}

fn other(what: &str, of: &[u8], trace: &[u8], said: &str) -> String {
    let fields = vec![
        ("what", what.into()),
        ("of", hex(of).as_str().into()),
        ("trace", hex(trace).as_str().into()),
        ("said", said.into()),
    ];
    Json::Object(fields).to_string() + "\n"
}

/// Files of every kind, spoiled or not, and what is said of each.
pub fn others(rng: &mut Rng, sheet_text: &str, recording: &str, sheet: &[u8]) -> String {
    let read = recordings::read(Form::Hex, recording, false);
    let made = read.map(|read| make::from_frames(&read, sheet, &mut Progress::new("", 0)));
    let part = made.ok().map(|made| make::parts(&made).remove(0));
    let (trace, times_text, side) = match part {
        Some(part) => {
            (part.bytes, part.times.unwrap_or_default(), part.evidence.unwrap_or_default())
        }
        None => (vec![0, 0], String::new(), String::new()),
    };
    let all = events::read(&trace).unwrap();
    let n = all.len();
    let known =
        times::read(&times_text, &trace, n).unwrap_or_else(|_| vec![times::Known::default(); n]);
    let mut out = String::new();
    let bytes = spoiled_bytes(rng, &trace);
    let said = told(events::read(&bytes), |all| format!("{} events", all.len()));
    out += &other("trace", &bytes, &[], &said);
    let bytes = spoiled_bytes(rng, sheet);
    let said = told(check::rules(&bytes), |()| "good".to_string());
    out += &other("sheet", &bytes, &[], &said);
    let shown = spoiled(rng, sheet_text);
    let said = told(sheet::make::bytes(&shown), |bytes| hex(&bytes));
    out += &other("sheet text", shown.as_bytes(), &[], &said);
    let shown = spoiled(rng, &times_text);
    let said = told(times::read(&shown, &trace, n), |known| {
        times::write(&trace, &known).unwrap_or_default()
    });
    out += &other("times", shown.as_bytes(), &trace, &said);
    let shown = spoiled(rng, &side);
    let said = told(evidence::read(&shown, &trace, n), |e| evidence::write(&trace, &e));
    out += &other("evidence", shown.as_bytes(), &trace, &said);
    let shown = spoiled(rng, &text::text(&all, &known, true));
    let said = told(text::events(&shown), |all| {
        let (all, known): (Vec<_>, Vec<_>) = all.into_iter().unzip();
        let bytes = events::write(&all);
        hex(&bytes) + "\n" + &times::write(&bytes, &known).unwrap_or_default()
    });
    out += &other("trace text", shown.as_bytes(), &[], &said);
    // of any of them what it is, and as the text of a file
    let texts = [recording, sheet_text, &times_text, &side, "L_Busmon: BC 11 22\n"];
    let any = texts[rng.below(texts.len())];
    let any = spoiled(rng, any);
    let bytes = match rng.below(6) {
        0 => spoiled_bytes(rng, sheet),
        1 => spoiled_bytes(rng, &trace),
        2 => any.encode_utf16().flat_map(u16::to_le_bytes).collect(),
        3 => {
            [0xFE, 0xFF].into_iter().chain(any.encode_utf16().flat_map(u16::to_be_bytes)).collect()
        }
        4 => spoiled_bytes(rng, (any.clone() + "é").as_bytes()),
        _ => any.clone().into_bytes(),
    };
    let said = kinds::of(&bytes).map_or("nobody can tell", File::name);
    out += &other("kind", &bytes, &[], said);
    let said = told(decode::text(bytes.clone()), |text| text);
    out + &other("text", &bytes, &[], &said)
}
