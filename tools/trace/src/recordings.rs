//! Recordings of a bus: frames of the USB interface in hex, ETS's export of a group or bus monitor, knxtool's bus monitor.
//! A fault in one names its line and column.

use crate::gaps;
use crate::order;
use crate::text::{bytes_of, time_word};
use crate::xml;

/// A frame as it was recorded.
#[derive(Clone, Debug, PartialEq, Eq)]
pub struct Recorded {
    pub line: usize,
    pub time: Option<String>,
    pub bytes: Vec<u8>,
    /// As on the wire, in place of a frame of the USB interface.
    pub wire: bool,
    /// What the bus monitor said of it.
    pub status: Option<u8>,
}

/// A gap that the recorder tells, before the frame of this index.
#[derive(Clone, Debug, PartialEq, Eq)]
pub struct Note {
    pub before: usize,
    pub line: usize,
    pub gap: gaps::Why,
}

/// A recording: its frames, oldest first; the gaps that it tells; the frames at which its times go back.
#[derive(Clone, Debug, Default, PartialEq, Eq)]
pub struct Recording {
    pub frames: Vec<Recorded>,
    pub notes: Vec<Note>,
    pub back: Vec<usize>,
}

#[derive(Clone, Copy, Debug, PartialEq, Eq)]
pub enum Form {
    Hex,
    Ets,
    Knxtool,
}

/// So many frames a recording has at most, so that none takes more memory than there is.
pub const MOST: usize = 2_000_000;

fn too_many() -> String {
    format!("more than {MOST} frames")
}

/// What stands in a recording, in the order of its lines.
enum Item {
    Frame(Recorded),
    Started(usize, Option<String>),
    Stopped(usize, Option<String>),
    /// Whether there is a connection to the bus from here on.
    Connected(usize, bool),
}

/// Reads a recording; one that has the newest frame first is to be read in reverse.
pub fn read(form: Form, text: &str, reverse: bool) -> Result<Recording, String> {
    let mut items = match form {
        Form::Hex => lines(text, hex_line)?,
        Form::Ets => ets(text)?,
        Form::Knxtool => lines(text, knxtool_line)?,
    };
    if reverse {
        items.reverse();
    }
    let mut recording = joined(items);
    recording.notes.extend(gaps::by_status(&recording.frames));
    recording.notes.sort_by_key(|note| note.before);
    let order = order::judged(recording.frames.iter().map(|frame| frame.time.as_deref()));
    if let (true, Some(&first)) = (order.falls, order.back.first()) {
        let line = recording.frames[first].line;
        let instead = match reverse {
            false => "it has the newest first, and --reverse takes it so",
            true => "it has the oldest first, and is read without --reverse",
        };
        return Err(format!("line {line}: the times fall throughout: {instead}"));
    }
    recording.back = order.back;
    Ok(recording)
}

/// Frames and gaps of what stands in a recording.
fn joined(items: Vec<Item>) -> Recording {
    let mut recording = Recording::default();
    let (mut started, mut connected) = (false, true);
    let mut stopped: Option<(usize, Option<String>)> = None;
    let mut apart = None;
    for item in items {
        let before = recording.frames.len();
        let mut note = |line, gap| recording.notes.push(Note { before, line, gap });
        match item {
            Item::Started(line, time) => {
                match stopped.take() {
                    Some((_, from)) => note(line, gaps::Why::Stopped(from, time)),
                    None if started || before > 0 => note(line, gaps::Why::Stopped(None, time)),
                    None => {}
                }
                started = true;
            }
            Item::Stopped(line, time) => stopped = Some((line, time)),
            Item::Connected(line, now) => {
                if let (true, Some(line)) = (now, apart.take()) {
                    note(line, gaps::Why::Unconnected);
                }
                if !now {
                    apart = apart.or(Some(line));
                }
                connected = now;
            }
            Item::Frame(frame) => {
                // what is recorded though nobody said that it goes on
                if let Some((line, from)) = stopped.take() {
                    note(line, gaps::Why::Stopped(from, None));
                }
                if let (false, Some(line)) = (connected, apart.take()) {
                    note(line, gaps::Why::Unconnected);
                }
                recording.frames.push(frame);
            }
        }
    }
    recording
}

/// Time, bytes, whether they are as on the wire, and the status; or where in the line it is wrong, and how.
type LineRead = Result<Option<Said>, (usize, String)>;
type Said = (Option<String>, Vec<u8>, bool, Option<u8>);

fn lines(text: &str, read: fn(&str) -> LineRead) -> Result<Vec<Item>, String> {
    let mut all = Vec::new();
    for (i, line) in text.lines().enumerate() {
        let number = i + 1;
        match read(line) {
            Ok(Some(_)) if all.len() == MOST => {
                return Err(format!("line {number}: {}", too_many()));
            }
            Ok(Some((time, bytes, wire, status))) => {
                all.push(Item::Frame(Recorded { line: number, time, bytes, wire, status }));
            }
            Ok(None) => {}
            Err((at, what)) => {
                let column = line[..at.min(line.len())].chars().count() + 1;
                return Err(format!("line {number}, column {column}: {what}"));
            }
        }
    }
    Ok(all)
}

/// Where a word stands in its line.
fn offset(line: &str, word: &str) -> usize {
    word.as_ptr() as usize - line.as_ptr() as usize
}

/// Bytes in hex, in one word or in words of two digits each.
fn hex_words(line: &str, words: &[&str]) -> Result<Vec<u8>, (usize, String)> {
    let mut bytes = Vec::new();
    for word in words {
        let here = offset(line, word);
        if words.len() > 1 && word.len() != 2 && word.bytes().all(|b| b.is_ascii_hexdigit()) {
            return Err((
                here,
                "a frame is one word, or a word of two digits for each byte".to_string(),
            ));
        }
        let run = bytes_of(word).map_err(|at| {
            let what = if at == word.len() { "half a byte" } else { "no hex digit" };
            (here + at, what.to_string())
        })?;
        bytes.extend(run);
    }
    Ok(bytes)
}

/// The words of a time, such as a date and a clock's, as one.
fn time_of(line: &str, words: &[&str]) -> Result<Option<String>, (usize, String)> {
    match words {
        [] => Ok(None),
        [one] => time_word(one).map(Some).map_err(|what| (offset(line, one), what)),
        [date, clock] => {
            let time = format!("{date}T{clock}");
            time_word(&time).map(Some).map_err(|what| (offset(line, date), what))
        }
        [.., more] => {
            Err((offset(line, more), "a time has a date and a clock at most".to_string()))
        }
    }
}

/// A frame of the USB interface; words before it with : . or - in them are its time.
fn hex_line(line: &str) -> LineRead {
    let said = line.split('#').next().unwrap_or("");
    let words: Vec<&str> = said.split_whitespace().collect();
    let clock = words.iter().take_while(|word| word.contains([':', '.', '-'])).count();
    if words.is_empty() {
        return Ok(None);
    }
    let time = time_of(line, &words[..clock])?;
    if clock == words.len() {
        return Err((said.trim_end().len(), "a time and no frame".to_string()));
    }
    Ok(Some((time, hex_words(line, &words[clock..])?, false, None)))
}

/// What knxtool's bus monitors write before the bytes.
const LABELS: [&str; 3] = ["L_Busmonitor:", "L_Busmon:", "LPDU:"];

/// A frame as on the wire, from one of knxtool's bus monitors: of busmonitor1 and vbusmonitor1 with a label before it and its
/// meaning behind it, of busmonitor2 bare, of busmonitor3 with status and time in front; of its log with date and clock.
fn knxtool_line(line: &str) -> LineRead {
    let note = line.trim();
    if note.is_empty() || note.starts_with("TS-Base:") || note.contains("Logfile ") {
        return Ok(None);
    }
    let label = LABELS.iter().find_map(|label| line.find(label).map(|at| (at, label.len())));
    let (before, from) = label.map_or(("", 0), |(at, length)| (&line[..at], at + length));
    let mut said = &line[from..];
    let mut clock: Vec<&str> = before.split_whitespace().filter(|&word| word != ":").collect();
    let mut status = None;
    if let (true, Some(open)) = (label.is_none(), said.trim_start().strip_prefix('(')) {
        let Some(close) = open.find(')') else {
            return Err((line.len(), ") is due".to_string()));
        };
        clock = open[..close].split(',').skip(1).map(str::trim).collect();
        status = open.split([',', ')']).next().and_then(|s| u8::from_str_radix(s.trim(), 16).ok());
        said = &open[close + 1..];
    }
    // behind the bytes, their meaning
    let upto = said.find(':').unwrap_or(said.len());
    if label.is_none() && upto < said.len() {
        return Err((
            offset(line, said) + upto,
            "neither bytes nor a label before them".to_string(),
        ));
    }
    let words: Vec<&str> = said[..upto].split_whitespace().collect();
    if words.is_empty() || note.contains("empty LPDU") {
        return Ok(None);
    }
    Ok(Some((time_of(line, &clock)?, hex_words(line, &words)?, true, status)))
}

/// The code of an indication of the bus monitor, which has a frame as on the wire behind its additional information; the type
/// of that which tells the status.
const BUSMON: u8 = 0x2B;
const STATUS: u8 = 3;

/// The status of a bus monitor in the additional information of a frame.
fn status_in(mut info: &[u8]) -> Option<u8> {
    while let [kind, length, rest @ ..] = info {
        let long = usize::from(*length);
        if (*kind, long) == (STATUS, 1) {
            return rest.first().copied();
        }
        info = rest.get(long..)?;
    }
    None
}

/// The root of an export, what it has of telegrams, and of the recorder. ETS has changed the case of names.
const EXPORT: &str = "CommunicationLog";
const TELEGRAM: &str = "Telegram";
const STARTED: &str = "RecordStart";
const STOPPED: &str = "RecordStop";
const CONNECTION: [&str; 2] = ["Connection", "ConnectionState"];
const ESTABLISHED: &str = "Established";

fn is(name: &str, word: &str) -> bool {
    name.eq_ignore_ascii_case(word)
}

/// The telegrams of an export, each by its RawData. One of a quiet bus has none; what has none and is no export is refused.
fn ets(text: &str) -> Result<Vec<Item>, String> {
    let mut all = Vec::new();
    let mut frames = 0;
    let mut other = None;
    let mut root = true;
    xml::elements(text, |element| {
        if std::mem::take(&mut root) && !is(element.name, EXPORT) {
            let what = format!("neither a {TELEGRAM} in it nor {EXPORT} as its name: no export");
            other = Some(element.fault(&what));
        }
        let at = |what: String| element.fault(&what);
        let line = element.line;
        let time = || element.attribute("Timestamp").map(time_word).transpose().map_err(at);
        if is(element.name, STARTED) {
            all.push(Item::Started(line, time()?));
        } else if is(element.name, STOPPED) {
            all.push(Item::Stopped(line, time()?));
        } else if CONNECTION.iter().any(|name| is(element.name, name)) {
            if let Some(state) = element.attribute("State") {
                all.push(Item::Connected(line, is(state.trim(), ESTABLISHED)));
            }
        }
        if !is(element.name, TELEGRAM) {
            return Ok(());
        }
        let format = element.attribute("FrameFormat").unwrap_or("CommonEmi");
        if !is(format, "CommonEmi") {
            let format = sheet::make::short(format);
            return Err(at(format!("a {TELEGRAM} of the format \"{format}\", not CommonEmi")));
        }
        let raw = element
            .attribute("RawData")
            .ok_or_else(|| at(format!("a {TELEGRAM} without RawData")))?;
        let mut bytes = bytes_of(raw.trim()).map_err(|place| {
            at(format!("RawData is not bytes in hex from its digit {} on", place + 1))
        })?;
        let time = time()?;
        let wire = bytes.first() == Some(&BUSMON);
        let mut status = None;
        if wire {
            let start = 2 + bytes.get(1).map_or(0, |&info| info as usize);
            status = bytes.get(2..start).and_then(status_in);
            bytes = bytes.get(start..).unwrap_or(&[]).to_vec();
        }
        all.push(Item::Frame(Recorded { line, time, bytes, wire, status }));
        frames += 1;
        if frames > MOST {
            return Err(at(too_many()));
        }
        Ok(())
    })?;
    match other {
        Some(fault) if frames == 0 => Err(fault),
        _ => Ok(all),
    }
}
