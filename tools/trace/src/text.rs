//! A trace as text, a line to an event, in the words of the proved program that plays traces; and the events of such a text.

use sheet::layout::{hex, individual_address};
use sheet::make::short;

use crate::events::{Event, BUTTON_OFF, BUTTON_ON, CONNECT, DISCONNECT, REQUEST};
use crate::recordings::MOST;
use crate::times::Known;
use crate::words::{self, HIDDEN};

pub type Read<T> = Result<T, String>;

/// The last line.
const END: &str = "end";

/// A run of bytes; `-` if there are none.
pub fn run(bytes: &[u8]) -> String {
    if bytes.is_empty() {
        return "-".to_string();
    }
    hex(bytes)
}

/// An event as the proved program writes it; a key in it is hidden or not.
pub fn event(e: &Event, keys: bool) -> String {
    match e.kind {
        REQUEST => {
            let hidden = !keys && words::secret(&e.apdu);
            let apdu = if hidden { HIDDEN.to_string() } else { run(&e.apdu) };
            let (mode, connection, group) = (e.mode, e.connection, e.group);
            format!("request mode={mode} connection={connection} group={group:04x} apdu={apdu}")
        }
        CONNECT => format!("connect connection={}", e.connection),
        DISCONNECT => format!("disconnect connection={}", e.connection),
        BUTTON_ON => "button on".to_string(),
        _ => "button off".to_string(),
    }
}

/// What an entry has and its kind does not use, where it is not 0.
fn unused(e: &Event) -> String {
    let field = |name: &str, value: u8| match value {
        0 => String::new(),
        value => format!(" {name}={value}"),
    };
    match e.kind {
        REQUEST => String::new(),
        kind => {
            let group =
                if e.group == 0 { String::new() } else { format!(" group={:04x}", e.group) };
            let connection = if kind >= BUTTON_ON { e.connection } else { 0 };
            field("mode", e.mode) + &field("connection", connection) + &group
        }
    }
}

/// A request in words: to which group, and the PDU.
pub fn meaning(e: &Event, keys: bool) -> Option<String> {
    if e.kind != REQUEST {
        return None;
    }
    let to = if e.mode == 0 {
        format!("to {}: ", sheet::layout::group_address(e.group))
    } else {
        String::new()
    };
    Some(to + &words::pdu(&e.apdu, keys))
}

/// The text of a trace.
pub fn text(events: &[Event], known: &[Known], keys: bool) -> String {
    text_with(events, known, keys, |_| None)
}

/// The same, with what a recording shows of an event beside it.
pub fn text_with(
    events: &[Event],
    known: &[Known],
    keys: bool,
    beside: impl Fn(usize) -> Option<String>,
) -> String {
    let mut out = String::new();
    for (i, e) in events.iter().enumerate() {
        let known = known.get(i).map_or(String::new(), Known::words);
        let comment: Vec<String> = meaning(e, keys).into_iter().chain(beside(i)).collect();
        let comment = match comment[..] {
            [] => String::new(),
            _ => format!("  # {}", comment.join("; ")),
        };
        out += &format!("{} {}{}{known}{comment}\n", i + 1, event(e, keys), unused(e));
    }
    out + END + "\n"
}

// ---- reading ----

/// The words of a line up to a comment.
pub struct Line<'a>(std::str::SplitWhitespace<'a>);

impl<'a> Line<'a> {
    pub fn new(line: &'a str) -> Line<'a> {
        Line(line.split('#').next().unwrap_or("").split_whitespace())
    }

    pub fn word(&mut self) -> Option<&'a str> {
        self.0.next()
    }

    /// A word such as name=value, if there is one more.
    pub fn pair(&mut self) -> Read<Option<(&'a str, &'a str)>> {
        match self.word() {
            None => Ok(None),
            Some(word) => {
                let pair = word.split_once('=');
                pair.map(Some).ok_or(format!("\"{}\" is no field with its value", short(word)))
            }
        }
    }

    pub fn end(&mut self) -> Read<()> {
        match self.word() {
            None => Ok(()),
            Some(word) => Err(format!("\"{}\" is one word too many", short(word))),
        }
    }
}

/// An individual address, such as 1.1.250.
pub fn address(word: &str) -> Read<u16> {
    let parts: Vec<&str> = word.split('.').collect();
    let number = |word: &str, most: u16| word.parse::<u16>().ok().filter(|&n| n <= most);
    let read = match parts[..] {
        [area, line, device] => number(area, 15)
            .zip(number(line, 15))
            .zip(number(device, 255))
            .map(|((area, line), device)| area << 12 | line << 8 | device),
        _ => None,
    };
    let read = read.filter(|&address| individual_address(address) == word);
    read.ok_or(format!("no individual address, as 1.1.250: \"{}\"", short(word)))
}

/// The longest word for a time.
const LONGEST_TIME: usize = 40;

/// A time, in whatever form it was recorded: a word of letters, digits and marks.
pub fn time_word(word: &str) -> Read<String> {
    let mark = |c: char| c.is_ascii_alphanumeric() || "-:.+/,".contains(c);
    if word.is_empty() || word.len() > LONGEST_TIME || !word.chars().all(mark) {
        return Err(format!("no time: \"{}\"", short(word)));
    }
    Ok(word.to_string())
}

/// The bytes of hex digits, or the column of the first that is none, from 0.
pub fn bytes_of(digits: &str) -> Result<Vec<u8>, usize> {
    if let Some((at, _)) = digits.char_indices().find(|(_, c)| !c.is_ascii_hexdigit()) {
        return Err(at);
    }
    if digits.len() % 2 == 1 {
        return Err(digits.len());
    }
    let nibble = |c: u8| (c as char).to_digit(16).unwrap_or(0) as u8;
    Ok(digits.as_bytes().chunks(2).map(|pair| nibble(pair[0]) << 4 | nibble(pair[1])).collect())
}

fn up_to(field: &str, word: &str, most: u8) -> Read<u8> {
    let digits = word.bytes().all(|b| b.is_ascii_digit());
    let number = if digits { word.parse().ok() } else { None };
    number.filter(|&n| n <= most).ok_or(format!("{field} is \"{}\", not 0 to {most}", short(word)))
}

/// A group address in four hex digits.
pub fn group(word: &str) -> Read<u16> {
    let digits = word.len() == 4 && word.bytes().all(|b| b.is_ascii_hexdigit());
    let number = if digits { u16::from_str_radix(word, 16).ok() } else { None };
    number.ok_or(format!("group is not 4 hex digits: \"{}\"", short(word)))
}

fn apdu(word: &str) -> Read<Vec<u8>> {
    if word == "-" {
        return Ok(Vec::new());
    }
    if word == HIDDEN {
        return Err("apdu is hidden, for it has a key: show the trace with --keys".to_string());
    }
    let bytes =
        bytes_of(word).map_err(|_| format!("apdu is not bytes in hex: \"{}\"", short(word)))?;
    if bytes.is_empty() || bytes.len() > 255 {
        return Err(format!("apdu has {} bytes, not 1 to 255, or - for none", bytes.len()));
    }
    Ok(bytes)
}

/// An event and what is known of it, from its line behind the number.
fn line_event(first: &str, words: &mut Line) -> Read<(Event, Known)> {
    let kind = match first {
        "request" => REQUEST,
        "connect" => CONNECT,
        "disconnect" => DISCONNECT,
        "button" => match words.word() {
            Some("on") => BUTTON_ON,
            Some("off") => BUTTON_OFF,
            Some(word) => return Err(format!("button is on or off: \"{}\"", short(word))),
            None => return Err("button is on or off, and neither is said".to_string()),
        },
        word => {
            return Err(format!("\"{}\" is no request, connect, disconnect or button", short(word)))
        }
    };
    let mut known = Known::default();
    let [mut mode, mut connection] = [None; 2];
    let (mut to, mut bytes) = (None, None);
    while let Some((field, value)) = words.pair()? {
        let once = match field {
            "mode" => mode.replace(up_to(field, value, 15)?).is_none(),
            "connection" => connection.replace(up_to(field, value, 15)?).is_none(),
            "group" => to.replace(group(value)?).is_none(),
            "apdu" if kind == REQUEST => bytes.replace(apdu(value)?).is_none(),
            _ if known.take(field, value)? => true,
            _ => return Err(format!("\"{}\" is no field of a {first}", short(field))),
        };
        if !once {
            return Err(format!("{field} is given twice"));
        }
    }
    let missing = |field: &str| format!("{field} of the {first} is missing");
    if kind == REQUEST && mode.is_none() {
        return Err(missing("mode"));
    }
    if kind == REQUEST && mode == Some(0) && to.is_none() {
        return Err(missing("group"));
    }
    let asked = kind == CONNECT || kind == DISCONNECT || (kind == REQUEST && mode == Some(3));
    if asked && connection.is_none() {
        return Err(missing("connection"));
    }
    if kind == REQUEST && bytes.is_none() {
        return Err(missing("apdu"));
    }
    let event = Event {
        kind,
        mode: mode.unwrap_or(0),
        connection: connection.unwrap_or(0),
        group: to.unwrap_or(0),
        apdu: bytes.unwrap_or_default(),
    };
    Ok((event, known))
}

/// The events of a text, each with what is known of it. A number before an event must be the right one.
pub fn events(text: &str) -> Result<Vec<(Event, Known)>, String> {
    let mut all = Vec::new();
    let mut ended = false;
    let mut last = 1;
    for (i, line) in text.lines().enumerate() {
        last = i + 1;
        let at = |what: String| format!("line {last}: {what}");
        let mut words = Line::new(line);
        let Some(mut first) = words.word() else { continue };
        if ended {
            return Err(at(format!("\"{}\" stands behind the {END}", short(first))));
        }
        if first == END {
            ended = true;
            words.end().map_err(at)?;
            continue;
        }
        if first.bytes().all(|b| b.is_ascii_digit()) {
            let due = all.len() + 1;
            if first.parse() != Ok(due) {
                return Err(at(format!("event \"{}\" stands where {due} is due", short(first))));
            }
            first = words.word().ok_or_else(|| at(format!("event {due} is not said")))?;
        }
        if all.len() == MOST {
            return Err(at(format!("more than {MOST} events")));
        }
        all.push(line_event(first, &mut words).map_err(at)?);
    }
    if !ended {
        return Err(format!(
            "line {last}: {END} is missing as the last line: the text may have been cut off"
        ));
    }
    Ok(all)
}
