//! The side file of a trace, NAME.times: of each event the time and the sender, where they are known. A trace's bytes have
//! neither. A first line ties it to its trace, the last line says that it is whole.

use sheet::layout::individual_address;

use crate::text::{address, time_word, Line, Read};

/// What is known of an event beside its bytes.
#[derive(Clone, Debug, PartialEq, Eq, Default)]
pub struct Known {
    pub time: Option<String>,
    pub from: Option<u16>,
}

impl Known {
    pub fn nothing(&self) -> bool {
        *self == Known::default()
    }

    /// As a line of text has it, a blank before each.
    pub fn words(&self) -> String {
        let time = self.time.as_ref().map_or(String::new(), |time| format!(" time={time}"));
        let from = self.from.map(individual_address);
        time + &from.map_or(String::new(), |from| format!(" from={from}"))
    }

    /// For people: at a time, from an address.
    pub fn told(&self) -> String {
        let time = self.time.as_ref().map_or(String::new(), |time| format!(", at {time}"));
        let from = self.from.map(individual_address);
        time + &from.map_or(String::new(), |from| format!(", from {from}"))
    }

    /// Takes a word such as time=.. or from=..; false if it is none.
    pub fn take(&mut self, field: &str, value: &str) -> Read<bool> {
        match field {
            "time" if self.time.is_none() => self.time = Some(time_word(value)?),
            "from" if self.from.is_none() => self.from = Some(address(value)?),
            "time" | "from" => return Err(format!("{field} is given twice")),
            _ => return Ok(false),
        }
        Ok(true)
    }
}

/// The sum by which a side file knows its trace: CRC-32.
fn sum(bytes: &[u8]) -> u32 {
    !bytes.iter().fold(!0, |sum, &byte| {
        (0..8).fold(sum ^ u32::from(byte), |sum: u32, _| {
            sum >> 1 ^ if sum & 1 == 1 { 0xEDB8_8320 } else { 0 }
        })
    })
}

/// What ties a side file to its trace.
pub fn tied(trace: &[u8], events: usize) -> String {
    format!("events={events} bytes={} sum={:08x}", trace.len(), sum(trace))
}

fn first_line(trace: &[u8], events: usize) -> String {
    format!("times of a trace: {}", tied(trace, events))
}

/// The side file of a trace; none if nothing is known.
pub fn write(trace: &[u8], known: &[Known]) -> Option<String> {
    if known.iter().all(Known::nothing) {
        return None;
    }
    let mut out = first_line(trace, known.len()) + "\n";
    for (i, known) in known.iter().enumerate().filter(|(_, known)| !known.nothing()) {
        out += &format!("{}{}\n", i + 1, known.words());
    }
    Some(out + "end\n")
}

/// What a side file says of the events of its trace.
pub fn read(text: &str, trace: &[u8], events: usize) -> Result<Vec<Known>, String> {
    let mut known = vec![Known::default(); events];
    let mut before = 0;
    let mut ended = false;
    let mut last = 1;
    for (i, line) in text.lines().enumerate() {
        last = i + 1;
        let at = |what: String| format!("line {last}: {what}");
        if i == 0 {
            if line.trim_end() != first_line(trace, events) {
                return Err(at("it is not of this trace".to_string()));
            }
            continue;
        }
        let mut words = Line::new(line);
        let Some(first) = words.word() else { continue };
        if ended {
            return Err(at(format!("\"{}\" stands behind the end", sheet::make::short(first))));
        }
        if first == "end" {
            ended = true;
            words.end().map_err(at)?;
            continue;
        }
        let number: usize = first
            .parse()
            .map_err(|_| at(format!("no number of an event: \"{}\"", sheet::make::short(first))))?;
        if number <= before || number > events {
            return Err(at(format!("event {number} is not one of {} to {events}", before + 1)));
        }
        before = number;
        while let Some((field, value)) = words.pair().map_err(at)? {
            if !known[number - 1].take(field, value).map_err(at)? {
                return Err(at(format!("{} is neither time nor from", sheet::make::short(field))));
            }
        }
    }
    if !ended {
        return Err(format!(
            "line {last}: end is missing as the last line: it may have been cut off"
        ));
    }
    Ok(known)
}
