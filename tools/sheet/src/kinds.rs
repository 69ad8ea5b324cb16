//! What a file is, by its bytes: asked only of one that is not what a command wants, so that the reason names what it is.

use crate::check::rules;
use crate::layout::word;
use crate::slots;
use crate::versions::Store;

/// What a file can be. Words of a text tell one kind from the other, and of bytes the places that they state.
#[derive(Clone, Copy, Debug, PartialEq, Eq)]
pub enum File {
    Sheet,
    Store,
    Medium,
    Trace,
    SheetText,
    TraceText,
    Times,
    Ets,
    Knxtool,
    Frames,
    SheetHex,
    Listed,
    Json,
    Archive,
    Program,
    Text,
}

impl File {
    pub fn name(self) -> &'static str {
        match self {
            File::Sheet => "a sheet",
            File::Store => "a store of versions",
            File::Medium => "a dump of a medium",
            File::Trace => "a trace",
            File::SheetText => "the text of a sheet",
            File::TraceText => "the text of a trace",
            File::Times => "the side file of a trace",
            File::Ets => "a recording of ETS",
            File::Knxtool => "a recording of knxtool",
            File::Frames => "a recording in hex",
            File::SheetHex => "a sheet in hex digits",
            File::Listed => "a list of bytes for C",
            File::Json => "JSON",
            File::Archive => "an archive",
            File::Program => "a program",
            File::Text => "a text",
        }
    }
}

/// The line that says so, of a file that can't be what is wanted; none if nobody can tell, or it is of that kind and has a fault.
pub fn other(bytes: &[u8], wanted: File) -> Option<String> {
    let is = of(bytes).filter(|&is| is != wanted)?;
    Some(format!("this is {}, and {} is wanted", is.name(), wanted.name()))
}

/// A fault, or what the file is if it is of another kind.
pub fn fault(bytes: &[u8], wanted: File, fault: impl ToString) -> String {
    other(bytes, wanted).unwrap_or_else(|| fault.to_string())
}

pub fn of(all: &[u8]) -> Option<File> {
    let bytes = &all[..all.len().min(MOST as usize)];
    if bytes.is_empty() {
        return None;
    }
    let printed = |c: char| !c.is_control() || c.is_whitespace();
    match text(bytes) {
        Some(text) if text.chars().all(printed) => {
            Some(of_text(text.trim_start_matches('\u{feff}')))
        }
        // its halves are those of all of it
        _ if rules(all).is_err() && slots::is_dump(all) => Some(File::Medium),
        _ => of_bytes(bytes),
    }
}

/// The bytes as text; the last character may have been cut off, for no more of the file was read.
fn text(bytes: &[u8]) -> Option<&str> {
    match std::str::from_utf8(bytes) {
        Ok(text) => Some(text),
        Err(why) if why.error_len().is_none() => {
            std::str::from_utf8(&bytes[..why.valid_up_to()]).ok()
        }
        Err(_) => None,
    }
}

/// So many bytes are read of a file that should be a sheet, a store or a trace: none of them is so long, and of a file of
/// another kind enough to tell it.
pub const MOST: u64 = 1 << 17;

// ---- bytes ----

fn of_bytes(b: &[u8]) -> Option<File> {
    let begins = |with: &[u8]| b.starts_with(with);
    if begins(b"PK\x03\x04") || begins(b"\x1f\x8b") || begins(b"!<arch>\n") {
        Some(File::Archive)
    } else if begins(b"\x7fELF") {
        Some(File::Program)
    } else if rules(b).is_ok() {
        Some(File::Sheet)
    } else if Store::read(b).is_ok_and(|store| store.last > 0) {
        Some(File::Store) // one to which no number was given is nothing but zeros in front
    } else if trace(b) {
        Some(File::Trace)
    } else if b.len() >= 32 && (b[0] == 1 || b[0] == 2) && word(b, 4) as usize == b.len() {
        Some(File::Sheet) // one that breaks a rule
    } else {
        None
    }
}

/// Whether the places that a trace states are where they must be.
fn trace(b: &[u8]) -> bool {
    if b.len() < 2 || word(b, 0) > 512 {
        return false;
    }
    let mut end = 2 + 8 * word(b, 0) as usize;
    if end > b.len() {
        return false;
    }
    let entries = b[2..end].chunks_exact(8);
    for e in entries {
        if e[0] > 4 || e[7] != 0 || word(e, 4) as usize != end {
            return false;
        }
        end += e[6] as usize;
    }
    end == b.len()
}

// ---- text ----

/// The fields of a sheet's head, as its text has them.
const HEAD: [&str; 8] =
    ["edition", "rules", "serial", "mask", "programming", "verify", "address", "key"];

fn of_text(text: &str) -> File {
    let begun = text.trim_start();
    let lines = || text.lines().map(str::trim).filter(|l| !l.is_empty() && !l.starts_with('#'));
    let words =
        |line: &str| line.split_whitespace().take(2).map(str::to_string).collect::<Vec<_>>();
    let first = lines().next().map(words).unwrap_or_default();
    let first: Vec<&str> = first.iter().map(String::as_str).collect();
    let event = |word: &str| matches!(word, "request" | "connect" | "disconnect" | "button");
    match first[..] {
        _ if begun.starts_with("times of a trace:") => File::Times,
        _ if begun.starts_with('<') => File::Ets,
        _ if begun.starts_with(['{', '[']) => File::Json,
        [word, value] if HEAD.contains(&word) && !value.ends_with(':') => File::SheetText,
        [number, word] if event(word) && number.parse::<u32>().is_ok() => File::TraceText,
        [word, ..] if event(word) => File::TraceText,
        [word, ..] if word.starts_with("L_") || word.starts_with("LPDU") => File::Knxtool,
        _ if lines().any(|line| line.starts_with("0x")) => File::Listed,
        _ => of_digits(text).unwrap_or(File::Text),
    }
}

/// A text whose words are hex digits: of a sheet, or a frame to a line, with or without a time before it.
fn of_digits(text: &str) -> Option<File> {
    let digits = |word: &str| word.bytes().all(|b| b.is_ascii_hexdigit());
    let lines = text.lines().map(|line| line.split('#').next().unwrap_or("").trim());
    let lines: Vec<&str> = lines.filter(|line| !line.is_empty()).collect();
    let all: String = text.split_whitespace().collect();
    if !all.is_empty() && digits(&all) && all.len().is_multiple_of(2) {
        let bytes = all.as_bytes().chunks(2);
        let bytes =
            bytes.filter_map(|two| u8::from_str_radix(std::str::from_utf8(two).ok()?, 16).ok());
        if rules(&bytes.collect::<Vec<u8>>()).is_ok() {
            return Some(File::SheetHex);
        }
    }
    let frame = |line: &&str| {
        let words = line.split_whitespace();
        let mut bytes =
            words.filter(|word| digits(word) && (word.starts_with("29") || word.starts_with("11")));
        bytes.next().is_some()
    };
    (!lines.is_empty() && lines.iter().all(frame)).then_some(File::Frames)
}

#[cfg(test)]
mod tests {
    use super::{of, other, File};

    #[test]
    fn told_apart() {
        let sheet =
            crate::make::bytes(include_str!("../../../examples/accident/before.txt")).unwrap();
        let text = include_str!("../../../examples/accident/before.txt");
        let mut broken = sheet.clone();
        broken[47] = 3;
        let hex: String = sheet.iter().map(|b| format!("{b:02x}")).collect();
        let trace = [0, 1, 1, 0, 0, 0, 0, 10, 0, 0];
        let mut store = vec![0, 1, 0, 1, 0, 0, 0, 0, 0, 1, 0, 1, 0, 16, 0, 2, 0, 0];
        let mut slot = [&b"KELIND"[..], &[0xFF; 26], &[0; 32], &sheet].concat();
        slot.resize(512, 0xFF);
        let medium = [&slot[..], &[0xFF; 512]].concat();
        let cases: [(&[u8], Option<File>); 21] = [
            (b"", None),
            (&sheet, Some(File::Sheet)),
            (&broken, Some(File::Sheet)),
            (text.as_bytes(), Some(File::SheetText)),
            (hex.as_bytes(), Some(File::SheetHex)),
            (&trace, Some(File::Trace)),
            (&medium, Some(File::Medium)),
            (&medium[512..], None),
            (b"KELINDAP is written so in a heading, and what begins so may be a text of any length, such as this one, which has one hundred and forty", Some(File::Text)),
            (&store.clone(), Some(File::Store)),
            (&[0; 60], None), // a flash that nobody has written
            (&[0xFF; 60], None),
            (b"1 connect connection=0\nend\n", Some(File::TraceText)),
            (b"button on\nend\n", Some(File::TraceText)),
            (b"times of a trace: events=9\nend\n", Some(File::Times)),
            (b"<CommunicationLog></CommunicationLog>", Some(File::Ets)),
            (b"L_Busmon: BC 11 14 08\n", Some(File::Knxtool)),
            (include_bytes!("../../../examples/accident/laptop.hex"), Some(File::Frames)),
            (include_bytes!("../../../hosts/sample_sheet.inc"), Some(File::Listed)),
            (b"programming mode: off \xe2\x86\x92 on\n", Some(File::Text)),
            (b"\x7fELF\x02\x01\x01\0", Some(File::Program)),
        ];
        for (bytes, kind) in cases {
            assert_eq!(of(bytes), kind, "{bytes:?}");
        }
        store[1] = 2;
        assert_eq!(of(&store), None);
        let said = other(text.as_bytes(), File::Sheet).unwrap();
        assert_eq!(said, "this is the text of a sheet, and a sheet is wanted");
        assert_eq!(other(&broken, File::Sheet), None);
    }
}
