//! A sheet as text that a person reads and edits, and that `make` reads again.

use crate::layout::{
    group_address, hex, individual_address, memory_address, push_hex, Group, Levels, Property,
    Region, Sheet,
};

/// What stands for a key that is not shown.
pub const HIDDEN: &str = "hidden";

/// The key that every tool tries: it hides nothing, and so is shown.
pub const PUBLIC: [u8; 4] = [0xFF; 4];

/// The last line of a text, by which `make` sees that all of it is there.
pub const END: &str = "end";

/// The flags of a group object: their bits and words.
pub const GROUP_FLAGS: [(u8, &str); 3] = [(1, "read"), (2, "write"), (4, "response")];

/// So many numbers and bytes stand on a line.
const NUMBERS: usize = 8;
const BYTES: usize = 16;

/// The text of a sheet, with or without its keys.
pub fn text(sheet: &Sheet, keys: bool) -> String {
    let mut out = head(sheet, keys);
    for region in &sheet.regions {
        out += &region_text("region", region);
    }
    for property in &sheet.properties {
        out += &property_text(property);
    }
    for group in &sheet.groups {
        out += &group_text(group);
    }
    for region in &sheet.users {
        out += &region_text("user", region);
    }
    out + "\n" + END + "\n"
}

/// A text as a message can have it: ? for what can't be printed.
pub fn plain(text: &str) -> String {
    let printed = |c: char| "\"'\\".contains(c) || c.escape_debug().len() == 1;
    text.chars().map(|c| if printed(c) { c } else { '?' }).collect()
}

pub fn switch(on: bool) -> &'static str {
    if on {
        "on"
    } else {
        "off"
    }
}

fn head(sheet: &Sheet, keys: bool) -> String {
    let mut out = match sheet.edition {
        1 => "edition 1  # old: convert it\n".to_string(),
        edition => format!("edition {edition}\nrules {}\n", sheet.rules),
    };
    out += &format!("serial {}\n", hex(&sheet.serial));
    out += &format!("mask {}\n", hex(&sheet.mask));
    out += &format!("programming {}\n", switch(sheet.programming));
    out += &format!("verify {}\n", switch(sheet.verify));
    out += &format!("address {}\n", individual_address(sheet.address));
    for (level, key) in sheet.keys.iter().enumerate() {
        out += &match *key {
            PUBLIC => {
                format!("key {level} {}  # public: it opens level {level} to all\n", hex(key))
            }
            _ if keys => format!("key {level} {}\n", hex(key)),
            _ => format!("key {level} {HIDDEN}\n"),
        };
    }
    out
}

fn levels(levels: Levels) -> String {
    format!("r{} w{}", levels.read, levels.write)
}

/// Words on lines of so many, each with what its first word is, if there is more than one line.
fn lines(words: &[String], to_a_line: usize, first: impl Fn(usize) -> String) -> String {
    let mut out = String::new();
    for (i, line) in words.chunks(to_a_line).enumerate() {
        out += "    ";
        out += &line.join(" ");
        if words.len() > to_a_line {
            out += "  # ";
            out += &first(i * to_a_line);
        }
        out += "\n";
    }
    out
}

pub fn byte_words(bytes: &[u8]) -> Vec<String> {
    bytes.chunks(1).map(hex).collect()
}

/// Bytes on a line, a blank between them.
pub fn byte_line(bytes: &[u8]) -> String {
    let mut out = String::with_capacity(3 * bytes.len());
    for (i, byte) in bytes.iter().enumerate() {
        if i > 0 {
            out.push(' ');
        }
        push_hex(&mut out, *byte);
    }
    out
}

/// A region of the memory that the word stands for.
fn region_text(word: &str, r: &Region) -> String {
    let first = r.address as usize;
    let head = format!("\n{word} {} {}\n", memory_address(first), levels(r.levels));
    head + &lines(&byte_words(&r.body), BYTES, |i| memory_address(first + i))
}

/// An element: a number if it has up to four bytes, else its hex digits.
pub fn element(bytes: &[u8]) -> String {
    if bytes.len() > 4 {
        return format!("{}h", hex(bytes));
    }
    bytes.iter().fold(0, |number, &b| number << 8 | u32::from(b)).to_string()
}

/// The elements up to the count and up to the last that is not 0; those after them are 0.
pub fn property_text(p: &Property) -> String {
    let size = p.size as usize;
    let used = p.body.iter().rposition(|&b| b != 0).map_or(0, |last| last / size + 1);
    let shown = used.max(p.count as usize);
    let words: Vec<String> = p.body.chunks(size).take(shown).map(element).collect();
    let writable = if p.writable { " writable" } else { "" };
    let head = format!(
        "\nproperty {}/{} type {}{writable} size {size} maximum {} count {} {}\n",
        p.object,
        p.id,
        p.class,
        p.maximum,
        p.count,
        levels(p.levels)
    );
    head + &lines(&words, NUMBERS, |i| format!("element {}", i + 1))
}

pub fn flag_words(flags: u8) -> String {
    GROUP_FLAGS
        .iter()
        .filter(|(bit, _)| flags & bit != 0)
        .map(|(_, word)| format!(" {word}"))
        .collect()
}

fn group_text(g: &Group) -> String {
    let head =
        format!("\ngroup {} code {}{}\n", group_address(g.address), g.code, flag_words(g.flags));
    head + &lines(&byte_words(&g.body), BYTES, |i| format!("byte {i}"))
}
