//! The plain engine as it is read: its functions in reading order, without what is for the prover, and the hours that they take.
//!
//! `plain TEXT DOCUMENT` writes the text to TEXT and the hours into the table of DOCUMENT; `plain --check DOCUMENT` holds the
//! table to the sources. Both fail if a file of the four crates is in no part, or a part names none, or a function is too long.

use std::collections::BTreeSet;
use std::{env, fs, process};

/// A part: its name, whether it is of the services, the order and the sessions, and its files, in reading order.
struct Part {
    name: &'static str,
    decides: bool,
    files: &'static [&'static str],
}

const PARTS: &[Part] = &[
    Part { name: "The records", decides: false, files: &["parts/lib"] },
    Part { name: "A request", decides: true, files: &["plain/lib", "plain_services/lib", "plain_services/replies"] },
    Part { name: "The order and the sessions", decides: true, files: &["plain/order", "plain/sessions"] },
    Part {
        name: "The services",
        decides: true,
        files: &[
            "plain/serve",
            "plain_services/bodies",
            "plain_services/groups",
            "plain_services/addresses",
            "plain_services/properties",
            "plain_services/ranges",
            "plain_services/memory",
            "plain_services/keys",
        ],
    },
    Part { name: "A reply carried out", decides: true, files: &["plain/carry"] },
    Part {
        name: "The sheet taken apart, and written again",
        decides: false,
        files: PARTS_FILES,
    },
    Part {
        name: "Whether a sheet is accepted",
        decides: false,
        files: &["plain_check/lib", "plain_check/places", "plain_check/entries", "plain_check/bodies"],
    },
    Part { name: "The call in C", decides: false, files: &["plain_host/lib", "plain_host_c/lib"] },
];

const PARTS_FILES: &[&str] = &["parts/entries", "parts/front", "parts/lists", "parts/whole"];

/// What is no part of the engine: both engines asked the same.
const BESIDE: &[&str] = &["plain/both"];

const CRATES: &[&str] = &["plain_check", "parts", "plain_services", "plain", "plain_host", "plain_host_c"];
const HEADING: &str = "| Of the plain engine | Lines | Hours |";
/// How many lines are read in an hour, with care.
const AN_HOUR: f64 = 150.0;
/// The longest function.
const LONGEST: usize = 40;

fn main() {
    let words: Vec<String> = env::args().skip(1).collect();
    let mut good = every_file_has_its_part();
    let mut text = String::from("# The plain engine, in reading order\n\nWhat is for the prover, and what is imported, is left out.\n");
    let mut table = vec![HEADING.to_string(), "|---|---|---|".to_string()];
    let (mut decided, mut all) = (0, 0);
    for part in PARTS {
        let mut lines = 0;
        text.push_str(&format!("\n## {}\n", part.name));
        for file in part.files {
            let read = read(file, &mut good);
            lines += read.iter().filter(|l| counts(l)).count();
            text.push_str(&format!("\n{}\n\n```rust\n{}\n```\n", path(file), read.join("\n").trim()));
        }
        table.push(row(part.name, lines));
        all += lines;
        decided += if part.decides { lines } else { 0 };
    }
    table.push(row("services, order and sessions together", decided));
    table.push(row("all", all));
    match words.iter().map(String::as_str).collect::<Vec<_>>()[..] {
        ["--check", document] => {
            let (old, new) = tabled(document, &table);
            if old != new {
                println!("plain: the table of {document} is not what the sources say; `make plain-reading` writes it anew");
                good = false;
            }
            println!("plain: {all} lines, of which {decided} decide");
        }
        [to, document] => {
            put(to, &text);
            put(document, &tabled(document, &table).1);
            println!("plain: {to}: {all} lines, of which {decided} decide");
        }
        _ => stop("plain TEXT DOCUMENT, or plain --check DOCUMENT"),
    }
    process::exit(i32::from(!good));
}

fn path(file: &str) -> String {
    let (name, file) = file.split_once('/').unwrap();
    format!("crates/{name}/src/{file}.rt")
}

fn row(name: &str, lines: usize) -> String {
    format!("| {name} | {lines} | {:.1} |", lines as f64 / AN_HOUR)
}

/// What is counted: a line with code on it, a brace among it.
fn counts(line: &str) -> bool {
    let line = line.trim();
    !line.is_empty() && !line.starts_with("//")
}

/// A file without what is for the prover and without imports; each run of empty lines is one. Functions are measured.
fn read(file: &str, good: &mut bool) -> Vec<String> {
    let path = path(file);
    let source = fs::read_to_string(&path).unwrap_or_else(|e| stop(&format!("{path}: {e}")));
    let mut kept: Vec<String> = Vec::new();
    let (mut name, mut from) = (String::new(), 0);
    // how many braces of a clause are open
    let mut deep = 0;
    for line in source.lines() {
        let word = line.trim_start();
        let imports = ["use ", "pub use ", "mod ", "pub mod ", "ghost use "].iter().any(|w| line.starts_with(w));
        let tactics = ["#![tactic(", "#[tactic("].iter().any(|w| word.starts_with(w));
        if deep > 0 || word.starts_with("requires ") || word.starts_with("ensures ") {
            deep += line.matches('{').count() as i32 - line.matches('}').count() as i32;
            continue;
        }
        if imports || tactics {
            continue;
        }
        if line.is_empty() && kept.last().is_none_or(String::is_empty) {
            continue;
        }
        if let Some(at) = line.find("fn ").filter(|_| !line.starts_with(' ') && !line.starts_with("//")) {
            name = line[at + 3..].split('(').next().unwrap().to_string();
            from = kept.len();
        }
        kept.push(line.to_string());
        if line == "}" && !name.is_empty() {
            let long = kept[from..].iter().filter(|l| counts(l)).count();
            if long > LONGEST {
                println!("plain: {path}: {name} has {long} lines, more than {LONGEST}");
                *good = false;
            }
            name.clear();
        }
    }
    kept
}

/// Each file of the crates stands in one part, or beside the engine.
fn every_file_has_its_part() -> bool {
    let named: Vec<&str> = PARTS.iter().flat_map(|p| p.files).chain(BESIDE).copied().collect();
    let mut found = BTreeSet::new();
    for name in CRATES {
        let folder = format!("crates/{name}/src");
        for entry in fs::read_dir(&folder).unwrap_or_else(|e| stop(&format!("{folder}: {e}"))) {
            let file = entry.unwrap().file_name().into_string().unwrap();
            found.insert(format!("{name}/{}", file.trim_end_matches(".rt")));
        }
    }
    let missing: Vec<&String> = found.iter().filter(|f| named.iter().filter(|n| n == f).count() != 1).collect();
    for file in &missing {
        println!("plain: {} is not in one part", path(file));
    }
    missing.is_empty()
}

/// A document as it is, and with this table in place of the one that it has.
fn tabled(document: &str, table: &[String]) -> (String, String) {
    let old = fs::read_to_string(document).unwrap_or_else(|e| stop(&format!("{document}: {e}")));
    let mut lines: Vec<&str> = old.lines().collect();
    let Some(from) = lines.iter().position(|l| *l == HEADING) else {
        stop(&format!("{document}: no table begins with {HEADING}"))
    };
    let to = from + lines[from..].iter().take_while(|l| l.starts_with('|')).count();
    lines.splice(from..to, table.iter().map(String::as_str));
    let new = lines.join("\n") + "\n";
    (old, new)
}

fn put(to: &str, text: &str) {
    fs::write(to, text).unwrap_or_else(|e| stop(&format!("{to}: {e}")));
}

fn stop(why: &str) -> ! {
    println!("plain: {why}");
    process::exit(2)
}
