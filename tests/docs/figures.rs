//! The figures of sizes, stack and instructions that documents quote are those that were measured.
//!
//!     figures check DIR DOCUMENT..   holds every block of figures against the file of its name in DIR
//!     figures write DIR DOCUMENT..   puts these files into the blocks; what they have not stays
//!
//! A block begins with a line `<!-- figures NAME: TOLERANCE .. -->` and ends with `<!-- end -->`. Its rows are compared word by
//! word, without the lines of a table; to the last words of a row the tolerances belong, from the right: a number of units,
//! so many per cent (`2%`), or `any`. What could not be measured stands in DIR as `?`, a number or a whole block, and is not
//! held; a document may quote it as `?` too. What was measured and is quoted as `?` is missing, which fails: a machine has the
//! figures of its own kind. After the tolerances a guard may stand, `most 1.02 sample full`: of the rows that begin with one
//! of these words, none that was measured ends with more.

use std::{env, fs, process};

fn main() {
    let words: Vec<String> = env::args().skip(1).collect();
    let (Some(mode), Some(dir), documents) = (words.first(), words.get(1), words.get(2..).unwrap_or_default()) else {
        stop("usage: figures check|write DIR DOCUMENT..");
    };
    let mut tally = Tally::default();
    for document in documents {
        let text = read(document);
        let blocks = blocks(document, &text);
        tally.blocks += blocks.len();
        match mode.as_str() {
            "check" => blocks.iter().for_each(|b| check(&mut tally, document, b, &read(&format!("{dir}/{}", b.name)))),
            "write" => write(document, &text, &blocks, dir),
            _ => stop("check or write"),
        }
    }
    if mode == "check" {
        println!(
            "figures: {} of {} blocks in {} documents as measured, {} could not be measured here, {} differ, are missing or above their most",
            tally.held,
            tally.blocks,
            documents.len(),
            tally.unknown,
            tally.different
        );
    }
    process::exit(i32::from(tally.different > 0 || tally.blocks == 0))
}

#[derive(Default)]
struct Tally {
    blocks: usize,
    held: usize,
    unknown: usize,
    different: usize,
}

/// A block: its name, the tolerances, the guard, its lines and where these stand in the document, from 0.
struct Block {
    name: String,
    tolerances: Vec<Tolerance>,
    guard: Option<Guard>,
    lines: Vec<String>,
    from: usize,
}

/// The most that the last word of a row may be, of the rows that begin with one of these words.
struct Guard {
    most: f64,
    rows: Vec<String>,
}

impl Guard {
    fn of(words: &[&str]) -> Option<Guard> {
        let (most, rows) = words.split_first()?;
        (!rows.is_empty()).then_some(())?;
        Some(Guard { most: most.parse().ok()?, rows: rows.iter().map(|w| w.to_string()).collect() })
    }

    /// Whether a row is above it; what is no number, or `?`, is not.
    fn stops(&self, row: &[&str]) -> bool {
        let guarded = row.first().is_some_and(|w| self.rows.iter().any(|r| r == w));
        guarded && row.last().and_then(|w| w.parse::<f64>().ok()).is_some_and(|ratio| ratio > self.most)
    }
}

#[derive(Clone, Copy)]
enum Tolerance {
    Units(f64),
    PerCent(f64),
    Any,
}

impl Tolerance {
    fn of(word: &str) -> Option<Tolerance> {
        match word.strip_suffix('%') {
            _ if word == "any" => Some(Tolerance::Any),
            Some(part) => part.parse().ok().map(Tolerance::PerCent),
            None => word.parse().ok().map(Tolerance::Units),
        }
    }

    fn allows(self, quoted: &str, measured: &str) -> bool {
        let number = |word: &str| word.replace(',', "").parse::<f64>();
        match (self, number(quoted), number(measured)) {
            (Tolerance::Any, ..) => true,
            (Tolerance::Units(most), Ok(a), Ok(b)) => (a - b).abs() <= most,
            (Tolerance::PerCent(most), Ok(a), Ok(b)) => (a - b).abs() <= b.abs() * most / 100.0 + 0.01,
            _ => quoted == measured,
        }
    }
}

fn blocks(document: &str, text: &str) -> Vec<Block> {
    let mut all: Vec<Block> = Vec::new();
    let mut open = false;
    for (at, line) in text.lines().enumerate() {
        if let Some(head) = line.strip_prefix("<!-- figures ").and_then(|l| l.strip_suffix(" -->")) {
            let block = head.split_once(':').and_then(|(name, words)| {
                let words: Vec<&str> = words.split_whitespace().collect();
                let (words, guard) = match words.iter().position(|w| *w == "most") {
                    Some(k) => (&words[..k], Some(Guard::of(&words[k + 1..])?)),
                    None => (&words[..], None),
                };
                let tolerances = words.iter().map(|w| Tolerance::of(w)).collect::<Option<Vec<_>>>()?;
                Some(Block { name: name.to_string(), tolerances, guard, lines: Vec::new(), from: at + 1 })
            });
            all.push(block.unwrap_or_else(|| stop(&format!("{document}:{}: no head of figures", at + 1))));
            open = true;
        } else if line == "<!-- end -->" {
            open = false;
        } else if open {
            all.last_mut().unwrap().lines.push(line.to_string());
        }
    }
    if open {
        stop(&format!("{document}: a block of figures has no end"));
    }
    all
}

/// The words of each row; blank lines and the line below a table's head are none.
fn rows<'a>(lines: impl Iterator<Item = &'a str>) -> Vec<Vec<&'a str>> {
    lines
        .map(|l| l.split(|c: char| c.is_whitespace() || c == '|').filter(|w| !w.is_empty()).collect::<Vec<_>>())
        .filter(|row| row.iter().any(|w| *w != "---"))
        .collect()
}

/// A whole block that is not known.
fn is_unknown(rows: &[Vec<&str>]) -> bool {
    matches!(rows, [row] if row[..] == ["?"])
}

fn check(tally: &mut Tally, document: &str, block: &Block, measured: &str) {
    let quoted = rows(block.lines.iter().map(String::as_str));
    let measured = rows(measured.lines());
    if is_unknown(&measured) {
        tally.unknown += 1;
        return;
    }
    let (mut different, mut unknown) = (0, 0);
    for row in measured.iter().filter(|row| block.guard.as_ref().is_some_and(|g| g.stops(row))) {
        println!("{document}: {}: above its most: {}", block.name, row.join(" "));
        different += 1;
    }
    if is_unknown(&quoted) {
        println!("{document}: {} is missing, and was measured: make write-figures puts it in", block.name);
        tally.different += different + 1;
        return;
    }
    if quoted.len() != measured.len() {
        println!("{document}: {} has {} rows, and {} were measured", block.name, quoted.len(), measured.len());
        different += 1;
    }
    for (quoted, measured) in quoted.iter().zip(&measured) {
        let mut same = quoted.len() == measured.len();
        for (k, (a, b)) in quoted.iter().rev().zip(measured.iter().rev()).enumerate() {
            let tolerance = block.tolerances.iter().rev().nth(k);
            if tolerance.is_some() && *b == "?" {
                unknown += 1;
            } else {
                same &= tolerance.map_or(a == b, |t| t.allows(a, b));
            }
        }
        if !same {
            println!(
                "{document}: {}: quoted {}\n{:13}measured {}",
                block.name,
                quoted.join(" "),
                "",
                measured.join(" ")
            );
            different += 1;
        }
    }
    tally.held += usize::from(different == 0);
    tally.unknown += unknown;
    tally.different += different;
}

/// A row of a table in which what could not be measured, `?`, stays as the row of the same name has it.
fn known(line: &str, quoted: &[String]) -> String {
    let cells: Vec<&str> = line.split('|').collect();
    let old = quoted.iter().map(|l| l.split('|').collect::<Vec<_>>()).find(|old| old.len() == cells.len() && old.get(1) == cells.get(1));
    match old {
        Some(old) if cells.len() > 2 => {
            cells.iter().zip(old).map(|(new, old)| if new.trim() == "?" { old } else { new }).collect::<Vec<_>>().join("|")
        }
        _ => line.to_string(),
    }
}

fn write(document: &str, text: &str, blocks: &[Block], dir: &str) {
    let mut lines: Vec<String> = text.lines().map(String::from).collect();
    for block in blocks.iter().rev() {
        let measured = read(&format!("{dir}/{}", block.name));
        if is_unknown(&rows(measured.lines())) {
            println!("{document}: {} is left as it is: it could not be measured", block.name);
            continue;
        }
        let new = measured.trim_end().lines().map(|line| known(line, &block.lines));
        let new: Vec<String> = [String::new()].into_iter().chain(new).chain([String::new()]).collect();
        lines.splice(block.from..block.from + block.lines.len(), new);
    }
    fs::write(document, lines.join("\n") + "\n").unwrap_or_else(|e| stop(&format!("{document}: {e}")));
}

fn read(name: &str) -> String {
    fs::read_to_string(name).unwrap_or_else(|e| stop(&format!("{name}: {e}")))
}

fn stop(why: &str) -> ! {
    eprintln!("{why}");
    process::exit(2)
}
