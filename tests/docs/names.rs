//! Every back-quoted name of a document stands in the file that is named for it.
//!
//! A name is looked for in the files named on its own line, in those that the last text (no row of a table) of the same
//! section named, and in those of its heading. A crate or a folder stands for all of its files. What is no name (a term, a
//! command, a number) is passed over, and so is what the language or its library has.

use std::collections::BTreeMap;
use std::path::{Path, PathBuf};
use std::{env, fs, process};

/// The words of the language, of its library and of a verdict that the documents explain or use.
const LIBRARY: &[&str] = &[
    "get_or",
    "slice_index",
    "cond",
    "result",
    "nat_lt",
    "nat_le",
    "nat_eq",
    "ltb",
    "leb",
    "eqb",
    "bit_and",
    "bit_xor",
    "requires",
    "ensures",
    "record",
    "data",
    "abbrev",
    "unfoldable",
    "pub",
    "mutual",
    "Unit",
    "tt",
    "rt",
    "memset",
    "memcpy",
    "memmove",
    "memcmp",
    "sum",
    "native",
    "logic-built",
    "libraries-built",
    "statements",
];

/// The endings by which a word is a file.
const ENDINGS: &[&str] = &[".antt", ".rt", ".h", ".c", ".rs", ".sh", ".tsv", ".md", ".mk", ".in", ".txt"];

fn main() {
    let mut wrong = 0;
    let mut names = 0;
    let mut tree = Tree { texts: BTreeMap::new(), crates: folders("crates") };
    for document in env::args().skip(1) {
        let text = fs::read_to_string(&document).unwrap_or_else(|e| stop(&format!("{document}: {e}")));
        let mut place = Place::default();
        let mut fenced = false;
        for (number, line) in text.lines().enumerate() {
            fenced ^= line.starts_with("```");
            if fenced || line.starts_with("    ") {
                continue;
            }
            for (name, found) in judge(&mut tree, &mut place, line) {
                names += 1;
                if let Err(why) = found {
                    wrong += 1;
                    println!("{document}:{}: `{name}` {why}", number + 1);
                }
            }
        }
    }
    println!("documents: {names} names looked up, {wrong} not where the text says");
    process::exit(i32::from(wrong > 0));
}

/// Where names are looked for: what the section's heading names, and what was named last.
#[derive(Default)]
struct Place {
    heading: Vec<PathBuf>,
    last: Vec<PathBuf>,
}

/// The files of the repository, each read once.
struct Tree {
    texts: BTreeMap<PathBuf, String>,
    crates: Vec<String>,
}

/// The names of a line, each with the verdict on it.
fn judge(tree: &mut Tree, place: &mut Place, line: &str) -> Vec<(String, Result<(), String>)> {
    let quoted: Vec<&str> = line.split('`').skip(1).step_by(2).collect();
    let near: Vec<String> = quoted.iter().filter(|w| tree.crates.iter().any(|c| c == *w)).map(|w| w.to_string()).collect();
    let mut verdicts = Vec::new();
    let mut files = Vec::new();
    for word in line.split(|c: char| c.is_whitespace() || "`,;:()[]|".contains(c)) {
        let word = word.trim_end_matches(['.', '/']);
        if is_file(word) {
            match tree.resolve(word, &near, place) {
                Some(path) => files.push(path),
                None => verdicts.push((word.to_string(), Err("is no file of the repository".to_string()))),
            }
        } else if word.contains('/') && Path::new("crates").join(word).is_dir() {
            files.push(Path::new("crates").join(word));
        }
    }
    if files.is_empty() {
        files = near.iter().map(|c| Path::new("crates").join(c)).collect();
    }
    if line.starts_with('#') {
        *place = Place { heading: files, last: Vec::new() };
        return verdicts;
    }
    let row = line.starts_with('|');
    if !row && !files.is_empty() {
        place.last = files.clone();
    }
    let within: Vec<PathBuf> = [files, place.last.clone(), place.heading.clone()].concat();
    for word in quoted {
        if is_name(word) && !near.iter().any(|c| c == word) && !LIBRARY.contains(&word) && !tree.is_edit(word) {
            verdicts.push((word.to_string(), tree.look_up(word, &within)));
        }
    }
    verdicts
}

impl Tree {
    /// The file that a word names: from the top, below crates/, or below a crate that the line or the section names.
    fn resolve(&self, word: &str, near: &[String], place: &Place) -> Option<PathBuf> {
        let mut tops = vec![PathBuf::new(), PathBuf::from("crates"), PathBuf::from("docs"), PathBuf::from("include")];
        tops.extend(near.iter().map(|c| Path::new("crates").join(c)));
        for path in place.last.iter().chain(&place.heading) {
            tops.extend(path.ancestors().map(Path::to_path_buf));
        }
        let inner = ["", "specs", "proofs", "proofs/promises", "proofs/trials", "src"];
        tops.iter().flat_map(|t| inner.iter().map(move |i| t.join(i).join(word))).find(|p| p.is_file())
    }

    /// Whether the name is that of a change that must be refused.
    fn is_edit(&mut self, name: &str) -> bool {
        let list = Path::new("tests/edits/refused.tsv");
        let text = self.texts.entry(list.to_path_buf()).or_insert_with(|| fs::read_to_string(list).unwrap_or_default());
        text.lines().any(|l| l.split('\t').nth(1) == Some(name))
    }

    /// Whether each part of a dotted name stands in one of the files, as a word.
    fn look_up(&mut self, name: &str, within: &[PathBuf]) -> Result<(), String> {
        if within.is_empty() {
            return Err("has no file or crate named for it".to_string());
        }
        for part in name.split('.').flat_map(|p| p.split("::")) {
            if !self.crates.iter().any(|c| c == part) && !within.iter().any(|path| self.stands(part, path)) {
                let list: Vec<String> = within.iter().map(|p| p.display().to_string()).collect();
                return Err(format!("does not stand in {}", list.join(", ")));
            }
        }
        Ok(())
    }

    /// Whether a file, or a file of a folder, has the word.
    fn stands(&mut self, word: &str, path: &Path) -> bool {
        if path.is_dir() {
            let mut inner: Vec<PathBuf> =
                fs::read_dir(path).map(|d| d.flatten().map(|e| e.path()).collect()).unwrap_or_default();
            inner.sort();
            return inner.iter().any(|p| (p.is_dir() || is_file(&p.to_string_lossy())) && self.stands(word, p));
        }
        if !self.texts.contains_key(path) {
            self.texts.insert(path.to_path_buf(), fs::read_to_string(path).unwrap_or_default());
        }
        let text = &self.texts[path];
        text.match_indices(word).any(|(at, _)| {
            let before = text[..at].chars().next_back();
            let after = text[at + word.len()..].chars().next();
            !before.is_some_and(in_word) && !after.is_some_and(in_word)
        })
    }
}

/// Whether a word ends as a file does.
fn is_file(word: &str) -> bool {
    ENDINGS.iter().any(|e| word.len() > e.len() && word.ends_with(e))
}

/// Whether a quoted text is a name: letters, digits and the signs that names have, with dots and double colons between. What is
/// taken of something of one letter, as `s.now`, is a term.
fn is_name(word: &str) -> bool {
    let starts = word.chars().next().is_some_and(|c| c.is_alphabetic());
    let term = word.split_once('.').is_some_and(|(of, _)| of.chars().count() == 1);
    starts && !term && !is_file(word) && word.chars().all(|c| c != '\'' && in_word(c) || c == '.' || c == ':')
}

fn in_word(c: char) -> bool {
    c.is_alphanumeric() || "_-'".contains(c)
}

/// The names of the folders in a folder.
fn folders(path: &str) -> Vec<String> {
    let entries = fs::read_dir(path).unwrap_or_else(|e| stop(&format!("{path}: {e}")));
    entries.flatten().filter(|e| e.path().is_dir()).map(|e| e.file_name().to_string_lossy().into_owned()).collect()
}

fn stop(why: &str) -> ! {
    eprintln!("{why}");
    process::exit(2)
}
