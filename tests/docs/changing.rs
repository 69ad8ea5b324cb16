//! What docs/CHANGING.md names and quotes stands in the source.
//!
//! A back-quoted file is there: by its whole path, or in the folder of a file that the same line named before it. `..` in a name stands
//! for any letters. A step of the worked example is an indented block: a file, then lines with `-`, each of which stands in that
//! file once, and lines with `+`, none of which does.

use std::path::{Path, PathBuf};
use std::{env, fs, process};

const ENDINGS: &[&str] = &[".antt", ".rt", ".h", ".c", ".rs", ".sh", ".tsv", ".md", ".mk", ".in", ".inc", ".txt", ".py", ".js", ".html", ".css", ".edit"];

fn main() {
    let document = env::args().nth(1).expect("a document");
    let text = fs::read_to_string(&document).expect("the document");
    let (mut files, mut quoted, mut wrong) = (0, 0, 0);
    let mut complain = |number: usize, what: String| {
        println!("{document}:{}: {what}", number + 1);
        wrong += 1;
    };
    let mut step: Option<String> = None;
    for (number, line) in text.lines().enumerate() {
        if let Some(code) = line.strip_prefix("    ") {
            if is_file(code) && !code.contains(' ') {
                step = whole(code).map(|p| fs::read_to_string(p).unwrap_or_default());
                if step.is_none() {
                    complain(number, format!("there is no {code}"));
                }
            } else if let (Some(text), Some(old)) = (&step, code.strip_prefix("- ")) {
                quoted += 1;
                let times = text.lines().filter(|l| l.trim() == old.trim()).count();
                if times != 1 {
                    complain(number, format!("the line stands {times} times in its file: {old}"));
                }
            } else if let (Some(text), Some(new)) = (&step, code.strip_prefix("+ ")) {
                quoted += 1;
                if text.lines().any(|l| l.trim() == new.trim()) {
                    complain(number, format!("the new line is there already: {new}"));
                }
            }
            continue;
        }
        step = None;
        let mut near: Vec<PathBuf> = Vec::new();
        for word in line.split('`').skip(1).step_by(2) {
            let folder = word.contains('/') && whole(word).is_some_and(|p| p.is_dir());
            if folder {
                near.extend(whole(word));
                continue;
            }
            if word.contains(' ') || word.contains(':') || word.contains('*') || word.contains("NAME") || !is_file(word) {
                continue;
            }
            files += 1;
            let found = whole(word).or_else(|| near.iter().find_map(|f| like(f, word)));
            match found {
                Some(path) => near.extend(path.parent().map(Path::to_path_buf)),
                None => complain(number, format!("`{word}` is no file, nor beside one that the line names")),
            }
        }
    }
    if files < 100 || quoted < 4 {
        println!("{document}: only {files} files and {quoted} lines were found in it");
        wrong += 1;
    }
    println!("documents: {document}: {files} files and {quoted} quoted lines looked up, {wrong} not as the text says");
    process::exit(i32::from(wrong > 0));
}

fn is_file(word: &str) -> bool {
    ENDINGS.iter().any(|e| word.ends_with(e) && word.len() > e.len())
}

/// By its whole path, from the top or from `crates`.
fn whole(word: &str) -> Option<PathBuf> {
    ["", "crates/"].iter().find_map(|top| {
        let path = PathBuf::from(format!("{top}{word}"));
        if path.exists() { Some(path) } else { like(path.parent()?, path.file_name()?.to_str()?) }
    })
}

/// In a folder, or in one that stands in it; with `..` for any letters.
fn like(folder: &Path, name: &str) -> Option<PathBuf> {
    let exact = folder.join(name);
    if exact.exists() {
        return Some(exact);
    }
    let (head, tail) = name.split_once("..")?;
    let tail = tail.trim_start_matches('.');
    let mut found = fs::read_dir(folder).ok()?.flatten().map(|e| e.path());
    found.find(|p| p.file_name().and_then(|n| n.to_str()).is_some_and(|n| n.starts_with(head) && n.ends_with(tail)))
}
