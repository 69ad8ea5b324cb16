//! Colours for a terminal: the same text, with marks around what a person looks for. Taken out again they leave the text as it was.

use std::env;
use std::io::{self, IsTerminal};

const BOLD: &str = "\x1b[1m";
const DIM: &str = "\x1b[2m";
const RED: &str = "\x1b[31m";
const GREEN: &str = "\x1b[32m";
const PLAIN: &str = "\x1b[0m";

/// Whether standard output is a terminal that shows colours, and nobody has said that he wants none.
pub fn wanted() -> bool {
    let set = |name: &str| env::var_os(name).filter(|value| !value.is_empty());
    let shows = set("TERM").is_some_and(|term| term != "dumb");
    set("NO_COLOR").is_none() && shows && io::stdout().is_terminal()
}

fn mark(colour: &str, text: &str) -> String {
    if text.is_empty() {
        return String::new();
    }
    format!("{colour}{text}{PLAIN}")
}

/// A text of whole lines with its colours.
pub fn painted(text: &str) -> String {
    text.split_inclusive('\n')
        .map(|whole| {
            let line = whole.trim_end_matches('\n');
            one(line) + &whole[line.len()..]
        })
        .collect()
}

/// A comment is dim; before it stands what is said.
fn one(line: &str) -> String {
    if line.starts_with('#') {
        return mark(DIM, line);
    }
    match line.find("  # ") {
        Some(at) => said(&line[..at]) + &mark(DIM, &line[at..]),
        None => said(line),
    }
}

fn said(line: &str) -> String {
    let heading = line.len() > 1 && line.chars().all(|c| c.is_ascii_uppercase() || c == ' ');
    if line == "OK" {
        mark(GREEN, line)
    } else if heading {
        mark(BOLD, line)
    } else if refused(line) {
        mark(RED, line)
    } else if let Some((before, new)) = line.split_once(" → ") {
        // `what: old → new`: old is what stands behind the last colon
        let at = before.rfind(": ").map_or(0, |at| at + 2);
        before[..at].to_string() + &mark(RED, &before[at..]) + " → " + &mark(GREEN, new)
    } else if let Some((before, after)) = line.split_once(" outcome=") {
        let digits = after.bytes().take_while(u8::is_ascii_digit).count();
        let colour = if matches!(&after[..digits], "0" | "1") { GREEN } else { RED };
        let outcome = mark(colour, &format!("outcome={}", &after[..digits]));
        format!("{before} {outcome}{}", &after[digits..])
    } else if let Some(what) = line.strip_suffix(" is gone") {
        what.to_string() + &mark(RED, " is gone")
    } else if let Some((what, new)) = line.split_once(" is new: ") {
        format!("{what} {}{new}", mark(GREEN, "is new: "))
    } else {
        // a name, and what it has
        match line.split_once(' ') {
            Some((name, rest))
                if name.chars().all(|c| c.is_ascii_lowercase()) && !name.is_empty() =>
            {
                mark(BOLD, name) + " " + rest
            }
            _ => line.to_string(),
        }
    }
}

/// A rule that is broken, or a sheet that is old.
fn refused(line: &str) -> bool {
    let rule = line.strip_prefix('S').and_then(|rest| rest.split_once(": "));
    rule.is_some_and(|(number, _)| number.len() == 1 && number.bytes().all(|b| b.is_ascii_digit()))
        || line.starts_with("old: ")
        || line.starts_with("30: ")
        || line.starts_with("a restore is refused by ")
}

#[cfg(test)]
mod tests {
    use super::painted;

    /// The text without its marks.
    fn bare(text: &str) -> String {
        let mut out = String::new();
        let mut rest = text;
        while let Some((before, after)) = rest.split_once("\x1b[") {
            out += before;
            rest = after.split_once('m').map_or("", |pair| pair.1);
        }
        out + rest
    }

    #[test]
    fn as_it_was() {
        let help = include_str!("../kelindap-sheet.txt");
        let more = "OK\nS7: property 1/51, count 3 above maximum 2\nold: convert it\n\n# x\nedition 2  # y\n
property 1/51 element 1: 1000 → 1250\nprogramming mode: off → on\n1 connect connection=0 outcome=1 answer=-  # carried out
2 x outcome=11 answer=-\nregion 0100h is gone\nregion 0100h is new: length 4\n    a0 a1  # 0100h\n → \n: → \n  #  \nS: \nno newline";
        for text in [help, more] {
            let colours = painted(text);
            assert!(colours.contains("\x1b["));
            assert_eq!(bare(&colours), text);
        }
        assert_eq!(painted("OK\n"), "\x1b[32mOK\x1b[0m\n");
        let line = "property 1/51 element 1: \x1b[31m1000\x1b[0m → \x1b[32m1250\x1b[0m";
        assert_eq!(painted("property 1/51 element 1: 1000 → 1250"), line);
    }
}
