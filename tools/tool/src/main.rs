//! `kelindap-tool`: its words. Exit status 0; 1 if a unit refuses, or the survey found something; 2 with a line on standard error
//! for anything else.

use std::process::ExitCode;

use sheet::program::{words, Program};

const PROGRAM: Program = Program { help: include_str!("../kelindap-tool.txt") };

/// Options with a value that may stand before the command.
const BEFORE: [&str; 3] = ["--via", "--key-file", "--record"];

fn main() -> ExitCode {
    tool::sys::listen();
    PROGRAM.run_words(&behind(words()), tool::commands::obey)
}

/// The options before the command, put behind it.
fn behind(words: Vec<String>) -> Vec<String> {
    let mut at = 0;
    while words.get(at).is_some_and(|word| BEFORE.contains(&word.as_str())) {
        at += 2;
    }
    let at = if at < words.len() { at } else { 0 };
    let (before, rest) = words.split_at(at);
    let bare = rest.iter().position(|word| word == "--").unwrap_or(rest.len());
    [&rest[..bare], before, &rest[bare..]].concat()
}
