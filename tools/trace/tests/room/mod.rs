//! A folder of a test's own, and the program run in it.
#![allow(dead_code)]

use std::fs;
use std::path::{Path, PathBuf};
use std::process::{Command, Output, Stdio};

pub const BEFORE: &str = include_str!("../../../../examples/accident/before.txt");
pub const AFTER: &str = include_str!("../../../../examples/accident/after.txt");
pub const LAPTOP: &str = include_str!("../../../../examples/accident/laptop.hex");

/// An empty folder with the two sheets of the accident in it, and the recording.
pub fn room(name: &str) -> PathBuf {
    let room = PathBuf::from(env!("CARGO_TARGET_TMPDIR")).join(name);
    let _ = fs::remove_dir_all(&room);
    fs::create_dir_all(&room).unwrap();
    fs::write(room.join("before"), sheet::make::bytes(BEFORE).unwrap()).unwrap();
    fs::write(room.join("after"), sheet::make::bytes(AFTER).unwrap()).unwrap();
    fs::write(room.join("laptop.hex"), LAPTOP).unwrap();
    room
}

pub fn run(room: &Path, words: &[&str]) -> Output {
    let program = env!("CARGO_BIN_EXE_trace");
    Command::new(program).args(words).current_dir(room).stdin(Stdio::null()).output().unwrap()
}

/// Status, standard output and standard error.
pub fn told(room: &Path, words: &[&str]) -> (i32, String, String) {
    let got = run(room, words);
    let text = |bytes| String::from_utf8(bytes).unwrap();
    (got.status.code().unwrap(), text(got.stdout), text(got.stderr))
}

pub fn said(status: i32, out: &str, err: &str) -> (i32, String, String) {
    (status, out.to_string(), err.to_string())
}

/// The names of the files in a folder.
pub fn files(room: &Path) -> Vec<String> {
    let names = fs::read_dir(room).unwrap();
    let mut names: Vec<String> =
        names.map(|entry| entry.unwrap().file_name().to_string_lossy().into_owned()).collect();
    names.sort();
    names
}
