//! A key: from a file that nobody else may read, or asked for without echo. It is shown nowhere: there is no text of one.

use std::fs::{File, OpenOptions};
use std::io::{ErrorKind, Read, Write};
use std::os::unix::fs::PermissionsExt;

use crate::sys::{interrupted, Unechoed};

#[derive(Clone, Copy, PartialEq, Eq)]
pub struct Key(u32);

impl Key {
    /// For the PDU that carries it.
    pub fn number(self) -> u32 {
        self.0
    }

    /// Eight hex digits; nothing of a wrong word is told.
    pub fn of(text: &str) -> Option<Key> {
        let digits = text.trim();
        let fits = digits.len() == 8 && digits.bytes().all(|b| b.is_ascii_hexdigit());
        if !fits {
            return None;
        }
        u32::from_str_radix(digits, 16).ok().map(Key)
    }
}

const DIGITS: &str = "no key: eight hex digits are one";

/// The key in a file of mode 600.
pub fn of_file(name: &str) -> Result<Key, String> {
    let fault = |why: std::io::Error| format!("{name}: {why}");
    let file = File::open(name).map_err(fault)?;
    let there = file.metadata().map_err(fault)?;
    if !there.is_file() {
        return Err(format!("{name}: a key stands in a file, and this is none"));
    }
    let mode = there.permissions().mode() & 0o777;
    if mode & 0o077 != 0 {
        let told = "others may read or write it, so it is not taken: chmod 600";
        return Err(format!("{name}: mode {mode:03o}: {told} {name}"));
    }
    let mut text = String::new();
    file.take(64).read_to_string(&mut text).map_err(fault)?;
    Key::of(&text).ok_or(format!("{name}: {DIGITS}"))
}

/// Asked for at the terminal, without echo.
pub fn asked(what: &str) -> Result<Key, String> {
    let fault = |why: std::io::Error| format!("{what} can't be asked for: {why}");
    let terminal = OpenOptions::new().read(true).write(true).open("/dev/tty").map_err(fault)?;
    let mut line = [0; 64];
    let got = {
        let _silent = Unechoed::new(&terminal).map_err(fault)?;
        (&terminal).write_all(format!("{what}: ").as_bytes()).map_err(fault)?;
        // a terminal hands up a line at once; a signal ends the wait, and the echo comes back
        loop {
            match (&terminal).read(&mut line) {
                Err(why) if why.kind() == ErrorKind::Interrupted && !interrupted() => {}
                got => break got,
            }
        }
    };
    let _ = (&terminal).write_all(b"\n");
    if interrupted() {
        return Err("interrupted".to_string());
    }
    let text = String::from_utf8_lossy(&line[..got.map_err(fault)?]).into_owned();
    Key::of(&text).ok_or(DIGITS.to_string())
}
