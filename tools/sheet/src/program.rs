//! What the programs for people share: their name, help and version, what is said with which status, and files that are read.

use std::fs::File;
use std::io::{self, ErrorKind, IsTerminal, Read, Write};
use std::path::Path;
use std::process::ExitCode;

use crate::asked::{heard, Asked, Heard};
use crate::colour;
use crate::show::plain;

/// The headers' version, which is the programs' too.
const COMMON: &str = include_str!("../../../include/kelindap_common.h");

/// What a command says, with its status; or why it can't, with status 2.
pub type Said = Result<(Vec<u8>, u8), String>;

pub struct Program {
    /// What `--help` shows, of which the man page is made, and by whose synopsis the words of a command are read.
    pub help: &'static str,
}

impl Program {
    /// The name by which it was started, without its folder.
    pub fn name(&self) -> String {
        let started = std::env::args_os().next().unwrap_or_default();
        let name = Path::new(&started).file_name().unwrap_or_default();
        match name.to_str() {
            None | Some("") => crate::asked::name(self.help).to_string(),
            Some(name) => name.to_string(),
        }
    }

    fn version(&self) -> Vec<u8> {
        let text = COMMON.split("KELINDAP_VERSION_TEXT \"").nth(1);
        let version = text.and_then(|text| text.split('"').next()).unwrap_or("of no version");
        line(format!("{} of kelindap {version}", self.name()))
    }

    /// Does what the words after the program's name ask for.
    pub fn run(&self, obey: impl Fn(&Asked) -> Said) -> ExitCode {
        self.run_words(&words(), obey)
    }

    /// The same of words that a program has put in another order.
    pub fn run_words(&self, words: &[String], obey: impl Fn(&Asked) -> Said) -> ExitCode {
        let words: Vec<&str> = words.iter().map(String::as_str).collect();
        let (said, painted) = match heard(self.help, &words) {
            Ok(Heard::Help(text)) => (Ok((text.into_bytes(), 0)), true),
            Ok(Heard::Version) => (Ok((self.version(), 0)), false),
            Ok(Heard::Asked(asked)) => {
                (obey(&asked), !asked.flag("--json") && !asked.flag("--csv"))
            }
            Err(wrong) => (Err(wrong.told(&self.name())), false),
        };
        self.finish(said, painted)
    }

    /// A pipe that nobody reads any more is no error: whoever closed it has seen enough.
    fn finish(&self, said: Said, painted: bool) -> ExitCode {
        let (bytes, status) = match said {
            Ok(said) => said,
            Err(why) => return self.complain(&why),
        };
        let bytes = match String::from_utf8(bytes) {
            Ok(text) if painted && colour::wanted() => colour::painted(&text).into_bytes(),
            Ok(text) => text.into_bytes(),
            Err(bytes) => bytes.into_bytes(),
        };
        let mut out = io::stdout().lock();
        match out.write_all(&bytes).and_then(|()| out.flush()) {
            Err(why) if why.kind() != ErrorKind::BrokenPipe => {
                self.complain(&format!("standard output: {why}"))
            }
            _ => ExitCode::from(status),
        }
    }

    fn complain(&self, why: &str) -> ExitCode {
        // if standard error is closed too there is nobody to tell
        let _ = writeln!(io::stderr(), "{}: {}", plain(&self.name()), plain(why));
        ExitCode::from(2)
    }
}

/// The words after the program's name.
pub fn words() -> Vec<String> {
    let words = std::env::args_os().skip(1);
    words.map(|w| w.to_str().unwrap_or("\u{fffd}").to_string()).collect()
}

/// Whether bytes that are no text would go to a terminal.
pub fn to_a_terminal() -> bool {
    io::stdout().is_terminal()
}

/// At most so many bytes of a file, or of standard input by the name `-`.
pub fn read(name: &str, most: u64) -> Result<Vec<u8>, String> {
    let mut bytes = Vec::new();
    let got = if name == "-" {
        io::stdin().lock().take(most).read_to_end(&mut bytes)
    } else {
        File::open(name).and_then(|file| file.take(most).read_to_end(&mut bytes))
    };
    got.map(|_| bytes).map_err(|why| format!("{name}: {why}"))
}

pub fn line(text: impl ToString) -> Vec<u8> {
    (text.to_string() + "\n").into_bytes()
}
