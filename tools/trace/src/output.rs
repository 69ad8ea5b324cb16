//! Files that are written whole or not at all, and over others only if that is asked for.

use std::fs::{self, File, OpenOptions};
use std::io::{self, ErrorKind, Write};
use std::os::unix::fs::OpenOptionsExt;
use std::path::{Path, PathBuf};

/// Writes files, and removes those that are out of date with them; on a fault all are as they were.
pub fn write(files: &[(String, Vec<u8>)], stale: &[String], force: bool) -> Result<(), String> {
    for name in files.iter().map(|file| &file.0).chain(stale) {
        match fs::symlink_metadata(name) {
            Ok(_) if !force => return Err(exists(name)),
            Ok(there) if there.is_dir() => return Err(format!("{name}: it is a folder")),
            _ => {}
        }
    }
    let mut made = Made::default();
    for (name, bytes) in files {
        let draft = beside(name, "draft")?;
        made.drafts.push(draft.clone());
        put(&draft, bytes).map_err(|why| format!("{name}: {why}"))?;
    }
    for ((name, _), draft) in files.iter().zip(made.drafts.clone()) {
        made.hold(name, force)?;
        place(&draft, Path::new(name), force).map_err(|why| match why.kind() {
            ErrorKind::AlreadyExists => exists(name),
            _ => format!("{name}: {why}"),
        })?;
        made.placed.push(name.into());
    }
    for name in stale {
        if made.hold(name, force)? {
            fs::remove_file(name).map_err(|why| format!("{name}: {why}"))?;
        }
    }
    made.keep = true;
    Ok(())
}

fn exists(name: &str) -> String {
    format!("{name}: it is there already, and --force is not given")
}

/// What is cleared away at the end: the drafts, and the files of before; unless all went well these are put back, and what was
/// placed where none was is removed.
#[derive(Default)]
struct Made {
    drafts: Vec<PathBuf>,
    /// Files that were there, each under a second name.
    held: Vec<(PathBuf, PathBuf)>,
    placed: Vec<PathBuf>,
    keep: bool,
}

impl Made {
    /// Holds a file that may be replaced, by a second name or a copy; whether there is one.
    fn hold(&mut self, name: &str, force: bool) -> Result<bool, String> {
        if !force || fs::symlink_metadata(name).is_err() {
            return Ok(false);
        }
        let old = beside(name, "before")?;
        let held = fs::hard_link(name, &old).or_else(|_| fs::copy(name, &old).map(drop));
        match held {
            Ok(()) => self.held.push((name.into(), old)),
            Err(why) => {
                let _ = fs::remove_file(old);
                return Err(format!("{name}: {why}"));
            }
        }
        Ok(true)
    }
}

impl Drop for Made {
    fn drop(&mut self) {
        if !self.keep {
            self.placed.iter().for_each(|path| drop(fs::remove_file(path)));
            self.held.iter().for_each(|(path, old)| drop(fs::rename(old, path)));
        }
        for path in self.drafts.iter().chain(self.held.iter().map(|(_, old)| old)) {
            let _ = fs::remove_file(path);
        }
    }
}

/// A name beside a file's, of this process.
fn beside(name: &str, what: &str) -> Result<PathBuf, String> {
    let path = Path::new(name);
    let file = path.file_name().ok_or(format!("{name}: no name of a file"))?.to_string_lossy();
    Ok(path.with_file_name(format!(".{file}.{}.{what}", std::process::id())))
}

fn put(path: &Path, bytes: &[u8]) -> io::Result<()> {
    // requests in a trace, and what is beside it, may have keys
    let mut file: File = OpenOptions::new().write(true).create_new(true).mode(0o600).open(path)?;
    file.write_all(bytes)?;
    file.sync_all()
}

/// A draft under its name. A link is refused where a file is, also by one that has come in between; where the file system has
/// no links the draft is renamed.
fn place(draft: &Path, name: &Path, force: bool) -> io::Result<()> {
    if force {
        return fs::rename(draft, name);
    }
    match fs::hard_link(draft, name) {
        Err(why) if matches!(why.kind(), ErrorKind::PermissionDenied | ErrorKind::Unsupported) => {
            fs::rename(draft, name)
        }
        placed => placed,
    }
}
