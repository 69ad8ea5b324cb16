//! A folder of small recordings, tests/evidence: what `make` and `explain` say of each, as a whole, stands beside it in NAME.out.
//! A line `# make:` or `# explain:` in a recording has words for that command, NAME.final is a dump as text; the sheet is that of
//! the accident. WRITE_GOLDEN in the environment writes what is said.

mod room;

use std::fs;
use std::os::unix::fs::PermissionsExt;
use std::path::{Path, PathBuf};

use room::{room, told};

const FORMS: [(&str, &str); 3] = [("hex", "hex"), ("xml", "ets"), ("knxtool", "knxtool")];

fn folder() -> PathBuf {
    Path::new(env!("CARGO_MANIFEST_DIR")).join("tests/evidence")
}

/// The words that a recording has for a command.
fn words_for(text: &str, command: &str) -> Vec<String> {
    let mark = format!("# {command}: ");
    let line = text.lines().find_map(|line| line.strip_prefix(&mark));
    line.unwrap_or("").split_whitespace().map(str::to_string).collect()
}

/// What a command says: the words, standard output or standard error, and its status if that is not 0.
fn says(room: &Path, words: &[&str]) -> String {
    let (status, out, err) = told(room, words);
    let status = if status == 0 { String::new() } else { format!("status {status}\n") };
    format!("$ trace {}\n{out}{err}{status}", words.join(" "))
}

/// What is said of a recording, by its file, its name and its form.
fn said(file: &Path, name: &str, form: &str) -> String {
    let room = room(&format!("evidence-{name}-{form}"));
    let recording = file.file_name().unwrap().to_str().unwrap();
    fs::copy(file, room.join(recording)).unwrap();
    let text = String::from_utf8_lossy(&fs::read(file).unwrap()).into_owned();
    let trace = format!("{name}.trace");
    let make = words_for(&text, "make");
    let mut words = vec!["make", form, recording, &trace, "--sheet", "before"];
    words.extend(make.iter().map(String::as_str));
    let mut out = says(&room, &words);
    if !room.join(&trace).exists() {
        return out;
    }
    for side in ["", ".times", ".evidence"] {
        // keys stand in them
        let Ok(there) = fs::metadata(room.join(format!("{trace}{side}"))) else { continue };
        assert_eq!(there.permissions().mode() & 0o777, 0o600, "{name}{side}");
    }
    let explain = words_for(&text, "explain");
    let mut words = vec!["explain", "before", &trace];
    words.extend(explain.iter().map(String::as_str));
    if let Ok(dump) = fs::read_to_string(file.with_extension("final")) {
        fs::write(room.join("dump"), sheet::make::bytes(&dump).unwrap()).unwrap();
        words.extend(["--final", "dump"]);
    }
    out += &says(&room, &words);
    out
}

#[test]
fn as_they_stand() {
    let mut files: Vec<PathBuf> =
        fs::read_dir(folder()).unwrap().map(|entry| entry.unwrap().path()).collect();
    files.sort();
    let mut recordings = 0;
    for file in files {
        let ending = file.extension().and_then(|e| e.to_str()).unwrap_or("");
        let Some((_, form)) = FORMS.iter().find(|(of, _)| *of == ending) else { continue };
        let name = file.file_stem().unwrap().to_str().unwrap().to_string();
        let out = said(&file, &name, form);
        let path = file.with_extension("out");
        if std::env::var_os("WRITE_GOLDEN").is_some() {
            fs::write(&path, &out).unwrap();
        }
        assert_eq!(out, fs::read_to_string(&path).unwrap_or_default(), "{name}");
        recordings += 1;
    }
    assert!(recordings >= 30, "{recordings}");
}
