//! `trace show|make|play|explain`. Exit status 0; 1 if an event was not carried out or a dump is not explained; 2 with a line
//! on standard error for anything else: a file that can't be read, a recording with a fault, a wrong word. `--help` and
//! `--version` are asked for, so they go to standard output with status 0.

use std::process::ExitCode;

use sheet::asked::{perhaps, Asked};
use sheet::json::Json;
use sheet::kinds::{self, File};
use sheet::make::short;
use sheet::program::{line, read, Program, Said};
use sheet::show::plain;
use trace::archive;
use trace::decode;
use trace::events;
use trace::evidence;
use trace::explain::Story;
use trace::make;
use trace::output;
use trace::play::{event_fields, play, Trace};
use trace::progress::Progress;
use trace::recordings::{self, Form};
use trace::sentences;
use trace::text;
use trace::times::{self, Known};
use trace::words;

const PROGRAM: Program = Program { help: include_str!("../kelindap-trace.txt") };

/// The longest recording or text that is read, and the longest side file of a trace.
const LONGEST_RECORDING: u64 = 1 << 28;
const LONGEST_SIDE: u64 = 1 << 24;

fn main() -> ExitCode {
    PROGRAM.run(|asked| match asked.command {
        "show" => shown(asked),
        "make" => made(asked),
        "play" => played(asked),
        _ => explained(asked),
    })
}

// ---- files ----

/// A text of at most so many bytes; a file of another kind is told as what it is.
fn read_text(name: &str, most: u64, wanted: File) -> Result<String, String> {
    let bytes = read(name, most + 1)?;
    if bytes.len() as u64 > most {
        return Err(format!("{name}: more than {most} bytes"));
    }
    let head = bytes[..bytes.len().min(kinds::MOST as usize)].to_vec();
    decode::text(bytes).map_err(|why| format!("{name}: {}", kinds::fault(&head, wanted, why)))
}

/// A sheet that the archive accepts.
fn load_sheet(name: &str) -> Result<Vec<u8>, String> {
    let bytes = read(name, kinds::MOST)?;
    match archive::check(&bytes) {
        0 => Ok(bytes),
        rule => {
            let why = sheet::check::check(&bytes).err().map(|broken| broken.to_string());
            let why = why.unwrap_or_else(|| words::outcome(rule).to_string());
            Err(format!("{name}: {}", kinds::fault(&bytes, File::Sheet, why)))
        }
    }
}

/// A trace that the archive accepts, with its side files if there are any. Of a longer file than any trace a byte more is read.
fn load_trace(name: &str) -> Result<Trace, String> {
    let bytes = read(name, events::LONGEST as u64 + 1)?;
    let events = events::read(&bytes)
        .map_err(|why| format!("{name}: {}", kinds::fault(&bytes, File::Trace, why)))?;
    let known = side(name, TIMES, |text| times::read(text, &bytes, events.len()))?;
    let evidence = side(name, EVIDENCE, |text| evidence::read(text, &bytes, events.len()))?;
    let known = known.unwrap_or_else(|| vec![Known::default(); events.len()]);
    Ok(Trace { name: plain(name), bytes, events, known, evidence })
}

/// What a side file of a trace says, if it is there.
fn side<T>(
    name: &str,
    ending: &str,
    read: impl Fn(&str) -> Result<T, String>,
) -> Result<Option<T>, String> {
    let side = beside(name, ending);
    if name == "-" || !std::path::Path::new(&side).exists() {
        return Ok(None);
    }
    let text = read_text(&side, LONGEST_SIDE, File::Times)?;
    read(&text).map(Some).map_err(|why| format!("{side}: {why}"))
}

/// The side files of a trace: what its name ends with.
const TIMES: &str = "times";
const EVIDENCE: &str = "evidence";

fn beside(name: &str, ending: &str) -> String {
    format!("{name}.{ending}")
}

// ---- the commands ----

fn shown(asked: &Asked) -> Said {
    let (trace, keys) = (load_trace(asked.words[0])?, asked.flag("--keys"));
    if !asked.flag("--json") {
        let beside = |i: usize| trace.evidence.as_ref().and_then(|e| sentences::beside(e, i));
        return Ok((text::text_with(&trace.events, &trace.known, keys, beside).into_bytes(), 0));
    }
    let events = trace.events.iter().zip(&trace.known).enumerate();
    let events = events.map(|(i, (e, known))| {
        let mut fields = event_fields(i + 1, e, known, keys);
        let shows = trace.evidence.as_ref().and_then(|e| sentences::beside(e, i));
        fields.push(("shows", shows.into()));
        Json::Object(fields)
    });
    let object = vec![
        ("trace", trace.name.as_str().into()),
        ("bytes", trace.bytes.len().into()),
        ("events", Json::List(events.collect())),
    ];
    Ok((line(Json::Object(object)), 0))
}

/// The forms of a recording by their words; none for the text, which has the connections itself.
const FORMS: [(&str, Option<Form>, File); 4] = [
    ("text", None, File::TraceText),
    ("hex", Some(Form::Hex), File::Frames),
    ("ets", Some(Form::Ets), File::Ets),
    ("knxtool", Some(Form::Knxtool), File::Knxtool),
];

fn made(asked: &Asked) -> Said {
    let [word, recording, name] = asked.words[..] else {
        return Err("make has three words".to_string());
    };
    let Some(&(_, form, kind)) = FORMS.iter().find(|form| form.0 == word) else {
        let near = perhaps(word, FORMS.iter().map(|form| form.0));
        let name = PROGRAM.name();
        return Err(format!("no form \"{}\"{near}; {name} make --help says more", short(word)));
    };
    // a text may begin with anything, and its fault is told by its line: what it is by its first word is told where it is another's
    let fault = |text: &str, why: String| match kinds::of(text.as_bytes()) {
        Some(File::Text) => format!("{recording}: {why}"),
        _ => format!("{recording}: {}", kinds::fault(text.as_bytes(), kind, why)),
    };
    if name == "-" {
        return Err("-: a trace is made in a file, with its times beside it".to_string());
    }
    let made = match (form, asked.option("--sheet")) {
        (None, _) if asked.flag("--reverse") => {
            return Err("--reverse: a text says its order by itself".to_string())
        }
        (None, None) => {
            let text = read_text(recording, LONGEST_RECORDING, kind)?;
            let events = text::events(&text).map_err(|why| fault(&text, why))?;
            make::Made { events, ..make::Made::default() }
        }
        (Some(form), Some(sheet)) => {
            let sheet = load_sheet(sheet)?;
            let text = read_text(recording, LONGEST_RECORDING, kind)?;
            let read = recordings::read(form, &text, asked.flag("--reverse"))
                .map_err(|why| fault(&text, why))?;
            let mut progress = Progress::new("frames", read.frames.len());
            make::from_frames(&read, &sheet, &mut progress)
        }
        (None, Some(_)) => return Err("--sheet: a text says the connections by itself".to_string()),
        (Some(_), None) => {
            return Err("--sheet is missing: whose frames, by the device's sheet at their start"
                .to_string())
        }
    };
    let parts = make::parts(&made);
    let names = make::names(name, parts.len());
    let (mut files, mut stale) = (Vec::new(), Vec::new());
    for (part, name) in parts.iter().zip(&names) {
        for (ending, text) in [(TIMES, &part.times), (EVIDENCE, &part.evidence)] {
            match text {
                Some(text) => files.push((beside(name, ending), text.clone().into_bytes())),
                None => stale.push(beside(name, ending)),
            }
        }
        files.push((name.clone(), part.bytes.clone()));
    }
    output::write(&files, &stale, asked.flag("--force"))?;
    let said = match asked.flag("--json") {
        true => line(make::json(&made, &parts, &names)),
        false => plain_lines(&make::text(&made, &parts, &names)).into_bytes(),
    };
    Ok((said, 0))
}

/// Lines with names in them, as a terminal can have them.
fn plain_lines(text: &str) -> String {
    text.lines().map(|line| plain(line) + "\n").collect()
}

fn load_traces(names: &[&str]) -> Result<Vec<Trace>, String> {
    names.iter().map(|name| load_trace(name)).collect()
}

fn played(asked: &Asked) -> Said {
    let traces = load_traces(&asked.words[1..])?;
    let (sheet, keys) = (load_sheet(asked.words[0])?, asked.flag("--keys"));
    let played = play(&sheet, &traces);
    let status = u8::from(!played.all());
    let said = match asked.flag("--json") {
        true => line(played.json(&sheet, &traces, keys)),
        false => played.text(&sheet, &traces, keys).into_bytes(),
    };
    Ok((said, status))
}

/// A later dump, of which nothing is asked but that it is one: it may be broken.
fn load_dump(name: &str) -> Result<Vec<u8>, String> {
    let bytes = read(name, kinds::MOST)?;
    match kinds::other(&bytes, File::Sheet) {
        Some(what) => Err(format!("{name}: {what}")),
        None => Ok(bytes),
    }
}

fn explained(asked: &Asked) -> Said {
    let name = asked.words[0];
    let traces = load_traces(&asked.words[1..])?;
    let sheet = load_sheet(name)?;
    let last = asked.option("--final");
    let dump = last.map(load_dump).transpose()?;
    let mut progress = Progress::new("events", traces.iter().map(|t| t.events.len()).sum());
    let story = Story::new(&sheet, &traces, dump.as_deref(), &mut progress);
    drop(progress);
    let other = dump.map(|dump| story.beside(&dump));
    let status = u8::from(other.as_ref().is_some_and(|other| !other.explained()));
    let (name, last) = (plain(name), last.map(plain));
    let pair = last.as_deref().zip(other.as_ref());
    let said = match asked.flag("--json") {
        true => line(story.json(&name, pair)),
        false => story.text(&name, pair, asked.flag("--all")).into_bytes(),
    };
    Ok((said, status))
}
