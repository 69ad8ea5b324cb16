//! `sheet survey`: its words, and the files of a folder.

use std::fs;
use std::path::Path;

use sheet::show::plain;
use sheet::survey::{survey, wanted, Wanted};

use crate::load;
use sheet::asked::Asked;
use sheet::program::{line, read, Said};
use sheet::slots;

enum Form {
    Text,
    Json,
    Csv,
}

struct Survey<'a> {
    folder: &'a str,
    reference: &'a str,
    wanted: Wanted,
    form: Form,
}

/// The survey of a folder that the words ask for.
pub fn surveyed(folder: &str, asked: &Asked) -> Said {
    let form = match (asked.flag("--json"), asked.flag("--csv")) {
        (true, true) => {
            return Err("--json and --csv are two forms, and one is written".to_string())
        }
        (true, false) => Form::Json,
        (false, true) => Form::Csv,
        (false, false) => Form::Text,
    };
    let reference = asked.option("--reference").unwrap_or_default();
    let wanted = wanted(asked.option("--height"), asked.option("--bound"))?;
    told(&Survey { folder, reference, wanted, form })
}

/// The files of a folder by name, the reference apart.
fn files(asked: &Survey) -> Result<Vec<(String, String)>, String> {
    let folder = asked.folder;
    let fault = |why: std::io::Error| format!("{folder}: {why}");
    let reference = fs::canonicalize(asked.reference).ok();
    let mut names = Vec::new();
    for entry in fs::read_dir(folder).map_err(fault)? {
        let path = entry.map_err(fault)?.path();
        // what can't be looked at may be a dump: it is told, and not passed over
        let there = fs::metadata(&path).map_err(|why| format!("{}: {why}", path.display()))?;
        if there.is_file() && (reference.is_none() || fs::canonicalize(&path).ok() != reference) {
            names.push(path);
        }
    }
    names.sort();
    let named = |path: &Path| {
        let name = path.file_name().map_or_else(String::new, |n| n.to_string_lossy().into_owned());
        let path = path.to_str().ok_or(format!("{folder}: a name that is no text: {name}"))?;
        Ok((plain(&name), path.to_string()))
    };
    names.iter().map(|path| named(path)).collect()
}

fn told(asked: &Survey) -> Said {
    let reference = load(asked.reference)?;
    // a file that is no dump is a broken one, and told as what it is
    let dumps = files(asked)?.into_iter().map(|(name, path)| Ok((name, read(&path, slots::MOST)?)));
    let survey = survey((&plain(asked.reference), &reference), dumps, asked.wanted)?;
    let out = match asked.form {
        Form::Text => survey.text().into_bytes(),
        Form::Csv => survey.csv().into_bytes(),
        Form::Json => line(survey.json()),
    };
    Ok((out, u8::from(!survey.clean())))
}
