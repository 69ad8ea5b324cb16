//! The words of a command line, read by the synopsis of the text that `--help` shows; what is wrong with them, in one line; and
//! of that text what concerns one command.

use crate::make::short;

/// What a command line asks for.
pub enum Heard<'a> {
    Help(String),
    Version,
    Asked(Asked<'a>),
}

/// A command with its words, flags, and options with their values.
#[derive(Default)]
pub struct Asked<'a> {
    pub command: &'static str,
    pub words: Vec<&'a str>,
    flags: Vec<&'a str>,
    options: Vec<(&'a str, &'a str)>,
}

impl<'a> Asked<'a> {
    pub fn flag(&self, name: &str) -> bool {
        self.flags.contains(&name)
    }

    pub fn option(&self, name: &str) -> Option<&'a str> {
        self.options.iter().find(|option| option.0 == name).map(|option| option.1)
    }
}

/// A wrong word: what is wrong, and the command whose help says more, if it is one's.
#[derive(Debug, PartialEq, Eq)]
pub struct Wrong {
    command: &'static str,
    what: String,
    /// Whether the help says more of it.
    more: bool,
}

impl Wrong {
    fn new(command: &'static str, what: String) -> Wrong {
        Wrong { command, what, more: true }
    }

    /// In one line, for a program of this name.
    pub fn told(&self, program: &str) -> String {
        let (what, command) = (&self.what, self.command);
        match (self.more, command.is_empty()) {
            (false, _) => what.clone(),
            (true, true) => format!("{what}; {program} --help says more"),
            (true, false) => format!("{what}; {program} {command} --help says more"),
        }
    }
}

// ---- the help's text ----

/// The lines below a heading.
fn section(help: &'static str, heading: &str) -> Vec<&'static str> {
    let lines = help.lines().skip_while(|&line| line != heading).skip(1);
    let lines = lines.take_while(|line| line.is_empty() || line.starts_with(' '));
    let mut lines: Vec<&str> = lines.collect();
    while lines.last().is_some_and(|line| line.is_empty()) {
        lines.pop();
    }
    lines
}

/// The name under which the program is installed.
pub fn name(help: &'static str) -> &'static str {
    section(help, "NAME").first().and_then(|line| line.split_whitespace().next()).unwrap_or("")
}

/// A form of the synopsis: the command, the names of its words, of which the last may stand for several, its flags, and its
/// options with the names of their values and whether they must be there.
struct Form {
    line: &'static str,
    command: &'static str,
    words: Vec<&'static str>,
    many: bool,
    flags: Vec<&'static str>,
    options: Vec<(&'static str, &'static str, bool)>,
}

/// The forms of a synopsis without the program's name, each with its whole line.
fn lines(help: &'static str) -> Vec<(&'static str, &'static str)> {
    let lines = section(help, "SYNOPSIS").into_iter().map(str::trim);
    lines.filter_map(|line| Some((line, line.strip_prefix(name(help))?.trim_start()))).collect()
}

/// What stands before the options that every command has.
const EVERY: &str = "COMMAND .. ";

/// The forms that have a command, each with the options of every one.
fn forms(help: &'static str) -> Vec<Form> {
    let lines = lines(help);
    let mut forms: Vec<Form> = lines.iter().filter_map(|(line, rest)| form(line, rest)).collect();
    for options in lines.iter().filter_map(|(_, rest)| rest.strip_prefix(EVERY)) {
        forms.iter_mut().for_each(|form| form.read(options));
    }
    forms
}

fn form(line: &'static str, after: &'static str) -> Option<Form> {
    let lower = |word: &&str| {
        word.starts_with(|c: char| c.is_ascii_lowercase())
            && word.chars().all(|c| c.is_ascii_lowercase() || c == '-')
    };
    let last = after.split_whitespace().take_while(lower).last()?;
    let long = last.as_ptr() as usize - after.as_ptr() as usize + last.len();
    let (command, rest) = after.split_at(long);
    let (words, flags, options) = (Vec::new(), Vec::new(), Vec::new());
    let mut form = Form { line, command, words, many: false, flags, options };
    form.read(rest);
    Some(form)
}

impl Form {
    /// The words, flags and options of a part of a synopsis.
    fn read(&mut self, rest: &'static str) {
        let mut rest = rest.split_whitespace();
        while let Some(word) = rest.next() {
            let bare = word.trim_matches(['[', ']']);
            match (bare.starts_with("--"), word.ends_with(']')) {
                (true, true) => self.flags.push(bare),
                (true, false) => {
                    let value = rest.next().unwrap_or("").trim_end_matches(']');
                    self.options.push((bare, value, !word.starts_with('[')));
                }
                (false, _) => {
                    self.many |= bare.ends_with("..");
                    self.words.push(bare.trim_end_matches(".."));
                }
            }
        }
    }
}

/// Whether a term of the help, such as `versions diff STORE`, is one of a command's: its name or one that begins with it.
fn of_command(term: &str, command: &str) -> bool {
    term.strip_prefix(command).is_some_and(|rest| rest.is_empty() || rest.starts_with(' '))
}

/// The terms of a section that are wanted, each with its text; terms that share one stand one above the other.
fn terms(lines: &[&'static str], wanted: impl Fn(&str) -> bool) -> Vec<&'static str> {
    let mut out = Vec::new();
    let mut taken = false;
    let (mut heads, mut in_text) = (Vec::new(), true);
    for line in lines {
        if line.starts_with("        ") {
            if !in_text {
                taken = heads.iter().any(|head: &&str| wanted(head.trim()));
                out.extend(heads.drain(..).filter(|_| taken));
            }
            in_text = true;
            out.extend(taken.then_some(line));
        } else {
            if in_text {
                heads.clear();
            }
            in_text = false;
            heads.push(line);
        }
    }
    out
}

/// What the help says of one command alone.
fn command_help(help: &'static str, command: &str) -> String {
    let program = name(help);
    let every = lines(help).into_iter().filter(|(_, rest)| rest.starts_with(EVERY));
    let (all, mut lines) = (forms(help), vec!["SYNOPSIS".to_string()]);
    let mine: Vec<&Form> = all.iter().filter(|form| of_command(form.command, command)).collect();
    lines.extend(mine.iter().map(|form| format!("    {}", form.line)));
    lines.extend(every.map(|(line, _)| format!("    {line}")));
    let mut part = |heading: &str, text: Vec<&str>| {
        if !text.is_empty() {
            lines.push(format!("\n{heading}"));
            lines.extend(text.iter().map(|line| line.to_string()));
        }
    };
    part("DESCRIPTION", terms(&section(help, "COMMANDS"), |term| of_command(term, command)));
    if mine.iter().any(|form| form.words.contains(&"FORM")) {
        part("FORMS", section(help, "FORMS"));
    }
    let has = |option: &str| {
        mine.iter()
            .any(|form| form.flags.contains(&option) || form.options.iter().any(|o| o.0 == option))
    };
    let named = |term: &str| term.split_whitespace().next().is_some_and(has);
    part("OPTIONS", terms(&section(help, "OPTIONS"), named));
    let example = format!("{program} {command}");
    part("EXAMPLES", terms(&section(help, "EXAMPLES"), |term| of_command(term, &example)));
    lines.join("\n") + "\n"
}

// ---- near words ----

/// How many letters must be put in, left out, replaced or exchanged with their neighbour to make one word of the other.
fn distance(a: &str, b: &str) -> usize {
    let (a, b): (Vec<char>, Vec<char>) = (a.chars().collect(), b.chars().collect());
    let mut rows = vec![(0..=b.len()).collect::<Vec<usize>>()];
    for i in 1..=a.len() {
        let mut row = vec![i];
        for j in 1..=b.len() {
            let other = usize::from(a[i - 1] != b[j - 1]);
            let mut least =
                (rows[i - 1][j] + 1).min(row[j - 1] + 1).min(rows[i - 1][j - 1] + other);
            if i > 1 && j > 1 && a[i - 1] == b[j - 2] && a[i - 2] == b[j - 1] {
                least = least.min(rows[i - 2][j - 2] + 1);
            }
            row.push(least);
        }
        rows.push(row);
    }
    rows[a.len()][b.len()]
}

/// The word that is nearest to one that there is not, if one is near: `, perhaps check`.
pub fn perhaps<'a>(word: &str, there: impl Iterator<Item = &'a str>) -> String {
    // of a long word nothing is near, and the table would be large
    let known: Vec<&str> = there.collect();
    if word.chars().nth(24).is_some() {
        return String::new();
    }
    let bare = word.trim_start_matches('-').chars().count();
    let far = if bare <= 3 { 1 } else { 2 };
    let begun: Vec<&&str> =
        known.iter().filter(|known| bare >= 2 && known.starts_with(word)).collect();
    let near = known.iter().map(|known| (distance(word, known), known)).min_by_key(|near| near.0);
    match (begun.as_slice(), near) {
        ([one], _) => format!(", perhaps {one}"),
        (_, Some((letters, near))) if letters <= far => format!(", perhaps {near}"),
        _ => String::new(),
    }
}

// ---- words ----

/// What the words ask for by a program's help.
pub fn heard<'a>(help: &'static str, words: &[&'a str]) -> Result<Heard<'a>, Wrong> {
    let wrong = |what: String| Err(Wrong::new("", what));
    let (first, rest) = match words {
        [] => return wrong("no command is given".to_string()),
        ["--help" | "help"] => return Ok(Heard::Help(help.to_string())),
        ["--version"] => return Ok(Heard::Version),
        ["help", rest @ ..] => (rest[0], &["--help"][..]),
        [first @ ("--help" | "--version"), more, ..] => {
            return wrong(format!("{first} stands alone, and \"{}\" is more", short(more)));
        }
        [first, rest @ ..] => (*first, rest),
    };
    let forms = forms(help);
    let mut commands: Vec<&str> =
        forms.iter().filter_map(|form| form.command.split(' ').next()).collect();
    commands.dedup();
    if !commands.contains(&first) {
        let kind = if first.starts_with("--") { "option" } else { "command" };
        let others = if kind == "option" { vec!["--help", "--version"] } else { commands };
        let near = perhaps(first, others.into_iter());
        return wrong(format!("no {kind} \"{}\"{near}", short(first)));
    }
    let asked_for_help = rest.iter().take_while(|&&word| word != "--").any(|&w| w == "--help");
    // a command of two words before the one that has the first of them alone
    let second = words.get(1).filter(|_| words[0] == first).or(words.get(2));
    let two = second.map(|second| format!("{first} {second}"));
    let form = forms.iter().find(|form| Some(form.command) == two.as_deref());
    let form = match form.or_else(|| forms.iter().find(|form| form.command == first)) {
        Some(form) if !asked_for_help => form,
        form => return Ok(Heard::Help(command_help(help, form.map_or(first, |f| f.command)))),
    };
    let taken = form.command.split(' ').count();
    asked(form, &words[taken..]).map(Heard::Asked)
}

fn asked<'a>(form: &Form, words: &[&'a str]) -> Result<Asked<'a>, Wrong> {
    let command = form.command;
    let wrong = |what: String| Err(Wrong::new(command, what));
    let mut asked = Asked { command, ..Asked::default() };
    let mut rest = words.iter();
    let mut bare = false; // what comes behind -- is no option
    while let Some(&word) = rest.next() {
        let (name, joined) = match word.split_once('=') {
            Some((name, value)) if !bare && name.starts_with("--") => (name, Some(value)),
            _ => (word, None),
        };
        let option = form.options.iter().find(|option| option.0 == name);
        if bare || !word.starts_with("--") {
            asked.words.push(word);
        } else if word == "--" {
            bare = true;
        } else if asked.flag(name) || asked.option(name).is_some() {
            return wrong(format!("{name} is given twice"));
        } else if let Some(&(_, value_name, _)) = option {
            let Some(value) = joined.or_else(|| rest.next().copied()) else {
                return wrong(format!("{name} needs {value_name}"));
            };
            asked.options.push((name, value));
        } else if form.flags.contains(&word) {
            asked.flags.push(word);
        } else {
            let options = form.options.iter().map(|option| option.0);
            let there = form.flags.iter().copied().chain(options).chain(["--help"]);
            return wrong(format!("no option \"{}\"{}", short(word), perhaps(name, there)));
        }
    }
    complete(form, asked)
}

/// No word is missing, and none too many.
fn complete<'a>(form: &Form, asked: Asked<'a>) -> Result<Asked<'a>, Wrong> {
    let wrong = |what: String| Err(Wrong::new(form.command, what));
    if let Some(more) = asked.words.get(form.words.len()).filter(|_| !form.many) {
        return wrong(format!("a word too many: \"{}\"", short(more)));
    }
    let missing: Vec<&str> = form.words.iter().skip(asked.words.len()).copied().collect();
    let options = form.options.iter().filter(|o| o.2 && asked.option(o.0).is_none());
    let options: Vec<String> = options.map(|o| format!("{} {}", o.0, o.1)).collect();
    let missing: Vec<String> = missing.iter().map(|w| w.to_string()).chain(options).collect();
    if !missing.is_empty() {
        let verb = if missing.len() == 1 { "is" } else { "are" };
        return wrong(format!("{} {verb} missing", missing.join(" and ")));
    }
    let options = asked.options.iter().map(|option| option.1);
    if asked.words.iter().copied().chain(options).filter(|&name| name == "-").count() > 1 {
        let what = "-: standard input is named twice, and can be read once".to_string();
        return Err(Wrong { command: form.command, what, more: false });
    }
    Ok(asked)
}
