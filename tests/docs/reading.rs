//! What must be read to believe each demand, written from the sources: a theorem's statement, and then the definitions that it
//! rests on, those of a file before those of the files that it rests on, so that a reader can stop where he trusts the rest.
//!
//! `reading TEXT DOCUMENT` writes the text to TEXT and its counts into the table of DOCUMENT; `reading --check DOCUMENT`
//! holds the table to the sources. Both fail if a name in a statement or a definition is neither defined in the text, nor
//! the library's, nor bound where it stands. Modules are found by their paths, so a definition may move.

use std::collections::{BTreeMap, BTreeSet};
use std::path::{Path, PathBuf};
use std::rc::Rc;
use std::{env, fs, process};

/// A demand: its heading, what it says, and its statements: a theorem by its name, with its crate where two have one of
/// that name, or a call by `fn` and its name.
struct Part {
    title: &'static str,
    says: &'static str,
    statements: &'static [&'static str],
}

const PARTS: &[Part] = &[
    Part {
        title: "The calls",
        says: "what each call of include/kelindap.h, and a restore, promises of its result and of every byte lent to it",
        statements: &[
            "fn host/kelindap_fresh",
            "fn host/kelindap_connect",
            "fn host/kelindap_disconnect",
            "fn host/kelindap_button",
            "fn host/kelindap_request",
            "fn host/kelindap_check",
            "fn host/kelindap_convert",
            "fn host/kelindap_restore",
        ],
    },
    Part {
        title: "Demand 1",
        says: "every request gets an outcome, and a refusal changes nothing",
        statements: &["host/request_leaves"],
    },
    Part {
        title: "Demand 2",
        says: "read, judged, carried out and answered as the rules say, and nothing else; so of each call, a restore too",
        statements: &["calls_due", "calls_only"],
    },
    Part {
        title: "What a request changed",
        says: "every byte outside the parts that a request names is as found, and a refusal names none",
        statements: &["request_outside", "request_none", "request_first", "request_second"],
    },
    Part {
        title: "Demand 3",
        says: "what any calls leave",
        statements: &["calls_after", "calls_keep", "calls_permit"],
    },
    Part {
        title: "`keyless`",
        says: "while nobody offers the key, from closed sessions, no protected byte changes",
        statements: &["history/shut", "keyless", "keyless_calls", "locked"],
    },
    Part {
        title: "`accounts`",
        says: "which event changed each byte, and by what right; which gave each level",
        statements: &["accounts_calls", "play_accounts"],
    },
    Part {
        title: "`isolated`",
        says: "what one tool sees does not depend on the other",
        statements: &["isolated_calls", "isolated_next", "isolated_parts"],
    },
    Part {
        title: "Frames",
        says: "what each is to the device, and what is done with it",
        statements: &["fn host/kelindap_heard", "fn host/kelindap_serve", "link/heard_due", "link/heard_only", "link/served_is"],
    },
    Part {
        title: "Frames of any senders",
        says: "whose connection is whose, and what they leave",
        statements: &[
            "link/frames_keep",
            "link/frames_at_once",
            "link/keyless_frames",
            "link/whose",
            "link/stranger",
            "link/same_partner",
            "link/elsewhere",
            "link/itself",
            "link/apart",
            "link/turned_away",
            "link/only_third",
            "link/never_lost",
            "link/answer_mode",
        ],
    },
    Part {
        title: "`without_key`",
        says: "who changes a byte by a frame was given the right to it by a key of its own, whatever others have offered",
        statements: &["link/keyless_heard", "link/joined", "link/granted", "link/by_right", "link/without_key", "link/ran_by_right", "link/ran_without_key"],
    },
    Part {
        title: "What a frame changed",
        says: "every byte outside the parts that a served frame names is as found, and what is no request or was refused names none",
        statements: &["link/served_outside", "link/served_none", "link/served_within"],
    },
    Part {
        title: "`unlearned`",
        says: "nobody learns a body byte that no open connection may read",
        statements: &["unlearned_calls", "unlearned_next", "unlearned_parts", "keyless_blind"],
    },
    Part {
        title: "Both engines",
        says: "the plain engine gives what the first gives",
        statements: &["fn plain/both", "engines_agree", "fn plain_host/kelindap_plain_request"],
    },
    Part {
        title: "`unlearned_frames`",
        says: "nobody learns a body byte that no open connection may read by frames, of whatever is sent or told",
        statements: &["link/unlearned_frames", "link/unlearned_served", "link/unheard_blind"],
    },
    Part {
        title: "`converted`",
        says: "the conversion of an old sheet, and that it answers as the old sheet did",
        statements: &["sheet/converted", "by_refusal", "answers_as_before"],
    },
    Part {
        title: "Any mixture of calls",
        says: "the contracts of all calls that reach sheet, sessions, link or store, tied to the steps of a run; and the same promises over any run of them",
        statements: &[
            "connect_is",
            "disconnect_is",
            "button_is",
            "request_is",
            "plain_is",
            "restore_is",
            "convert_is",
            "play_is",
            "marked_is",
            "serve_is",
            "save_is",
            "remove_is",
            "mixed_keep",
            "mixed_keyless",
            "mixed_accounts",
            "mixed_isolated",
            "mixed_unlearned",
            "turns_are",
            "turns_restored",
        ],
    },
    Part {
        title: "Two slots",
        says: "what the calls of include/kelindap_slots.h promise, and that a slot handed over in parts is judged as the whole",
        statements: &[
            "fn host/kelindap_slot",
            "fn host/kelindap_slot_begin",
            "fn host/kelindap_slot_more",
            "fn host/kelindap_slot_end",
            "fn host/kelindap_slot_newer",
            "fn host/kelindap_slot_target",
            "fn host/kelindap_slot_work",
            "slots/parts_judge",
            "slots/whole_judge",
        ],
    },
    Part {
        title: "The medium and a cut",
        says: "a unit starts with the new sheet exactly if the mark was set; and the host's loop is such a save",
        statements: &[
            "slots/save_ready",
            "slots/cut_safe",
            "slots/lives",
            "slots/ready_starts",
            "slots/first_save",
            "slots/first_cut",
            "slots/next_goal",
            "slots/loop_saves",
            "slots/halt_cuts",
        ],
    },
    Part {
        title: "A life with power cuts",
        says: "it is a history: what was answered after its save is in it, what a cut takes is the newest, together; what is found after a cut",
        statements: &[
            "lives_follow",
            "answered_stays",
            "acknowledged_stays",
            "lost_together",
            "written_found",
            "found_again",
            "whole_or_not",
            "rests",
            "starts_fresh",
            "lives_restored",
        ],
    },
    Part { title: "Demand 3 through power cuts", says: "what any life leaves", statements: &["lives_keep"] },
    Part {
        title: "Without the key, through power cuts",
        says: "while nobody offers the key no protected byte changes in any life; by frames, by whoever has offered none since the last start",
        statements: &["lives_keyless", "lives_by_right", "lives_without_key"],
    },
    Part {
        title: "The accounts through power cuts",
        says: "which event changed each byte in any life, and by what right",
        statements: &["lives_accounts"],
    },
    Part {
        title: "Nothing learned, through power cuts",
        says: "nobody learns a body byte that no open connection may read in any life",
        statements: &["lives_unlearned"],
    },
    Part {
        title: "Two tools through power cuts",
        says: "what one tool sees in any life does not depend on the other",
        statements: &["lives_isolated"],
    },
];

/// The parts that are counted together too.
const DEMANDS: &[&str] = &["The calls", "Demand 1", "Demand 2", "Demand 3", "`keyless`", "`isolated`"];

/// Where reading stops: a definition, why it need not be read, and the theorems that are read in its place.
const STOPS: &[(&str, &str, &[&str])] = &[
    ("request_of", "what a request does: contract and theorems meet there", &[]),
    ("step_of", "what a request does on its session: contract and theorems meet there", &[]),
    ("changed_of", "which parts a request names: contract and theorems meet there", &[]),
    ("button_outcome", "what the button does: contract and theorems meet there", &[]),
    ("button_sheet", "what the button does: contract and theorems meet there", &[]),
    ("restore_outcome", "what a restore does: contract and theorems meet there", &[]),
    ("restore_sheet", "what a restore does: contract and theorems meet there", &[]),
    ("step_with", "what a request does, the refusal of its sheet being given: `by_refusal` ties it to `step_of`", &[]),
    ("restore_by", "what a restore does, the refusal of its sheet being given: `by_refusal` ties it to `restore_outcome`", &[]),
    ("heard_of", "what a frame is to the device; read as propositions", &["link/heard_due", "link/heard_only"]),
    ("event_of", "what an event gives: a call that is the event gives it", &["history/call_is"]),
    ("same_entries", "whether a version has a sheet's entries, as a test", &["versions/same_entries_lem", "versions/entries_same"]),
    ("low_counts", "whether a version's counts are low enough, as a test", &["versions/low_counts_lem", "versions/counts_low"]),
    ("history/first_of", "the first content of a location: the byte at its place in the first sheet", &["history/first_content"]),
    ("store_rule", "whether a store is good, as rows of a table; read as the bytes that a good store is", KEEPING),
    ("versions/kept", "the versions that a store keeps, as they are found in its table; read as those whose bytes it is", KEEPING),
    ("rule_in", "the rules as rows of a table; read as nine propositions", &["sheet/judged", "sheet/judged_only"]),
    ("read_pdu", "what bytes read as; read as what bytes carry", &["pdu/reads_is", "pdu/reads_unfit"]),
    ("name_number", "the names of fields, each by a number of its own", &["pdu/same_name"]),
    ("Pdu", "the PDUs as the code declares them: `content_of` has a clause for each, with all its fields", &[]),
    ("Service", "the services as the code declares them: `row_of` has a row for each", &[]),
];

/// A good store is the bytes of its versions, both ways.
const KEEPING: &[&str] = &["versions/it_keeps", "versions/passes", "versions/keeps_these"];

/// What the language has without a `use` line, in definitions, in statements and in contracts.
const LANGUAGE: &str =
    "Type Unit ⊥ × → = : λ λ. let in record data where pub abbrev unfoldable mutual module infix _ | Dec \
    tt result requires ensures fn extern \"C\" -> & &mut mut u8 u16 u32 u64 usize bool [u8] &[u8] [u32]";

/// What a contract takes of what is lent: as it is, before the call, after it. And what a theorem takes of a contract.
const TAKEN: &[&str] = &["now", "old", "new", "ensures"];

/// The words that begin a definition.
const KEYWORDS: &[&str] = &["pub ", "abbrev ", "unfoldable ", "data ", "record "];

const HEADING: &str = "| To believe | Lines to read | Of these not read above | Hours for these | Promised by |";
/// How many lines are read in an hour, with care.
const AN_HOUR: f64 = 150.0;
/// How wide a definition may be that is written with its signature.
const WIDE: usize = 150;
const FENCE: &str = "```";
/// How long a line becomes where declarations are put together.
const WIDTH: usize = 150;

fn main() {
    let words: Vec<String> = env::args().skip(1).collect();
    let mut tree = Tree::default();
    let text = tree.text();
    for (path, name) in &tree.unknown {
        println!("reading: `{name}` in {} is neither defined in the text nor the library's", path.display());
    }
    match words.iter().map(String::as_str).collect::<Vec<_>>()[..] {
        ["--check", document] => {
            let (old, new) = tabled(document, &tree.table);
            if old != new {
                println!("reading: the table of {document} is not what the sources say; `make reading` writes it anew");
            }
            println!("reading: {}", tree.said);
            process::exit(i32::from(old != new || !tree.unknown.is_empty()));
        }
        [to, document] => {
            put(to, &text);
            put(document, &tabled(document, &tree.table).1);
            println!("reading: {to}: {}", tree.said);
            process::exit(i32::from(!tree.unknown.is_empty()));
        }
        _ => stop("reading TEXT DOCUMENT, or reading --check DOCUMENT"),
    }
}

/// A document as it is, and with this table in place of the one that its text announces.
fn tabled(document: &str, table: &[String]) -> (String, String) {
    let old = fs::read_to_string(document).unwrap_or_else(|e| stop(&format!("{document}: {e}")));
    let head = HEADING;
    let mut lines: Vec<&str> = old.lines().collect();
    let Some(from) = lines.iter().position(|l| *l == head) else {
        stop(&format!("{document}: no table begins with {head}"))
    };
    let to = from + lines[from..].iter().take_while(|l| l.starts_with('|')).count();
    lines.splice(from..to, table.iter().map(String::as_str));
    let new = lines.join("\n") + "\n";
    (old, new)
}

/// A definition, a declared type or a statement.
#[derive(Clone, Default)]
struct Item {
    file: PathBuf,
    text: Vec<String>,
    names: BTreeSet<String>,
    /// Of the names those that a pattern may have.
    builders: BTreeSet<String>,
    fields: BTreeSet<String>,
    /// The words of a signature, of a clause, of a field; and what is bound in all of them.
    scopes: Vec<Vec<String>>,
    bound: BTreeSet<String>,
    /// Modules that the file has under a name: behind one a dot takes no field.
    aliases: BTreeSet<String>,
}

/// What a file uses, by name and by alias, and the items that it has.
#[derive(Clone, Default)]
struct Module {
    uses: BTreeMap<String, (String, String)>,
    aliases: BTreeMap<String, String>,
    items: Vec<Item>,
}

/// An item by its module and its number there.
type At = (PathBuf, usize);

/// What a name stands for.
enum Meaning {
    Item(At),
    Library(String),
    Local,
    Unknown,
}

#[derive(Default)]
struct Tree {
    modules: BTreeMap<PathBuf, Rc<Module>>,
    sources: BTreeMap<PathBuf, Rc<Vec<(PathBuf, String)>>>,
    library: BTreeMap<String, BTreeSet<String>>,
    unknown: BTreeSet<(PathBuf, String)>,
    table: Vec<String>,
    said: String,
}

impl Tree {
    /// The whole text; leaves the table, and what was not known.
    fn text(&mut self) -> String {
        let mut out = vec![
            "# What must be read".to_string(),
            String::new(),
            "Written by `make reading` from the sources. A part opens with what is promised. Then come the definitions that are new in it, those of a file before those of the files that it rests on: who trusts the rest can stop there.".to_string(),
        ];
        self.table = vec![HEADING.to_string(), "|---|---|---|---|---|".to_string()];
        let mut read: BTreeSet<At> = BTreeSet::new();
        let mut told: BTreeSet<BTreeSet<String>> = BTreeSet::new();
        let mut total = 0;
        let mut demands: (BTreeSet<At>, BTreeMap<BTreeSet<String>, usize>) = Default::default();
        // the line under a file's heading, and what of the file follows
        let mut under: Vec<(usize, Vec<At>)> = Vec::new();
        for part in PARTS {
            let mut names: Vec<&str> = part.statements.to_vec();
            let (mut statements, mut items, mut stops) = (Vec::new(), BTreeSet::new(), BTreeSet::new());
            // what is read in place of a definition, which counts as one
            let mut placed: BTreeMap<BTreeSet<String>, usize> = BTreeMap::new();
            let mut next = 0;
            while next < names.len() {
                let statement = self.statement(names[next]);
                if next >= part.statements.len() {
                    placed.insert(statement.names.clone(), statement.text.len());
                }
                next += 1;
                // a call has the types of its crate
                let code = statement.file.extension().is_some_and(|e| e == "rt");
                let module = statement.file.parent().filter(|_| code).unwrap_or(&statement.file);
                let from = self.needs(module, &statement);
                stops.extend(self.close(from, &mut items));
                for k in &stops {
                    names.extend(STOPS[*k].2.iter().filter(|s| !names.contains(s)).collect::<Vec<_>>());
                }
                statements.push(statement);
            }
            self.project(&items, &statements);
            let promised = promised(part, &statements);
            statements.retain(|s| told.insert(s.names.clone()));
            let order = self.order(&items);
            let new: Vec<At> = order.iter().filter(|at| !read.contains(*at)).cloned().collect();
            let of_placed: usize = statements.iter().filter_map(|s| placed.get(&s.names)).sum();
            let all_lines = self.lines(&order) + placed.values().sum::<usize>();
            let new_lines = self.lines(&new) + of_placed;
            total += new_lines;
            if DEMANDS.contains(&part.title) {
                demands.0.extend(items.iter().cloned());
                demands.1.extend(placed);
            }
            let hours = hours(new_lines);
            self.table
                .push(format!("| {}: {} | {all_lines} | {new_lines} | {hours} | {promised} |", part.title, part.says));
            out.extend([String::new(), format!("## {}: {}", part.title, part.says)]);
            for item in &statements {
                out.extend([String::new(), format!("{}:", item.file.display()), String::new(), FENCE.to_string()]);
                out.extend(item.text.iter().cloned());
                out.push(FENCE.to_string());
            }
            if !stops.is_empty() {
                out.extend([String::new(), "Not read:".to_string(), String::new()]);
                let name = |k: usize| STOPS[k].0.rsplit('/').next().unwrap_or_default();
                out.extend(stops.iter().map(|&k| format!("- `{}`, {}", name(k), STOPS[k].1)));
            }
            for of_file in new.chunk_by(|a, b| self.item(a).file == self.item(b).file).rev() {
                let file = &self.item(&of_file[0]).file;
                out.extend([String::new(), format!("### {}", file.display()), String::new()]);
                out.push(first_line(file));
                under.push((out.len(), of_file.to_vec()));
                out.extend([String::new(), FENCE.to_string()]);
                for (k, at) in of_file.iter().enumerate() {
                    out.extend((k > 0).then(String::new));
                    out.extend(self.item(at).text.iter().cloned());
                }
                out.push(FENCE.to_string());
            }
            read.extend(items);
        }
        let together = self.lines(&demands.0.into_iter().collect::<Vec<_>>()) + demands.1.values().sum::<usize>();
        self.table.push(format!(
            "| The calls, demands 1 to 3, keyless and isolated together | {together} | | {} | |",
            hours(together)
        ));
        self.table.push(format!("| All of it | | {total} | {} | |", hours(total)));
        self.tell_apart(&read, &under, &mut out);
        out.extend([String::new(), "## The library's names".to_string(), String::new()]);
        for (module, names) in &self.library {
            let names: Vec<String> = names.iter().map(|n| format!("`{n}`")).collect();
            out.push(format!("- {module}: {}", names.join(", ")));
        }
        self.said =
            format!("{} definitions, {total} lines, {} names without a meaning", read.len(), self.unknown.len());
        out.join("\n") + "\n"
    }

    /// Under a file's heading, the names in it that another file of the text gives to something else.
    fn tell_apart(&self, read: &BTreeSet<At>, under: &[(usize, Vec<At>)], out: &mut [String]) {
        let mut homes: BTreeMap<&str, BTreeSet<&Path>> = BTreeMap::new();
        for item in read.iter().map(|at| self.item(at)) {
            for name in &item.names {
                homes.entry(name).or_default().insert(&item.file);
            }
        }
        for (line, items) in under {
            let mut said = Vec::new();
            for item in items.iter().map(|at| self.item(at)) {
                for name in &item.names {
                    let others = homes[name.as_str()].iter().filter(|f| **f != item.file);
                    let others: Vec<String> = others.map(|f| f.display().to_string()).collect();
                    said.extend((!others.is_empty()).then(|| format!("`{name}` ({})", others.join(", "))));
                }
            }
            if !said.is_empty() {
                out[*line] = format!("\nElsewhere the same names are other things: {}.\n", said.join(", "));
            }
        }
    }

    fn item(&self, at: &At) -> &Item {
        &self.modules[&at.0].items[at.1]
    }

    fn lines(&self, list: &[At]) -> usize {
        list.iter().map(|at| self.item(at).text.len()).sum()
    }

    /// Adds to `items` all that these rest on; gives the stops that were met.
    fn close(&mut self, from: BTreeSet<At>, items: &mut BTreeSet<At>) -> BTreeSet<usize> {
        let mut stops = BTreeSet::new();
        let mut todo: Vec<At> = from.into_iter().collect();
        while let Some(at) = todo.pop() {
            let item = self.item(&at).clone();
            if let Some(k) = STOPS.iter().position(|s| stops_at(s.0, &item)) {
                stops.insert(k);
            } else if items.insert(at.clone()) {
                todo.extend(self.needs(&at.0, &item));
            }
        }
        stops
    }

    /// Every field that is taken or given is one of a record in the text.
    fn project(&mut self, items: &BTreeSet<At>, statements: &[Item]) {
        let all: Vec<Item> = items.iter().map(|at| self.item(at).clone()).chain(statements.iter().cloned()).collect();
        let fields: BTreeSet<String> = all.iter().flat_map(|i| i.fields.iter().cloned()).collect();
        for item in &all {
            let words: Vec<&String> = item.scopes.iter().flatten().collect();
            for (k, word) in words.iter().enumerate().filter_map(|(k, w)| Some((k, w.strip_prefix('.')?))) {
                if k > 0 && item.aliases.contains(words[k - 1]) {
                    continue;
                }
                let number = word.starts_with(|c: char| c.is_ascii_digit());
                if !number && !word.is_empty() && !fields.contains(word) && !TAKEN.contains(&word) {
                    self.unknown.insert((item.file.clone(), format!(".{word}")));
                }
            }
        }
    }

    /// The items in reading order: each after those that it rests on, those of one file together where that can be.
    fn order(&mut self, items: &BTreeSet<At>) -> Vec<At> {
        let needs: BTreeMap<At, BTreeSet<At>> = items
            .iter()
            .map(|at| {
                let item = self.item(at).clone();
                let rests = self.needs(&at.0, &item).into_iter().filter(|n| n != at && items.contains(n)).collect();
                (at.clone(), rests)
            })
            .collect();
        // a file comes after the files that its items rest on
        let mut files: Vec<PathBuf> = Vec::new();
        fn visit(
            path: &Path,
            needs: &BTreeMap<At, BTreeSet<At>>,
            seen: &mut BTreeSet<PathBuf>,
            files: &mut Vec<PathBuf>,
        ) {
            if seen.insert(path.to_path_buf()) {
                for (_, rests) in needs.iter().filter(|(at, _)| at.0 == path) {
                    rests.iter().for_each(|n| visit(&n.0, needs, seen, files));
                }
                files.push(path.to_path_buf());
            }
        }
        let mut seen = BTreeSet::new();
        needs.keys().for_each(|at| visit(&at.0, &needs, &mut seen, &mut files));
        let order: Vec<At> = files.iter().flat_map(|p| items.iter().filter(move |at| at.0 == *p).cloned()).collect();
        for (k, at) in order.iter().enumerate() {
            for late in needs[at].iter().filter(|n| !order[..k].contains(n)) {
                let (file, names) = (self.item(at).file.clone(), self.item(late).names.clone());
                self.unknown.extend(names.into_iter().map(|n| (file.clone(), n)));
            }
        }
        order
    }

    /// The items that an item rests on; a name without a meaning is noted.
    fn needs(&mut self, path: &Path, item: &Item) -> BTreeSet<At> {
        let mut needs = BTreeSet::new();
        for scope in &item.scopes {
            let bound = binders(scope);
            for (k, word) in scope.iter().enumerate().filter(|(_, w)| is_name(w)) {
                let inner = scope.get(k + 1).filter(|w| item.aliases.contains(word) && w.starts_with('.'));
                let word = &[word.as_str(), inner.map_or("", String::as_str)].concat();
                match self.meaning(path, item, &bound, word) {
                    Meaning::Item(at) => drop(needs.insert(at)),
                    Meaning::Library(module) => drop(self.library.entry(module).or_default().insert(word.clone())),
                    Meaning::Local => {}
                    Meaning::Unknown => drop(self.unknown.insert((item.file.clone(), word.clone()))),
                }
            }
        }
        needs
    }

    fn meaning(&mut self, path: &Path, item: &Item, bound: &Bound, word: &str) -> Meaning {
        if item.names.contains(word) || [&bound.names, &item.bound, &item.fields].iter().any(|s| s.contains(word)) {
            return Meaning::Local;
        }
        let module = self.module(path);
        let operator = format!("◌{word}◌");
        for name in [word, &operator] {
            let found = match name.split_once('.') {
                Some((alias, inner)) => module.aliases.get(alias).map(|m| (m.clone(), inner.to_string())),
                None if module.items.iter().any(|i| i.names.contains(name)) => Some((String::new(), name.to_string())),
                None => module.uses.get(name).cloned(),
            };
            let Some((from, name)) = found.map(|(from, name)| self.source(from, name)) else { continue };
            let at = if from.is_empty() {
                self.find(&Home::Module(path.to_path_buf()), &name)
            } else {
                self.from(&from, &name)
            };
            return match at {
                Some(at) if bound.patterns.contains(word) && !self.item(&at).builders.contains(&name) => Meaning::Local,
                Some(at) => Meaning::Item(at),
                None if home(&from).is_none() => Meaning::Library(from),
                None => Meaning::Unknown,
            };
        }
        if bound.patterns.contains(word) {
            Meaning::Local
        } else {
            Meaning::Unknown
        }
    }

    /// A name and the module that has it, behind those that hand it on.
    fn source(&mut self, from: String, name: String) -> (String, String) {
        let Some(Home::Module(path)) = home(&from) else { return (from, name) };
        let module = self.module(&path);
        match module.uses.get(&name).filter(|_| !module.items.iter().any(|i| i.names.contains(&name))) {
            Some((next, inner)) => self.source(next.clone(), inner.clone()),
            None => (from, name),
        }
    }

    fn from(&mut self, from: &str, name: &str) -> Option<At> {
        self.find(&home(from)?, name)
    }

    /// A name of a module, or of one that this has it from.
    fn find(&mut self, home: &Home, name: &str) -> Option<At> {
        let (path, kind) = match home {
            Home::Module(path) => (path, name),
            Home::Declared(path, kind) => (path, kind.as_str()),
        };
        let module = self.module(path);
        if let Some(k) = module.items.iter().position(|i| i.names.contains(kind)) {
            let has = module.items[k].names.contains(name) || module.items[k].builders.contains(name);
            return has.then(|| (path.clone(), k));
        }
        let (from, inner) = module.uses.get(name)?;
        self.from(from, inner)
    }

    fn module(&mut self, path: &Path) -> Rc<Module> {
        if !self.modules.contains_key(path) {
            let module = if path.is_dir() { types(path) } else { definitions(path) };
            self.modules.insert(path.to_path_buf(), Rc::new(module));
        }
        self.modules[path].clone()
    }

    /// The files below a folder, each read once.
    fn sources(&mut self, folder: &Path) -> Rc<Vec<(PathBuf, String)>> {
        let read = || files(folder).into_iter().map(|p| (p.clone(), fs::read_to_string(p).unwrap_or_default())).collect();
        self.sources.entry(folder.to_path_buf()).or_insert_with(|| Rc::new(read())).clone()
    }

    /// A theorem's statement with what its modules assume, or a call's contract.
    fn statement(&mut self, name: &str) -> Item {
        let (call, name) = name.strip_prefix("fn ").map_or((false, name), |n| (true, n));
        let (crate_, name) = name.split_once('/').map_or((None, name), |(c, n)| (Some(c), n));
        let (folder, start) = if call { ("src", format!("fn {name}(")) } else { ("proofs", format!("pub {name} :")) };
        let mut found = Vec::new();
        for c in folders("crates").iter().filter(|c| crate_.is_none_or(|n| n == *c)) {
            for (path, text) in self.sources(&Path::new("crates").join(c).join(folder)).iter() {
                if text.contains(&start) {
                    let lines = lines_of(path);
                    let at = |l: &String| if call { l.contains(&start) } else { l.trim_start().starts_with(&start) };
                    found.extend(lines.iter().position(at).map(|k| (path.clone(), lines, k)));
                }
            }
        }
        let [(path, lines, at)] = &found[..] else { stop(&format!("{} statements have the name {name}", found.len())) };
        if call {
            contract(path, lines, *at)
        } else {
            stated(path, lines, *at, false)
        }
    }
}

/// A stop is a name, or one of a crate.
fn stops_at(stop: &str, item: &Item) -> bool {
    match stop.split_once('/') {
        Some((of, name)) => item.names.contains(name) && item.file.starts_with(Path::new("crates").join(of)),
        None => item.names.contains(stop),
    }
}

/// Where a name is from: a module's file, or a type that code declares, by the folder of the code and its name.
enum Home {
    Module(PathBuf),
    Declared(PathBuf, String),
}

/// The home that a path of modules names, `Rattle.CRATE.specs.A`; none if it is the library's.
fn home(from: &str) -> Option<Home> {
    let (name, rest) = from.strip_prefix("Rattle.")?.split_once('.')?;
    let folder = Some(Path::new("crates").join(name)).filter(|f| f.is_dir())?;
    let parts: Vec<&str> = rest.split('.').collect();
    if let ["specs", "declared", inner @ ..] = &parts[..] {
        // a type, behind the modules of the code in which it stands
        let kind = inner.iter().find(|p| p.starts_with(char::is_uppercase)).unwrap_or(&inner[0]);
        return Some(Home::Declared(folder.join("src"), kind.to_string()));
    }
    let file = parts.iter().fold(folder, |p, part| p.join(part));
    // what the kit makes of a function, its contract among it, stands in no file
    let made = parts.get(1) == Some(&"contracts");
    (!made).then(|| Home::Module(file.with_extension("antt")))
}

/// The uses of a file's lines: by name, and by alias.
fn uses(lines: &[String]) -> Module {
    let mut module = Module::default();
    for line in &whole(lines) {
        let line = line.trim_start_matches("unfoldable ").trim_start_matches("pub ").trim_start_matches("ghost ");
        let Some(line) = line.trim_end_matches(';').strip_prefix("use ") else { continue };
        if let Some((from, alias)) = line.split_once(" as ").filter(|_| !line.contains('{')) {
            module.aliases.insert(alias.to_string(), from.to_string());
        } else if let Some((from, names)) = braced(line) {
            for (from, name) in brought(from, names) {
                let (inner, name) = name.split_once(" as ").unwrap_or((&name, &name));
                module.uses.insert(name.to_string(), (from, inner.to_string()));
            }
        } else if let Some((from, names)) = line.rsplit_once("::") {
            for name in names.trim_matches(['{', '}']).split(',').map(str::trim).filter(|n| !n.is_empty()) {
                let from = format!("Rattle.{from}.specs.declared.{name}");
                module.uses.insert(name.to_string(), (from, name.to_string()));
            }
        }
    }
    module
}

/// Lines of which each use is whole in one.
fn whole(lines: &[String]) -> Vec<String> {
    let mut out: Vec<String> = Vec::new();
    for line in lines {
        let open = |l: &String| l.trim_start_matches("pub ").starts_with("use ") && l.matches('{').count() > l.matches('}').count();
        match out.last_mut().filter(|l| open(l)) {
            Some(last) => *last = format!("{last}{}{}", if line.trim() == "};" { "" } else { " " }, line.trim()),
            None => out.push(line.clone()),
        }
    }
    out
}

/// The module in front of a brace, and what stands in it.
fn braced(text: &str) -> Option<(&str, &str)> {
    text.strip_suffix('}')?.split_once(".{")
}

/// What a brace brings: each name, perhaps with its alias, behind the module that has it. A brace may have others in it.
fn brought(from: &str, names: &str) -> Vec<(String, String)> {
    let mut deep = 0;
    let parts = names.split(|c| {
        deep += i32::from(c == '{') - i32::from(c == '}');
        c == ',' && deep == 0
    });
    let each = |part: &str| match braced(part) {
        Some((inner, names)) => brought(&format!("{from}.{inner}"), names),
        None => match part.split(" as ").next().and_then(|path| path.rfind('.')) {
            Some(at) => vec![(format!("{from}.{}", &part[..at]), part[at + 1..].to_string())],
            None => vec![(from.to_string(), part.to_string())],
        },
    };
    parts.map(str::trim).flat_map(each).collect()
}

/// The definitions of a file: an item is a comment, a signature and what follows it.
fn definitions(path: &Path) -> Module {
    let lines = lines_of(path);
    let mut module = uses(&lines);
    if path.components().any(|c| c.as_os_str() == "proofs") {
        // among laws, those that are handed on
        let defines = |l: &str| ["abbrev pub ", "unfoldable pub "].iter().any(|w| l.trim_start().starts_with(w));
        let at = (0..lines.len()).filter(|&k| defines(&lines[k]));
        module.items = at.map(|k| stated(path, &lines, k, true)).collect();
        return module;
    }
    let starts = |l: &str| KEYWORDS.iter().any(|k| l.starts_with(k)) || is_signature(l);
    let mut item: Vec<String> = Vec::new();
    let mut above: Vec<String> = Vec::new();
    let mut items = Vec::new();
    for line in lines.iter().filter(|l| !l.is_empty()) {
        if line.starts_with("use ") || line.starts_with("pub use ") {
            above.clear();
        } else if line.starts_with("--") || line.starts_with("infix") {
            above.push(line.clone());
        } else {
            if starts(line) && !item.is_empty() {
                items.push(std::mem::take(&mut item));
            }
            item.append(&mut above);
            item.push(line.clone());
        }
    }
    items.push(item);
    module.items = items.into_iter().map(|text| Item { aliases: names_of(&module), ..parsed(path, text) }).collect();
    module
}

/// The names under which a file has other modules.
fn names_of(module: &Module) -> BTreeSet<String> {
    module.aliases.keys().cloned().collect()
}

/// An item from its text.
fn parsed(path: &Path, text: Vec<String>) -> Item {
    let mut item = Item { file: path.to_path_buf(), ..Item::default() };
    let code: Vec<&str> =
        text.iter().map(|l| uncommented(l)).filter(|l| !l.trim().is_empty() && !l.starts_with("infix")).collect();
    let Some(first) = code.first() else { return item };
    let built = KEYWORDS[3..].iter().any(|w| first.trim_start_matches("pub ").starts_with(w));
    let base = if built || first.contains("mutual") { 2 } else { 0 };
    let mut parts: Vec<Vec<&str>> = Vec::new();
    for (k, line) in code.iter().enumerate() {
        if k == 0 || indent(line) <= base && indent(line) + 2 > base {
            parts.push(Vec::new());
        }
        parts.last_mut().expect("the first line opens one").push(line);
    }
    let scopes: Vec<Vec<String>> = parts.into_iter().map(scope).collect();
    for (k, scope) in scopes.iter().enumerate() {
        let front: Vec<String> = scope.iter().take_while(|w| *w != ":").filter(|w| !is_language(w)).cloned().collect();
        let signed = scope.contains(&":".to_string()) && !scope.iter().take_while(|w| *w != ":").any(|w| w == "=");
        if k == 0 && built {
            // the name, and the parameters, which are bound in all of it
            item.names.extend(front.first().cloned());
            item.bound.extend(binders(scope).names);
        } else if built && first.trim_start_matches("pub ").starts_with("record ") {
            item.fields.extend(front);
        } else if built {
            item.names.extend(front.iter().cloned());
            item.builders.extend(front);
        } else if signed {
            item.names.extend(front.first().cloned());
            item.bound.extend(front.into_iter().skip(1).filter(|w| is_name(w)));
        }
    }
    item.text = shown(text);
    item.scopes = scopes;
    item
}

/// A definition as it is written out: one clause with its signature, each argument beside its kind, and no line for the compiler.
fn shown(text: Vec<String>) -> Vec<String> {
    let text: Vec<String> = text.into_iter().filter(|l| !l.starts_with("#[")).collect();
    let clauses = || text.iter().enumerate().filter(|(_, l)| indent(l) == 0 && !l.starts_with("--"));
    let [(at, signature), (next, clause)] = clauses().collect::<Vec<_>>()[..] else { return together(text) };
    let joined = (at + 1 == next).then(|| typed(signature, clause)).flatten();
    let Some(joined) = joined.filter(|l| l.chars().count() <= WIDE) else { return text };
    [&text[..at], &[joined], &text[next + 1..]].concat()
}

/// Clauses that follow each other, have one value and differ in one argument, as one: `f (p | q) = e`.
fn together(text: Vec<String>) -> Vec<String> {
    let mut out: Vec<String> = Vec::new();
    // the clauses that stand together in the last line, each by its words, and their value
    let mut group: (Vec<Vec<String>>, String) = Default::default();
    for (k, line) in text.iter().enumerate() {
        let alone = text.get(k + 1).is_none_or(|l| indent(l) <= indent(line)) && !line.trim_start().starts_with("--");
        let clause = line.split_once(" = ").filter(|(left, _)| alone && !left.contains(':'));
        let Some((words, value)) = clause.map(|(left, value)| (arguments(left.trim_start()), value.to_string())) else {
            group = Default::default();
            out.push(line.clone());
            continue;
        };
        let mut clauses = group.0.clone();
        clauses.push(words.clone());
        let differ = |p: usize| clauses.iter().any(|c| c.get(p) != clauses[0].get(p));
        let places: Vec<usize> = (1..words.len()).filter(|&p| differ(p)).collect();
        let alike = clauses.len() > 1 && value == group.1 && clauses.iter().all(|c| c.len() == words.len() && c[0] == words[0]);
        let joined = (alike && places.len() == 1).then(|| {
            let any: Vec<&str> = clauses.iter().map(|c| inner(&c[places[0]])).collect();
            let mut left = words.clone();
            left[places[0]] = format!("({})", any.join(" | "));
            format!("{}{} = {value}", " ".repeat(indent(line)), left.join(" "))
        });
        match joined.filter(|l| l.chars().count() <= WIDE) {
            Some(joined) => {
                *out.last_mut().expect("the clauses before") = joined;
                group.0 = clauses;
            }
            None => {
                out.push(line.clone());
                group = (vec![words], value);
            }
        }
    }
    out
}

/// The words of a left side, what stands in brackets being one.
fn arguments(left: &str) -> Vec<String> {
    let mut words: Vec<String> = Vec::new();
    let mut deep = 0;
    for word in left.split(' ') {
        match words.last_mut().filter(|_| deep > 0) {
            Some(last) => *last = format!("{last} {word}"),
            None => words.push(word.to_string()),
        }
        deep += word.matches('(').count() as i32 - word.matches(')').count() as i32;
    }
    words
}

/// What stands in a pair of brackets, if it is one pair around all of it.
fn inner(word: &str) -> &str {
    word.strip_prefix('(').and_then(|w| w.strip_suffix(')')).unwrap_or(word)
}

/// `f : A → B` and `f x = e` as `f (x : A) : B = e`, where every argument is a name and no kind names one.
fn typed(signature: &str, clause: &str) -> Option<String> {
    let (front, kind) = signature.split_once(" : ")?;
    let (left, value) = clause.split_once('=').map(|(l, v)| (l.trim_end(), v.trim()))?;
    let mut words = left.split(' ');
    if words.next() != front.split(' ').next_back() || kind.contains(['{', '=']) {
        return None;
    }
    let mut kinds: Vec<String> = vec![String::new()];
    let mut deep = 0;
    for word in kind.split(' ') {
        match word {
            "→" if deep == 0 => kinds.push(String::new()),
            _ => {
                deep += word.matches('(').count() as i32 - word.matches(')').count() as i32;
                let kind = kinds.last_mut().expect("there is one");
                *kind = [kind.as_str(), word].join(" ").trim_start().to_string();
            }
        }
    }
    let words: Vec<&str> = words.collect();
    if words.len() >= kinds.len() || kinds.iter().any(|k| k.contains(" : ")) || !words.iter().all(|w| is_name(w)) {
        return None;
    }
    let result = kinds.split_off(words.len()).join(" → ");
    let bare = |k: &String| inner(k).to_string();
    // arguments of one kind that stand side by side in one bracket
    let mut groups: Vec<(Vec<&str>, String)> = Vec::new();
    for (word, kind) in words.into_iter().zip(kinds.iter().map(bare)) {
        match groups.last_mut().filter(|g| g.1 == kind) {
            Some(group) => group.0.push(word),
            None => groups.push((vec![word], kind)),
        }
    }
    let arguments: String = groups.iter().map(|(names, kind)| format!(" ({} : {kind})", names.join(" "))).collect();
    Some(format!("{front}{arguments} : {result} = {value}").trim_end().to_string())
}

/// The types that the code of a crate declares.
fn types(folder: &Path) -> Module {
    let mut module = Module::default();
    for path in files(folder) {
        let lines = lines_of(&path);
        let used = uses(&lines);
        module.uses.extend(used.uses);
        module.aliases.extend(used.aliases);
        for (k, line) in lines.iter().enumerate() {
            let Some(kind) = ["pub struct ", "pub enum "].iter().find_map(|w| line.strip_prefix(w)) else { continue };
            let above = lines[..k].iter().rev().take_while(|l| l.starts_with("//") || l.starts_with("#[")).count();
            let long = lines[k..].iter().take_while(|l| *l != "}").count();
            let text = [lines[k - above..k].to_vec(), laid(&lines[k..=k + long])].concat();
            let mut item = Item { file: path.clone(), ..Item::default() };
            item.names.insert(kind.split([' ', '{', '(']).next().unwrap_or_default().to_string());
            for line in &lines[k + 1..k + long] {
                let words = tokens(line.trim().trim_start_matches("pub "));
                let inner = words.first().cloned().unwrap_or_default();
                if words.get(1).is_some_and(|w| w == ":") {
                    item.fields.insert(inner);
                } else if is_name(&inner) {
                    item.builders.insert(inner);
                }
                item.scopes.push(words[1.min(words.len())..].to_vec());
            }
            item.text = shown(text);
            module.items.push(item);
        }
    }
    module
}

/// A declaration in as few lines as it needs: whole in one, or a variant with fields in one, and variants without side by side.
fn laid(lines: &[String]) -> Vec<String> {
    let [first, inner @ .., last] = lines else { return lines.to_vec() };
    if inner.iter().any(|l| l.contains("//")) {
        return lines.to_vec();
    }
    let mut entries: Vec<String> = Vec::new();
    for word in inner.iter().map(|l| l.trim()) {
        match entries.last_mut() {
            Some(entry) if entry.contains('{') && !entry.contains('}') => *entry += &format!(" {word}"),
            _ => entries.push(word.to_string()),
        }
    }
    let entries: Vec<String> = entries.iter().map(|e| e.replace(", },", " },")).collect();
    let whole = format!("{first} {} {last}", entries.join(" ").trim_end_matches(','));
    if whole.len() <= WIDTH {
        return vec![whole];
    }
    let mut out = vec![first.clone()];
    for entry in entries {
        let plain = |l: &str| !l.contains(['{', '(']);
        match out[1..].last_mut() {
            Some(line) if plain(line) && plain(&entry) && line.len() + entry.len() < WIDTH => *line += &format!(" {entry}"),
            _ => out.push(format!("    {entry}")),
        }
    }
    out.push(last.clone());
    out
}

/// A theorem's statement, or a definition whole: what the modules around it assume, the definitions of its own file that it
/// names, and itself.
fn stated(path: &Path, lines: &[String], at: usize, whole: bool) -> Item {
    let block = |k: usize, whole: bool| -> Vec<String> {
        let within = |l: &&String| !l.is_empty() && (whole || indent(l) > indent(&lines[k]));
        std::iter::once(&lines[k]).chain(lines[k + 1..].iter().take_while(within)).cloned().collect()
    };
    let mut item = Item { file: path.to_path_buf(), aliases: names_of(&uses(lines)), ..Item::default() };
    // by the line at which each stands, so that all of it comes in the order of its file
    let mut pieces: BTreeMap<usize, Vec<String>> = BTreeMap::new();
    let comments = |k: usize| lines[..k].iter().rev().take_while(|l| l.trim_start().starts_with("--")).count();
    let mut deep = indent(&lines[at]);
    for k in (0..at).rev() {
        if indent(&lines[k]) < deep && lines[k].trim_start().starts_with("module ") {
            deep = indent(&lines[k]);
            let more = lines[k..].iter().take_while(|l| !l.ends_with(" where")).count();
            let words = scope(lines[k..=k + more].iter().map(String::as_str));
            item.bound.extend(binders(&words).names);
            item.scopes.push(words);
            pieces.insert(k, lines[k - comments(k)..=k + more].to_vec());
        }
    }
    let own = block(at, whole);
    item.names.insert(defined(&lines[at]));
    item.scopes.extend(scopes(&own));
    pieces.insert(at, [lines[at - comments(at)..at].to_vec(), own].concat());
    let mut next = 0;
    while next < item.scopes.len() {
        let bound = binders(&item.scopes[next]).names;
        for word in item.scopes[next].clone() {
            let named = |l: &String| is_name(&word) && defined(l) == word;
            if bound.contains(&word) || item.bound.contains(&word) {
                continue;
            }
            let Some(k) = lines[..at].iter().position(named).filter(|_| item.names.insert(word.clone())) else {
                continue;
            };
            let text = block(k, true);
            item.scopes.extend(scopes(&text));
            pieces.insert(k, [lines[k - comments(k)..k].to_vec(), text].concat());
        }
        next += 1;
    }
    item.text = pieces.into_values().flatten().collect();
    item
}

/// The name that a line gives a type, if it does, in a proof's `let` apart.
fn defined(line: &str) -> String {
    if line.trim_start().starts_with("let ") {
        return String::new();
    }
    let words = tokens(line);
    let front: Vec<&String> = words.iter().take_while(|w| *w != ":").filter(|w| !is_language(w)).collect();
    if front.len() == 1 && words.contains(&":".to_string()) {
        front[0].clone()
    } else {
        String::new()
    }
}

/// The scopes of lines: each goes on while lines are further in than the first.
fn scopes(lines: &[String]) -> Vec<Vec<String>> {
    let mut parts: Vec<Vec<&str>> = Vec::new();
    for line in lines {
        match parts.last_mut() {
            Some(part) if indent(line) > indent(&lines[0]) => part.push(line),
            _ => parts.push(vec![line]),
        }
    }
    parts.into_iter().map(scope).collect()
}

/// A call's contract: its comment, its signature and what it ensures.
fn contract(path: &Path, lines: &[String], at: usize) -> Item {
    let above = lines[..at].iter().rev().take_while(|l| l.starts_with("//") || l.starts_with("#[")).count();
    let long = lines[at..].iter().take_while(|l| *l != "{").count();
    let mut words = scope(lines[at..at + long].iter().map(String::as_str));
    // a clause may have a name
    for k in (2..words.len()).rev() {
        if words[k] == "{" && ["requires", "ensures"].contains(&words[k - 2].as_str()) {
            words.remove(k - 1);
        }
    }
    let bound = words.windows(2).filter(|w| w[1] == ":").map(|w| w[0].clone()).collect();
    let name = words.iter().skip_while(|w| *w != "fn").nth(1).cloned().unwrap_or_default();
    Item {
        file: path.to_path_buf(),
        text: lines[at - above..at + long].to_vec(),
        names: [name].into(),
        bound,
        scopes: vec![words],
        aliases: names_of(&uses(lines)),
        ..Item::default()
    }
}

/// Names that are bound in a scope for certain, and those of a clause's left side, which may be constructors.
#[derive(Default)]
struct Bound {
    names: BTreeSet<String>,
    patterns: BTreeSet<String>,
}

fn binders(scope: &[String]) -> Bound {
    let mut bound = Bound::default();
    let ahead = |from: usize, ends: &[&str]| -> Vec<String> {
        scope[from..].iter().take_while(|w| !ends.contains(&w.as_str())).cloned().collect()
    };
    for (k, word) in scope.iter().enumerate() {
        let group = match word.as_str() {
            "(" | "{" => {
                let inner = ahead(k + 1, &[":", "(", ")", "{", "}", "=", ";", ","]);
                if scope.get(k + 1 + inner.len()).is_some_and(|w| w == ":") {
                    inner
                } else {
                    Vec::new()
                }
            }
            "λ" => ahead(k + 1, &["λ.", "("]),
            "let" => ahead(k + 1, &[":", "="]),
            _ => Vec::new(),
        };
        bound.names.extend(group);
    }
    let left: Vec<String> = scope.iter().take_while(|w| !["=", ":"].contains(&w.as_str())).cloned().collect();
    if scope.get(left.len()).is_some_and(|w| w == "=") {
        bound.patterns.extend(left);
    }
    bound
}

/// The words of a line, without its comment. Brackets stand alone; a field that is taken begins with a dot; the dot after
/// what λ binds is `λ.`.
fn tokens(line: &str) -> Vec<String> {
    let mut spaced = String::new();
    for c in uncommented(line).chars() {
        if "(){};,".contains(c) {
            spaced.extend([' ', c, ' ']);
        } else {
            spaced.push(c);
        }
    }
    let mut words: Vec<String> = Vec::new();
    for word in spaced.split_whitespace() {
        let (inner, last) = match word.strip_suffix(['.', ':']) {
            Some(inner) if word.ends_with('.') => (inner, "λ."),
            Some(inner) => (inner, ":"),
            None => (word, ""),
        };
        // what is taken of something, tight behind it
        for (k, part) in inner.split('.').enumerate().filter(|(_, p)| !p.is_empty()) {
            words.push(format!("{}{part}", if k > 0 { "." } else { "" }).replace(['«', '»'], ""));
        }
        words.extend(Some(last.to_string()).filter(|w| !w.is_empty()));
    }
    words
}

/// The words of several lines, in which a field that is given in a record begins with a dot too.
fn scope<'a>(lines: impl IntoIterator<Item = &'a str>) -> Vec<String> {
    let mut words: Vec<String> = lines.into_iter().flat_map(tokens).collect();
    for k in 1..words.len().saturating_sub(1) {
        if ["{", ";"].contains(&words[k - 1].as_str()) && words[k + 1] == "=" {
            words[k].insert(0, '.');
        }
    }
    words
}

/// A word that must have a meaning.
fn is_name(word: &str) -> bool {
    let first = word.chars().next().unwrap_or('.');
    !("(){};,.".contains(first) || first.is_ascii_digit() || is_language(word))
}

fn is_language(word: &str) -> bool {
    LANGUAGE.split_whitespace().any(|w| w == word)
}

/// Whether a line is a name, perhaps with levels in braces, and its type.
fn is_signature(line: &str) -> bool {
    !line.starts_with(' ') && line.split(" : ").next().is_some_and(|n| n.len() < line.len() && !n.contains(' '))
}

fn indent(line: &str) -> usize {
    line.len() - line.trim_start().len()
}

fn uncommented(line: &str) -> &str {
    let line = line.split("-- ").next().unwrap_or(line);
    line.split("// ").next().unwrap_or(line)
}

/// The theorems of a part with their files.
fn promised(part: &Part, statements: &[Item]) -> String {
    let mut by_file: Vec<(String, Vec<String>)> = Vec::new();
    for (name, item) in part.statements.iter().zip(statements) {
        let name = name.rsplit(['/', ' ']).next().unwrap_or(name);
        let file = item.file.strip_prefix("crates").unwrap_or(&item.file).display().to_string();
        match by_file.iter_mut().find(|(f, _)| *f == file) {
            Some((_, names)) => names.push(format!("`{name}`")),
            None => by_file.push((file, vec![format!("`{name}`")])),
        }
    }
    let rows: Vec<String> = by_file.iter().map(|(f, names)| format!("{} in `{f}`", names.join(", "))).collect();
    rows.join("; ")
}

/// The hours that so many lines take.
fn hours(lines: usize) -> String {
    format!("{:.1}", lines as f64 / AN_HOUR)
}

/// What a file says of itself in its first line.
fn first_line(path: &Path) -> String {
    let first = lines_of(path).into_iter().next().unwrap_or_default();
    first.trim_start_matches(['-', '/', ' ']).to_string()
}

fn lines_of(path: &Path) -> Vec<String> {
    let text = fs::read_to_string(path).unwrap_or_else(|e| stop(&format!("{}: {e}", path.display())));
    text.lines().map(|l| l.trim_end().to_string()).collect()
}

/// The sources in a folder and in the folders in it.
fn files(folder: &Path) -> Vec<PathBuf> {
    let mut found = Vec::new();
    for path in fs::read_dir(folder).into_iter().flatten().flatten().map(|e| e.path()) {
        if path.is_dir() {
            found.extend(files(&path));
        } else if path.extension().is_some_and(|e| e == "antt" || e == "rt") {
            found.push(path);
        }
    }
    found.sort();
    found
}

/// The names of the folders in a folder.
fn folders(path: &str) -> Vec<String> {
    let entries = fs::read_dir(path).unwrap_or_else(|e| stop(&format!("{path}: {e}")));
    let mut names: Vec<String> =
        entries.flatten().filter(|e| e.path().is_dir()).map(|e| e.file_name().to_string_lossy().into_owned()).collect();
    names.sort();
    names
}

fn put(path: &str, text: &str) {
    fs::write(path, text).unwrap_or_else(|e| stop(&format!("{path}: {e}")));
}

fn stop(why: &str) -> ! {
    eprintln!("reading: {why}");
    process::exit(2)
}
