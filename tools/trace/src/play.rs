//! Traces played on a sheet, one after the other: outcomes and answers, in the words of the proved program.

use sheet::json::Json;
use sheet::layout::individual_address;

use crate::archive::{self, Sessions};
use crate::events::Event;
use crate::evidence::Evidence;
use crate::text::{self, run};
use crate::times::Known;
use crate::words;

/// A trace that is accepted, what is known of its events, and what its recording shows of them, if it is of one.
pub struct Trace {
    pub name: String,
    pub bytes: Vec<u8>,
    pub events: Vec<Event>,
    pub known: Vec<Known>,
    pub evidence: Option<Evidence>,
}

/// A line of the log: outcome, count, and sixteen bytes.
pub const LINE: usize = 18;

/// The outcome of an event and its answer, from its line of the log.
pub fn logged(line: &[u8]) -> (u8, &[u8]) {
    (line[0], &line[2..2 + line[1] as usize])
}

/// What playing gave: for each trace the log, and at the end sessions and sheet.
pub struct Played {
    pub logs: Vec<Vec<u8>>,
    pub sessions: Sessions,
    pub sheet: Vec<u8>,
}

pub fn play(sheet: &[u8], traces: &[Trace]) -> Played {
    let (mut sessions, mut sheet) = (archive::fresh(), sheet.to_vec());
    let mut logs = Vec::new();
    for trace in traces {
        let n = trace.events.len();
        let mut log = vec![0; LINE * n];
        let played = archive::play(&mut sessions, &mut sheet, &trace.bytes, 0, n, &mut log);
        assert_eq!(played, Ok(n), "a trace that was accepted is played");
        logs.push(log);
    }
    Played { logs, sessions, sheet }
}

/// Carried out, with or without an answer.
pub fn carried_out(outcome: u8) -> bool {
    outcome <= 1
}

impl Played {
    /// Whether every event was carried out.
    pub fn all(&self) -> bool {
        self.logs.iter().flat_map(|log| log.chunks(LINE)).all(|line| carried_out(line[0]))
    }

    pub fn text(&self, first: &[u8], traces: &[Trace], keys: bool) -> String {
        let mut out = String::new();
        for (trace, log) in traces.iter().zip(&self.logs) {
            if traces.len() > 1 {
                out += &format!("# {}\n", trace.name);
            }
            for (i, (e, line)) in trace.events.iter().zip(log.chunks(LINE)).enumerate() {
                let (outcome, answer) = logged(line);
                let meaning = match answer {
                    [] => String::new(),
                    answer => format!(": {}", words::pdu(answer, keys)),
                };
                out += &format!(
                    "{} {} outcome={outcome} answer={}  # {}{meaning}\n",
                    i + 1,
                    text::event(e, keys),
                    run(answer),
                    words::outcome(outcome)
                );
            }
        }
        for (c, session) in self.sessions.of.iter().enumerate() {
            out +=
                &format!("session {c} open={} level={}\n", u8::from(session.open), session.level);
        }
        out + "sheet " + if self.sheet == first { "unchanged" } else { "changed" } + "\n"
    }

    pub fn json(&self, first: &[u8], traces: &[Trace], keys: bool) -> Json {
        let traces = traces.iter().zip(&self.logs).map(|(trace, log)| {
            let events = trace.events.iter().zip(&trace.known).zip(log.chunks(LINE)).enumerate();
            let events = events.map(|(i, ((e, known), line))| {
                let (outcome, answer) = logged(line);
                let mut fields = event_fields(i + 1, e, known, keys);
                fields.push(("outcome", outcome.into()));
                fields.push(("outcome_words", words::outcome(outcome).into()));
                fields.push(("answer", run(answer).into()));
                let meaning = (!answer.is_empty()).then(|| words::pdu(answer, keys));
                fields.push(("answer_words", meaning.into()));
                Json::Object(fields)
            });
            Json::Object(vec![
                ("trace", trace.name.as_str().into()),
                ("events", Json::List(events.collect())),
            ])
        });
        let session = |s: &archive::Session| {
            Json::Object(vec![("open", s.open.into()), ("level", s.level.into())])
        };
        Json::Object(vec![
            ("traces", Json::List(traces.collect())),
            ("sessions", Json::List(self.sessions.of.iter().map(session).collect())),
            ("sheet_changed", (self.sheet != first).into()),
        ])
    }
}

/// An event for other programs: its number, what it is, what is known of it.
pub fn event_fields(n: usize, e: &Event, known: &Known, keys: bool) -> Vec<(&'static str, Json)> {
    vec![
        ("number", n.into()),
        ("event", text::event(e, keys).into()),
        ("words", text::meaning(e, keys).into()),
        ("time", known.time.clone().into()),
        ("from", known.from.map(individual_address).into()),
    ]
}
