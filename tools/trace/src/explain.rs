//! Who changed what, as facts: each byte that traces changed with the event that gave it, its level, the event that offered the
//! key, and what of that the recording can't show; and what a later dump holds that no event gave. Events and bytes are told by
//! the archive's marks. Text and JSON of these facts stand in account_text.rs and account_json.rs, their words in sentences.rs.

use sheet::diff;
use sheet::layout::{body_at, body_length, entries, word, Kind, Sheet};
use sheet::place::{changes, same_layout, touched, Change, Target};

use crate::archive::{self, Marking, Pdu};
use crate::doubts::{Doubt, Doubts, Rests};
use crate::events::{CONNECT, REQUEST};
use crate::evidence::{Answer, Left};
use crate::history::{History, Step};
use crate::play::{carried_out, logged, Trace, LINE};
use crate::progress::Progress;

/// What is known of an event once it was played. Its level, the offer and the connect count if it is a request on a connection.
pub struct Fact {
    pub trace: usize,
    pub index: usize,
    pub outcome: u8,
    pub level: u8,
    pub offer: u32,
    pub connect: u32,
}

/// Traces played on a sheet with marks.
pub struct Story<'a> {
    pub traces: &'a [Trace],
    pub facts: Vec<Fact>,
    marks: Vec<u32>,
    first: Vec<u8>,
    last: Vec<u8>,
    history: History,
    pub doubts: Doubts,
    /// The last event that made each byte what it is in the dump, if there is a dump and an event.
    gave: Vec<u32>,
    /// Whether the whole sheet was once the dump: at first, or after an event.
    pub was: bool,
    /// The requests that would write, by whether they were carried out.
    writes: Vec<(u32, Pdu, bool)>,
}

/// A place that events changed.
pub struct Account {
    pub change: Change<u32>,
    /// The events that left its bytes as they are, the last one first, each with these bytes.
    pub by: Vec<(u32, Vec<usize>)>,
    /// Every event that changed it.
    pub steps: Vec<Step>,
    /// The last event that wrote it and left it as it was.
    pub again: Option<u32>,
    pub doubts: Vec<Doubt>,
    /// Requests since that are no events, and named it.
    pub left: Vec<Left>,
}

impl<'a> Story<'a> {
    pub fn new(
        sheet: &[u8],
        traces: &'a [Trace],
        dump: Option<&[u8]>,
        progress: &mut Progress,
    ) -> Story<'a> {
        let mut device = Marking::new(sheet);
        let (mut seen, mut gave) = (sheet.to_vec(), vec![0; sheet.len()]);
        let dump = dump.filter(|dump| dump.len() == sheet.len());
        let mut was = dump == Some(sheet);
        let mut facts: Vec<Fact> = Vec::new();
        let (mut history, mut writes) = (History::new(sheet.len()), Vec::new());
        let mut connects = [0; 2];
        for (t, trace) in traces.iter().enumerate() {
            for (index, event) in trace.events.iter().enumerate() {
                progress.at(facts.len());
                let (level, offer, connect) = match event.rights() {
                    Some(c) => {
                        let level = device.sessions.of[c].level.min(3);
                        (level, device.marks[sheet.len() + c], connects[c])
                    }
                    None => (3, 0, 0),
                };
                let mut line = [0; LINE];
                let played = archive::play_marked(&mut device, &trace.bytes, index, 1, &mut line);
                assert_eq!(played, Ok(1), "a trace that was accepted is played");
                let outcome = logged(&line).0;
                facts.push(Fact { trace: t, index, outcome, level, offer, connect });
                let number = facts.len() as u32;
                if event.kind == CONNECT && event.connection < 2 {
                    connects[usize::from(event.connection)] = number;
                }
                if event.kind == REQUEST {
                    let pdu = archive::read(&event.apdu);
                    if pdu.outcome == 0 && WRITES.contains(&pdu.kind) {
                        writes.push((number, pdu, carried_out(outcome)));
                    }
                }
                if seen != device.sheet {
                    let last = &device.sheet;
                    history.note(number, &seen, last);
                    if let Some(dump) = dump {
                        let given = |&p: &usize| seen[p] != last[p] && last[p] == dump[p];
                        (0..last.len()).filter(given).for_each(|p| gave[p] = number);
                        was |= last == dump;
                    }
                    seen.copy_from_slice(last);
                }
            }
        }
        let (first, last, marks) = (sheet.to_vec(), device.sheet, device.marks);
        let doubts = Doubts::new(traces.iter().map(|t| (t.events.len(), t.evidence.as_ref())));
        Story { traces, facts, marks, first, last, history, doubts, gave, was, writes }
    }

    /// What the traces changed, each byte with the number of its event; what was set back to what it was is among it.
    pub fn changed(&self) -> Vec<Change<u32>> {
        let mark = |at: usize| self.marks[at];
        touched(&self.first, &self.last, mark, |at| mark(at) > 0)
    }

    /// What the traces changed, with all that is known of it.
    pub fn accounts(&self) -> Vec<Account> {
        self.changed().into_iter().map(|change| self.account(change)).collect()
    }

    fn account(&self, change: Change<u32>) -> Account {
        let mut by = by_known(&change);
        by.sort_by_key(|of| std::cmp::Reverse(of.0));
        let last = by.first().map_or(0, |of| of.0);
        let steps = self.steps(&change);
        let mut doubts: Vec<Doubt> = Vec::new();
        for (event, _) in &by {
            let about = self.doubts.about(self.rests(*event), self.group(change.at));
            for doubt in about.into_iter().chain(self.base_doubts(&steps, *event)) {
                if !doubts.contains(&doubt) {
                    doubts.push(doubt);
                }
            }
        }
        // a count is written by its elements, and so by none of them again
        let counted = matches!(change.target, Target::Count(..));
        let again =
            self.named(&change, true).into_iter().rfind(|&number| number > last && !counted);
        let more = again.map(|number| self.step_doubts(&steps, number, &doubts));
        let more = more.unwrap_or_default();
        doubts.extend(more);
        let left = self.left(&change, last);
        Account { change, by, steps, again, doubts, left }
    }

    /// What is not known of an event in the history of a place, beside what is said of the place.
    pub fn step_doubts(&self, steps: &[Step], number: u32, said: &[Doubt]) -> Vec<Doubt> {
        let mut doubts = self.doubts.outcome(self.rests(number));
        doubts.extend(self.base_doubts(steps, number));
        doubts.into_iter().filter(|doubt| !said.contains(doubt)).collect()
    }

    /// What a bit write gives rests on what stood there: the doubts about who gave that, back to a write of the whole.
    fn base_doubts(&self, steps: &[Step], mut number: u32) -> Vec<Doubt> {
        let mut doubts = Vec::new();
        while self.is_bit_write(number) {
            match steps.iter().rfind(|step| step.event < number) {
                Some(step) => {
                    doubts.extend(self.doubts.about(self.rests(step.event), None));
                    number = step.event;
                }
                None => {
                    doubts.extend(self.doubts.before(number));
                    break;
                }
            }
        }
        doubts
    }

    fn is_bit_write(&self, number: u32) -> bool {
        self.writes
            .binary_search_by_key(&number, |of| of.0)
            .is_ok_and(|at| self.writes[at].1.kind == MEMORY_BIT_WRITE)
    }

    /// Every event that changed a place, in order.
    pub fn steps<K>(&self, change: &Change<K>) -> Vec<Step> {
        self.history.steps(change.at, &self.first[change.at..change.at + change.length])
    }

    /// The sheet as the traces leave it.
    pub fn last(&self) -> &[u8] {
        &self.last
    }

    pub fn fact(&self, number: u32) -> &Fact {
        &self.facts[number as usize - 1]
    }

    /// What an event rests on.
    pub fn rests(&self, number: u32) -> Rests {
        let fact = self.fact(number);
        let event = &self.traces[fact.trace].events[fact.index];
        let connected = event.rights().is_some();
        let offer = if connected && fact.level < 3 { fact.offer } else { 0 };
        let answer = event.kind == REQUEST && event.mode == 0 && answers_group(&event.apdu);
        Rests { event: number, connect: fact.connect, offer, connected, answer }
    }

    /// The group whose value a byte is, or all, by 0, if it is the individual address.
    pub fn group(&self, at: usize) -> Option<u16> {
        if (16..18).contains(&at) {
            return Some(0);
        }
        let value = |e: &&[u8]| {
            let start = body_at(Kind::Group, e);
            (start..start + body_length(Kind::Group, e)).contains(&at)
        };
        entries(&self.first, Kind::Group).find(value).map(|e| word(e, 0))
    }

    /// The requests that named a place to write it, and were carried out or not.
    fn named<K>(&self, change: &Change<K>, done: bool) -> Vec<u32> {
        let named = self.writes.iter().filter(|of| of.2 == done);
        let named = named.filter(|(_, pdu, _)| names(pdu, change.target, change.length));
        named.map(|of| of.0).collect()
    }

    pub fn refused<K>(&self, change: &Change<K>) -> Vec<u32> {
        self.named(change, false)
    }

    /// Requests behind an event that are no events, and named a place to write it.
    pub fn left<K>(&self, change: &Change<K>, behind: u32) -> Vec<Left> {
        let left = self.doubts.evidence().iter().flat_map(|e| &e.left);
        let since = left.filter(|left| left.at.behind >= behind as usize);
        let named = since.filter(|left| {
            let pdu = archive::read(&left.apdu);
            pdu.outcome == 0 && names(&pdu, change.target, change.length)
        });
        named.cloned().collect()
    }

    /// What is not known of a place that a dump has otherwise: each doubt with the event that it is about, 0 for none.
    pub fn other_doubts(&self, change: &Change<Other>) -> Vec<(u32, Doubt)> {
        let mut all: Vec<(u32, Doubt)> = Vec::new();
        let group = self.group(change.at);
        for (other, _) in by_known(change) {
            let about = match other.mark {
                0 => group
                    .and_then(|group| self.doubts.own(group))
                    .map(Doubt::Own)
                    .into_iter()
                    .collect(),
                mark => self.doubts.about(self.rests(mark), group),
            };
            for doubt in about {
                if !all.iter().any(|of| of.1 == doubt) {
                    all.push((other.mark, doubt));
                }
            }
        }
        all
    }

    /// Of a request that playing does not carry out: whether the recorded answer says otherwise, and what is not known. The
    /// device's own answer leaves no doubt, unless the recording does not fit together: then it may be that to another. Where
    /// no answer is recorded nothing but playing says that it was refused, and every doubt counts.
    pub fn refusal(&self, number: u32) -> (bool, Vec<Doubt>) {
        let answer = self.doubts.seen(number).map(|(_, seen)| seen.answer);
        let mut doubts = self.doubts.about(self.rests(number), None);
        match answer {
            Some(Answer::Same) => doubts.retain(Doubt::unfit),
            Some(Answer::Absent) if doubts.is_empty() => doubts.push(Doubt::Unanswered(number)),
            _ => {}
        }
        (answer == Some(Answer::Other), doubts)
    }
}

/// Whether a request to a group is a GroupValue_Response.
fn answers_group(apdu: &[u8]) -> bool {
    matches!(apdu, [high, low, ..] if high & 3 == 0 && low & 0xC0 == 0x40)
}

/// The numbers of kinds that write, in kelindap_pdu.h.
const PROPERTY_WRITE: u8 = 9;
const MEMORY_WRITE: u8 = 12;
const MEMORY_BIT_WRITE: u8 = 13;
const KEY_WRITE: u8 = 15;
const USER_MEMORY_WRITE: u8 = 27;
const WRITES: [u8; 5] =
    [PROPERTY_WRITE, MEMORY_WRITE, MEMORY_BIT_WRITE, KEY_WRITE, USER_MEMORY_WRITE];

/// Whether a request names a place, or a part of a run of memory, to write it.
fn names(pdu: &Pdu, target: Target, length: usize) -> bool {
    let (from, n) = (usize::from(pdu.address), usize::from(pdu.n));
    let meets = |at: usize| from < at + length && at < from + n;
    match (pdu.kind, target) {
        (MEMORY_WRITE | MEMORY_BIT_WRITE, Target::Memory(at)) => meets(at),
        (USER_MEMORY_WRITE, Target::User(at)) => meets(at),
        (KEY_WRITE, Target::Key(level)) => usize::from(pdu.level) == level,
        (PROPERTY_WRITE, Target::Count(object, id)) => (pdu.object, pdu.id) == (object, id),
        (PROPERTY_WRITE, Target::Element(object, id, i)) => {
            let s = usize::from(pdu.s);
            (pdu.object, pdu.id) == (object, id) && s <= i && i < s + n
        }
        _ => false,
    }
}

/// A byte that a dump has otherwise than the traces leave it.
#[derive(Clone, Copy, Debug, PartialEq, Eq)]
pub struct Other {
    /// The event that changed it last.
    pub mark: u32,
    pub origin: Origin,
}

/// Where the dump's value of a byte was before.
#[derive(Clone, Copy, Debug, PartialEq, Eq)]
pub enum Origin {
    /// An event gave it, and another changed it since.
    Given(u32),
    /// It stood there at first, and an event changed it since.
    First,
    /// No event gave it.
    Never,
}

/// A dump beside what the events give.
pub enum Final {
    /// Of the same layout: each place that differs.
    Places(Vec<Change<Other>>),
    /// Of another layout, which no event gives; what differs by meaning.
    Layout(Vec<String>),
    /// Against the rules, which no event gives; the bytes that differ, if it has as many.
    Broken(String, Vec<(usize, u8, u8)>),
}

impl Story<'_> {
    pub fn beside(&self, dump: &[u8]) -> Final {
        match Sheet::read(dump) {
            Err(broken) => {
                let bytes = self.last.iter().zip(dump).enumerate();
                let bytes = bytes.filter(|(_, (a, b))| a != b).map(|(at, (&a, &b))| (at, a, b));
                let same = dump.len() == self.last.len();
                let bytes = if same { bytes.collect() } else { Vec::new() };
                Final::Broken(broken.to_string(), bytes)
            }
            Ok(_) if same_layout(&self.last, dump) => {
                let origin = |at: usize| match self.gave[at] {
                    0 if self.first[at] == dump[at] => Origin::First,
                    0 => Origin::Never,
                    number => Origin::Given(number),
                };
                let other = |at: usize| Other { mark: self.marks[at], origin: origin(at) };
                Final::Places(changes(&self.last, dump, other))
            }
            Ok(there) => {
                let here = Sheet::read(&self.last).expect("events keep a sheet accepted");
                Final::Layout(diff::lines(&here, &there))
            }
        }
    }
}

impl Final {
    /// Whether the dump is what the events give.
    pub fn explained(&self) -> bool {
        matches!(self, Final::Places(places) if places.is_empty())
    }
}

/// The bytes of a change by what is known of them: each once, with its offsets.
pub fn by_known<K: Copy + PartialEq>(change: &Change<K>) -> Vec<(K, Vec<usize>)> {
    let mut all: Vec<(K, Vec<usize>)> = Vec::new();
    for &(at, mark) in &change.bytes {
        match all.iter_mut().find(|of| of.0 == mark) {
            Some(of) => of.1.push(at),
            None => all.push((mark, vec![at])),
        }
    }
    all
}
