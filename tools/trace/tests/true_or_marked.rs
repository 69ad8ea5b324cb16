//! What an explanation says is true or carries a mark: random events of two tools go through the transport of the example host,
//! all frames are recorded, some are dropped, doubled, delayed, exchanged or cut out, the recording is explained, and what is
//! said is held against what really happened.
//!
//! In a recording whose gaps are all told, what has no mark is true. In one that lacks frames without a word a statement that is
//! not true may stand without a mark only if nobody could know better: if the recording, its told gaps filled with what really
//! was in them, is frame by frame the whole recording of another history, in which it is true. Or if that is so with nothing in
//! the gaps, the only sign of a loss having been in them, and what was in them does not make it false: what was lost without a
//! word does. Such cases are counted apart, those in recordings with told gaps once more. RECORDINGS in the environment says how
//! many recordings there are, SEED which is the first.

mod bus;
mod written;

use std::collections::{BTreeMap, BTreeSet};

use bus::{destination, octet, source, to_one, Bus, Did, Host};
use model::gen::Rng;
use trace::evidence::{Evidence, Forged};
use trace::explain::Story;
use trace::gaps;
use trace::make::{from_frames, parts, Made};
use trace::play::{carried_out, Trace};
use trace::progress::Progress;
use trace::recordings::{Note, Recorded, Recording};

const RECORDINGS: u64 = 10_000;

fn asked(name: &str, or: u64) -> u64 {
    std::env::var(name).ok().and_then(|word| word.parse().ok()).unwrap_or(or)
}

/// A frame of the recording: which it was on the bus, when it says that it was, and whether it is a copy or out of its place.
#[derive(Clone, Debug)]
struct Heard {
    id: usize,
    millis: u64,
    moved: bool,
}

/// What was done to a recording.
#[derive(Clone, Debug, Default)]
struct Spoiled {
    frames: Vec<Heard>,
    /// The gaps that the recorder tells.
    gaps: Vec<Note>,
    what: Vec<String>,
    /// Something was done, or happened, that the recorder does not tell.
    untold: bool,
}

/// How a recording is damaged.
#[derive(Clone, Copy, Debug, PartialEq, Eq)]
enum How {
    Told,
    Untold,
    Mixed,
}

impl Spoiled {
    /// The recording with its told gaps filled: by all that is missing between the frame before and the frame behind.
    fn filled(&self, bus: &Bus) -> Vec<Heard> {
        let there: BTreeSet<usize> = self.frames.iter().map(|h| h.id).collect();
        let in_place = |h: &&Heard| !h.moved;
        let mut all = Vec::new();
        for i in 0..=self.frames.len() {
            if self.gaps.iter().any(|note| note.before == i) {
                let before = self.frames[..i].iter().rfind(in_place).map_or(0, |h| h.id + 1);
                let behind = self.frames[i..].iter().find(in_place).map_or(bus.log.len(), |h| h.id);
                let missing = (before..behind).filter(|id| !there.contains(id));
                all.extend(missing.map(|id| Heard { id, millis: 0, moved: false }));
            }
            all.extend(self.frames.get(i).cloned());
        }
        all
    }

    /// Frames are taken out: the gaps behind them.
    fn moved(&mut self, at: usize, length: usize) {
        for note in self.gaps.iter_mut().filter(|note| note.before > at) {
            note.before = note.before.saturating_sub(length).max(at);
        }
    }

    fn remove(&mut self, at: usize) -> Heard {
        let frame = self.frames.remove(at);
        self.moved(at, 1);
        frame
    }

    fn put_in(&mut self, at: usize, frame: Heard) {
        self.frames.insert(at, frame);
        self.gaps.iter_mut().filter(|note| note.before > at).for_each(|note| note.before += 1);
    }

    /// Cuts frames out, and tells it or not.
    fn cut(&mut self, from: usize, to: usize, gap: Option<gaps::Why>) {
        self.frames.drain(from..to);
        self.moved(from, to - from);
        match gap {
            Some(gap) => {
                self.gaps.push(Note { before: from, line: 0, gap });
                self.gaps.sort_by_key(|note| note.before);
            }
            None => self.untold = true,
        }
    }

    fn retain(&mut self, keep: impl Fn(&Heard) -> bool) {
        let kept: Vec<bool> = self.frames.iter().map(&keep).collect();
        for note in &mut self.gaps {
            note.before = kept[..note.before].iter().filter(|k| **k).count();
        }
        self.frames.retain(keep);
    }
}

/// Damages a recording: by gaps that the recorder tells, without a word, or both.
fn spoil(rng: &mut Rng, bus: &Bus, how: How) -> Spoiled {
    let frames =
        bus.log.iter().enumerate().map(|(id, s)| Heard { id, millis: s.millis, moved: false });
    let mut s = Spoiled { frames: frames.collect(), ..Spoiled::default() };
    let times = rng.pick(&[0, 1, 1, 1, 2, 2, 3, 4]);
    for _ in 0..times {
        if s.frames.len() < 2 {
            break;
        }
        let told = match how {
            How::Told => true,
            How::Untold => false,
            How::Mixed => rng.chance(50),
        };
        let n = s.frames.len();
        let at = rng.below(n);
        let what = if told { rng.within(11, 12) } else { rng.below(13) };
        s.untold |= what < 11;
        match what {
            12 => cut_between(rng, bus, &mut s, told),
            0..=2 => {
                s.what.push(format!("dropped {}", s.frames[at].id));
                s.remove(at);
            }
            3 | 4 => {
                let mut copy = s.frames[at].clone();
                let to = (at + 1 + rng.below(6)).min(n);
                s.what.push(format!("doubled {} to {to}", copy.id));
                (copy.millis, copy.moved) = (s.frames[to - 1].millis, true);
                s.put_in(to, copy);
            }
            5 | 6 => {
                let mut frame = s.remove(at);
                frame.moved = true;
                let to = (at + 1 + rng.below(8)).min(s.frames.len());
                let timed = rng.chance(50);
                s.what.push(format!("delayed {} to {to}, its time kept: {timed}", frame.id));
                if !timed && to > 0 {
                    frame.millis = s.frames[to - 1].millis;
                }
                s.put_in(to, frame);
            }
            7 if at + 1 < n => {
                s.what.push(format!("exchanged {} and the next", s.frames[at].id));
                let (a, b) = (s.frames[at].millis, s.frames[at + 1].millis);
                s.frames.swap(at, at + 1);
                (s.frames[at].millis, s.frames[at + 1].millis) = (a, b);
            }
            8 => {
                // the device's frames alone, or one kind of them
                let acks = rng.chance(50);
                s.what.push(format!("the device dropped, its acknowledgements alone: {acks}"));
                let keep = |h: &Heard| {
                    let bytes = &bus.log[h.id].bytes;
                    let ack = octet(bytes) & 0xC3 == 0xC2;
                    !bus::OWN.contains(&source(bytes)) || !to_one(bytes) || (acks && !ack)
                };
                s.retain(keep);
            }
            _ => {
                // a recorder may tell a gap in which nothing was
                let none = how == How::Mixed && told && rng.chance(10);
                let length = if none { 0 } else { rng.within(1, 14).min(n - at) };
                s.what.push(format!("cut {length} from {}, told: {told}", s.frames[at].id));
                let gap = told.then(|| match rng.below(3) {
                    0 => gaps::Why::Stopped(None, None),
                    1 => gaps::Why::Lost,
                    _ => gaps::Why::Counted(1),
                });
                s.cut(at, at + length, gap);
            }
        }
    }
    s
}

/// Cuts out what a tool did between two requests on two connections, the second with the number that would be next on the first:
/// what is left looks like one connection.
fn cut_between(rng: &mut Rng, bus: &Bus, s: &mut Spoiled, told: bool) {
    let bytes = |i: usize| &bus.log[s.frames[i].id].bytes;
    let data = |i: usize| to_one(bytes(i)) && octet(bytes(i)) & 0xC0 == 0x40;
    let number = |i: usize| octet(bytes(i)) >> 2 & 15;
    let mut pairs = Vec::new();
    for i in (0..s.frames.len()).filter(|&i| data(i) && !bus::OWN.contains(&source(bytes(i)))) {
        let tool = source(bytes(i));
        let begins = |j: &usize| source(bytes(*j)) == tool && octet(bytes(*j)) == 0x80;
        let Some(connect) = (i + 1..s.frames.len()).find(begins) else { continue };
        let next =
            |j: &usize| data(*j) && source(bytes(*j)) == tool && number(*j) == (number(i) + 1) & 15;
        if let Some(j) = (connect + 1..s.frames.len()).find(next) {
            // behind what the device and the tool said to the first
            let own = |k: &usize| {
                let f = bytes(*k);
                let both = destination(f) == tool || source(f) == tool;
                both && octet(f) & 0xC0 >= 0x40 && octet(f) & 0xFE != 0x80 && to_one(f)
            };
            let from =
                (i + 1..connect).take_while(|k| own(k) && !(data(*k) && source(bytes(*k)) == tool));
            let from = from.last().map_or(i + 1, |k| k + 1);
            pairs.push((from, j));
        }
    }
    if pairs.is_empty() {
        return;
    }
    let (from, to) = rng.pick(&pairs);
    s.what.push(format!("cut from {} up to {}, told: {told}", s.frames[from].id, s.frames[to].id));
    s.cut(from, to, told.then_some(gaps::Why::Lost));
}

/// The time of a frame as a recorder writes it.
fn time(millis: u64) -> String {
    let (seconds, rest) = (millis / 1000, millis % 1000);
    let (day, clock) = (seconds / 86_400, seconds % 86_400);
    let (h, m, s) = (clock / 3600, clock / 60 % 60, clock % 60);
    format!("2026-03-{:02}T{h:02}:{m:02}:{s:02}.{rest:03}", 2 + day)
}

fn recording(bus: &Bus, s: &Spoiled) -> Recording {
    let frames: Vec<Recorded> = s
        .frames
        .iter()
        .map(|h| Recorded {
            line: h.id + 1,
            time: Some(time(h.millis)),
            bytes: bus.log[h.id].bytes.clone(),
            wire: false,
            status: None,
        })
        .collect();
    let times = frames.iter().map(|f| f.time.as_deref());
    let back = trace::order::judged(times).back;
    Recording { frames, notes: s.gaps.clone(), back }
}

/// What happened, frame by frame in their order: which frame of the bus it was, and what it did.
type History = Vec<(usize, Option<Did>)>;

/// What an explanation says of a byte: by which frame, at which level, by which offer, and what it is since.
#[derive(Clone, Copy, Debug)]
struct Claim {
    byte: usize,
    value: u8,
    frame: usize,
    level: Option<u8>,
    offer: Option<usize>,
}

/// Whether a claim is true of a history.
fn is_true(claim: &Claim, history: &History) -> bool {
    let of = history.iter().rposition(|(id, did)| *id == claim.frame && did.is_some());
    let Some(at) = of else { return false };
    let Some(did) = &history[at].1 else { return false };
    let gave = did.carried_out() && did.wrote(claim.byte) && did.after[claim.byte] == claim.value;
    let since = history[at..].iter().filter_map(|(_, did)| did.as_ref());
    let stands = since.into_iter().all(|did| did.after[claim.byte] == claim.value);
    let level = claim.level.is_none_or(|level| did.level == level);
    let offer = claim.offer.is_none_or(|offer| did.mark == offer);
    gave && stands && level && offer
}

/// The history of which these frames are the whole recording, if there is one: all that was sent is there, but a request to
/// which there is no reply was not received. Frames of others may stand between a request and the replies to it.
fn another(bus: &Bus, frames: &[Heard]) -> Option<History> {
    let frames = &without_repeats(bus, frames);
    let mut host = Host::new(&bus.first);
    let mut history: History = Vec::new();
    let bytes = |i: usize| &bus.log[frames[i].id].bytes;
    let n = frames.len();
    let mut used = vec![false; n];
    let mut missed: BTreeMap<Vec<u8>, usize> = BTreeMap::new();
    for i in 0..n {
        let frame = bytes(i);
        // one that was not received and is sent once more is one event
        let id = missed.get(frame).copied().unwrap_or(bus.log[frames[i].id].same);
        let own = host.own();
        if to_one(frame) && octet(frame) == 0x80 {
            missed.retain(|f, _| source(f) != source(frame));
        }
        if used[i] {
            continue;
        }
        if source(frame) == own {
            if !to_one(frame) || destination(frame) == own {
                continue;
            }
            match host.partner(destination(frame)) {
                Some(_) if octet(frame) == 0x81 && goes_on(bus, frames, i, own) => {}
                Some(c) if octet(frame) == 0x81 => {
                    let (did, _) = host.time_out(c, id);
                    history.push((id, Some(did)));
                }
                _ => return None, // it is not due
            }
            continue;
        }
        let mut next = host.clone();
        let (did, sent) = next.take(frame, id);
        // those to whom a disconnect is sent may not have been recorded
        let (ends, due): (Vec<_>, Vec<_>) = sent.into_iter().partition(|f| octet(f) == 0x81);
        let partner = source(frame);
        let number = octet(frame) >> 2 & 15;
        let again = |j: usize| {
            let f = bytes(j);
            // data with another number does not end the wait for a reply
            let other = octet(f) & 0xC0 == 0x40 && octet(f) >> 2 & 15 != number;
            source(f) == partner && to_one(f) && matches!(octet(f) & 0xC0, 0x40 | 0x80) && !other
        };
        let until = (i + 1..n).find(|&j| again(j)).unwrap_or(n);
        let begins = |f: &[u8]| source(f) == partner && to_one(f) && octet(f) & 0xFE == 0x80;
        let over = (i + 1..n).find(|&j| begins(bytes(j))).unwrap_or(n);
        let mut met: Vec<usize> = Vec::new();
        for f in &due {
            let from = met.last().map_or(i, |&j| j) + 1;
            // an answer on no connection comes when it comes, one on a connection while that lasts
            let till = match octet(f) & 0xC0 {
                0 => n,
                0x40 => over,
                _ => until,
            };
            match (from..till).find(|&j| !used[j] && bytes(j) == f) {
                Some(j) => met.push(j),
                None => break,
            }
        }
        // at the end of the recording a reply may not have come yet
        if met.len() < due.len() && !met.is_empty() && (until < n || over < n) {
            return None;
        }
        if met.is_empty() && !due.is_empty() {
            // not received; but a group's answer that is another than the one that is due is an answer
            let to =
                |f: &[u8]| !to_one(f) && !to_one(&due[0]) && destination(f) == destination(&due[0]);
            let answer = |f: &[u8]| source(f) == own && to(f) && f[10] & 0xC0 == 0x40;
            if (i + 1..n).any(|j| !used[j] && answer(bytes(j))) {
                return None;
            }
            missed.insert(frame.clone(), id);
            continue;
        }
        met.iter().for_each(|&j| used[j] = true);
        for f in &ends {
            let till = (i + 1..n).find(|&j| source(bytes(j)) == destination(f)).unwrap_or(n);
            if let Some(j) = (i + 1..till).find(|&j| !used[j] && bytes(j) == f) {
                used[j] = true;
            }
        }
        host = next;
        history.push((id, did));
    }
    Some(history)
}

/// What these frames make of the device, whatever it sends: each is received that was.
fn forced(bus: &Bus, frames: &[Heard]) -> History {
    let mut host = Host::new(&bus.first);
    let mut history: History = Vec::new();
    for sent in frames.iter().map(|h| &bus.log[h.id]).filter(|sent| sent.did.is_some()) {
        let ended =
            (source(&sent.bytes) == host.own()).then(|| host.partner(destination(&sent.bytes)));
        let did = match ended {
            Some(Some(c)) => Some(host.time_out(c, sent.same).0),
            _ => host.take(&sent.bytes, sent.same).0,
        };
        history.push((sent.same, did));
    }
    history
}

/// Without answers on a connection that are sent once more, as a device does that has no receipt, and without the second
/// acknowledgement of data that was sent twice, whatever is in between.
fn without_repeats(bus: &Bus, frames: &[Heard]) -> Vec<Heard> {
    let mut last: BTreeMap<u16, Vec<u8>> = BTreeMap::new();
    // of each partner and number how often data was sent, and how often acknowledged; and the last number
    let mut sent: BTreeMap<(u16, u8), (usize, usize)> = BTreeMap::new();
    let mut latest: BTreeMap<u16, u8> = BTreeMap::new();
    let mut less = frames.to_vec();
    let mut keep = |h: &Heard| {
        let f = &bus.log[h.id].bytes;
        let (from, to, octet) = (source(f), destination(f), octet(f));
        let number = octet >> 2 & 15;
        if !to_one(f) {
            return true;
        }
        match (bus::OWN.contains(&from), octet & 0xC3) {
            (false, 0x80) => {
                last.remove(&from);
                latest.remove(&from);
                sent.retain(|data, _| data.0 != from);
                true
            }
            (false, 0x40..=0x43) => {
                let again = latest.insert(from, number) == Some(number);
                let data = sent.entry((from, number)).or_default();
                *data = if again { (data.0 + 1, data.1) } else { (1, 0) };
                true
            }
            (true, 0x40..=0x43) => last.insert(to, f.clone()).as_ref() != Some(f),
            (true, 0xC2) => match sent.get_mut(&(to, number)) {
                Some(data) => {
                    data.1 += 1;
                    data.1 == 1 || data.1 > data.0
                }
                None => true,
            },
            _ => true,
        }
    };
    less.retain(&mut keep);
    less
}

/// Whether the device acknowledges a partner behind a disconnect under its address, before that one connects or disconnects.
fn goes_on(bus: &Bus, frames: &[Heard], at: usize, own: u16) -> bool {
    let partner = destination(&bus.log[frames[at].id].bytes);
    for h in &frames[at + 1..] {
        let f = &bus.log[h.id].bytes;
        if !to_one(f) {
            continue;
        }
        let (from, to, octet) = (source(f), destination(f), octet(f));
        if from == partner && (octet == 0x80 || (to == own && octet == 0x81)) {
            return false;
        }
        if from == own && to == partner && octet & 0xC3 == 0xC2 {
            return true;
        }
    }
    false
}

#[derive(Default, Debug)]
struct Counts {
    said: usize,
    marked: usize,
    marked_and_true: usize,
    /// Not true and without a mark, where nobody could know better; of these, in recordings with told gaps: that leave no sign at
    /// all, and of which the only sign was in a gap.
    unknowable: usize,
    with_gaps: usize,
    sign_in_a_gap: usize,
    refusals: usize,
    by_mark: BTreeMap<&'static str, usize>,
}

/// Explains a recording and holds what is said to what happened; what is wrong, if anything.
fn held(bus: &Bus, s: &Spoiled, counts: &mut Counts) -> Result<(), String> {
    let recording = recording(bus, s);
    let made = from_frames(&recording, &bus.first, &mut Progress::new("frames", 0));
    let traces = traces(&made);
    let evidence = made.evidence.as_ref().unwrap();
    let story = Story::new(&bus.first, &traces, None, &mut Progress::new("events", 0));
    // what happened up to the last frame that was recorded
    let upto = s.frames.iter().map(|h| h.id + 1).max().unwrap_or(0);
    let truth: History = bus.log[..upto].iter().map(|s| (s.same, s.did.clone())).collect();
    let could_be = |claim: &dyn Fn(&History) -> bool| {
        // times that go back can be seen
        let hidden = s.untold && recording.back.is_empty();
        let filled = s.filled(bus);
        let is = |frames| hidden && another(bus, frames).as_ref().is_some_and(claim);
        let without_a_sign = is(&filled);
        let in_a_gap = !without_a_sign && claim(&forced(bus, &filled)) && is(&s.frames);
        (without_a_sign, in_a_gap)
    };
    let excused = |claim: &dyn Fn(&History) -> bool, counts: &mut Counts| {
        let (without_a_sign, in_a_gap) = could_be(claim);
        counts.unknowable += usize::from(without_a_sign || in_a_gap);
        counts.with_gaps += usize::from(without_a_sign && !s.gaps.is_empty());
        counts.sign_in_a_gap += usize::from(in_a_gap);
        without_a_sign || in_a_gap
    };
    let frame_of = |event: u32| bus.log[evidence.events[event as usize - 1].line - 1].same;
    for account in story.accounts() {
        for (event, bytes) in &account.by {
            let rests = story.rests(*event);
            let fact = story.fact(*event);
            for &byte in bytes {
                let claim = Claim {
                    byte,
                    value: story.last()[byte],
                    frame: frame_of(*event),
                    level: rests.connected.then_some(fact.level),
                    offer: (rests.offer > 0).then(|| frame_of(rests.offer)),
                };
                counts.said += 1;
                let right = is_true(&claim, &truth);
                if let Some(doubt) = account.doubts.first() {
                    counts.marked += 1;
                    counts.marked_and_true += usize::from(right);
                    *counts.by_mark.entry(trace::sentences::kind(doubt)).or_default() += 1;
                } else if !right && !excused(&|history| is_true(&claim, history), counts) {
                    return Err(format!("{claim:?} is not true, and not marked"));
                }
            }
        }
    }
    // what is said not to have been done was not done
    for event in 1..=story.facts.len() as u32 {
        let rests = story.rests(event);
        if carried_out(story.fact(event).outcome) {
            continue;
        }
        let (otherwise, doubts) = story.refusal(event);
        if otherwise || !doubts.is_empty() {
            continue;
        }
        counts.refusals += 1;
        let frame = frame_of(rests.event);
        let refused = |history: &History| {
            let of = history.iter().rfind(|(id, _)| *id == frame);
            of.is_some_and(|(_, did)| did.as_ref().is_none_or(|did| !did.carried_out()))
        };
        if !refused(&truth) && !excused(&refused, counts) {
            return Err(format!("frame {frame} was done, and is told as refused"));
        }
    }
    honest(bus, s, evidence)
}

/// What is told of forged frames is so: a disconnect was forged, or the recording is not whole.
fn honest(bus: &Bus, s: &Spoiled, evidence: &Evidence) -> Result<(), String> {
    for (at, forged) in &evidence.forged {
        let sent = &bus.log[at.line - 1];
        let own = match forged {
            Forged::Itself => source(&sent.bytes) != destination(&sent.bytes),
            Forged::Disconnect => !sent.forged && s.what.is_empty(),
        };
        if own {
            return Err(format!("frame {} is the device's own", at.line - 1));
        }
    }
    Ok(())
}

fn traces(made: &Made) -> Vec<Trace> {
    let mut from = 0;
    let parts = parts(made);
    let last = parts.len() - 1;
    parts
        .into_iter()
        .enumerate()
        .map(|(i, part)| {
            let (events, known) = made.events[from..from + part.events].iter().cloned().unzip();
            let evidence = made.evidence.as_ref().unwrap();
            let evidence = evidence.part(from, from + part.events, i == last);
            from += part.events;
            let name = format!("part {i}");
            Trace { name, bytes: part.bytes, events, known, evidence: Some(evidence) }
        })
        .collect()
}

/// What happens on a bus, and its recording: of four one with gaps that are told, one damaged without a word, two both ways.
fn how(seed: u64) -> How {
    match std::env::var("HOW").as_deref() {
        Ok("told") => How::Told,
        Ok("untold") => How::Untold,
        Ok("mixed") => How::Mixed,
        _ => [How::Mixed, How::Told, How::Mixed, How::Untold][seed as usize % 4],
    }
}

fn drawn(seed: u64, deaf: bool) -> (Bus, Spoiled) {
    let how = how(seed);
    let mut rng = Rng::new(!seed);
    let deaf = deaf && how != How::Told;
    let mut bus = Bus::new(seed, deaf);
    let steps = rng.within(4, 26);
    for _ in 0..steps {
        bus.step();
    }
    let mut spoiled = spoil(&mut rng, &bus, how);
    // that the device did not receive a connect leaves no trace either
    spoiled.untold |= deaf;
    (bus, spoiled)
}

/// The fewest frames of a recording that still go wrong.
fn shrunk(bus: &Bus, mut s: Spoiled) -> Spoiled {
    let mut at = 0;
    while at < s.frames.len() {
        let mut less = s.clone();
        less.remove(at);
        match held(bus, &less, &mut Counts::default()) {
            Err(_) => s = less,
            Ok(()) => at += 1,
        }
    }
    s
}

fn shown(bus: &Bus, s: &Spoiled) -> String {
    let line = |(i, h): (usize, &Heard)| {
        let sent = &bus.log[h.id];
        let did = sent.did.as_ref().map_or(String::new(), |d| {
            format!("  # outcome {} at level {} mark {}", d.outcome, d.level, d.mark)
        });
        let notes = s.gaps.iter().filter(|note| note.before == i);
        let notes: String = notes.map(|note| format!("# gap {:?}\n", note.gap)).collect();
        format!("{notes}{} {}{did} # {}", time(h.millis), sheet::layout::hex(&sent.bytes), h.id)
    };
    s.frames.iter().enumerate().map(line).collect::<Vec<_>>().join("\n")
}

#[test]
fn true_or_marked() {
    let (mut counts, mut wrong) = (Counts::default(), 0);
    let first = asked("SEED", 0);
    let recordings = asked("RECORDINGS", RECORDINGS);
    for seed in first..first + recordings {
        let (bus, spoiled) = drawn(seed, seed.is_multiple_of(3));
        if let Err(why) = held(&bus, &spoiled, &mut counts) {
            wrong += 1;
            let less = shrunk(&bus, spoiled.clone());
            let still = held(&bus, &less, &mut Counts::default()).unwrap_err();
            println!(
                "seed {seed}: {why}\n{:?}\nshrunk: {still}\n{}\nwhole:\n{}\n",
                spoiled.what,
                shown(&bus, &less),
                shown(&bus, &spoiled)
            );
        }
    }
    println!("{recordings} recordings: {counts:?}, {wrong} wrong");
    assert_eq!(wrong, 0, "what is said and neither true nor marked is printed above");
    assert!(counts.said > 2 * recordings as usize, "{counts:?}");
    assert!(counts.marked > recordings as usize / 4, "{counts:?}");
}

/// A recording that nobody touched is explained without a doubt, but for data that the device did not receive.
#[test]
fn untouched() {
    let mut marks: BTreeMap<String, usize> = BTreeMap::new();
    for seed in 0..asked("RECORDINGS", RECORDINGS) / 4 {
        let (bus, _) = drawn(seed, false);
        let frames =
            bus.log.iter().enumerate().map(|(id, s)| Heard { id, millis: s.millis, moved: false });
        let whole = Spoiled { frames: frames.collect(), ..Spoiled::default() };
        let mut counts = Counts::default();
        let made = from_frames(&recording(&bus, &whole), &bus.first, &mut Progress::new("", 0));
        let evidence = made.evidence.as_ref().unwrap();
        // a disconnect that somebody forged may be the device's, for all that is seen, until it goes on; and what somebody sent to
        // a group under its address the device heard, which nobody can tell from what it sent itself until it answers
        let doubtful = |s: &[u8]| octet(s) == 0x81 || !to_one(s);
        let forged = bus.log.iter().any(|s| s.forged && doubtful(&s.bytes));
        if !evidence.device || forged {
            held(&bus, &whole, &mut counts).unwrap_or_else(|why| panic!("seed {seed}: {why}"));
            continue;
        }
        let all = || shown(&bus, &whole);
        assert!(
            evidence.clean(),
            "seed {seed}: {:?}\n{}",
            trace::sentences::shows(evidence),
            all()
        );
        held(&bus, &whole, &mut counts).unwrap_or_else(|why| panic!("seed {seed}: {why}"));
        for (mark, n) in counts.by_mark {
            *marks.entry(mark.to_string()).or_default() += n;
        }
    }
    println!("{marks:?}");
}

/// WRITE_RECORDINGS in the environment names a file, in which as many recordings are left, in every form and some of them spoiled, and
/// files of every other kind, with what is said of each: of most with the dump of the device that was there, of some with another.
#[test]
fn written_down() {
    let Some(file) = std::env::var_os("WRITE_RECORDINGS") else { return };
    let mut out = String::new();
    for seed in asked("SEED", 0)..asked("SEED", 0) + asked("RECORDINGS", RECORDINGS) {
        let (bus, spoiled) = drawn(seed, seed.is_multiple_of(3));
        let mut rng = Rng::new(seed);
        let mut dump = bus.host.sheet.clone();
        match rng.below(8) {
            0 => {
                let at = rng.below(dump.len());
                dump[at] ^= 1 << rng.below(8);
            }
            1 => dump = bus.first.clone(),
            2..=4 => {
                // as it was after an event
                let done: Vec<_> = bus.log.iter().filter_map(|sent| sent.did.as_ref()).collect();
                let at = rng.below(done.len() + 1);
                dump = done.get(at).map_or(dump, |did| did.after.clone());
            }
            _ => {}
        }
        let form = rng.below(written::FORMS.len());
        let recording = recording(&bus, &spoiled);
        let text = written::as_text(form, &recording.frames, &recording.notes, rng.below(9));
        let dump = rng.chance(60).then_some(&dump[..]);
        let text = if rng.chance(20) { written::spoiled(&mut rng, &text) } else { text };
        out += &written::line(form, &text, &bus.first, dump, rng.chance(50));
        let text = written::as_text(0, &recording.frames, &recording.notes, 0);
        out += &written::others(&mut rng, bus::SHEET, &text, &bus.first);
    }
    std::fs::write(file, out).unwrap();
}
