//! What a tool without the key can learn, on the library: two runs of the same events
//! on two sheets that differ in secret bytes alone, body bytes of memory and properties
//! whose read level is below q, while no open connection has a level below q.
//! Then nothing tells them apart: each event gets the same outcome and answer in both,
//! whatever its buffer held before, and leaves the same sessions; and afterwards every
//! byte of the two sheets is the same but secret ones.

use std::ops::Range;

use model::device::Sessions;
use model::faults::Fault;
use model::gen::{self, Event, Rng, Tools};
use model::sheet::{self, Memory};

use crate::pairs::{alike, received, seen, start};
use crate::play::{Play, World};
use crate::{Bridge, FAULT_EVENTS};

/// Two runs, and what the model says of them.
struct Pair {
    q: u8,
    sheets: [Vec<u8>; 2],
    sessions: Sessions,
    secrets: Vec<Range<usize>>,
    plays: Vec<[Play; 2]>,
    replies: [Vec<u8>; 2],
    left: [Vec<u8>; 2],
}

/// The bodies whose read level is below q.
fn secrets(sheet: &[u8], q: u8) -> Vec<Range<usize>> {
    let memories = [Memory::Device, Memory::User];
    let regions = memories.into_iter().flat_map(|memory| sheet::regions(sheet, memory));
    let regions = regions.filter(|r| r.read < q).map(|r| r.body..r.body + r.length as usize);
    let properties = sheet::properties(sheet).filter(|p| p.read() < q);
    let properties = properties.map(|p| p.body..p.body + p.size * p.maximum as usize);
    regions.chain(properties).collect()
}

/// Whether an open connection has a level below q.
fn below(sessions: Sessions, q: u8) -> bool {
    sessions.iter().any(|s| s.open && s.level < q)
}

struct Maker {
    rng: Rng,
    fault: Fault,
}

impl Maker {
    /// Two runs of up to so many events.
    fn pair(&mut self, most: usize) -> Pair {
        let rng = &mut self.rng;
        let q = rng.within(1, 3) as u8;
        let sheet = gen::sheet(rng);
        let secrets = secrets(&sheet, q);
        let mut other = sheet.clone();
        for at in secrets.iter().cloned().flatten() {
            if rng.chance(60) {
                other[at] = if rng.chance(30) { 0 } else { rng.below(256) as u8 };
            }
        }
        let mut sessions = [gen::session(rng), gen::session(rng)];
        sessions.iter_mut().filter(|s| s.open).for_each(|s| s.level = s.level.max(q));
        let sheets = [sheet, other];
        let mut worlds =
            sheets.clone().map(|sheet| World { sheet, sessions, ..World::new(self.fault) });
        let mut tools = Tools::new(&sheets[0]);
        let (plays, replies) = (Vec::new(), [Vec::new(), Vec::new()]);
        let left = sheets.clone();
        let mut pair = Pair { q, sheets, sessions, secrets, plays, replies, left };
        for _ in 0..self.rng.within(10, 120).min(most) {
            let Some(play) = self.play(&mut tools, &worlds[0]) else { continue };
            let plays = [play.clone(), alike(&mut self.rng, &play)];
            for (run, (world, play)) in worlds.iter_mut().zip(&plays).enumerate() {
                world.play(play, &mut pair.replies[run]);
            }
            pair.plays.push(plays);
            if below(worlds[0].sessions, q) {
                break; // what comes now may show what it likes
            }
        }
        pair.left = worlds.map(|world| world.sheet);
        pair
    }

    /// Anything that a host may see: of one tool, of the other, or of nobody.
    fn play(&mut self, tools: &mut Tools, world: &World) -> Option<Play> {
        let event = match self.rng.below(3) {
            2 => gen::event(&mut self.rng, &world.sheet),
            tool => tools.event_of(tool, &mut self.rng, &world.sheet, world.sessions[tool]),
        };
        // a key that opens something ends the run, so few are offered
        let offers = matches!(&event, Event::Request(ask) if ask.apdu.starts_with(&[0x03, 0xD1]));
        let left_out = matches!(event, Event::Found(..)) || offers && self.rng.chance(90);
        (!left_out).then(|| Play::of(event))
    }
}

impl Pair {
    fn wire(&self, run: usize) -> Vec<u8> {
        let mut wire = Vec::new();
        start(&self.sheets[run], &[], self.sessions).iter().for_each(|play| play.send(&mut wire));
        self.plays.iter().for_each(|plays| plays[run].send(&mut wire));
        wire.push(b'D');
        wire
    }

    /// The first event by which the two are told apart, or how many there are if it is the sheets.
    fn differs(&self, replies: [&[u8]; 2], left: [&[u8]; 2], tally: &mut Tally) -> Option<usize> {
        let [mut first, mut second] = replies;
        for (i, [play, other]) in self.plays.iter().enumerate() {
            let (Some(one), Some(two)) = (seen(play, &mut first), seen(other, &mut second)) else {
                return Some(i);
            };
            if !one.told_as(&two) || one.sessions != two.sessions {
                return Some(i);
            }
            tally.events += 1;
            tally.answered += usize::from(!one.answer.is_empty());
            tally.denied += usize::from(matches!(one.outcome, 11 | 12));
        }
        let secret = |at: usize| self.secrets.iter().any(|secret| secret.contains(&at));
        let mut apart = (0..left[0].len()).filter(|&at| left[0].get(at) != left[1].get(at));
        let same = left[0].len() == left[1].len() && apart.all(secret);
        (!same).then_some(self.plays.len())
    }

    /// Both runs up to an event, in lines for the desk unit.
    fn show(&self, at: usize) {
        for run in 0..2 {
            println!(
                "# run {}; nothing may tell it from the other at level {} or above",
                run + 1,
                self.q
            );
            let sheet = &self.sheets[run];
            start(sheet, &[], self.sessions)
                .iter()
                .for_each(|play| println!("{}", play.line(sheet)));
            let plays = self.plays.iter().take(at + 1);
            plays.for_each(|plays| println!("{}", plays[run].line(&[])));
        }
    }
}

#[derive(Default)]
struct Tally {
    pairs: usize,
    bytes: usize,
    events: usize,
    answered: usize,
    denied: usize,
}

/// A fault that tells is found in the model itself: else all of this says little.
fn sees(fault: Fault, seed: u64) -> bool {
    let mut maker = Maker { rng: Rng::new(seed), fault };
    let mut tally = Tally::default();
    while tally.events < FAULT_EVENTS {
        let pair = maker.pair(usize::MAX);
        let (replies, left) = (pair.replies.each_ref(), pair.left.each_ref());
        if pair.differs(replies.map(|r| &r[..]), left.map(|l| &l[..]), &mut tally).is_some() {
            return true;
        }
    }
    println!("compare: fault {fault:?} not found by two sheets");
    false
}

/// So many events on two bridges.
pub fn learn(program: &str, events: usize, seed: u64) -> bool {
    let mut bridges = [Bridge::start(program), Bridge::start(program)];
    let mut maker = Maker { rng: Rng::new(seed), fault: Fault::None };
    let mut tally = Tally::default();
    while tally.events < events {
        let pair = maker.pair(events);
        for (run, bridge) in bridges.iter().enumerate() {
            bridge.send(pair.wire(run));
        }
        let (mut got, mut left) = ([Vec::new(), Vec::new()], [Vec::new(), Vec::new()]);
        for run in 0..2 {
            got[run] = received(&mut bridges[run], pair.replies[run].len());
            left[run] = bridges[run].receive(pair.sheets[run].len());
        }
        tally.pairs += 1;
        let sheets = pair.sheets[0].iter().zip(&pair.sheets[1]);
        tally.bytes += sheets.filter(|(one, two)| one != two).count();
        if let Some(at) = pair.differs([&got[0], &got[1]], [&left[0], &left[1]], &mut tally) {
            pair.show(at);
            println!("compare: two sheets that differ in secret bytes are told apart, seed {seed}");
            return false;
        }
    }
    let found = Fault::TELLING.into_iter().filter(|&fault| sees(fault, seed)).count();
    println!(
        "compare: {} times two sheets, seed {seed}, that differ in {} secret bytes: {} events of both, {} answered, {} denied: 0 different; {found} of {} faults found",
        tally.pairs,
        tally.bytes,
        tally.events,
        tally.answered,
        tally.denied,
        Fault::TELLING.len()
    );
    let ended = bridges.map(Bridge::finish);
    found == Fault::TELLING.len()
        && ended == [true; 2]
        && tally.bytes > tally.pairs
        && tally.answered * 4 > tally.events
        && tally.denied * 10 > tally.events
}
