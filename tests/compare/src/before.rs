//! The release before, which is the model with old sheets served, against this one: an
//! old sheet there, the converted one on the library. At first what happens, happens to
//! the old sheet alone, in the past; then it is handed over as it stands, with its store
//! and sessions, and converted. From there on the same happens to both: each event gets
//! the same outcome, answer and sessions, lookups give the same parts, versions saved in
//! the past are restored, traces played, and every byte is the same but byte 0.

use model::device::{Session, Sessions};
use model::faults::Fault;
use model::gen::{self, stores, traces, Rng, Tools};
use model::trace;

use crate::make::lookup;
use crate::pairs::start;
use crate::play::{Play, World};
use crate::{Bridge, FAULT_EVENTS};

/// A sheet as it is handed over, and what happens from then on.
struct Life {
    sheet: Vec<u8>,
    store: Vec<u8>,
    sessions: Sessions,
    plays: Vec<Play>,
    /// What the release before says to each.
    replies: Vec<Vec<u8>>,
}

struct Maker {
    rng: Rng,
}

impl Maker {
    /// A life of up to so many events after the conversion.
    fn life(&mut self, most: usize) -> Life {
        let rng = &mut self.rng;
        let sheet = gen::old_sheet(rng);
        let store = stores::store(rng, &sheet);
        let sessions = [gen::session(rng), gen::session(rng)];
        let mut tools = Tools::new(&sheet);
        let mut world = World { sheet, store, sessions, ..World::new(Fault::OldServed) };
        for _ in 0..self.rng.below(60) {
            for play in self.next(&mut tools, &world) {
                world.play(&play, &mut Vec::new());
            }
        }
        let (sheet, store) = (world.sheet.clone(), world.store.clone());
        let (sessions, plays, replies) = (world.sessions, Vec::new(), Vec::new());
        let mut life = Life { sheet, store, sessions, plays, replies };
        world.told = Some(2);
        for _ in 0..self.rng.within(10, 120).min(most) {
            for play in self.next(&mut tools, &world) {
                let mut reply = Vec::new();
                world.play(&play, &mut reply);
                life.plays.push(play);
                life.replies.push(reply);
            }
        }
        life
    }

    fn next(&mut self, tools: &mut Tools, world: &World) -> Vec<Play> {
        let rng = &mut self.rng;
        match rng.below(20) {
            0 => vec![lookup(rng, &world.sheet)],
            1 => vec![Play::Save],
            2 => vec![Play::Remove(stores::number(rng, &world.store))],
            3 | 4 => {
                // mostly on a connection at level 0
                let c = gen::connection(rng);
                let number = stores::number(rng, &world.store);
                let found = (c < 2 && rng.chance(70))
                    .then_some(Play::Found(c, Session { open: true, level: 0 }));
                found.into_iter().chain([Play::Restore(c, number)]).collect()
            }
            5 => {
                let trace = traces::trace(rng, &world.sheet, &world.sessions);
                let log = rng.bytes(60 * trace::LINE);
                vec![Play::Trace(trace), Play::Pieces(0, rng.within(0, 60) as u64, log)]
            }
            6..=12 => vec![Play::of(gen::event(rng, &world.sheet))],
            _ => vec![Play::of(tools.event(rng, &world.sheet, &world.sessions))],
        }
    }
}

impl Life {
    /// All commands: what is handed over, the conversion, and what happens then.
    fn all(&self) -> impl Iterator<Item = Play> + '_ {
        let handed = start(&self.sheet, &self.store, self.sessions);
        let first = [Play::Fresh].into_iter().chain(handed).chain([Play::Convert]);
        first.chain(self.plays.iter().cloned())
    }

    fn wire(&self) -> Vec<u8> {
        let mut wire = Vec::new();
        self.all().for_each(|play| play.send(&mut wire));
        wire
    }

    /// What is due for each: to the conversion what this release says, to the rest what the release before said.
    fn due(&self) -> Vec<Vec<u8>> {
        let mut world = World::new(Fault::None);
        let mut now = |play| {
            let mut reply = Vec::new();
            world.play(&play, &mut reply);
            reply
        };
        let handed = self.all().take(self.all().count() - self.plays.len());
        let first: Vec<Vec<u8>> = handed.map(&mut now).collect();
        first.into_iter().chain(self.replies.iter().cloned()).collect()
    }

    /// The first command that did not get what was due.
    fn differs(&self, got: &[u8]) -> Option<usize> {
        let mut rest = got;
        self.due().iter().position(|due| match rest.split_at_checked(due.len()) {
            Some((one, more)) => {
                rest = more;
                one != due
            }
            None => true,
        })
    }

    fn show(&self, at: usize) {
        println!("# the release before, on the sheet as it was before it was converted, says another thing to the last of these");
        for play in self.all().take(at + 1) {
            println!("{}", play.line(&self.sheet));
        }
        println!("# the release before: {}", self.all().nth(at).unwrap().explain(&self.due()[at]));
    }
}

#[derive(Default)]
struct Tally {
    lives: usize,
    events: usize,
    carried_out: usize,
    restored: usize,
    played: usize,
}

impl Tally {
    fn count(&mut self, life: &Life) {
        self.lives += 1;
        self.events += life.plays.len();
        for (play, reply) in life.plays.iter().zip(&life.replies) {
            match play {
                Play::Request(_) => self.carried_out += usize::from(reply[0] <= 1),
                Play::Restore(..) => self.restored += usize::from(reply[0] == 1),
                Play::Pieces(..) => {
                    self.played += usize::from(u16::from_le_bytes([reply[1], reply[2]]));
                }
                _ => {}
            }
        }
    }
}

/// A conversion that does more, or less, is found in the model itself: else all of this says little.
fn sees(fault: Fault, seed: u64) -> bool {
    let mut maker = Maker { rng: Rng::new(seed) };
    let mut events = 0;
    while events < FAULT_EVENTS {
        let life = maker.life(usize::MAX);
        let (mut world, mut got) = (World::new(fault), Vec::new());
        life.all().for_each(|play| world.play(&play, &mut got));
        if life.differs(&got).is_some() {
            return true;
        }
        events += life.plays.len();
    }
    println!("compare: fault {fault:?} not found by the release before");
    false
}

/// So many events after conversions.
pub fn before(program: &str, events: usize, seed: u64) -> bool {
    let mut bridge = Bridge::start(program);
    let mut maker = Maker { rng: Rng::new(seed) };
    let mut tally = Tally::default();
    while tally.events < events {
        let life = maker.life(events);
        bridge.send(life.wire());
        let got = bridge.receive(life.due().iter().map(Vec::len).sum());
        if let Some(at) = life.differs(&got) {
            life.show(at);
            println!("compare: a converted sheet is not what the old one was, seed {seed}");
            return false;
        }
        tally.count(&life);
    }
    let found = Fault::CONVERTING.into_iter().filter(|&fault| sees(fault, seed)).count();
    println!(
        "compare: {} old sheets in a model of the release before, converted in this one, seed {seed}: {} events of both, {} requests carried out, {} versions restored, {} events of traces: 0 different; {found} of {} faults found",
        tally.lives,
        tally.events,
        tally.carried_out,
        tally.restored,
        tally.played,
        Fault::CONVERTING.len()
    );
    found == Fault::CONVERTING.len()
        && bridge.finish()
        && tally.carried_out * 12 > tally.events
        && tally.restored * 1000 > tally.events
        && tally.played * 6 > tally.events
}
