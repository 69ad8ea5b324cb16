//! Isolation, on the library: two runs from the same sheet and sessions, in which a
//! tool and all other traffic do the same, and the other tool sends what it likes in
//! each, on its connection or on none, as long as no byte of the sheet changes by it
//! and it restarts nothing. A restore is its connection's; what changes the store is
//! the same in both.
//! Then the tool is answered alike: each event that both runs have gets the same
//! outcome and answer, whatever its buffer held before, and after every event sheet
//! and the tool's session are the same in both.

use model::device::Sessions;
use model::faults::Fault;
use model::gen::{self, stores, Ask, Event, Rng, Tools};
use model::matrix;

use crate::pairs::{alike, received, seen, start, Seen};
use crate::play::{Play, World};
use crate::{Bridge, FAULT_EVENTS};

/// What happens in both runs, or in the run of that number alone.
enum Step {
    Both([Play; 2]),
    Alone(usize, Play),
}

/// Two runs, and what the model says of each event.
struct Pair {
    sheet: Vec<u8>,
    store: Vec<u8>,
    sessions: Sessions,
    /// The connection of the tool whose answers are looked at.
    tool: usize,
    steps: Vec<Step>,
    replies: [Vec<u8>; 2],
}

/// Whether an event is the other tool's: it names that connection.
fn is_of(other: usize, event: &Event) -> bool {
    let named = match event {
        Event::Connect(c) | Event::Disconnect(c) => *c,
        Event::Request(ask) if ask.way.mode == 3 => ask.way.connection,
        _ => return false,
    };
    named as usize == other
}

/// Whether a request names no connection.
fn unconnected(ask: &Ask) -> bool {
    ask.way.mode != 3
}

/// Whether an event may be the other tool's: it is, or it is a request that names no connection.
fn may_be_of(other: usize, event: &Event) -> bool {
    is_of(other, event) || matches!(event, Event::Request(ask) if unconnected(ask))
}

struct Maker {
    rng: Rng,
    fault: Fault,
}

impl Maker {
    /// Two runs of up to so many steps.
    fn pair(&mut self, most: usize) -> Pair {
        let rng = &mut self.rng;
        let sheet = gen::sheet(rng);
        let sessions = [gen::session(rng), gen::session(rng)];
        let tool = rng.below(2);
        let store = stores::store(rng, &sheet);
        let fault = self.fault;
        let (lent, trace) = ((sheet.clone(), store.clone()), Vec::new());
        let marks = vec![0; lent.0.len() + 2];
        let world = World {
            told: None,
            sheet: lent.0,
            store: lent.1,
            trace,
            sessions,
            addresses: [0; 2],
            marks,
            fault,
        };
        let mut worlds = [world.clone(), world];
        let mut tools = Tools::new(&sheet);
        let (steps, replies) = (Vec::new(), [Vec::new(), Vec::new()]);
        let mut pair = Pair { sheet, store, sessions, tool, steps, replies };
        for _ in 0..self.rng.within(10, 120).min(most) {
            let step = match self.rng.below(4) {
                0 | 1 => self.shared(tool, &mut tools, &worlds[0]),
                run => self.alone(1 - tool, run - 2, &mut tools, &worlds[run - 2]),
            };
            let Some(step) = step else { continue };
            for (run, (world, replies)) in worlds.iter_mut().zip(&mut pair.replies).enumerate() {
                if let Some(play) = step.play(run) {
                    world.play(play, replies);
                }
            }
            pair.steps.push(step);
        }
        pair
    }

    /// The tool's, or anything but the other tool's.
    fn shared(&mut self, tool: usize, tools: &mut Tools, world: &World) -> Option<Step> {
        if self.rng.chance(12) {
            let number = stores::number(&mut self.rng, &world.store);
            let play = match self.rng.below(5) {
                0 => Play::Save,
                1 => Play::Remove(number),
                _ => Play::Restore(tool as u8, number),
            };
            return Some(Step::Both([play.clone(), play]));
        }
        let event = if self.rng.chance(70) {
            tools.event_of(tool, &mut self.rng, &world.sheet, world.sessions[tool])
        } else {
            gen::event(&mut self.rng, &world.sheet)
        };
        if is_of(1 - tool, &event) || matches!(event, Event::Found(..)) {
            return None;
        }
        let play = Play::of(event);
        let second = alike(&mut self.rng, &play);
        Some(Step::Both([play, second]))
    }

    /// The other tool's, by which no byte changes and nothing is restarted.
    fn alone(
        &mut self,
        other: usize,
        run: usize,
        tools: &mut Tools,
        world: &World,
    ) -> Option<Step> {
        let own = world.sessions[other];
        if self.rng.chance(6) {
            let number = stores::number(&mut self.rng, &world.store);
            let (play, mut after) = (Play::Restore(other as u8, number), world.clone());
            after.play(&play, &mut Vec::new());
            return (after.sheet == world.sheet).then_some(Step::Alone(run, play));
        }
        let mut event = tools.event_of(other, &mut self.rng, &world.sheet, own);
        if !may_be_of(other, &event) {
            return None;
        }
        match &mut event {
            Event::Request(ask) if unconnected(ask) => {
                ask.way.connection = self.rng.below(3) as u8; // which isn't read
            }
            _ => (),
        }
        let restart = matches!(&event, Event::Request(ask) if matrix::row(&ask.apdu) == 16);
        let (play, mut after, mut reply) = (Play::of(event), world.clone(), Vec::new());
        after.play(&play, &mut reply);
        let harmless = after.sheet == world.sheet && !(restart && reply[0] <= 1);
        harmless.then_some(Step::Alone(run, play))
    }
}

impl Step {
    /// What of it is in this run.
    fn play(&self, run: usize) -> Option<&Play> {
        match self {
            Step::Both(plays) => Some(&plays[run]),
            Step::Alone(alone, play) => (*alone == run).then_some(play),
        }
    }
}

impl Pair {
    fn start(&self) -> Vec<Play> {
        start(&self.sheet, &self.store, self.sessions)
    }

    fn wire(&self, run: usize) -> Vec<u8> {
        let mut wire = Vec::new();
        self.start().iter().for_each(|play| play.send(&mut wire));
        self.steps.iter().filter_map(|step| step.play(run)).for_each(|play| play.send(&mut wire));
        wire
    }

    /// The first step at which the runs are not alike to the tool.
    fn differs(&self, replies: [&[u8]; 2], tally: &mut Tally) -> Option<usize> {
        let mut replies = replies;
        let found = self.sessions[self.tool];
        let mut session = [found.open as u8, found.level];
        let mut sheet = crate::play::hash(&self.sheet).to_le_bytes();
        for (i, step) in self.steps.iter().enumerate() {
            let mut see = |run: usize, play| seen(play, &mut replies[run]);
            match step {
                Step::Both([first, second]) => {
                    let (Some(one), Some(two)) = (see(0, first), see(1, second)) else {
                        return Some(i);
                    };
                    let left = |seen: &Seen| (seen.session(self.tool), seen.sheet);
                    if !one.told_as(&two) || left(&one) != left(&two) {
                        return Some(i);
                    }
                    tally.shared += 1;
                    tally.answered += usize::from(!one.answer.is_empty());
                    tally.versions += usize::from(first.on_store());
                    session = one.session(self.tool).unwrap_or(session);
                    sheet = one.sheet.unwrap_or(sheet);
                }
                Step::Alone(run, play) => {
                    let Some(seen) = see(*run, play) else { return Some(i) };
                    if (seen.session(self.tool), seen.sheet) != (Some(session), Some(sheet)) {
                        return Some(i);
                    }
                    tally.alone += 1;
                    tally.unconnected +=
                        usize::from(matches!(play, Play::Request(ask) if unconnected(ask)));
                    tally.carried_out += usize::from(seen.outcome <= 1);
                }
            }
        }
        None
    }

    /// Both runs up to a step, in lines for the desk unit.
    fn show(&self, at: usize) {
        for run in 0..2 {
            println!(
                "# run {}; connection {} must see what it sees in the other",
                run + 1,
                self.tool
            );
            for play in self.start() {
                println!("{}", play.line(&self.sheet));
            }
            for play in self.steps[..=at].iter().filter_map(|step| step.play(run)) {
                println!("{}", play.line(&[]));
            }
        }
    }
}

#[derive(Default)]
struct Tally {
    runs: usize,
    shared: usize,
    answered: usize,
    versions: usize,
    alone: usize,
    unconnected: usize,
    carried_out: usize,
}

/// A fault that mixes the sessions is found in the model itself: else all of this says little.
fn sees(fault: Fault, seed: u64) -> bool {
    let mut maker = Maker { rng: Rng::new(seed), fault };
    let mut tally = Tally::default();
    while tally.shared + tally.alone < FAULT_EVENTS {
        let pair = maker.pair(usize::MAX);
        if pair.differs([&pair.replies[0], &pair.replies[1]], &mut tally).is_some() {
            return true;
        }
    }
    println!("compare: fault {fault:?} not found by two runs");
    false
}

/// So many events on two bridges.
pub fn apart(program: &str, events: usize, seed: u64) -> bool {
    let mut bridges = [Bridge::start(program), Bridge::start(program)];
    let mut maker = Maker { rng: Rng::new(seed), fault: Fault::None };
    let mut tally = Tally::default();
    while tally.shared + tally.alone < events {
        let pair = maker.pair(events);
        for (run, bridge) in bridges.iter().enumerate() {
            bridge.send(pair.wire(run));
        }
        let due = pair.replies.each_ref().map(Vec::len);
        let got: [Vec<u8>; 2] = std::array::from_fn(|run| received(&mut bridges[run], due[run]));
        tally.runs += 1;
        if let Some(at) = pair.differs([&got[0], &got[1]], &mut tally) {
            pair.show(at);
            println!("compare: two runs with other doings of the other tool differ, seed {seed}");
            return false;
        }
    }
    let found = Fault::MIXING.into_iter().filter(|&fault| sees(fault, seed)).count();
    println!(
        "compare: {} times two runs, seed {seed}: {} events of both, {} answered, {} about versions, and {} of the other tool in one, {} on no connection, {} carried out: 0 different; {found} of {} faults found",
        tally.runs,
        tally.shared,
        tally.answered,
        tally.versions,
        tally.alone,
        tally.unconnected,
        tally.carried_out,
        Fault::MIXING.len()
    );
    let ended = bridges.map(Bridge::finish);
    found == Fault::MIXING.len()
        && ended == [true; 2]
        && tally.answered * 4 > tally.shared
        && tally.versions * 20 > tally.shared
        && tally.carried_out * 4 > tally.alone
        && tally.unconnected * 20 > tally.alone
}
