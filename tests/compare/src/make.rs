//! What is played next: scenes of random sheets, runs of events, PDUs, versions, traces, and frames.

use std::collections::VecDeque;

use model::device::Session;
use model::faults::Fault;
use model::gen::links::Links;
use model::gen::{self, stores, traces, Ask, Event, Rng, Tools};
use model::matrix;
use model::sheet::{self, Memory, OLD};
use model::{store, trace};

use crate::flat::Flat;
use crate::play::{Play, World};

enum Scene {
    /// Nothing more than what is queued.
    Queued,
    /// Events of all sorts, the sessions often set from outside.
    Mixed,
    /// The sessions are changed by calls alone, so levels come from keys.
    History,
    /// The same by two tools that go by the keys they know.
    Tools(Tools),
    /// One byte is damaged, a little is played, and the byte is mended.
    Damaged,
    /// PDUs read and written.
    Pdus,
    /// Versions saved, restored and removed while the settings change.
    Versions,
    /// Traces played in pieces, so many events of the one at hand having been played.
    Traces(u64),
    /// Frames on a bus where several speak.
    Links(Links),
}

pub struct Maker {
    rng: Rng,
    /// No PDUs are read or written.
    device_alone: bool,
    scene: Scene,
    left: usize,
    queue: VecDeque<Play>,
    /// How many events were played with marks.
    marked: u32,
}

impl Maker {
    pub fn new(seed: u64, device_alone: bool) -> Maker {
        let (rng, scene, queue) = (Rng::new(seed), Scene::Queued, VecDeque::new());
        Maker { rng, device_alone, scene, left: 0, queue, marked: 0 }
    }

    /// The next command, for the state that the last one left.
    pub fn next(&mut self, world: &World) -> Play {
        loop {
            if let Some(play) = self.queue.pop_front() {
                return play;
            }
            if self.left == 0 {
                self.open();
                continue;
            }
            self.left -= 1;
            match &mut self.scene {
                Scene::Queued => {}
                Scene::Mixed => self.mixed(world),
                Scene::History => self.history(world),
                Scene::Tools(tools) => {
                    let event = tools.event(&mut self.rng, &world.sheet, &world.sessions);
                    self.push(Play::of(event));
                }
                Scene::Links(links) => {
                    let (rng, sheet) = (&mut self.rng, &world.sheet);
                    let frame = links.frame(rng, sheet, &world.sessions, &world.addresses);
                    self.links(frame);
                }
                Scene::Damaged => self.damaged(world),
                Scene::Pdus => self.pdus(world),
                Scene::Versions => self.versions(world),
                Scene::Traces(place) => {
                    let place = *place;
                    self.traces(world, place);
                }
            }
        }
    }

    fn push(&mut self, play: Play) {
        self.queue.push_back(play);
    }

    fn open(&mut self) {
        let rng = &mut self.rng;
        let long = |rng: &mut Rng| {
            if rng.chance(4) {
                5000
            } else {
                rng.within(50, 750)
            }
        };
        (self.scene, self.left) = match rng.below(50) {
            0..=3 => (Scene::Mixed, long(rng)),
            4 | 5 => (Scene::History, long(rng)),
            6 | 7 => {
                let left = long(rng);
                let sheet = self.lend();
                self.push(Play::Fresh);
                (Scene::Tools(Tools::new(&sheet)), left)
            }
            8 => (Scene::Damaged, rng.within(100, 400)),
            9 if !self.device_alone => (Scene::Pdus, rng.within(300, 900)),
            10..=13 => (Scene::Versions, rng.within(100, 300)),
            14..=16 => (Scene::Traces(0), rng.within(20, 60)),
            17..=19 => {
                let left = long(rng);
                let sheet = if rng.chance(90) {
                    self.lend()
                } else {
                    let sheet = gen::any_sheet(rng);
                    self.push(Play::Sheet(sheet.clone()));
                    sheet
                };
                self.push(Play::Fresh);
                (Scene::Links(Links::new(&mut self.rng, &sheet)), left)
            }
            _ => (Scene::Queued, 0),
        };
        match self.scene {
            Scene::Queued => self.checks(),
            Scene::Pdus | Scene::Tools(_) | Scene::Links(_) => {}
            Scene::Versions => self.open_versions(),
            Scene::Traces(_) => {
                if self.rng.chance(85) {
                    self.lend();
                } else {
                    let sheet = gen::any_sheet(&mut self.rng);
                    self.push(Play::Sheet(sheet));
                }
                self.push(Play::Trace(Vec::new()));
            }
            Scene::History => {
                self.lend();
                self.queue.extend([Play::Fresh, Play::Connect(0), Play::Connect(1)]);
            }
            _ => {
                self.lend();
                for c in 0..2 {
                    let session = gen::session(&mut self.rng);
                    self.push(Play::Found(c, session));
                }
            }
        }
    }

    /// A sheet to play on. A third are old: they refuse a few events, and most are then converted.
    fn lend(&mut self) -> Vec<u8> {
        let sheet = gen::whole_sheet(&mut self.rng);
        self.push(Play::Sheet(sheet.clone()));
        if sheet::check(&sheet) == OLD {
            self.few(&sheet);
            if self.rng.chance(90) {
                self.push(Play::Convert);
            }
        }
        sheet
    }

    /// A few lookups and events.
    fn few(&mut self, sheet: &[u8]) {
        for _ in 0..self.rng.below(3) {
            self.lookup(sheet);
        }
        for _ in 0..self.rng.below(6) {
            self.event(sheet);
        }
    }

    /// A sheet of any sort, and a few events that must respect its rule, perhaps once more after a conversion.
    fn checks(&mut self) {
        let sheet = gen::any_sheet(&mut self.rng);
        self.push(Play::Sheet(sheet.clone()));
        self.few(&sheet);
        if self.rng.chance(30) {
            self.push(Play::Convert);
            self.few(&sheet);
        }
    }

    fn event(&mut self, sheet: &[u8]) {
        let mut event = gen::event(&mut self.rng, sheet);
        if let Event::Request(ask) = &mut event {
            // a bad sheet or an old one comes before the mode: any service in any mode
            if self.rng.chance(60) && sheet::check(sheet) != 0 {
                ask.way.mode = self.rng.below(5) as u8;
            }
        }
        self.push(Play::of(event));
    }

    fn mixed(&mut self, world: &World) {
        if self.rng.chance(5) {
            return self.lookup(&world.sheet);
        }
        self.event(&world.sheet);
    }

    fn history(&mut self, world: &World) {
        let connection = gen::connection(&mut self.rng);
        let closed = (0..2).find(|&c| !world.sessions[c as usize].open);
        if let (Some(c), true) = (closed, self.rng.chance(40)) {
            return self.push(Play::Connect(c));
        }
        match self.rng.below(200) {
            0 => self.push(Play::Disconnect(connection)),
            1 | 2 => self.push(Play::Connect(connection)),
            3 => self.push(Play::Button(true)),
            4 => self.push(Play::Button(false)),
            5 => self.push(Play::Check),
            6..=12 => self.lookup(&world.sheet),
            _ => {
                let mut ask = gen::ask(&mut self.rng, &world.sheet);
                // a restart closes both sessions: most are drawn again
                while matrix::row(&ask.apdu) == 16 && self.rng.chance(80) {
                    ask = gen::ask(&mut self.rng, &world.sheet);
                }
                self.push(Play::Request(ask));
            }
        }
    }

    fn damaged(&mut self, world: &World) {
        let mut hurt = world.sheet.clone();
        gen::damage(&mut self.rng, &mut hurt);
        let Some(at) = (0..hurt.len()).find(|&i| hurt[i] != world.sheet[i]) else {
            return;
        };
        self.push(Play::Poke(at, hurt[at]));
        match self.rng.below(4) {
            0 => self.lookup(&hurt),
            1 => {}
            _ => {
                // the sheet's own changes, if it is accepted, are not followed here
                for _ in 0..self.rng.within(1, 3) {
                    self.event(&hurt);
                }
            }
        }
        self.push(Play::Poke(at, world.sheet[at]));
    }

    fn lookup(&mut self, sheet: &[u8]) {
        let play = lookup(&mut self.rng, sheet);
        self.push(play);
    }

    /// A frame heard, or served; a time-out, the button, or sessions and addresses from outside between.
    fn links(&mut self, frame: Vec<u8>) {
        let rng = &mut self.rng;
        let play = match rng.below(100) {
            0..=4 => Play::Heard(frame),
            5 => Play::Disconnect(rng.below(2) as u8),
            6 => Play::Button(rng.chance(70)),
            7 => {
                let (c, session) = (rng.below(2) as u8, gen::session(rng));
                Play::Found(c, session)
            }
            8 if rng.chance(30) => {
                let address = rng.word();
                Play::Addresses([address, if rng.chance(50) { address } else { rng.word() }])
            }
            _ => {
                let room = if rng.chance(4) { rng.below(25) } else { rng.within(25, 30) };
                Play::Serve(rng.byte(), frame, rng.bytes(room))
            }
        };
        self.push(play);
    }

    /// A sheet with a store, and mostly one connection at level 0.
    fn open_versions(&mut self) {
        let sheet = if self.rng.chance(90) {
            gen::whole_sheet(&mut self.rng)
        } else {
            gen::any_sheet(&mut self.rng)
        };
        let store = stores::store(&mut self.rng, &sheet);
        let old = sheet::check(&sheet) == OLD;
        self.queue.extend([Play::Sheet(sheet), Play::Store(store), Play::Fresh]);
        self.installer();
        if old && self.rng.chance(80) {
            // refused as it is, in both ways
            self.queue.extend([Play::Save, Play::Restore(0, 1), Play::Convert]);
        }
    }

    /// One connection mostly at level 0, the other often beside it at level 1.
    fn installer(&mut self) {
        let c = self.rng.below(2) as u8;
        let own = match self.rng.below(10) {
            0 => gen::session(&mut self.rng),
            _ => Session { open: true, level: 0 },
        };
        let other = match self.rng.below(3) {
            0 => Session { open: true, level: 1 },
            1 => Session { open: false, level: 0 },
            _ => gen::session(&mut self.rng),
        };
        self.queue.extend([Play::Found(c, own), Play::Found(1 - c, other)]);
    }

    fn versions(&mut self, world: &World) {
        // what is refused for sheet or store alone is not played for long
        if sheet::check(&world.sheet) != 0 && self.rng.chance(30) {
            return self.open_versions();
        }
        let rng = &mut self.rng;
        if store::check(&world.store) != 0 && rng.chance(40) {
            let store = stores::store(rng, &world.sheet);
            return self.push(Play::Store(store));
        }
        let number = stores::number(rng, &world.store);
        let play = match rng.below(100) {
            0..=21 => Play::Save,
            22..=44 => {
                let at_zero = |c: &u8| {
                    let session = world.sessions[*c as usize];
                    session.open && session.level == 0
                };
                let c = (0..2).find(at_zero).filter(|_| rng.chance(75));
                Play::Restore(c.unwrap_or_else(|| gen::connection(rng)), number)
            }
            45..=56 => Play::Remove(number),
            57..=58 => Play::Versions,
            59..=63 => {
                let store = stores::store(rng, &world.sheet);
                self.push(Play::Store(store));
                Play::Save
            }
            64..=67 => {
                let store = stores::bad_store(rng, &world.sheet);
                Play::Store(store)
            }
            68..=72 => return self.installer(),
            73 => {
                // another sheet under the same store
                let sheet = gen::any_sheet(rng);
                Play::Sheet(sheet)
            }
            74 => Play::Check,
            75..=77 => return self.damaged(world),
            _ => {
                let mut ask = gen::ask(rng, &world.sheet);
                while matrix::row(&ask.apdu) == 16 {
                    ask = gen::ask(rng, &world.sheet);
                }
                Play::Request(ask)
            }
        };
        self.push(play);
    }

    /// A piece of the trace at hand, or another trace, now and then one that is refused; a session from outside.
    fn traces(&mut self, world: &World, place: u64) {
        let rng = &mut self.rng;
        let playable = trace::check(Fault::None, &world.trace) == 0;
        let all = if playable { trace::events(Fault::None, &world.trace).len() as u64 } else { 0 };
        let left = all.saturating_sub(place);
        match rng.below(20) {
            0 => {
                let (c, session) = (rng.below(2) as u8, gen::session(rng));
                return self.push(Play::Found(c, session));
            }
            1..=3 if left == 0 || rng.chance(30) => {
                let trace = traces::bad_trace(rng, &world.sheet, &world.sessions);
                let log = rng.bytes(2 * trace::LINE);
                self.scene = Scene::Traces(0);
                return self.queue.extend([Play::Trace(trace), Play::Pieces(0, 2, log)]);
            }
            _ if left == 0 && rng.chance(85) => {
                let trace = traces::trace(rng, &world.sheet, &world.sessions);
                self.scene = Scene::Traces(0);
                return self.push(Play::Trace(trace));
            }
            _ => {}
        }
        let limit = match rng.below(10) {
            0 => 0,
            1 => 1,
            2 => left,
            3 => left + 1,
            4 => rng.pick(&[512, 65_535, 65_536, u64::MAX]),
            _ => rng.below(12) as u64,
        };
        let from = match rng.below(30) {
            0 => all,
            1 => all + rng.below(3) as u64,
            2 => rng.pick(&[65_536, 1 << 32, u64::MAX]),
            3 => rng.below(all as usize + 1) as u64,
            _ => place,
        };
        let handled = limit.min(all.saturating_sub(from));
        let need = trace::LINE * handled as usize;
        let long = match rng.below(12) {
            0 => need.saturating_sub(1),
            1 => need.saturating_sub(rng.within(1, 40)),
            2 => need + rng.within(1, 40),
            _ => need,
        };
        if long >= need && from == place {
            self.scene = Scene::Traces(place + handled);
        }
        let log = self.rng.bytes(long);
        if self.rng.chance(50) {
            return self.push(Play::Pieces(from, limit, log));
        }
        let played = match self.rng.below(12) {
            0 => u32::MAX - self.rng.below(12) as u32,
            1 => self.rng.below(1 << 20) as u32,
            _ => self.marked,
        };
        self.marked = self.marked.saturating_add(handled as u32) % (1 << 31);
        self.push(Play::Marked(from, limit, played, log));
    }

    fn pdus(&mut self, world: &World) {
        let rng = &mut self.rng;
        match rng.below(4) {
            0 => {
                let Ask { apdu, .. } = gen::ask(rng, &world.sheet);
                self.push(Play::Read(apdu));
            }
            1 => {
                // any code at any length
                let length = rng.below(19);
                let mut apdu = rng.bytes(length);
                if let ([_, code, ..], true) = (&mut apdu[..], rng.chance(60)) {
                    *code = rng.pick(&[0, 0x40, 0x80, 0xC0, 0xD0, 0xD0, 0xD0]) | rng.byte() & 15;
                }
                self.push(Play::Read(apdu));
            }
            _ => {
                let (pdu, data) = gen::pdu(rng);
                let mut flat = Flat::lay(&pdu, noise(rng));
                match rng.below(40) {
                    0 => flat.kind = rng.byte(),
                    1 => flat.kind = rng.pick(&[28, 29, 255]),
                    2 => flat.serial |= 1 << rng.within(48, 63),
                    _ => {}
                }
                let room = if rng.chance(7) { rng.below(16) } else { rng.within(16, 20) };
                let buffer = rng.bytes(room);
                let mut reply = Vec::new();
                let play = Play::Write(flat, data, buffer);
                World::new(world.fault).play(&play, &mut reply);
                self.push(play);
                if reply[0] == 0 {
                    // what was written is read, sometimes after a slip
                    let mut apdu = reply[2..2 + reply[1] as usize].to_vec();
                    match self.rng.below(8) {
                        0 => apdu.push(self.rng.byte()),
                        1 => drop(apdu.pop()),
                        2 => {
                            let at = self.rng.below(apdu.len());
                            apdu[at] ^= 1 << self.rng.below(8);
                        }
                        _ => {}
                    }
                    self.push(Play::Read(apdu));
                }
            }
        }
    }
}

/// A lookup of what the sheet has, or has not.
pub fn lookup(rng: &mut Rng, sheet: &[u8]) -> Play {
    let good = sheet::rule(sheet) == 0;
    match rng.below(3) {
        0 => {
            let all: Vec<_> = if good { sheet::properties(sheet).collect() } else { vec![] };
            if all.is_empty() || rng.chance(10) {
                Play::Property(rng.byte(), rng.byte())
            } else {
                let p = rng.pick(&all);
                let id = if rng.chance(20) { p.id.wrapping_add(1) } else { p.id };
                Play::Property(p.object, id)
            }
        }
        1 => Play::Region(
            rng.pick(&[Memory::Device, Memory::User]),
            match rng.below(10) {
                0 => rng.draw(),
                1 => rng.pick(&[15, 16, 255, 256, 1 << 32, u64::MAX]),
                _ => rng.below(17) as u64,
            },
        ),
        _ => {
            let all: Vec<_> = if good { sheet::groups(sheet).collect() } else { vec![] };
            if all.is_empty() || rng.chance(10) {
                Play::Group(rng.word())
            } else {
                Play::Group(rng.pick(&all).address.wrapping_add(rng.pick(&[0, 0, 0, 0, 1])))
            }
        }
    }
}

/// Fields that the kind does not have, and so are not looked at; the serial
/// number is a true one, in case a kind with one is drawn later.
fn noise(rng: &mut Rng) -> Flat {
    Flat {
        serial: rng.draw() >> 16,
        key: rng.draw() as u32,
        address: rng.word(),
        domain: rng.word(),
        s: rng.word(),
        maximum: rng.word(),
        outcome: rng.byte(),
        kind: 0,
        v: rng.byte(),
        t: rng.byte(),
        object: rng.byte(),
        id: rng.byte(),
        n: rng.byte(),
        index: rng.byte(),
        class: rng.byte(),
        access: rng.byte(),
        level: rng.byte(),
        data_offset: rng.draw(),
        data_length: rng.draw(),
    }
}
