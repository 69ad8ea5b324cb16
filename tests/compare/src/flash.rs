//! The host of examples/flash.c by the rules alone: what an event brings, what of it is saved before anything is sent, and what is
//! sent; what a unit has in memory when it has started; and random events for it.

use model::device::{self, Sessions, FRESH};
use model::faults::Fault;
use model::gen::{links::Links, Rng};
use model::link::{self, Addresses, Arrival};
use model::sheet::{self, FLAGS, KEYS, PROGRAMMING};
use model::store;

const NO: Fault = Fault::None;

/// What the model has of a unit with power.
#[derive(Clone)]
pub struct State {
    pub sheet: Vec<u8>,
    pub store: Vec<u8>,
    pub sessions: Sessions,
    pub addresses: Addresses,
    pub last_in: [u8; 2],
    pub next_out: [u8; 2],
    /// Something of the sheet is to be saved later.
    pub late: bool,
}

/// When what was stored is due to be saved.
#[derive(Clone, Copy, PartialEq, Eq, Debug)]
pub enum Due {
    Nothing,
    Later,
    Sheet,
    Store,
}

/// What an event brings: the state after it, what is saved before anything is sent, and what is sent.
pub struct Brings {
    pub after: State,
    pub due: Due,
    pub sent: Vec<u8>,
    /// Outcome and number of a version.
    pub version: Option<(u8, u16)>,
}

#[derive(Clone, Debug)]
pub enum Event {
    Frame(Vec<u8>),
    Button(bool),
    Tick,
    Silent(u8),
    Version(u8, u8, u16),
}

/// Whether a part may be saved late: group values alone, or the flags.
fn waits(sheet: &[u8], (offset, length): device::Part) -> bool {
    let bodies: Vec<_> = sheet::groups(sheet).map(|g| g.body..g.body + g.length()).collect();
    (offset, length) == (FLAGS, 1)
        || (offset..offset + length).all(|at| bodies.iter().any(|body| body.contains(&at)))
}

fn due(sheet: &[u8], changed: &[device::Part; 2]) -> Due {
    match (changed.iter().all(|&p| waits(sheet, p)), changed.iter().any(|p| p.1 > 0)) {
        (false, _) => Due::Sheet,
        (true, true) => Due::Later,
        (true, false) => Due::Nothing,
    }
}

impl State {
    /// At power on.
    pub fn fresh(sheet: Vec<u8>, store: Vec<u8>, late: bool) -> State {
        let (addresses, last_in, next_out) = ([0; 2], [255; 2], [0; 2]);
        State { sheet, store, sessions: FRESH, addresses, last_in, next_out, late }
    }

    /// A frame of transport's own, as it is sent.
    fn control(&self, to: u16, octet: u8) -> Vec<u8> {
        let [a, b] = to.to_be_bytes();
        vec![10, 0x11, 0, 0xB0, 0x60, self.sheet[16], self.sheet[17], a, b, 0, octet]
    }

    pub fn brings(&self, event: &Event) -> Brings {
        let mut after = self.clone();
        let nothing = |after| Brings { after, due: Due::Nothing, sent: Vec::new(), version: None };
        match event {
            Event::Frame(bytes) => self.served(bytes),
            Event::Button(on) => {
                device::button(&mut after.sheet, *on);
                after.late |= after.sheet != self.sheet;
                nothing(after)
            }
            Event::Tick => {
                let due = if after.late { Due::Sheet } else { Due::Nothing };
                after.late = false;
                Brings { due, ..nothing(after) }
            }
            Event::Silent(c) => match self.sessions.get(*c as usize) {
                Some(session) if session.open => {
                    device::disconnect(&mut after.sessions, *c);
                    let sent = self.control(self.addresses[*c as usize], 0x81);
                    Brings { sent, ..nothing(after) }
                }
                _ => nothing(after),
            },
            &Event::Version(c, what, number) => {
                let session = self.sessions.get(c as usize).filter(|s| s.open);
                let may = session.is_some_and(|s| s.level <= 1);
                let (sheet, store) = (&mut after.sheet, &mut after.store);
                let n = u64::from(number);
                let (told, due) = match what {
                    1 if may => (store::save(NO, sheet, store), Due::Store),
                    2 => (
                        (store::restore(NO, &self.sessions, c, sheet, store, n), number),
                        Due::Sheet,
                    ),
                    3 if may => ((store::remove(NO, store, n), number), Due::Store),
                    _ => ((11, number), Due::Nothing),
                };
                let due = if told.0 <= 1 { due } else { Due::Nothing };
                after.late &= due != Due::Sheet;
                Brings { due, version: Some(told), ..nothing(after) }
            }
        }
    }

    fn served(&self, bytes: &[u8]) -> Brings {
        let mut after = self.clone();
        let heard = link::heard(NO, &self.sessions, &self.addresses, link::own(&self.sheet), bytes);
        let (source, sequence, _) = link::sender(NO, bytes);
        let partner = match heard {
            Ok(Arrival::Data(way)) if way.mode == 3 => Some(way.connection as usize),
            _ => None,
        };
        let acknowledgement = |state: &State| state.control(source, 0xC2 | sequence << 2);
        if let Some(c) = partner {
            if sequence != self.last_in[c].wrapping_add(1) & 15 {
                let again = sequence == self.last_in[c];
                let sent = if again { acknowledgement(self) } else { Vec::new() };
                return Brings { after, due: Due::Nothing, sent, version: None };
            }
        }
        let next = partner.map_or(0, |c| self.next_out[c]);
        let mut answer = [0; 25];
        let link = (&mut after.sessions, &mut after.addresses);
        let served = link::serve(NO, link, next, bytes, &mut after.sheet, &mut answer);
        let due = due(&after.sheet, &served.changed);
        match due {
            Due::Later => after.late = true,
            Due::Sheet => after.late = false,
            _ => {}
        }
        if let Ok(Arrival::Connect(c)) = heard {
            (after.last_in[c as usize], after.next_out[c as usize]) = (255, 0);
        }
        let mut sent = Vec::new();
        if let Some(c) = partner {
            after.last_in[c] = sequence;
            sent.extend(acknowledgement(&after));
            if served.count > 0 {
                after.next_out[c] = (after.next_out[c] + 1) & 15;
            }
        }
        if served.count > 0 {
            sent.push(served.count);
            sent.extend(&answer[..served.count as usize]);
        }
        if served.number == 61 || served.number == 62 {
            sent.extend(after.control(source, 0x81));
        }
        for c in 0..2 {
            let closed = self.sessions[c].open && !after.sessions[c].open;
            if closed && !matches!(heard, Ok(Arrival::Disconnect(_))) {
                sent.extend(after.control(after.addresses[c], 0x81));
            }
        }
        Brings { after, due, sent, version: None }
    }
}

/// What a unit has in memory when it has started from a sheet.
pub fn started(sheet: &[u8]) -> Vec<u8> {
    let mut sheet = converted(sheet);
    sheet[FLAGS] &= !PROGRAMMING;
    sheet
}

pub fn converted(sheet: &[u8]) -> Vec<u8> {
    let mut sheet = sheet.to_vec();
    sheet::convert(NO, &mut sheet);
    sheet
}

// ---- events ----

pub fn any_event(rng: &mut Rng, links: &mut Links, state: &State) -> Event {
    match rng.below(100) {
        0..=3 => Event::Button(rng.chance(50)),
        4..=7 => Event::Tick,
        8 => Event::Silent(rng.below(3) as u8),
        9..=12 => match (0..2).find(|&c| state.sessions[c].open) {
            Some(c) => Event::Frame(authorize(rng, state, c)),
            None => Event::Tick,
        },
        13..=19 => {
            let kept = store::kept(NO, &state.store);
            let open = (0..2).filter(|&c| state.sessions[c as usize].open);
            let best = open.min_by_key(|&c| state.sessions[c as usize].level);
            let c = best.filter(|_| rng.chance(90)).unwrap_or(rng.clone().below(3) as u8);
            match (kept.is_empty(), rng.below(10)) {
                (true, _) | (_, 0..=3) => Event::Version(c, 1, rng.word()),
                (_, k) => {
                    let number = if k == 9 { rng.word() } else { rng.pick(&kept).0 };
                    Event::Version(c, if k < 8 { 2 } else { 3 }, number)
                }
            }
        }
        _ => {
            let mut frame = links.frame(rng, &state.sheet, &state.sessions, &state.addresses);
            in_sequence(rng, state, &mut frame);
            Event::Frame(frame)
        }
    }
}

/// A partner offers a key, mostly that of level 0: what is seldom met else is so met often.
fn authorize(rng: &mut Rng, state: &State, c: usize) -> Vec<u8> {
    let level = rng.pick(&[0, 0, 0, 1, 2]);
    let sequence = state.last_in[c].wrapping_add(1) & 15;
    let mut frame = vec![0x29, 0, 0xBC, 0x60];
    frame.extend(state.addresses[c].to_be_bytes());
    frame.extend(&state.sheet[16..18]);
    frame.extend([6, 0x43 | sequence << 2, 0xD1, 0]);
    frame.extend(&state.sheet[KEYS + 4 * level..KEYS + 4 * level + 4]);
    frame
}

/// Most partners count right.
fn in_sequence(rng: &mut Rng, state: &State, frame: &mut [u8]) {
    let heard = link::heard(NO, &state.sessions, &state.addresses, link::own(&state.sheet), frame);
    if let (Ok(Arrival::Data(way)), true) = (heard, rng.chance(93)) {
        if way.mode == 3 {
            let next = state.last_in[way.connection as usize].wrapping_add(1) & 15;
            let at = 9 + frame[1] as usize;
            frame[at] = frame[at] & 0xC3 | next << 2;
        }
    }
}
