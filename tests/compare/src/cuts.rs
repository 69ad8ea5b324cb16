//! Power cuts, on the host of examples/flash.c: frames, the button, versions and time, and at any byte of any save the power is cut, or
//! at rest. The model says what each event brings. After a cut the unit has the sheet and the store that it saved last, or, if a save
//! was under way, the ones that it was saving: whole, and these for sure if anything was acknowledged, answered or told. What was to be
//! saved later is lost together. Then both go on from there.

use std::time::Instant;

use model::gen::{self, links::Links, Rng};

use crate::flash::{any_event, converted, started, Brings, Due, Event, State};
use crate::{hex, Bridge};

/// The store of the host under test (tests/cuts/life.c).
const STORE: usize = 2048;
/// The bytes of its slots.
const ROOM: usize = 16_448;
/// No cut.
const NEVER: u64 = u64::MAX;
const HOST_KEPT: u8 = 0;
const HOST_NEW: u8 = 1;

/// The hash of the bridge.
fn hash(bytes: &[u8]) -> u64 {
    let begun = 0xCBF2_9CE4_8422_2325 ^ bytes.len() as u64;
    bytes.iter().fold(begun, |h, &b| (h ^ u64::from(b)).wrapping_mul(0x100_0000_01B3))
}

struct Told {
    powered: bool,
    sheet: u64,
    store: u64,
    sent: Vec<u8>,
}

#[derive(Default)]
struct Tally {
    cuts: usize,
    at_rest: usize,
    kept_new: usize,
    kept_old: usize,
    late_lost: usize,
    saves: usize,
    answered: usize,
    versions: usize,
    starts_cut: usize,
}

/// A unit: the bridge, what the model has of it, and what its medium keeps for sure.
struct Unit<'a> {
    bridge: &'a mut Bridge,
    rng: Rng,
    state: State,
    saved: Vec<u8>,
    saved_store: Vec<u8>,
    tally: &'a mut Tally,
}

type Result<T> = std::result::Result<T, String>;

impl Unit<'_> {
    fn bytes(&mut self, n: usize) -> Result<Vec<u8>> {
        let bytes = self.bridge.receive(n);
        if bytes.len() < n {
            return Err("the unit ended without a reply".to_string());
        }
        Ok(bytes)
    }

    fn told(&mut self) -> Result<Told> {
        let b = self.bytes(19)?;
        let word = |i: usize| u64::from_le_bytes(b[i..i + 8].try_into().unwrap());
        let (powered, sheet, store) = (b[0] == 1, word(1), word(9));
        let sent = self.bytes(u16::from_le_bytes([b[17], b[18]]) as usize)?;
        Ok(Told { powered, sheet, store, sent })
    }

    fn send(&mut self, letter: u8, after: u64, operands: &[u8]) {
        let mut wire = vec![letter];
        wire.extend(after.to_le_bytes());
        wire.push(self.rng.byte());
        wire.extend(self.rng.draw().to_le_bytes());
        wire.extend(operands);
        self.bridge.send(wire);
    }

    /// Power on, until it lasts; the sheet and the store in memory are those of one of the candidates each.
    fn start(
        &mut self,
        sheets: &[Vec<u8>],
        stores: &[Vec<u8>],
        new: bool,
    ) -> Result<(usize, usize)> {
        loop {
            let after = if self.rng.chance(20) { self.rng.below(1500) as u64 } else { NEVER };
            self.send(b'P', after, &[]);
            let held = u64::from_le_bytes(self.bytes(8)?.try_into().unwrap());
            let found = self.bytes(1)?[0];
            let told = self.told()?;
            let place = |all: &[Vec<u8>], is: u64| all.iter().position(|one| hash(one) == is);
            // of one that was to be converted, both
            let sheets: Vec<Vec<u8>> =
                sheets.iter().flat_map(|s| [s.clone(), converted(s)]).collect();
            let sheet = match place(&sheets, held) {
                Some(sheet) => sheet,
                None if new && held == 0 => 0,
                None if held == 0 => return Err("nothing is left to start with".to_string()),
                None => {
                    return Err("half a sheet: neither the one before nor the new one".to_string())
                }
            };
            if !told.powered {
                self.tally.starts_cut += 1; // a first sheet, or one that is converted
                self.bridge.send(b"X".to_vec());
                self.bytes(1)?;
                continue;
            }
            if found != if held == 0 { HOST_NEW } else { HOST_KEPT } {
                return Err(format!("a unit that has a sheet starts with {found}"));
            }
            let memory = started(&sheets[sheet]);
            if told.sheet != hash(&memory) {
                return Err("the sheet in memory is not the one that was kept".to_string());
            }
            let store = place(stores, told.store)
                .ok_or("half a store: neither the one before nor the new one")?;
            let saved = converted(&sheets[sheet]);
            let late = saved != memory;
            self.state = State::fresh(memory, stores[store].clone(), late);
            (self.saved, self.saved_store) = (saved, stores[store].clone());
            return Ok((sheet / 2, store));
        }
    }

    fn cut_at_rest(&mut self) -> Result<()> {
        self.bridge.send(b"X".to_vec());
        self.bytes(1)?;
        self.tally.at_rest += 1;
        self.tally.late_lost += usize::from(self.state.late);
        let (sheet, store) = (self.saved.clone(), self.saved_store.clone());
        self.start(&[sheet], &[store], false).map(|_| ())
    }

    fn play(&mut self, event: &Event) -> Result<()> {
        let brings = self.state.brings(event);
        // of a save every second one is cut: in what comes before the erase, in it, or behind it
        let saves = matches!(brings.due, Due::Sheet | Due::Store);
        let written =
            140 + self.state.sheet.len().max(if brings.due == Due::Store { STORE } else { 0 });
        let after = match self.rng.below(6) {
            0 | 1 if saves => self.rng.below(written) as u64,
            2 if saves => ROOM as u64 + self.rng.below(written) as u64,
            3 => self.rng.below(ROOM + written) as u64,
            _ => NEVER,
        };
        match event {
            Event::Frame(bytes) => {
                let length = (bytes.len() as u16).to_le_bytes();
                self.send(b'F', after, &[&length[..], bytes].concat());
            }
            Event::Button(on) => self.send(b'B', after, &[u8::from(*on)]),
            Event::Tick => self.send(b'T', after, &[]),
            Event::Silent(c) => self.send(b'S', after, &[*c]),
            Event::Version(c, what, number) => {
                let [low, high] = number.to_le_bytes();
                self.send(b'V', after, &[*c, *what, low, high]);
            }
        }
        let version = match brings.version {
            Some(_) => {
                let b = self.bytes(3)?;
                Some((b[0], u16::from_le_bytes([b[1], b[2]])))
            }
            None => None,
        };
        let told = self.told()?;
        if told.powered {
            return self.with_power(brings, &told, version);
        }
        self.without(brings, &told)
    }

    /// Nothing was cut: all is as the model has it.
    fn with_power(
        &mut self,
        brings: Brings,
        told: &Told,
        version: Option<(u8, u16)>,
    ) -> Result<()> {
        let after = &brings.after;
        if told.sent != brings.sent {
            return Err(format!("it sent {}, and {} is due", hex(&told.sent), hex(&brings.sent)));
        }
        if version != brings.version {
            return Err(format!("a version gave {version:?}, and {:?} is due", brings.version));
        }
        if (told.sheet, told.store) != (hash(&after.sheet), hash(&after.store)) {
            return Err("the sheet or the store in memory is another".to_string());
        }
        match brings.due {
            Due::Sheet => self.saved.clone_from(&after.sheet),
            Due::Store => self.saved_store.clone_from(&after.store),
            _ => {}
        }
        self.tally.saves += usize::from(matches!(brings.due, Due::Sheet | Due::Store));
        self.tally.answered += usize::from(!told.sent.is_empty());
        self.tally.versions += usize::from(version.is_some_and(|v| v.0 <= 1));
        self.state = brings.after;
        Ok(())
    }

    /// The power was cut during a save: the one before or the new one, and the new one if anything was sent.
    fn without(&mut self, brings: Brings, told: &Told) -> Result<()> {
        let (sheet, store) = (self.saved.clone(), self.saved_store.clone());
        let (sheets, stores) = match brings.due {
            Due::Sheet => (vec![brings.after.sheet.clone(), sheet], vec![store]),
            Due::Store => (vec![sheet], vec![brings.after.store.clone(), store]),
            due => return Err(format!("a save was made where {due:?} is due")),
        };
        self.tally.cuts += 1;
        self.tally.late_lost += usize::from(self.state.late && brings.due == Due::Store);
        self.bridge.send(b"X".to_vec());
        self.bytes(1)?;
        let (sheet, store) = self.start(&sheets, &stores, false)?;
        let old = sheet + store > 0;
        *(if old { &mut self.tally.kept_old } else { &mut self.tally.kept_new }) += 1;
        if old && !told.sent.is_empty() {
            return Err(format!("lost: {} was sent before it was saved", hex(&told.sent)));
        }
        Ok(())
    }
}

/// A sheet that is not long, since a save works all of it.
fn any_sheet(rng: &mut Rng, whole: fn(&mut Rng) -> Vec<u8>) -> Vec<u8> {
    let most = rng.pick(&[100, 300, 1000, 1000, 16_384]);
    loop {
        let sheet = whole(rng);
        if sheet.len() <= most {
            return sheet;
        }
    }
}

/// One unit from its factory on, for so many events.
fn life(bridge: &mut Bridge, rng: &mut Rng, events: usize, tally: &mut Tally) -> Result<()> {
    let kept = rng.chance(70);
    let made = if rng.chance(10) { gen::old_sheet } else { gen::sheet };
    let sheet = any_sheet(rng, made);
    let mut wire = vec![if kept { b'N' } else { b'E' }];
    if kept {
        let first =
            if rng.chance(50) { u32::MAX - rng.below(40) as u32 } else { rng.below(9) as u32 };
        wire.extend(first.to_le_bytes());
    }
    wire.extend((sheet.len() as u32).to_le_bytes());
    wire.extend(&sheet);
    bridge.send(wire);
    let store = vec![0; STORE];
    let state = State::fresh(started(&sheet), store.clone(), false);
    let mut unit = Unit {
        bridge,
        rng: Rng::new(rng.draw()),
        state,
        saved: sheet.clone(),
        saved_store: store.clone(),
        tally,
    };
    unit.bytes(1)?;
    unit.start(&[sheet], &[store], !kept)?;
    let mut links = Links::new(rng, &unit.state.sheet);
    for k in 0..events {
        let event = any_event(rng, &mut links, &unit.state);
        let done = if rng.chance(1) { unit.cut_at_rest() } else { unit.play(&event) };
        done.map_err(|why| format!("event {k} of a life, {event:?}: {why}"))?;
    }
    unit.cut_at_rest()
}

/// So many events in lives of some hundreds; what was found.
pub fn cuts(program: &str, events: usize, seed: u64) -> bool {
    let began = Instant::now();
    let mut bridge = Bridge::start(program);
    let (mut rng, mut tally, mut played) = (Rng::new(seed), Tally::default(), 0);
    while played < events {
        let next = rng.within(50, 800).min(events - played);
        if let Err(why) = life(&mut bridge, &mut rng, next, &mut tally) {
            println!("cuts: seed {seed}, after {played} events: {why}");
            return false;
        }
        played += next;
    }
    let seconds = began.elapsed().as_secs_f64();
    let t = &tally;
    println!(
        "cuts: {events} events, seed {seed}: {} answered, {} saved, {} versions; power cut during {} saves (before {}, new {}), {} starts, and {} times at rest; {} times values to be saved later were lost together: 0 lost, 0 half ({seconds:.0} s)",
        t.answered, t.saves, t.versions, t.cuts, t.kept_old, t.kept_new, t.starts_cut, t.at_rest, t.late_lost
    );
    let seen = [t.answered, t.saves, t.cuts, t.kept_old, t.kept_new, t.at_rest, t.late_lost];
    let enough = events < 10_000 || seen.iter().all(|&n| n > events / 10_000);
    if !enough {
        println!("cuts: too few of some");
    }
    bridge.finish() && enough
}
