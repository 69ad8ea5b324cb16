//! The libraries against the plain model, event by event.
//!
//!     compare BRIDGE [EVENTS [SEED]]     plays the events on both sides
//!     compare BRIDGE --faults [SEED]     the model's faults are each found
//!     compare BRIDGE --apart [EVENTS [SEED]]   what one tool does is nothing to the other
//!     compare BRIDGE --learn [EVENTS [SEED]]   secret bytes are told by nothing
//!     compare BRIDGE --before [EVENTS [SEED]]  a converted sheet is what the old one was in the release before
//!     compare LIFE --cuts [EVENTS [SEED]]      power cuts, on the host of tests/cuts/life.c
//!     compare BRIDGE --scripts NAME..    scripts of the desk unit, NAME.in and NAME.out
//!     compare --times BRIDGE..           instructions of each request, of boards that count them
//!
//! With --device before these no PDU is read or written, for a bridge that has the device alone.
//! With SHOW in the environment each fault is shown as a difference would be.
//! BRIDGE is the program of bridge.c. Everything it replies is compared: the
//! rule of each sheet, outcome, count, both sessions, the whole answer buffer and a
//! hash of the whole sheet after each event, lookups, PDUs read and written, and of
//! the calls on a store of versions a hash of the whole store as well; of a trace that
//! is played in pieces the whole log; of a frame what it is, and of serving it the
//! addresses of both partners and the whole buffer.

mod apart;
mod before;
mod cuts;
mod flash;
mod flat;
mod learn;
mod make;
mod pairs;
mod play;
mod script;
mod shrink;
mod tally;
mod times;

use std::io::{Read, Write};
use std::process::{Child, ChildStdout, Command, ExitCode, Stdio};
use std::sync::mpsc::{self, Sender};
use std::time::{Instant, SystemTime, UNIX_EPOCH};

use make::Maker;
use model::faults::Fault;
use model::sheet;
use play::{Play, World};
use tally::Tally;

pub const EVENTS: usize = 2_000_000;
const BATCH: usize = 2000;
/// A fault must be found within so many events.
const FAULT_EVENTS: usize = 100_000;

pub fn hex(bytes: &[u8]) -> String {
    if bytes.is_empty() {
        return "-".to_string();
    }
    bytes.iter().map(|b| format!("{b:02x}")).collect()
}

/// A running bridge. Commands go out from a thread of their own, so that
/// neither side waits for the other with full pipes.
struct Bridge {
    child: Child,
    commands: Option<Sender<Vec<u8>>>,
    replies: ChildStdout,
}

impl Bridge {
    fn start(program: &str) -> Bridge {
        let mut child = Command::new(program)
            .stdin(Stdio::piped())
            .stdout(Stdio::piped())
            .spawn()
            .unwrap_or_else(|e| {
                eprintln!("compare: {program} can't be run: {e}");
                std::process::exit(2)
            });
        let mut input = child.stdin.take().unwrap();
        let replies = child.stdout.take().unwrap();
        let (commands, queue) = mpsc::channel::<Vec<u8>>();
        std::thread::spawn(move || {
            for bytes in queue {
                if input.write_all(&bytes).is_err() {
                    break; // seen as a missing reply
                }
            }
        });
        Bridge { child, commands: Some(commands), replies }
    }

    fn send(&self, bytes: Vec<u8>) {
        let _ = self.commands.as_ref().unwrap().send(bytes);
    }

    /// So many bytes of replies, or as many as there were before its end.
    fn receive(&mut self, length: usize) -> Vec<u8> {
        let mut bytes = Vec::with_capacity(length);
        let _ = (&mut self.replies).take(length as u64).read_to_end(&mut bytes);
        bytes
    }

    /// No more commands: it says what it has to say, and ends well or not.
    fn finish(mut self) -> bool {
        self.commands = None;
        self.child.wait().is_ok_and(|status| status.success())
    }
}

impl Drop for Bridge {
    fn drop(&mut self) {
        self.commands = None;
        let _ = self.child.kill();
        let _ = self.child.wait();
    }
}

/// Commands that go out together, and what they must bring.
struct Batch {
    /// Number of the first event, from 0.
    first: usize,
    start: World,
    plays: Vec<Play>,
    /// The rules of the sheet that each of them finds.
    rules: Vec<u8>,
    expected: Vec<u8>,
    ends: Vec<usize>,
}

impl Batch {
    fn make(first: usize, size: usize, maker: &mut Maker, world: &mut World) -> Batch {
        let (plays, rules, expected, ends) = (Vec::new(), Vec::new(), Vec::new(), Vec::new());
        let mut batch = Batch { first, start: world.clone(), plays, rules, expected, ends };
        for _ in 0..size {
            let play = maker.next(world);
            batch.rules.push(sheet::rules(&world.sheet));
            world.play(&play, &mut batch.expected);
            batch.plays.push(play);
            batch.ends.push(batch.expected.len());
        }
        batch
    }

    fn wire(&self) -> Vec<u8> {
        let mut wire = Vec::new();
        self.plays.iter().for_each(|play| play.send(&mut wire));
        wire
    }

    /// The part of the replies that belongs to event i.
    fn range(&self, i: usize) -> std::ops::Range<usize> {
        let from = if i == 0 { 0 } else { self.ends[i - 1] };
        from..self.ends[i]
    }

    /// The first event whose reply is missing or another.
    fn differs(&self, replies: &[u8]) -> Option<usize> {
        if replies == self.expected {
            return None;
        }
        (0..self.plays.len())
            .find(|&i| replies.get(self.range(i)) != self.expected.get(self.range(i)))
    }
}

/// The batch with the first difference and the one after it, and where it is
/// in the first. A bridge that ends may take with it replies that it kept, so
/// its last command may be in the second.
struct Difference {
    batches: Vec<Batch>,
    at: usize,
}

impl Difference {
    /// Number of the event, from 1.
    fn number(&self) -> usize {
        self.batches[0].first + self.at + 1
    }
}

/// What is played: which bridge, and whether it has the device alone.
#[derive(Clone, Copy)]
struct Side<'a> {
    program: &'a str,
    device_alone: bool,
}

/// Plays `events` up to the first difference.
fn run(
    side: Side,
    events: usize,
    seed: u64,
    fault: Fault,
    tally: &mut Tally,
) -> Option<Difference> {
    let mut bridge = Bridge::start(side.program);
    let mut maker = Maker::new(seed, side.device_alone);
    let mut world = World::new(fault);
    let mut made = 0;
    let mut waiting: Option<Batch> = None;
    loop {
        // the next batch is made while the bridge plays the last one
        let next = (made < events).then(|| {
            let batch = Batch::make(made, BATCH.min(events - made), &mut maker, &mut world);
            made += batch.plays.len();
            bridge.send(batch.wire());
            batch
        });
        if let Some(batch) = waiting.take() {
            let replies = bridge.receive(batch.expected.len());
            if let Some(i) = batch.differs(&replies) {
                let batches = [Some(batch), next].into_iter().flatten().collect();
                return Some(Difference { batches, at: i });
            }
            for (i, play) in batch.plays.iter().enumerate() {
                tally.count(batch.rules[i], play, &replies[batch.range(i)]);
            }
            tally.add_block(play::hash(&replies));
        } else if next.is_none() {
            tally.ended_badly = !bridge.finish();
            return None;
        }
        waiting = next;
    }
}

/// One event on a bridge: the replies of the model and of the library, which
/// is too short if the bridge ended, and the model afterwards.
fn single(bridge: &mut Bridge, before: &World, play: &Play) -> (Vec<u8>, Vec<u8>, World) {
    let mut world = before.clone();
    let mut expected = Vec::new();
    world.play(play, &mut expected);
    let mut wire = Vec::new();
    Play::Sheet(before.sheet.clone()).send(&mut wire);
    Play::Store(before.store.clone()).send(&mut wire);
    Play::Trace(before.trace.clone()).send(&mut wire);
    for (c, session) in (0..).zip(before.sessions) {
        Play::Found(c, session).send(&mut wire);
    }
    Play::Addresses(before.addresses).send(&mut wire);
    play.send(&mut wire);
    bridge.send(wire);
    let skip = 9 + 9 + 1 + 2 * 4 + 4; // the replies to sheet, store, trace, sessions and addresses
    let mut got = bridge.receive(skip + expected.len());
    got.drain(..skip.min(got.len()));
    (expected, got, world)
}

/// Plays the batches once more, each event on its own, and prints the first
/// difference, with a sheet as small as can be, in lines for the desk unit.
/// Gives the number of the event.
fn report(program: &str, seed: u64, difference: &Difference) -> usize {
    let mut bridge = Bridge::start(program);
    let mut differs = |before: &World, play: &Play| {
        let (expected, got, _) = single(&mut bridge, before, play);
        if got.len() < expected.len() {
            bridge = Bridge::start(program);
        }
        got != expected
    };
    let first = &difference.batches[0];
    let mut before = first.start.clone();
    let mut plays = difference.batches.iter().flat_map(|batch| &batch.plays).enumerate();
    let found = plays.find(|(_, play)| {
        let found = differs(&before, play);
        if !found {
            before.play(play, &mut Vec::new());
        }
        found
    });
    let Some((i, play)) = found else {
        println!("# {}", first.plays[difference.at].line(&[]));
        println!("# is different in its batch alone, not from the model's state before it");
        return difference.number();
    };
    if !matches!(play, Play::Poke(..) | Play::Sheet(_) | Play::Check) {
        let sheet = std::mem::take(&mut before.sheet);
        before.sheet = shrink::shrink(sheet, |less| {
            differs(&World { sheet: less.to_vec(), ..before.clone() }, play)
        });
    }

    let mut bridge = Bridge::start(program);
    let (expected, got, after) = single(&mut bridge, &before, play);
    let number = first.first + i + 1;
    println!("# event {number} of seed {seed}");
    if !matches!(play, Play::Poke(..) | Play::Sheet(_) | Play::Read(_) | Play::Write(..)) {
        println!("sheet {}", hex(&before.sheet));
        for (c, session) in (0..).zip(before.sessions) {
            println!("{}", Play::Found(c, session).line(&[]));
        }
        println!("{}", Play::Addresses(before.addresses).line(&[]));
    }
    if play.on_store() {
        println!("{}", Play::Store(before.store.clone()).line(&[]));
    }
    if matches!(play, Play::Pieces(..) | Play::Marked(..)) {
        println!("{}", Play::Trace(before.trace.clone()).line(&[]));
    }
    println!("{}", play.line(&after.sheet));
    println!("# model:   {}", play.explain(&expected));
    if got.len() < expected.len() {
        println!("# library: ended without a reply");
        return number;
    }
    println!("# library: {}", play.explain(&got));
    bridge.send(b"D".to_vec());
    let sheet = bridge.receive(after.sheet.len());
    let pairs = sheet.iter().zip(&after.sheet).enumerate();
    for (k, (l, m)) in pairs.filter(|(_, (l, m))| l != m).take(12) {
        println!("# byte {k} of the sheet: model {m:02x}, library {l:02x}");
    }
    bridge.send(b"E".to_vec());
    let store = bridge.receive(after.store.len());
    let pairs = store.iter().zip(&after.store).enumerate();
    for (k, (l, m)) in pairs.filter(|(_, (l, m))| l != m).take(12) {
        println!("# byte {k} of the store: model {m:02x}, library {l:02x}");
    }
    number
}

fn compare(side: Side, events: usize, seed: u64) -> bool {
    println!("compare: seed {seed}");
    let began = Instant::now();
    let mut tally = Tally::default();
    if let Some(difference) = run(side, events, seed, Fault::None, &mut tally) {
        let number = report(side.program, seed, &difference);
        println!("compare: event {number} of {events}, seed {seed}, is different");
        return false;
    }
    let seconds = began.elapsed().as_secs_f64();
    println!("compare: {}", tally.summary());
    if side.device_alone {
        println!("compare: hash of all replies {:016x}", tally.blocks);
    }
    let complaints = tally.complaints(events >= EVENTS && !side.device_alone);
    complaints.iter().for_each(|line| println!("compare: {line}"));
    println!(
        "compare: {events} events, seed {seed}, 0 different ({seconds:.0} s, {:.0} events a second)",
        events as f64 / seconds
    );
    complaints.is_empty()
}

fn faults(side: Side, seed: u64) -> bool {
    let mut found = 0;
    let show = std::env::var_os("SHOW").is_some();
    let all = [&Fault::ALL[..], &Fault::OLD, &Fault::STORE, &Fault::TRACE, &Fault::LINK].concat();
    for &fault in &all {
        match run(side, FAULT_EVENTS, seed, fault, &mut Tally::default()) {
            Some(difference) => {
                found += 1;
                println!("compare: fault {fault:?} found at event {}", difference.number());
                if show {
                    report(side.program, seed, &difference);
                }
            }
            None => println!("compare: fault {fault:?} not found in {FAULT_EVENTS} events"),
        }
    }
    println!("compare: {found} of {} faults found, seed {seed}", all.len());
    found == all.len()
}

fn main() -> ExitCode {
    let mut words: Vec<String> = std::env::args().skip(1).collect();
    let device_alone = words.first().is_some_and(|word| word == "--device");
    if device_alone {
        words.remove(0);
    }
    let clock =
        || SystemTime::now().duration_since(UNIX_EPOCH).unwrap().as_nanos() as u64 % 1_000_000_007;
    let seed = |word: Option<&String>| word.map_or_else(|| Some(clock()), |w| w.parse().ok());
    let good = match &words[..] {
        [word, programs @ ..] if word == "--times" => Some(times::times(programs)),
        [program, word, names @ ..] if word == "--scripts" => Some(script::scripts(program, names)),
        [program, word, rest @ ..] if word == "--faults" && rest.len() <= 1 => {
            seed(rest.first()).map(|seed| faults(Side { program, device_alone }, seed))
        }
        [program, word, rest @ ..]
            if ["--apart", "--learn", "--before", "--cuts"].contains(&word.as_str())
                && rest.len() <= 2 =>
        {
            let play = match word.as_str() {
                "--apart" => apart::apart,
                "--learn" => learn::learn,
                "--cuts" => cuts::cuts,
                _ => before::before,
            };
            let events = rest.first().map_or(Some(EVENTS / 10), |w| w.parse().ok());
            events.zip(seed(rest.get(1))).map(|(events, seed)| play(program, events, seed))
        }
        [program, rest @ ..] if rest.len() <= 2 => {
            let events = rest.first().map_or(Some(EVENTS), |w| w.parse().ok());
            let side = Side { program, device_alone };
            events.zip(seed(rest.get(1))).map(|(events, seed)| compare(side, events, seed))
        }
        _ => None,
    };
    match good {
        Some(true) => ExitCode::SUCCESS,
        Some(false) => ExitCode::FAILURE,
        None => {
            eprintln!(
                "usage: compare [--device] BRIDGE [EVENTS [SEED]], .. BRIDGE --faults [SEED],"
            );
            eprintln!(
                "       .. BRIDGE --apart [EVENTS [SEED]], .. BRIDGE --learn [EVENTS [SEED]],"
            );
            eprintln!("       .. BRIDGE --before [EVENTS [SEED]], .. LIFE --cuts [EVENTS [SEED]],");
            eprintln!("       .. BRIDGE --scripts NAME..,");
            eprintln!("       .. --times BRIDGE..");
            ExitCode::from(2)
        }
    }
}
