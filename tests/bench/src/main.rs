//! Time and instructions of each request, the proved library beside the plain
//! model, in one run.
//!
//!     bench                  times, then instructions by callgrind if it is there
//!     bench --instructions   instructions alone
//!     bench --play           every case on every side, for callgrind to count
//!     bench --cases          every case as a line, for tests/bench/emulated.sh

mod cases;
mod counts;
mod sides;
mod times;

use std::hint::black_box;

use cases::{benches, Ask, Bench, Case, SESSION};
use model::device::{Session, Sessions, Way};
use model::sheet::FLAGS;
use sides::{Lent, Side};

/// All requests come on connection 0, the other being closed.
const SESSIONS: Sessions = [SESSION, Session::CLOSED];

/// A case made ready on one side.
pub struct Ready<'a> {
    side: Side,
    bench: &'a Bench,
    case: &'a Case,
    sheet: Vec<u8>,
    answer: [u8; 16],
}

impl<'a> Ready<'a> {
    fn new(side: Side, bench: &'a Bench, case: &'a Case) -> Self {
        Ready { side, bench, case, sheet: bench.sheet.clone(), answer: [0; 16] }
    }

    /// The case `n` times; each time sessions and flags are as at first, which
    /// is all that a repetition could find changed.
    fn run(&mut self, n: usize) {
        let (side, sheet) = (self.side, &mut self.sheet);
        match self.case.ask {
            Ask::Check => (0..n).for_each(|_| {
                black_box(side.check(black_box(sheet)));
            }),
            Ask::Property(object, id) => (0..n).for_each(|_| {
                black_box(side.property(black_box(sheet), object, id));
            }),
            Ask::Group(address) => (0..n).for_each(|_| {
                black_box(side.group(black_box(sheet), address));
            }),
            Ask::Request { mode, ref apdu } => {
                let flags = sheet[FLAGS];
                for _ in 0..n {
                    let mut lent = Lent {
                        sessions: SESSIONS,
                        way: Way { mode, connection: 0, group: self.bench.group },
                        apdu: black_box(apdu),
                        sheet: black_box(sheet),
                        answer: black_box(&mut self.answer),
                    };
                    black_box(side.request(&mut lent));
                    sheet[FLAGS] = flags;
                }
            }
        }
    }

    /// What one call gives, in two numbers, and leaves, for comparison.
    fn effect(&mut self) -> (usize, usize, Sessions, [u8; 16], Vec<u8>) {
        let mut sheet = self.sheet.clone();
        let mut answer = [0; 16];
        let mut sessions = SESSIONS;
        let (first, second) = match self.case.ask {
            Ask::Check => (self.side.check(&sheet).into(), 0),
            Ask::Property(object, id) => self.side.property(&sheet, object, id),
            Ask::Group(address) => self.side.group(&sheet, address),
            Ask::Request { mode, ref apdu } => {
                let (reply, after) = self.side.request(&mut Lent {
                    sessions,
                    way: Way { mode, connection: 0, group: self.bench.group },
                    apdu,
                    sheet: &mut sheet,
                    answer: &mut answer,
                });
                sessions = after;
                (reply.outcome.into(), reply.count.into())
            }
        };
        (first, second, sessions, answer, sheet)
    }
}

pub fn for_each_case(benches: &[Bench], mut f: impl FnMut(&Bench, &Case)) {
    for bench in benches {
        bench.cases.iter().for_each(|case| f(bench, case));
    }
}

/// Both sides give the same, and what the case is meant to give.
fn agree(bench: &Bench, case: &Case) {
    let [ours, plain] =
        [Side::Proved, Side::Plain].map(|side| Ready::new(side, bench, case).effect());
    assert!(ours == plain, "{}, {}: the sides differ", bench.name, case.name);
    let given = match case.ask {
        Ask::Check | Ask::Request { .. } => ours.0,
        Ask::Property(..) | Ask::Group(_) => ours.1,
    };
    assert_eq!(given, case.gives, "{}, {}", bench.name, case.name);
}

fn main() {
    let benches = benches();
    let args: Vec<String> = std::env::args().skip(1).collect();
    match args.iter().map(String::as_str).collect::<Vec<_>>()[..] {
        [] => {
            for_each_case(&benches, agree);
            let times = times::measure(&benches);
            let counts = counts::measure(&benches);
            print(&benches, Some(&times), counts.as_deref());
        }
        ["--instructions"] => {
            for_each_case(&benches, agree);
            print(&benches, None, counts::measure(&benches).as_deref());
        }
        ["--play"] => counts::play(&benches),
        ["--cases"] => for_each_case(&benches, tell),
        _ => {
            eprintln!("usage: bench [--instructions]");
            std::process::exit(2)
        }
    }
}

/// A case as a line: what is called, its number and group, APDU and sheet in hex, whether the check is taken off, and the names.
fn tell(bench: &Bench, case: &Case) {
    let hex = |bytes: &[u8]| bytes.iter().map(|b| format!("{b:02x}")).collect::<String>();
    let (kind, number, apdu) = match case.ask {
        Ask::Check => ('c', 0, String::from("-")),
        Ask::Request { mode, ref apdu } => ('r', mode.into(), hex(apdu)),
        Ask::Property(object, id) => ('p', u16::from(object) * 256 + u16::from(id), "-".into()),
        Ask::Group(address) => ('g', address, String::from("-")),
    };
    println!(
        "{kind} {number} {} {apdu} {} {} {} {}",
        bench.group,
        hex(&bench.sheet),
        u8::from(case.less_check),
        bench.name,
        case.name.replace(' ', "-")
    );
}

/// One row: sheet and case, then what was measured of each side, and the ratio; - for what was not.
fn print(benches: &[Bench], times: Option<&[[f64; 2]]>, counts: Option<&[[f64; 2]]>) {
    println!(
        "Both sides compiled for {}; the loop around a call is taken off.",
        std::env::consts::ARCH
    );
    println!(
        "{:6} {:24} {:>8} {:>8} {:>6}   {:>8} {:>8} {:>6}",
        "sheet", "request", "ns", "plain", "ratio", "instr.", "plain", "ratio"
    );
    let mut first = 0;
    for bench in benches {
        for (k, case) in bench.cases.iter().enumerate() {
            let row = |figures: &[[f64; 2]]| -> [f64; 2] {
                let check = if case.less_check { figures[first] } else { [0.0; 2] };
                [0, 1].map(|side| figures[first + k][side] - check[side])
            };
            print!("{:6} {:24}", bench.name, case.name);
            match times.map(row) {
                Some([ours, plain]) => print!(" {ours:8.1} {plain:8.1} {:6.2}", ours / plain),
                None => print!(" {:>8} {:>8} {:>6}", "-", "-", "-"),
            }
            match counts.map(row) {
                Some([ours, plain]) => println!("   {ours:8.0} {plain:8.0} {:6.2}", ours / plain),
                None => println!("   {:>8} {:>8} {:>6}", "-", "-", "-"),
            }
        }
        first += bench.cases.len();
    }
}
