//! Microseconds of the requests of the sample sheet and of the full one, by the
//! first engine and by the plain engine: for each sheet the sum over all of
//! them, and the request for which the plain engine takes longest.

#[allow(dead_code)]
#[path = "../cases.rs"]
mod cases;

#[allow(dead_code)]
#[path = "../sides.rs"]
mod sides;

use std::hint::black_box;
use std::time::Instant;

use cases::{benches, Ask, Bench, SESSION};
use model::device::{Session, Sessions, Way};
use model::sheet::FLAGS;
use sides::{Lent, Side};

const ROUNDS: usize = 200;
const TIMES: usize = 20;

#[repr(C)]
struct CSession {
    open: bool,
    level: u8,
}

#[repr(C)]
struct CSessions {
    of: [CSession; 2],
}

#[repr(C)]
struct CPlainReply {
    outcome: u8,
    count: u8,
    sessions: CSessions,
}

extern "C" {
    fn kelindap_plain_request(
        sessions: CSessions,
        sheet: *mut u8,
        sheet_length: usize,
        mode: u8,
        connection: u8,
        group: u16,
        apdu: *const u8,
        apdu_length: usize,
        answer: *mut u8,
        answer_length: usize,
    ) -> CPlainReply;
}

const OPEN: Sessions = [SESSION, Session::CLOSED];

/// Outcome and count, the sessions and the answer buffer afterwards.
type Given = ((u8, u8), Sessions, [u8; 16]);
type Engine = fn(&Bench, u8, &[u8], &mut [u8]) -> Given;

fn first(bench: &Bench, mode: u8, apdu: &[u8], sheet: &mut [u8]) -> Given {
    let mut answer = [0; 16];
    let way = Way { mode, connection: 0, group: bench.group };
    let mut lent = Lent { sessions: OPEN, way, apdu, sheet, answer: &mut answer };
    let (reply, sessions) = Side::Proved.request(&mut lent);
    ((reply.outcome, reply.count), sessions, answer)
}

fn plain(bench: &Bench, mode: u8, apdu: &[u8], sheet: &mut [u8]) -> Given {
    let mut answer = [0; 16];
    let sessions = CSessions { of: OPEN.map(|s| CSession { open: s.open, level: s.level }) };
    let reply = unsafe {
        kelindap_plain_request(
            sessions,
            sheet.as_mut_ptr(),
            sheet.len(),
            mode,
            0,
            bench.group,
            apdu.as_ptr(),
            apdu.len(),
            answer.as_mut_ptr(),
            answer.len(),
        )
    };
    let sessions = reply.sessions.of.map(|s| Session { open: s.open, level: s.level });
    ((reply.outcome, reply.count), sessions, answer)
}

/// Microseconds of one request, the best round's.
fn time(engine: Engine, bench: &Bench, mode: u8, apdu: &[u8]) -> f64 {
    let mut sheet = bench.sheet.clone();
    let mut best = f64::MAX;
    for _ in 0..ROUNDS {
        let clock = Instant::now();
        for _ in 0..TIMES {
            sheet[FLAGS] = bench.sheet[FLAGS];
            black_box(engine(bench, mode, black_box(apdu), black_box(&mut sheet)));
        }
        best = best.min(clock.elapsed().as_nanos() as f64 / 1000.0 / TIMES as f64);
    }
    best
}

fn main() {
    for bench in benches().iter().filter(|b| b.name == "sample" || b.name == "full") {
        let (mut sums, mut longest) = ([0.0; 2], ("", [0.0; 2]));
        for case in &bench.cases {
            let Ask::Request { mode, ref apdu } = case.ask else { continue };
            let engines: [Engine; 2] = [first, plain];
            let [ours, other] = engines.map(|engine| {
                let mut sheet = bench.sheet.clone();
                (engine(bench, mode, apdu, &mut sheet), sheet)
            });
            assert!(ours == other, "{}, {}: the engines differ", bench.name, case.name);
            let times = engines.map(|engine| time(engine, bench, mode, apdu));
            sums = [0, 1].map(|k| sums[k] + times[k]);
            if times[1] > longest.1[1] {
                longest = (case.name, times);
            }
        }
        println!(
            "the requests on the {} sheet: {:.1} us by the first engine, {:.1} by the plain one, ratio {:.1}; longest {}: {:.1} and {:.1}",
            bench.name, sums[0], sums[1], sums[1] / sums[0], longest.0, longest.1[0], longest.1[1]
        );
    }
}
