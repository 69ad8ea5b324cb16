//! Microseconds of playing a trace of 512 events on a full sheet: the proved
//! library beside the plain model, which plays the same events one by one. Both
//! judge the trace first, and check the sheet at every request. Then the library with marks, whole and event by event. The same
//! on the longest sheet, of which a copy costs most.

#[allow(dead_code)]
#[path = "../cases.rs"]
mod cases;

use std::hint::black_box;
use std::time::Instant;

use cases::{benches, Ask, Bench, SESSION};
use model::device::{self, Session, Sessions, Way};

const EVENTS: usize = 512;
const LINE: usize = 18;

#[repr(C)]
#[derive(Clone, Copy)]
struct CSession {
    open: bool,
    level: u8,
}

#[repr(C)]
struct CPlayed {
    refusal: u8,
    handled: u16,
}

extern "C" {
    fn kelindap_play(
        sessions: *mut [CSession; 2],
        sheet: *mut u8,
        sheet_length: usize,
        trace: *const u8,
        trace_length: usize,
        from: usize,
        limit: usize,
        log: *mut u8,
        log_length: usize,
    ) -> CPlayed;
    fn kelindap_play_marked(
        sessions: *mut [CSession; 2],
        sheet: *mut u8,
        sheet_length: usize,
        trace: *const u8,
        trace_length: usize,
        from: usize,
        limit: usize,
        log: *mut u8,
        log_length: usize,
        before: *mut u8,
        before_length: usize,
        marks: *mut u32,
        marks_length: usize,
        played: u32,
    ) -> CPlayed;
}

/// What is played on.
#[derive(Clone, PartialEq)]
struct State {
    sessions: Sessions,
    sheet: Vec<u8>,
    log: Vec<u8>,
}

fn proved(trace: &[u8], s: &mut State) -> usize {
    let mut sessions = s.sessions.map(|q| CSession { open: q.open, level: q.level });
    let played = unsafe {
        kelindap_play(
            &mut sessions,
            s.sheet.as_mut_ptr(),
            s.sheet.len(),
            trace.as_ptr(),
            trace.len(),
            0,
            EVENTS,
            s.log.as_mut_ptr(),
            s.log.len(),
        )
    };
    assert_eq!(played.refusal, 0);
    s.sessions = sessions.map(|q| Session { open: q.open, level: q.level });
    played.handled.into()
}

/// With marks, in pieces of so many events; the marks are no part of the state that is compared.
fn marked(trace: &[u8], s: &mut State, piece: usize) -> usize {
    let mut sessions = s.sessions.map(|q| CSession { open: q.open, level: q.level });
    let (mut before, mut marks) = (vec![0; s.sheet.len()], vec![0; s.sheet.len() + 2]);
    let mut from = 0;
    while from < EVENTS {
        let log = &mut s.log[LINE * from..];
        let played = unsafe {
            kelindap_play_marked(
                &mut sessions,
                s.sheet.as_mut_ptr(),
                s.sheet.len(),
                trace.as_ptr(),
                trace.len(),
                from,
                piece,
                log.as_mut_ptr(),
                log.len(),
                before.as_mut_ptr(),
                before.len(),
                marks.as_mut_ptr(),
                marks.len(),
                from as u32,
            )
        };
        assert_eq!(played.refusal, 0);
        from += usize::from(played.handled);
    }
    s.sessions = sessions.map(|q| Session { open: q.open, level: q.level });
    from
}

fn marked_whole(trace: &[u8], s: &mut State) -> usize {
    marked(trace, s, EVENTS)
}

fn marked_singly(trace: &[u8], s: &mut State) -> usize {
    marked(trace, s, 1)
}

fn word(b: &[u8]) -> usize {
    usize::from(b[0]) * 256 + usize::from(b[1])
}

/// The rules of a trace, 50 to 58, of which the first that is broken is told.
fn refusal(t: &[u8]) -> u8 {
    if t.len() < 2 {
        return 50;
    }
    let n = word(t);
    if n > EVENTS {
        return 51;
    }
    if t.len() < 2 + 8 * n {
        return 52;
    }
    let mut end = 2 + 8 * n;
    for e in t[2..end].chunks_exact(8) {
        let long = usize::from(e[6]);
        let broken =
            [e[0] > 4, long > 0 && e[0] > 0, e[7] != 0, word(&e[4..]) != end, end + long > t.len()];
        if let Some(k) = broken.iter().position(|&b| b) {
            return 53 + k as u8;
        }
        end += long;
    }
    if end == t.len() {
        0
    } else {
        58
    }
}

#[inline(never)]
fn plain(trace: &[u8], s: &mut State) -> usize {
    assert_eq!(refusal(trace), 0);
    let n = word(trace);
    for (e, line) in trace[2..2 + 8 * n].chunks_exact(8).zip(s.log.chunks_exact_mut(LINE)) {
        assert_eq!(e[0], 0, "here all events are requests");
        let (from, long) = (word(&e[4..]), usize::from(e[6]));
        let way = Way { mode: e[1] % 16, connection: e[1] / 16, group: word(&e[2..]) as u16 };
        line.fill(0);
        let reply = device::request(
            &mut s.sessions,
            way,
            &trace[from..from + long],
            &mut s.sheet,
            &mut line[2..],
        );
        line[0] = reply.outcome;
        line[1] = reply.count;
    }
    n
}

/// The requests of the table of requests, again and again, all but the restart,
/// after which the connection is closed.
fn trace_of(bench: &Bench) -> Vec<u8> {
    let requests: Vec<(u8, &[u8])> = bench
        .cases
        .iter()
        .filter_map(|case| match &case.ask {
            Ask::Request { mode, apdu } if apdu[..] != [0x03, 0x80] => Some((*mode, &apdu[..])),
            _ => None,
        })
        .collect();
    let events: Vec<_> = requests.iter().cycle().take(EVENTS).collect();
    let mut trace = (EVENTS as u16).to_be_bytes().to_vec();
    let mut at = 2 + 8 * EVENTS;
    for (mode, apdu) in &events {
        trace.extend([0, *mode]);
        trace.extend(bench.group.to_be_bytes());
        trace.extend((at as u16).to_be_bytes());
        trace.extend([apdu.len() as u8, 0]);
        at += apdu.len();
    }
    events.iter().for_each(|(_, apdu)| trace.extend(*apdu));
    trace
}

const LONGEST: usize = 16_384;

/// The entries of a full sheet in the longest one: the last region has all the bytes that are left.
fn longest(full: &[u8]) -> Vec<u8> {
    let more = LONGEST - full.len();
    let [regions, properties, groups] = [1, 2, 3].map(|at| usize::from(full[at]));
    let last = 32 + 8 * (regions - 1);
    let end = word(&full[last + 2..]) + word(&full[last + 4..]);
    let behind = last + 8 + 12 * properties;
    let bodies = (0..properties).map(|k| last + 8 + 12 * k + 8);
    let bodies = bodies.chain((0..groups).map(|k| behind + 8 * k + 4));
    let mut sheet = full.to_vec();
    for at in bodies.chain([4, last + 2]) {
        let number = word(&sheet[at..]) + more;
        sheet[at..at + 2].copy_from_slice(&(number as u16).to_be_bytes());
    }
    sheet.splice(end..end, vec![0x15; more]);
    sheet
}

fn main() {
    let benches = benches();
    let bench = benches.iter().find(|b| b.name == "full").expect("the full sheet");
    let trace = trace_of(bench);
    timed(&trace, bench.sheet.clone());
    timed(&trace, longest(&bench.sheet));
}

fn timed(trace: &[u8], sheet: Vec<u8>) {
    let length = sheet.len();
    let start = State { sessions: [SESSION, Session::CLOSED], sheet, log: vec![0; LINE * EVENTS] };
    let sides: [fn(&[u8], &mut State) -> usize; 4] = [proved, plain, marked_whole, marked_singly];
    let [ours, theirs, whole, singly] = sides.map(|side| {
        let mut s = start.clone();
        assert_eq!(side(trace, &mut s), EVENTS);
        s
    });
    assert!(ours == theirs && ours == whole && ours == singly, "the sides differ");
    assert!(ours.sheet != start.sheet, "nothing was carried out");
    let mut best = [f64::MAX; 4];
    for _ in 0..300 {
        for (side, best) in sides.iter().zip(&mut best) {
            let mut s = start.clone();
            let clock = Instant::now();
            black_box(side(black_box(trace), black_box(&mut s)));
            *best = best.min(clock.elapsed().as_nanos() as f64 / 1000.0);
        }
    }
    println!(
        "a trace of {EVENTS} requests on a sheet of {length} bytes: {:.0} us, plain {:.0}, ratio {:.2}; with marks {:.0}, event by event {:.0}",
        best[0],
        best[1],
        best[0] / best[1],
        best[2],
        best[3]
    );
}
