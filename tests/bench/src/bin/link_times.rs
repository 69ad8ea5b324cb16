//! Nanoseconds of serving a frame, a connected property read of the partner on
//! the sample sheet: the proved library beside the plain model. First both must
//! give the same.

use std::hint::black_box;
use std::time::Instant;

use model::device::{Session, Sessions};
use model::faults::Fault;
use model::link::{self, Addresses, ROOM};
use model::sheet::SAMPLE;

#[repr(C)]
#[derive(Clone, Copy)]
struct CSession {
    open: bool,
    level: u8,
}

#[repr(C)]
struct CLink {
    sessions: [CSession; 2],
    address: [u16; 2],
}

#[repr(C)]
struct CServed {
    number: u8,
    outcome: u8,
    connection: u8,
    count: u8,
    changed: [[usize; 2]; 2],
}

extern "C" {
    fn kelindap_serve(
        link: *mut CLink,
        sheet: *mut u8,
        sheet_length: usize,
        frame: *const u8,
        frame_length: usize,
        out: *mut u8,
        out_length: usize,
        sequence: u8,
    ) -> CServed;
}

/// From 11FFh to 1105h: element 1 of property 51.
const FRAME: [u8; 15] =
    [0x29, 0, 0xB0, 0x60, 0x11, 0xFF, 0x11, 0x05, 5, 0x43, 0xD5, 0x01, 0x33, 0x10, 0x01];
const SESSIONS: Sessions = [Session { open: true, level: 3 }, Session { open: false, level: 3 }];
const ADDRESSES: Addresses = [0x11FF, 0];
const CALLS: u32 = 2000;

fn proved(sheet: &mut [u8], out: &mut [u8]) -> [u8; 4] {
    let sessions = SESSIONS.map(|q| CSession { open: q.open, level: q.level });
    let mut link = CLink { sessions, address: ADDRESSES };
    let (n, m) = (sheet.len(), out.len());
    let (frame, sheet, out) = (FRAME.as_ptr(), sheet.as_mut_ptr(), out.as_mut_ptr());
    let s = unsafe { kelindap_serve(&mut link, sheet, n, frame, FRAME.len(), out, m, 0) };
    [s.number, s.outcome, s.connection, s.count]
}

#[inline(never)]
fn plain(sheet: &mut [u8], out: &mut [u8]) -> [u8; 4] {
    let (mut sessions, mut addresses) = (SESSIONS, ADDRESSES);
    let s =
        link::serve(Fault::None, (&mut sessions, &mut addresses), 0, black_box(&FRAME), sheet, out);
    [s.number, s.outcome, s.connection, s.count]
}

fn best(serve: fn(&mut [u8], &mut [u8]) -> [u8; 4], sheet: &mut [u8], out: &mut [u8]) -> f64 {
    let round = || {
        let began = Instant::now();
        for _ in 0..CALLS {
            black_box(serve(black_box(&mut *sheet), black_box(&mut *out)));
        }
        began.elapsed().as_secs_f64() * 1e9 / f64::from(CALLS)
    };
    std::iter::repeat_with(round).take(300).fold(f64::MAX, f64::min)
}

fn main() {
    let mut sheet = SAMPLE.to_vec();
    sheet[0] = 2;
    let (mut ours, mut theirs) = ([0xEE; ROOM], [0xEE; ROOM]);
    assert_eq!(proved(&mut sheet, &mut ours), plain(&mut sheet, &mut theirs));
    assert_eq!(ours, theirs);
    let (a, b) = (best(proved, &mut sheet, &mut ours), best(plain, &mut sheet, &mut theirs));
    println!("a frame served                {a:6.1}   {b:6.1}   {:.2}", a / b);
}
