//! The archives' calls, each behind a function that can't be misused. What they do and promise the headers say.
#![allow(unsafe_code)]

/// As `kelindap_session`.
#[repr(C)]
#[derive(Clone, Copy, Debug, PartialEq, Eq)]
pub struct Session {
    pub open: bool,
    pub level: u8,
}

/// As `kelindap_sessions`.
#[repr(C)]
#[derive(Clone, Copy, Debug, PartialEq, Eq)]
pub struct Sessions {
    pub of: [Session; 2],
}

#[repr(C)]
struct Played {
    refusal: u8,
    handled: u16,
}

/// As `kelindap_link`: the sessions, and the address that connected last on each connection.
#[repr(C)]
#[derive(Clone, Copy, Debug, PartialEq, Eq)]
pub struct Link {
    pub sessions: Sessions,
    pub address: [u16; 2],
}

/// As `kelindap_arrival`: what a frame is, or the number of why it is no event.
#[repr(C)]
#[derive(Clone, Copy, Debug, PartialEq, Eq)]
pub struct Arrival {
    pub event: u8,
    pub connection: u8,
    pub group: u16,
    pub source: u16,
    pub sequence: u8,
    pub negative: bool,
}

/// As `kelindap_frame`.
#[repr(C)]
#[derive(Clone, Copy, Debug, PartialEq, Eq)]
pub struct Frame {
    pub source: u16,
    pub destination: u16,
    pub outcome: u8,
    pub event: u8,
    pub code: u8,
    pub control1: u8,
    pub control2: u8,
    pub transport: u8,
    pub info_offset: usize,
    pub info_length: usize,
    pub tpdu_offset: usize,
    pub tpdu_length: usize,
}

/// As `kelindap_pdu`.
#[repr(C)]
#[derive(Clone, Copy, Debug, PartialEq, Eq)]
pub struct Pdu {
    pub serial: u64,
    pub key: u32,
    pub address: u16,
    pub domain: u16,
    pub s: u16,
    pub maximum: u16,
    pub outcome: u8,
    pub kind: u8,
    pub v: u8,
    pub t: u8,
    pub object: u8,
    pub id: u8,
    pub n: u8,
    pub index: u8,
    pub kind_of: u8,
    pub access: u8,
    pub level: u8,
    pub data_offset: usize,
    pub data_length: usize,
}

/// As `kelindap_part`.
#[repr(C)]
#[derive(Clone, Copy, Debug, PartialEq, Eq)]
pub struct Part {
    pub offset: usize,
    pub length: usize,
}

/// As `kelindap_served`.
#[repr(C)]
#[derive(Clone, Copy, Debug, PartialEq, Eq)]
pub struct Served {
    pub number: u8,
    pub outcome: u8,
    pub connection: u8,
    pub count: u8,
    pub changed: [Part; 2],
}

extern "C" {
    fn kelindap_version() -> u32;
    fn kelindap_pdu_version() -> u32;
    fn kelindap_fresh() -> Sessions;
    fn kelindap_check(sheet: *const u8, sheet_length: usize) -> u8;
    fn kelindap_trace_check(trace: *const u8, trace_length: usize) -> u8;
    fn kelindap_play(
        sessions: *mut Sessions,
        sheet: *mut u8,
        sheet_length: usize,
        trace: *const u8,
        trace_length: usize,
        from: usize,
        limit: usize,
        log: *mut u8,
        log_length: usize,
    ) -> Played;
    #[cfg(marked)]
    fn kelindap_play_marked(
        sessions: *mut Sessions,
        sheet: *mut u8,
        sheet_length: usize,
        trace: *const u8,
        trace_length: usize,
        from: usize,
        limit: usize,
        log: *mut u8,
        log_length: usize,
        before: *mut u8,
        before_length: usize,
        marks: *mut u32,
        marks_length: usize,
        played: u32,
    ) -> Played;
    #[cfg(heard)]
    fn kelindap_heard(
        link: Link,
        sheet: *const u8,
        sheet_length: usize,
        frame: *const u8,
        frame_length: usize,
    ) -> Arrival;
    #[cfg(heard)]
    fn kelindap_serve(
        link: *mut Link,
        sheet: *mut u8,
        sheet_length: usize,
        frame: *const u8,
        length: usize,
        out: *mut u8,
        room: usize,
        sequence: u8,
    ) -> Served;
    fn kelindap_frame_read(frame: *const u8, length: usize) -> Frame;
    fn kelindap_read(apdu: *const u8, apdu_length: usize) -> Pdu;
}

/// The versions of the two libraries.
pub fn versions() -> [u32; 2] {
    unsafe { [kelindap_version(), kelindap_pdu_version()] }
}

pub fn fresh() -> Sessions {
    unsafe { kelindap_fresh() }
}

/// 0 if the sheet is accepted, else why not.
pub fn check(sheet: &[u8]) -> u8 {
    unsafe { kelindap_check(sheet.as_ptr(), sheet.len()) }
}

/// 0 if the trace can be played, else why not.
pub fn trace_check(trace: &[u8]) -> u8 {
    unsafe { kelindap_trace_check(trace.as_ptr(), trace.len()) }
}

pub fn frame_read(frame: &[u8]) -> Frame {
    unsafe { kelindap_frame_read(frame.as_ptr(), frame.len()) }
}

pub fn read(apdu: &[u8]) -> Pdu {
    unsafe { kelindap_read(apdu.as_ptr(), apdu.len()) }
}

/// How many events were handled, or why none.
pub fn play(
    sessions: &mut Sessions,
    sheet: &mut [u8],
    trace: &[u8],
    from: usize,
    limit: usize,
    log: &mut [u8],
) -> Result<usize, u8> {
    let played = unsafe {
        kelindap_play(
            sessions,
            sheet.as_mut_ptr(),
            sheet.len(),
            trace.as_ptr(),
            trace.len(),
            from,
            limit,
            log.as_mut_ptr(),
            log.len(),
        )
    };
    match played.refusal {
        0 => Ok(played.handled.into()),
        refusal => Err(refusal),
    }
}

/// A device that is played with marks: for each byte of the sheet, and behind them for the level of each connection, the
/// number of the last event that changed it, 0 if none did.
pub struct Marking {
    pub sessions: Sessions,
    pub sheet: Vec<u8>,
    pub marks: Vec<u32>,
    /// So many events were played.
    pub played: u32,
    /// Room for a copy of the sheet.
    pub before: Vec<u8>,
}

impl Marking {
    /// Closed sessions, and nothing played.
    pub fn new(sheet: &[u8]) -> Marking {
        Marking {
            sessions: fresh(),
            sheet: sheet.to_vec(),
            marks: vec![0; sheet.len() + 2],
            played: 0,
            before: sheet.to_vec(),
        }
    }
}

/// Plays events of a trace with marks: how many were handled, or why none.
#[cfg(marked)]
pub fn play_marked(
    m: &mut Marking,
    trace: &[u8],
    from: usize,
    limit: usize,
    log: &mut [u8],
) -> Result<usize, u8> {
    let played = unsafe {
        kelindap_play_marked(
            &mut m.sessions,
            m.sheet.as_mut_ptr(),
            m.sheet.len(),
            trace.as_ptr(),
            trace.len(),
            from,
            limit,
            log.as_mut_ptr(),
            log.len(),
            m.before.as_mut_ptr(),
            m.before.len(),
            m.marks.as_mut_ptr(),
            m.marks.len(),
            m.played,
        )
    };
    if played.refusal != 0 {
        return Err(played.refusal);
    }
    m.played += u32::from(played.handled);
    Ok(played.handled.into())
}

#[cfg(not(marked))]
pub use crate::marks::play_marked;

/// What a frame is to the device with this sheet.
#[cfg(heard)]
pub fn heard(link: Link, sheet: &[u8], frame: &[u8]) -> Arrival {
    unsafe { kelindap_heard(link, sheet.as_ptr(), sheet.len(), frame.as_ptr(), frame.len()) }
}

#[cfg(not(heard))]
pub use crate::link::heard;

/// So many bytes has the longest frame that answers.
pub const ROOM: usize = 25;

/// A frame served, as a host does it: what it gave, and the frame that answers, if there is one. The tests' device is made of it.
#[cfg(heard)]
pub fn serve(link: &mut Link, sequence: u8, frame: &[u8], sheet: &mut [u8]) -> (Served, Vec<u8>) {
    let mut out = vec![0; ROOM];
    let served = unsafe {
        kelindap_serve(
            link,
            sheet.as_mut_ptr(),
            sheet.len(),
            frame.as_ptr(),
            frame.len(),
            out.as_mut_ptr(),
            out.len(),
            sequence,
        )
    };
    out.truncate(served.count.into());
    (served, out)
}

/// An archive without it has none to offer, and the tests that want it fail.
#[cfg(not(heard))]
pub fn serve(_: &mut Link, _: u8, _: &[u8], _: &mut [u8]) -> (Served, Vec<u8>) {
    panic!("the archive has no kelindap_serve")
}
