//! The calls of libkelindap_pdu, each behind a function that can't be misused: PDUs, group values and frames are read and
//! written there. What they promise kelindap_pdu.h and kelindap_frame.h say.
#![allow(unsafe_code)]

/// The PDUs, by kelindap_pdu.h.
pub mod kind {
    pub const GROUP_READ: u8 = 0;
    pub const GROUP_RESPONSE: u8 = 1;
    pub const GROUP_WRITE: u8 = 2;
    pub const ADDRESS_WRITE: u8 = 3;
    pub const ADDRESS_READ: u8 = 4;
    pub const SERIAL_READ: u8 = 5;
    pub const SERIAL_WRITE: u8 = 6;
    pub const DESCRIPTOR_READ: u8 = 7;
    pub const PROPERTY_READ: u8 = 8;
    pub const PROPERTY_WRITE: u8 = 9;
    pub const DESCRIPTION_READ: u8 = 10;
    pub const MEMORY_READ: u8 = 11;
    pub const MEMORY_WRITE: u8 = 12;
    pub const AUTHORIZE_REQUEST: u8 = 14;
    pub const KEY_WRITE: u8 = 15;
    pub const RESTART: u8 = 16;
    pub const ADDRESS_RESPONSE: u8 = 17;
    pub const SERIAL_RESPONSE: u8 = 18;
    pub const DESCRIPTOR_RESPONSE: u8 = 19;
    pub const PROPERTY_RESPONSE: u8 = 20;
    pub const DESCRIPTION_RESPONSE: u8 = 21;
    pub const MEMORY_RESPONSE: u8 = 22;
    pub const AUTHORIZE_RESPONSE: u8 = 23;
    pub const KEY_RESPONSE: u8 = 24;
    pub const USER_MEMORY_READ: u8 = 25;
    pub const USER_MEMORY_RESPONSE: u8 = 26;
    pub const USER_MEMORY_WRITE: u8 = 27;
    pub const NO_KIND: u8 = 255;
}

/// What a frame means, by kelindap_frame.h.
pub mod event {
    pub const MULTICAST: u8 = 0;
    pub const BROADCAST: u8 = 1;
    pub const CONNECTIONLESS: u8 = 2;
    pub const CONNECTED: u8 = 3;
    pub const CONNECT: u8 = 4;
    pub const DISCONNECT: u8 = 5;
    pub const ACKNOWLEDGED: u8 = 45;
}

/// As `kelindap_pdu`.
#[repr(C)]
#[derive(Clone, Copy, Default, PartialEq, Eq)]
pub struct Pdu {
    pub serial: u64,
    pub key: u32,
    pub address: u16,
    pub domain: u16,
    pub s: u16,
    pub maximum: u16,
    pub outcome: u8,
    pub kind: u8,
    pub v: u8,
    pub t: u8,
    pub object: u8,
    pub id: u8,
    pub n: u8,
    pub index: u8,
    pub class: u8,
    pub access: u8,
    pub level: u8,
    pub data_offset: usize,
    pub data_length: usize,
}

#[repr(C)]
struct Written {
    outcome: u8,
    count: u8,
}

/// As `kelindap_point`.
#[repr(C)]
#[derive(Clone, Copy, Debug, Default, PartialEq, Eq)]
pub struct Point {
    pub hundredths: i32,
    pub bits: u32,
    pub class: u8,
    pub value: u8,
    pub outcome: u8,
}

/// As `kelindap_frame`.
#[repr(C)]
#[derive(Clone, Copy, Debug, Default, PartialEq, Eq)]
pub struct Frame {
    pub source: u16,
    pub destination: u16,
    pub outcome: u8,
    pub event: u8,
    pub code: u8,
    pub control1: u8,
    pub control2: u8,
    pub transport: u8,
    pub info_offset: usize,
    pub info_length: usize,
    pub tpdu_offset: usize,
    pub tpdu_length: usize,
}

#[repr(C)]
struct Framed {
    count: u16,
    outcome: u8,
}

extern "C" {
    fn kelindap_read(apdu: *const u8, apdu_length: usize) -> Pdu;
    fn kelindap_write(
        pdu: Pdu,
        data: *const u8,
        data_length: usize,
        out: *mut u8,
        out_length: usize,
    ) -> Written;
    fn kelindap_point_read(class: u8, bytes: *const u8, length: usize) -> Point;
    fn kelindap_point_write(point: Point, out: *mut u8, out_length: usize) -> u8;
    fn kelindap_frame_read(frame: *const u8, length: usize) -> Frame;
    fn kelindap_frame_write(
        fields: Frame,
        info: *const u8,
        info_length: usize,
        apdu: *const u8,
        apdu_length: usize,
        out: *mut u8,
        out_length: usize,
    ) -> Framed;
}

/// The PDU in an APDU, with its data; none if it is no PDU.
pub fn read(apdu: &[u8]) -> Option<(Pdu, &[u8])> {
    let pdu = unsafe { kelindap_read(apdu.as_ptr(), apdu.len()) };
    let data = apdu.get(pdu.data_offset..pdu.data_offset + pdu.data_length);
    data.filter(|_| pdu.outcome == 0).map(|data| (pdu, data))
}

/// A PDU written, or the number of why it can't be.
pub fn write(pdu: Pdu, data: &[u8]) -> Result<Vec<u8>, u8> {
    let mut out = vec![0; 16];
    let written =
        unsafe { kelindap_write(pdu, data.as_ptr(), data.len(), out.as_mut_ptr(), out.len()) };
    out.truncate(written.count.into());
    match written.outcome {
        0 => Ok(out),
        outcome => Err(outcome),
    }
}

/// The value of a datapoint type in its bytes, or the number of why there is none.
pub fn point_read(class: u8, bytes: &[u8]) -> Result<Point, u8> {
    let point = unsafe { kelindap_point_read(class, bytes.as_ptr(), bytes.len()) };
    match point.outcome {
        0 => Ok(point),
        outcome => Err(outcome),
    }
}

/// The bytes of a value, so many as its type has.
pub fn point_write(point: Point, length: usize) -> Result<Vec<u8>, u8> {
    let mut out = vec![0; length];
    match unsafe { kelindap_point_write(point, out.as_mut_ptr(), out.len()) } {
        0 => Ok(out),
        outcome => Err(outcome),
    }
}

/// A frame that reads, with its TPDU.
pub fn frame_read(frame: &[u8]) -> Option<(Frame, &[u8])> {
    let fields = unsafe { kelindap_frame_read(frame.as_ptr(), frame.len()) };
    let tpdu = frame.get(fields.tpdu_offset..fields.tpdu_offset + fields.tpdu_length);
    tpdu.filter(|_| fields.outcome == 0).map(|tpdu| (fields, tpdu))
}

/// A frame with this TPDU, and no additional information; none if no such frame can be.
pub fn frame_write(fields: Frame, tpdu: &[u8]) -> Option<Vec<u8>> {
    let first = *tpdu.first()?;
    let fields = Frame { transport: first >> 2, ..fields };
    let mut apdu = tpdu.to_vec();
    apdu[0] &= 3;
    let mut out = vec![0; 32];
    let none = std::ptr::NonNull::<u8>::dangling().as_ptr();
    let framed = unsafe {
        let (out, room) = (out.as_mut_ptr(), out.len());
        kelindap_frame_write(fields, none, 0, apdu.as_ptr(), apdu.len(), out, room)
    };
    out.truncate(framed.count.into());
    (framed.outcome == 0).then_some(out)
}
