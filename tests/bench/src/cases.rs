//! What is measured: every service, carried out, and some that are refused, on
//! the sample sheet and on a full one; user memory on the sheet that has it; the
//! lookups of entries, on sheets with 1, 8 and 64 properties and groups; and ranges
//! over regions that touch.

use model::device::Session;
use model::sheet::{touching, FLAGS, PROGRAMMING, PUMP, SAMPLE, VERIFY};

/// All requests come on an open session with all rights.
pub const SESSION: Session = Session { open: true, level: 0 };

/// One call.
pub enum Ask {
    Check,
    Request { mode: u8, apdu: Vec<u8> },
    Property(u8, u8),
    Group(u16),
}

pub struct Case {
    pub name: &'static str,
    pub ask: Ask,
    /// The rule, the outcome, or the length of the part that is found.
    pub gives: usize,
    /// Whether the figures are those of the call less those of the check of the
    /// same sheet, which every call makes first: the search and what is around it.
    pub less_check: bool,
}

/// The first case is the check of the sheet.
pub struct Bench {
    pub name: &'static str,
    pub sheet: Vec<u8>,
    pub group: u16,
    pub cases: Vec<Case>,
}

fn the_check() -> Case {
    Case { name: "the check of the sheet", ask: Ask::Check, gives: 0, less_check: false }
}

/// The entries asked for, in each table the last.
struct Asked {
    object: u8,
    id: u8,
    region: u16,
    group: u16,
    value: &'static [u8],
    response: u8,
}

pub fn benches() -> [Bench; 7] {
    let of_sample = Asked {
        object: 1,
        id: 51,
        region: 0x0100,
        group: 0x0801,
        value: &[5],
        response: 2, // its one group takes no Response
    };
    let of_full =
        Asked { object: 4, id: 16, region: 0x0F00, group: 0x0840, value: &[5, 6], response: 1 };
    [
        bench("sample", SAMPLE.to_vec(), of_sample),
        bench("full", filled(64), of_full),
        users(),
        lookups("1", 1),
        lookups("8", 8),
        lookups("64", 64),
        ranges(),
    ]
}

fn word(n: usize) -> [u8; 2] {
    (n as u16).to_be_bytes()
}

/// 16 regions of 16 bytes, n properties of two elements of two bytes each, and
/// n groups of two bytes.
fn filled(n: usize) -> Vec<u8> {
    let (regions, properties, groups) = (16, n, n);
    let mut body = 32 + 8 * regions + 12 * properties + 8 * groups;
    let mut sheet = SAMPLE[..32].to_vec();
    sheet[1..4].copy_from_slice(&[regions as u8, properties as u8, groups as u8]);
    for k in 0..regions {
        sheet.extend([k as u8, 0, 0, 16]);
        sheet.extend(word(body));
        sheet.extend([0x32, 0]);
        body += 16;
    }
    for k in 0..properties {
        sheet.extend([1 + k as u8 / 16, 1 + k as u8 % 16, 0x84, 2, 0, 2, 0, 1]);
        sheet.extend(word(body));
        sheet.extend([0x31, 0]);
        body += 4;
    }
    for k in 0..groups {
        sheet.extend([8, 1 + k as u8, 2, 7]);
        sheet.extend(word(body));
        sheet.extend([0, 0]);
        body += 2;
    }
    sheet.resize(body, 0x15);
    sheet[4..6].copy_from_slice(&word(body));
    sheet
}

fn bench(name: &'static str, mut sheet: Vec<u8>, asked: Asked) -> Bench {
    sheet[FLAGS] = PROGRAMMING | VERIFY;
    let Asked { object, id, region, group, value, response } = asked;
    let serial = sheet[6..12].to_vec();
    let [high, low] = region.to_be_bytes();
    let cases = [
        ("GroupValue_Read", 0, 0, 0x000, vec![]),
        ("GroupValue_Response", 0, response, 0x040, value.to_vec()),
        ("GroupValue_Write", 0, 1, 0x080, value.to_vec()),
        ("IndividualAddress_Write", 1, 1, 0x0C0, vec![0x11, 5]),
        ("IndividualAddress_Read", 1, 0, 0x100, vec![]),
        ("SerialNumber_Read", 1, 0, 0x3DC, serial.clone()),
        ("SerialNumber_Write", 1, 1, 0x3DE, [&serial[..], &[0x11, 5, 0, 0, 0, 0]].concat()),
        ("DeviceDescriptor_Read", 3, 0, 0x300, vec![]),
        ("PropertyValue_Read", 3, 0, 0x3D5, vec![object, id, 0x10, 1]),
        ("PropertyValue_Write", 3, 0, 0x3D7, vec![object, id, 0x10, 1, 3, 0x84]),
        ("PropertyDescription_Read", 3, 0, 0x3D8, vec![object, id, 0]),
        ("Memory_Read", 3, 0, 0x204, vec![high, low]),
        ("Memory_Write", 3, 0, 0x284, vec![high, low, 1, 2, 3, 4]),
        ("MemoryBit_Write", 3, 0, 0x3D0, vec![2, high, low, 0xF0, 0x0F, 1, 2]),
        ("Authorize_Request", 3, 0, 0x3D1, vec![0, 0x22, 0x22, 0x22, 0x22]),
        ("Key_Write", 3, 0, 0x3D3, vec![1, 0x22, 0x22, 0x22, 0x22]),
        ("Restart", 3, 1, 0x380, vec![]),
        // a write of a property without the key, a code in no row, a short APDU
        ("denied write (11)", 2, 11, 0x3D7, vec![object, id, 0x10, 1, 3, 0x84]),
        ("unknown service (8)", 3, 8, 0x3FF, vec![]),
        ("unfit length (10)", 3, 10, 0x3D5, vec![object]),
    ];
    let case = |(name, mode, outcome, code, rest): (&'static str, u8, u8, u16, Vec<u8>)| {
        let ask = Ask::Request { mode, apdu: [&code.to_be_bytes()[..], &rest].concat() };
        Case { name, ask, gives: outcome.into(), less_check: false }
    };
    let cases = std::iter::once(the_check()).chain(cases.map(case)).collect();
    Bench { name, sheet, group, cases }
}

/// User memory: four bytes of the first user region.
fn users() -> Bench {
    let mut sheet = PUMP.to_vec();
    sheet[FLAGS] = PROGRAMMING | VERIFY;
    let case = |name, code: u8, data: &[u8]| {
        let ask = Ask::Request { mode: 3, apdu: [&[0x02, code, 4, 1, 0], data].concat() };
        Case { name, ask, gives: 0, less_check: false }
    };
    let cases = vec![
        the_check(),
        case("UserMemory_Read", 0xC0, &[]),
        case("UserMemory_Write", 0xC2, &[1, 2, 3, 4]),
    ];
    Bench { name: "pump", sheet, group: 0, cases }
}

/// First, last and absent entry, with n properties and n groups. A region is
/// found for a Memory_Read of one byte, which is measured whole but for the check.
fn lookups(name: &'static str, n: usize) -> Bench {
    let last = (n - 1) as u8;
    let property = |name, object, id, gives| (name, Ask::Property(object, id), gives);
    let group = |name, address, gives| (name, Ask::Group(address), gives);
    let region = |name, high, low, gives| {
        (name, Ask::Request { mode: 3, apdu: vec![0x02, 0x01, high, low] }, gives)
    };
    let mut asked = vec![
        property("first property", 1, 1, 4),
        property("last property", 1 + last / 16, 1 + last % 16, 4),
        property("absent property", 1, 200, 0),
        group("first group", 0x0801, 2),
        group("last group", 0x0801 + last as u16, 2),
        group("absent group", 0x0900, 0),
    ];
    if n == 64 {
        asked.extend([
            region("read in region 0", 0, 0, 0),
            region("read in region 15", 15, 0, 0),
            region("read in no region", 7, 0x80, 11),
        ]);
    }
    let case = |(name, ask, gives)| Case { name, ask, gives, less_check: true };
    let cases = std::iter::once(the_check()).chain(asked.into_iter().map(case)).collect();
    Bench { name, sheet: filled(n), group: 0, cases }
}

/// Reads of four bytes of one region and of two, of twelve regions with a byte each, and
/// one that is denied for its last byte; writes over two and over twelve regions.
fn ranges() -> Bench {
    let mut sheet = touching();
    sheet[FLAGS] = PROGRAMMING | VERIFY;
    let case = |name, gives, code: u8, address: u16, data: &[u8]| {
        let apdu = [&[0x02, code][..], &address.to_be_bytes(), data].concat();
        Case { name, ask: Ask::Request { mode: 3, apdu }, gives, less_check: false }
    };
    let cases = vec![
        the_check(),
        case("read in one region", 0, 0x04, 0x0108, &[]),
        case("read over two regions", 0, 0x04, 0x0102, &[]),
        case("read over twelve regions", 0, 0x0C, 0xFFF4, &[]),
        case("read past the last (11)", 11, 0x0C, 0xFFF5, &[]),
        case("write over two regions", 0, 0x84, 0x0102, &[1, 2, 3, 4]),
        case("write over twelve", 0, 0x8C, 0xFFF4, &[5; 12]),
    ];
    Bench { name: "ranges", sheet, group: 0, cases }
}
