//! A dump of a medium in which a sheet, or a store of versions, is kept through power cuts: two slots, each a half of the dump; what
//! stands in each, which counts, what is torn and why. docs/SLOTS.md has the layout.

use crate::check::rules;
use crate::json::Json;
use crate::kinds::{self, File};
use crate::versions::number_of;

/// The bytes of a slot before the sheet.
pub const HEAD: usize = 64;
pub const MARK: &[u8; 6] = b"KELIND";
/// The longest run of bytes that is kept: a store is as long, a sheet half as long.
pub const LONGEST: usize = 32_768;
/// So many bytes are read of a file that may be a dump: two sectors of 4 MB.
pub const MOST: u64 = 1 << 23;

/// The check sum as in Ethernet and zlib, bit by bit.
pub fn sum(bytes: &[u8]) -> u32 {
    let bit = |c: u32| if c & 1 == 1 { c >> 1 ^ 0xEDB8_8320 } else { c >> 1 };
    !bytes.iter().fold(u32::MAX, |c, &b| (0..8).fold(c ^ u32::from(b), |c, _| bit(c)))
}

fn long(bytes: &[u8], at: usize) -> u32 {
    u32::from_be_bytes([bytes[at], bytes[at + 1], bytes[at + 2], bytes[at + 3]])
}

/// What is kept under a number.
#[derive(Clone, Copy, Debug, PartialEq, Eq)]
pub struct Held<'a> {
    pub number: u32,
    pub bytes: &'a [u8],
}

/// Why a slot holds nothing, in the order in which it is judged.
#[derive(Clone, Copy, Debug, PartialEq, Eq)]
pub enum Refusal {
    Short,
    Unmarked,
    Length(u32),
    Sum { stated: u32, is: u32 },
}

/// A half of a dump.
#[derive(Clone, Copy, Debug)]
pub struct Slot<'a>(pub &'a [u8]);

impl<'a> Slot<'a> {
    fn marked(self) -> bool {
        self.0.starts_with(MARK)
    }

    /// What a unit finds in it.
    pub fn held(self) -> Result<Held<'a>, Refusal> {
        match self.0.len() {
            0..HEAD => Err(Refusal::Short),
            _ if !self.marked() => Err(Refusal::Unmarked),
            _ => self.beside_mark(),
        }
    }

    /// What head and sheet say, whatever stands for the mark.
    fn beside_mark(self) -> Result<Held<'a>, Refusal> {
        let (b, length) = (self.0, long(self.0, 40));
        if length as usize > LONGEST || length as usize > b.len() - HEAD {
            return Err(Refusal::Length(length));
        }
        let end = HEAD + length as usize;
        let (stated, is) = (long(b, 32), sum(&b[36..end]));
        if stated != is {
            return Err(Refusal::Sum { stated, is });
        }
        Ok(Held { number: long(b, 36), bytes: &b[HEAD..end] })
    }
}

/// Both slots.
#[derive(Clone, Copy, Debug)]
pub struct Medium<'a>(pub [Slot<'a>; 2]);

impl<'a> Medium<'a> {
    /// Of a dump: its halves, the first byte of the second half being byte length / 2.
    pub fn of(dump: &'a [u8]) -> Medium<'a> {
        let (first, second) = dump.split_at(dump.len() / 2);
        Medium([Slot(first), Slot(second)])
    }

    /// The slot that a unit starts with.
    pub fn counts(&self) -> Option<usize> {
        match self.0.map(Slot::held) {
            [Ok(a), Ok(b)] => Some(usize::from(b.number == a.number.wrapping_add(1))),
            [Ok(_), Err(_)] => Some(0),
            [Err(_), Ok(_)] => Some(1),
            [Err(_), Err(_)] => None,
        }
    }

    /// The slot that the next save goes to, and its number.
    fn next(&self) -> (usize, u32) {
        match (self.counts(), self.held()) {
            (Some(k), Some(held)) => (1 - k, held.number.wrapping_add(1)),
            _ => (0, 0),
        }
    }

    /// What a unit starts with.
    pub fn held(&self) -> Option<Held<'a>> {
        self.counts().and_then(|k| self.0[k].held().ok())
    }
}

/// Whether a file is such a dump: a slot in it begins with the mark.
pub fn is_dump(bytes: &[u8]) -> bool {
    let Medium(slots) = Medium::of(bytes);
    bytes.len().is_multiple_of(2) && bytes.len() >= 2 * HEAD && slots.iter().any(|p| p.marked())
}

/// The sheet, or the store, in a file: its bytes, or those that a dump of a medium holds.
pub fn kept(bytes: Vec<u8>) -> Result<Vec<u8>, String> {
    if rules(&bytes).is_ok() || kinds::of(&bytes) != Some(File::Medium) {
        return Ok(bytes);
    }
    let held = Medium::of(&bytes).held().map(|held| held.bytes.to_vec());
    held.ok_or_else(|| {
        "a dump of a medium, of which neither slot counts: slots says why".to_string()
    })
}

// ---- for people ----

/// A dump as text: a line for each slot with its number, what it holds or why it holds nothing; which counts; the next save.
pub fn text(dump: &[u8]) -> String {
    let medium = Medium::of(dump);
    let counts = medium.counts();
    let mut out = String::new();
    for (k, slot) in medium.0.iter().enumerate() {
        let from = if k == 0 { 0 } else { medium.0[0].0.len() };
        let to = from + slot.0.len();
        let range =
            if to > from { format!("bytes {from} to {}", to - 1) } else { "no bytes".to_string() };
        out += &format!("slot {k}, {range}: {}", told(*slot, medium.0[1 - k]));
        out += if counts == Some(k) { "; this one counts\n" } else { "\n" };
    }
    let (next, number) = medium.next();
    if counts.is_none() {
        out += "neither counts: a unit starts as a new one\n";
    } else if let [Ok(a), Ok(b)] = medium.0.map(Slot::held) {
        if b.number != a.number.wrapping_add(1) && a.number != b.number.wrapping_add(1) {
            out += "the numbers do not follow one another, as no two saves leave them: slot 0 counts then\n";
        }
    }
    out += &format!("the next save goes to slot {next} under number {number}\n");
    if let Some(at) = elsewhere(dump) {
        out += &format!("the mark stands at byte {at} too, where no half begins: are these two slots of one length?\n");
    }
    out
}

/// A dump for other programs; of a slot that holds nothing number, length and kind are null, and `told` says why.
pub fn json(name: &str, dump: &[u8]) -> Json {
    let medium = Medium::of(dump);
    let slot = |k: usize| {
        let held = medium.0[k].held().ok();
        Json::Object(vec![
            ("slot", k.into()),
            ("from", (k * medium.0[0].0.len()).into()),
            ("room", medium.0[k].0.len().into()),
            ("whole", held.is_some().into()),
            ("number", held.map(|h| h.number).into()),
            ("length", held.map(|h| h.bytes.len()).into()),
            ("kind", held.and_then(|h| kinds::of(h.bytes)).map(File::name).into()),
            ("told", told(medium.0[k], medium.0[1 - k]).into()),
        ])
    };
    let (next, number) = medium.next();
    let goal = Json::Object(vec![("slot", next.into()), ("number", number.into())]);
    Json::Object(vec![
        ("file", name.into()),
        ("counts", medium.counts().into()),
        ("slots", vec![slot(0), slot(1)].into()),
        ("next", goal),
    ])
}

/// Where the mark stands on a unit of 32 bytes that begins no slot, which is so if the dump was cut out wrongly.
fn elsewhere(dump: &[u8]) -> Option<usize> {
    let half = dump.len() / 2;
    let units = (0..dump.len()).step_by(32).filter(|&at| at != 0 && at != half);
    units.into_iter().find(|&at| dump[at..].starts_with(MARK))
}

/// What a slot holds; else why it holds nothing, with what can be told of the save that was cut.
fn told(slot: Slot, other: Slot) -> String {
    match slot.held() {
        Ok(held) => format!("number {}, {}, whole", held.number, what(held.bytes)),
        Err(Refusal::Short) => {
            format!(
                "{}, fewer than the {HEAD} of an empty slot",
                number_of(slot.0.len(), "byte", "bytes")
            )
        }
        Err(Refusal::Unmarked) => unmarked(slot, other),
        Err(why) => format!("marked, but {}", wrong(why, slot)),
    }
}

fn wrong(why: Refusal, slot: Slot) -> String {
    let room = slot.0.len() - HEAD.min(slot.0.len());
    match why {
        Refusal::Length(length) => {
            format!(
                "torn: its head states {length} bytes, and there is room for {}",
                room.min(LONGEST)
            )
        }
        Refusal::Sum { stated, is } => {
            format!("torn: its head states the check sum {stated:08x}, and its bytes have {is:08x}")
        }
        Refusal::Short | Refusal::Unmarked => unreachable!("asked of what stands beside the mark"),
    }
}

/// A slot without its mark: how far its save came, or that of the one that was to replace it.
fn unmarked(slot: Slot, other: Slot) -> String {
    let all = |value: u8| slot.0.iter().all(|&b| b == value);
    let mark = &slot.0[..MARK.len()];
    let seen = match mark {
        [0xFF, 0xFF, 0xFF, 0xFF, 0xFF, 0xFF] => "no mark (erased)".to_string(),
        [0, 0, 0, 0, 0, 0] => "no mark (zeros)".to_string(),
        _ => {
            let bytes: Vec<String> = mark.iter().map(|b| format!("{b:02x}")).collect();
            format!("no mark: torn ({})", bytes.join(" "))
        }
    };
    if all(0xFF) || all(0) {
        return format!(
            "{seen}, and nothing else: never written, or a save was cut after its erase"
        );
    }
    let after = |n: u32| other.held().is_ok_and(|o| o.number.wrapping_add(1) == n);
    let before = |n: u32| other.held().is_ok_and(|o| o.number == n.wrapping_add(1));
    match slot.beside_mark() {
        Ok(held) if after(held.number) => {
            format!(
                "{seen}; number {}, {}, whole: its save was cut before the mark was set",
                held.number,
                what(held.bytes)
            )
        }
        Ok(held) if before(held.number) => {
            format!(
                "{seen}; number {}, {}, whole: unmarked for a save that was cut",
                held.number,
                what(held.bytes)
            )
        }
        Ok(held) => format!("{seen}; number {}, {}, whole", held.number, what(held.bytes)),
        Err(_) if slot.0[32..HEAD].iter().all(|&b| b == 0xFF) => {
            format!("{seen}; no head: a save was cut before its head was written")
        }
        // behind an erase the mark's bytes are FFh until the last piece
        Err(why) if mark == [0xFF; 6] => {
            format!("{seen}; {}: a save was cut while it wrote head or sheet", wrong(why, slot))
        }
        Err(why) => {
            format!("{seen}; {}: a save was cut while it erased or wrote", wrong(why, slot))
        }
    }
}

/// What the bytes that are kept are.
fn what(bytes: &[u8]) -> String {
    let long = number_of(bytes.len(), "byte", "bytes");
    match kinds::of(bytes) {
        Some(kind) => format!("{} of {long}", kind.name()),
        None if bytes.iter().all(|&b| b == 0) && !bytes.is_empty() => {
            format!("{long} of zeros, as of an empty store")
        }
        None => format!("{long} of no known kind"),
    }
}
