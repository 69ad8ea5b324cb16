//! The places of a sheet: what stands where, and the values of a sheet, accepted or old, taken apart and put together again.

use crate::check::{rules, Broken};

pub const HEAD: usize = 32;
pub const LONGEST: usize = 16_384;
/// The number of the later rules, the highest there is.
pub const LATER: u8 = 1;

/// What an entry describes; the kinds in the order in which their entries and bodies stand.
#[derive(Clone, Copy, Debug, PartialEq, Eq)]
pub enum Kind {
    Region,
    Property,
    Group,
    User,
}

pub const KINDS: [Kind; 4] = [Kind::Region, Kind::Property, Kind::Group, Kind::User];

impl Kind {
    /// The length of an entry.
    pub fn length(self) -> usize {
        [8, 12, 8, 8][self as usize]
    }

    /// So many entries a sheet may have.
    pub fn most(self) -> usize {
        [16, 64, 64, 16][self as usize]
    }

    pub fn plural(self) -> &'static str {
        ["regions", "properties", "group objects", "user regions"][self as usize]
    }
}

pub fn word(s: &[u8], at: usize) -> u16 {
    u16::from_be_bytes([s[at], s[at + 1]])
}

/// The number of entries of a kind, by the head; in edition 1 there are no user regions.
pub fn count(s: &[u8], kind: Kind) -> usize {
    if kind == Kind::User && s[0] != 2 {
        return 0;
    }
    s[[1, 2, 3, 15][kind as usize]] as usize
}

/// Where the entries of a kind begin.
fn start(s: &[u8], kind: Kind) -> usize {
    HEAD + KINDS[..kind as usize].iter().map(|&k| k.length() * count(s, k)).sum::<usize>()
}

/// The length of head and entries.
pub fn contents(s: &[u8]) -> usize {
    start(s, Kind::User) + Kind::User.length() * count(s, Kind::User)
}

/// The entries of a kind; they must lie in the sheet.
pub fn entries(s: &[u8], kind: Kind) -> impl Iterator<Item = &[u8]> {
    let from = start(s, kind);
    s[from..from + kind.length() * count(s, kind)].chunks_exact(kind.length())
}

/// Where the body of an entry starts, by the entry.
pub fn body_at(kind: Kind, e: &[u8]) -> usize {
    word(e, [4, 8, 4, 4][kind as usize]) as usize
}

pub fn body_length(kind: Kind, e: &[u8]) -> usize {
    match kind {
        Kind::Region | Kind::User => word(e, 2) as usize,
        Kind::Property => e[3] as usize * word(e, 4) as usize,
        Kind::Group => e[2].max(1) as usize,
    }
}

/// An entry as people call it.
pub fn name(kind: Kind, e: &[u8]) -> String {
    match kind {
        Kind::Region => format!("region {}", memory_address(word(e, 0).into())),
        Kind::Property => format!("property {}/{}", e[0], e[1]),
        Kind::Group => format!("group object {}", group_address(word(e, 0))),
        Kind::User => format!("user region {}", memory_address(word(e, 0).into())),
    }
}

pub fn memory_address(address: usize) -> String {
    format!("{address:04x}h")
}

/// Main group, middle group, sub group: five bits, three and eight.
pub fn group_address(address: u16) -> String {
    format!("{}/{}/{}", address >> 11, address >> 8 & 7, address & 255)
}

/// Area, line, device: four bits, four and eight.
pub fn individual_address(address: u16) -> String {
    format!("{}.{}.{}", address >> 12, address >> 8 & 15, address & 255)
}

pub fn hex(bytes: &[u8]) -> String {
    let mut out = String::with_capacity(2 * bytes.len());
    bytes.iter().for_each(|&byte| push_hex(&mut out, byte));
    out
}

/// The two hex digits of a byte, at the end of a text.
pub fn push_hex(out: &mut String, byte: u8) {
    const DIGITS: [char; 16] =
        ['0', '1', '2', '3', '4', '5', '6', '7', '8', '9', 'a', 'b', 'c', 'd', 'e', 'f'];
    out.push(DIGITS[usize::from(byte >> 4)]);
    out.push(DIGITS[usize::from(byte & 15)]);
}

// ---- values ----

/// All that a sheet says, accepted or old; places and lengths follow from it.
#[derive(Clone, Debug, PartialEq, Eq)]
pub struct Sheet {
    pub edition: u8,
    /// The number of the rules; edition 1 has 0 alone.
    pub rules: u8,
    pub serial: [u8; 6],
    pub mask: [u8; 2],
    pub programming: bool,
    pub verify: bool,
    pub address: u16,
    pub keys: [[u8; 4]; 3],
    pub regions: Vec<Region>,
    pub properties: Vec<Property>,
    pub groups: Vec<Group>,
    /// The regions of user memory; edition 1 has none.
    pub users: Vec<Region>,
}

#[derive(Clone, Copy, Debug, PartialEq, Eq)]
pub struct Levels {
    pub read: u8,
    pub write: u8,
}

#[derive(Clone, Debug, PartialEq, Eq)]
pub struct Region {
    pub address: u16,
    pub levels: Levels,
    pub body: Vec<u8>,
}

#[derive(Clone, Debug, PartialEq, Eq)]
pub struct Property {
    pub object: u8,
    pub id: u8,
    /// The type's six low bits.
    pub class: u8,
    pub writable: bool,
    pub size: u8,
    pub maximum: u16,
    pub count: u16,
    pub levels: Levels,
    pub body: Vec<u8>,
}

#[derive(Clone, Debug, PartialEq, Eq)]
pub struct Group {
    pub address: u16,
    pub code: u8,
    pub flags: u8,
    pub body: Vec<u8>,
}

pub const WRITABLE: u8 = 0x80;

impl Levels {
    fn of(byte: u8) -> Levels {
        Levels { read: byte >> 4, write: byte & 15 }
    }

    fn byte(self) -> u8 {
        self.read << 4 | self.write
    }
}

fn array<const N: usize>(s: &[u8], at: usize) -> [u8; N] {
    std::array::from_fn(|i| s[at + i])
}

/// The entries of a kind, each with its body.
fn with_bodies(s: &[u8], kind: Kind) -> impl Iterator<Item = (&[u8], Vec<u8>)> {
    entries(s, kind).map(move |e| {
        let at = body_at(kind, e);
        (e, s[at..at + body_length(kind, e)].to_vec())
    })
}

/// The regions of one memory.
fn regions(s: &[u8], kind: Kind) -> Vec<Region> {
    with_bodies(s, kind)
        .map(|(e, body)| Region { address: word(e, 0), levels: Levels::of(e[6]), body })
        .collect()
}

/// The properties of entries and their bodies.
pub fn properties<'a>(pairs: impl Iterator<Item = (&'a [u8], Vec<u8>)>) -> Vec<Property> {
    pairs
        .map(|(e, body)| Property {
            object: e[0],
            id: e[1],
            class: e[2] & 0x3F,
            writable: e[2] & WRITABLE != 0,
            size: e[3],
            maximum: word(e, 4),
            count: word(e, 6),
            levels: Levels::of(e[10]),
            body,
        })
        .collect()
}

impl Sheet {
    /// The values of a sheet, if it breaks no rule.
    pub fn read(s: &[u8]) -> Result<Sheet, Broken> {
        rules(s)?;
        Ok(Sheet {
            edition: s[0],
            rules: s[30],
            serial: array(s, 6),
            mask: array(s, 12),
            programming: s[14] & 1 != 0,
            verify: s[14] & 2 != 0,
            address: word(s, 16),
            keys: [array(s, 18), array(s, 22), array(s, 26)],
            regions: regions(s, Kind::Region),
            properties: properties(with_bodies(s, Kind::Property)),
            groups: with_bodies(s, Kind::Group)
                .map(|(e, body)| Group { address: word(e, 0), code: e[2], flags: e[3], body })
                .collect(),
            users: regions(s, Kind::User),
        })
    }

    /// The bytes of these values; whether they are accepted is for `check` to say.
    pub fn bytes(&self) -> Vec<u8> {
        let mut out = Out { bytes: self.head(), bodies: Vec::new(), next: self.contents() };
        out.regions(&self.regions);
        for p in &self.properties {
            let writable = if p.writable { WRITABLE } else { 0 };
            out.put(&[p.object, p.id, writable | p.class, p.size]);
            out.put(&p.maximum.to_be_bytes());
            out.put(&p.count.to_be_bytes());
            out.place(&p.body);
            out.put(&[p.levels.byte(), 0]);
        }
        for g in &self.groups {
            out.put(&g.address.to_be_bytes());
            out.put(&[g.code, g.flags]);
            out.place(&g.body);
            out.put(&[0, 0]);
        }
        out.regions(&self.users);
        out.bytes.extend(out.bodies);
        let total = out.bytes.len() as u16;
        out.bytes[4..6].copy_from_slice(&total.to_be_bytes());
        out.bytes
    }

    /// The numbers of entries, in the order of the kinds.
    pub fn numbers(&self) -> [usize; 4] {
        [self.regions.len(), self.properties.len(), self.groups.len(), self.users.len()]
    }

    fn contents(&self) -> usize {
        HEAD + KINDS.iter().zip(self.numbers()).map(|(kind, n)| kind.length() * n).sum::<usize>()
    }

    /// The head, but for the sheet's length.
    fn head(&self) -> Vec<u8> {
        let [regions, properties, groups, users] = self.numbers().map(|n| n as u8);
        let mut head = vec![self.edition, regions, properties, groups];
        head.extend([0, 0]);
        head.extend(self.serial);
        head.extend(self.mask);
        head.extend([u8::from(self.programming) + 2 * u8::from(self.verify), users]);
        head.extend(self.address.to_be_bytes());
        head.extend(self.keys.as_flattened());
        head.extend([self.rules, 0]);
        head
    }
}

/// A sheet on its way: head and entries, the bodies, and where the next of these will stand.
struct Out {
    bytes: Vec<u8>,
    bodies: Vec<u8>,
    next: usize,
}

impl Out {
    fn put(&mut self, bytes: &[u8]) {
        self.bytes.extend(bytes);
    }

    /// The entries of one memory's regions.
    fn regions(&mut self, regions: &[Region]) {
        for r in regions {
            self.put(&r.address.to_be_bytes());
            self.put(&(r.body.len() as u16).to_be_bytes());
            self.place(&r.body);
            self.put(&[r.levels.byte(), 0]);
        }
    }

    /// Writes where the body will stand, and keeps it.
    fn place(&mut self, body: &[u8]) {
        self.put(&(self.next as u16).to_be_bytes());
        self.bodies.extend(body);
        self.next += body.len();
    }
}
