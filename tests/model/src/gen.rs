//! Deterministic random sheets, requests, events and PDUs; stores of versions and traces have files of their own.

pub mod links;
pub mod stores;
pub mod traces;

use std::collections::BTreeSet;

use crate::device::{Session, Sessions, Way};
use crate::matrix;
use crate::pdu::Pdu;
use crate::sheet::{self, Memory, HEAD, KEYS, LATER, LONGEST, RULES, SERIAL, USERS};

/// splitmix64
#[derive(Clone, Debug)]
pub struct Rng(u64);

impl Rng {
    pub fn new(seed: u64) -> Rng {
        Rng(seed)
    }

    pub fn draw(&mut self) -> u64 {
        self.0 = self.0.wrapping_add(0x9E37_79B9_7F4A_7C15);
        let mut z = self.0;
        z = (z ^ (z >> 30)).wrapping_mul(0xBF58_476D_1CE4_E5B9);
        z = (z ^ (z >> 27)).wrapping_mul(0x94D0_49BB_1331_11EB);
        z ^ (z >> 31)
    }

    /// 0 to n-1.
    pub fn below(&mut self, n: usize) -> usize {
        (self.draw() >> 32) as usize % n
    }

    /// Both ends included.
    pub fn within(&mut self, low: usize, high: usize) -> usize {
        low + self.below(high - low + 1)
    }

    /// True in about `percent` of a hundred calls.
    pub fn chance(&mut self, percent: usize) -> bool {
        self.below(100) < percent
    }

    pub fn byte(&mut self) -> u8 {
        (self.draw() >> 56) as u8
    }

    pub fn word(&mut self) -> u16 {
        (self.draw() >> 48) as u16
    }

    pub fn pick<T: Copy>(&mut self, from: &[T]) -> T {
        from[self.below(from.len())]
    }

    pub fn array<const N: usize>(&mut self) -> [u8; N] {
        std::array::from_fn(|_| self.byte())
    }

    pub fn bytes(&mut self, n: usize) -> Vec<u8> {
        (0..n).map(|_| self.byte()).collect()
    }
}

// ---- sheets ----

/// A number of entries: often none, few or the most allowed.
fn entries(rng: &mut Rng, most: usize) -> usize {
    match rng.below(6) {
        0 => 0,
        1 => most,
        2 | 3 => rng.within(1, 3),
        _ => rng.within(0, most),
    }
}

/// How much of what is left over one body takes for itself.
fn share(rng: &mut Rng, spare: usize) -> usize {
    let wish = match rng.below(8) {
        0 => 0,
        1..=4 => rng.within(0, 15),
        5 | 6 => rng.within(0, 200),
        _ => rng.within(0, 5000),
    };
    wish.min(spare)
}

fn level(rng: &mut Rng) -> u8 {
    rng.pick(&[0, 1, 2, 3, 3, 3])
}

fn levels(rng: &mut Rng) -> u8 {
    level(rng) << 4 | level(rng)
}

/// Three keys, often free for all or alike.
fn keys(rng: &mut Rng) -> [[u8; 4]; 3] {
    let mut keys = [rng.array(), rng.array(), rng.array()];
    for k in 0..3 {
        match rng.below(5) {
            0 => keys[k] = [0xFF; 4],
            1 => keys[k] = keys[rng.below(3)],
            _ => {}
        }
    }
    keys
}

/// Distinct property names in rising order; some objects have many.
fn names(rng: &mut Rng, p: usize) -> BTreeSet<(u8, u8)> {
    let objects: Vec<u8> = (0..rng.within(1, 6)).map(|i| rng.pick(&[i as u8, 255, 7])).collect();
    let mut names = BTreeSet::new();
    while names.len() < p {
        let object = if rng.chance(10) { rng.byte() } else { rng.pick(&objects) };
        let id = if rng.chance(30) { rng.byte() } else { rng.within(50, 80) as u8 };
        if id != 0 {
            names.insert((object, id));
        }
    }
    names
}

fn addresses(rng: &mut Rng, g: usize) -> BTreeSet<u16> {
    let base = rng.word();
    let mut addresses = BTreeSet::new();
    while addresses.len() < g {
        let address = match rng.below(8) {
            0 => rng.pick(&[1, 0xFFFF, 0x8000]),
            1 | 2 => rng.word(),
            _ => base.wrapping_add(rng.below(80) as u16),
        };
        if address != 0 {
            addresses.insert(address);
        }
    }
    addresses
}

// The regions of a memory may be a chain: so many of a hundred have one byte, touch the
// one before and have the levels that are usual in it. 0 is no chain.

fn chain(rng: &mut Rng) -> usize {
    rng.pick(&[0, 0, 75, 97])
}

/// Lengths of the regions of one memory, what they take of `spare` taken off it.
fn lengths(rng: &mut Rng, chain: usize, r: usize, spare: &mut usize) -> Vec<usize> {
    (0..r)
        .map(|_| {
            let more = match chain {
                _ if rng.chance(chain) => 0,
                1.. if rng.chance(80) => rng.within(1, 4).min(*spare),
                _ => share(rng, *spare),
            };
            *spare -= more;
            1 + more
        })
        .collect()
}

/// Levels of the regions of one memory.
fn all_levels(rng: &mut Rng, chain: usize, r: usize) -> Vec<u8> {
    let usual = levels(rng);
    (0..r).map(|_| if rng.chance(chain) { usual } else { levels(rng) }).collect()
}

/// What lies between the regions of one memory, and in front of the first. They often
/// touch, and often begin at an address in `shared`. Where those of a chain don't touch they
/// mostly lie one byte apart; half the chains end with the address space, and some of
/// these begin with it.
fn gaps(rng: &mut Rng, chain: usize, lengths: &[usize], shared: &[usize]) -> Vec<usize> {
    let mut room = 65_536 - lengths.iter().sum::<usize>();
    let mut address = 0;
    let mut gaps = Vec::new();
    for (k, &length) in lengths.iter().enumerate() {
        let near = match shared.last() {
            Some(&last) if k == 0 && rng.chance(30) => Some(last),
            _ => shared.iter().copied().find(|&a| address <= a),
        };
        let gap = match (rng.below(8), near) {
            _ if k > 0 && rng.chance(chain) => 0,
            (0..=5, _) if k > 0 && chain > 0 => 1,
            (0..=2, Some(near)) => near - address,
            (0..=3, _) => 0,
            (4 | 5, _) => rng.within(1, 4),
            (6, _) if k + 1 == lengths.len() => room, // the last one ends with the address space
            _ => rng.within(0, room / 4),
        }
        .min(room);
        room -= gap;
        address += gap + length;
        gaps.push(gap);
    }
    if chain > 0 && !gaps.is_empty() && rng.chance(50) {
        room += std::mem::take(&mut gaps[0]);
        gaps[rng.below(lengths.len())] += room;
    }
    gaps
}

/// The entries of the regions of one memory, whose bodies begin at `body`.
fn regions(
    rng: &mut Rng,
    chain: usize,
    lengths: &[usize],
    mut body: usize,
    shared: &[usize],
) -> Vec<u8> {
    let mut entries = Vec::new();
    let mut address = 0;
    let gaps = gaps(rng, chain, lengths, shared);
    let levels = all_levels(rng, chain, lengths.len());
    for ((&length, gap), levels) in lengths.iter().zip(gaps).zip(levels) {
        address += gap;
        entries.extend((address as u16).to_be_bytes());
        entries.extend((length as u16).to_be_bytes());
        entries.extend((body as u16).to_be_bytes());
        entries.extend([levels, 0]);
        address += length;
        body += length;
    }
    entries
}

/// The addresses at which region entries begin and end, rising.
fn edges(entries: &[u8]) -> Vec<usize> {
    let word = |e: &[u8], at: usize| u16::from_be_bytes([e[at], e[at + 1]]) as usize;
    let mut edges = Vec::new();
    for e in entries.chunks(8) {
        edges.extend([word(e, 0), word(e, 0) + word(e, 2)]);
    }
    edges.dedup();
    edges
}

/// An accepted sheet, of either rules; user memory often has addresses that the
/// device's memory has too, and often begins where that ends.
pub fn sheet(rng: &mut Rng) -> Vec<u8> {
    of_edition(rng, 2)
}

/// An old sheet.
pub fn old_sheet(rng: &mut Rng) -> Vec<u8> {
    of_edition(rng, 1)
}

/// A sheet that breaks no rule: a third are old.
pub fn whole_sheet(rng: &mut Rng) -> Vec<u8> {
    let edition = rng.pick(&[1, 2, 2]);
    of_edition(rng, edition)
}

fn of_edition(rng: &mut Rng, edition: u8) -> Vec<u8> {
    let most_users = if edition == 2 { 16 } else { 0 };
    let (r, p, g, u) = match rng.below(12) {
        0 => (16, 64, 64, most_users),
        1 => (0, 0, 0, 0),
        _ => (entries(rng, 16), entries(rng, 64), entries(rng, 64), entries(rng, 16)),
    };
    let u = u.min(most_users);
    let contents = HEAD + 8 * r + 12 * p + 8 * g + 8 * u;

    // Every body can have its smallest size; the rest is handed out freely.
    let mut spare = LONGEST - contents - r - 10 * p - 14 * g - u;
    let chains = [chain(rng), chain(rng)];
    let mut device = lengths(rng, chains[0], r, &mut spare);
    let user = lengths(rng, chains[1], u, &mut spare);
    let mut shapes = Vec::new();
    for _ in 0..p {
        let size = rng.within(1, 10);
        let more = (share(rng, spare) / size).min(4094);
        spare -= more * size;
        shapes.push((size, 1 + more));
    }
    let codes: Vec<usize> = (0..g)
        .map(|_| match rng.below(6) {
            0 | 1 => 0,
            2 => 14,
            _ => rng.within(1, 14),
        })
        .collect();
    let bodies = |device: &[usize]| {
        device.iter().chain(&user).sum::<usize>()
            + shapes.iter().map(|(size, maximum)| size * maximum).sum::<usize>()
            + codes.iter().map(|&c| c.max(1)).sum::<usize>()
    };
    if r > 0 && rng.chance(12) {
        let k = rng.below(r);
        device[k] += LONGEST - contents - bodies(&device);
    }
    let total = contents + bodies(&device);

    let mut s = vec![edition, r as u8, p as u8, g as u8];
    s.extend((total as u16).to_be_bytes());
    s.extend(rng.array::<6>());
    s.extend(rng.array::<2>());
    s.push(rng.pick(&[0, 1, 2, 2, 3, 3]));
    s.push(u as u8);
    s.extend(rng.array::<2>());
    s.extend(keys(rng).as_flattened());
    s.extend([if edition == 2 { rng.pick(&[0, LATER]) } else { 0 }, 0]);

    let mut body = contents;
    let of_device = regions(rng, chains[0], &device, body, &[]);
    s.extend(&of_device);
    body += device.iter().sum::<usize>();
    for ((object, id), &(size, maximum)) in names(rng, p).into_iter().zip(&shapes) {
        let count = match rng.below(4) {
            0 => 0,
            1 => maximum,
            _ => rng.within(0, maximum),
        };
        let writable = if rng.chance(75) { 0x80 } else { 0 };
        s.extend([object, id, writable | rng.byte() & 0x3F, size as u8]);
        s.extend((maximum as u16).to_be_bytes());
        s.extend((count as u16).to_be_bytes());
        s.extend((body as u16).to_be_bytes());
        s.extend([levels(rng), 0]);
        body += size * maximum;
    }
    let mut six_bits = Vec::new();
    for (address, &code) in addresses(rng, g).into_iter().zip(&codes) {
        let flags = if rng.chance(60) { 7 } else { rng.below(8) as u8 };
        s.extend(address.to_be_bytes());
        s.extend([code as u8, flags]);
        s.extend((body as u16).to_be_bytes());
        s.extend([0, 0]);
        if code == 0 {
            six_bits.push(body);
        }
        body += code.max(1);
    }
    s.extend(regions(rng, chains[1], &user, body, &edges(&of_device)));
    while s.len() < total {
        s.push(rng.byte());
    }
    for at in six_bits {
        s[at] &= 63;
    }
    s
}

/// Changes one byte, mostly of the contents; the sheet may stay as good as it was.
pub fn damage(rng: &mut Rng, sheet: &mut [u8]) {
    if sheet.is_empty() {
        return;
    }
    let contents = if sheet.len() < HEAD { HEAD } else { sheet::contents(sheet) };
    let at = match rng.below(10) {
        0 => rng.below(sheet.len()),
        1 => rng.pick(&[0, USERS, RULES]).min(sheet.len() - 1),
        2..=4 => rng.below(HEAD.min(sheet.len())),
        _ => rng.below(contents.min(sheet.len())),
    };
    let old = sheet[at];
    while sheet[at] == old {
        sheet[at] = match rng.below(4) {
            0 => rng.byte(),
            1 => old ^ 1 << rng.below(8),
            2 => old.wrapping_add(1),
            _ => old.wrapping_sub(1),
        };
    }
}

/// A sheet for a check: accepted, old, damaged, too long, too short, or noise.
pub fn any_sheet(rng: &mut Rng) -> Vec<u8> {
    let mut s = whole_sheet(rng);
    match rng.below(20) {
        0..=4 => {}
        5..=14 => damage(rng, &mut s),
        15 | 16 => {
            damage(rng, &mut s);
            damage(rng, &mut s);
        }
        17 => {
            // another length, and half the time the length field follows
            let len = match rng.below(4) {
                0 => rng.within(0, 40),
                1 => s.len() + 1,
                2 => s.len() - 1,
                _ => rng.within(LONGEST - 1, LONGEST + 2),
            };
            s.resize(len, 0);
            if len > 5 && rng.chance(50) {
                s[4..6].copy_from_slice(&(len as u16).to_be_bytes());
            }
        }
        18 => {
            s[rng.pick(&[1, 2, 3, USERS, RULES])] = rng.byte();
        }
        _ => {
            let len = rng.within(0, 200);
            s = rng.bytes(len);
        }
    }
    s
}

// ---- requests ----

/// A request with the answer buffer as the device finds it.
#[derive(Clone, Debug)]
pub struct Ask {
    pub way: Way,
    pub apdu: Vec<u8>,
    pub buffer: Vec<u8>,
}

#[derive(Clone, Debug)]
pub enum Event {
    Connect(u8),
    Disconnect(u8),
    Button(bool),
    /// The session of a connection, 0 or 1, is put into this state from outside.
    Found(u8, Session),
    Request(Ask),
}

/// The number of a connection, sometimes of none.
pub fn connection(rng: &mut Rng) -> u8 {
    match rng.below(30) {
        0 => rng.pick(&[2, 3, 127, 128, 254, 255]),
        1 => rng.byte(),
        _ => rng.below(2) as u8,
    }
}

pub fn session(rng: &mut Rng) -> Session {
    let level = if rng.chance(10) { rng.byte() } else { rng.below(4) as u8 };
    Session { open: rng.chance(88), level }
}

pub fn event(rng: &mut Rng, sheet: &[u8]) -> Event {
    match rng.below(100) {
        0 | 1 => Event::Connect(connection(rng)),
        2 => Event::Disconnect(connection(rng)),
        3 => Event::Button(true),
        4 => Event::Button(false),
        5..=16 => Event::Found(rng.below(2) as u8, session(rng)),
        _ => Event::Request(ask(rng, sheet)),
    }
}

/// A number at, near or away from one of the given limits.
fn around(rng: &mut Rng, limits: &[i64], most: i64) -> i64 {
    let value = match rng.below(10) {
        0 => rng.below(most as usize + 1) as i64,
        1..=6 => rng.pick(limits),
        _ => rng.pick(limits) + rng.pick(&[-1, 1]),
    };
    value.clamp(0, most)
}

fn group_address(rng: &mut Rng, sheet: &[u8], good: bool) -> (u16, usize) {
    let groups: Vec<_> = if good { sheet::groups(sheet).collect() } else { Vec::new() };
    if groups.is_empty() || rng.chance(5) {
        return (rng.word(), rng.below(15));
    }
    let g = rng.pick(&groups);
    match rng.below(20) {
        0 => (g.address.wrapping_add(1), g.code as usize),
        1 => (g.address.wrapping_sub(1), g.code as usize),
        _ => (g.address, g.code as usize),
    }
}

/// Object, id, size, maximum and count of an aimed-at property.
fn target(rng: &mut Rng, sheet: &[u8], good: bool) -> (u8, u8, i64, i64, i64) {
    let all: Vec<_> = if good { sheet::properties(sheet).collect() } else { Vec::new() };
    if all.is_empty() || rng.chance(4) {
        return (rng.byte(), rng.byte(), rng.within(1, 10) as i64, rng.within(1, 9) as i64, 1);
    }
    let p = rng.pick(&all);
    let (object, id) = match rng.below(20) {
        0 => (p.object.wrapping_add(1), p.id),
        1 => (p.object, p.id.wrapping_add(1)),
        2 => (p.object, p.id.wrapping_sub(1)),
        _ => (p.object, p.id),
    };
    (object, id, p.size as i64, p.maximum as i64, p.count as i64)
}

/// n and s, half the time such that property and answer hold all elements,
/// else at and around those limits.
fn elements(rng: &mut Rng, size: i64, maximum: i64, count: i64) -> (u8, u16) {
    let edges = [1, 2, maximum, count, count + 1, maximum - 10 / size + 1];
    if rng.chance(50) {
        let s = around(rng, &edges, maximum).max(1);
        let n = rng.within(1, (10 / size).min(maximum - s + 1) as usize);
        return (n as u8, s as u16);
    }
    let s = if rng.chance(25) { 0 } else { around(rng, &edges, 4095) };
    let n = if s == 0 && rng.chance(70) {
        1
    } else {
        around(rng, &[1, 1, 2, 10 / size, maximum - s + 1], 15)
    };
    (n as u8, s as u16)
}

/// Number and first address of a range from an edge of a region to an edge of
/// one behind it, if it has no more than `most` bytes; sometimes a byte more or less.
fn over(rng: &mut Rng, all: &[sheet::Region], most: i64) -> Option<(u8, u16)> {
    let k = rng.below(all.len());
    let first = all[k].address as i64 + rng.pick(&[0, 0, 0, all[k].length as i64 - 1, 1, -1]);
    let ends = all[k..].iter().map(|r| (r.address + r.length) as i64 - first);
    let fit: Vec<i64> = ends.filter(|n| (1..=most).contains(n)).collect();
    let n = match (rng.below(3), fit.last()) {
        (_, None) => return None,
        (0, Some(&longest)) => longest,
        _ => rng.pick(&fit),
    };
    let n = (n + rng.pick(&[0, 0, 0, 0, 0, 1, -1])).clamp(1, most);
    Some((n as u8, first as u16))
}

/// Number and first address of a range aimed at the inside or the edges of
/// regions, sometimes of the other memory's, or at the end of the address space.
fn range(rng: &mut Rng, sheet: &[u8], good: bool, memory: Memory, most: i64) -> (u8, u16) {
    let of = |memory| if good { sheet::regions(sheet, memory).collect() } else { Vec::new() };
    let mut all: Vec<sheet::Region> = of(memory);
    if rng.chance(10) {
        all = of(if memory == Memory::Device { Memory::User } else { Memory::Device });
    }
    let mut n = rng.within(1, most as usize) as i64;
    if all.is_empty() || rng.chance(4) {
        return (n as u8, rng.word());
    }
    if all.last().is_some_and(|r| r.address + r.length == 65_536) && rng.chance(30) {
        return (n as u8, (65_536 - rng.within(1, 12)) as u16);
    }
    if rng.chance(40) {
        if let Some(range) = over(rng, &all, most) {
            return range;
        }
    }
    let region = rng.pick(&all);
    let (first, length) = (region.address as i64, region.length as i64);
    if rng.chance(40) {
        n = around(rng, &[1, length, most, 0], 15);
    }
    let inside = (length - n + 1).max(1) as usize;
    let address = match rng.below(8) {
        0 => first,
        1 => first - 1,
        2 => first + length - n,
        3 => first + length - n + 1,
        4 => first + length - 1,
        5 => first + length,
        _ => first + rng.below(inside) as i64,
    };
    (n as u8, address as u16)
}

fn key(rng: &mut Rng, sheet: &[u8], good: bool) -> [u8; 4] {
    match rng.below(10) {
        0 => rng.array(),
        1 => [0xFF; 4],
        _ if good => {
            let at = KEYS + 4 * rng.below(3);
            let mut key: [u8; 4] = sheet[at..at + 4].try_into().unwrap();
            if rng.chance(25) {
                key[rng.below(4)] ^= 1 << rng.below(8);
            }
            key
        }
        _ => [0xFF; 4],
    }
}

fn serial(rng: &mut Rng, sheet: &[u8], good: bool) -> [u8; 6] {
    if !good || rng.chance(10) {
        return rng.array();
    }
    let mut serial: [u8; 6] = sheet[SERIAL..SERIAL + 6].try_into().unwrap();
    if rng.chance(30) {
        serial[rng.below(6)] ^= 1 << rng.below(8);
    }
    serial
}

/// Any ten-bit code the device does not serve, often a tool's answer.
fn unknown_code(rng: &mut Rng) -> u16 {
    loop {
        let code = match rng.below(6) {
            0 => rng.pick(&[0x140, 0x3D2, 0x3D4, 0x3D6, 0x3D9, 0x3DD, 0x2C1]),
            1 => rng.pick(&[0x240, 0x340]) + rng.below(16) as u16,
            2 => rng.pick(&[0x001, 0x03F, 0x0C1, 0x101, 0x210, 0x290, 0x2C3, 0x3DF, 0x3FF]),
            3 => 0x381 + rng.below(63) as u16, // a restart with bits that are the later standard's
            _ => rng.word() & 0x3FF,
        };
        if matrix::row(&code.to_be_bytes()) == matrix::UNKNOWN {
            return code;
        }
    }
}

/// The APDU of one row of the matrix, mostly well formed and aimed at the
/// sheet, and the group address to go with it.
fn apdu(rng: &mut Rng, sheet: &[u8], good: bool, row: usize) -> (Vec<u8>, u16) {
    let mut group = rng.word();
    let mut a = Vec::with_capacity(20);
    let code = |a: &mut Vec<u8>, code: usize| a.extend((code as u16).to_be_bytes());
    match row {
        0 => {
            group = group_address(rng, sheet, good).0;
            code(&mut a, 0x000);
        }
        1 | 2 => {
            let (address, length) = group_address(rng, sheet, good);
            group = address;
            let data = if rng.chance(15) {
                rng.below(15)
            } else if rng.chance(10) {
                (length + 1).min(14)
            } else {
                length
            };
            let v = if data == 0 || rng.chance(5) { rng.below(64) } else { 0 };
            code(&mut a, 0x40 * row + v);
            a.extend(rng.bytes(data));
        }
        3 => {
            code(&mut a, 0x0C0);
            a.extend(rng.array::<2>());
        }
        4 => code(&mut a, 0x100),
        5 => {
            code(&mut a, 0x3DC);
            a.extend(serial(rng, sheet, good));
        }
        6 => {
            code(&mut a, 0x3DE);
            a.extend(serial(rng, sheet, good));
            a.extend(rng.array::<6>());
        }
        7 => {
            let t = rng.below(64);
            let t = rng.pick(&[0, 0, 1, 63, t, t]);
            code(&mut a, 0x300 + t);
        }
        8 | 9 => {
            let (object, id, size, maximum, count) = target(rng, sheet, good);
            // A read is bounded by the count, a write by the maximum.
            let limit = if row == 8 && count > 0 && rng.chance(70) { count } else { maximum };
            let (n, s) = elements(rng, size, limit, count);
            code(&mut a, if row == 8 { 0x3D5 } else { 0x3D7 });
            a.extend([object, id]);
            a.extend(((n as u16) << 12 | s).to_be_bytes());
            if row == 9 && s == 0 {
                let clear = [&[0, 0][..], &[0, 0], &[0, 0], &[0, 1], &[1, 0], &[0], &[0, 0, 0]];
                a.extend(rng.pick(&clear));
            } else if row == 9 {
                let exact = (n as i64 * size).clamp(1, 10);
                let length =
                    if rng.chance(75) { exact } else { around(rng, &[exact, 1, 10], 10).max(1) };
                a.extend(rng.bytes(length as usize));
            }
        }
        10 => {
            let (object, id, ..) = target(rng, sheet, good);
            code(&mut a, 0x3D8);
            let by_index = rng.chance(50);
            a.extend([object, if by_index { 0 } else { id }]);
            let index = match rng.below(4) {
                0 => rng.byte(),
                1 => rng.below(64) as u8,
                _ => rng.below(4) as u8,
            };
            a.push(index);
        }
        11 | 12 => {
            let (n, address) = range(rng, sheet, good, Memory::Device, 12);
            code(&mut a, if row == 11 { 0x200 } else { 0x280 } + n as usize);
            a.extend(address.to_be_bytes());
            if row == 12 {
                a.extend(rng.bytes(n as usize));
            }
        }
        13 => {
            let (n, address) = range(rng, sheet, good, Memory::Device, 5);
            code(&mut a, 0x3D0);
            a.push(n);
            a.extend(address.to_be_bytes());
            a.extend(rng.bytes(2 * n as usize));
            a.truncate(16);
        }
        14 => {
            code(&mut a, 0x3D1);
            a.push(if rng.chance(50) { 0 } else { rng.byte() });
            a.extend(key(rng, sheet, good));
        }
        15 => {
            code(&mut a, 0x3D3);
            a.push(if rng.chance(10) { rng.byte() } else { rng.below(4) as u8 });
            a.extend(key(rng, sheet, good));
        }
        16 => code(&mut a, 0x380),
        17 | 18 => {
            let (mut n, address) = range(rng, sheet, good, Memory::User, 11);
            if row == 17 && rng.chance(20) {
                // an address extension of the later standard, or any n at all
                n = if rng.chance(50) { n | 16 << rng.below(4) } else { rng.byte() };
            }
            code(&mut a, if row == 17 { 0x2C0 } else { 0x2C2 });
            a.push(n);
            a.extend(address.to_be_bytes());
            if row == 18 {
                let extension = if rng.chance(3) { 16 << rng.below(4) } else { 0 };
                a[2] |= extension;
                a.extend(rng.bytes(n as usize));
                a.truncate(16);
            }
        }
        matrix::UNKNOWN => {
            code(&mut a, unknown_code(rng) as usize);
            let more = rng.below(15);
            a.extend(rng.bytes(more));
        }
        _ => {
            let length = rng.pick(&[0, 1, 17, 18, 19, 20]);
            a = rng.bytes(length);
        }
    }
    (a, group)
}

/// A request aimed at the sheet, good or bad, with all its surroundings.
pub fn ask(rng: &mut Rng, sheet: &[u8]) -> Ask {
    let good = sheet::rule(sheet) == 0;
    let row = match rng.below(90) {
        0..=2 => matrix::UNKNOWN,
        3 => matrix::MALFORMED,
        4..=9 => 9,
        10..=13 => 12,
        14..=17 => 13,
        18..=21 => 17,
        22..=27 => 18,
        _ => rng.below(matrix::UNKNOWN),
    };
    let (mut apdu, group) = apdu(rng, sheet, good, row);
    match rng.below(60) {
        0 => {
            apdu.pop();
        }
        1 => apdu.push(rng.byte()),
        2 => {
            let length = rng.within(0, 20);
            apdu.resize(length, 0x55);
        }
        3 => {
            let length = rng.within(0, 20);
            apdu = rng.bytes(length);
        }
        _ => {}
    }
    if let (Some(first), true) = (apdu.first_mut(), rng.chance(50)) {
        *first = *first & 3 | rng.byte() & 0xFC;
    }
    let mode = match rng.below(100) {
        0..=13 => rng.below(4) as u8,
        14..=16 => rng.byte(),
        _ => match row {
            0..=2 => 0,
            3..=6 => 1,
            7..=10 | 16 => 2 + rng.below(2) as u8,
            11..=18 => 3,
            _ => rng.below(4) as u8,
        },
    };
    let room = if rng.chance(7) { rng.below(16) } else { rng.within(16, 20) };
    let group = if mode != 0 && rng.chance(50) { 0 } else { group };
    let way = Way { mode, connection: connection(rng), group };
    Ask { way, apdu, buffer: rng.bytes(room) }
}

// ---- two tools ----

/// Two installers with a connection each, who go by the keys that they know and
/// change them behind each other's backs.
pub struct Tools {
    known: [[[u8; 4]; 3]; 2],
}

impl Tools {
    /// Both know the keys of the sheet.
    pub fn new(sheet: &[u8]) -> Tools {
        Tools { known: [keys_of(sheet); 2] }
    }

    /// An event of one of them.
    pub fn event(&mut self, rng: &mut Rng, sheet: &[u8], sessions: &Sessions) -> Event {
        let tool = rng.below(2);
        self.event_of(tool, rng, sheet, sessions[tool])
    }

    /// An event of the tool with this connection.
    pub fn event_of(&mut self, tool: usize, rng: &mut Rng, sheet: &[u8], own: Session) -> Event {
        let connection = tool as u8;
        if !own.open && rng.chance(85) {
            return Event::Connect(connection);
        }
        let level = rng.below(3);
        let known = &mut self.known[tool];
        match rng.below(100) {
            0 => Event::Connect(connection),
            1 => Event::Disconnect(connection),
            2 => Event::Button(rng.chance(50)),
            // told by somebody what the keys are now
            3..=6 => {
                *known = keys_of(sheet);
                Event::Request(on(rng, connection, offer(known[level])))
            }
            // by what it knows, which may be a key no more
            7..=26 => Event::Request(on(rng, connection, offer(known[level]))),
            27..=38 => {
                let key = match rng.below(4) {
                    0 => rng.pick(known),
                    1 => [0xFF; 4],
                    _ => rng.array(),
                };
                known[level] = key;
                let write = [&[0x03, 0xD3, level as u8][..], &key].concat();
                Event::Request(on(rng, connection, write))
            }
            39 => Event::Request(on(rng, connection, vec![0x03, 0x80])),
            _ => {
                let mut ask = ask(rng, sheet);
                while matrix::row(&ask.apdu) == 16 {
                    ask = self::ask(rng, sheet);
                }
                if rng.chance(97) {
                    ask.way.connection = connection;
                }
                Event::Request(ask)
            }
        }
    }
}

fn keys_of(sheet: &[u8]) -> [[u8; 4]; 3] {
    std::array::from_fn(|k| sheet[KEYS + 4 * k..][..4].try_into().unwrap())
}

fn offer(key: [u8; 4]) -> Vec<u8> {
    [&[0x03, 0xD1, 0][..], &key].concat()
}

/// A request on a connection.
fn on(rng: &mut Rng, connection: u8, apdu: Vec<u8>) -> Ask {
    Ask { way: Way::on(connection), apdu, buffer: rng.bytes(16) }
}

// ---- PDUs ----

/// A PDU to write, with its data: fields and lengths at and past the limits.
pub fn pdu(rng: &mut Rng) -> (Pdu, Vec<u8>) {
    let small = |rng: &mut Rng, limit: usize| {
        if rng.chance(8) {
            rng.byte()
        } else {
            rng.below(limit) as u8
        }
    };
    let wide = |rng: &mut Rng| match rng.below(6) {
        0 => rng.word(),
        1 => rng.pick(&[0, 4095, 4096]),
        _ => rng.word() & 0xFFF,
    };
    let mut v = small(rng, 64);
    let n = small(rng, 16);
    let (s, address) = (wide(rng), rng.word());
    let (object, id, index, level) = (rng.byte(), rng.byte(), rng.byte(), rng.byte());
    let kind = rng.below(28);
    let mut length = match kind {
        1 | 2 | 10 => rng.within(0, 15),
        12 | 13 => rng.within(0, 11),
        17 | 18 | 26 | 27 => n as usize,
        19 => 2 * n as usize,
        _ => 0,
    };
    if rng.chance(5) {
        length = rng.below(20);
    }
    if length > 0 && kind <= 2 && rng.chance(80) {
        v = 0;
    }
    let pdu = match kind {
        0 => Pdu::GroupRead,
        1 => Pdu::GroupResponse { v },
        2 => Pdu::GroupWrite { v },
        3 => Pdu::AddressWrite { address },
        4 => Pdu::AddressRead,
        5 => Pdu::AddressResponse,
        6 => Pdu::SerialRead { serial: rng.array() },
        7 => Pdu::SerialResponse { serial: rng.array(), domain: address },
        8 => Pdu::SerialWrite { serial: rng.array(), address },
        9 => Pdu::DescriptorRead { t: v },
        10 => Pdu::DescriptorResponse { t: v },
        11 => Pdu::PropertyRead { object, id, n, s },
        12 => Pdu::PropertyResponse { object, id, n, s },
        13 => Pdu::PropertyWrite { object, id, n, s },
        14 => Pdu::DescriptionRead { object, id, index },
        15 => Pdu::DescriptionResponse {
            object,
            id,
            index,
            kind: rng.byte(),
            maximum: s,
            access: rng.byte(),
        },
        16 => Pdu::MemoryRead { n, address },
        17 => Pdu::MemoryResponse { n, address },
        18 => Pdu::MemoryWrite { n, address },
        19 => Pdu::MemoryBitWrite { n, address },
        20 => Pdu::AuthorizeRequest { key: rng.array() },
        21 => Pdu::AuthorizeResponse { level },
        22 => Pdu::KeyWrite { level, key: rng.array() },
        23 => Pdu::KeyResponse { level },
        24 => Pdu::Restart,
        25 => Pdu::UserMemoryRead { n: if rng.chance(50) { n } else { rng.byte() }, address },
        26 => Pdu::UserMemoryResponse { n, address },
        _ => Pdu::UserMemoryWrite { n, address },
    };
    (pdu, rng.bytes(length))
}
