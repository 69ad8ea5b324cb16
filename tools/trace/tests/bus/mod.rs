//! A bus for tests: the device with the transport of the example host, two tools and what else sends there, all that is recorded,
//! and what really happened.
#![allow(dead_code)]

use model::gen::Rng;
use trace::archive::{self, Link, Part};
use trace::events::{self, Event};
use trace::link::place_of;

pub const SHEET: &str = "edition 2
serial 00c501020304
mask 07b0
programming off
verify on
address 1.1.5
key 0 5a17c0de
key 1 22222222
key 2 ffffffff

region 0100h r3 w2
    a0 a1 a2 a3
region 0104h r3 w3
    b0 b1 b2 b3

property 1/51 type 4 writable size 2 maximum 2 count 1 r3 w1
    1000
property 2/7 type 3 writable size 1 maximum 1 count 1 r3 w3
    7

group 1/0/1 code 1 read write
    00
group 1/0/2 code 2 read write response
    00 00

end
";

/// The addresses that the device may have.
pub const OWN: [u16; 3] = [0x1105, 0x1106, 0x1109];

/// Nobody, where a level was changed by no frame.
pub const NOBODY: usize = usize::MAX;

/// What a frame did to the device.
#[derive(Clone, Debug)]
pub struct Did {
    pub outcome: u8,
    /// The level at which it acted, and the frame that gave it, if it was on a connection.
    pub level: u8,
    pub mark: usize,
    pub parts: [Part; 2],
    pub after: Vec<u8>,
}

impl Did {
    pub fn carried_out(&self) -> bool {
        self.outcome <= 1
    }

    pub fn wrote(&self, at: usize) -> bool {
        self.parts.iter().any(|part| (part.offset..part.offset + part.length).contains(&at))
    }
}

/// The device, as examples/host.c has it.
#[derive(Clone)]
pub struct Host {
    pub sheet: Vec<u8>,
    pub link: Link,
    /// The next numbers of each connection: in, out.
    numbers: [(u8, u8); 2],
    marks: [usize; 2],
}

pub fn octet(frame: &[u8]) -> u8 {
    frame[9 + usize::from(frame[1])]
}

pub fn source(frame: &[u8]) -> u16 {
    u16::from_be_bytes([frame[4], frame[5]])
}

pub fn destination(frame: &[u8]) -> u16 {
    u16::from_be_bytes([frame[6], frame[7]])
}

pub fn to_one(frame: &[u8]) -> bool {
    frame[3] & 0x80 == 0
}

/// A frame from an address to another, or to a group.
pub fn frame(from: u16, to: u16, group: bool, tpdu: &[u8]) -> Vec<u8> {
    let mut frame = vec![0x29, 0, if group { 0xBC } else { 0xB0 }, if group { 0xE0 } else { 0x60 }];
    frame.extend(from.to_be_bytes());
    frame.extend(to.to_be_bytes());
    frame.push(tpdu.len() as u8 - 1);
    frame.extend(tpdu);
    frame
}

impl Host {
    pub fn new(sheet: &[u8]) -> Host {
        Host {
            sheet: sheet.to_vec(),
            link: Link { sessions: archive::fresh(), address: [0; 2] },
            numbers: [(0, 0); 2],
            marks: [NOBODY; 2],
        }
    }

    pub fn own(&self) -> u16 {
        u16::from_be_bytes([self.sheet[16], self.sheet[17]])
    }

    pub fn partner(&self, address: u16) -> Option<usize> {
        place_of(&self.link, address).map(usize::from)
    }

    fn control(&self, to: u16, octet: u8) -> Vec<u8> {
        frame(self.own(), to, false, &[octet])
    }

    /// The device's time limit for a partner: its disconnect, and what it did.
    pub fn time_out(&mut self, c: usize, id: usize) -> (Did, Vec<u8>) {
        let before = self.link.sessions;
        let trace = events::write(&[Event::disconnect(c as u8)]);
        let mut log = [0; 18];
        let played =
            archive::play(&mut self.link.sessions, &mut self.sheet, &trace, 0, 1, &mut log);
        assert_eq!(played, Ok(1));
        self.marked(before, id);
        let none = [Part { offset: 0, length: 0 }; 2];
        let did =
            Did { outcome: 1, level: 3, mark: NOBODY, parts: none, after: self.sheet.clone() };
        (did, self.control(self.link.address[c], 0x81))
    }

    fn marked(&mut self, before: archive::Sessions, id: usize) {
        for c in 0..2 {
            if before.of[c].level != self.link.sessions.of[c].level {
                self.marks[c] = id;
            }
        }
    }

    /// A frame of the bus: what it did, if it is an event, and what the device sends.
    pub fn take(&mut self, bytes: &[u8], id: usize) -> (Option<Did>, Vec<Vec<u8>>) {
        let a = archive::heard(self.link, &self.sheet, bytes);
        let connected = a.event == 3;
        let placed = a.connection < 2;
        let c = usize::from(a.connection);
        let number = octet(bytes) >> 2 & 15;
        let mut sent = Vec::new();
        if connected && number != self.numbers[c].0 {
            if (number + 1) & 15 == self.numbers[c].0 {
                sent.push(self.control(self.link.address[c], 0xC2 | number << 2));
            }
            return (None, sent);
        }
        let before = self.link.sessions;
        let out = if placed { self.numbers[c].1 } else { 0 };
        let (level, mark) = match connected {
            true => (before.of[c].level, self.marks[c]),
            false => (3, NOBODY),
        };
        let (s, answer) = archive::serve(&mut self.link, out, bytes, &mut self.sheet);
        self.marked(before, id);
        if connected {
            self.numbers[c].0 = (number + 1) & 15;
            sent.push(self.control(self.link.address[c], 0xC2 | number << 2));
        }
        if a.event == 4 {
            self.numbers[c] = (0, 0);
        }
        if !answer.is_empty() {
            let mut answer = answer;
            answer[0] = 0x29;
            sent.push(answer);
            if placed {
                self.numbers[c].1 = (out + 1) & 15;
            }
        }
        if s.number == 61 || s.number == 62 {
            sent.push(self.control(source(bytes), 0x81));
        }
        for other in 0..2 {
            let cut = before.of[other].open && !self.link.sessions.of[other].open;
            if cut && a.event != 5 {
                sent.push(self.control(self.link.address[other], 0x81));
            }
        }
        let did =
            Did { outcome: s.outcome, level, mark, parts: s.changed, after: self.sheet.clone() };
        ((s.number == 0).then_some(did), sent)
    }
}

/// A frame that was on the bus, when, and what it did.
#[derive(Clone, Debug)]
pub struct Sent {
    pub millis: u64,
    pub bytes: Vec<u8>,
    pub did: Option<Did>,
    /// The frame of which it is a repetition, or its own number: one event, whichever of them the device received.
    pub same: usize,
    /// Sent under the device's address by somebody else.
    pub forged: bool,
}

/// A tool: its address, and its next number, if it holds that it is connected.
struct Tool {
    address: u16,
    next: Option<u8>,
    /// The last data, to be sent once more.
    last: Vec<u8>,
}

pub struct Bus {
    pub host: Host,
    pub log: Vec<Sent>,
    pub first: Vec<u8>,
    millis: u64,
    tools: [Tool; 3],
    rng: Rng,
    /// Connects and disconnects may not be received either, which nothing acknowledges.
    deaf: bool,
}

const KEYS: [[u8; 4]; 4] =
    [[0x5A, 0x17, 0xC0, 0xDE], [0x22; 4], [0xFF; 4], [0x13, 0x57, 0x9B, 0xDF]];

impl Bus {
    pub fn new(seed: u64, deaf: bool) -> Bus {
        let mut rng = Rng::new(seed);
        let text =
            if rng.chance(25) { SHEET.replace("verify on", "verify off") } else { SHEET.into() };
        let first = sheet::make::bytes(&text).unwrap();
        let tool = |address| Tool { address, next: None, last: Vec::new() };
        Bus {
            host: Host::new(&first),
            log: Vec::new(),
            first,
            millis: 8 * 3_600_000,
            tools: [tool(0x11FA), tool(0x11FB), tool(0x11FC)],
            rng,
            deaf,
        }
    }

    /// A frame on the bus, which the device takes or misses.
    fn put(&mut self, bytes: Vec<u8>, received: bool) {
        self.put_as(self.log.len(), bytes, received);
    }

    fn put_as(&mut self, same: usize, bytes: Vec<u8>, received: bool) {
        self.millis += match self.rng.below(60) {
            0 => 10_000 + self.rng.below(40_000) as u64,
            _ => 20 + self.rng.below(900) as u64,
        };
        let forged = source(&bytes) == self.host.own();
        let (did, sent) = match received {
            true => self.host.take(&bytes, same),
            false => (None, Vec::new()),
        };
        self.log.push(Sent { millis: self.millis, bytes, did, same, forged });
        for bytes in sent {
            self.device_sends(bytes);
        }
    }

    /// A frame of the device; a tool acknowledges an answer, and hears that its connection has ended.
    fn device_sends(&mut self, bytes: Vec<u8>) {
        self.millis += 10 + self.rng.below(30) as u64;
        let (same, did) = (self.log.len(), None);
        self.log.push(Sent { millis: self.millis, bytes: bytes.clone(), did, same, forged: false });
        let to = destination(&bytes);
        if !to_one(&bytes) {
            return;
        }
        let octet = octet(&bytes);
        let Some(t) = self.tools.iter().position(|tool| tool.address == to) else { return };
        if octet == 0x81 {
            self.tools[t].next = None;
        } else if octet & 0xC0 == 0x40 && self.rng.chance(97) {
            let receipt = frame(to, self.host.own(), false, &[0xC2 | octet & 0x3C]);
            self.put(receipt, true);
        }
    }

    /// Something happens on the bus.
    pub fn step(&mut self) {
        let t = match self.rng.below(20) {
            0 => 2,
            n => n % 2,
        };
        match self.rng.below(100) {
            0..=69 => self.tool_acts(t),
            70..=81 => self.group_value(),
            82..=88 => self.loose(t),
            89..=91 => self.broadcast(),
            92..=94 => self.time_out(),
            95 => self.confused(t),
            96 => self.forged(),
            _ => self.tool_acts(t),
        }
    }

    fn own(&self) -> u16 {
        self.host.own()
    }

    /// A request of a tool on its connection, which it opens and closes.
    fn tool_acts(&mut self, t: usize) {
        let (from, to) = (self.tools[t].address, self.own());
        let received = self.rng.chance(97);
        let control = received || !self.deaf;
        if self.tools[t].next.is_none() {
            self.put(frame(from, to, false, &[0x80]), control);
            if !self.deaf {
                self.tools[t].last.clear();
            }
            // who was turned away was told so by then
            let turned =
                self.log.last().is_some_and(|s| octet(&s.bytes) == 0x81 && to_one(&s.bytes));
            self.tools[t].next = (!turned).then_some(0);
            if !turned && self.rng.chance(60) {
                self.offer(t);
            }
            return;
        }
        match self.rng.below(20) {
            0 | 1 => {
                self.put(frame(from, to, false, &[0x81]), control);
                self.tools[t].next = None;
            }
            2 if !self.tools[t].last.is_empty() => {
                let last = self.tools[t].last.clone();
                self.put(last, received);
            }
            3 => {
                self.put(frame(from, to, false, &[0x80]), control);
                self.tools[t].last.clear();
            }
            4..=6 => self.offer(t),
            _ => {
                let apdu = self.request();
                self.data(t, apdu, received);
            }
        }
        if self.log.last().is_some_and(|s| s.bytes == frame(from, to, false, &[0x80])) {
            self.tools[t].next = Some(0);
        }
    }

    fn offer(&mut self, t: usize) {
        let key = self.rng.pick(&KEYS);
        let mut apdu = vec![3, 0xD1, 0];
        apdu.extend(key);
        let received = self.rng.chance(98);
        self.data(t, apdu, received);
    }

    /// Data with the tool's next number; one that gets no acknowledgement is sent once more, or the tool gives up.
    fn data(&mut self, t: usize, mut apdu: Vec<u8>, received: bool) {
        let Some(number) = self.tools[t].next else { return };
        apdu[0] |= 0x40 | number << 2;
        let (from, to) = (self.tools[t].address, self.own());
        let bytes = frame(from, to, false, &apdu);
        let before = self.log.len();
        self.put(bytes.clone(), received);
        let acknowledged = |log: &[Sent]| {
            log.iter()
                .any(|s| octet(&s.bytes) == 0xC2 | number << 2 && destination(&s.bytes) == from)
        };
        let mut done = acknowledged(&self.log[before..]);
        if !done && self.tools[t].next.is_some() && self.rng.chance(70) {
            self.put_as(before, bytes.clone(), true);
            done = acknowledged(&self.log[before..]);
        }
        if self.tools[t].next.is_some() {
            self.tools[t].last = bytes;
            self.tools[t].next = done.then_some((number + 1) & 15);
        }
    }

    fn height(&mut self) -> [u8; 2] {
        self.rng.pick(&[1000_u16, 640, 1020, 700, 640]).to_be_bytes()
    }

    fn request(&mut self) -> Vec<u8> {
        let [h, l] = self.height();
        let byte = self.rng.pick(&[0, 1, 0x55, 0xA0]);
        let at = self.rng.below(8) as u8;
        match self.rng.below(18) {
            0..=5 => vec![3, 0xD7, 1, 51, 0x10, 1, h, l],
            6 => vec![3, 0xD7, 1, 51, 0x20, 1, h, l, l, h],
            7 | 8 => vec![3, 0xD5, 1, 51, 0x10, 1],
            9..=11 => vec![2, 0x81, 1, at, byte],
            12 => vec![2, 0x01, 1, at],
            13 => vec![3, 0xD0, 1, 1, at, 0xFF, 0x0F],
            14 => {
                let level = self.rng.below(3) as u8;
                let mut apdu = vec![3, 0xD3, level];
                apdu.extend(self.rng.pick(&KEYS));
                apdu
            }
            15 => vec![3, 0xD7, 2, 7, 0x10, 1, byte],
            16 if self.rng.chance(40) => vec![3, 0x80],
            _ => vec![3, 0x00],
        }
    }

    fn group_value(&mut self) {
        let from = self.rng.pick(&[0x1114, 0x1115]);
        let (group, long) = self.rng.pick(&[(0x0801, false), (0x0802, true)]);
        let mut apdu = match self.rng.below(5) {
            0 => vec![0, 0],
            1 if long => vec![0, 0x40],
            _ => vec![0, 0x80],
        };
        if apdu[1] != 0 {
            apdu.push(self.rng.pick(&[0, 1, 2]));
            if long {
                apdu.push(self.rng.pick(&[0, 1]));
            }
        }
        self.put(frame(from, group, true, &apdu), true);
    }

    /// A request on no connection.
    fn loose(&mut self, t: usize) {
        let byte = self.rng.pick(&[7, 8, 9]);
        let apdu = match self.rng.below(4) {
            0 => vec![3, 0xD5, 1, 51, 0x10, 1],
            1 => vec![3, 0x00],
            _ => vec![3, 0xD7, 2, 7, 0x10, 1, byte],
        };
        let received = self.rng.chance(95);
        self.put(frame(self.tools[t].address, self.own(), false, &apdu), received);
    }

    fn broadcast(&mut self) {
        let apdu = match self.rng.below(4) {
            0 => vec![1, 0x00],
            1 => vec![3, 0xDC, 0, 0xC5, 1, 2, 3, 4],
            2 => vec![0, 0xC0, 0x11, 0x09],
            _ => {
                let address = self.rng.pick(&[5, 5, 6]);
                vec![3, 0xDE, 0, 0xC5, 1, 2, 3, 4, 0x11, address, 0, 0, 0, 0]
            }
        };
        self.put(frame(0x11FA, 0, true, &apdu), true);
    }

    fn time_out(&mut self) {
        let c = self.rng.below(2);
        if self.host.link.sessions.of[c].open {
            let id = self.log.len();
            self.millis += 6_000;
            let (did, bytes) = self.host.time_out(c, id);
            self.device_sends(bytes);
            self.log[id].did = Some(did);
        }
    }

    /// Data with a number that is not next, or of a tool that is not connected.
    fn confused(&mut self, t: usize) {
        let mut apdu = self.request();
        let number = self.rng.below(16) as u8;
        apdu[0] |= 0x40 | number << 2;
        // of two requests with one number it is not known which was taken
        let partner = self.host.partner(self.tools[t].address);
        let next = partner.map(|c| self.host.numbers[c].0);
        if !self.deaf && (next == Some(number) || next == Some((number + 1) & 15)) {
            return;
        }
        self.put(frame(self.tools[t].address, self.own(), false, &apdu), true);
    }

    /// Whether a disconnect was forged since the first tool sent something.
    fn forged_already(&self) -> bool {
        let of = self.log.iter().rev().take_while(|s| source(&s.bytes) != self.tools[0].address);
        of.into_iter().any(|s| s.forged && octet(&s.bytes) == 0x81)
    }

    /// A frame under the device's own address that it did not send.
    fn forged(&mut self) {
        let own = self.own();
        let byte = self.rng.pick(&[0, 1]);
        let bytes = match self.rng.below(4) {
            0 => frame(own, own, false, &[3, 0xD7, 2, 7, 0x10, 1, byte]),
            1 => frame(own, own, false, &[0x80]),
            3 if self.host.partner(self.tools[0].address).is_some() && !self.forged_already() => {
                frame(own, self.tools[0].address, false, &[0x81])
            }
            _ => frame(own, 0x0801, true, &[0, 0x80, byte]),
        };
        if octet(&bytes) == 0x81 && self.rng.chance(50) {
            // the tool believes it
            self.tools[0].next = None;
        }
        self.put(bytes, true);
    }
}
