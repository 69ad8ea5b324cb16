//! A bus for tests: a tunnelling server on the loopback, and behind it units that the model plays, each with a way of its own:
//! silent, slow, losing frames, old. Its clock runs as the tool's does.
#![allow(dead_code)]

use std::collections::{BTreeMap, VecDeque};
use std::net::{SocketAddr, UdpSocket};
use std::sync::atomic::{AtomicBool, AtomicUsize, Ordering};
use std::sync::Arc;
use std::thread::JoinHandle;
use std::time::{Duration, Instant};

use model::device::{Sessions, FRESH};
use model::faults::Fault;
use model::link;

/// The client's address.
pub const CLIENT: u16 = 0x11F0;

#[derive(Clone, Copy, Debug, PartialEq, Eq)]
pub enum Way {
    Good,
    /// Nobody has the address: the confirmation says so.
    Absent,
    /// Nothing comes of it, and the confirmation does not tell.
    Silent,
    /// Its frames come so many milliseconds late.
    Slow(u64),
    /// Every so-manieth frame to it or from it is lost.
    Loses(usize),
    /// After so many requests it says nothing more.
    Stops(usize),
    /// It answers for another property than it is asked for.
    Strange,
    /// What is sent to it is answered by this one, under its own address.
    AnsweredBy(u16),
    TurnsAway,
    /// Each of its answers comes twice, under the same number and under the next.
    Doubles,
}

#[derive(Clone)]
pub struct Unit {
    pub sheet: Vec<u8>,
    pub way: Way,
    sessions: Sessions,
    addresses: [u16; 2],
    expected: u8,
    out: u8,
    taken: bool,
    line: VecDeque<Vec<u8>>,
    again: u64,
    repeats: u8,
    frames: usize,
    requests: usize,
}

impl Unit {
    pub fn new(sheet: Vec<u8>, way: Way) -> Unit {
        Unit {
            sheet,
            way,
            sessions: FRESH,
            addresses: [0; 2],
            expected: 0,
            out: 0,
            taken: false,
            line: VecDeque::new(),
            again: 0,
            repeats: 0,
            frames: 0,
            requests: 0,
        }
    }

    fn lost(&mut self) -> bool {
        self.frames += 1;
        match self.way {
            Way::Loses(n) => self.frames.is_multiple_of(n),
            Way::Stops(n) => self.requests > n,
            _ => false,
        }
    }
}

/// A frame from an address to another.
pub fn frame(from: u16, to: u16, tpdu: &[u8]) -> Vec<u8> {
    let mut frame = vec![0x29, 0, 0xB0, 0x60];
    frame.extend(from.to_be_bytes());
    frame.extend(to.to_be_bytes());
    frame.push(tpdu.len() as u8 - 1);
    frame.extend(tpdu);
    frame
}

fn datagram(service: u16, body: &[u8]) -> Vec<u8> {
    let mut out = vec![6, 16];
    out.extend(service.to_be_bytes());
    out.extend((6 + body.len() as u16).to_be_bytes());
    out.extend(body);
    out
}

/// What a server does to its datagrams, besides what it should.
pub type Mischief = fn(&[u8]) -> Vec<Vec<u8>>;

pub fn honest(datagram: &[u8]) -> Vec<Vec<u8>> {
    vec![datagram.to_vec()]
}

/// The server, which runs until it is dropped.
pub struct Interface {
    pub port: u16,
    stop: Arc<AtomicBool>,
    /// Channels that are open, connects, disconnects of channels, T_Disconnects, and requests that write.
    pub counts: Arc<[AtomicUsize; 4]>,
    thread: Option<JoinHandle<()>>,
}

pub const CONNECTS: usize = 0;
pub const DISCONNECTS: usize = 1;
pub const ENDS: usize = 2;
pub const WRITES: usize = 3;

impl Interface {
    pub fn new(units: BTreeMap<u16, Unit>, hurry: u64, mischief: Mischief) -> Interface {
        let socket = UdpSocket::bind("127.0.0.1:0").unwrap();
        let port = socket.local_addr().unwrap().port();
        Interface::on(socket, port, units, hurry, mischief)
    }

    pub fn on(
        socket: UdpSocket,
        port: u16,
        units: BTreeMap<u16, Unit>,
        hurry: u64,
        mischief: Mischief,
    ) -> Interface {
        socket.set_read_timeout(Some(Duration::from_micros(500))).unwrap();
        let stop = Arc::new(AtomicBool::new(false));
        let counts = Arc::new([const { AtomicUsize::new(0) }; 4]);
        let server = Server {
            socket,
            units,
            hurry,
            mischief,
            started: Instant::now(),
            client: None,
            channel: 0,
            expected: 0,
            out: 0,
            waiting: VecDeque::new(),
            under_way: None,
            counts: counts.clone(),
        };
        let until = stop.clone();
        let thread = std::thread::spawn(move || server.run(&until));
        Interface { port, stop, counts, thread: Some(thread) }
    }

    pub fn count(&self, of: usize) -> usize {
        self.counts[of].load(Ordering::SeqCst)
    }
}

impl Drop for Interface {
    fn drop(&mut self) {
        self.stop.store(true, Ordering::SeqCst);
        let joined = self.thread.take().map(JoinHandle::join);
        assert!(matches!(joined, Some(Ok(()))) || std::thread::panicking(), "the server failed");
    }
}

struct Server {
    socket: UdpSocket,
    units: BTreeMap<u16, Unit>,
    hurry: u64,
    mischief: Mischief,
    started: Instant,
    client: Option<SocketAddr>,
    channel: u8,
    expected: u8,
    out: u8,
    /// Frames for the client, each with the time before which it does not go.
    waiting: VecDeque<(u64, Vec<u8>)>,
    under_way: Option<(u64, u8, Vec<u8>)>,
    counts: Arc<[AtomicUsize; 4]>,
}

impl Server {
    fn now(&self) -> u64 {
        self.started.elapsed().as_millis() as u64 * self.hurry
    }

    fn put(&self, service: u16, body: &[u8]) {
        if let Some(client) = self.client {
            for datagram in (self.mischief)(&datagram(service, body)) {
                // what begins with 0 is from somebody else: another port
                let other = UdpSocket::bind("127.0.0.1:0").ok();
                let from = other.as_ref().filter(|_| datagram.first() == Some(&0));
                let bytes = if from.is_some() { &datagram[1..] } else { &datagram[..] };
                let _ = from.unwrap_or(&self.socket).send_to(bytes, client);
            }
        }
    }

    fn tally(&self, of: usize) {
        self.counts[of].fetch_add(1, Ordering::SeqCst);
    }

    fn run(mut self, stop: &AtomicBool) {
        let mut bytes = [0; 512];
        while !stop.load(Ordering::SeqCst) {
            if let Ok((length, from)) = self.socket.recv_from(&mut bytes) {
                let bytes = bytes[..length].to_vec();
                self.datagram(&bytes, from);
            }
            self.time();
        }
    }

    fn datagram(&mut self, d: &[u8], from: SocketAddr) {
        let service = u16::from_be_bytes([d[2], d[3]]);
        let b = &d[6..];
        match service {
            0x0205 => {
                self.tally(CONNECTS);
                self.client = Some(from);
                self.channel = self.channel % 255 + 1;
                (self.expected, self.out) = (0, 0);
                self.waiting.clear();
                self.under_way = None;
                let [high, low] = self.socket.local_addr().unwrap().port().to_be_bytes();
                let address = CLIENT.to_be_bytes();
                let data = [8, 1, 127, 0, 0, 1, high, low, 4, 4, address[0], address[1]];
                self.put(0x0206, &[&[self.channel, 0], &data[..]].concat());
            }
            0x0207 => self.put(0x0208, &[b[0], if b[0] == self.channel { 0 } else { 0x21 }]),
            0x0209 if b[0] == self.channel => {
                self.tally(DISCONNECTS);
                self.put(0x020A, &[b[0], 0]);
                self.client = None;
            }
            0x0420 if b[1] == self.channel => {
                let number = b[2];
                if number == self.expected || number == self.expected.wrapping_sub(1) {
                    self.put(0x0421, &[4, b[1], number, 0]);
                }
                if number == self.expected {
                    self.expected = self.expected.wrapping_add(1);
                    self.request(b[4..].to_vec());
                }
            }
            0x0421
                if b[1] == self.channel && b[2] == self.out && self.under_way.take().is_some() =>
            {
                self.out = self.out.wrapping_add(1);
            }
            _ => {}
        }
    }

    /// A frame of the client: confirmed, and heard by whom it is for.
    fn request(&mut self, mut frame: Vec<u8>) {
        let now = self.now();
        frame[4..6].copy_from_slice(&CLIENT.to_be_bytes());
        let to = u16::from_be_bytes([frame[6], frame[7]]);
        let group = frame[3] & 0x80 != 0;
        let there = self.units.get(&to).is_some_and(|u| u.way != Way::Absent);
        let mut con = frame.clone();
        con[0] = 0x2E;
        con[2] |= u8::from(!group && !there);
        self.waiting.push_back((now, con));
        frame[0] = 0x29;
        let code = (u16::from(frame[9] & 3) << 8) | u16::from(*frame.get(10).unwrap_or(&0));
        if frame.len() > 10
            && matches!(code, 0x080..=0x0FF | 0x280..=0x28F | 0x2C2 | 0x380 | 0x3D0 | 0x3D3 | 0x3D7 | 0x3DE)
        {
            self.tally(WRITES);
        }
        if frame[9] == 0x81 {
            self.tally(ENDS);
        }
        let mut hears = to;
        if let Some(Way::AnsweredBy(other)) = self.units.get(&to).map(|u| u.way) {
            frame[6..8].copy_from_slice(&other.to_be_bytes());
            hears = other;
        }
        if group {
            for at in self.units.keys().copied().collect::<Vec<_>>() {
                self.unit(at, &frame, now);
            }
        } else if there {
            self.unit(hears, &frame, now);
        }
    }

    /// A frame that a unit hears.
    fn unit(&mut self, at: u16, bytes: &[u8], now: u64) {
        let Some(u) = self.units.get_mut(&at) else { return };
        if matches!(u.way, Way::Silent | Way::Absent) || u.lost() {
            return;
        }
        let tpdu = &bytes[9..];
        let mut out: Vec<Vec<u8>> = Vec::new();
        let octet = tpdu[0];
        if u.way == Way::TurnsAway {
            if octet & 0xC0 == 0x40 || octet == 0x80 {
                out.push(frame(at, CLIENT, &[0x81]));
            }
        } else if octet & 0xC3 == 0xC2 && tpdu.len() == 1 {
            let under_way = u.out.wrapping_sub(u.line.len() as u8) & 15;
            if octet >> 2 & 15 == under_way && !u.line.is_empty() {
                u.line.pop_front();
                (u.again, u.repeats) = (now + 3000, 0);
                out.extend(u.line.front().cloned());
            }
        } else if octet & 0xC0 == 0x40 {
            let number = octet >> 2 & 15;
            if number == u.expected {
                u.expected = (u.expected + 1) & 15;
                u.taken = true;
                u.requests += 1;
                out.push(frame(at, CLIENT, &[0xC2 | number << 2]));
                out.extend(u.serve(bytes, now));
            } else if u.taken && number == u.expected.wrapping_sub(1) & 15 {
                out.push(frame(at, CLIENT, &[0xC2 | number << 2]));
            } else {
                out.push(frame(at, CLIENT, &[0xC3 | number << 2]));
            }
        } else {
            // connect, disconnect, or data without a connection
            if matches!(octet, 0x80 | 0x81) {
                (u.expected, u.out, u.taken) = (0, 0, false);
                u.line.clear();
            }
            out.extend(u.serve(bytes, now));
        }
        self.sent(at, out, now);
    }

    fn sent(&mut self, at: u16, out: Vec<Vec<u8>>, now: u64) {
        let Some(u) = self.units.get_mut(&at) else { return };
        let late = if let Way::Slow(late) = u.way { late } else { 0 };
        for frame in out {
            if !u.lost() {
                self.waiting.push_back((now + late, frame.clone()));
                if u.way == Way::Doubles && frame.len() > 10 {
                    let mut next = frame.clone();
                    next[9] = next[9] & 0xC3 | (((next[9] >> 2) + 1) & 15) << 2;
                    self.waiting.push_back((now, frame));
                    self.waiting.push_back((now, next));
                }
            }
        }
    }

    /// What the time brings: frames that are due, and repetitions.
    fn time(&mut self) {
        let now = self.now();
        let all: Vec<u16> = self.units.keys().copied().collect();
        for at in all {
            let Some(u) = self.units.get_mut(&at) else { continue };
            if u.line.is_empty() || now < u.again {
                continue;
            }
            if u.repeats == 3 {
                u.line.clear();
                (u.expected, u.out, u.taken) = (0, 0, false);
                u.sessions = FRESH;
                let end = frame(at, CLIENT, &[0x81]);
                self.sent(at, vec![end], now);
                continue;
            }
            (u.again, u.repeats) = (now + 3000, u.repeats + 1);
            let again = u.line.front().cloned().unwrap();
            self.sent(at, vec![again], now);
        }
        match &self.under_way {
            None => {
                let due = self.waiting.iter().position(|(at, _)| *at <= now);
                if let Some((_, frame)) = due.and_then(|i| self.waiting.remove(i)) {
                    self.put(0x0420, &[&[4, self.channel, self.out, 0], &frame[..]].concat());
                    self.under_way = Some((now + 1000, 1, frame));
                }
            }
            Some((again, sends, _)) if now >= *again && *sends == 2 => {
                // a client that acknowledges nothing is gone
                self.under_way = None;
                self.waiting.clear();
                self.client = None;
            }
            Some((again, _, frame)) if now >= *again => {
                self.put(0x0420, &[&[4, self.channel, self.out, 0], &frame[..]].concat());
                self.under_way = Some((now + 1000, 2, frame.clone()));
            }
            _ => {}
        }
    }
}

impl Unit {
    /// What the model answers, under the next number; it goes at once if nothing waits for an acknowledgement.
    fn serve(&mut self, bytes: &[u8], now: u64) -> Option<Vec<u8>> {
        let mut out = [0; link::ROOM];
        let state = (&mut self.sessions, &mut self.addresses);
        let served = link::serve(Fault::None, state, self.out, bytes, &mut self.sheet, &mut out);
        if served.count == 0 {
            return None;
        }
        let mut answer = out[..served.count.into()].to_vec();
        answer[0] = 0x29;
        if self.way == Way::Strange && answer[10] == 0xD6 {
            answer[12] ^= 1;
        }
        if answer[9] & 0xC0 != 0x40 {
            return Some(answer);
        }
        self.out = (self.out + 1) & 15;
        self.line.push_back(answer);
        if self.line.len() > 1 {
            return None;
        }
        (self.again, self.repeats) = (now + 3000, 0);
        self.line.front().cloned()
    }
}
