//! A bus behind a tunnel: the socket, the clock, and frames in and out. Whatever happened, the channel is closed at the end:
//! when this is dropped, by a panic too.

use std::collections::VecDeque;
use std::io::ErrorKind;
use std::net::{Ipv4Addr, SocketAddr, SocketAddrV4, ToSocketAddrs, UdpSocket};
use std::sync::atomic::{AtomicU64, Ordering};
use std::time::{Duration, Instant};

use crate::archive::{self, event};
use crate::record::Record;
use crate::sys;
use crate::trouble::{closed, Trouble};
use crate::tunnel::{To, Told, Tunnel};

/// The port of KNXnet/IP, and where an interface is looked for if none is named.
pub const PORT: u16 = 3671;
pub const HERE: &str = "127.0.0.1:3671";

/// Bit 0 of control 1 of a confirmation: the frame was not sent.
const FAILED: u8 = 1;
/// The message codes of a request, an indication and a confirmation.
const REQ: u8 = 0x11;
const IND: u8 = 0x29;
const CON: u8 = 0x2E;
/// Control 1: a standard frame, not repeated; of the lowest priority for groups, of the system's else.
const LOW: u8 = 0xBC;
const SYSTEM: u8 = 0xB0;
/// Control 2: six hops; the bit of a group.
const HOPS: u8 = 0x60;
const GROUP: u8 = 0x80;
/// Often enough that a signal is heard soon.
const STEP: u64 = 100;
/// What still waits at the end has so long to go out.
const SETTLE: u64 = 2_000;

/// So many frames wait to be heard; what is more is lost, as on a bus, and comes again.
const HEARD: usize = 1_024;

/// A wait of 0 would be one without an end.
const SHORTEST: Duration = Duration::from_micros(100);

/// So many times as fast as it should the clock runs: 1, but in tests.
static CLOCK: AtomicU64 = AtomicU64::new(1);

/// For tests: all time limits pass so many times as fast.
pub fn hurry(times: u64) {
    CLOCK.store(times.max(1), Ordering::SeqCst);
}

#[derive(Clone, Copy, Debug, PartialEq, Eq)]
pub enum Destination {
    Individual(u16),
    Group(u16),
    All,
}

/// A frame from the bus.
#[derive(Clone, Debug, PartialEq, Eq)]
pub struct Frame {
    pub source: u16,
    pub destination: u16,
    pub event: u8,
    pub tpdu: Vec<u8>,
}

#[derive(Clone, Debug, PartialEq, Eq)]
pub enum Heard {
    Frame(Frame),
    /// A frame of ours to this address went out, or could not.
    Sent {
        to: u16,
        good: bool,
    },
}

pub struct Bus {
    socket: UdpSocket,
    control: SocketAddrV4,
    data: SocketAddrV4,
    name: String,
    started: Instant,
    tunnel: Tunnel,
    heard: VecDeque<Heard>,
    /// Its own address on the bus.
    pub own: u16,
    pub record: Option<Record>,
    /// Signals are not heard any more: the end is under way.
    ending: bool,
    closed: Option<Trouble>,
}

/// The IPv4 endpoint that a word such as interface.local:3671 names.
pub fn endpoint(word: &str) -> Result<SocketAddrV4, Trouble> {
    let with_port = if word.contains(':') { word.to_string() } else { format!("{word}:{PORT}") };
    let fault = |why: &str| Trouble::Word(format!("--via {word}: {why}"));
    let all = with_port.to_socket_addrs().map_err(|why| fault(&why.to_string()))?;
    let four = all.filter_map(|a| match a {
        SocketAddr::V4(four) if four.port() > 0 => Some(four),
        _ => None,
    });
    four.into_iter().next().ok_or_else(|| fault("no IPv4 address with a port"))
}

/// The address that this machine has towards another.
fn own_address(of: SocketAddrV4) -> std::io::Result<Ipv4Addr> {
    let probe = UdpSocket::bind((Ipv4Addr::UNSPECIFIED, 0))?;
    probe.connect(of)?;
    match probe.local_addr()? {
        SocketAddr::V4(own) => Ok(*own.ip()),
        SocketAddr::V6(_) => Ok(Ipv4Addr::UNSPECIFIED),
    }
}

impl Bus {
    /// A tunnel to an interface. Behind address translation the client's endpoint is not named.
    pub fn open(
        via: &str,
        nat: bool,
        record: Option<Record>,
    ) -> Result<Bus, (Trouble, Option<Record>)> {
        let made = endpoint(via).and_then(|control| {
            let fault = |why: std::io::Error| Trouble::Interface(format!("{via}: {why}"));
            let own = own_address(control).map_err(fault)?;
            let socket = UdpSocket::bind((own, 0)).map_err(fault)?;
            let port = socket.local_addr().map_err(fault)?.port();
            Ok((control, SocketAddrV4::new(own, port), socket))
        });
        let (control, own, socket) = match made {
            Ok(made) => made,
            Err(trouble) => return Err((trouble, record)),
        };
        sys::tell_errors(&socket);
        let named = if nat { SocketAddrV4::new(Ipv4Addr::UNSPECIFIED, 0) } else { own };
        let mut bus = Bus {
            socket,
            control,
            data: control,
            name: via.to_string(),
            started: Instant::now(),
            tunnel: Tunnel::new(named),
            heard: VecDeque::new(),
            own: 0,
            record,
            ending: false,
            closed: None,
        };
        bus.tunnel.open(bus.now());
        while !bus.tunnel.is_open() {
            let until = bus.now() + STEP;
            if let Err(trouble) = bus.step(until) {
                return Err((trouble, bus.record.take()));
            }
        }
        Ok(bus)
    }

    /// Milliseconds since the start.
    pub fn now(&self) -> u64 {
        self.started.elapsed().as_millis() as u64 * CLOCK.load(Ordering::Relaxed)
    }

    /// A TPDU to whom it is for; a source of 0 is filled in by the interface.
    pub fn send(&mut self, to: Destination, tpdu: &[u8]) -> Result<(), Trouble> {
        let (destination, control1, control2) = match to {
            Destination::Individual(address) => (address, SYSTEM, HOPS),
            Destination::Group(group) => (group, LOW, HOPS | GROUP),
            Destination::All => (0, SYSTEM, HOPS | GROUP),
        };
        let fields = archive::Frame {
            destination,
            code: REQ,
            control1,
            control2,
            ..archive::Frame::default()
        };
        let frame = archive::frame_write(fields, tpdu)
            .ok_or_else(|| Trouble::Word("a request that fits in no frame".to_string()))?;
        if let Some(record) = &mut self.record {
            record.frame(&frame, self.own);
        }
        let now = self.now();
        while !self.tunnel.send(frame.clone(), self.now()) {
            // there is no room, or no tunnel: the next step says which
            self.step(now + SETTLE)?;
            if self.now() > now + SETTLE {
                let words = format!("{}: the interface takes no more frames", self.name);
                return Err(Trouble::Interface(words));
            }
        }
        self.flush();
        Ok(())
    }

    /// What is heard next, up to a time.
    pub fn next(&mut self, until: u64) -> Result<Option<Heard>, Trouble> {
        loop {
            if let Some(heard) = self.heard.pop_front() {
                return Ok(Some(heard));
            }
            if self.now() >= until {
                return Ok(None);
            }
            self.step(until)?;
        }
    }

    /// Sends what is to be sent. What can't be sent now is repeated by the tunnel, or tells that it is gone.
    fn flush(&mut self) {
        while let Some((to, bytes)) = self.tunnel.sends() {
            let to = if to == To::Control { self.control } else { self.data };
            let _ = self.socket.send_to(&bytes, to);
        }
    }

    /// A datagram, or the time that has come.
    fn step(&mut self, until: u64) -> Result<(), Trouble> {
        if sys::interrupted() && !self.ending {
            return Err(Trouble::Interrupted);
        }
        if let Some(trouble) = &self.closed {
            return Err(trouble.clone());
        }
        self.flush();
        let now = self.now();
        let due = self.tunnel.due().unwrap_or(until).min(until).min(now + STEP);
        if due > now {
            self.receive(due - now)?;
        }
        let now = self.now();
        self.tunnel.tick(now);
        self.flush();
        self.hear()
    }

    fn receive(&mut self, wait: u64) -> Result<(), Trouble> {
        let mut bytes = [0; 1024];
        let wait = Duration::from_micros(1000 * wait / CLOCK.load(Ordering::Relaxed)).max(SHORTEST);
        let _ = self.socket.set_read_timeout(Some(wait));
        match self.socket.recv_from(&mut bytes) {
            Ok((length, SocketAddr::V4(from))) if from == self.control || from == self.data => {
                let now = self.now();
                self.tunnel.datagram(&bytes[..length], now);
            }
            // of an open tunnel the time limits say whether it is gone
            Err(why)
                if why.kind() == ErrorKind::ConnectionRefused && self.own == 0 && !self.ending =>
            {
                let words = format!("{}: nobody listens there", self.name);
                return Err(Trouble::Interface(words));
            }
            Err(why) if why.kind() == ErrorKind::ConnectionRefused => {
                std::thread::sleep(wait.min(Duration::from_millis(10)));
            }
            _ => {}
        }
        Ok(())
    }

    /// Takes out what the tunnel tells.
    fn hear(&mut self) -> Result<(), Trouble> {
        while let Some(told) = self.tunnel.tells() {
            match told {
                Told::Opened { endpoint, address } => {
                    self.own = address;
                    let named = !endpoint.ip().is_unspecified() && endpoint.port() > 0;
                    if named {
                        self.data = endpoint;
                    }
                }
                Told::Frame(frame) => self.frame(&frame),
                Told::Confirmed(frame) => self.confirmed(frame),
                Told::Unconfirmed => self.note("a frame was not confirmed"),
                Told::Closed(why) => {
                    let trouble = closed(&self.name, why);
                    self.note(&trouble.to_string());
                    self.closed = Some(trouble.clone());
                    if !self.ending {
                        return Err(trouble);
                    }
                }
            }
        }
        Ok(())
    }

    fn hears(&mut self, heard: Heard) {
        if self.heard.len() < HEARD {
            self.heard.push_back(heard);
        }
    }

    fn note(&mut self, text: &str) {
        if let Some(record) = &mut self.record {
            record.note(text);
        }
    }

    fn frame(&mut self, bytes: &[u8]) {
        if let Some(record) = &mut self.record {
            record.frame(bytes, self.own);
        }
        let Some((fields, tpdu)) = archive::frame_read(bytes) else { return };
        if fields.code == IND {
            let (source, destination, event) = (fields.source, fields.destination, fields.event);
            self.hears(Heard::Frame(Frame { source, destination, event, tpdu: tpdu.to_vec() }));
        }
    }

    fn confirmed(&mut self, mut bytes: Vec<u8>) {
        if let Some(record) = &mut self.record {
            record.frame(&bytes, self.own);
        }
        if bytes.first() == Some(&CON) {
            bytes[0] = IND; // the library reads a frame, and a confirmation is one
        }
        if let Some((fields, _)) = archive::frame_read(&bytes) {
            let good = fields.control1 & FAILED == 0;
            self.hears(Heard::Sent { to: fields.destination, good });
        }
    }

    /// Waits until all that was to be sent is out; no signal ends it.
    pub fn settle(&mut self) {
        let was = std::mem::replace(&mut self.ending, true);
        let until = self.now() + SETTLE;
        while self.tunnel.is_open() && !self.tunnel.is_quiet() && self.now() < until {
            if self.step(until).is_err() {
                break;
            }
        }
        self.ending = was;
    }

    /// Whether a frame is to this side alone.
    pub fn to_us(&self, frame: &Frame) -> bool {
        frame.destination == self.own && !matches!(frame.event, event::MULTICAST | event::BROADCAST)
    }

    /// What of the recording could not be written.
    pub fn unrecorded(&self) -> Option<String> {
        self.record.as_ref().and_then(Record::trouble).map(str::to_string)
    }
}

impl Drop for Bus {
    fn drop(&mut self) {
        self.settle();
        self.ending = true;
        self.closed = None;
        let now = self.now();
        self.tunnel.close(now);
        self.flush();
        while self.tunnel.is_closing() {
            self.closed = None;
            let until = self.now() + STEP;
            let _ = self.step(until);
        }
    }
}
