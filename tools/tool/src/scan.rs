//! Who is there on a line: asked without a connection first, which costs a frame each, then with one, for those who answer no
//! other way; their masks, and their serial numbers where a property tells them.

use std::collections::{BTreeMap, BTreeSet};

use sheet::asked::Asked;
use sheet::layout::{hex, individual_address};
use sheet::program::Said;

use crate::archive::{self, event, kind, Pdu};
use crate::bus::{Bus, Destination, Frame, Heard};
use crate::commands::{bus, done_on};
use crate::progress::Progress;
use crate::transport;
use crate::trouble::Trouble;
use crate::unit::written;
use crate::values;

/// How long the last that were asked may take.
const ANSWERS: u64 = 1_500;
/// So many are connected at a time.
const AT_ONCE: usize = 16;
/// The property with the serial number: object 0, id 11.
pub const SERIAL: (u8, u8) = (0, 11);

#[derive(Default)]
struct Found {
    mask: Option<Vec<u8>>,
    serial: Option<Vec<u8>>,
    turned_away: bool,
}

struct Scan<'a> {
    bus: &'a mut Bus,
    /// Of this line.
    first: u16,
    found: BTreeMap<u16, Found>,
    /// Those of whom the confirmation says that nobody is there.
    absent: BTreeSet<u16>,
}

pub fn scan(asked: &Asked, word: &str) -> Said {
    let first = values::line(word)?;
    let mut bus = bus(asked)?;
    let mut scan = Scan { bus: &mut bus, first, found: BTreeMap::new(), absent: BTreeSet::new() };
    let done = scan.run(word).map(|()| scan.text());
    done_on(bus, done.map_err(|trouble| trouble.to_string()))
}

impl Scan<'_> {
    fn run(&mut self, line: &str) -> Result<(), Trouble> {
        let own = self.bus.own;
        let all: Vec<u16> = (self.first..=self.first | 255).filter(|&a| a != own).collect();
        let mut progress = Progress::new(format!("scan {line}"), all.len());
        let read = written(Pdu { kind: kind::DESCRIPTOR_READ, ..Pdu::default() }, &[])?;
        for (i, &address) in all.iter().enumerate() {
            self.bus.send(Destination::Individual(address), &read)?;
            self.hear(0)?;
            progress.at(i, &format!("{} found", self.found.len()));
        }
        self.hear(ANSWERS)?;
        let unknown = |s: &Self| -> Vec<u16> {
            let left = all.iter().filter(|a| !s.absent.contains(a) && !s.found.contains_key(a));
            left.copied().collect()
        };
        let rest = unknown(self);
        let mut connected = Progress::new(format!("scan {line}, connected"), rest.len());
        for (i, some) in rest.chunks(AT_ONCE).enumerate() {
            self.connected(some, &read)?;
            connected.at((i + 1) * AT_ONCE, &format!("{} found", self.found.len()));
        }
        drop(connected);
        let (object, id) = SERIAL;
        let serial = Pdu { kind: kind::PROPERTY_READ, object, id, s: 1, n: 1, ..Pdu::default() };
        let serial = written(serial, &[])?;
        for address in self.found.keys().copied().collect::<Vec<_>>() {
            self.bus.send(Destination::Individual(address), &serial)?;
            self.hear(0)?;
        }
        if !self.found.is_empty() {
            self.hear(ANSWERS)?;
        }
        Ok(())
    }

    /// Some with a connection each, which is ended again.
    fn connected(&mut self, some: &[u16], read: &[u8]) -> Result<(), Trouble> {
        let mut data = read.to_vec();
        data[0] |= transport::DATA;
        for &address in some {
            self.bus.send(Destination::Individual(address), &[transport::CONNECT])?;
            self.bus.send(Destination::Individual(address), &data)?;
            self.hear(0)?;
        }
        self.hear(ANSWERS)?;
        for &address in some.iter().filter(|a| self.found.contains_key(a)) {
            self.bus.send(Destination::Individual(address), &[transport::DISCONNECT])?;
        }
        Ok(())
    }

    /// What is heard for so long, and until what was sent is out.
    fn hear(&mut self, more: u64) -> Result<(), Trouble> {
        if more > 0 {
            self.bus.settle();
        }
        let until = self.bus.now() + more;
        while let Some(heard) = self.bus.next(until)? {
            match heard {
                Heard::Sent { to, good: false } => {
                    self.absent.insert(to);
                }
                Heard::Frame(frame) if self.bus.to_us(&frame) => self.frame(&frame)?,
                _ => {}
            }
        }
        Ok(())
    }

    fn frame(&mut self, frame: &Frame) -> Result<(), Trouble> {
        if frame.source & 0xFF00 != self.first {
            return Ok(());
        }
        let found = self.found.entry(frame.source).or_default();
        if frame.event == event::DISCONNECT {
            found.turned_away = true;
        }
        if frame.event == event::CONNECTED {
            let number = frame.tpdu[0] & 0x3C;
            self.bus.send(Destination::Individual(frame.source), &[transport::ACK | number])?;
        }
        let data = matches!(frame.event, event::CONNECTED | event::CONNECTIONLESS);
        let found = self.found.entry(frame.source).or_default();
        match archive::read(&frame.tpdu).filter(|_| data) {
            Some((p, mask)) if p.kind == kind::DESCRIPTOR_RESPONSE && p.t == 0 => {
                found.mask = Some(mask.to_vec());
            }
            Some((p, serial)) if p.kind == kind::PROPERTY_RESPONSE => {
                let due = (p.object, p.id) == SERIAL && p.n == 1 && serial.len() == 6;
                found.serial = if due { Some(serial.to_vec()) } else { found.serial.take() };
            }
            _ => {}
        }
        Ok(())
    }

    fn text(&self) -> (String, u8) {
        let line = |(&address, found): (&u16, &Found)| {
            let mask = match (&found.mask, found.turned_away) {
                (Some(mask), _) => format!("mask {}", hex(mask)),
                (None, true) => "mask not told: it turns connections away".to_string(),
                (None, false) => "mask not told".to_string(),
            };
            let serial = found.serial.as_ref().map_or("not told".to_string(), |s| hex(s));
            format!("{}  {mask}  serial {serial}\n", individual_address(address))
        };
        (self.found.iter().map(line).collect(), 0)
    }
}
