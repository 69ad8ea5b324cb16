//! Frames on a bus where several speak: two partners and strangers, to this device, to others and to groups, now and then the
//! device itself, and a frame once more.

use super::{Event, Rng, Tools};
use crate::device::Sessions;
use crate::link::{self, Addresses};
use crate::sheet;

/// Five senders; whoever has a connection goes by the keys that it knows.
pub struct Links {
    senders: [u16; 5],
    tools: Option<Tools>,
    last: Vec<u8>,
}

impl Links {
    pub fn new(rng: &mut Rng, sheet: &[u8]) -> Links {
        let tools = (sheet::check(sheet) == 0).then(|| Tools::new(sheet));
        let senders = std::array::from_fn(|_| rng.word());
        Links { senders, tools, last: Vec::new() }
    }

    /// What is sent, the bytes from octet 6 on, with the group it goes to, or none for this device.
    fn sent(
        &mut self,
        rng: &mut Rng,
        sheet: &[u8],
        sessions: &Sessions,
        partner: Option<usize>,
    ) -> (Option<u16>, Vec<u8>) {
        let sequence = rng.byte() & 0x3C;
        let ask = match rng.below(100) {
            0..=3 => return (None, vec![0x80]),
            4 => return (None, vec![0x81]),
            5..=7 => return (None, vec![0xC2 | sequence | rng.byte() & 1]),
            8 => {
                let n = rng.within(1, 4);
                return (None, rng.bytes(n));
            }
            _ => match (&mut self.tools, partner) {
                (_, None) if rng.chance(30) => return (None, vec![rng.pick(&[0x80, 0x80, 0x81])]),
                (Some(tools), Some(c)) => match tools.event_of(c, rng, sheet, sessions[c]) {
                    Event::Connect(_) => return (None, vec![0x80]),
                    Event::Disconnect(_) => return (None, vec![0x81]),
                    Event::Request(ask) => ask,
                    _ => super::ask(rng, sheet),
                },
                _ => super::ask(rng, sheet),
            },
        };
        let mut tpdu = ask.apdu;
        if tpdu.is_empty() {
            tpdu.push(0);
        }
        let (group, transport) = match ask.way.mode {
            0 => (Some(ask.way.group), 0),
            1 => (Some(0), 0),
            2 => (None, 0),
            _ => (None, 0x40 | sequence),
        };
        // an address that another has already
        if tpdu.len() == 4 && tpdu[0] & 3 == 0 && tpdu[1] == 0xC0 && rng.chance(20) {
            tpdu[2..].copy_from_slice(&rng.pick(&self.senders).to_be_bytes());
        }
        tpdu[0] = tpdu[0] & 3 | transport;
        (group, tpdu)
    }

    /// The next frame.
    pub fn frame(
        &mut self,
        rng: &mut Rng,
        sheet: &[u8],
        sessions: &Sessions,
        addresses: &Addresses,
    ) -> Vec<u8> {
        if !self.last.is_empty() && rng.chance(6) {
            return self.last.clone();
        }
        let open = (0..2).filter(|&c| sessions[c].open).collect::<Vec<_>>();
        let own = link::own(sheet);
        let source = match open[..] {
            _ if rng.chance(3) => own,
            [] => rng.pick(&self.senders),
            _ if rng.chance(25) => rng.pick(&self.senders),
            _ => addresses[rng.pick(&open)],
        };
        let partner = (0..2).find(|&c| sessions[c].open && addresses[c] == source);
        let (group, tpdu) = self.sent(rng, sheet, sessions, partner);
        let destination = match group {
            Some(group) => group,
            None if rng.chance(6) => rng.pick(&[own ^ 1, own.swap_bytes(), 0, rng.clone().word()]),
            None => own,
        };
        let info = if rng.chance(10) { rng.below(9) } else { 0 };
        let mut b = vec![rng.pick(&[0x29, 0x29, 0x11]), info as u8];
        b.extend(rng.bytes(info));
        b.extend([0x80 | rng.byte(), rng.byte() & 0x70 | if group.is_some() { 0x80 } else { 0 }]);
        b.extend(source.to_be_bytes());
        b.extend(destination.to_be_bytes());
        b.push(tpdu.len() as u8 - 1);
        b.extend(tpdu);
        match rng.below(40) {
            0 => {
                let at = rng.below(b.len());
                b[at] ^= 1 << rng.below(8);
            }
            1 => b.truncate(rng.below(b.len())),
            2 => b.push(rng.byte()),
            _ => {}
        }
        self.last.clone_from(&b);
        b
    }
}
