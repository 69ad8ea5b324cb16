//! Device memory and user memory, whose ranges may go over regions that touch.

use super::{reply, silent, Asked, Part, Reply, NONE};
use crate::faults::{Fault, Faults};
use crate::pdu::Pdu;
use crate::sheet::{self, Memory, FLAGS, VERIFY};

/// So many bytes of a memory may one request name at most.
fn most(memory: Memory) -> u8 {
    match memory {
        Memory::Device => 12,
        Memory::User => 11,
    }
}

fn response(memory: Memory, n: u8, address: u16) -> Pdu {
    match memory {
        Memory::Device => Pdu::MemoryResponse { n, address },
        Memory::User => Pdu::UserMemoryResponse { n, address },
    }
}

/// A byte of memory: where it stands in the sheet, and the levels of its region.
#[derive(Clone, Copy, Default)]
struct Byte {
    at: u16,
    read: u8,
    write: u8,
}

/// The byte at one address, looked up in the list of regions.
fn byte(sheet: &[u8], memory: Memory, address: u32) -> Option<Byte> {
    let r = sheet::regions(sheet, memory)
        .find(|r| r.address <= address && address < r.address + r.length)?;
    let at = r.body as u16 + (address - r.address) as u16;
    Some(Byte { at, read: r.read, write: r.write })
}

/// The bytes of a memory range, each looked up for itself.
struct Range {
    bytes: [Byte; 12],
    n: usize,
}

impl Range {
    /// `None` if one byte of so many lies in no region, or if the memory can't be asked for so many.
    fn find<const ON: bool>(
        faults: Faults<ON>,
        sheet: &[u8],
        memory: Memory,
        n: u8,
        address: u16,
    ) -> Option<Range> {
        if !(1..=most(memory)).contains(&n) {
            return None;
        }
        if ON {
            return Range::slipped(faults.0, sheet, memory, n.into(), address.into());
        }
        Range::each(n.into(), |i| byte(sheet, memory, address as u32 + i))
    }

    fn each(n: usize, find: impl Fn(u32) -> Option<Byte>) -> Option<Range> {
        let mut bytes = [Byte::default(); 12];
        for (i, b) in (0..).zip(&mut bytes[..n]) {
            *b = find(i)?;
        }
        Some(Range { bytes, n })
    }

    /// What a fault makes of it.
    fn slipped(fault: Fault, sheet: &[u8], memory: Memory, n: usize, first: u32) -> Option<Range> {
        let touched = sheet::regions(sheet, memory)
            .filter(|r| r.address < first + n as u32 && first < r.address + r.length)
            .count();
        let right = |i| byte(sheet, memory, first + i);
        match fault {
            Fault::RunsIntoNeighbour => {
                let end = sheet::regions(sheet, memory).map(|r| r.body as u32 + r.length).last()?;
                let found = right(0)?;
                let next = |i| Byte { at: found.at + i as u16, ..found };
                Range::each(n, |i| Some(next(i)).filter(|b| u32::from(b.at) < end))
            }
            Fault::OneRegionAlone if touched > 1 => None,
            Fault::TwoRegionsAtMost if touched > 2 => None,
            Fault::FirstLevelsForAll => {
                let found = right(0)?;
                Range::each(n, |i| right(i).map(|b| Byte { at: b.at, ..found }))
            }
            Fault::PassesOneByteGap => Range::each(n, |i| right(i).or_else(|| right(i + 1))),
            Fault::RunsIntoUserMemory => {
                Range::each(n, |i| right(i).or_else(|| byte(sheet, Memory::User, first + i)))
            }
            Fault::WrapsAtTheTop => Range::each(n, |i| byte(sheet, memory, (first + i) % 65_536)),
            Fault::UserFromDeviceMemory => {
                Range::each(n, |i| byte(sheet, Memory::Device, first + i))
            }
            _ => Range::each(n, right),
        }
    }

    fn bytes(&self) -> &[Byte] {
        &self.bytes[..self.n]
    }

    /// Where its bytes stand, which is one after the other.
    fn part(&self) -> Part {
        (self.bytes[0].at.into(), self.n)
    }

    /// The answer with what the bytes hold.
    fn told(&self, sheet: &[u8], memory: Memory, address: u16, answer: &mut [u8]) -> Reply {
        let mut held = [0; 12];
        for (h, b) in held.iter_mut().zip(self.bytes()) {
            *h = sheet[b.at as usize];
        }
        reply(0, response(memory, self.n as u8, address), &held[..self.n], answer)
    }
}

impl<const ON: bool> Asked<'_, ON> {
    fn range(&self, memory: Memory, n: u8, address: u16) -> Option<Range> {
        Range::find(self.faults, self.sheet, memory, n, address)
    }

    fn readable(&self, range: &Range) -> bool {
        range.bytes().iter().all(|b| self.may(b.read))
    }

    fn writable(&self, range: &Range) -> bool {
        range.bytes().iter().all(|b| self.may(b.write))
    }

    /// Gives each byte what `new` makes of its number and its old value, if that is allowed.
    fn store(&mut self, range: &Range, allowed: bool, new: impl Fn(usize, u8) -> u8) {
        for (i, b) in range.bytes().iter().enumerate() {
            let slip = self.is(Fault::StoreFirst)
                || self.is(Fault::StoresPermittedBytes) && self.may(b.write);
            if allowed || slip {
                let old = &mut self.sheet[b.at as usize];
                *old = new(i, *old);
            }
        }
    }

    /// Ends a memory write: with verify on it is answered, else it is not.
    /// `stored` has the new bytes, `None` if the write was denied.
    fn written(self, memory: Memory, stored: Option<Range>, address: u16) -> Reply {
        let verify = self.sheet[FLAGS] & VERIFY != 0;
        match stored {
            Some(range) => {
                let reply = match verify {
                    true => range.told(self.sheet, memory, address, self.answer),
                    false => silent(1),
                };
                reply.storing(range.part(), NONE)
            }
            None if verify => reply(11, response(memory, 0, address), &[], self.answer),
            None => silent(12),
        }
    }

    pub(super) fn memory_read(self, memory: Memory, n: u8, address: u16) -> Reply {
        let n = if self.is(Fault::ExtensionIgnored) { n & 15 } else { n };
        if let Some(range) = self.range(memory, n, address).filter(|range| self.readable(range)) {
            return range.told(self.sheet, memory, address, self.answer);
        }
        let held = byte(self.sheet, memory, address.into()).map(|b| self.sheet[b.at as usize]);
        match held {
            Some(b) if b < 64 && self.is(Fault::DeniesLowOtherwise) => silent(12),
            Some(b) if self.is(Fault::DenialTellsByte) => {
                reply(11, response(memory, 0, address & 0xFF00 | u16::from(b)), &[], self.answer)
            }
            _ => reply(11, response(memory, 0, address), &[], self.answer),
        }
    }

    pub(super) fn memory_write(mut self, memory: Memory, n: u8, address: u16) -> Reply {
        let data = self.data;
        let stored = self.range(memory, n, address).filter(|range| {
            let allowed = self.writable(range);
            self.store(range, allowed, |i, _| data[i]);
            allowed
        });
        self.written(memory, stored, address)
    }

    pub(super) fn memory_bit_write(mut self, n: u8, address: u16) -> Reply {
        let (and, xor) = self.data.split_at(n as usize);
        let stored = self.range(Memory::Device, n, address).filter(|range| {
            let may_read = self.is(Fault::BitWriteWithoutRead) || self.readable(range);
            let allowed = may_read && self.writable(range);
            self.store(range, allowed, |i, old| (old & and[i]) ^ xor[i]);
            allowed
        });
        self.written(Memory::Device, stored, address)
    }
}
