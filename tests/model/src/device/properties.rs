//! Properties: read, write, description.

use super::{reply, Asked, Reply, NONE};
use crate::faults::{Fault, Faults};
use crate::pdu::Pdu;
use crate::sheet;

/// Where in the sheet elements s to s+n-1 lie, if all are among the first `limit`.
fn elements<const ON: bool>(
    faults: Faults<ON>,
    p: &sheet::Property,
    n: u8,
    s: u16,
    limit: u16,
) -> Option<std::ops::Range<usize>> {
    if s == 0 || n == 0 {
        return None;
    }
    let before = if faults.is(Fault::CountsFromZero) { s as usize } else { s as usize - 1 };
    if before + n as usize > limit as usize {
        return None;
    }
    let from = p.body + before * p.size;
    Some(from..from + n as usize * p.size)
}

impl<const ON: bool> Asked<'_, ON> {
    pub(super) fn property_read(self, object: u8, id: u8, n: u8, s: u16) -> Reply {
        let found = sheet::properties(self.sheet)
            .find(|p| (p.object, p.id) == (object, id) && self.may(p.read()));
        let part = found.and_then(|p| {
            if s == 0 && n == 1 {
                Some(p.entry + 6..p.entry + 8)
            } else {
                let limit = if self.is(Fault::ReadsToMaximum) { p.maximum } else { p.count };
                elements(self.faults, &p, n, s, limit).filter(|part| part.len() <= 10)
            }
        });
        let (outcome, n, held) = match part {
            Some(part) => (0, n, &self.sheet[part]),
            None => (11, 0, &[][..]),
        };
        reply(outcome, Pdu::PropertyResponse { object, id, n, s }, held, self.answer)
    }

    pub(super) fn property_write(self, object: u8, id: u8, n: u8, s: u16) -> Reply {
        // The entry and the part of its body to fill.
        let found = sheet::properties(self.sheet).find(|p| (p.object, p.id) == (object, id));
        let plan = found.and_then(|p| {
            if s == 0 {
                (n == 1 && self.data == [0, 0]).then_some((p, None))
            } else {
                let part = elements(self.faults, &p, n, s, p.maximum)?;
                (part.len() == self.data.len()).then_some((p, Some(part)))
            }
        });
        let allowed = plan.as_ref().is_some_and(|(p, ..)| p.writable() && self.may(p.write()));
        let told = match &plan {
            Some((_, Some(part))) if self.is(Fault::WriteTellsOld) => {
                self.sheet[part.clone()].to_vec()
            }
            _ => self.data.to_vec(),
        };
        let mut changed = [NONE; 2];
        if let Some((p, part)) = plan {
            // The elements that are given, behind those that are jumped, and the count.
            let counter = (p.entry + 6, 2);
            changed = match &part {
                Some(part) => {
                    let from = part.start.min(p.body + p.count as usize * p.size);
                    [(from, part.end - from), counter]
                }
                None => [counter, NONE],
            };
            if self.is(Fault::CountUnnamed) {
                changed[1] = changed[0];
            }
            if (allowed || self.is(Fault::StoreFirst)) && !self.is(Fault::AnswersOnly) {
                let count = if self.is(Fault::InventsCount) {
                    p.maximum
                } else if s == 0 {
                    0
                } else {
                    p.count.max(s + n as u16 - 1)
                };
                self.sheet[p.entry + 6..p.entry + 8].copy_from_slice(&count.to_be_bytes());
                if let Some(part) = part {
                    // The elements between the count and s, which nobody has given.
                    let counted = p.body + p.count as usize * p.size;
                    if counted < part.start && !self.is(Fault::LeavesJumped) {
                        self.sheet[counted..part.start].fill(0);
                    }
                    self.sheet[part].copy_from_slice(self.data);
                }
                if self.is(Fault::CountFollowsBody) && count > 0 {
                    let last = p.body + (count as usize - 1) * p.size;
                    let count = count - u16::from(self.sheet[last] < 64);
                    self.sheet[p.entry + 6..p.entry + 8].copy_from_slice(&count.to_be_bytes());
                }
            }
        }
        let (outcome, n, told) = if allowed { (0, n, &told[..]) } else { (11, 0, &[][..]) };
        let [first, second] = if allowed { changed } else { [NONE; 2] };
        reply(outcome, Pdu::PropertyResponse { object, id, n, s }, told, self.answer)
            .storing(first, second)
    }

    pub(super) fn description_read(self, object: u8, id: u8, index: u8) -> Reply {
        let found = sheet::properties(self.sheet)
            .filter(|p| p.object == object)
            .zip(0u8..)
            .find(|&(p, i)| if id != 0 { p.id == id } else { i == index });
        let (outcome, pdu) = match found {
            Some((p, i)) => (
                0,
                Pdu::DescriptionResponse {
                    object,
                    id: p.id,
                    index: i,
                    kind: p.kind,
                    maximum: p.maximum,
                    access: if self.is(Fault::DescriptionTellsByte) {
                        self.sheet[p.body]
                    } else {
                        p.levels
                    },
                },
            ),
            None => {
                (11, Pdu::DescriptionResponse { object, id, index, kind: 0, maximum: 0, access: 0 })
            }
        };
        reply(outcome, pdu, &[], self.answer)
    }
}
