//! Group objects: read, response, write.

use super::{reply, silent, Asked, Reply, NONE};
use crate::pdu::Pdu;
use crate::sheet::{self, Group};

impl<const ON: bool> Asked<'_, ON> {
    /// The object of the request's group address, if this bit of its flags is set.
    fn group(&self, flag: u8) -> Option<Group> {
        sheet::groups(self.sheet).find(|g| g.address == self.way.group && g.flags & flag != 0)
    }

    pub(super) fn group_read(self) -> Reply {
        let Some(g) = self.group(1) else {
            return silent(2);
        };
        if g.code == 0 {
            reply(0, Pdu::GroupResponse { v: self.sheet[g.body] }, &[], self.answer)
        } else {
            let body = &self.sheet[g.body..g.body + g.length()];
            reply(0, Pdu::GroupResponse { v: 0 }, body, self.answer)
        }
    }

    /// A write, or a response that is taken.
    pub(super) fn group_store(self, flag: u8, v: u8) -> Reply {
        let Some(g) = self.group(flag) else {
            return silent(2);
        };
        if self.data.len() != g.code as usize {
            return silent(10);
        }
        if g.code == 0 {
            self.sheet[g.body] = v;
        } else {
            self.sheet[g.body..g.body + g.length()].copy_from_slice(self.data);
        }
        silent(1).storing((g.body, g.length()), NONE)
    }
}
