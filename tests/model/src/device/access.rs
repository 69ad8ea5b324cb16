//! Keys and levels, and the restart that ends every session.

use super::{reply, silent, Asked, Reply, Session, FRESH, NONE};
use crate::faults::Fault;
use crate::pdu::Pdu;
use crate::sheet::{FLAGS, KEYS, PROGRAMMING};

impl<const ON: bool> Asked<'_, ON> {
    pub(super) fn authorize(self, key: [u8; 4]) -> Reply {
        let keys = self.sheet[KEYS..KEYS + 12].chunks_exact(4);
        let level = match keys.zip(0u8..).find(|&(k, _)| k == key) {
            Some((_, level)) => level,
            None if self.is(Fault::WrongKeyKeepsLevel) => self.level,
            None => 3,
        };
        self.sessions[self.own].level = level;
        if self.is(Fault::OneLevel) || level == 3 && self.is(Fault::WrongKeyLowersBoth) {
            self.sessions.iter_mut().for_each(|s| s.level = level);
        }
        reply(0, Pdu::AuthorizeResponse { level }, &[], self.answer)
    }

    pub(super) fn key_write(self, level: u8, key: [u8; 4]) -> Reply {
        let slip = self.is(Fault::LevelOneSetsKeyZero) && self.level == 1 && level == 0;
        let allowed = level <= 2 && (self.may(level) || slip);
        let at = KEYS + 4 * level as usize;
        if allowed || self.is(Fault::StoreFirst) && level <= 2 {
            self.sheet[at..at + 4].copy_from_slice(&key);
        }
        if allowed {
            reply(0, Pdu::KeyResponse { level }, &[], self.answer).storing((at, 4), NONE)
        } else {
            reply(11, Pdu::KeyResponse { level: 0xFF }, &[], self.answer)
        }
    }

    pub(super) fn restart(self) -> Reply {
        let connected = self.way.mode == 3;
        if connected && self.is(Fault::RestartLeavesOther) {
            self.sessions[self.own] = Session::CLOSED;
        } else if connected || !self.is(Fault::RestartLeavesSession) {
            *self.sessions = FRESH;
        }
        self.sheet[FLAGS] &= !PROGRAMMING;
        silent(1).storing((FLAGS, 1), NONE)
    }
}
