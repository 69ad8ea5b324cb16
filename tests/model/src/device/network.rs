//! The device in its network: individual address, serial number, descriptor.

use super::{reply, silent, Asked, Reply, NONE};
use crate::faults::Fault;
use crate::pdu::Pdu;
use crate::sheet::{ADDRESS, FLAGS, LATER, MASK, PROGRAMMING, SERIAL};

impl<const ON: bool> Asked<'_, ON> {
    fn programming(&self) -> bool {
        self.sheet[FLAGS] & PROGRAMMING != 0
    }

    fn meant(&self, serial: [u8; 6]) -> bool {
        self.sheet[SERIAL..SERIAL + 6] == serial
    }

    fn take_address(self, address: u16) -> Reply {
        self.sheet[ADDRESS..ADDRESS + 2].copy_from_slice(&address.to_be_bytes());
        silent(1).storing((ADDRESS, 2), NONE)
    }

    pub(super) fn address_write(self, address: u16) -> Reply {
        if !self.programming() {
            return silent(2);
        }
        self.take_address(address)
    }

    pub(super) fn address_read(self) -> Reply {
        if !self.programming() {
            return silent(2);
        }
        reply(0, Pdu::AddressResponse, &[], self.answer)
    }

    pub(super) fn serial_read(self, serial: [u8; 6]) -> Reply {
        if !self.meant(serial) {
            return silent(2);
        }
        reply(0, Pdu::SerialResponse { serial, domain: 0 }, &[], self.answer)
    }

    pub(super) fn serial_write(self, serial: [u8; 6], address: u16) -> Reply {
        if !self.meant(serial) {
            return silent(2);
        }
        self.take_address(address)
    }

    pub(super) fn descriptor_read(self, t: u8) -> Reply {
        if t == 0 {
            let mask = &self.sheet[MASK..MASK + 2];
            return reply(0, Pdu::DescriptorResponse { t }, mask, self.answer);
        }
        if self.rules != LATER {
            return silent(2);
        }
        let t = if self.is(Fault::RepeatsType) { t } else { 63 };
        reply(11, Pdu::DescriptorResponse { t }, &[], self.answer)
    }
}
