//! Reading and writing of PDUs, apart from any device.

use std::ops::Range;

/// All PDUs of both directions. Their data bytes travel beside the enum; for
/// a bit write these are the AND bytes followed by the XOR bytes.
#[derive(Clone, Copy, Debug, PartialEq, Eq)]
pub enum Pdu {
    GroupRead,
    GroupResponse { v: u8 },
    GroupWrite { v: u8 },
    AddressWrite { address: u16 },
    AddressRead,
    AddressResponse,
    SerialRead { serial: [u8; 6] },
    SerialResponse { serial: [u8; 6], domain: u16 },
    SerialWrite { serial: [u8; 6], address: u16 },
    DescriptorRead { t: u8 },
    DescriptorResponse { t: u8 },
    PropertyRead { object: u8, id: u8, n: u8, s: u16 },
    PropertyResponse { object: u8, id: u8, n: u8, s: u16 },
    PropertyWrite { object: u8, id: u8, n: u8, s: u16 },
    DescriptionRead { object: u8, id: u8, index: u8 },
    DescriptionResponse { object: u8, id: u8, index: u8, kind: u8, maximum: u16, access: u8 },
    MemoryRead { n: u8, address: u16 },
    MemoryResponse { n: u8, address: u16 },
    MemoryWrite { n: u8, address: u16 },
    MemoryBitWrite { n: u8, address: u16 },
    AuthorizeRequest { key: [u8; 4] },
    AuthorizeResponse { level: u8 },
    KeyWrite { level: u8, key: [u8; 4] },
    KeyResponse { level: u8 },
    Restart,
    UserMemoryRead { n: u8, address: u16 },
    UserMemoryResponse { n: u8, address: u16 },
    UserMemoryWrite { n: u8, address: u16 },
}

/// The ten-bit service code; the APDU has at least two bytes.
pub fn code(apdu: &[u8]) -> u16 {
    u16::from_be_bytes([apdu[0] & 3, apdu[1]])
}

/// The PDU and where its data bytes lie in the APDU, or 5, 8 or 10.
pub fn read(apdu: &[u8]) -> Result<(Pdu, Range<usize>), u8> {
    let len = apdu.len();
    if !(2..=16).contains(&len) {
        return Err(5);
    }
    // Zero-filled, so fields can be taken before the length is judged.
    let mut b = [0; 16];
    b[..len].copy_from_slice(apdu);
    let word = |i: usize| u16::from_be_bytes([b[i], b[i + 1]]);
    let serial = [b[2], b[3], b[4], b[5], b[6], b[7]];
    let key = [b[3], b[4], b[5], b[6]];
    let (six, four) = (b[1] & 63, b[1] & 15);
    let (object, id, n, s) = (b[2], b[3], b[4] >> 4, word(4) & 0xFFF);

    // The PDU, whether the length suits it, and where its data starts.
    let (pdu, fits, data) = match code(apdu) {
        0x000 => (Pdu::GroupRead, len == 2, len),
        0x040..=0x07F => (Pdu::GroupResponse { v: six }, len == 2 || six == 0, 2),
        0x080..=0x0BF => (Pdu::GroupWrite { v: six }, len == 2 || six == 0, 2),
        0x0C0 => (Pdu::AddressWrite { address: word(2) }, len == 4, len),
        0x100 => (Pdu::AddressRead, len == 2, len),
        0x140 => (Pdu::AddressResponse, len == 2, len),
        0x200..=0x20F => (Pdu::MemoryRead { n: four, address: word(2) }, len == 4, len),
        0x240..=0x24F => {
            (Pdu::MemoryResponse { n: four, address: word(2) }, len == 4 + four as usize, 4)
        }
        0x280..=0x28F => {
            (Pdu::MemoryWrite { n: four, address: word(2) }, len == 4 + four as usize, 4)
        }
        0x2C0 => (Pdu::UserMemoryRead { n: b[2], address: word(3) }, len == 5, len),
        0x2C1 => {
            (Pdu::UserMemoryResponse { n: b[2], address: word(3) }, len == 5 + b[2] as usize, 5)
        }
        0x2C2 => (Pdu::UserMemoryWrite { n: b[2], address: word(3) }, len == 5 + b[2] as usize, 5),
        0x300..=0x33F => (Pdu::DescriptorRead { t: six }, len == 2, len),
        0x340..=0x37F => (Pdu::DescriptorResponse { t: six }, true, 2),
        0x380 => (Pdu::Restart, len == 2, len),
        0x3D0 => {
            (Pdu::MemoryBitWrite { n: b[2], address: word(3) }, len == 5 + 2 * b[2] as usize, 5)
        }
        0x3D1 => (Pdu::AuthorizeRequest { key }, len == 7, len),
        0x3D2 => (Pdu::AuthorizeResponse { level: b[2] }, len == 3, len),
        0x3D3 => (Pdu::KeyWrite { level: b[2], key }, len == 7, len),
        0x3D4 => (Pdu::KeyResponse { level: b[2] }, len == 3, len),
        0x3D5 => (Pdu::PropertyRead { object, id, n, s }, len == 6, len),
        0x3D6 => (Pdu::PropertyResponse { object, id, n, s }, len >= 6, 6),
        0x3D7 => (Pdu::PropertyWrite { object, id, n, s }, len >= 7, 6),
        0x3D8 => (Pdu::DescriptionRead { object, id, index: b[4] }, len == 5, len),
        0x3D9 => (
            Pdu::DescriptionResponse {
                object,
                id,
                index: b[4],
                kind: b[5],
                maximum: word(6),
                access: b[8],
            },
            len == 9 && word(6) <= 4095,
            len,
        ),
        0x3DC => (Pdu::SerialRead { serial }, len == 8, len),
        0x3DD => (Pdu::SerialResponse { serial, domain: word(8) }, len == 12, len),
        0x3DE => (Pdu::SerialWrite { serial, address: word(8) }, len == 14, len),
        _ => return Err(8),
    };
    if fits {
        Ok((pdu, data..len))
    } else {
        Err(10)
    }
}

/// The part of a PDU before its data bytes.
struct Front {
    bytes: [u8; 16],
    len: usize,
}

fn front(code: u16) -> Front {
    Front { bytes: [0; 16], len: 0 }.word(code)
}

impl Front {
    fn put(mut self, more: &[u8]) -> Front {
        self.bytes[self.len..self.len + more.len()].copy_from_slice(more);
        self.len += more.len();
        self
    }
    fn word(self, value: u16) -> Front {
        self.put(&value.to_be_bytes())
    }
    fn memory(code: u16, n: u8, address: u16) -> Front {
        front(code | (n & 15) as u16).word(address)
    }
    fn property(code: u16, object: u8, id: u8, n: u8, s: u16) -> Front {
        front(code).put(&[object, id]).word((n as u16 & 15) << 12 | s & 0xFFF)
    }
}

/// Fills the first bytes of `out` and gives their number, or 3 or 13.
pub fn write(pdu: &Pdu, data: &[u8], out: &mut [u8]) -> Result<usize, u8> {
    if out.len() < 16 {
        return Err(3);
    }
    let none = data.is_empty();
    let group = |v: u8| v < 64 && (none || v == 0);
    let element = |n: u8, s: u16| n < 16 && s < 4096;
    let (front, fits) = match *pdu {
        Pdu::GroupRead => (front(0x000), none),
        Pdu::GroupResponse { v } => (front(0x040 | (v & 63) as u16), group(v)),
        Pdu::GroupWrite { v } => (front(0x080 | (v & 63) as u16), group(v)),
        Pdu::AddressWrite { address } => (front(0x0C0).word(address), none),
        Pdu::AddressRead => (front(0x100), none),
        Pdu::AddressResponse => (front(0x140), none),
        Pdu::SerialRead { serial } => (front(0x3DC).put(&serial), none),
        Pdu::SerialResponse { serial, domain } => {
            (front(0x3DD).put(&serial).word(domain).put(&[0; 2]), none)
        }
        Pdu::SerialWrite { serial, address } => {
            (front(0x3DE).put(&serial).word(address).put(&[0; 4]), none)
        }
        Pdu::DescriptorRead { t } => (front(0x300 | (t & 63) as u16), t < 64 && none),
        Pdu::DescriptorResponse { t } => (front(0x340 | (t & 63) as u16), t < 64),
        Pdu::PropertyRead { object, id, n, s } => {
            (Front::property(0x3D5, object, id, n, s), element(n, s) && none)
        }
        Pdu::PropertyResponse { object, id, n, s } => {
            (Front::property(0x3D6, object, id, n, s), element(n, s))
        }
        Pdu::PropertyWrite { object, id, n, s } => {
            (Front::property(0x3D7, object, id, n, s), element(n, s) && !none)
        }
        Pdu::DescriptionRead { object, id, index } => {
            (front(0x3D8).put(&[object, id, index]), none)
        }
        Pdu::DescriptionResponse { object, id, index, kind, maximum, access } => (
            front(0x3D9).put(&[object, id, index, kind]).word(maximum).put(&[access]),
            maximum <= 4095 && none,
        ),
        Pdu::MemoryRead { n, address } => (Front::memory(0x200, n, address), n < 16 && none),
        Pdu::MemoryResponse { n, address } => {
            (Front::memory(0x240, n, address), n < 16 && data.len() == n as usize)
        }
        Pdu::MemoryWrite { n, address } => {
            (Front::memory(0x280, n, address), n < 16 && data.len() == n as usize)
        }
        Pdu::MemoryBitWrite { n, address } => {
            (front(0x3D0).put(&[n]).word(address), data.len() == 2 * n as usize)
        }
        Pdu::AuthorizeRequest { key } => (front(0x3D1).put(&[0]).put(&key), none),
        Pdu::AuthorizeResponse { level } => (front(0x3D2).put(&[level]), none),
        Pdu::KeyWrite { level, key } => (front(0x3D3).put(&[level]).put(&key), none),
        Pdu::KeyResponse { level } => (front(0x3D4).put(&[level]), none),
        Pdu::Restart => (front(0x380), none),
        Pdu::UserMemoryRead { n, address } => (front(0x2C0).put(&[n]).word(address), none),
        Pdu::UserMemoryResponse { n, address } => {
            (front(0x2C1).put(&[n]).word(address), data.len() == n as usize)
        }
        Pdu::UserMemoryWrite { n, address } => {
            (front(0x2C2).put(&[n]).word(address), data.len() == n as usize)
        }
    };
    let total = front.len + data.len();
    if !fits || total > 16 {
        return Err(13);
    }
    out[..front.len].copy_from_slice(&front.bytes[..front.len]);
    out[front.len..total].copy_from_slice(data);
    Ok(total)
}
