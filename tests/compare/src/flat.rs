//! A PDU laid flat, as the tool's header has it, and the enum it means.

use model::pdu::Pdu;

#[derive(Clone, Copy, Debug, Default)]
pub struct Flat {
    pub serial: u64,
    pub key: u32,
    pub address: u16,
    pub domain: u16,
    pub s: u16,
    pub maximum: u16,
    pub outcome: u8,
    pub kind: u8,
    pub v: u8,
    pub t: u8,
    pub object: u8,
    pub id: u8,
    pub n: u8,
    pub index: u8,
    pub class: u8,
    pub access: u8,
    pub level: u8,
    pub data_offset: u64,
    pub data_length: u64,
}

/// The kind of what was refused.
pub const NO_KIND: u8 = 255;

/// The fields of the kinds by number, as the desk unit names them.
pub const KINDS: [&[&str]; 28] = [
    &[],
    &["v", "data"],
    &["v", "data"],
    &["address"],
    &[],
    &["serial"],
    &["serial", "address"],
    &["t"],
    &["object", "id", "n", "s"],
    &["object", "id", "n", "s", "data"],
    &["object", "id", "index"],
    &["n", "address"],
    &["n", "address", "data"],
    &["n", "address", "and", "xor"],
    &["key"],
    &["level", "key"],
    &[],
    &[],
    &["serial", "domain"],
    &["t", "data"],
    &["object", "id", "n", "s", "data"],
    &["object", "id", "index", "type", "maximum", "access"],
    &["n", "address", "data"],
    &["level"],
    &["level"],
    &["n", "address"],
    &["n", "address", "data"],
    &["n", "address", "data"],
];

/// The name of a kind, from the one file that has the names.
pub fn kind_name(kind: usize) -> &'static str {
    let names = include_str!("../../../include/kelindap_names.h");
    let kinds = names.split("#define KELINDAP_KINDS").nth(1).unwrap();
    let line = kinds.lines().find(|line| line.trim_start().starts_with(&format!("X({kind}, ")));
    line.and_then(|line| line.split('"').nth(1)).unwrap()
}

fn number(serial: [u8; 6]) -> u64 {
    serial.iter().fold(0, |n, &b| n << 8 | b as u64)
}

impl Flat {
    /// Puts a PDU into `rest`, whose other fields stay.
    pub fn lay(pdu: &Pdu, rest: Flat) -> Flat {
        match *pdu {
            Pdu::GroupRead => Flat { kind: 0, ..rest },
            Pdu::GroupResponse { v } => Flat { kind: 1, v, ..rest },
            Pdu::GroupWrite { v } => Flat { kind: 2, v, ..rest },
            Pdu::AddressWrite { address } => Flat { kind: 3, address, ..rest },
            Pdu::AddressRead => Flat { kind: 4, ..rest },
            Pdu::SerialRead { serial } => Flat { kind: 5, serial: number(serial), ..rest },
            Pdu::SerialWrite { serial, address } => {
                Flat { kind: 6, serial: number(serial), address, ..rest }
            }
            Pdu::DescriptorRead { t } => Flat { kind: 7, t, ..rest },
            Pdu::PropertyRead { object, id, n, s } => Flat { kind: 8, object, id, n, s, ..rest },
            Pdu::PropertyWrite { object, id, n, s } => Flat { kind: 9, object, id, n, s, ..rest },
            Pdu::DescriptionRead { object, id, index } => {
                Flat { kind: 10, object, id, index, ..rest }
            }
            Pdu::MemoryRead { n, address } => Flat { kind: 11, n, address, ..rest },
            Pdu::MemoryWrite { n, address } => Flat { kind: 12, n, address, ..rest },
            Pdu::MemoryBitWrite { n, address } => Flat { kind: 13, n, address, ..rest },
            Pdu::AuthorizeRequest { key } => {
                Flat { kind: 14, key: u32::from_be_bytes(key), ..rest }
            }
            Pdu::KeyWrite { level, key } => {
                Flat { kind: 15, level, key: u32::from_be_bytes(key), ..rest }
            }
            Pdu::Restart => Flat { kind: 16, ..rest },
            Pdu::AddressResponse => Flat { kind: 17, ..rest },
            Pdu::SerialResponse { serial, domain } => {
                Flat { kind: 18, serial: number(serial), domain, ..rest }
            }
            Pdu::DescriptorResponse { t } => Flat { kind: 19, t, ..rest },
            Pdu::PropertyResponse { object, id, n, s } => {
                Flat { kind: 20, object, id, n, s, ..rest }
            }
            Pdu::DescriptionResponse { object, id, index, kind, maximum, access } => {
                Flat { kind: 21, object, id, index, class: kind, maximum, access, ..rest }
            }
            Pdu::MemoryResponse { n, address } => Flat { kind: 22, n, address, ..rest },
            Pdu::AuthorizeResponse { level } => Flat { kind: 23, level, ..rest },
            Pdu::KeyResponse { level } => Flat { kind: 24, level, ..rest },
            Pdu::UserMemoryRead { n, address } => Flat { kind: 25, n, address, ..rest },
            Pdu::UserMemoryResponse { n, address } => Flat { kind: 26, n, address, ..rest },
            Pdu::UserMemoryWrite { n, address } => Flat { kind: 27, n, address, ..rest },
        }
    }

    /// The PDU it means; none if the kind is unknown or the serial number
    /// has more than six bytes.
    pub fn mean(&self) -> Option<Pdu> {
        let Flat { address, domain, s, maximum, v, t, object, id, n, index, level, .. } = *self;
        let (kind, access) = (self.class, self.access);
        let key = self.key.to_be_bytes();
        let [high, low, serial @ ..] = self.serial.to_be_bytes();
        if matches!(self.kind, 5 | 6 | 18) && (high, low) != (0, 0) {
            return None;
        }
        Some(match self.kind {
            0 => Pdu::GroupRead,
            1 => Pdu::GroupResponse { v },
            2 => Pdu::GroupWrite { v },
            3 => Pdu::AddressWrite { address },
            4 => Pdu::AddressRead,
            5 => Pdu::SerialRead { serial },
            6 => Pdu::SerialWrite { serial, address },
            7 => Pdu::DescriptorRead { t },
            8 => Pdu::PropertyRead { object, id, n, s },
            9 => Pdu::PropertyWrite { object, id, n, s },
            10 => Pdu::DescriptionRead { object, id, index },
            11 => Pdu::MemoryRead { n, address },
            12 => Pdu::MemoryWrite { n, address },
            13 => Pdu::MemoryBitWrite { n, address },
            14 => Pdu::AuthorizeRequest { key },
            15 => Pdu::KeyWrite { level, key },
            16 => Pdu::Restart,
            17 => Pdu::AddressResponse,
            18 => Pdu::SerialResponse { serial, domain },
            19 => Pdu::DescriptorResponse { t },
            20 => Pdu::PropertyResponse { object, id, n, s },
            21 => Pdu::DescriptionResponse { object, id, index, kind, maximum, access },
            22 => Pdu::MemoryResponse { n, address },
            23 => Pdu::AuthorizeResponse { level },
            24 => Pdu::KeyResponse { level },
            25 => Pdu::UserMemoryRead { n, address },
            26 => Pdu::UserMemoryResponse { n, address },
            27 => Pdu::UserMemoryWrite { n, address },
            _ => return None,
        })
    }

    pub fn send(&self, out: &mut Vec<u8>) {
        out.extend(self.serial.to_le_bytes());
        out.extend(self.key.to_le_bytes());
        for field in [self.address, self.domain, self.s, self.maximum] {
            out.extend(field.to_le_bytes());
        }
        out.extend([self.outcome, self.kind, self.v, self.t, self.object, self.id, self.n]);
        out.extend([self.index, self.class, self.access, self.level]);
        out.extend(self.data_offset.to_le_bytes());
        out.extend(self.data_length.to_le_bytes());
    }

    /// The kind and its fields in the desk unit's words.
    pub fn words(&self, data: &[u8]) -> String {
        let Some(fields) = KINDS.get(self.kind as usize) else {
            return format!("kind{} data={}", self.kind, crate::hex(data));
        };
        let half = data.len() / 2;
        let mut words = kind_name(self.kind as usize).to_string();
        for field in *fields {
            let value = match *field {
                "v" => self.v.to_string(),
                "t" => self.t.to_string(),
                "n" => self.n.to_string(),
                "s" => self.s.to_string(),
                "object" => self.object.to_string(),
                "id" => self.id.to_string(),
                "index" => self.index.to_string(),
                "type" => self.class.to_string(),
                "maximum" => self.maximum.to_string(),
                "access" => self.access.to_string(),
                "level" => self.level.to_string(),
                "address" => self.address.to_string(),
                "domain" => self.domain.to_string(),
                "serial" => format!("{:012x}", self.serial),
                "key" => format!("{:08x}", self.key),
                "and" => crate::hex(&data[..half]),
                "xor" => crate::hex(&data[half..]),
                _ => crate::hex(data),
            };
            words += &format!(" {field}={value}");
        }
        words
    }
}
