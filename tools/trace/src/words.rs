//! Outcomes, rules and PDUs in words, which kelindap_names.h alone has.

use std::sync::OnceLock;

use sheet::layout::hex;

use crate::archive::{self, Pdu};

const NAMES: &str = include_str!("../../../include/kelindap_names.h");

struct Names {
    outcomes: Vec<(u8, &'static str)>,
    kinds: Vec<(u8, &'static str)>,
    rules: Vec<(u8, &'static str)>,
}

/// The rows of the header's lists, such as `X(11, DENIED, "refused")`.
fn names() -> &'static Names {
    static ALL: OnceLock<Names> = OnceLock::new();
    ALL.get_or_init(|| {
        let mut names = Names { outcomes: Vec::new(), kinds: Vec::new(), rules: Vec::new() };
        let mut list = "";
        for line in NAMES.lines() {
            if let Some(name) = line.strip_prefix("#define KELINDAP_") {
                list = name.split('(').next().unwrap_or("");
            }
            let Some(row) = line.trim_start().strip_prefix("X(") else { continue };
            let (Some(number), Some(words)) = (row.split(',').next(), row.split('"').nth(1)) else {
                continue;
            };
            let Ok(number) = number.parse() else { continue };
            match list {
                "KINDS" => names.kinds.push((number, words)),
                "RULES" => names.rules.push((number, words)),
                _ => names.outcomes.push((number, words)),
            }
        }
        names
    })
}

fn find(list: &[(u8, &'static str)], number: u8) -> Option<&'static str> {
    list.iter().find(|row| row.0 == number).map(|row| row.1)
}

/// An outcome, a refusal of a trace, or why a frame is no event.
pub fn outcome(number: u8) -> &'static str {
    find(&names().outcomes, number).unwrap_or("no outcome")
}

/// What breaks a rule of a sheet.
pub fn rule(number: u8) -> &'static str {
    find(&names().rules, number).unwrap_or("no rule")
}

pub fn kind(number: u8) -> &'static str {
    find(&names().kinds, number).unwrap_or("no kind")
}

/// The fields of each kind, in the desk unit's order.
fn fields(kind: &str) -> &'static [&'static str] {
    match kind {
        "group_response" | "group_write" => &["v", "data"],
        "address_write" => &["address"],
        "serial_read" => &["serial"],
        "serial_response" => &["serial", "domain"],
        "serial_write" => &["serial", "address"],
        "descriptor_read" => &["t"],
        "descriptor_response" => &["t", "data"],
        "property_read" => &["object", "id", "n", "s"],
        "property_response" | "property_write" => &["object", "id", "n", "s", "data"],
        "description_read" => &["object", "id", "index"],
        "description_response" => &["object", "id", "index", "type", "maximum", "access"],
        "memory_read" | "user_memory_read" => &["n", "address"],
        "memory_response" | "memory_write" | "user_memory_response" | "user_memory_write" => {
            &["n", "address", "data"]
        }
        "memory_bit_write" => &["n", "address", "and", "xor"],
        "authorize_request" => &["key"],
        "authorize_response" | "key_response" => &["level"],
        "key_write" => &["level", "key"],
        _ => &[],
    }
}

/// What stands for a key that is not shown, as in a sheet's text.
pub const HIDDEN: &str = sheet::show::HIDDEN;

const AUTHORIZE: u16 = 0x3D1;
const KEY_WRITE: u16 = 0x3D3;

/// Whether a request carries a key that is a secret: FFFFFFFFh, which all tools try, is none.
pub fn secret(apdu: &[u8]) -> bool {
    let [high, low, ..] = apdu else { return false };
    let code = u16::from(high & 3) << 8 | u16::from(*low);
    (code == AUTHORIZE || code == KEY_WRITE) && apdu.get(3..) != Some(&[0xFF; 4])
}

fn run(bytes: &[u8]) -> String {
    if bytes.is_empty() {
        return "-".to_string();
    }
    hex(bytes)
}

fn value(field: &str, pdu: &Pdu, data: &[u8], keys: bool, secret: bool) -> String {
    let half = data.len() / 2;
    match field {
        "serial" => format!("{:012x}", pdu.serial),
        "key" if secret && !keys => HIDDEN.to_string(),
        "key" => format!("{:08x}", pdu.key),
        "data" => run(data),
        "and" => run(&data[..half]),
        "xor" => run(&data[half..]),
        "address" => pdu.address.to_string(),
        "domain" => pdu.domain.to_string(),
        "s" => pdu.s.to_string(),
        "maximum" => pdu.maximum.to_string(),
        "v" => pdu.v.to_string(),
        "t" => pdu.t.to_string(),
        "object" => pdu.object.to_string(),
        "id" => pdu.id.to_string(),
        "n" => pdu.n.to_string(),
        "index" => pdu.index.to_string(),
        "type" => pdu.kind_of.to_string(),
        "access" => pdu.access.to_string(),
        _ => pdu.level.to_string(),
    }
}

/// A PDU in the desk unit's words, its key hidden or not; or why it is none.
pub fn pdu(apdu: &[u8], keys: bool) -> String {
    let pdu = archive::read(apdu);
    if pdu.outcome != 0 {
        return format!("{} ({})", outcome(pdu.outcome), pdu.outcome);
    }
    let name = kind(pdu.kind);
    let data = &apdu[pdu.data_offset..pdu.data_offset + pdu.data_length];
    let secret = secret(apdu);
    fields(name).iter().fold(name.to_string(), |words, field| {
        words + " " + field + "=" + &value(field, &pdu, data, keys, secret)
    })
}

/// A number of things: 1 event, 2 events.
pub fn many(n: usize, what: &str) -> String {
    format!("{n} {what}{}", if n == 1 { "" } else { "s" })
}
