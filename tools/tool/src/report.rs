//! What the commands say of a refusal: its reason, where it can be known.

use crate::trouble::Trouble;
use crate::unit::{Description, Unit};

/// What was refused of a property.
#[derive(Clone, Copy, Debug, PartialEq, Eq)]
pub struct Refused {
    pub which: (u8, u8),
    pub s: u16,
    pub n: u16,
    pub write: bool,
}

/// Why, by the property's description and count, which are asked for.
pub fn reason(unit: &mut Unit, refused: Refused) -> Result<String, Trouble> {
    let (object, id) = refused.which;
    let level = unit.level;
    let Some(d) = unit.description(object, id, 0)? else {
        return Ok(format!("refused: there is no property {object}/{id}"));
    };
    if let Some(why) = by_description(&d, level, refused) {
        return Ok(format!("refused: {why}"));
    }
    let counted = if refused.write { None } else { unit.property_read(refused.which, 0, 1)? };
    let count = counted.filter(|bytes| bytes.len() == 2);
    let count = count.map(|bytes| u16::from_be_bytes([bytes[0], bytes[1]]));
    Ok(match count {
        Some(count) if refused.s + refused.n - 1 > count => {
            let many =
                if count == 1 { "1 element".to_string() } else { format!("{count} elements") };
            format!(
                "refused: it has {many} now, and element {} was asked for",
                refused.s + refused.n - 1
            )
        }
        _ => format!("refused: level {level}, and the description does not say why"),
    })
}

/// What the description alone says of it.
pub fn by_description(d: &Description, level: u8, refused: Refused) -> Option<String> {
    let (doing, needs) = if refused.write { ("writing", d.write) } else { ("reading", d.read) };
    if refused.write && !d.writable {
        return Some("the description says that it can't be written".to_string());
    }
    if level > needs {
        return Some(format!(
            "level {level}, the description says that {doing} needs level {needs}"
        ));
    }
    let last = refused.s + refused.n.max(1) - 1;
    if refused.s > 0 && last > d.maximum {
        let maximum = d.maximum;
        return Some(format!("it has room for {maximum} elements, and element {last} was named"));
    }
    None
}

#[cfg(test)]
mod tests {
    use super::*;

    #[test]
    fn reasons() {
        let d = Description {
            object: 1,
            id: 51,
            index: 0,
            class: 4,
            writable: true,
            maximum: 2,
            read: 2,
            write: 1,
        };
        let of = |s, n, write| Refused { which: (1, 51), s, n, write };
        let said = by_description(&d, 3, of(1, 1, true)).unwrap();
        assert_eq!(said, "level 3, the description says that writing needs level 1");
        let said = by_description(&d, 3, of(1, 1, false)).unwrap();
        assert_eq!(said, "level 3, the description says that reading needs level 2");
        let said = by_description(&d, 1, of(2, 2, true)).unwrap();
        assert_eq!(said, "it has room for 2 elements, and element 3 was named");
        assert_eq!(by_description(&d, 1, of(2, 1, true)), None);
        let fixed = Description { writable: false, ..d };
        let said = by_description(&fixed, 0, of(1, 1, true)).unwrap();
        assert_eq!(said, "the description says that it can't be written");
    }
}
