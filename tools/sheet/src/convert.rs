//! The conversion of an old sheet.

use crate::check::{check, OLD};

/// The sheet in edition 2, without user regions and under rules 0, if it is old; else why there is nothing to convert. Byte 0
/// alone is another.
pub fn converted(s: &[u8]) -> Result<Vec<u8>, String> {
    match check(s) {
        Err(old) if old.rule == OLD => {
            let mut new = s.to_vec();
            new[0] = 2;
            Ok(new)
        }
        Err(broken) => Err(broken.to_string()),
        Ok(()) => Err("OK, and not old: nothing is converted".to_string()),
    }
}
