//! A recording of every frame that was sent and received, which kelindap-trace reads: a line to a frame, its time before it. A
//! key is left out of it, zeros in its place, unless keys are asked for.

use std::fs::{File, OpenOptions};
use std::io::Write;
use std::os::unix::fs::{OpenOptionsExt, PermissionsExt};
use std::time::{SystemTime, UNIX_EPOCH};

use sheet::layout::hex;

use crate::archive::{self, kind};

pub struct Record {
    file: File,
    name: String,
    keys: bool,
    /// Why nothing more is recorded.
    broken: Option<String>,
}

/// A time of the calendar, UTC, such as 2026-11-17T09:05:09.123Z.
pub fn time(since: u64) -> String {
    let (seconds, milliseconds) = (since / 1000, since % 1000);
    let (days, second) = (seconds / 86_400, seconds % 86_400);
    // the year begins in March, so that the day that comes and goes is its last
    let shifted = days + 719_468;
    let era = shifted / 146_097;
    let day = shifted % 146_097;
    let year = (day - day / 1_460 + day / 36_524 - day / 146_096) / 365;
    let of_year = day - (365 * year + year / 4 - year / 100);
    let month = (5 * of_year + 2) / 153;
    let date = of_year - (153 * month + 2) / 5 + 1;
    let (month, next) = if month < 10 { (month + 3, 0) } else { (month - 9, 1) };
    let year = year + 400 * era + next;
    let (hour, minute, second) = (second / 3600, second / 60 % 60, second % 60);
    format!("{year:04}-{month:02}-{date:02}T{hour:02}:{minute:02}:{second:02}.{milliseconds:03}Z")
}

pub fn now() -> String {
    let since = SystemTime::now().duration_since(UNIX_EPOCH).unwrap_or_default();
    time(since.as_millis() as u64)
}

impl Record {
    /// A new file of mode 600; one that is there already stays.
    pub fn new(name: &str, keys: bool) -> Result<Record, String> {
        let file = OpenOptions::new().write(true).create_new(true).mode(0o600).open(name);
        let file = file.map_err(|why| format!("{name}: {why}"))?;
        // whatever the mask of the process
        let own = file.set_permissions(PermissionsExt::from_mode(0o600));
        own.map_err(|why| format!("{name}: {why}"))?;
        let mut record = Record { file, name: name.to_string(), keys, broken: None };
        let what =
            if keys { "keys stand in it" } else { "keys are left out, zeros in their place" };
        record.line(&format!("# frames of kelindap-tool, from {}; {what}", now()));
        Ok(record)
    }

    fn line(&mut self, text: &str) {
        if self.broken.is_none() {
            if let Err(why) = self.file.write_all(format!("{text}\n").as_bytes()) {
                self.broken = Some(format!("{}: {why}; no more is recorded", self.name));
            }
        }
    }

    /// A frame, with the source that it has on the bus if it names none.
    pub fn frame(&mut self, frame: &[u8], own: u16) {
        let mut frame = frame.to_vec();
        let unnamed = frame.len() > 9 && frame[1] == 0 && frame[4..6] == [0, 0];
        if unnamed && frame[0] != 0x29 {
            frame[4..6].copy_from_slice(&own.to_be_bytes());
        }
        let hidden = !self.keys && without_key(&mut frame);
        let note = if hidden { "  # a key is left out" } else { "" };
        self.line(&format!("{} {}{note}", now(), hex(&frame)));
    }

    /// Something that is no frame.
    pub fn note(&mut self, text: &str) {
        self.line(&format!("# {} {text}", now()));
    }

    /// Why not everything was recorded.
    pub fn trouble(&self) -> Option<&str> {
        self.broken.as_deref()
    }
}

/// Takes a key out of a frame that has one; whether there was one. A confirmation has the frame that was sent.
pub fn without_key(frame: &mut [u8]) -> bool {
    let mut read = frame.to_vec();
    if read.first() == Some(&0x2E) {
        read[0] = 0x29;
    }
    let Some((fields, tpdu)) = archive::frame_read(&read) else { return false };
    let Some((pdu, _)) = archive::read(tpdu) else { return false };
    let secret = matches!(pdu.kind, kind::AUTHORIZE_REQUEST | kind::KEY_WRITE);
    if secret {
        // the key is the last four bytes of both
        let end = fields.tpdu_offset + fields.tpdu_length;
        frame[end - 4..end].fill(0);
    }
    secret
}

#[cfg(test)]
mod tests {
    use super::*;

    #[test]
    fn times() {
        assert_eq!(time(0), "1970-01-01T00:00:00.000Z");
        assert_eq!(time(951_782_400_000), "2000-02-29T00:00:00.000Z");
        assert_eq!(time(1_794_906_309_123), "2026-11-17T09:05:09.123Z");
        assert_eq!(time(4_107_542_399_999), "2100-02-28T23:59:59.999Z");
        assert_eq!(time(4_107_542_400_000), "2100-03-01T00:00:00.000Z");
    }

    #[test]
    fn keys() {
        let tpdu = [0x43, 0xD1, 0, 0x22, 0x22, 0x22, 0x22];
        for code in [0x11, 0x29, 0x2E] {
            let mut frame = vec![code, 0, 0xB0, 0x60, 0, 0, 0x11, 0x05, 6];
            frame.extend(tpdu);
            let mut bare = frame.clone();
            assert!(without_key(&mut bare));
            assert_eq!(bare[..12], frame[..12]);
            assert_eq!(bare[12..], [0; 4]);
            // with additional information
            let mut more = vec![code, 2, 3, 0];
            more.extend(&frame[2..]);
            assert!(without_key(&mut more) && more.ends_with(&[0; 4]));
            frame[10] = 0xD5; // no key
            assert!(!without_key(&mut frame));
        }
    }
}
