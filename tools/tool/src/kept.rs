//! Readouts that are kept in a folder, a file to a unit: written beside and renamed, so that one that is there is whole; and read
//! again, if they are of the same plan and of a key as good.

use std::fs::{self, OpenOptions};
use std::io::Write;
use std::os::unix::fs::OpenOptionsExt;
use std::path::{Path, PathBuf};

use sheet::layout::individual_address;

use crate::readout::{Plan, Property, Readout, Region};
use crate::unit::Description;
use crate::values;

/// The longest text that is read: of the largest unit it is a tenth.
const LONGEST: u64 = 1 << 22;

fn path(folder: &Path, address: u16) -> PathBuf {
    folder.join(format!("{}.readout", individual_address(address)))
}

fn first_line(plan: &Plan, keyed: bool) -> String {
    let key = if keyed { "with a key" } else { "without a key" };
    format!("# readout {key}: {}", plan.words())
}

/// Keeps a readout; nothing of a key is in it.
pub fn keep(folder: &Path, read: &Readout, plan: &Plan, keyed: bool) -> std::io::Result<()> {
    let name = path(folder, read.address);
    let beside = name.with_extension(format!("new.{}", std::process::id()));
    let written = (|| {
        let mut file = OpenOptions::new().write(true).create_new(true).mode(0o600).open(&beside)?;
        file.write_all(format!("{}\n{}", first_line(plan, keyed), read.text()).as_bytes())?;
        file.sync_all()?;
        fs::rename(&beside, &name)
    })();
    if written.is_err() {
        let _ = fs::remove_file(&beside);
    }
    written
}

/// The readout that is kept of a unit; none if there is none that is whole, of this plan, and of a key if there is one now.
pub fn kept(folder: &Path, address: u16, plan: &Plan, keyed: bool) -> Option<Readout> {
    let name = path(folder, address);
    if fs::metadata(&name).ok()?.len() > LONGEST {
        return None;
    }
    let text = fs::read_to_string(name).ok()?;
    let (first, rest) = text.split_once('\n')?;
    let good = first == first_line(plan, true) || !keyed && first == first_line(plan, false);
    read(rest).filter(|read| good && read.address == address)
}

/// The readout of a text.
pub fn read(text: &str) -> Option<Readout> {
    let mut out = Readout {
        address: 0,
        level: 3,
        mask: Vec::new(),
        properties: Vec::new(),
        regions: Vec::new(),
        users: Vec::new(),
    };
    let mut size = 0;
    let mut last = "";
    let mut lines = text.lines().filter(|line| !line.is_empty() && !line.starts_with('#'));
    loop {
        let line = lines.next()?;
        let words: Vec<&str> = line.split_whitespace().collect();
        if line.starts_with("    ") {
            match last {
                "property" => {
                    let p = out.properties.last_mut()?;
                    for word in &words {
                        p.elements.push(element(word, size)?);
                    }
                }
                "region" => row(out.regions.last_mut()?, &words)?,
                "user" => row(out.users.last_mut()?, &words)?,
                _ => return None,
            }
            continue;
        }
        last = words[0];
        match words[..] {
            ["end"] => break,
            ["unit", address] => out.address = values::address(address).ok()?,
            ["level", level] => out.level = level.parse().ok()?,
            ["mask", mask] => out.mask = values::bytes(&[mask]).ok()?,
            ["serial", ..] => {}
            ["property", which, "type", ref rest @ ..] => {
                let (p, bytes) = property(which, rest)?;
                size = bytes;
                out.properties.push(p);
            }
            ["region", address, "length", length, ref rest @ ..] => {
                out.regions.push(region(address, length, rest)?);
            }
            ["user", address, "length", length, ref rest @ ..] => {
                out.users.push(region(address, length, rest)?);
            }
            _ => return None,
        }
    }
    let whole = |r: &Region| r.bytes.as_ref().is_none_or(|b| b.len() == usize::from(r.length));
    let counted = |p: &Property| p.elements.len() == usize::from(p.count.unwrap_or(0));
    let good = out.regions.iter().chain(&out.users).all(whole);
    let good = good && out.properties.iter().all(counted) && out.mask.len() == 2;
    (good && lines.next().is_none()).then_some(out)
}

fn property(which: &str, rest: &[&str]) -> Option<(Property, usize)> {
    let (object, id) = sheet::survey::property_named(which)?;
    let (class, mut rest) = rest.split_first()?;
    let mut described = Description {
        object,
        id,
        index: 0,
        class: class.parse().ok()?,
        writable: false,
        maximum: 0,
        read: 0,
        write: 0,
    };
    let (mut size, mut count) = (0, None);
    loop {
        rest = match rest {
            ["writable", rest @ ..] => {
                described.writable = true;
                rest
            }
            ["refused", rest @ ..] => rest,
            ["size", n, rest @ ..] => {
                size = n.parse().ok().filter(|n| (1..=10).contains(n))?;
                rest
            }
            ["maximum", n, rest @ ..] => {
                described.maximum = n.parse().ok()?;
                rest
            }
            ["count", n, rest @ ..] => {
                count = Some(n.parse().ok()?);
                rest
            }
            [read, write] => {
                described.read = read.strip_prefix('r')?.parse().ok()?;
                described.write = write.strip_prefix('w')?.parse().ok()?;
                return Some((Property { described, count, elements: Vec::new() }, size));
            }
            _ => return None,
        };
    }
}

/// A number of up to four bytes, or hex digits and h.
fn element(word: &str, size: usize) -> Option<Vec<u8>> {
    if let Some(digits) = word.strip_suffix('h').filter(|_| size > 4) {
        return values::bytes(&[digits]).ok().filter(|bytes| bytes.len() == size);
    }
    let fits = (1..=4).contains(&size);
    let most = (1u64 << (8 * size.min(4))) - 1;
    let value = values::number("", word, most).ok().filter(|_| fits)?;
    Some(value.to_be_bytes()[8 - size..].to_vec())
}

fn region(address: &str, length: &str, rest: &[&str]) -> Option<Region> {
    let address = values::number("", address, 65_535).ok()? as u16;
    let bytes = match rest {
        [] => Some(Vec::new()),
        ["refused"] => None,
        _ => return None,
    };
    Some(Region { address, length: length.parse().ok()?, bytes })
}

fn row(region: &mut Region, words: &[&str]) -> Option<()> {
    region.bytes.as_mut()?.extend(values::bytes(words).ok()?);
    Some(())
}

#[cfg(test)]
mod tests {
    use super::*;

    fn sample() -> Readout {
        let d = |object, id, class, maximum| Description {
            object,
            id,
            index: 0,
            class,
            writable: id == 51,
            maximum,
            read: 3,
            write: 1,
        };
        let p = |described, count, elements| Property { described, count, elements };
        Readout {
            address: 0x1105,
            level: 1,
            mask: vec![7, 0xB0],
            properties: vec![
                p(d(0, 11, 22, 1), Some(1), vec![vec![0, 0xC5, 1, 2, 3, 4]]),
                p(d(1, 51, 4, 2), Some(2), vec![vec![3, 232], vec![4, 0]]),
                p(d(1, 52, 4, 9), Some(0), vec![]),
                p(d(2, 1, 4, 2), None, vec![]),
                p(d(2, 2, 6, 1), Some(1), vec![vec![1, 2, 3]]),
            ],
            regions: vec![
                Region { address: 0x100, length: 20, bytes: Some((0..20).collect()) },
                Region { address: 0x200, length: 4, bytes: None },
            ],
            users: vec![Region { address: 0, length: 1, bytes: Some(vec![9]) }],
        }
    }

    #[test]
    fn there_and_back() {
        let mut all = sample();
        let text = all.text();
        assert!(text.contains("\nserial 00c501020304\n"), "{text}");
        assert_eq!(read(&text), Some(all.clone()), "{text}");
        // cut anywhere it is none
        let lines: Vec<&str> = text.lines().collect();
        for upto in 0..lines.len() {
            assert_eq!(read(&lines[..upto].join("\n")), None);
        }
        for gone in 0..lines.len() {
            let mut some = lines.clone();
            if lines[gone].starts_with("    ") {
                some.remove(gone);
                assert_eq!(read(&some.join("\n")), None, "without {}", lines[gone]);
            }
        }
        all.properties.clear();
        assert_eq!(read(&all.text()), Some(all.clone()));
        assert!(all.text().contains("serial not told"));
    }
}
