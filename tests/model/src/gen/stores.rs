//! Stores of versions: good ones, of any making, and bad ones of each kind.

use super::Rng;
use crate::sheet;
use crate::store::{self, Store, Version, ENTRY, HEAD, LONGEST, MOST};

/// The settings of a sheet that breaks no rule, with other bytes in the bodies, and other counts up to their maximum.
fn varied(rng: &mut Rng, sheet: &[u8]) -> Vec<u8> {
    let mut body = store::settings(sheet);
    let n = body[1] as usize;
    for byte in &mut body[2 + 12 * n..] {
        *byte = if rng.chance(40) { rng.byte() } else { *byte };
    }
    for e in body[2..2 + 12 * n].chunks_mut(12) {
        let maximum = u16::from_be_bytes([e[4], e[5]]) as usize;
        let count = match rng.below(4) {
            0 => 0,
            1 => maximum,
            _ => rng.within(0, maximum),
        };
        e[6..8].copy_from_slice(&(count as u16).to_be_bytes());
    }
    body
}

/// One count above its maximum, by one or by more.
fn raise_count(rng: &mut Rng, body: &mut [u8]) {
    let n = body.get(1).map_or(0, |&n| n as usize);
    if n > 0 && body.len() >= 2 + 12 * n {
        let e = &mut body[2 + 12 * rng.below(n)..];
        let maximum = u16::from_be_bytes([e[4], e[5]]);
        let count = if rng.chance(60) { maximum + 1 } else { u16::MAX };
        e[6..8].copy_from_slice(&count.to_be_bytes());
    }
}

/// One bit of an entry that is none of a count's.
fn turn_bit(rng: &mut Rng, body: &mut [u8]) {
    let n = body.get(1).map_or(0, |&n| n as usize);
    if n > 0 && body.len() >= 2 + 12 * n {
        let at = 2 + 12 * rng.below(n) + rng.pick(&[0, 1, 2, 3, 4, 5, 8, 9, 10, 11]);
        body[at] ^= 1 << rng.below(8);
    }
}

/// What a version may hold: settings of this sheet, nearly such, those of another sheet, or anything.
fn body(rng: &mut Rng, sheet: &[u8]) -> Vec<u8> {
    if sheet::rule(sheet) != 0 || rng.chance(12) {
        let length = rng.pick(&[0, 1, 2, 3, 14, 100]);
        return if rng.chance(50) {
            rng.bytes(length)
        } else {
            store::settings(&super::sheet(rng))
        };
    }
    let mut body = if rng.chance(25) { store::settings(sheet) } else { varied(rng, sheet) };
    match rng.below(16) {
        0..=2 => raise_count(rng, &mut body),
        3 | 4 => turn_bit(rng, &mut body),
        5 => {
            // both faults: the entries are judged first
            raise_count(rng, &mut body);
            turn_bit(rng, &mut body);
        }
        6 => body.push(rng.byte()),
        7 => drop(body.pop()),
        8 => body[rng.below(2)] ^= 1,
        _ => {}
    }
    body
}

/// A good store for a sheet: few versions or all that there may be, numbers with gaps between them and often near the
/// last one, and behind the bodies often just the room that the sheet's settings need, a byte less, or one more.
pub fn store(rng: &mut Rng, sheet: &[u8]) -> Vec<u8> {
    let wish = rng.pick(&[0, 0, 1, 2, 3, MOST - 1, MOST - 1, MOST, MOST]);
    let mut store = Store::default();
    let start = match rng.below(4) {
        0 => u16::MAX - rng.below(3 * MOST) as u16,
        1 => rng.word(),
        _ => 0,
    };
    let mut number = start;
    while store.versions.len() < wish {
        let gap = rng.pick(&[1, 1, 1, 1, 2, 3, 300]);
        let Some(next) = number.checked_add(gap) else { break };
        let version = Version { number: next, body: body(rng, sheet) };
        if store.end() + ENTRY + version.body.len() > LONGEST {
            break;
        }
        number = next;
        store.versions.push(version);
    }
    // a full store is often refused for numbers too, which come first
    let ends = if store.versions.len() == MOST { 3 } else { 5 };
    store.last = match rng.below(ends) {
        0 => u16::MAX,
        1 => u16::MAX - 1,
        2 => number.saturating_add(rng.below(5) as u16),
        _ => number,
    }
    .max(number);
    let need = if sheet::rule(sheet) == 0 { ENTRY + store::settings(sheet).len() } else { 50 };
    let free = match rng.below(6) {
        0 => 0,
        1 => need,
        2 => need - 1,
        3 => need + 1,
        4 => rng.below(3 * need + 200),
        _ => LONGEST,
    };
    let mut bytes = store.bytes();
    let long = (bytes.len() + free).min(LONGEST);
    // what is free holds anything, often zeros
    let filler = if rng.chance(50) { 0 } else { 0xE7 };
    while bytes.len() < long {
        bytes.push(if rng.chance(20) { rng.byte() } else { filler });
    }
    bytes
}

/// A store that breaks a rule, or would if the broken part were another.
pub fn bad_store(rng: &mut Rng, sheet: &[u8]) -> Vec<u8> {
    let mut s = store(rng, sheet);
    let n = s[1] as usize;
    let entry = |rng: &mut Rng| HEAD + ENTRY * rng.below(n.max(1));
    let low = |rng: &mut Rng, at: usize| at + usize::from(rng.chance(80));
    match rng.below(14) {
        0 => s.truncate(rng.below(HEAD)),
        1 => s.resize(LONGEST + rng.within(1, 3), 0),
        2 => s[low(rng, 0)] = rng.pick(&[n as u8 + 1, n as u8 - u8::from(n > 0), 9, 255]),
        3 => s[rng.within(4, 7)] ^= 1 << rng.below(8),
        4 if n > 0 => s.truncate(rng.within(HEAD, HEAD + ENTRY * n - 1)),
        5 if n > 1 => {
            // the numbers of two neighbours, equal or exchanged
            let at = HEAD + ENTRY * rng.below(n - 1);
            let other: [u8; 2] = [s[at + ENTRY], s[at + ENTRY + 1]];
            if rng.chance(50) {
                s.copy_within(at..at + 2, at + ENTRY);
            }
            s[at..at + 2].copy_from_slice(&other);
        }
        6 if n > 0 => s[HEAD..HEAD + 2].fill(0),
        7 if n > 0 => {
            // the last number given is below the last one kept
            let at = HEAD + ENTRY * (n - 1);
            let last = u16::from_be_bytes([s[at], s[at + 1]]) - 1;
            s[2..4].copy_from_slice(&last.to_be_bytes());
        }
        8 if n > 0 => {
            let at = entry(rng);
            s[at + rng.within(2, 3)] = rng.pick(&[0, 1, 2, 255]);
        }
        9..=11 if n > 0 => {
            // an offset or a length, by one
            let at = entry(rng) + rng.pick(&[4, 6]);
            let value = u16::from_be_bytes([s[at], s[at + 1]]);
            let value = if rng.chance(50) { value.wrapping_add(1) } else { value.wrapping_sub(1) };
            s[at..at + 2].copy_from_slice(&value.to_be_bytes());
        }
        12 => {
            // the buffer ends within the bodies
            let end = Store::read(&s).map_or(s.len(), |store| store.end());
            s.truncate(end.saturating_sub(rng.within(1, 3)));
        }
        _ => {
            let at = rng.below((HEAD + ENTRY * n).min(s.len()));
            s[at] = rng.byte();
        }
    }
    s
}

/// The number of a version: the first, the last, any that is kept, one beside it, or one that nobody keeps.
pub fn number(rng: &mut Rng, store: &[u8]) -> u64 {
    let kept: Vec<u64> =
        Store::read(store).map_or(vec![], |s| s.versions.iter().map(|v| v.number.into()).collect());
    if kept.is_empty() || rng.chance(6) {
        return rng.pick(&[0, 1, 65_535, 65_536, u64::MAX, 1 << 32]);
    }
    match rng.below(12) {
        0 => kept[rng.below(kept.len())] + 1,
        1 => kept[rng.below(kept.len())] - 1,
        2 => kept[rng.below(kept.len())] + (1 << rng.pick(&[16, 32])),
        3..=5 => kept[0],
        6..=8 => kept[kept.len() - 1],
        _ => rng.pick(&kept),
    }
}
