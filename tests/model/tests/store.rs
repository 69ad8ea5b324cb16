//! The store of versions: a worked example, each rule broken, and what holds of any run of calls.

use model::device::{Session, Sessions, FRESH};
use model::faults::Fault;
use model::gen::{self, stores, Rng};
use model::sheet::{self, OLD_SAMPLE, SAMPLE};
use model::store::{self, Store, Version};

const INSTALLER: Sessions = [Session { open: true, level: 0 }, Session::CLOSED];

fn bytes(hex: &str) -> Vec<u8> {
    let digits: Vec<u8> = hex.bytes().filter(u8::is_ascii_hexdigit).collect();
    let byte = |pair: &[u8]| u8::from_str_radix(std::str::from_utf8(pair).unwrap(), 16).unwrap();
    digits.chunks(2).map(byte).collect()
}

fn save(sheet: &[u8], buffer: &mut [u8]) -> (u8, u16) {
    store::save(Fault::None, sheet, buffer)
}

fn restore(q: &Sessions, c: u8, sheet: &mut [u8], buffer: &[u8], number: u64) -> u8 {
    store::restore(Fault::None, q, c, sheet, buffer, number)
}

fn remove(buffer: &mut [u8], number: u64) -> u8 {
    store::remove(Fault::None, buffer, number)
}

/// The height of the sample sheet.
fn with_height(height: u16) -> Vec<u8> {
    let mut sheet = SAMPLE.to_vec();
    sheet[64..66].copy_from_slice(&height.to_be_bytes());
    sheet
}

#[test]
fn worked() {
    let mut buffer = vec![0; 60];
    let entry = "0133 84 02 0002 0001 0040 31 00";
    assert_eq!(save(&with_height(1000), &mut buffer), (0, 1));
    let first = format!("0001 0001 00000000  0001 0001 0010 0012  0001 {entry} 03e80000");
    assert_eq!(buffer, [bytes(&first), vec![0; 26]].concat());
    assert_eq!(save(&with_height(1250), &mut buffer), (0, 2));
    let both = format!(
        "0002 0002 00000000  0001 0001 0018 0012  0002 0001 002a 0012
         0001 {entry} 03e80000  0001 {entry} 04e20000"
    );
    assert_eq!(buffer, bytes(&both));
    assert_eq!(save(&with_height(1250), &mut buffer), (33, 0));
    assert_eq!(remove(&mut buffer, 1), 1);
    let second = format!("0001 0002 00000000  0002 0001 0010 0012  0001 {entry} 04e20000");
    assert_eq!(buffer, [bytes(&second), vec![0; 26]].concat());
    assert_eq!(remove(&mut buffer, 1), 34);

    let mut sheet = with_height(900);
    assert_eq!(restore(&FRESH, 0, &mut sheet, &buffer, 1), 34);
    assert_eq!(restore(&FRESH, 0, &mut sheet, &buffer, 2), 35);
    assert_eq!(restore(&INSTALLER, 1, &mut sheet, &buffer, 2), 35);
    assert_eq!(restore(&INSTALLER, 2, &mut sheet, &buffer, 2), 35);
    assert_eq!(restore(&INSTALLER, 0, &mut sheet, &buffer, 65_538), 34);
    assert_eq!(sheet, with_height(900));
    assert_eq!(restore(&INSTALLER, 0, &mut sheet, &buffer, 2), 1);
    assert_eq!(sheet, with_height(1250));
    // the next number is 3, though 1 is free
    assert_eq!(save(&sheet, &mut buffer), (0, 3));
}

/// Every byte of an entry but the count's two must be the sheet's; the count may be another, up to the maximum.
#[test]
fn entries_and_counts() {
    let body = store::settings(&SAMPLE);
    let kept =
        |body: Vec<u8>| Store { last: 7, versions: vec![Version { number: 7, body }] }.bytes();
    for at in 0..body.len() {
        let mut other = body.clone();
        other[at] ^= 0x80;
        let expected = match at {
            8 => 37,
            0..8 | 10..14 => 36,
            _ => continue,
        };
        let mut sheet = SAMPLE.to_vec();
        assert_eq!(restore(&INSTALLER, 0, &mut sheet, &kept(other), 7), expected, "byte {at}");
        assert_eq!(sheet, SAMPLE);
    }
    for (count, expected) in [(0, 1), (1, 1), (2, 1), (3, 37)] {
        let mut other = body.clone();
        other[9] = count;
        let mut sheet = SAMPLE.to_vec();
        assert_eq!(restore(&INSTALLER, 0, &mut sheet, &kept(other), 7), expected);
        assert_eq!(sheet[47], if expected == 1 { count } else { 1 });
    }
    for long in [0, 1, 2, body.len() - 1] {
        let short = kept(body[..long].to_vec());
        assert_eq!(restore(&INSTALLER, 0, &mut SAMPLE.to_vec(), &short, 7), 36);
    }
    assert_eq!(
        restore(&INSTALLER, 0, &mut SAMPLE.to_vec(), &kept([body, vec![0]].concat()), 7),
        36
    );
}

/// A good store, and each rule broken by a byte or two.
#[test]
fn rules() {
    let mut good = Store {
        last: 9,
        versions: vec![
            Version { number: 2, body: vec![1, 2, 3] },
            Version { number: 5, body: vec![] },
            Version { number: 9, body: vec![4] },
        ],
    }
    .bytes();
    assert_eq!(store::check(&good), 0);
    good.push(0xEE); // free, and anything
    assert_eq!(store::check(&good), 0);
    let broken = [
        (1, 9),
        (1, 4),
        (1, 2),
        (3, 8),
        (4, 1),
        (7, 1),
        (9, 0),
        (9, 5),
        (17, 9),
        (25, 5),
        (11, 2),
        (18, 1),
        (13, 31),
        (13, 33),
        (15, 4),
        (21, 36),
        (31, 3),
    ];
    for (at, value) in broken {
        let mut bad = good.clone();
        bad[at] = value;
        assert_eq!(store::check(&bad), 30, "byte {at}");
        assert_eq!(save(&SAMPLE, &mut bad), (30, 0));
        assert_eq!(remove(&mut bad, 2), 30);
        assert_eq!(restore(&INSTALLER, 0, &mut SAMPLE.to_vec(), &bad, 2), 30);
    }
    assert_eq!(store::check(&good[..35]), 30);
    for (length, expected) in [(0, 30), (7, 30), (8, 0), (32_768, 0), (32_769, 30)] {
        assert_eq!(store::check(&vec![0; length]), expected);
    }
    // with no version kept the last number may be any
    assert_eq!(store::check(&[0, 0, 255, 255, 0, 0, 0, 0]), 0);
    assert_eq!(save(&SAMPLE, &mut [0, 0, 255, 255, 0, 0, 0, 0]), (31, 0));
}

/// Numbers, then places, then room.
#[test]
fn refused_in_order() {
    let full = |last: u16| Store {
        last,
        versions: (1..=8).map(|number| Version { number, body: vec![0; 9] }).collect(),
    };
    assert_eq!(save(&SAMPLE, &mut full(u16::MAX).bytes()), (31, 0));
    assert_eq!(save(&SAMPLE, &mut full(8).bytes()), (32, 0));
    let mut seven = full(8);
    seven.versions.pop();
    assert_eq!(save(&SAMPLE, &mut seven.bytes()), (33, 0));
    let mut bytes = seven.bytes();
    bytes.resize(bytes.len() + 8 + 18 - 1, 0xEE);
    assert_eq!(save(&SAMPLE, &mut bytes), (33, 0));
    bytes.push(0xEE);
    assert_eq!(save(&SAMPLE, &mut bytes), (0, 9));
    assert_eq!(save(&[], &mut [0; 8]), (4, 0));
    // an old sheet right after a bad one, and before the store
    assert_eq!((save(&OLD_SAMPLE, &mut []), save(&[], &mut [])), ((14, 0), (4, 0)));
    assert_eq!(restore(&FRESH, 0, &mut OLD_SAMPLE.to_vec(), &[], 1), 14);
}

/// A version that the release before saved from an old sheet is restored on the converted one, as it would have been then.
#[test]
fn versions_survive() {
    let mut rng = Rng::new(112);
    let mut seen = std::collections::BTreeMap::new();
    for _ in 0..2000 {
        let old = gen::old_sheet(&mut rng);
        let mut buffer = stores::store(&mut rng, &old);
        store::save(Fault::OldServed, &old, &mut buffer);
        let number = stores::number(&mut rng, &buffer);
        let (mut before, mut now) = (old.clone(), old.clone());
        assert_eq!(restore(&INSTALLER, 0, &mut now, &buffer, number), 14);
        assert_eq!((sheet::convert(Fault::None, &mut now), &now[1..]), (1, &old[1..]));
        let then = store::restore(Fault::OldServed, &INSTALLER, 0, &mut before, &buffer, number);
        assert_eq!(restore(&INSTALLER, 0, &mut now, &buffer, number), then);
        assert_eq!((now[0], &now[1..]), (2, &before[1..]));
        *seen.entry(then).or_insert(0) += 1;
    }
    for outcome in [1, 34, 36, 37] {
        assert!(seen.get(&outcome).is_some_and(|&n| n > 50), "{seen:?}");
    }
}

/// What holds of any run of calls: good stays good, kept versions keep their bytes, no number is given twice, a refusal
/// changes nothing, what is behind the bodies stays.
#[test]
fn any_run() {
    let mut rng = Rng::new(107);
    let mut seen = [0; 3];
    for _ in 0..400 {
        let sheet = gen::sheet(&mut rng);
        let mut buffer = stores::store(&mut rng, &sheet);
        let mut given = 0;
        for _ in 0..30 {
            let before = Store::read(&buffer).expect("a good store");
            let old = buffer.clone();
            if rng.chance(50) {
                let (outcome, number) = save(&sheet, &mut buffer);
                if outcome == 0 {
                    assert!(number > given && number == before.last + 1);
                    given = number;
                    let after = Store::read(&buffer).expect("a good store");
                    let mut versions = before.versions;
                    versions.push(Version { number, body: store::settings(&sheet) });
                    assert_eq!(after, Store { last: number, versions });
                    assert_eq!(buffer[after.end()..], old[after.end()..]);
                    seen[0] += 1;
                    continue;
                }
            } else {
                let number = stores::number(&mut rng, &buffer);
                if remove(&mut buffer, number) == 1 {
                    let after = Store::read(&buffer).expect("a good store");
                    let (end, last) = (before.end(), before.last);
                    let mut versions = before.versions;
                    versions.retain(|v| u64::from(v.number) != number);
                    assert_eq!(after, Store { last, versions });
                    assert!(buffer[after.end()..end].iter().all(|&b| b == 0));
                    assert_eq!(buffer[end..], old[end..]);
                    seen[1] += 1;
                    continue;
                }
            }
            assert_eq!(buffer, old);
            seen[2] += 1;
        }
    }
    assert!(seen.iter().all(|&n| n > 500), "{seen:?}");
}

/// A restore makes the settings those of the version, leaves the sheet accepted, and touches nothing else.
#[test]
fn restored() {
    let mut rng = Rng::new(108);
    let mut seen = std::collections::BTreeMap::new();
    for _ in 0..4000 {
        let sheet = gen::sheet(&mut rng);
        let buffer = stores::store(&mut rng, &sheet);
        let number = stores::number(&mut rng, &buffer);
        let mut after = sheet.clone();
        let outcome = restore(&INSTALLER, 0, &mut after, &buffer, number);
        *seen.entry(outcome).or_insert(0) += 1;
        if outcome != 1 {
            assert_eq!(after, sheet);
            continue;
        }
        let kept = Store::read(&buffer).expect("a good store").versions;
        let version = kept.iter().find(|v| u64::from(v.number) == number).expect("is kept");
        assert_eq!(store::settings(&after), version.body);
        assert_eq!(sheet::check(&after), 0);
        // what is no property's is as it was
        let mut spared = vec![false; sheet.len()];
        for p in sheet::properties(&sheet) {
            spared[p.entry + 6..p.entry + 8].fill(true);
            spared[p.body..p.body + p.size * p.maximum as usize].fill(true);
        }
        assert!((0..sheet.len()).all(|i| spared[i] || after[i] == sheet[i]));
    }
    for outcome in [1, 34, 36, 37] {
        assert!(seen.get(&outcome).is_some_and(|&n| n > 50), "{seen:?}");
    }
}

/// Bad stores of every kind are among those that are made.
#[test]
fn bad_ones() {
    let mut rng = Rng::new(109);
    let bad = (0..2000).filter(|_| {
        let sheet = gen::any_sheet(&mut rng);
        store::check(&stores::bad_store(&mut rng, &sheet)) == 30
    });
    assert!(bad.count() > 1200);
}
