//! Random sheets, accepted and damaged: the verdict, there and back as text, and what differs.

use model::faults::Fault;
use model::gen::{any_sheet, damage, old_sheet, sheet, whole_sheet, Rng};
use sheet::check::{check, rules};
use sheet::convert::converted;
use sheet::diff;
use sheet::layout::Sheet;
use sheet::{make, place, show};

const SHEETS: u64 = 10_000;

fn verdict(bytes: &[u8]) -> u8 {
    check(bytes).map_or_else(|broken| broken.rule, |()| 0)
}

/// The text of an accepted sheet makes the same bytes.
#[test]
fn there_and_back() {
    for seed in 0..SHEETS {
        let bytes = sheet(&mut Rng::new(seed));
        let values = Sheet::read(&bytes).unwrap_or_else(|broken| panic!("seed {seed}: {broken}"));
        assert_eq!(values.bytes(), bytes, "seed {seed}");
        let text = show::text(&values, true);
        let again = make::bytes(&text).unwrap_or_else(|fault| panic!("seed {seed}: {fault}"));
        assert!(again == bytes, "seed {seed}: other bytes");
    }
}

/// Without the keys nothing is made, and no key is in the text.
#[test]
fn hidden_keys() {
    for seed in 0..200 {
        let bytes = sheet(&mut Rng::new(seed));
        let values = Sheet::read(&bytes).unwrap();
        let text = show::text(&values, false);
        let public = values.keys.iter().filter(|&&key| key == [0xFF; 4]).count();
        assert_eq!(text.matches("hidden").count(), 3 - public);
        assert_eq!(text.matches("ffffffff  # public").count(), public);
        if public > 0 {
            continue;
        }
        let fault = make::bytes(&text).unwrap_err();
        assert_eq!(
            (fault.line, fault.what.as_str()),
            (8, "key 0 is hidden: show the sheet with --keys")
        );
    }
}

/// The model, written from the rules alone, gives the same verdict and converts alike; every rule is met.
#[test]
fn verdicts() {
    let mut seen = [0; 15];
    for seed in 0..60_000 {
        let bytes = any_sheet(&mut Rng::new(seed));
        let rule = verdict(&bytes);
        assert_eq!(rule, model::sheet::check(&bytes), "seed {seed}");
        seen[rule as usize] += 1;
        let mut other = bytes.clone();
        let outcome = model::sheet::convert(Fault::None, &mut other);
        assert_eq!(converted(&bytes).ok(), (outcome == 1).then_some(other), "seed {seed}");
    }
    assert!((0..10).chain([14]).all(|k| seen[k] > 50), "{seen:?}");
}

/// A rule broken by an entry names one that is there; one broken by the head names none.
#[test]
fn named_entries() {
    for seed in 0..20_000 {
        let bytes = any_sheet(&mut Rng::new(seed));
        let Err(broken) = check(&bytes) else { continue };
        match broken.entry {
            None => assert!(matches!(broken.rule, 1..=5 | 9 | 14), "seed {seed}: {broken}"),
            Some((kind, i)) => {
                assert!(i < sheet::layout::count(&bytes, kind), "seed {seed}: {broken}");
                let rule = [6, 7, 8, 6][kind as usize];
                assert!(broken.rule == 9 || broken.rule == rule, "seed {seed}: {broken}");
            }
        }
    }
}

/// Two sheets have the same bytes exactly if nothing is said to differ.
#[test]
fn differences() {
    let mut different = 0;
    for seed in 0..3000 {
        let rng = &mut Rng::new(seed);
        let verdict = |bytes: &[u8]| rules(bytes).map_or_else(|broken| broken.rule, |()| 0);
        let old = whole_sheet(rng);
        let mut new = old.clone();
        for _ in 0..rng.below(3) {
            let before = new.clone();
            damage(rng, &mut new);
            if verdict(&new) != 0 {
                new = before;
                let at = rng.below(new.len());
                new[at] ^= 1 << rng.below(8);
                if verdict(&new) != 0 {
                    new = old.clone();
                }
            }
        }
        let lines = diff::lines(&Sheet::read(&old).unwrap(), &Sheet::read(&new).unwrap());
        assert_eq!(lines.is_empty(), old == new, "seed {seed}: {lines:?}");
        different += usize::from(old != new);
    }
    assert!(different > 1000, "only {different} pairs differ");
}

/// A converted sheet differs from the old one in its edition, and in nothing else that is said; as text it is what the old one
/// is with another edition in it.
#[test]
fn conversions() {
    for seed in 0..1000 {
        let old = old_sheet(&mut Rng::new(seed));
        let new = converted(&old).unwrap();
        assert_eq!((verdict(&new), new[0], &new[1..]), (0, 2, &old[1..]), "seed {seed}");
        let (old, new) = (Sheet::read(&old).unwrap(), Sheet::read(&new).unwrap());
        assert_eq!(diff::lines(&old, &new), ["edition: 1 → 2"], "seed {seed}");
        let text = show::text(&old, true);
        assert!(make::bytes(&text).is_err());
        let text = text.replacen("edition 1", "edition 2", 1);
        assert_eq!(make::bytes(&text).unwrap(), new.bytes(), "seed {seed}");
    }
}

/// So do any two sheets; no key is told.
#[test]
fn strangers() {
    for seed in 0..500 {
        let (a, b) = (sheet(&mut Rng::new(seed)), sheet(&mut Rng::new(seed + 1)));
        let (a, b) = (Sheet::read(&a).unwrap(), Sheet::read(&b).unwrap());
        assert!(!diff::lines(&a, &b).is_empty());
        assert!(diff::lines(&a, &a).is_empty());
    }
}

/// Any text gets an answer: words exchanged, lost, doubled, cut.
#[test]
fn damaged_texts() {
    for seed in 0..3000 {
        let rng = &mut Rng::new(seed);
        let mut bytes = sheet(rng);
        while bytes.len() > 2000 {
            bytes = sheet(rng);
        }
        let text = show::text(&Sheet::read(&bytes).unwrap(), true);
        let mut lines: Vec<Vec<String>> =
            text.lines().map(|line| line.split(' ').map(String::from).collect()).collect();
        let i = rng.below(lines.len());
        let line = &mut lines[i];
        let k = rng.below(line.len());
        match rng.below(5) {
            0 => drop(line.remove(k)),
            1 => line.insert(
                k,
                rng.pick(&["-1", "99999", "r4", "on", "h", "🐟", "type", "0x1", "#"]).to_string(),
            ),
            2 => line[k] = rng.word().to_string(),
            3 => line[k] = line[k].chars().skip(1).collect(),
            _ => drop(lines.remove(i)),
        }
        let text: Vec<String> = lines.iter().map(|line| line.join(" ")).collect();
        match make::bytes(&text.join("\n")) {
            Ok(made) => assert_eq!(verdict(&made), 0, "seed {seed}"),
            Err(fault) => {
                assert!(1 <= fault.line && fault.line <= lines.len(), "seed {seed}: {fault}")
            }
        }
    }
}

/// Two sheets of one layout differ by places as they differ by meaning; every byte that differs is told, and none else.
#[test]
fn places() {
    let (mut changed, mut laid) = (0, 0);
    for seed in 0..SHEETS / 50 {
        let mut rng = Rng::new(seed);
        let old = sheet(&mut rng);
        let mut new = old.clone();
        for _ in 0..rng.within(1, 40) {
            let at = rng.below(new.len());
            let byte = new[at];
            new[at] = rng.pick(&[rng.clone().byte(), byte ^ 1, byte & 0x33, byte ^ 0x80]);
            if check(&new).is_err() {
                new[at] = byte;
            }
        }
        let by_place = place::places(&old);
        assert!(by_place.windows(2).all(|p| p[0].at + p[0].length == p[1].at), "seed {seed}");
        assert_eq!(by_place.last().map(|p| p.at + p.length), Some(old.len()), "seed {seed}");
        if !place::same_layout(&old, &new) {
            continue;
        }
        laid += 1;
        let changes = place::changes(&old, &new, |_| ());
        let bytes: Vec<usize> = changes.iter().flat_map(|c| c.bytes.iter().map(|b| b.0)).collect();
        let due: Vec<usize> = (0..old.len()).filter(|&at| old[at] != new[at]).collect();
        assert_eq!(bytes, due, "seed {seed}");
        let mut lines: Vec<String> = changes.into_iter().flat_map(|c| c.lines).collect();
        let (a, b) = (Sheet::read(&old).unwrap(), Sheet::read(&new).unwrap());
        let mut meant = diff::lines(&a, &b);
        lines.sort();
        meant.sort();
        assert_eq!(lines, meant, "seed {seed}");
        changed += meant.len();
    }
    assert!(laid > SHEETS / 100 && changed > 1_000, "{laid} {changed}");
}
