//! An interface and units that do what they should not: answers that are cut, foreign, late, doubled, or lie about their length;
//! an interface that goes away, for a while or for good; a folder that takes nothing.

mod hall;

use std::collections::BTreeMap;
use std::fs;
use std::net::UdpSocket;
use std::path::PathBuf;
use std::sync::atomic::{AtomicU64, Ordering};
use std::time::{Duration, Instant};

use hall::{honest, Interface, Unit, Way, CONNECTS, DISCONNECTS};
use sheet::asked::{heard, Heard};
use sheet::layout::Sheet;

const HELP: &str = include_str!("../kelindap-tool.txt");
const HURRY: u64 = 6;
const TEXT: &str = include_str!("../../../examples/accident/before.txt");

struct Folder(PathBuf);

impl Folder {
    fn new(name: &str) -> Folder {
        let path = std::env::temp_dir().join(format!("kelindap-{name}-{}", std::process::id()));
        let _ = fs::remove_dir_all(&path);
        fs::create_dir_all(&path).unwrap();
        fs::write(path.join("sheet"), sheet::make::bytes(TEXT).unwrap()).unwrap();
        Folder(path)
    }

    fn path(&self, name: &str) -> String {
        self.0.join(name).to_str().unwrap().to_string()
    }
}

impl Drop for Folder {
    fn drop(&mut self) {
        let _ = fs::remove_dir_all(&self.0);
    }
}

fn said(words: &[&str]) -> Result<(String, u8), String> {
    tool::bus::hurry(HURRY);
    match heard(HELP, words).unwrap_or_else(|wrong| panic!("{}", wrong.told("tool"))) {
        Heard::Asked(asked) => {
            let said = tool::commands::obey(&asked);
            said.map(|(bytes, status)| (String::from_utf8(bytes).unwrap(), status))
        }
        _ => panic!("help"),
    }
}

/// Units 1.1.1 to 1.1.n.
fn units(n: u16, way: Way) -> BTreeMap<u16, Unit> {
    let one = |number: u16| {
        let mut sheet = Sheet::read(&sheet::make::bytes(TEXT).unwrap()).unwrap();
        sheet.address = 0x1100 + number;
        (sheet.address, Unit::new(sheet.bytes(), way))
    };
    (1..=n).map(one).collect()
}

fn survey(folder: &Folder, port: u16, range: &str, more: &[&str]) -> (String, u8) {
    let (reference, via) = (folder.path("sheet"), format!("127.0.0.1:{port}"));
    let words = ["survey", range, "--reference", &reference, "--via", &via];
    said(&[&words[..], more].concat()).unwrap()
}

/// Whatever is beside it, what is right is taken, and nothing else.
#[test]
fn beside_what_is_right() {
    fn cut(d: &[u8]) -> Vec<Vec<u8>> {
        vec![d[..d.len() / 2].to_vec(), d[..d.len() - 1].to_vec(), d.to_vec()]
    }
    fn lying(d: &[u8]) -> Vec<Vec<u8>> {
        let with = |by: u8| {
            let mut lie = d.to_vec();
            lie[5] = lie[5].wrapping_add(by);
            lie
        };
        vec![with(1), with(255), d.to_vec()]
    }
    fn lying_inside(d: &[u8]) -> Vec<Vec<u8>> {
        // the frame's own length, in a request that is numbered for later
        let mut lie = d.to_vec();
        if d[2] == 4 && d[3] == 0x20 && d.len() > 18 {
            (lie[8], lie[18]) = (lie[8].wrapping_add(9), lie[18] ^ 5);
        }
        vec![lie, d.to_vec()]
    }
    fn doubled(d: &[u8]) -> Vec<Vec<u8>> {
        vec![d.to_vec(), d.to_vec(), d.to_vec()]
    }
    fn foreign(d: &[u8]) -> Vec<Vec<u8>> {
        // from another port: the end of the channel, a refusal, the very datagram; and of another channel
        let other = |mut d: Vec<u8>| {
            d.insert(0, 0);
            d
        };
        let channel = if d[2] == 4 { d[7] } else { d[6] };
        let end = vec![6, 16, 2, 9, 0, 16, channel, 0, 8, 1, 127, 0, 0, 1, 14, 87];
        let mut theirs = d.to_vec();
        theirs[if d[2] == 4 { 7 } else { 6 }] ^= 1;
        // the answer to a connect has no channel yet: one of another would be believed
        let theirs = if d[2] == 2 && d[3] == 6 { vec![6] } else { theirs };
        let refusal = vec![6, 16, 4, 0x21, 0, 10, 4, channel, 0, 0x29];
        vec![other(end), other(refusal), other(d.to_vec()), theirs, d.to_vec()]
    }
    for (name, mischief) in [
        ("cut", cut as hall::Mischief),
        ("lying", lying),
        ("inside", lying_inside),
        ("doubled", doubled),
        ("foreign", foreign),
    ] {
        let folder = Folder::new(name);
        let interface = Interface::new(units(3, Way::Good), HURRY, mischief);
        let (text, status) = survey(&folder, interface.port, "1.1.1-3", &[]);
        assert!(
            text.contains("3 units beside") && text.contains("3 read, 0 not read"),
            "{name}: {text}"
        );
        assert!(text.contains("deviations, those of most units first: none"), "{name}: {text}");
        assert_eq!(status, 0, "{name}");
        assert_eq!(interface.count(CONNECTS), interface.count(DISCONNECTS), "{name}");
    }
}

/// Later than 3 s: asked again, and the late one is not taken for another.
#[test]
fn late() {
    let folder = Folder::new("late");
    let interface = Interface::new(units(1, Way::Slow(3_400)), HURRY, honest);
    let (text, _) = survey(&folder, interface.port, "1.1.1", &["--limit", "300"]);
    assert!(text.contains("1 read, 0 not read"), "{text}");
    assert!(text.contains("deviations, those of most units first: none"), "{text}");
}

/// One that takes for ever costs its limit, twice, and the others are read.
#[test]
fn a_limit() {
    let folder = Folder::new("limit");
    let mut all = units(3, Way::Good);
    all.get_mut(&0x1102).unwrap().way = Way::Slow(2_000);
    let interface = Interface::new(all, HURRY, honest);
    let started = Instant::now();
    let (text, _) = survey(&folder, interface.port, "1.1.1-3", &["--limit", "9"]);
    assert!(text.contains("2 read, 1 not read"), "{text}");
    assert!(text.contains("  1.1.2: took more than 9 s\n"), "{text}");
    assert!(started.elapsed() < Duration::from_secs(20));
}

/// Frames whose bytes are made up: nothing panics, all ends, and what is told of a unit is that it is strange, or right.
#[test]
fn made_up() {
    static SEED: AtomicU64 = AtomicU64::new(1);
    fn random(d: &[u8]) -> Vec<Vec<u8>> {
        let next = |n: u64| {
            let seed = SEED
                .load(Ordering::SeqCst)
                .wrapping_mul(6_364_136_223_846_793_005)
                .wrapping_add(n | 1);
            SEED.store(seed, Ordering::SeqCst);
            (seed >> 33) as usize
        };
        let mut lie = d.to_vec();
        // the confirmation stays, so that the tool does not wait for one
        if d[2] == 4 && d[3] == 0x20 && d.len() > 20 && d[10] == 0x29 && next(7).is_multiple_of(4) {
            for _ in 0..=next(3) % 3 {
                let at = 10 + next(5) % (d.len() - 10);
                lie[at] = next(9) as u8;
            }
        }
        vec![lie]
    }
    let folder = Folder::new("random");
    let interface = Interface::new(units(6, Way::Good), HURRY, random);
    let (text, _) = survey(&folder, interface.port, "1.1.1-6", &["--limit", "30"]);
    assert!(text.starts_with("6 units beside"), "{text}");
    assert_eq!(interface.count(CONNECTS), interface.count(DISCONNECTS));
}

/// An interface that goes away and comes back: the unit under way is tried again, the rest goes on.
#[test]
fn away_and_back() {
    let folder = Folder::new("away");
    let socket = UdpSocket::bind("127.0.0.1:0").unwrap();
    let port = socket.local_addr().unwrap().port();
    let first = Interface::on(socket, port, units(6, Way::Slow(600)), HURRY, honest);
    let back = std::thread::spawn(move || {
        let started = Instant::now();
        while first.count(hall::ENDS) < 2 && started.elapsed() < Duration::from_secs(20) {
            std::thread::sleep(Duration::from_millis(5));
        }
        drop(first);
        std::thread::sleep(Duration::from_millis(600));
        let socket = UdpSocket::bind(("127.0.0.1", port)).unwrap();
        Interface::on(socket, port, units(6, Way::Good), HURRY, honest)
    });
    let (text, _) = survey(&folder, port, "1.1.1-6", &[]);
    let second = back.join().unwrap();
    assert!(text.contains("6 read, 0 not read"), "{text}");
    assert!(second.count(CONNECTS) >= 1 && second.count(CONNECTS) == second.count(DISCONNECTS));
}

/// One that stays away: what was read is told, and of the rest why not.
#[test]
fn away_for_good() {
    let folder = Folder::new("gone");
    let into = folder.path("kept");
    let interface = Interface::new(units(6, Way::Slow(600)), HURRY, honest);
    let port = interface.port;
    let ends = std::thread::spawn(move || {
        let started = Instant::now();
        while interface.count(hall::ENDS) < 2 && started.elapsed() < Duration::from_secs(20) {
            std::thread::sleep(Duration::from_millis(5));
        }
    });
    let (text, status) = survey(&folder, port, "1.1.1-6", &["--into", &into]);
    ends.join().unwrap();
    assert_eq!(status, 1);
    assert!(text.contains("1.1.1   1.1.1") || text.contains("1.1.1  1.1.1"), "{text}");
    assert!(text.contains("the interface is gone: it acknowledges nothing"), "{text}");
    assert!(text.contains("1.1.6: was not asked: the interface is gone"), "{text}");
    // started again with an interface it goes on
    let kept = fs::read_dir(&into).unwrap().count();
    assert!((1..6).contains(&kept), "{kept}");
    let interface = Interface::new(units(6, Way::Good), HURRY, honest);
    let (text, status) = survey(&folder, interface.port, "1.1.1-6", &["--into", &into]);
    assert!(text.contains("6 read, 0 not read") && status == 0, "{text}");
    let (text, _) = survey(&folder, 1, "1.1.1-6", &["--into", &into]);
    assert!(text.contains("6 read, 0 not read"), "{text}");
}

/// What can't be kept is told of the unit, and the others are kept; a file that is cut is asked for again.
#[test]
fn a_folder_that_takes_nothing() {
    let folder = Folder::new("full");
    let into = folder.path("kept");
    fs::create_dir_all(PathBuf::from(&into).join("1.1.2.readout/in the way")).unwrap();
    let interface = Interface::new(units(3, Way::Good), HURRY, honest);
    let (text, status) = survey(&folder, interface.port, "1.1.1-3", &["--into", &into]);
    assert_eq!(status, 1);
    assert!(text.contains("3 read, 0 not read"), "{text}");
    assert!(
        text.contains("  1.1.2: read, and not kept in ") && !text.contains("1.1.3: read, and"),
        "{text}"
    );
    let one = PathBuf::from(&into).join("1.1.1.readout");
    let whole = fs::read_to_string(&one).unwrap();
    fs::write(&one, &whole[..whole.len() / 2]).unwrap();
    let before = interface.count(CONNECTS);
    survey(&folder, interface.port, "1.1.1", &["--into", &into]);
    assert_eq!(interface.count(CONNECTS), before + 1);
    assert_eq!(fs::read_to_string(&one).unwrap(), whole);
    assert_eq!(fs::read_dir(&into).unwrap().count(), 3, "something is left over");
}

/// Nobody listens; one that says nothing; one that has no channel.
#[test]
fn no_interface() {
    let closed = UdpSocket::bind("127.0.0.1:0").unwrap().local_addr().unwrap().port();
    let via = |port: u16| format!("127.0.0.1:{port}");
    let told = said(&["descriptor", "1.1.1", "--via", &via(closed)]).unwrap_err();
    assert_eq!(told, format!("127.0.0.1:{closed}: nobody listens there"));
    let silent = UdpSocket::bind("127.0.0.1:0").unwrap();
    let port = silent.local_addr().unwrap().port();
    let told = said(&["descriptor", "1.1.1", "--via", &via(port)]).unwrap_err();
    assert_eq!(told, format!("127.0.0.1:{port}: nobody answers a connect within 10 s"));
    fn full(d: &[u8]) -> Vec<Vec<u8>> {
        vec![if d[3] == 6 { vec![6, 16, 2, 6, 0, 8, 0, 0x24] } else { d.to_vec() }]
    }
    let interface = Interface::new(units(1, Way::Good), HURRY, full);
    let told = said(&["descriptor", "1.1.1", "--via", &via(interface.port)]).unwrap_err();
    let due = "the interface refuses a tunnel: all its channels are taken (status 24h)";
    assert_eq!(told, format!("127.0.0.1:{}: {due}", interface.port));
}

/// Whatever happened: a panic ends connection and channel too.
#[test]
fn a_panic() {
    let interface = Interface::new(units(1, Way::Good), HURRY, honest);
    let via = format!("127.0.0.1:{}", interface.port);
    tool::bus::hurry(HURRY);
    let done = std::panic::catch_unwind(|| {
        let mut bus = tool::bus::Bus::open(&via, false, None).map_err(|e| e.0).unwrap();
        let mut unit = tool::unit::Unit::connect(&mut bus, 0x1101, Default::default());
        assert_eq!(unit.descriptor().unwrap(), [7, 0xB0]);
        panic!("this one is meant");
    });
    assert!(done.is_err());
    assert_eq!((interface.count(hall::ENDS), interface.count(DISCONNECTS)), (1, 1));
}

/// Whoever is there in address order, whatever its way; and addresses that can't be given.
#[test]
fn a_line_and_its_addresses() {
    let mut all = units(6, Way::Good);
    let programming = |at: u16| {
        let mut sheet = Sheet::read(&sheet::make::bytes(TEXT).unwrap()).unwrap();
        (sheet.address, sheet.programming) = (at, true);
        Unit::new(sheet.bytes(), Way::Good)
    };
    all.get_mut(&0x1102).unwrap().way = Way::Silent;
    all.get_mut(&0x1103).unwrap().way = Way::Absent;
    all.get_mut(&0x1104).unwrap().way = Way::TurnsAway;
    all.get_mut(&0x1105).unwrap().way = Way::Slow(700);
    let interface = Interface::new(all.clone(), HURRY, honest);
    let via = format!("127.0.0.1:{}", interface.port);
    let (text, status) = said(&["scan", "1.1", "--via", &via]).unwrap();
    let line = |n: u8| format!("1.1.{n}  mask 07b0  serial not told\n");
    let away = "1.1.4  mask not told: it turns connections away  serial not told\n";
    let due = line(1) + away + &line(5) + &line(6);
    assert_eq!((text.as_str(), status), (due.as_str(), 0));
    assert_eq!(said(&["scan", "1.2", "--via", &via]), Ok((String::new(), 0)));
    drop(interface);

    all.insert(0x1101, programming(0x1101));
    let interface = Interface::new(all.clone(), HURRY, honest);
    let via = format!("127.0.0.1:{}", interface.port);
    let set = |new: &str| said(&["address", "--set", new, "--via", &via]);
    assert_eq!(set("1.1.6"), Ok(("refused: 1.1.6 is taken by another unit\n".to_string(), 1)));
    assert_eq!(set("1.1.4"), Ok(("refused: 1.1.4 is taken by another unit\n".to_string(), 1)));
    assert_eq!(interface.count(hall::WRITES), 0);
    drop(interface);

    all.insert(0x1106, programming(0x1106));
    let interface = Interface::new(all, HURRY, honest);
    let via = format!("127.0.0.1:{}", interface.port);
    let told = said(&["address", "--set", "1.1.9", "--via", &via]).unwrap_err();
    assert_eq!(told, "2 units are in programming mode, and one is to be: 1.1.1, 1.1.6");
    assert_eq!(interface.count(hall::WRITES), 0);
}

/// A write that is answered with something else, and one that reads back as another: both are trouble, not success.
#[test]
fn a_write_that_lies() {
    fn other(d: &[u8]) -> Vec<Vec<u8>> {
        let mut lie = d.to_vec();
        // the value in a property response
        if d.len() == 27 && d[10] == 0x29 && d[20] == 0xD6 {
            lie[26] ^= 1;
        }
        vec![lie]
    }
    let folder = Folder::new("lies");
    let key = folder.path("key");
    fs::write(&key, "22222222").unwrap();
    fs::set_permissions(&key, std::os::unix::fs::PermissionsExt::from_mode(0o600)).unwrap();
    let interface = Interface::new(units(1, Way::Good), HURRY, other);
    let via = format!("127.0.0.1:{}", interface.port);
    let words = ["write", "1.1.1", "1/51", "1250", "--via", &via, "--key-file", &key];
    let told = said(&words).unwrap_err();
    assert!(
        told.starts_with("1.1.1: answers strangely: asked to write 1250, it answers 1251"),
        "{told}"
    );
}
