//! Dumps of a medium: as text, what is torn, what a unit would start with; each cut of a save byte by byte; and the commands that take
//! a dump for a sheet or a store.

use std::fs;
use std::path::PathBuf;
use std::process::{Command, Stdio};

use model::faults::Fault;
use model::gen::{self, Rng};
use model::sheet::SAMPLE;
use model::store;
use sheet::kinds::{self, File};
use sheet::slots::{kept, sum, text, Medium, Refusal, Slot, HEAD};

const ROOM: usize = 256;

fn with_height(height: u16) -> Vec<u8> {
    let mut sheet = SAMPLE.to_vec();
    sheet[64..66].copy_from_slice(&height.to_be_bytes());
    sheet
}

/// The head of a sheet under a number, from byte 32 on.
fn head(number: u32, sheet: &[u8]) -> Vec<u8> {
    let mut tail = number.to_be_bytes().to_vec();
    tail.extend((sheet.len() as u32).to_be_bytes());
    tail.extend([0; 20]);
    let covered = [&tail[..], sheet].concat();
    [&sum(&covered).to_be_bytes()[..], &tail].concat()
}

/// A slot of so many bytes after a save into an erased one.
fn slot(room: usize, number: u32, sheet: &[u8]) -> Vec<u8> {
    let mut slot = vec![0xFF; room];
    slot[..6].copy_from_slice(b"KELIND");
    slot[32..HEAD].copy_from_slice(&head(number, sheet));
    slot[HEAD..HEAD + sheet.len()].copy_from_slice(sheet);
    slot
}

fn both(first: &[u8], second: &[u8]) -> Vec<u8> {
    [first, second].concat()
}

/// The second line of the text.
fn second(first: &[u8], second: &[u8]) -> String {
    text(&both(first, second)).lines().nth(1).unwrap().to_string()
}

#[test]
fn sums() {
    assert_eq!(sum(b"123456789"), 0xCBF4_3926);
    assert_eq!(sum(b""), 0);
}

const TWO: &str = "slot 0, bytes 0 to 255: number 7, a sheet of 69 bytes, whole
slot 1, bytes 256 to 511: number 8, a sheet of 69 bytes, whole; this one counts
the next save goes to slot 0 under number 9
";

const NEW: &str = "slot 0, bytes 0 to 255: no mark (erased), and nothing else: never written, or a save was cut after its erase
slot 1, bytes 256 to 511: no mark (zeros), and nothing else: never written, or a save was cut after its erase
neither counts: a unit starts as a new one
the next save goes to slot 0 under number 0
";

#[test]
fn by_hand() {
    let (old, new) = (slot(ROOM, 7, &SAMPLE), slot(ROOM, 8, &with_height(1250)));
    assert_eq!(text(&both(&old, &new)), TWO);
    assert_eq!(text(&both(&[0xFF; ROOM], &[0; ROOM])), NEW);
    // the numbers go round
    let last = slot(ROOM, u32::MAX, &SAMPLE);
    let around = text(&both(&slot(ROOM, 0, &SAMPLE), &last));
    assert!(around.contains("number 0, a sheet of 69 bytes, whole; this one counts\n"), "{around}");
    assert!(around.ends_with("slot 1 under number 1\n"), "{around}");
    // as no saves leave them
    let apart = text(&both(&old, &slot(ROOM, 12, &SAMPLE)));
    assert!(
        apart.contains("slot 0 counts then\n") && apart.contains("under number 8\n"),
        "{apart}"
    );
    // a dump that was cut out wrongly
    let cut = [&old[..], &new[..40]].concat();
    let said =
        "the mark stands at byte 256 too, where no half begins: are these two slots of one length?";
    assert_eq!(text(&cut).lines().last(), Some(said));
    // a store is kept the same way
    let mut versions = vec![0; 100];
    let empty = second(&old, &slot(ROOM, 8, &versions));
    assert!(empty.contains("100 bytes of zeros, as of an empty store, whole"), "{empty}");
    store::save(Fault::None, &SAMPLE, &mut versions);
    let kept = second(&old, &slot(ROOM, 8, &versions));
    assert!(kept.contains("number 8, a store of versions of 100 bytes, whole"), "{kept}");
}

/// What is done to a slot that was whole.
type Change<'a> = &'a dyn Fn(&mut [u8]);

#[test]
fn torn() {
    let (old, new) = (slot(ROOM, 7, &SAMPLE), slot(ROOM, 8, &with_height(1250)));
    let cut = |change: &dyn Fn(&mut [u8])| {
        let mut torn = new.clone();
        change(&mut torn);
        let line = second(&old, &torn);
        line.strip_prefix("slot 1, bytes 256 to 511: ").unwrap().to_string()
    };
    let whole = "number 8, a sheet of 69 bytes, whole";
    let cases: [(Change, String); 8] = [
        (&|b| b[..6].fill(0), format!("no mark (zeros); {whole}: its save was cut before the mark was set")),
        (&|b| b[..32].fill(0xFF), format!("no mark (erased); {whole}: its save was cut before the mark was set")),
        (&|b| b[5] = 0xFF, format!("no mark: torn (4b 45 4c 49 4e ff); {whole}: its save was cut before the mark was set")),
        (&|b| b[..].fill(0xFF), "no mark (erased), and nothing else: never written, or a save was cut after its erase".into()),
        (
            &|b| {
                b[..64].fill(0xFF);
            },
            "no mark (erased); no head: a save was cut before its head was written".into(),
        ),
        (
            &|b| {
                b[..32].fill(0xFF);
                b[100..].fill(0xFF);
            },
            format!("no mark (erased); torn: its head states the check sum {:08x}, and its bytes have {:08x}: a save was cut while it wrote head or sheet", long(&new, 32), {
                let mut torn = new.clone();
                torn[100..].fill(0xFF);
                sum(&torn[36..64 + 69])
            }),
        ),
        (&|b| b[40] = 9, "marked, but torn: its head states 150995013 bytes, and there is room for 192".into()),
        (
            &|b| b[64 + 68] ^= 1,
            format!("marked, but torn: its head states the check sum {:08x}, and its bytes have {:08x}", long(&new, 32), {
                let mut torn = new.clone();
                torn[64 + 68] ^= 1;
                sum(&torn[36..64 + 69])
            }),
        ),
    ];
    for (change, said) in cases {
        assert_eq!(cut(change), said);
    }
    // the older one, unmarked by a save that was then cut
    let mut older = slot(ROOM, 6, &SAMPLE);
    older[..32].fill(0);
    let said =
        "no mark (zeros); number 6, a sheet of 69 bytes, whole: unmarked for a save that was cut";
    assert!(second(&old, &older).ends_with(said));
}

fn long(bytes: &[u8], at: usize) -> u32 {
    u32::from_be_bytes(bytes[at..at + 4].try_into().unwrap())
}

/// What docs/SLOTS.md shows is so: the front of the sample's slot, and a dump of a save that was cut.
#[test]
fn documented() {
    let document = include_str!("../../../docs/SLOTS.md");
    let line = |bytes: &[u8]| {
        let words: Vec<String> = bytes.iter().map(|b| format!("{b:02x}")).collect();
        format!("    {}  {}\n", words[..16].join(" "), words[16..].join(" "))
    };
    let front = slot(ROOM, 7, &SAMPLE);
    assert!(document.contains(&(line(&front[..32]) + &line(&front[32..64]))));
    let mut cut = slot(ROOM, 8, &with_height(1250));
    cut[..32].fill(0xFF);
    for said in text(&both(&front, &cut)).lines() {
        assert!(document.contains(&format!("    {said}\n")), "{said}");
    }
}

/// The order of judging, and where two fit.
#[test]
fn judged() {
    let good = slot(ROOM, 5, &SAMPLE);
    let held = Slot(&good).held().unwrap();
    assert_eq!((held.number, held.bytes), (5, &SAMPLE[..]));
    assert_eq!(Slot(&good[..63]).held(), Err(Refusal::Short));
    assert_eq!(Slot(&good[..64 + 68]).held(), Err(Refusal::Length(69)));
    assert!(Slot(&good[..64 + 69]).held().is_ok());
    let most = slot(64 + 32_769, 5, &[7; 32_769]);
    assert_eq!(Slot(&most).held(), Err(Refusal::Length(32_769)));
    assert!(Slot(&slot(64 + 32_768, 5, &[7; 32_768])).held().is_ok());
}

/// A save cut after each of its bytes, whatever stands in the byte that was torn: the old sheet until the mark is whole, then the new
/// one; and the text tells it.
#[test]
fn every_cut() {
    for seed in 0..40 {
        let rng = &mut Rng::new(seed);
        let mut draw = || loop {
            let sheet = gen::sheet(rng);
            if sheet.len() <= 400 {
                break sheet;
            }
        };
        let (old, new, before) = (draw(), draw(), draw());
        let room = HEAD + 400;
        let (first, n) = (slot(room, 1 + seed as u32, &old), 2 + seed as u32);
        let mut work: Vec<(usize, u8)> = (0..32).map(|at| (at, 0)).collect();
        work.extend((0..room).map(|at| (at, 0xFF)));
        work.extend((32..).zip(head(n, &new)));
        work.extend((HEAD..).zip(new.iter().copied()));
        let marks = work.len();
        work.extend((0..).zip(*b"KELIND"));
        for cut in 0..=work.len() {
            let mut second = slot(room, seed as u32, &before);
            for &(at, to) in &work[..cut] {
                second[at] = to;
            }
            if let Some(&(at, _)) = work.get(cut).filter(|_| cut % 3 == 0) {
                second[at] = Rng::new(cut as u64).byte() | 1; // torn; of the mark only its last byte is even
            }
            let dump = both(&first, &second);
            let due = if cut < marks + 6 { &old } else { &new };
            assert_eq!(Medium::of(&dump).held().unwrap().bytes, due, "seed {seed}, cut {cut}");
            assert_eq!(&kept(dump.clone()).unwrap(), due);
            assert_eq!(kinds::of(&dump), Some(File::Medium));
            assert_eq!(text(&dump).matches("this one counts").count(), 1);
            assert_eq!(text(&dump).lines().count(), 3, "{}", text(&dump));
        }
    }
}

// ---- the program ----

fn room(name: &str) -> PathBuf {
    let room = PathBuf::from(env!("CARGO_TARGET_TMPDIR")).join(name);
    let _ = fs::remove_dir_all(&room);
    fs::create_dir_all(room.join("dumps")).unwrap();
    let write = |name: &str, bytes: &[u8]| fs::write(room.join(name), bytes).unwrap();
    let (old, new) = (slot(ROOM, 7, &SAMPLE), slot(ROOM, 8, &with_height(1250)));
    write("sample", &SAMPLE);
    write("medium", &both(&old, &new));
    write("dumps/unit.flash", &both(&old, &new));
    let mut torn = old.clone();
    torn[70] ^= 1;
    write("torn", &both(&torn, &[0xFF; ROOM]));
    write("dumps/torn.flash", &both(&torn, &[0xFF; ROOM]));
    write("blank", &[0xFF; 2 * ROOM]);
    write("odd", &[0xFF; 2 * ROOM + 1]);
    write("small", &[0xFF; 126]);
    let mut versions = vec![0; 100];
    store::save(Fault::None, &SAMPLE, &mut versions);
    write("store", &both(&slot(ROOM, 3, &[0; 100]), &slot(ROOM, 4, &versions)));
    // two sectors of 256 KB, more than any other file that is read
    let mut sector = slot(1 << 18, 8, &with_height(1250));
    let mut first = sector.clone();
    first[..32].fill(0);
    sector[200..].fill(0xFF);
    write("sectors", &both(&first, &sector));
    room
}

fn told(room: &PathBuf, words: &[&str]) -> (i32, String, String) {
    let program = env!("CARGO_BIN_EXE_sheet");
    let got =
        Command::new(program).args(words).current_dir(room).stdin(Stdio::null()).output().unwrap();
    let text = |bytes| String::from_utf8(bytes).unwrap();
    (got.status.code().unwrap(), text(got.stdout), text(got.stderr))
}

fn said(status: i32, out: &str, err: &str) -> (i32, String, String) {
    (status, out.to_string(), err.to_string())
}

#[test]
fn commands() {
    let room = room("slots");
    let told = |words: &[&str]| told(&room, words);
    assert_eq!(told(&["slots", "medium"]), said(0, TWO, ""));
    let (status, out, _) = told(&["slots", "torn"]);
    assert!(status == 1 && out.contains("neither counts"), "{status} {out}");
    let (status, out, _) = told(&["slots", "blank"]);
    assert!(status == 1 && out.contains("a unit starts as a new one"), "{status} {out}");
    let halves = "are no two slots: each is a half of a dump, and has 64 at least\n";
    assert_eq!(told(&["slots", "odd"]), said(2, "", &format!("sheet: odd: 513 bytes {halves}")));
    assert_eq!(
        told(&["slots", "small"]),
        said(2, "", &format!("sheet: small: 126 bytes {halves}"))
    );
    let sheet = "sheet: sample: this is a sheet, and a dump of a medium is wanted\n";
    assert_eq!(told(&["slots", "sample"]), said(2, "", sheet));
    let (status, out, _) = told(&["slots", "sectors"]);
    assert!(
        status == 0 && out.contains("slot 1, bytes 262144 to 524287: number 8"),
        "{status} {out}"
    );

    let slot = |k: usize, height: u32| {
        format!("{{\"slot\":{k},\"from\":{},\"room\":256,\"whole\":true,\"number\":{height},\"length\":69,\"kind\":\"a sheet\",\"told\":\"number {height}, a sheet of 69 bytes, whole\"}}", 256 * k)
    };
    let object = format!("{{\"file\":\"medium\",\"counts\":1,\"slots\":[{},{}],\"next\":{{\"slot\":0,\"number\":9}}}}\n", slot(0, 7), slot(1, 8));
    assert_eq!(told(&["slots", "--json", "medium"]), said(0, &object, ""));
    let (status, out, _) = told(&["slots", "--json", "torn"]);
    assert!(
        status == 1
            && out.contains("\"counts\":null")
            && out.contains("\"whole\":false,\"number\":null"),
        "{out}"
    );

    // in place of a sheet
    assert_eq!(told(&["check", "medium"]), said(0, "OK\n", ""));
    assert_eq!(told(&["check", "sectors"]), said(0, "OK\n", ""));
    let (status, out, err) = told(&["show", "medium"]);
    assert!(status == 0 && err.is_empty() && out.contains("    1250\n"), "{out}{err}");
    let changed = "property 1/51 element 1: 1000 → 1250\n";
    assert_eq!(told(&["diff", "sample", "medium"]), said(1, changed, ""));
    assert_eq!(told(&["diff", "sectors", "medium"]), said(0, "", ""));
    let neither = "sheet: torn: a dump of a medium, of which neither slot counts: slots says why\n";
    for command in ["check", "show", "versions"] {
        assert_eq!(told(&[command, "torn"]), said(2, "", neither));
    }
    let (status, out, _) = told(&["survey", "dumps", "--reference", "medium"]);
    assert_eq!(status, 1);
    assert!(out.contains("torn.flash") && out.contains("of which neither slot counts"), "{out}");
    let (_, out, _) = told(&["survey", "dumps", "--reference", "sample"]);
    assert!(out.contains("property 1/51 element 1: 1000 → 1250"), "{out}");

    // in place of a store
    let (status, out, err) = told(&["versions", "store"]);
    assert!(
        status == 0 && err.is_empty() && out.starts_with("1 version, last number 1, 100 bytes"),
        "{out}{err}"
    );
    assert_eq!(told(&["versions", "diff", "store", "1", "medium"]), said(1, changed, ""));
    let wanted = "sheet: store: this is a store of versions, and a sheet is wanted\n";
    assert_eq!(told(&["check", "store"]), said(2, "", wanted));
}
