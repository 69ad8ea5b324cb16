//! Milliseconds of a survey of four hundred of the longest sheets, read from files as `sheet survey` reads them: those of a
//! plant, some forty bytes in each other than the reference's; and the worst, every byte of memory in each another.

use std::fs;
use std::hint::black_box;
use std::time::Instant;

use sheet::layout::{Levels, Region, Sheet, LONGEST};
use sheet::survey::{survey, Wanted, HEIGHT};

const UNITS: u32 = 400;

/// The longest sheet: one region of memory.
fn reference() -> Sheet {
    let body = vec![0; LONGEST - 40];
    Sheet {
        edition: 2,
        rules: 0,
        serial: [0; 6],
        mask: [7, 0xB0],
        programming: false,
        verify: true,
        address: 0x1105,
        keys: [[1; 4], [2; 4], [3; 4]],
        regions: vec![Region { address: 0, levels: Levels { read: 3, write: 2 }, body }],
        properties: Vec::new(),
        groups: Vec::new(),
        users: Vec::new(),
    }
}

/// A unit's dump: its own serial number, address and keys, and so many bytes of memory other than the reference's.
fn unit(number: u32, bytes: usize) -> Vec<u8> {
    let mut sheet = reference();
    let [.., high, low] = number.to_be_bytes();
    sheet.serial[4..].copy_from_slice(&[high, low]);
    sheet.address = number as u16;
    sheet.keys = [0, 1, 2].map(|level| (1000 * (level + 1) + number).to_be_bytes());
    let body = &mut sheet.regions[0].body;
    let mut at = number as usize;
    for _ in 0..bytes {
        at = (at + 7919) % body.len(); // a prime: no byte twice before all were met
        body[at] = low | 1;
    }
    sheet.bytes()
}

fn main() {
    let folder = std::env::temp_dir().join(format!("kelindap-survey-{}", std::process::id()));
    let reference = reference().bytes();
    for (what, bytes) in [("forty bytes in each", 40), ("every byte in each", LONGEST - 40)] {
        fs::create_dir_all(&folder).expect("a folder for the dumps");
        for number in 0..UNITS {
            fs::write(folder.join(number.to_string()), unit(number, bytes)).expect("a dump");
        }
        let mut best = f64::MAX;
        for _ in 0..5 {
            let clock = Instant::now();
            let dump = |number: u32| {
                let name = number.to_string();
                let bytes = fs::read(folder.join(&name)).expect("the dump");
                Ok((name, bytes))
            };
            let wanted = Wanted { height: HEIGHT, bound: None };
            let found = survey(("reference", &reference), (0..UNITS).map(dump), wanted);
            let text = found.expect("a good reference").text();
            assert!(black_box(text).starts_with("400 units beside reference: 400 accepted"));
            best = best.min(clock.elapsed().as_secs_f64() * 1000.0);
        }
        println!("a survey of {UNITS} sheets of {LONGEST} bytes, {what} another: {best:.0} ms");
        fs::remove_dir_all(&folder).expect("the folder is removed");
    }
}
