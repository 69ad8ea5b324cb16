//! Instructions of each request of the benchmark on boards, which count them.

#[allow(dead_code)] // the outcomes, which the benchmark looks at
#[path = "../../bench/src/cases.rs"]
mod cases;

use cases::{benches, Ask, Bench, SESSION};

use crate::play::Play;
use crate::Bridge;

const TIMES: u32 = 1000;

/// The instructions of one request, or of the check of the sheet.
fn measure(bridge: &mut Bridge, bench: &Bench, ask: &Ask) -> Option<f64> {
    let mut wire = Vec::new();
    Play::Sheet(bench.sheet.clone()).send(&mut wire);
    Play::Found(0, SESSION).send(&mut wire);
    let request = matches!(ask, Ask::Request { .. });
    wire.push(if request { b't' } else { b'T' });
    wire.extend(TIMES.to_le_bytes());
    if let Ask::Request { mode, apdu } = ask {
        wire.extend([*mode, 0]);
        wire.extend(bench.group.to_le_bytes());
        wire.extend((apdu.len() as u16).to_le_bytes());
        wire.extend(apdu);
        wire.extend(16u16.to_le_bytes());
        wire.extend([0; 16]);
    }
    bridge.send(wire);
    let got = bridge.receive(9 + 4 + 8);
    let taken = got.get(9 + 4..).and_then(|b| b.try_into().ok()).map(u64::from_le_bytes)?;
    Some(taken as f64 / TIMES as f64)
}

/// A row for each case, a column for each board.
pub fn times(programs: &[String]) -> bool {
    let mut bridges: Vec<Bridge> = programs.iter().map(|program| Bridge::start(program)).collect();
    let mut good = true;
    // the sample and the full sheet; the lookups alone are the benchmark's
    for bench in benches().iter().take(2) {
        for case in &bench.cases {
            print!("{:6} {:24}", bench.name, case.name);
            for bridge in &mut bridges {
                match measure(bridge, bench, &case.ask) {
                    Some(n) => print!(" {n:9.0}"),
                    None => {
                        good = false;
                        print!("         -");
                    }
                }
            }
            println!();
        }
    }
    good
}
