//! Instructions per request, counted by valgrind's callgrind in one process that
//! plays every case on every side. Whenever `bench_mark` is entered callgrind
//! writes its count since the last time; from each count that of the side that
//! does nothing is taken off.

use std::fs;
use std::hint::black_box;
use std::path::Path;
use std::process::Command;

use crate::cases::Bench;
use crate::sides::Side;
use crate::{for_each_case, Ready};

const TIMES: usize = 1000;
const SIDES: [Side; 3] = [Side::Proved, Side::Plain, Side::Nothing];

#[no_mangle]
#[inline(never)]
extern "C" fn bench_mark() {
    black_box(());
}

/// Under callgrind: every case on every side, `TIMES` times, between two marks.
pub fn play(benches: &[Bench]) {
    bench_mark();
    for_each_case(benches, |bench, case| {
        for side in SIDES {
            Ready::new(side, bench, case).run(TIMES);
            bench_mark();
        }
    });
}

/// `None` if there is no valgrind.
pub fn measure(benches: &[Bench]) -> Option<Vec<[f64; 2]>> {
    let room = std::env::temp_dir().join(format!("kelindap-bench-{}", std::process::id()));
    fs::create_dir_all(&room).ok()?;
    let cases = benches.iter().map(|b| b.cases.len()).sum();
    let counts = counted(&room, cases);
    let _ = fs::remove_dir_all(&room);
    counts
}

fn counted(room: &Path, cases: usize) -> Option<Vec<[f64; 2]>> {
    let out = room.join("out");
    let mut valgrind = Command::new("valgrind");
    valgrind.args(["--tool=callgrind", "--dump-before=bench_mark"]);
    valgrind.arg(format!("--callgrind-out-file={}", out.display()));
    let done = valgrind.arg(std::env::current_exe().ok()?).arg("--play").output().ok()?;
    // the first count is of the start
    let total = |k: usize| -> Option<f64> {
        let said = fs::read_to_string(room.join(format!("out.{}", k + 2))).ok()?;
        said.lines().find_map(|l| l.strip_prefix("totals: "))?.trim().parse().ok()
    };
    let row = |k: usize| -> Option<[f64; 2]> {
        let nothing = total(3 * k + 2)?;
        Some([total(3 * k)?, total(3 * k + 1)?].map(|n| (n - nothing) / TIMES as f64))
    };
    done.status.success().then(|| (0..cases).map(row).collect())?
}
