//! The library's verdict and its conversion, asked of the desk unit whose path the environment has as UNIT: on the same random
//! sheets the same. `make test-tools` gives the path; without one this test has nothing to say.

use std::io::{BufRead, BufReader, Write};
use std::process::{Command, Stdio};

use model::gen::{any_sheet, Rng};
use sheet::check::{check, OLD};
use sheet::convert::converted;
use sheet::layout::hex;

const SHEETS: u64 = 12_000;

#[test]
fn same_verdict() {
    let Some(unit) = std::env::var_os("UNIT") else {
        eprintln!("no UNIT is given: not held against the library");
        return;
    };
    let mut unit = Command::new(unit).stdin(Stdio::piped()).stdout(Stdio::piped()).spawn().unwrap();
    let mut lines = unit.stdin.take().unwrap();
    let sheets = || (0..SHEETS).map(|seed| any_sheet(&mut Rng::new(0x5EED + seed)));
    let writer = std::thread::spawn(move || {
        for sheet in sheets() {
            let digits = if sheet.is_empty() { "-".to_string() } else { hex(&sheet) };
            writeln!(lines, "sheet {digits}\nconvert").unwrap();
        }
    });
    let mut answers = BufReader::new(unit.stdout.take().unwrap()).lines();
    let mut compared = 0;
    for sheet in sheets() {
        let own = match check(&sheet) {
            Ok(()) => "OK".to_string(),
            Err(old) if old.rule == OLD => "OLD".to_string(),
            Err(broken) => format!("S{}", broken.rule),
        };
        assert_eq!(own, answers.next().unwrap().unwrap(), "sheet {}", hex(&sheet));
        let digits = |sheet: &[u8]| if sheet.is_empty() { "-".to_string() } else { hex(sheet) };
        let own = converted(&sheet)
            .map_or_else(|_| format!("4 {}", digits(&sheet)), |new| format!("1 {}", digits(&new)));
        assert_eq!(own, answers.next().unwrap().unwrap(), "convert {}", hex(&sheet));
        compared += 1;
    }
    writer.join().unwrap();
    assert!(unit.wait().unwrap().success());
    assert_eq!(compared, SHEETS);
}
