//! The words of PDUs, asked of the desk unit whose path the environment has as UNIT, and of the stored run of the proved
//! program that plays traces. `make test-tools` gives the path; without one the first test has nothing to say.

use std::io::{BufRead, BufReader, Write};
use std::process::{Command, Stdio};

use model::gen::{ask, sheet, Rng};
use sheet::layout::hex;
use trace::events;
use trace::play::{play, Trace};
use trace::times::Known;
use trace::words;

const REQUESTS: u64 = 5_000;

#[test]
fn same_words() {
    let Some(unit) = std::env::var_os("UNIT") else {
        eprintln!("no UNIT is given: not held against the desk unit");
        return;
    };
    let mut unit = Command::new(unit).stdin(Stdio::piped()).stdout(Stdio::piped()).spawn().unwrap();
    let mut lines = unit.stdin.take().unwrap();
    let all = || {
        (0..REQUESTS).map(|seed| {
            let mut rng = Rng::new(seed);
            let sheet = sheet(&mut rng);
            ask(&mut rng, &sheet).apdu
        })
    };
    let writer = std::thread::spawn(move || {
        for apdu in all() {
            let digits = if apdu.is_empty() { "-".to_string() } else { hex(&apdu) };
            writeln!(lines, "read {digits}").unwrap();
        }
    });
    let answers = BufReader::new(unit.stdout.take().unwrap()).lines();
    let mut read = 0;
    for (apdu, answer) in all().zip(answers) {
        let answer = answer.unwrap();
        let own = words::pdu(&apdu, true);
        match answer.strip_prefix("0 ") {
            Some(words) => {
                read += 1;
                assert_eq!(own, words, "{}", hex(&apdu));
            }
            None => assert!(own.ends_with(&format!("({answer})")), "{own}, not {answer}"),
        }
    }
    writer.join().unwrap();
    assert!(unit.wait().unwrap().success());
    assert!(read > 1000, "{read}");
}

/// What `play` writes, but for its comments, is what the proved program wrote of the same sheet and trace.
#[test]
fn as_the_proved_program() {
    let folder = concat!(env!("CARGO_MANIFEST_DIR"), "/../../crates/trace_play/");
    let input = std::fs::read(folder.to_string() + "stdin").unwrap();
    let stored = std::fs::read_to_string(folder.to_string() + "stdout").unwrap();
    let (sheet, bytes) = input.split_at(usize::from(input[4]) * 256 + usize::from(input[5]));
    let events = events::read(bytes).unwrap();
    let known = vec![Known::default(); events.len()];
    let traces = [Trace {
        name: "stored".to_string(),
        bytes: bytes.to_vec(),
        events,
        known,
        evidence: None,
    }];
    let text = play(sheet, &traces).text(sheet, &traces, true);
    let bare = |line: &str| line.split("  #").next().unwrap().to_string() + "\n";
    assert_eq!(text.lines().map(bare).collect::<String>(), stored);
}
