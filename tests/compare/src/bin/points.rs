//! points UNIT [OTHERS]: the desk unit's group values against the model. Every code
//! of type 9 is read; every number that is a result, a middle between two
//! results, or beside one of these is written, and so many others, a million if
//! not given.

use model::gen::Rng;
use model::points::{read, Codes, Point, GREATEST, LEAST};
use std::io::{BufRead, BufReader, BufWriter, Write};
use std::process::{Command, ExitCode, Stdio};

fn hex(bytes: &[u8]) -> String {
    if bytes.is_empty() {
        return "-".into();
    }
    bytes.iter().map(|b| format!("{b:02x}")).collect()
}

fn shown(point: Point) -> (u8, String) {
    match point {
        Point::Switch(on) => (1, (on as u8).to_string()),
        Point::Byte(n) => (5, n.to_string()),
        Point::Hundredths(x) => (9, x.to_string()),
        Point::Float(bits) => (14, format!("{bits:08x}")),
    }
}

/// Commands with the answers due.
struct Script {
    codes: Codes,
    lines: Vec<(String, String)>,
}

impl Script {
    fn read(&mut self, kind: u8, bytes: &[u8]) {
        let due = match read(kind, bytes) {
            Ok(point) => format!("0 {}", shown(point).1),
            Err(n) => n.to_string(),
        };
        self.lines.push((format!("point read {kind} {}", hex(bytes)), due));
    }

    fn write(&mut self, point: Point) {
        let (kind, value) = shown(point);
        let due = match self.codes.write(point) {
            Ok(bytes) => format!("0 {}", hex(&bytes)),
            Err(n) => n.to_string(),
        };
        self.lines.push((format!("point write {kind} {value}"), due));
    }

    fn around(&mut self, x: i64) {
        for y in x - 1..=x + 1 {
            self.write(Point::Hundredths(y as i32));
        }
    }
}

fn numbers(script: &mut Script, random: &mut Rng, others: usize) {
    let results: Vec<i64> = script.codes.results().map(i64::from).collect();
    for pair in results.windows(2) {
        script.around(pair[0]);
        let sum = pair[0] + pair[1];
        script.around(sum.div_euclid(2));
        script.write(Point::Hundredths((sum.div_euclid(2) + 2) as i32));
    }
    for x in [LEAST as i64, GREATEST as i64, i32::MIN as i64 + 1, i32::MAX as i64 - 1] {
        script.around(x);
    }
    let span = GREATEST as i64 - LEAST as i64 + 1;
    for _ in 0..others / 5 * 4 {
        let x = LEAST as i64 + (random.draw() % span as u64) as i64;
        script.write(Point::Hundredths(x as i32));
    }
    // smaller numbers, by their size in bits
    for _ in 0..others / 5 {
        let r = random.draw();
        script.write(Point::Hundredths(r as i32 >> (r >> 32 & 31)));
    }
}

fn others(script: &mut Script, random: &mut Rng) {
    for n in 0..=255 {
        script.read(1, &[n]);
        script.read(5, &[n]);
        script.write(Point::Byte(n));
        script.read(n, &[0]);
        script.read(n, &[0, 1]);
        script.read(n, &[0, 1, 2]);
        script.read(n, &[0, 1, 2, 3]);
        script.read(n, &[]);
    }
    script.write(Point::Switch(false));
    script.write(Point::Switch(true));
    let edges = [
        0,
        1,
        0x007F_FFFF,
        0x0080_0000,
        0x7F7F_FFFF,
        0x7F80_0000,
        0x7F80_0001,
        0x7FC0_0000,
        0x7FFF_FFFF,
    ];
    let floats = edges.into_iter().flat_map(|b| [b, b | 0x8000_0000]);
    for bits in floats.chain((0..20_000).map(|_| random.draw() as u32)).collect::<Vec<u32>>() {
        script.read(14, &bits.to_be_bytes());
        script.write(Point::Float(bits));
    }
}

/// Plays the script on the unit; the number of answers that differ.
fn play(unit: &str, lines: &[(String, String)]) -> std::io::Result<usize> {
    let mut child = Command::new(unit).stdin(Stdio::piped()).stdout(Stdio::piped()).spawn()?;
    let mut to = BufWriter::new(child.stdin.take().unwrap());
    let mut from = BufReader::new(child.stdout.take().unwrap());
    let different = std::thread::scope(|scope| {
        scope.spawn(move || lines.iter().try_for_each(|(command, _)| writeln!(to, "{command}")));
        let mut different = 0;
        let mut got = String::new();
        for (command, due) in lines {
            got.clear();
            if from.read_line(&mut got).unwrap_or(0) == 0 {
                println!("points: the unit ended at: {command}");
                return different + 1;
            }
            if got.trim_end() != due {
                different += 1;
                if different <= 10 {
                    println!("points: {command}: due {due}, got {}", got.trim_end());
                }
            }
        }
        different
    });
    child.wait()?;
    Ok(different)
}

fn main() -> ExitCode {
    let mut words = std::env::args().skip(1);
    let unit = words.next();
    let count = words.next().map_or(Ok(1_000_000), |word| word.parse());
    let (Some(unit), Ok(count)) = (unit, count) else {
        eprintln!("usage: points UNIT [OTHERS]");
        return ExitCode::from(2);
    };
    let mut script = Script { codes: Codes::default(), lines: Vec::new() };
    let mut random = Rng::new(104);
    for code in 0..=u16::MAX {
        script.read(9, &code.to_be_bytes());
    }
    others(&mut script, &mut random);
    numbers(&mut script, &mut random, count);
    match play(&unit, &script.lines) {
        Ok(different) => {
            println!("points: {} values, {different} different", script.lines.len());
            if different == 0 {
                ExitCode::SUCCESS
            } else {
                ExitCode::FAILURE
            }
        }
        Err(e) => {
            println!("points: {unit}: {e}");
            ExitCode::FAILURE
        }
    }
}
