//! What has been seen, held against what can be.

use model::matrix::{self, ROWS};
use model::sheet::OLD;

use crate::flat::{kind_name, KINDS};
use crate::play::Play;

/// Counts of the library's own replies.
#[derive(Default)]
pub struct Tally {
    /// By rules, service, column of the mode, and outcome.
    requests: [Vec<[[u64; 256]; 5]>; 2],
    /// The calls on the sheet alone, in the order of `matrix::SHEET`.
    sheet: [Counts; 3],
    /// By outcome; a kind that reads well is counted in `kinds`.
    reads: Counts,
    kinds: Counts,
    /// By kind and outcome; unknown kinds come last.
    writes: Vec<Counts>,
    /// Without and with a part.
    lookups: [u64; 2],
    /// Connect and disconnect, by outcome.
    named: [Counts; 2],
    /// The calls on a store, in the order of `matrix::STORE`.
    store: [Counts; 5],
    /// Traces checked, and played, in the order of `matrix::TRACE`; and the events handled.
    trace: [Counts; 2],
    handled: u64,
    marked: u64,
    /// Frames heard, served, and the outcomes of events served, in the order of `matrix::LINK`; and frames sent.
    link: [Counts; 3],
    sent: u64,
    /// Sessions as found or fresh.
    others: u64,
    /// The hashes of the blocks of replies so far, in one.
    pub blocks: u64,
    /// The bridge did not end well.
    pub ended_badly: bool,
}

struct Counts([u64; 256]);

impl Default for Counts {
    fn default() -> Counts {
        Counts([0; 256])
    }
}

impl Counts {
    fn sum(&self) -> u64 {
        self.0.iter().sum()
    }

    /// Complains about each number that should have been seen and was not,
    /// if all `must`, and about each that should not and was.
    fn judge(&self, what: &str, can: &[usize], must: bool, complaints: &mut Vec<String>) {
        for (k, &seen) in self.0.iter().enumerate() {
            if seen > 0 && !can.contains(&k) {
                complaints.push(format!("{what}: {k} can't be, and was {seen} times"));
            }
            if seen == 0 && must && can.contains(&k) {
                complaints.push(format!("{what}: {k} can be, and never was"));
            }
        }
    }
}

impl Tally {
    /// A reply to a play on a sheet of these rules.
    pub fn count(&mut self, rules: u8, play: &Play, reply: &[u8]) {
        match play {
            Play::Sheet(_) | Play::Poke(..) | Play::Check => {
                self.sheet[0].0[reply[0] as usize] += 1;
            }
            Play::Button(_) => self.sheet[1].0[reply[0] as usize] += 1,
            Play::Convert => self.sheet[2].0[reply[0] as usize] += 1,
            Play::Request(ask) => {
                let requests = &mut self.requests[rules as usize];
                requests.resize(ROWS.len(), [[0; 256]; 5]);
                let (row, column) = (matrix::row(&ask.apdu), matrix::column(ask.way.mode));
                requests[row][column][reply[0] as usize] += 1;
            }
            Play::Property(..) | Play::Region(..) | Play::Group(_) => {
                self.lookups[(reply[8..16] != [0; 8]) as usize] += 1;
            }
            Play::Read(_) => {
                self.reads.0[reply[20] as usize] += 1;
                if reply[20] == 0 {
                    self.kinds.0[reply[21] as usize] += 1;
                }
            }
            Play::Write(flat, ..) => {
                self.writes.resize_with(KINDS.len() + 1, Counts::default);
                let kind = KINDS.len().min(flat.kind as usize);
                self.writes[kind].0[reply[0] as usize] += 1;
            }
            Play::Connect(_) => self.named[0].0[reply[0] as usize] += 1,
            Play::Disconnect(_) => self.named[1].0[reply[0] as usize] += 1,
            Play::Store(_) => self.store[0].0[reply[0] as usize] += 1,
            Play::Save => self.store[1].0[reply[0] as usize] += 1,
            Play::Restore(..) => self.store[2].0[reply[0] as usize] += 1,
            Play::Remove(_) => self.store[3].0[reply[0] as usize] += 1,
            Play::Versions => self.store[4].0[usize::from(reply[..4] != [0; 4])] += 1,
            Play::Trace(_) => self.trace[0].0[reply[0] as usize] += 1,
            Play::Pieces(..) => {
                self.trace[1].0[reply[0] as usize] += 1;
                self.handled += u64::from(u16::from_le_bytes([reply[1], reply[2]]));
            }
            Play::Heard(_) => {
                let number = if reply[0] < 6 { 0 } else { reply[0] };
                self.link[0].0[number as usize] += 1;
            }
            Play::Serve(..) => {
                self.link[1].0[reply[0] as usize] += 1;
                if reply[0] == 0 {
                    self.link[2].0[reply[1] as usize] += 1;
                }
                self.sent += u64::from(reply[3] > 0);
            }
            Play::Marked(..) => {
                self.marked += 1;
                self.handled += u64::from(u16::from_le_bytes([reply[1], reply[2]]));
            }
            _ => self.others += 1,
        }
    }

    pub fn add_block(&mut self, hash: u64) {
        self.blocks = self.blocks.rotate_left(7) ^ hash;
    }

    pub fn summary(&self) -> String {
        let rarest =
            self.rarest().map_or(String::new(), |(n, what)| format!("; rarest: {what}, {n} times"));
        format!(
            "{} requests, {} other calls, {} sheets ({} accepted, {} old), {} conversions, {} lookups, {} PDUs read, {} written, {} saves, {} restores, {} removes, {} traces of which {} events were played in {} pieces, {} of them with marks, {} frames heard, {} served, {} of them answered{rarest}",
            self.requests.iter().flatten().flatten().flatten().sum::<u64>(),
            self.others + self.sheet[1].sum() + self.named.iter().map(Counts::sum).sum::<u64>(),
            self.sheet[0].sum(),
            self.sheet[0].0[0],
            self.sheet[0].0[OLD as usize],
            self.sheet[2].sum(),
            self.lookups.iter().sum::<u64>(),
            self.reads.sum(),
            self.writes.iter().map(Counts::sum).sum::<u64>(),
            self.store[1].sum(),
            self.store[2].sum(),
            self.store[3].sum(),
            self.trace[0].sum(),
            self.handled,
            self.trace[1].sum() + self.marked,
            self.marked,
            self.link[0].sum(),
            self.link[1].sum(),
            self.sent,
        )
    }

    /// Each cell of the matrix: its name, what was seen, and the outcomes that can be.
    fn cells(&self) -> impl Iterator<Item = (String, &[u64; 256], Vec<usize>)> {
        let rows = |rules: usize| self.requests[rules].iter().zip(&ROWS).enumerate();
        (0..2).flat_map(move |rules| {
            rows(rules).flat_map(move |(row, (seen, (name, _)))| {
                let cells = matrix::cells(rules as u8, row);
                seen.iter().zip(cells).enumerate().map(move |(column, (seen, can))| {
                    let what = format!("{name} in mode {column} under rules {rules}");
                    (what, seen, (0..16).filter(|k| can >> k & 1 != 0).collect())
                })
            })
        })
    }

    /// The outcome of a request that was seen least of those that can be.
    fn rarest(&self) -> Option<(u64, String)> {
        let outcomes = |(what, seen, can): (String, &[u64; 256], Vec<usize>)| {
            let least = can.into_iter().min_by_key(|&k| seen[k])?;
            Some((seen[least], format!("{what}, outcome {least}")))
        };
        self.cells().filter_map(outcomes).min()
    }

    /// What was seen and can't be; with `must`, also what was not and can.
    pub fn complaints(&self, must: bool) -> Vec<String> {
        let mut complaints = Vec::new();
        for (what, seen, can) in self.cells() {
            Counts(*seen).judge(&what, &can, must, &mut complaints);
        }
        for (what, seen) in ["connect", "disconnect"].iter().zip(&self.named) {
            let can: Vec<usize> = (0..16).filter(|k| matrix::NAMED >> k & 1 != 0).collect();
            seen.judge(&format!("outcome of {what}"), &can, must, &mut complaints);
        }
        let calls = matrix::SHEET.iter().chain(&matrix::STORE).chain(&matrix::TRACE);
        let seen = self.sheet.iter().chain(&self.store).chain(&self.trace);
        let calls = calls.chain(&matrix::LINK).zip(seen.chain(&self.link));
        for ((what, can), seen) in calls {
            seen.judge(&format!("outcome of {what}"), can, must, &mut complaints);
        }
        let kinds: Vec<usize> = (0..KINDS.len()).collect();
        self.reads.judge("outcome of reading", &[0, 5, 8, 10], must, &mut complaints);
        self.kinds.judge("kind that was read", &kinds, must, &mut complaints);
        for (k, seen) in self.writes.iter().enumerate() {
            let known = k < KINDS.len();
            let (name, can) = if known {
                (kind_name(k), &[0, 3, 13][..])
            } else {
                ("unknown kind", &[3, 13][..])
            };
            seen.judge(&format!("outcome of writing {name}"), can, must, &mut complaints);
        }
        if self.ended_badly {
            complaints.push("the bridge did not end well".to_string());
        }
        if must && self.lookups.contains(&0) {
            complaints.push("lookups: none, or all, had a part".to_string());
        }
        complaints
    }
}
