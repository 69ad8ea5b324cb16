//! Smaller sheets that still show a difference.

use model::sheet::{self, Memory, HEAD, USERS};

/// An entry of the contents and its body; `at` is where the entry keeps the
/// body's offset.
#[derive(Clone)]
struct Part {
    entry: Vec<u8>,
    at: usize,
    body: Vec<u8>,
}

/// A sheet that breaks no rule, taken apart: its head, regions, properties, groups and user regions.
#[derive(Clone)]
struct Parts {
    head: Vec<u8>,
    tables: [Vec<Part>; 4],
}

/// Where the head has the number of entries of each table.
const NUMBERS: [usize; 4] = [1, 2, 3, USERS];

impl Parts {
    fn of(sheet: &[u8]) -> Option<Parts> {
        if sheet::rule(sheet) != 0 {
            return None;
        }
        let regions = |memory| {
            sheet::regions(sheet, memory).map(|r| (r.body, r.length as usize)).collect::<Vec<_>>()
        };
        let bodies = [
            regions(Memory::Device),
            sheet::properties(sheet).map(|p| (p.body, p.size * p.maximum as usize)).collect(),
            sheet::groups(sheet).map(|g| (g.body, g.length())).collect(),
            regions(Memory::User),
        ];
        let mut entry = HEAD;
        let mut table = |k: usize, size: usize, at: usize| {
            let part = |&(body, length): &(usize, usize)| {
                entry += size;
                let body = sheet[body..body + length].to_vec();
                Part { entry: sheet[entry - size..entry].to_vec(), at, body }
            };
            bodies[k].iter().map(part).collect()
        };
        let tables = [table(0, 8, 4), table(1, 12, 8), table(2, 8, 4), table(3, 8, 4)];
        Some(Parts { head: sheet[..HEAD].to_vec(), tables })
    }

    fn sheet(&self) -> Vec<u8> {
        let parts = || self.tables.iter().flatten();
        let contents = HEAD + parts().map(|p| p.entry.len()).sum::<usize>();
        let total = contents + parts().map(|p| p.body.len()).sum::<usize>();
        let mut s = self.head.clone();
        for (at, table) in NUMBERS.into_iter().zip(&self.tables) {
            s[at] = table.len() as u8;
        }
        s[4..6].copy_from_slice(&(total as u16).to_be_bytes());
        let mut body = contents;
        for part in parts() {
            let from = s.len() + part.at;
            s.extend(&part.entry);
            s[from..from + 2].copy_from_slice(&(body as u16).to_be_bytes());
            body += part.body.len();
        }
        parts().for_each(|part| s.extend(&part.body));
        s
    }

    /// The same without the end of one region's or property's body.
    fn cut(&self, k: usize, i: usize, keep: usize) -> Parts {
        let mut less = self.clone();
        let part = &mut less.tables[k][i];
        if k != 1 {
            part.body.truncate(keep);
            part.entry[2..4].copy_from_slice(&(keep as u16).to_be_bytes());
        } else {
            part.body.truncate(keep * part.entry[3] as usize);
            let count = u16::from_be_bytes([part.entry[6], part.entry[7]]).min(keep as u16);
            part.entry[4..6].copy_from_slice(&(keep as u16).to_be_bytes());
            part.entry[6..8].copy_from_slice(&count.to_be_bytes());
        }
        less
    }

    /// Everything that is a little smaller.
    fn smaller(&self) -> Vec<Parts> {
        let mut all = Vec::new();
        for k in 0..self.tables.len() {
            for i in 0..self.tables[k].len() {
                let mut less = self.clone();
                less.tables[k].remove(i);
                all.push(less);
            }
        }
        for k in [0, 1, 3] {
            for (i, part) in self.tables[k].iter().enumerate() {
                let unit = if k == 1 { part.entry[3] as usize } else { 1 };
                let length = part.body.len() / unit;
                for keep in [1, length / 2, length - 1] {
                    if 0 < keep && keep < length {
                        all.push(self.cut(k, i, keep));
                    }
                }
            }
        }
        all
    }
}

/// Makes the sheet smaller as long as the difference `stays`.
pub fn shrink(sheet: Vec<u8>, mut stays: impl FnMut(&[u8]) -> bool) -> Vec<u8> {
    let Some(mut best) = Parts::of(&sheet) else {
        return sheet;
    };
    while let Some(less) = best.smaller().into_iter().find(|less| stays(&less.sheet())) {
        best = less;
    }
    best.sheet()
}
