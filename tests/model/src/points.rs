//! Group values as a person reads them: datapoint types 1, 5, 9 and 14.
//! A code of type 9 is found by trying every code.

/// A value; `Float` by its bits.
#[derive(Clone, Copy, Debug, PartialEq, Eq)]
pub enum Point {
    Switch(bool),
    Byte(u8),
    Hundredths(i32),
    Float(u32),
}

/// The code that says nothing.
pub const INVALID: u16 = 0x7FFF;
pub const LEAST: i32 = -67_108_864;
pub const GREATEST: i32 = 67_043_328;

/// Exponent and mantissa of a code.
pub fn parts(code: u16) -> (u32, i32) {
    let mantissa = (code & 0x7FF) as i32 - if code & 0x8000 != 0 { 2048 } else { 0 };
    ((code >> 11 & 15) as u32, mantissa)
}

pub fn result(code: u16) -> i32 {
    let (exponent, mantissa) = parts(code);
    mantissa * (1 << exponent)
}

fn infinite(bits: u32) -> bool {
    bits >> 23 & 255 == 255
}

/// What the bytes of a value of a type say, or the refusal.
pub fn read(kind: u8, bytes: &[u8]) -> Result<Point, u8> {
    let width = match kind {
        1 | 5 => 1,
        9 => 2,
        14 => 4,
        _ => return Err(25),
    };
    if bytes.len() != width {
        return Err(20);
    }
    match kind {
        1 if bytes[0] > 1 => Err(21),
        1 => Ok(Point::Switch(bytes[0] == 1)),
        5 => Ok(Point::Byte(bytes[0])),
        9 => match u16::from_be_bytes([bytes[0], bytes[1]]) {
            INVALID => Err(22),
            code => Ok(Point::Hundredths(result(code))),
        },
        _ => match u32::from_be_bytes([bytes[0], bytes[1], bytes[2], bytes[3]]) {
            bits if infinite(bits) => Err(24),
            bits => Ok(Point::Float(bits)),
        },
    }
}

/// How good a code is for x: the smaller, the better.
fn merit(x: i32, code: u16) -> (i64, i32, u32) {
    let result = result(code);
    ((result as i64 - x as i64).abs(), result.abs(), parts(code).0)
}

/// The best code for x, every valid one being tried.
pub fn code(x: i32) -> u16 {
    (0..=u16::MAX).filter(|&c| c != INVALID).min_by_key(|&c| merit(x, c)).unwrap()
}

/// Every valid code, tried once: for each result, in rising order, its best code.
pub struct Codes(Vec<(i32, u16)>);

impl Default for Codes {
    fn default() -> Self {
        let mut all: Vec<(i32, u32, u16)> =
            (0..=u16::MAX).filter(|&c| c != INVALID).map(|c| (result(c), parts(c).0, c)).collect();
        all.sort();
        all.dedup_by_key(|entry| entry.0);
        Codes(all.into_iter().map(|(result, _, code)| (result, code)).collect())
    }
}

impl Codes {
    /// The results, rising.
    pub fn results(&self) -> impl Iterator<Item = i32> + '_ {
        self.0.iter().map(|entry| entry.0)
    }

    /// The better of the two neighbours of x.
    pub fn code(&self, x: i32) -> u16 {
        let above = self.0.partition_point(|entry| entry.0 < x);
        let near = above.saturating_sub(1)..(above + 1).min(self.0.len());
        self.0[near].iter().map(|entry| entry.1).min_by_key(|&c| merit(x, c)).unwrap()
    }

    /// The bytes of a value, or the refusal.
    pub fn write(&self, point: Point) -> Result<Vec<u8>, u8> {
        match point {
            Point::Switch(on) => Ok(vec![on as u8]),
            Point::Byte(n) => Ok(vec![n]),
            Point::Hundredths(x) if !(LEAST..=GREATEST).contains(&x) => Err(23),
            Point::Hundredths(x) => Ok(self.code(x).to_be_bytes().to_vec()),
            Point::Float(bits) if infinite(bits) => Err(24),
            Point::Float(bits) => Ok(bits.to_be_bytes().to_vec()),
        }
    }
}

#[cfg(test)]
mod tests {
    use super::*;

    #[test]
    fn known() {
        for (x, expected) in [
            (0, 0),
            (2150, 0x0C33),
            (2047, 0x07FF),
            (2048, 0x0C00),
            (2049, 0x0C00),
            (-2048, 0x8000),
            (-2049, 0x8000),
            (-2050, 0x8BFF),
            (-1, 0x87FF),
            (GREATEST, 0x7FFE),
            (LEAST, 0xF800),
        ] {
            assert_eq!(code(x), expected, "{x}");
        }
    }

    /// The table gives what trying every code gives.
    #[test]
    fn table() {
        let codes = Codes::default();
        let mut x = LEAST;
        while x <= GREATEST {
            assert_eq!(codes.code(x), code(x), "{x}");
            x += 1_000_003;
        }
        for x in (-4100..4100).step_by(41).chain([2049, -2049, 4095, -4097, -8194, 8190, -8193]) {
            assert_eq!(codes.code(x), code(x), "{x}");
        }
    }
}
