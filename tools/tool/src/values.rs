//! Values and addresses as people write them.

use sheet::layout::{group_address, individual_address};
use sheet::make::short;
use sheet::show::byte_line;

use crate::archive::{self, Point};

type Read<T> = Result<T, String>;

/// An individual address, such as 1.1.5.
pub fn address(word: &str) -> Read<u16> {
    let parts: Vec<&str> = word.split('.').collect();
    let number = |word: &str, most: u16| word.parse::<u16>().ok().filter(|&n| n <= most);
    let read = match parts[..] {
        [area, line, device] => number(area, 15)
            .zip(number(line, 15))
            .zip(number(device, 255))
            .map(|((area, line), device)| area << 12 | line << 8 | device),
        _ => None,
    };
    let read = read.filter(|&address| individual_address(address) == word);
    read.ok_or(format!("no individual address, as 1.1.5: \"{}\"", short(word)))
}

/// A line, such as 1.1: its first address.
pub fn line(word: &str) -> Read<u16> {
    let whole = address(&format!("{word}.0"));
    whole.map_err(|_| format!("no line, as 1.1: \"{}\"", short(word)))
}

/// Addresses: single ones, and ranges in a line such as 1.1.5-40, in words and behind commas; each once, in their order.
pub fn addresses(words: &[&str]) -> Read<Vec<u16>> {
    let mut all = Vec::new();
    for part in words.iter().flat_map(|word| word.split(',')) {
        match part.split_once('-') {
            None => all.push(address(part)?),
            Some((from, to)) => {
                let first = address(from)?;
                let last = if to.contains('.') {
                    address(to)?
                } else {
                    let number = to.parse::<u8>().ok().filter(|n| n.to_string() == to);
                    let number =
                        number.ok_or(format!("no range, as 1.1.5-40: \"{}\"", short(part)))?;
                    first & 0xFF00 | u16::from(number)
                };
                if last < first {
                    return Err(format!("a range that goes back: \"{}\"", short(part)));
                }
                all.extend(first..=last);
            }
        }
    }
    all.sort_unstable();
    all.dedup();
    Ok(all)
}

/// A group address, such as 1/0/1.
pub fn group(word: &str) -> Read<u16> {
    let parts: Vec<&str> = word.split('/').collect();
    let number = |word: &str, most: u16| word.parse::<u16>().ok().filter(|&n| n <= most);
    let read = match parts[..] {
        [main, middle, sub] => number(main, 31)
            .zip(number(middle, 7))
            .zip(number(sub, 255))
            .map(|((main, middle), sub)| main << 11 | middle << 8 | sub),
        _ => None,
    };
    let read = read.filter(|&group| group_address(group) == word && group != 0);
    read.ok_or(format!("no group address, as 1/0/1: \"{}\"", short(word)))
}

/// A number: decimal, hex digits with h behind them, or with 0x before them.
pub fn number(what: &str, word: &str, most: u64) -> Read<u64> {
    let hex = word.strip_suffix('h').or_else(|| word.strip_prefix("0x"));
    let (digits, radix) = hex.map_or((word, 10), |digits| (digits, 16));
    let plain = !digits.is_empty() && digits.bytes().all(|b| b.is_ascii_hexdigit());
    let read = if plain { u64::from_str_radix(digits, radix).ok() } else { None };
    read.filter(|&n| n <= most)
        .ok_or(format!("{what} is no number up to {most}: \"{}\"", short(word)))
}

/// Bytes in hex, in one word or several.
pub fn bytes(words: &[&str]) -> Read<Vec<u8>> {
    let mut out = Vec::new();
    for word in words {
        let digits = word.strip_prefix("0x").or_else(|| word.strip_suffix('h')).unwrap_or(word);
        let fits = !digits.is_empty() && digits.len() % 2 == 0;
        if !fits || !digits.bytes().all(|b| b.is_ascii_hexdigit()) {
            return Err(format!("no bytes in hex, two digits each: \"{}\"", short(word)));
        }
        let pair = |at: usize| u8::from_str_radix(&digits[at..at + 2], 16).unwrap_or(0);
        out.extend((0..digits.len()).step_by(2).map(pair));
    }
    Ok(out)
}

/// Whether elements of so many bytes are shown as numbers.
fn as_number(size: usize) -> bool {
    matches!(size, 1 | 2 | 4)
}

/// An element for people: decimal if it has 1, 2 or 4 bytes, else, or where hex is asked for, its bytes.
pub fn element(bytes: &[u8], hex: bool) -> String {
    if hex || !as_number(bytes.len()) {
        return byte_line(bytes);
    }
    bytes.iter().fold(0u32, |number, &b| number << 8 | u32::from(b)).to_string()
}

/// The bytes of an element that a person wrote.
pub fn element_of(word: &str, size: usize, hex: bool) -> Read<Vec<u8>> {
    if hex || !as_number(size) {
        let read = bytes(&[word])?;
        if read.len() != size {
            let many = read.len();
            return Err(format!("an element has {size} bytes, and \"{}\" has {many}", short(word)));
        }
        return Ok(read);
    }
    let most = (1u64 << (8 * size)) - 1;
    let value = number("a value", word, most)?;
    Ok(value.to_be_bytes()[8 - size..].to_vec())
}

// ---- group values ----

/// The datapoint types that can be written: each with the number of its bytes; a switch goes without.
pub const TYPES: [(u8, usize); 4] = [(1, 0), (5, 1), (9, 2), (14, 4)];

pub fn point_type(word: &str) -> Read<u8> {
    let main = word.split('.').next().unwrap_or("");
    let known = TYPES.iter().find(|(class, _)| class.to_string() == main);
    let wrong = format!("no datapoint type 1, 5, 9 or 14: \"{}\"", short(word));
    known.map(|(class, _)| *class).ok_or(wrong)
}

/// The number of hundredths in a decimal fraction; a third digit rounds, half away from zero.
fn hundredths(word: &str) -> Option<i32> {
    let (negative, digits) = match word.strip_prefix('-') {
        Some(rest) => (true, rest),
        None => (false, word.strip_prefix('+').unwrap_or(word)),
    };
    let (whole, part) = digits.split_once('.').unwrap_or((digits, ""));
    let plain = |text: &str| text.bytes().all(|b| b.is_ascii_digit());
    if whole.is_empty() && part.is_empty() || !plain(whole) || !plain(part) || whole.len() > 7 {
        return None;
    }
    let digit = |at: usize| part.as_bytes().get(at).map_or(0, |b| i32::from(b - b'0'));
    let whole: i32 = if whole.is_empty() { 0 } else { whole.parse().ok()? };
    let count = whole * 100 + digit(0) * 10 + digit(1) + i32::from(digit(2) >= 5);
    Some(if negative { -count } else { count })
}

/// A value of a type as a person writes it: on, 200, 21.5; its six bits, or its bytes.
pub fn point_of(class: u8, word: &str) -> Read<(u8, Vec<u8>)> {
    let wrong = |due: &str| format!("no value of type {class}, {due}: \"{}\"", short(word));
    let mut point = Point { class, ..Point::default() };
    match class {
        1 => match word {
            "on" | "1" | "true" => point.value = 1,
            "off" | "0" | "false" => point.value = 0,
            _ => return Err(wrong("on or off")),
        },
        5 => point.value = number("a value of type 5", word, 255)? as u8,
        9 => {
            point.hundredths = hundredths(word).ok_or_else(|| wrong("a number as 21.5"))?;
        }
        _ => {
            let value: f32 = word.parse().map_err(|_| wrong("a number as 21.5"))?;
            point.bits = value.to_bits();
        }
    }
    let size = TYPES.iter().find(|t| t.0 == class).map_or(0, |t| t.1);
    let written = archive::point_write(point, size.max(1));
    let bytes = written.map_err(|outcome| wrong(point_refusal(outcome)))?;
    Ok(if size == 0 { (bytes[0], Vec::new()) } else { (0, bytes) })
}

fn point_refusal(outcome: u8) -> &'static str {
    match outcome {
        22 => "as the code 7FFFh says",
        23 => "from -671088.64 to 670433.28",
        24 => "a number that is finite",
        21 => "on or off",
        _ => "of another number of bytes",
    }
}

/// A group value for people, by its type; else what it has.
pub fn point(class: u8, v: u8, data: &[u8]) -> Result<String, String> {
    let size = TYPES.iter().find(|t| t.0 == class).map_or(0, |t| t.1);
    let one = [v];
    let bytes = if data.is_empty() { &one[..] } else { data };
    if (size == 0) != data.is_empty() {
        return Err(format!("{}, which is no value of type {class}", byte_line(bytes)));
    }
    let read = archive::point_read(class, bytes);
    let point = read.map_err(|outcome| {
        let why = if outcome == 20 { ": it has another number of bytes" } else { "" };
        format!("{}, which is no value of type {class}{why}", byte_line(bytes))
    })?;
    Ok(match class {
        1 => sheet::show::switch(point.value == 1).to_string(),
        5 => point.value.to_string(),
        9 => {
            let (sign, count) =
                (if point.hundredths < 0 { "-" } else { "" }, point.hundredths.abs());
            format!("{sign}{}.{:02}", count / 100, count % 100)
        }
        _ => f32::from_bits(point.bits).to_string(),
    })
}

#[cfg(test)]
mod tests {
    use super::*;

    #[test]
    fn words() {
        assert_eq!(address("1.1.5"), Ok(0x1105));
        for wrong in ["1.1", "1.1.256", "16.1.1", "1.1.05", "1.1.5.", "", "a.b.c", "1.1.5-7"] {
            assert!(address(wrong).is_err(), "{wrong}");
        }
        assert_eq!(line("1.1"), Ok(0x1100));
        assert!(line("1").is_err() && line("1.1.1").is_err());
        assert_eq!(group("1/0/1"), Ok(0x0801));
        assert!(group("0/0/0").is_err() && group("1/8/1").is_err() && group("1/1").is_err());
        assert_eq!(
            addresses(&["1.1.7", "1.1.5-7,1.1.1"]),
            Ok(vec![0x1101, 0x1105, 0x1106, 0x1107])
        );
        assert_eq!(addresses(&["1.1.254-1.2.1"]).map(|all| all.len()), Ok(4));
        for wrong in ["1.1.5-", "1.1.7-5", "1.1.5-256", "-", "", "1.1.5,"] {
            assert!(addresses(&[wrong]).is_err(), "{wrong}");
        }
        assert_eq!(number("n", "0100h", 65_535), Ok(256));
        assert_eq!(number("n", "0x100", 65_535), Ok(256));
        assert!(number("n", "65536", 65_535).is_err() && number("n", "1a", 99).is_err());
        assert!(
            number("n", "", 9).is_err()
                && number("n", "h", 9).is_err()
                && number("n", "+1", 9).is_err()
        );
        assert_eq!(bytes(&["a0a1", "0xff"]), Ok(vec![0xA0, 0xA1, 0xFF]));
        assert!(bytes(&["a0a"]).is_err() && bytes(&["zz"]).is_err() && bytes(&[""]).is_err());
    }

    #[test]
    fn elements() {
        assert_eq!(element(&[3, 232], false), "1000");
        assert_eq!(element(&[3, 232], true), "03 e8");
        assert_eq!(element(&[1, 2, 3], false), "01 02 03");
        assert_eq!(element(&[0xFF; 4], false), "4294967295");
        assert_eq!(element_of("1000", 2, false), Ok(vec![3, 232]));
        assert_eq!(element_of("03e8", 2, true), Ok(vec![3, 232]));
        assert_eq!(element_of("010203", 3, false), Ok(vec![1, 2, 3]));
        assert!(element_of("65536", 2, false).is_err() && element_of("03", 2, true).is_err());
    }

    #[test]
    fn points() {
        assert_eq!(point_of(1, "on"), Ok((1, vec![])));
        assert_eq!(point_of(1, "off"), Ok((0, vec![])));
        assert_eq!(point_of(5, "200"), Ok((0, vec![200])));
        assert_eq!(point_of(9, "21.5"), Ok((0, vec![0x0C, 0x33])));
        assert_eq!(point_of(9, "-0.01"), Ok((0, vec![0x87, 0xFF])));
        assert_eq!(point_of(14, "1.5"), Ok((0, vec![0x3F, 0xC0, 0, 0])));
        for (class, wrong) in [
            (1, "2"),
            (5, "256"),
            (9, "warm"),
            (9, "1e3"),
            (9, "800000"),
            (9, "."),
            (14, "inf"),
            (14, "nan"),
        ] {
            assert!(point_of(class, wrong).is_err(), "{class} {wrong}");
        }
        for (class, word) in
            [(1, "on"), (5, "7"), (9, "21.50"), (9, "-3.00"), (14, "1.5"), (14, "-0.1")]
        {
            let (v, data) = point_of(class, word).unwrap();
            assert_eq!(point(class, v, &data).unwrap(), word);
        }
        assert!(point(9, 0, &[0x7F, 0xFF]).is_err());
        assert!(
            point(1, 2, &[]).is_err() && point(1, 0, &[1]).is_err() && point(9, 5, &[]).is_err()
        );
        assert_eq!(point_type("9.001"), Ok(9));
        assert!(point_type("2").is_err());
    }
}
