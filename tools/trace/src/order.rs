//! The order of a recording by its times: where they go back, and whether they fall throughout, as in a file that has the
//! newest first. Times of a form that is not known here are not judged.

/// Times of one form can be compared.
#[derive(Clone, Copy, Debug, PartialEq, Eq)]
pub enum Form {
    Seconds,
    Clock,
    Dated,
}

/// Nanoseconds: since a start, of a day, or since year 0.
#[derive(Clone, Copy, Debug, PartialEq, Eq)]
pub struct Moment {
    pub form: Form,
    pub nanos: i128,
}

const SECOND: i128 = 1_000_000_000;
const DAY: i128 = 86_400 * SECOND;

/// The moment that a time names: a date and a clock, a clock alone, or seconds with a fraction.
pub fn moment(word: &str) -> Option<Moment> {
    let (date, rest) = match word.split_once('T') {
        Some((date, rest)) => (Some(date), rest),
        None => (None, word),
    };
    if date.is_none() && !rest.contains(':') {
        let fraction = rest.contains(['.', ',']);
        return Some(Moment { form: Form::Seconds, nanos: seconds(rest)? }).filter(|_| fraction);
    }
    let (clock, zone) = zoned(rest)?;
    let mut nanos = clock_of(clock)? - zone;
    if let Some(date) = date {
        nanos += i128::from(day_of(date)?) * DAY;
    }
    Some(Moment { form: if date.is_some() { Form::Dated } else { Form::Clock }, nanos })
}

/// A number without a sign.
fn number(word: &str, most: u32) -> Option<u32> {
    let digits = !word.is_empty() && word.len() <= 9 && word.bytes().all(|b| b.is_ascii_digit());
    digits.then(|| word.parse().ok()).flatten().filter(|&n| n <= most)
}

/// Seconds and their fraction, behind a point or a comma.
fn seconds(word: &str) -> Option<i128> {
    let (whole, fraction) = word.split_once(['.', ',']).unwrap_or((word, "0"));
    let whole = i128::from(number(whole, u32::MAX)?);
    let digits: String = fraction.chars().chain("000000000".chars()).take(9).collect();
    if fraction.is_empty() || !fraction.bytes().all(|b| b.is_ascii_digit()) {
        return None;
    }
    Some(whole * SECOND + i128::from(number(&digits, u32::MAX)?))
}

/// What stands before the zone, and how far the zone is ahead.
fn zoned(word: &str) -> Option<(&str, i128)> {
    if let Some(clock) = word.strip_suffix('Z') {
        return Some((clock, 0));
    }
    let Some(at) = word.rfind(['+', '-']) else { return Some((word, 0)) };
    let (clock, zone) = word.split_at(at);
    let (hours, minutes) = match zone[1..].split_once(':') {
        Some(pair) => pair,
        None if zone.len() == 5 => zone[1..].split_at(2),
        None => (&zone[1..], "0"),
    };
    let ahead = i128::from(number(hours, 23)? * 3600 + number(minutes, 59)? * 60) * SECOND;
    Some((clock, if zone.starts_with('-') { -ahead } else { ahead }))
}

fn clock_of(clock: &str) -> Option<i128> {
    let parts: Vec<&str> = clock.split(':').collect();
    let (hour, minute, second) = match parts[..] {
        [hour, minute] => (hour, minute, "0"),
        [hour, minute, second] => (hour, minute, second),
        _ => return None,
    };
    let second = seconds(second).filter(|&s| s <= 60 * SECOND)?;
    Some(i128::from(number(hour, 24)? * 3600 + number(minute, 59)? * 60) * SECOND + second)
}

/// The number of a day: year, month and day with - or /, or day, month and year with points.
fn day_of(date: &str) -> Option<i64> {
    let mut parts: Vec<&str> = date.split(['-', '/', '.']).collect();
    if date.contains('.') {
        parts.reverse();
    }
    let [year, month, day] = parts[..] else { return None };
    if year.len() != 4 {
        return None;
    }
    let (year, month, day) = (number(year, 9999)?, number(month, 12)?, number(day, 31)?);
    if month == 0 || day == 0 {
        return None;
    }
    // days from March on, so that the odd month is the last
    let (year, month) = if month < 3 { (year + 399, month + 9) } else { (year + 400, month - 3) };
    let days = 365 * year + year / 4 - year / 100 + year / 400;
    Some(i64::from(days + (153 * month + 2) / 5 + day))
}

/// What the times of a recording show.
#[derive(Clone, Debug, Default, PartialEq, Eq)]
pub struct Order {
    /// The frames whose time is before that of the frame before them.
    pub back: Vec<usize>,
    /// Every time is that of the frame before it or earlier, and one is earlier.
    pub falls: bool,
}

/// The times of frames, in the order in which they stand; none of a frame without a time.
pub fn judged<'a>(times: impl Iterator<Item = Option<&'a str>>) -> Order {
    let mut order = Order::default();
    let (mut last, mut rises, mut days): (Option<Moment>, bool, i128) = (None, false, 0);
    for (i, time) in times.enumerate() {
        let Some(mut now) = time.and_then(moment) else { continue };
        if let Some(last) = last.filter(|last| last.form == now.form) {
            if now.form == Form::Clock {
                // a clock without a date begins anew at midnight
                days += if last.nanos - (now.nanos + days) > DAY / 2 { DAY } else { 0 };
                now.nanos += days;
            }
            rises |= now.nanos > last.nanos;
            if now.nanos < last.nanos {
                order.back.push(i);
            }
        }
        last = Some(now);
    }
    order.falls = !rises && !order.back.is_empty();
    order
}

/// Seconds from one time to another, if both are of one form and it is later.
pub fn between(from: &str, to: &str) -> Option<u64> {
    let (from, to) = (moment(from)?, moment(to)?);
    let passed = to.nanos - from.nanos;
    (from.form == to.form && passed >= 0).then_some((passed / SECOND) as u64)
}

#[cfg(test)]
mod tests {
    use super::*;

    #[test]
    fn moments() {
        let at = |word| moment(word).map(|m| m.nanos);
        assert_eq!(at("00:00:01.5"), Some(1_500_000_000));
        assert_eq!(at("0:0:1,5"), Some(1_500_000_000));
        assert_eq!(at("12.5"), Some(12_500_000_000));
        let same = ["2026-03-02T08:15:01.5Z", "2026-3-2T9:15:01.5+01:00", "02.03.2026T8:15:1,5"];
        let same: Vec<_> = same.iter().map(|word| at(word)).collect();
        assert!(same[0].is_some() && same.iter().all(|m| *m == same[0]), "{same:?}");
        assert_eq!(at("2026/03/02T07:00-0115"), at("2026-03-02T08:15"));
        let days = |a, b| (at(b).unwrap() - at(a).unwrap()) / DAY;
        assert_eq!(days("2026-02-28T00:00", "2026-03-01T00:00"), 1);
        assert_eq!(days("2024-02-28T00:00", "2024-03-01T00:00"), 2);
        assert_eq!(days("2025-12-31T00:00", "2026-01-01T00:00"), 1);
        assert_eq!(days("2000-01-01T00:00", "2001-01-01T00:00"), 366);
        for word in
            ["0001a2b3", "17", "8:15:61", "25:00", "2026-13-01T8:00", "1:2:3:4", "3/2/26T8:00"]
        {
            assert_eq!(at(word), None, "{word}");
        }
    }

    fn of(times: &[&str]) -> Order {
        judged(times.iter().map(|time| Some(*time)))
    }

    #[test]
    fn orders() {
        let none = Order::default();
        assert_eq!(of(&["8:00", "8:00", "8:01"]), none);
        assert_eq!(of(&["8:02", "8:01", "8:01", "8:00"]), Order { back: vec![1, 3], falls: true });
        assert_eq!(of(&["8:00", "8:05", "8:01", "8:06"]), Order { back: vec![2], falls: false });
        // past midnight, and a day that is really earlier
        assert_eq!(of(&["23:59", "0:01", "0:02"]), none);
        assert_eq!(of(&["2026-03-02T23:59", "2026-03-01T00:01"]).back, [1]);
        // what is not known is passed over
        assert_eq!(judged([Some("8:05"), None, Some("x"), Some("8:06")].into_iter()), none);
        assert_eq!(of(&["0009", "0003"]), none);
        assert_eq!(of(&["8:15", "12.5"]), none);
    }

    #[test]
    fn passed() {
        assert_eq!(between("8:00:00", "8:00:30.9"), Some(30));
        assert_eq!(between("8:00:01", "8:00:00"), None);
        assert_eq!(between("8:00", "2026-03-02T8:00"), None);
    }
}
