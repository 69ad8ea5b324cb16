//! Every sentence of an explanation and of what a recording shows, as a function from facts to text: what says the same thing
//! says it in the same words, here and wherever else it is told.

use sheet::layout::group_address;

use crate::doubts::{Cause, Doubt};
use crate::evidence::{Answer, At, Evidence, Forged, Gap, Left, Loss, Seen, Sign, Taken, Why};
use crate::gaps;
use crate::words::{many, pdu};

// ---- frames ----

pub const ITSELF: &str = "under the device's own address to itself: a forged sender or an echo";
pub const NOT_ITS_OWN: &str =
    "a disconnect under the device's address, behind which it went on: forged, or the recording is not whole";

// ---- what is missing, and how it shows ----

fn line(at: At) -> String {
    format!("line {}", at.line)
}

/// Behind which event, named by the caller.
fn place(at: At, name: impl Fn(u32) -> String) -> String {
    match at.behind {
        0 => "before the first event".to_string(),
        behind => format!("behind {}", name(behind as u32)),
    }
}

fn gap(gap: &Gap) -> String {
    let at = line(gap.at);
    match &gap.why {
        gaps::Why::Stopped(from, to) => {
            let time = |time: &Option<String>| {
                time.as_ref().map_or(String::new(), |time| format!(" at {time}"))
            };
            format!("the recorder stopped{} and went on{} ({at})", time(from), time(to))
        }
        gaps::Why::Unconnected => format!("the recorder had no connection to the bus ({at})"),
        gaps::Why::Lost => format!("the bus monitor says that it lost frames ({at})"),
        gaps::Why::Counted(frames) => {
            let frames = many((*frames).into(), "frame");
            format!("the bus monitor's counter misses {frames} at least ({at})")
        }
        gaps::Why::Unreadable => format!("a frame can't be read ({at})"),
    }
}

fn loss(loss: &Loss) -> String {
    let what = match loss.sign {
        Sign::Turn => "data is out of turn",
        Sign::TookOdd => "the device took data that is out of turn here",
        Sign::StrayAcknowledgement => "the device acknowledged data that is not recorded",
        Sign::NoAcknowledgement => "the device's acknowledgement of what it took is not recorded",
        Sign::NoAnswer => "the device's answer to what it took is not recorded",
        Sign::StrayReceipt => "an answer is acknowledged that is not recorded",
        Sign::StrayEnd => "the device ended a connection whose begin is not recorded",
        Sign::StrayDisconnect => "a connection was ended whose begin is not recorded",
        Sign::LateAcknowledgement => "the device acknowledged data from before a disconnect",
    };
    format!("{what} ({})", line(loss.at))
}

fn cause(cause: &Cause) -> String {
    match cause {
        Cause::Gap(one) => gap(one),
        Cause::Loss(one) => loss(one),
    }
}

// ---- doubts ----

/// What every doubt begins with.
pub const NOT_SURE: &str = "not sure: ";

fn untaken(whose: &str, taken: Taken) -> String {
    match taken {
        Taken::Refused => format!("the device answered {whose} by T_NAK"),
        Taken::Ended => format!("the device ended the connection and did not acknowledge {whose}"),
        Taken::Unwired => format!("nobody acknowledged {whose} on the wire"),
        _ => format!("the device did not acknowledge {whose}"),
    }
}

/// A doubt about what an event gave; another event is named by the caller.
pub fn doubt(doubt: &Doubt, event: u32, name: impl Fn(u32) -> String) -> String {
    let whose = |of: u32| if of == event { "it".to_string() } else { name(of) };
    let what = match doubt {
        Doubt::Untaken(of, taken) => untaken(&whose(*of), *taken),
        Doubt::Unanswered(of) => format!("the device's answer to {} is not recorded", whose(*of)),
        Doubt::Unheard => {
            "no frame of the device is recorded, so what it took is not known".to_string()
        }
        Doubt::Silence(of, seconds) => format!(
            "{seconds} s of silence were before {}: the device may have ended the connection",
            whose(*of)
        ),
        Doubt::Twofold(of) => format!(
            "another request had the number of {}: which of the two the device took is not known",
            whose(*of)
        ),
        Doubt::Before(why) => format!("events are missing before this one: {}", cause(why)),
        Doubt::After(why) => format!("events are missing after this one: {}", cause(why)),
        Doubt::Parted(parted) => {
            let place = match parted.asked {
                true => format!("at {}", name(parted.at.behind as u32)),
                false => place(parted.at, &name),
            };
            format!("recording and device have parted {place} ({})", line(parted.at))
        }
        Doubt::Back(at, _) => {
            format!("times go back ({}): the order of the events is not known", line(*at))
        }
        Doubt::Own(own) => format!(
            "a frame under the device's own address went there since ({}): its own, or forged and taken",
            line(own.at)
        ),
        Doubt::Ended(at) => format!("{NOT_ITS_OWN} ({})", line(*at)),
    };
    format!("{NOT_SURE}{what}")
}

/// What a recording shows beside an event, of a trace's own numbering from 0, if it is not that the device took it.
pub fn beside(e: &Evidence, index: usize) -> Option<String> {
    let seen = e.events.get(index)?;
    match seen.taken {
        Taken::Unasked | Taken::Acknowledged if seen.answer == Answer::Other => {
            Some("the recorded answer is another than playing gives".to_string())
        }
        Taken::Unasked | Taken::Acknowledged => None,
        taken => Some(untaken("it", taken)),
    }
}

/// The word for a doubt, for other programs.
pub fn kind(doubt: &Doubt) -> &'static str {
    match doubt {
        Doubt::Untaken(..) => "not acknowledged",
        Doubt::Unanswered(_) => "not answered",
        Doubt::Unheard => "device not recorded",
        Doubt::Silence(..) => "silence",
        Doubt::Twofold(_) => "two of a number",
        Doubt::Before(_) => "missing before",
        Doubt::After(_) => "missing after",
        Doubt::Parted(_) => "parted",
        Doubt::Back(..) => "times go back",
        Doubt::Own(_) => "own address",
        Doubt::Ended(_) => "ended",
    }
}

// ---- what a recording shows ----

/// So many are named; of more, how many.
const NAMED: usize = 4;

fn some(names: &[String]) -> String {
    let first = names[..names.len().min(NAMED)].join(", ");
    match names.len() {
        n if n > NAMED => format!("{first} and {} more", n - NAMED),
        _ => first,
    }
}

/// A recording in which nothing is missing as far as it shows.
pub const WHOLE: &str =
    "nothing shows that frames are missing; that none is missing a recording can't show";

/// The lines on what a recording shows, for `make`, whose events have one numbering.
pub fn shows(evidence: &Evidence) -> Vec<String> {
    shows_of(evidence, 0, |event| format!("event {event}"))
}

/// The same, the events before it being so many, each named by the caller.
pub fn shows_of(e: &Evidence, before: usize, name: impl Fn(u32) -> String) -> Vec<String> {
    let mut out = Vec::new();
    let place = |at: At| place(at, &name);
    let mut list = |title: &str, tell: &dyn Fn(&Seen) -> Option<String>| {
        let of = e.events.iter().enumerate().filter_map(|(i, seen)| {
            let event = name((before + i + 1) as u32);
            tell(seen).map(|what| format!("{event} (line {}{what})", seen.line))
        });
        let of: Vec<String> = of.collect();
        if !of.is_empty() {
            out.push(format!("{title}: {}", some(&of)));
        }
    };
    list("not acknowledged by the device", &|seen| match seen.taken {
        Taken::Silent => Some(String::new()),
        Taken::Refused => Some(", T_NAK".to_string()),
        Taken::Ended => Some(", it ended the connection".to_string()),
        _ => None,
    });
    list("not acknowledged on the wire", &|seen| (seen.taken == Taken::Unwired).then(String::new));
    list("not answered by the device", &|seen| {
        (!seen.data && e.device && seen.answer == Answer::Absent).then(String::new)
    });
    list("after a silence in which the device may have ended the connection", &|seen| {
        let silent = seen.silence > 0 && seen.taken != Taken::Acknowledged;
        silent.then(|| format!(", {} s", seen.silence))
    });
    list("with a number that another request had", &|seen| {
        (seen.twofold && seen.answer != Answer::Same).then(String::new)
    });
    if !e.device && e.events.iter().any(|seen| seen.data) {
        out.push("no frame of the device is recorded: what it took is not known".to_string());
    }
    let many_more = |all: usize| match all {
        n if n > NAMED => {
            vec![format!("and {} places more", n - NAMED)]
        }
        _ => Vec::new(),
    };
    let told = e.gaps.iter().map(|g| format!("events may be missing {}: {}", place(g.at), gap(g)));
    let found = e.losses.iter().map(|l| format!("frames are missing {}: {}", place(l.at), loss(l)));
    out.extend(told.take(NAMED).chain(many_more(e.gaps.len())));
    out.extend(found.take(NAMED).chain(many_more(e.losses.len())));
    if let Some(parted) = e.parted {
        let (at, event) = (line(parted.at), parted.at.behind as u32);
        out.push(match parted.asked {
            true => format!(
                "recording and device part at {}: its recorded answer is another than playing gives ({at})",
                name(event)
            ),
            false => format!(
                "recording and device part {}: no event asked for a recorded answer ({at})",
                place(parted.at)
            ),
        });
    }
    let left = e.left.iter().take(NAMED).map(left_told);
    out.extend(left);
    if e.left.len() > NAMED {
        out.push(format!("and {} more requests that are no events", e.left.len() - NAMED));
    }
    if let Some((at, times)) = e.back {
        out.push(format!("times go back {}, first at line {}", many(times, "time"), at.line));
    }
    for own in e.own.iter().take(NAMED) {
        let to = if own.group == 0 { "all".to_string() } else { group_address(own.group) };
        let at = line(own.at);
        out.push(format!("under the device's own address to {to} ({at}): it may be its own"));
    }
    for (at, forged) in e.forged.iter().take(NAMED) {
        out.push(match forged {
            Forged::Itself => format!("{ITSELF} ({})", line(*at)),
            Forged::Disconnect => format!("{NOT_ITS_OWN} ({})", line(*at)),
        });
    }
    out
}

// ---- accounts ----

/// A place that is as at first again, and what it was meanwhile.
pub fn as_at_first(named: &str, meanwhile: &[Option<String>]) -> String {
    let words: Vec<String> =
        meanwhile.iter().map(|value| value.clone().unwrap_or("another".to_string())).collect();
    let mut distinct: Vec<String> = Vec::new();
    for word in words {
        if !distinct.contains(&word) {
            distinct.push(word);
        }
    }
    format!("{named}, as at first again, meanwhile {}", some(&distinct))
}

/// A step in the history of a place.
pub fn step(old: Option<String>, new: Option<String>, by: &str) -> String {
    match (old, new) {
        (Some(old), Some(new)) => format!("{old} → {new} by {by}"),
        _ => format!("changed by {by}"),
    }
}

pub fn changed_often(times: usize) -> String {
    format!("changed {times} times: --all lists them")
}

pub fn written_again(by: &str) -> String {
    format!("written once more, and left as it was, by {by}")
}

/// A request that is no event.
pub fn left_told(left: &Left) -> String {
    let how = match left.why {
        Why::OutOfTurn => "out of turn",
        Why::Untaken => "not acknowledged, nor taken, as what follows shows",
        Why::Stranger => "from nobody's partner",
        Why::Itself => "under the device's own address",
    };
    let words = format!("{}{}", pdu(&left.apdu, false), left.known.told());
    format!("no event, {how} ({}): {words}", line(left.at))
}

/// A request that playing does not carry out.
pub fn refused(outcome: u8, words: &str, otherwise: bool, by: &str) -> String {
    match otherwise {
        false => format!("asked for and not done, {words} ({outcome}), by {by}"),
        true => format!(
            "asked for, by playing not done, {words} ({outcome}), but the device answered otherwise, by {by}"
        ),
    }
}

// ---- a dump ----

/// What follows from a dump that the traces do not lead to.
pub const PAST: &str = "somebody wrote past the device, or the traces lack events";
pub const OLDER: &str = "all of it was so before: the dump may be older than the end of the traces, or the device did not take the last events, or somebody wrote past it what was there before";
pub const MIXED: &str = "each byte was so before, but never all of them at once";
pub const NO_DUMP: &str = "somebody wrote past the device, or this is no whole dump of it";

pub const NO_WRITE: &str = "no permitted write of the traces gave it";
pub const NO_EVENT: &str = "no event of the traces gave it";
