//! What a recording shows of its events beside their bytes, and what it can't show: `make` finds it out, writes it beside the
//! trace, NAME.evidence, and `explain` reads it. A first line has the form's number and ties it to its trace, the last line says
//! that it is whole. Requests that are in it may have keys.

use sheet::layout::individual_address;
use sheet::make::short;

use crate::gaps;
use crate::text::{address, bytes_of, group, run, time_word, Line, Read};
use crate::times::{tied, Known};

/// The number of the form; another one is refused by it.
const FORM: u8 = 1;

/// How the recording shows that the device took an event.
#[derive(Clone, Copy, Debug, PartialEq, Eq, Default)]
pub enum Taken {
    /// Nothing is due that would show it, or the recording has no frame of the device.
    #[default]
    Unasked,
    /// By T_ACK, or by an answer.
    Acknowledged,
    /// No T_ACK of its number.
    Silent,
    /// T_NAK in its place.
    Refused,
    /// The device's disconnect in its place.
    Ended,
    /// No acknowledgement on the wire.
    Unwired,
}

/// The recorded answer to an event.
#[derive(Clone, Copy, Debug, PartialEq, Eq, Default)]
pub enum Answer {
    /// None is due.
    #[default]
    Undue,
    /// As playing gives it.
    Same,
    /// Another.
    Other,
    /// One is due, and none is recorded.
    Absent,
}

/// What is seen of an event.
#[derive(Clone, Copy, Debug, PartialEq, Eq, Default)]
pub struct Seen {
    pub line: usize,
    /// Connected data, which the device acknowledges.
    pub data: bool,
    pub taken: Taken,
    pub answer: Answer,
    /// Its partner had been silent for so many seconds, longer than transport allows.
    pub silence: u64,
    /// Other data had its number and was not taken: its acknowledgement may be of that.
    pub twofold: bool,
}

/// A place in a recording: behind so many events of its trace, and the line.
#[derive(Clone, Copy, Debug, PartialEq, Eq, Default)]
pub struct At {
    pub behind: usize,
    pub line: usize,
}

/// A gap that the recorder tells.
#[derive(Clone, Debug, PartialEq, Eq)]
pub struct Gap {
    pub at: At,
    pub why: gaps::Why,
}

/// What does not fit together unless frames are missing.
#[derive(Clone, Copy, Debug, PartialEq, Eq, PartialOrd, Ord)]
pub enum Sign {
    /// Data out of turn, in a recording without the device's frames.
    Turn,
    /// The device acknowledged data that is out of turn here.
    TookOdd,
    /// It acknowledged or refused what is not recorded.
    StrayAcknowledgement,
    /// It took data, and its acknowledgement is not recorded.
    NoAcknowledgement,
    /// It took a request, and its answer is not recorded.
    NoAnswer,
    /// A partner acknowledged an answer that no event asked for.
    StrayReceipt,
    /// The device ended a connection that was not open here.
    StrayEnd,
    /// A partner ended one.
    StrayDisconnect,
    /// An acknowledgement behind the device's own disconnect, of data before it.
    LateAcknowledgement,
}

pub const SIGNS: [(Sign, &str); 9] = [
    (Sign::Turn, "turn"),
    (Sign::TookOdd, "took-out-of-turn"),
    (Sign::StrayAcknowledgement, "stray-acknowledgement"),
    (Sign::NoAcknowledgement, "no-acknowledgement"),
    (Sign::NoAnswer, "no-answer"),
    (Sign::StrayReceipt, "stray-receipt"),
    (Sign::StrayEnd, "stray-end"),
    (Sign::StrayDisconnect, "stray-disconnect"),
    (Sign::LateAcknowledgement, "late-acknowledgement"),
];

/// A sign that frames are missing before this place, and how often it was seen behind the same event.
#[derive(Clone, Copy, Debug, PartialEq, Eq)]
pub struct Loss {
    pub at: At,
    pub sign: Sign,
    pub times: usize,
}

/// The first recorded answer that playing does not give: of an event, if one asked for it.
#[derive(Clone, Copy, Debug, PartialEq, Eq)]
pub struct Parted {
    pub at: At,
    pub asked: bool,
}

/// A frame under the device's own address to a group, or to all by 0.
#[derive(Clone, Copy, Debug, PartialEq, Eq)]
pub struct Own {
    pub at: At,
    pub group: u16,
}

#[derive(Clone, Copy, Debug, PartialEq, Eq)]
pub enum Forged {
    /// A frame under the device's own address to itself.
    Itself,
    /// A disconnect under it, behind which the device went on.
    Disconnect,
}

/// Why a request is no event, though it came to the device's address.
#[derive(Clone, Copy, Debug, PartialEq, Eq)]
pub enum Why {
    OutOfTurn,
    /// Not acknowledged, and not taken, as what follows shows.
    Untaken,
    Stranger,
    Itself,
}

const WHYS: [(Why, &str); 4] = [
    (Why::OutOfTurn, "out-of-turn"),
    (Why::Untaken, "untaken"),
    (Why::Stranger, "stranger"),
    (Why::Itself, "itself"),
];

/// A request that is no event.
#[derive(Clone, Debug, PartialEq, Eq)]
pub struct Left {
    pub at: At,
    pub why: Why,
    pub known: Known,
    pub apdu: Vec<u8>,
}

/// All that a recording shows, or part of it for one of several traces.
#[derive(Clone, Debug, PartialEq, Eq, Default)]
pub struct Evidence {
    /// The recording has frames of the device.
    pub device: bool,
    pub events: Vec<Seen>,
    pub gaps: Vec<Gap>,
    pub losses: Vec<Loss>,
    pub parted: Option<Parted>,
    pub own: Vec<Own>,
    pub forged: Vec<(At, Forged)>,
    pub left: Vec<Left>,
    /// Where times go back first, and how often.
    pub back: Option<(At, usize)>,
}

/// So many requests that are no events are kept, so that a side file stays short.
const MOST_LEFT: usize = 200;

impl Evidence {
    pub fn loss(&mut self, at: At, sign: Sign) {
        let same = |l: &&mut Loss| l.at.behind == at.behind && l.sign == sign;
        match self.losses.iter_mut().rev().take(SIGNS.len()).find(same) {
            Some(loss) => loss.times += 1,
            None => self.losses.push(Loss { at, sign, times: 1 }),
        }
    }

    /// A gap; several behind one event for one reason are one.
    pub fn gap(&mut self, at: At, why: gaps::Why) {
        let last = self.gaps.last_mut().filter(|gap| gap.at.behind == at.behind);
        match (last.map(|gap| &mut gap.why), why) {
            (Some(gaps::Why::Stopped(_, until)), gaps::Why::Stopped(_, to)) => *until = to,
            (Some(last), why) if *last == why => {}
            (_, why) => self.gaps.push(Gap { at, why }),
        }
    }

    /// A frame under the device's own address; several behind one event to one group are one, the last.
    pub fn own_frame(&mut self, at: At, group: u16) {
        let same = |own: &&mut Own| own.at.behind == at.behind && own.group == group;
        let own = self.own.iter_mut().rev().take_while(|own| own.at.behind == at.behind);
        match own.into_iter().find(same) {
            Some(own) => own.at = at,
            None => self.own.push(Own { at, group }),
        }
    }

    /// A forged frame; several of a kind behind one event are one.
    pub fn forged_frame(&mut self, at: At, forged: Forged) {
        let mut there = self.forged.iter().rev().take(2);
        if !there.any(|(last, kind)| last.behind == at.behind && *kind == forged) {
            self.forged.push((at, forged));
        }
    }

    pub fn left_out(&mut self, left: Left) {
        if self.left.len() < MOST_LEFT {
            self.left.push(left);
        }
    }

    /// The part for events from..to of a recording that becomes several traces, the last of them or not. What stands behind
    /// the last event of a part belongs to it.
    pub fn part(&self, from: usize, to: usize, last: bool) -> Evidence {
        let mine = |at: At| (at.behind > from || from == 0) && (at.behind <= to || last);
        let here = |at: At| At { behind: at.behind - from, ..at };
        let back = |(at, times): (At, usize)| mine(at).then(|| (here(at), times));
        Evidence {
            device: self.device,
            events: self.events[from..to].to_vec(),
            gaps: picked(&self.gaps, |g| mine(g.at), |g| Gap { at: here(g.at), ..g }),
            losses: picked(&self.losses, |l| mine(l.at), |l| Loss { at: here(l.at), ..l }),
            parted: self.parted.filter(|p| mine(p.at)).map(|p| Parted { at: here(p.at), ..p }),
            own: picked(&self.own, |o| mine(o.at), |o| Own { at: here(o.at), ..o }),
            forged: picked(&self.forged, |f| mine(f.0), |f| (here(f.0), f.1)),
            left: picked(&self.left, |l| mine(l.at), |l| Left { at: here(l.at), ..l }),
            back: self.back.and_then(back),
        }
    }

    /// The same of a trace that is played behind others with so many events.
    pub fn behind(&self, events: usize) -> Evidence {
        let there = |at: At| At { behind: at.behind + events, ..at };
        let all = |_: &_| true;
        Evidence {
            gaps: picked(&self.gaps, |_| true, |g| Gap { at: there(g.at), ..g }),
            losses: picked(&self.losses, |_| true, |l| Loss { at: there(l.at), ..l }),
            parted: self.parted.map(|p| Parted { at: there(p.at), ..p }),
            own: picked(&self.own, |_| true, |o| Own { at: there(o.at), ..o }),
            forged: picked(&self.forged, all, |f| (there(f.0), f.1)),
            left: picked(&self.left, |_| true, |l| Left { at: there(l.at), ..l }),
            back: self.back.map(|(at, times)| (there(at), times)),
            ..self.clone()
        }
    }

    /// Whether what the device sent fits to the events.
    pub fn fits(&self) -> bool {
        self.losses.is_empty() && self.parted.is_none()
    }

    /// Whether nothing shows that frames are missing, were taken otherwise, or stand in another order.
    pub fn clean(&self) -> bool {
        let ended = self.forged.iter().any(|(_, forged)| *forged == Forged::Disconnect);
        self.gaps.is_empty() && self.back.is_none() && self.fits() && !ended
    }
}

fn picked<T: Clone>(all: &[T], mine: impl Fn(&T) -> bool, moved: impl Fn(T) -> T) -> Vec<T> {
    all.iter().filter(|one| mine(one)).cloned().map(moved).collect()
}

// ---- the file ----

const TAKEN: [(Taken, &str); 6] = [
    (Taken::Unasked, "-"),
    (Taken::Acknowledged, "acknowledged"),
    (Taken::Silent, "unacknowledged"),
    (Taken::Refused, "refused"),
    (Taken::Ended, "ended"),
    (Taken::Unwired, "unwired"),
];

const ANSWER: [(Answer, &str); 4] = [
    (Answer::Undue, "-"),
    (Answer::Same, "same"),
    (Answer::Other, "other"),
    (Answer::Absent, "absent"),
];

fn word<T: PartialEq + Copy>(table: &[(T, &'static str)], of: T) -> &'static str {
    table.iter().find(|row| row.0 == of).map_or("-", |row| row.1)
}

fn of_word<T: Copy>(table: &[(T, &'static str)], field: &str, word: &str) -> Read<T> {
    let found = table.iter().find(|row| row.1 == word).map(|row| row.0);
    found.ok_or(format!("{field} is \"{}\", which is not known", short(word)))
}

fn first_line(trace: &[u8], events: usize) -> String {
    format!("evidence of a trace: form={FORM} {}", tied(trace, events))
}

impl At {
    fn words(self) -> String {
        format!("behind={} line={}", self.behind, self.line)
    }
}

/// The side file of a trace.
pub fn write(trace: &[u8], e: &Evidence) -> String {
    let mut out = first_line(trace, e.events.len()) + "\n";
    let mut say = |line: String| out += &(line + "\n");
    say(format!("device heard={}", if e.device { "yes" } else { "no" }));
    for (i, seen) in e.events.iter().enumerate() {
        let mut line = format!("{} line={}", i + 1, seen.line);
        if seen.data {
            line += " data=yes";
        }
        if seen.taken != Taken::Unasked {
            line += &format!(" taken={}", word(&TAKEN, seen.taken));
        }
        if seen.answer != Answer::Undue {
            line += &format!(" answer={}", word(&ANSWER, seen.answer));
        }
        if seen.silence > 0 {
            line += &format!(" silence={}", seen.silence);
        }
        if seen.twofold {
            line += " twofold=yes";
        }
        say(line);
    }
    for gap in &e.gaps {
        let why = match &gap.why {
            gaps::Why::Stopped(from, to) => {
                let named = |name: &str, time: &Option<String>| {
                    time.as_ref().map_or(String::new(), |time| format!(" {name}={time}"))
                };
                format!("stopped{}{}", named("from", from), named("to", to))
            }
            gaps::Why::Unconnected => "unconnected".to_string(),
            gaps::Why::Lost => "lost".to_string(),
            gaps::Why::Counted(frames) => format!("counted frames={frames}"),
            gaps::Why::Unreadable => "unreadable".to_string(),
        };
        say(format!("gap {} why={why}", gap.at.words()));
    }
    for loss in &e.losses {
        let (sign, times) = (word(&SIGNS, loss.sign), loss.times);
        say(format!("loss {} sign={sign} times={times}", loss.at.words()));
    }
    if let Some(parted) = &e.parted {
        let asked = if parted.asked { "yes" } else { "no" };
        say(format!("parted {} asked={asked}", parted.at.words()));
    }
    for own in &e.own {
        say(format!("own {} group={:04x}", own.at.words(), own.group));
    }
    for (at, forged) in &e.forged {
        let what = if *forged == Forged::Itself { "itself" } else { "disconnect" };
        say(format!("forged {} what={what}", at.words()));
    }
    for left in &e.left {
        let (why, known) = (word(&WHYS, left.why), left.known.words());
        say(format!("left {} why={why}{known} apdu={}", left.at.words(), run(&left.apdu)));
    }
    if let Some((at, times)) = e.back {
        say(format!("back {} times={times}", at.words()));
    }
    out + "end\n"
}

/// The fields of a line, each once.
struct Fields<'a>(Vec<(&'a str, &'a str)>);

impl<'a> Fields<'a> {
    fn read(words: &mut Line<'a>) -> Read<Fields<'a>> {
        let mut all: Vec<(&str, &str)> = Vec::new();
        while let Some((field, value)) = words.pair()? {
            if all.iter().any(|pair| pair.0 == field) {
                return Err(format!("{} is given twice", short(field)));
            }
            all.push((field, value));
        }
        Ok(Fields(all))
    }

    fn may(&mut self, field: &str) -> Option<&'a str> {
        let at = self.0.iter().position(|pair| pair.0 == field)?;
        Some(self.0.remove(at).1)
    }

    fn must(&mut self, field: &str) -> Read<&'a str> {
        self.may(field).ok_or(format!("{field} is missing"))
    }

    fn number(&mut self, field: &str) -> Read<usize> {
        let value = self.must(field)?;
        let digits = value.bytes().all(|b| b.is_ascii_digit());
        let number = if digits { value.parse().ok() } else { None };
        number.ok_or(format!("{field} is no number: \"{}\"", short(value)))
    }

    fn truth(&mut self, field: &str) -> Read<bool> {
        match self.must(field)? {
            "yes" => Ok(true),
            "no" => Ok(false),
            value => Err(format!("{field} is \"{}\", not yes or no", short(value))),
        }
    }

    fn time(&mut self, field: &str) -> Read<Option<String>> {
        self.may(field).map(time_word).transpose()
    }

    fn at(&mut self, events: usize) -> Read<At> {
        let at = At { behind: self.number("behind")?, line: self.number("line")? };
        if at.behind > events {
            return Err(format!("behind {} of {events} events", at.behind));
        }
        Ok(at)
    }

    fn end(&self) -> Read<()> {
        match self.0.first() {
            None => Ok(()),
            Some((field, _)) => Err(format!("\"{}\" does not belong here", short(field))),
        }
    }
}

fn gap_of(f: &mut Fields, at: At) -> Read<Gap> {
    let why = match f.must("why")? {
        "stopped" => gaps::Why::Stopped(f.time("from")?, f.time("to")?),
        "unconnected" => gaps::Why::Unconnected,
        "lost" => gaps::Why::Lost,
        "counted" => gaps::Why::Counted(f.number("frames")?.min(255) as u8),
        "unreadable" => gaps::Why::Unreadable,
        why => return Err(format!("why is \"{}\", which is not known", short(why))),
    };
    Ok(Gap { at, why })
}

fn left_of(f: &mut Fields, at: At) -> Read<Left> {
    let why = of_word(&WHYS, "why", f.must("why")?)?;
    let known = Known { time: f.time("time")?, from: f.may("from").map(address).transpose()? };
    let apdu = match f.must("apdu")? {
        "-" => Vec::new(),
        digits => bytes_of(digits).map_err(|_| "apdu is not bytes in hex".to_string())?,
    };
    Ok(Left { at, why, known, apdu })
}

impl Evidence {
    /// Takes a line of the side file, by its first word.
    fn take(&mut self, first: &str, f: &mut Fields, events: usize) -> Read<()> {
        match first {
            "device" => self.device = f.truth("heard")?,
            "gap" => {
                let at = f.at(events)?;
                self.gaps.push(gap_of(f, at)?);
            }
            "loss" => {
                let at = f.at(events)?;
                let sign = of_word(&SIGNS, "sign", f.must("sign")?)?;
                self.losses.push(Loss { at, sign, times: f.number("times")? });
            }
            "parted" => {
                self.parted = Some(Parted { at: f.at(events)?, asked: f.truth("asked")? });
            }
            "own" => {
                let at = f.at(events)?;
                self.own.push(Own { at, group: group(f.must("group")?)? });
            }
            "forged" => {
                let at = f.at(events)?;
                let what = match f.must("what")? {
                    "itself" => Forged::Itself,
                    "disconnect" => Forged::Disconnect,
                    what => return Err(format!("what is \"{}\", which is not known", short(what))),
                };
                self.forged.push((at, what));
            }
            "left" => {
                let at = f.at(events)?;
                self.left.push(left_of(f, at)?);
            }
            "back" => self.back = Some((f.at(events)?, f.number("times")?)),
            number => {
                let due = self.events.len() + 1;
                if number.parse() != Ok(due) || due > events {
                    return Err(format!("\"{}\" stands where event {due} is due", short(number)));
                }
                let mut seen = Seen { line: f.number("line")?, ..Seen::default() };
                seen.data = f.may("data").is_some_and(|data| data == "yes");
                seen.twofold = f.may("twofold").is_some_and(|twofold| twofold == "yes");
                if let Some(taken) = f.may("taken") {
                    seen.taken = of_word(&TAKEN, "taken", taken)?;
                }
                if let Some(answer) = f.may("answer") {
                    seen.answer = of_word(&ANSWER, "answer", answer)?;
                }
                if f.0.iter().any(|pair| pair.0 == "silence") {
                    seen.silence = f.number("silence")? as u64;
                }
                self.events.push(seen);
            }
        }
        f.end()
    }
}

/// What a side file says of the events of its trace.
pub fn read(text: &str, trace: &[u8], events: usize) -> Result<Evidence, String> {
    let mut all = Evidence::default();
    let mut ended = false;
    let mut last = 1;
    for (i, line) in text.lines().enumerate() {
        last = i + 1;
        let at = |what: String| format!("line {last}: {what}");
        if i == 0 {
            let form = line.split("form=").nth(1).and_then(|rest| rest.split(' ').next());
            if let Some(form) = form.filter(|form| *form != FORM.to_string()) {
                return Err(at(format!("form {}, and {FORM} is read", short(form))));
            }
            if line.trim_end() != first_line(trace, events) {
                return Err(at("it is not of this trace".to_string()));
            }
            continue;
        }
        let mut words = Line::new(line);
        let Some(first) = words.word() else { continue };
        if ended {
            return Err(at(format!("\"{}\" stands behind the end", short(first))));
        }
        if first == "end" {
            ended = true;
            words.end().map_err(at)?;
            continue;
        }
        let mut fields = Fields::read(&mut words).map_err(at)?;
        all.take(first, &mut fields, events).map_err(at)?;
    }
    if !ended {
        return Err(format!(
            "line {last}: end is missing as the last line: it may have been cut off"
        ));
    }
    if all.events.len() < events {
        return Err(format!("line {last}: event {} is missing", all.events.len() + 1));
    }
    Ok(all)
}

/// An address as the other side files have it.
pub fn sender(known: &Known) -> Option<String> {
    known.from.map(individual_address)
}
