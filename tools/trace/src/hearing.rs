//! The device while it hears a recording: which frame is an event, by the archive's word; and what the recording shows of the
//! events and of itself, by the device's own frames in it.

use std::collections::{BTreeSet, HashMap};

use sheet::layout::{entries, word, Kind};

use crate::answers::{Answers, Compared, To};
use crate::archive::{self, Frame, Link};
use crate::events::{self, Event, REQUEST};
use crate::evidence::Why as LeftWhy;
use crate::evidence::{Answer, At, Evidence, Forged, Left, Parted, Seen, Sign, Taken};
use crate::gaps;
use crate::link::{place_of, CONNECT, CONNECTED, DISCONNECT, GROUP};
use crate::make::{Why, FIRST, IND, ITSELF};
use crate::order;
use crate::play::logged;
use crate::recordings::{Recorded, Recording};
use crate::times::Known;
use crate::transport::{Of, Transport, Turn};

/// Numbers of the archives: what is no frame, by its length; an acknowledgement; why connected data, a connect or a
/// disconnect is nobody's partner's.
const SHORT: u8 = 40;
const LENGTH: u8 = 43;
const ACKNOWLEDGED: u8 = 45;
const STRANGER: u8 = 61;
const NO_PLACE: u8 = 62;
const NO_PARTNER: u8 = 63;

/// The octet of T_ACK and T_NAK, without the number.
const T_ACK: u8 = 0xC2;
const T_NAK: u8 = 0xC3;

/// The acknowledgement of a frame on the wire.
const L_ACK: u8 = 0xCC;

/// Transport ends a connection whose partner is silent for longer, in seconds.
const LIMIT: u64 = 6;

/// A sequence number in an octet of transport.
fn number_in(octet: u8) -> u8 {
    octet >> 2 & 15
}

/// Services of an answer to a group, to all, and those that write a group value or an address.
fn service(apdu: &[u8]) -> u16 {
    match apdu {
        [high, low, ..] => u16::from(high & 3) << 8 | u16::from(*low),
        _ => 0,
    }
}

fn is_group_answer(service: u16) -> bool {
    service & 0x3C0 == 0x040 || service == 0x140 || service == 0x3DD
}

fn stores(service: u16) -> bool {
    matches!(service & 0x3C0, 0x040 | 0x080) || matches!(service, 0x0C0 | 0x3DE)
}

type Sent = Result<Vec<u8>, Why>;

pub struct Hearing<'a> {
    frames: &'a [Sent],
    recorded: &'a [Recorded],
    recording: &'a Recording,
    /// The frames that an address sent, or that were sent to it alone.
    parties: HashMap<u16, Vec<usize>>,
    /// Gaps that are told, of which so many are passed.
    notes: usize,
    sheet: Vec<u8>,
    /// The addresses that the device had before.
    former: BTreeSet<u16>,
    link: Link,
    transport: Transport,
    answers: Answers,
    evidence: Evidence,
    /// The last frame, without the bit that tells a repetition.
    last: Vec<u8>,
    /// When a partner was heard last.
    heard: HashMap<u16, String>,
    /// Data out of turn: where. A sign of missing frames, if the device's own can't tell.
    odd: Vec<At>,
    /// Events whose frame nobody acknowledged on the wire.
    unwired: Vec<bool>,
    /// Frames with data that the device did not take, as what follows them shows.
    untaken: &'a BTreeSet<usize>,
    /// The frame of each event, and that of the device's acknowledgement.
    of: Vec<usize>,
    acknowledged: HashMap<usize, usize>,
}

/// A frame that was read, where it stands, and its bytes.
struct Read<'a> {
    i: usize,
    f: Frame,
    bytes: &'a [u8],
}

impl Read<'_> {
    fn apdu(&self) -> &[u8] {
        &self.bytes[self.f.tpdu_offset..self.f.tpdu_offset + self.f.tpdu_length]
    }

    fn octet(&self) -> u8 {
        self.apdu().first().copied().unwrap_or(0)
    }

    fn number(&self) -> u8 {
        number_in(self.octet())
    }

    /// To one device, and not to a group or to all.
    fn to_one(&self) -> bool {
        self.f.control2 & GROUP == 0
    }
}

impl<'a> Hearing<'a> {
    pub fn new(
        sheet: &[u8],
        recording: &'a Recording,
        frames: &'a [Sent],
        untaken: &'a BTreeSet<usize>,
    ) -> Hearing<'a> {
        let mut parties: HashMap<u16, Vec<usize>> = HashMap::new();
        for (i, frame) in frames.iter().enumerate() {
            let Ok(bytes) = frame else { continue };
            let f = archive::frame_read(bytes);
            if f.outcome == 0 && f.control2 & GROUP == 0 {
                parties.entry(f.source).or_default().push(i);
                if f.destination != f.source {
                    parties.entry(f.destination).or_default().push(i);
                }
            }
        }
        Hearing {
            frames,
            recorded: &recording.frames,
            recording,
            parties,
            notes: 0,
            sheet: sheet.to_vec(),
            former: BTreeSet::new(),
            link: Link { sessions: archive::fresh(), address: [0; 2] },
            transport: Transport::default(),
            answers: Answers::default(),
            evidence: Evidence::default(),
            last: Vec::new(),
            heard: HashMap::new(),
            odd: Vec::new(),
            unwired: Vec::new(),
            untaken,
            of: Vec::new(),
            acknowledged: HashMap::new(),
        }
    }

    fn own(&self) -> u16 {
        word(&self.sheet, 16)
    }

    fn at(&self, i: usize) -> At {
        let line = self.recorded.get(i).or(self.recorded.last()).map_or(0, |r| r.line);
        At { behind: self.evidence.events.len(), line }
    }

    fn known(&self, r: &Read) -> Known {
        Known { time: self.recorded[r.i].time.clone(), from: Some(r.f.source) }
    }

    // ---- frame by frame ----

    /// The event of a frame and what is known of it, the event having happened; or why it is none.
    pub fn hear(&mut self, i: usize) -> Result<(Event, Known), Why> {
        self.gaps_before(i);
        if self.recording.back.first() == Some(&i) {
            self.evidence.back = Some((self.at(i), self.recording.back.len()));
        }
        let frames = self.frames;
        let bytes = match &frames[i] {
            Ok(bytes) => bytes,
            Err(why) => {
                if *why == Why::Damaged && !self.repeated_next(i) {
                    self.evidence.gap(self.at(i), gaps::Why::Unreadable);
                }
                return Err(*why);
            }
        };
        let f = archive::frame_read(bytes);
        if f.outcome != 0 {
            if f.outcome == SHORT || f.outcome == LENGTH {
                self.evidence.gap(self.at(i), gaps::Why::Unreadable);
            }
            return Err(Why::Number(f.outcome));
        }
        let r = Read { i, f, bytes };
        self.repeated(&r)?;
        let event = match self.may_be_its_own(&r) {
            true => self.by_device(&r)?,
            false => self.by_other(&r)?,
        };
        let known = self.known(&r);
        Ok((event, known))
    }

    /// The frames of data that the device did not acknowledge, once all are heard.
    pub fn unacknowledged(&self) -> BTreeSet<usize> {
        let events = self.evidence.events.iter().zip(&self.of);
        let waits = |seen: &Seen| seen.data && seen.taken != Taken::Acknowledged;
        events.filter(|(seen, _)| waits(seen)).map(|(_, &i)| i).collect()
    }

    /// Under the device's address; or to a group or to all under one that it had before, for that may be recorded late.
    fn may_be_its_own(&self, r: &Read) -> bool {
        r.f.source == self.own() || (!r.to_one() && self.former.contains(&r.f.source))
    }

    /// What the whole recording shows.
    pub fn finish(mut self) -> Evidence {
        self.gaps_before(self.frames.len());
        // an answer that has not come is missing, unless the recording ends with the acknowledgement before it
        for event in self.answers.missing() {
            let last = self.acknowledged.get(&event).is_some_and(|i| i + 1 < self.frames.len());
            if last {
                let at = self.at(self.frames.len());
                self.evidence.loss(at, Sign::NoAnswer);
            }
        }
        if !self.evidence.device {
            for at in std::mem::take(&mut self.odd) {
                self.evidence.loss(at, Sign::Turn);
            }
        }
        let device = self.evidence.device;
        for (seen, unwired) in self.evidence.events.iter_mut().zip(&self.unwired) {
            if seen.taken == Taken::Unasked {
                seen.taken = match (device && seen.data, unwired) {
                    (true, _) => Taken::Silent,
                    (false, true) => Taken::Unwired,
                    (false, false) => Taken::Unasked,
                };
            }
        }
        self.evidence.losses.sort_by_key(|loss| loss.at.behind);
        self.evidence
    }

    fn gaps_before(&mut self, i: usize) {
        while let Some(note) = self.recording.notes.get(self.notes).filter(|note| note.before <= i)
        {
            self.notes += 1;
            let at = At { behind: self.evidence.events.len(), line: note.line };
            self.evidence.gap(at, note.gap.clone());
        }
    }

    fn loss(&mut self, r: &Read, sign: Sign) {
        let at = self.at(r.i);
        self.evidence.loss(at, sign);
    }

    /// The answer to an event has not come: it is missing if the device took the event.
    fn unanswered(&mut self, r: &Read, event: usize) {
        let taken = self.evidence.events[event].taken == Taken::Acknowledged;
        if taken {
            self.loss(r, Sign::NoAnswer);
        }
    }

    /// An event was taken, and its acknowledgement is not recorded.
    fn taken_all_the_same(&mut self, r: &Read, event: usize) {
        self.evidence.events[event].taken = Taken::Acknowledged;
        self.loss(r, Sign::NoAcknowledgement);
    }

    /// Whether the frame behind a damaged one says that it is a repetition: of that one.
    fn repeated_next(&self, i: usize) -> bool {
        let behind = self.frames[i + 1..].iter().find(|frame| **frame != Err(Why::Signal));
        let Some(Ok(bytes)) = behind else { return false };
        let f = archive::frame_read(bytes);
        f.outcome == 0 && f.code == IND && f.control1 & FIRST == 0
    }

    /// A repetition on the wire says that it is one, and is what was sent last.
    fn repeated(&mut self, r: &Read) -> Result<(), Why> {
        let f = &r.f;
        let mut bare = r.bytes.to_vec();
        bare[f.info_offset + f.info_length] |= FIRST;
        bare.drain(f.info_offset..f.info_offset + f.info_length);
        bare[1] = 0;
        let same = f.code == IND && f.control1 & FIRST == 0 && bare == self.last;
        self.last = bare;
        if same {
            if self.wired(r.i) {
                self.unwired.last_mut().into_iter().for_each(|unwired| *unwired = false);
            }
            return Err(Why::Repeated);
        }
        Ok(())
    }

    /// Whether a frame was acknowledged on the wire, or was not recorded there.
    fn wired(&self, i: usize) -> bool {
        let next = self.recorded.get(i + 1);
        !self.recorded[i].wire || next.is_some_and(|next| next.wire && next.bytes == [L_ACK])
    }

    // ---- what others send ----

    fn by_other(&mut self, r: &Read) -> Result<Event, Why> {
        let partner = r.f.source;
        self.transport.sends(partner);
        let heard = archive::heard(self.link, &self.sheet, r.bytes);
        let event = match heard.event {
            CONNECT => {
                self.starts(r, partner);
                self.transport.connects(partner);
                Event::connect(heard.connection)
            }
            DISCONNECT => {
                self.starts(r, partner);
                self.transport.leaves(partner);
                Event::disconnect(heard.connection)
            }
            CONNECTED => {
                let number = r.number();
                let turn = self.transport.turn(partner, number, r.apdu());
                match turn {
                    Turn::Next if self.untaken.contains(&r.i) => {
                        self.transport.passes(partner, number);
                        self.left_out(r, LeftWhy::Untaken);
                        return Err(Why::Untaken);
                    }
                    Turn::Next => {}
                    Turn::Again => {
                        self.transport.again(partner, number);
                        return Err(Why::Repeated);
                    }
                    Turn::Out => {
                        self.transport.odd(partner, number);
                        self.odd.push(self.at(r.i));
                        self.left_out(r, LeftWhy::OutOfTurn);
                        return Err(Why::OutOfTurn);
                    }
                }
                let (mode, connection) = (CONNECTED, heard.connection);
                Event { kind: REQUEST, mode, connection, group: 0, apdu: r.apdu().to_vec() }
            }
            mode if mode < CONNECTED => {
                let group = if mode == 0 { heard.group } else { 0 };
                Event { kind: REQUEST, mode, connection: 0, group, apdu: r.apdu().to_vec() }
            }
            number => {
                self.no_event(r, number);
                return Err(Why::Number(number));
            }
        };
        self.happens(r, &event);
        if event.kind == REQUEST && event.mode == CONNECTED {
            let index = self.evidence.events.len() - 1;
            let twofold = self.transport.takes(partner, r.number(), index, r.apdu());
            self.evidence.events[index].twofold = twofold;
        }
        self.heard_now(r);
        Ok(event)
    }

    /// A partner's frame that is no event, and what it shows.
    fn no_event(&mut self, r: &Read, number: u8) {
        let partner = r.f.source;
        match number {
            ACKNOWLEDGED => {
                // a receipt may cross the device's own disconnect
                let due = self.transport.was_due(partner, r.number());
                if !due && !self.transport.ended(partner) {
                    self.loss(r, Sign::StrayReceipt);
                }
                self.heard_now(r);
            }
            STRANGER => {
                self.transport.turns_away(partner, r.i);
                self.transport.odd(partner, r.number());
                self.left_out(r, LeftWhy::Stranger);
            }
            NO_PLACE => self.transport.turns_away(partner, r.i),
            NO_PARTNER if !self.transport.ended(partner) => {
                self.loss(r, Sign::StrayDisconnect);
            }
            _ => {}
        }
    }

    fn heard_now(&mut self, r: &Read) {
        if let Some(time) = &self.recorded[r.i].time {
            self.heard.insert(r.f.source, time.clone());
        }
    }

    fn left_out(&mut self, r: &Read, why: LeftWhy) {
        let (at, known) = (self.at(r.i), self.known(r));
        self.evidence.left_out(Left { at, why, known, apdu: r.apdu().to_vec() });
    }

    /// A connection begins or ends: answers on it that have not come are missing, where the device took what asked for them.
    fn starts(&mut self, r: &Read, partner: u16) {
        for event in self.answers.ends(partner) {
            self.unanswered(r, event);
        }
    }

    // ---- what the device sends ----

    /// A frame under the device's own address. To itself it is nobody's, by the archive's number; to a group or to all it may be
    /// the device's own.
    fn by_device(&mut self, r: &Read) -> Result<Event, Why> {
        let to = r.f.destination;
        if r.to_one() && to == self.own() {
            let number = archive::heard(self.link, &self.sheet, r.bytes).event.max(ITSELF);
            let at = self.at(r.i);
            self.evidence.forged_frame(at, Forged::Itself);
            if r.f.event <= CONNECTED {
                self.left_out(r, LeftWhy::Itself);
            }
            return Err(Why::Number(number));
        }
        self.evidence.device = true;
        match (r.to_one(), r.f.event) {
            (true, DISCONNECT) => return self.device_ends(r),
            (true, ACKNOWLEDGED) => self.acknowledges(r),
            (true, CONNECTED) => self.answers_on(r),
            (true, event) if event < CONNECTED => {
                let compared = self.answers.loose(To::One(to), r.apdu());
                self.answered(r, to, compared);
            }
            (false, event) if event < CONNECTED => self.answers_all(r),
            _ => {}
        }
        Err(Why::OfTheDevice)
    }

    /// A disconnect under the device's address: its own, unless it goes on to acknowledge that partner.
    fn device_ends(&mut self, r: &Read) -> Result<Event, Why> {
        let partner = r.f.destination;
        let Some(connection) = place_of(&self.link, partner) else {
            if !self.transport.owed(partner, r.i) {
                self.loss(r, Sign::StrayEnd);
            }
            self.transport.ends(partner);
            return Err(Why::OfTheDevice);
        };
        if let Some(late) = self.went_on(r.i, partner) {
            let at = self.at(r.i);
            self.evidence.forged_frame(at, Forged::Disconnect);
            if late {
                self.loss(r, Sign::LateAcknowledgement);
            }
            return Err(Why::NotItsOwn);
        }
        for event in self.transport.ends(partner) {
            let taken = &mut self.evidence.events[event].taken;
            if *taken == Taken::Unasked {
                *taken = Taken::Ended;
            }
        }
        self.starts(r, partner);
        let event = Event::disconnect(connection);
        self.happens(r, &event);
        Ok(event)
    }

    /// Whether the device goes on to acknowledge a partner behind this frame, before that one connects or disconnects; and if
    /// so, whether it is of data that was sent before it.
    fn went_on(&self, i: usize, partner: u16) -> Option<bool> {
        let own = self.own();
        let (mut next, mut sent) = (self.transport.next(partner), 0u16);
        let all = self.parties.get(&partner)?;
        for &j in &all[all.partition_point(|&j| j <= i)..] {
            let Ok(bytes) = &self.frames[j] else { continue };
            let r = Read { i: j, f: archive::frame_read(bytes), bytes };
            match (r.f.source == partner, r.f.event) {
                // under which address the device goes on is not followed
                (true, CONNECT) => return None,
                (true, _) if r.f.destination != own => {}
                (true, DISCONNECT) => return None,
                (true, CONNECTED) => {
                    let number = r.number();
                    if number == next || (number + 1) & 15 == next {
                        sent |= 1 << number;
                    }
                    if number == next {
                        next = (next + 1) & 15;
                    }
                }
                (false, ACKNOWLEDGED) if r.f.source == own => {
                    let number = r.number();
                    if sent & 1 << number != 0 {
                        return Some(false);
                    }
                    if self.transport.waits(partner, number) {
                        return Some(true);
                    }
                }
                _ => {}
            }
        }
        None
    }

    fn acknowledges(&mut self, r: &Read) {
        let (partner, number) = (r.f.destination, r.number());
        let of = match r.octet() & !(15 << 2) {
            T_ACK => self.transport.acknowledged(partner, number),
            T_NAK => {
                if let Of::Event(event, _) = self.transport.refused(partner, number) {
                    self.evidence.events[event].taken = Taken::Refused;
                }
                return;
            }
            _ => return,
        };
        match of {
            Of::Event(event, before) => {
                self.evidence.events[event].taken = Taken::Acknowledged;
                self.acknowledged.insert(event, r.i);
                for event in before {
                    self.taken_all_the_same(r, event);
                }
            }
            Of::Again => {}
            Of::Odd => self.loss(r, Sign::TookOdd),
            Of::Nothing => self.loss(r, Sign::StrayAcknowledgement),
        }
    }

    /// An answer on a connection.
    fn answers_on(&mut self, r: &Read) {
        let partner = r.f.destination;
        let (compared, missing) = self.answers.on(partner, r.number(), r.apdu());
        for event in missing {
            self.unanswered(r, event);
        }
        self.answered(r, partner, compared);
    }

    /// A frame to a group or to all: an answer that is due, or one that may be the device's own.
    fn answers_all(&mut self, r: &Read) {
        let (group, service) = (r.f.destination, service(r.apdu()));
        let compared = match is_group_answer(service) {
            true => self.answers.loose(To::Group(group), r.apdu()),
            false => Compared::Unasked,
        };
        match compared {
            Compared::Unasked | Compared::Again => {
                // the address, or the value of a group that the device has
                let has = |e: &[u8]| word(e, 0) == group;
                if stores(service) && (group == 0 || entries(&self.sheet, Kind::Group).any(has)) {
                    let at = self.at(r.i);
                    self.evidence.own_frame(at, group);
                }
            }
            compared => self.answered(r, 0, compared),
        }
    }

    /// What a recorded answer shows.
    fn answered(&mut self, r: &Read, partner: u16, compared: Compared) {
        let (event, answer) = match compared {
            Compared::Same(event) => (event, Answer::Same),
            Compared::Other(event, _) => (event, Answer::Other),
            Compared::Again => return,
            Compared::Unasked => {
                self.parts(self.at(r.i), false);
                return;
            }
        };
        let seen = &mut self.evidence.events[event];
        seen.answer = answer;
        if !seen.data {
            seen.taken = Taken::Acknowledged;
        }
        for event in self.transport.answered(partner, event) {
            self.taken_all_the_same(r, event);
        }
        if answer == Answer::Other {
            self.parts(At { behind: event + 1, ..self.at(r.i) }, true);
        }
    }

    fn parts(&mut self, at: At, asked: bool) {
        self.evidence.parted.get_or_insert(Parted { at, asked });
    }

    // ---- events ----

    /// The event is played, and what is due of it is noted.
    fn happens(&mut self, r: &Read, event: &Event) {
        let at = self.at(r.i);
        let index = at.behind;
        let trace = events::write(std::slice::from_ref(event));
        let mut log = [0; 18];
        let (before, own) = (self.link.sessions, self.own());
        let played =
            archive::play(&mut self.link.sessions, &mut self.sheet, &trace, 0, 1, &mut log);
        debug_assert_eq!(played, Ok(1));
        if self.own() != own {
            self.former.insert(own);
        }
        let partner = r.f.source;
        if event.kind == events::CONNECT {
            self.link.address[usize::from(event.connection)] = partner;
        }
        let data = event.kind == REQUEST && event.mode == CONNECTED;
        let (_, answer) = logged(&log);
        let mut seen = Seen { line: at.line, data, ..Seen::default() };
        if !answer.is_empty() {
            seen.answer = Answer::Absent;
            match event.mode {
                CONNECTED => {
                    let number = self.transport.answers(partner);
                    self.answers.due_on(partner, number, index, answer);
                }
                0 => self.answers.due(To::Group(event.group), index, answer),
                1 => self.answers.due(To::Group(0), index, answer),
                _ => self.answers.due(To::One(partner), index, answer),
            }
        }
        if data {
            let (last, now) = (self.heard.get(&partner), &self.recorded[r.i].time);
            let passed = last.zip(now.as_ref()).and_then(|(from, to)| order::between(from, to));
            seen.silence = passed.filter(|&passed| passed > LIMIT).unwrap_or(0);
        }
        self.evidence.events.push(seen);
        self.of.push(r.i);
        self.unwired.push(!self.wired(r.i));
        // whom a Restart has cut off, the device tells
        if event.kind == REQUEST {
            for c in 0..2 {
                if before.of[c].open && !self.link.sessions.of[c].open {
                    self.transport.cut_off(self.link.address[c], r.i);
                }
            }
        }
    }
}
