//! Requests of one unit on a connection. What is asked is written, and what is answered read, by the library; an answer counts
//! only if it is one to what was asked.

use std::collections::{BTreeSet, VecDeque};

use sheet::layout::individual_address;
use sheet::show::byte_line;

use crate::archive::{self, event, kind, Pdu};
use crate::bus::{Bus, Destination, Heard};
use crate::key::Key;
use crate::transport::{Told, Transport, Why};
use crate::trouble::Trouble;

/// How long an answer may take once the request is acknowledged: one that is lost comes again after 3 s.
const ANSWER: u64 = 5_900;
/// So often a connect is tried: nobody acknowledges one, so that a lost one shows by a disconnect alone.
const CONNECTS: u8 = 3;
/// The most bytes that one request reads or writes: of a property, of memory, of user memory.
pub const PROPERTY: usize = 10;
pub const MEMORY: usize = 12;
pub const USER_MEMORY: usize = 11;

/// How long a unit may take, in milliseconds.
#[derive(Clone, Copy, Debug, Default, PartialEq, Eq)]
pub struct Patience {
    /// In all.
    pub limit: Option<u64>,
    /// Without a frame of it; transport's own limits apart.
    pub quiet: Option<u64>,
}

/// A property as its description tells it.
#[derive(Clone, Copy, Debug, PartialEq, Eq)]
pub struct Description {
    pub object: u8,
    pub id: u8,
    pub index: u8,
    /// The type's six low bits.
    pub class: u8,
    pub writable: bool,
    pub maximum: u16,
    pub read: u8,
    pub write: u8,
}

/// What became of a write to memory.
#[derive(Clone, Debug, PartialEq, Eq)]
pub enum Stored {
    /// The unit answers with what stands there now.
    Answered(Vec<u8>),
    Refused,
    /// It does not answer writes, so that only reading tells.
    Unanswered,
}

pub struct Unit<'a> {
    bus: &'a mut Bus,
    pub address: u16,
    transport: Transport,
    answers: VecDeque<Vec<u8>>,
    acknowledged: bool,
    ended: Option<Why>,
    /// Whether anything was heard of it, and when last; a frame of ours that could not be sent.
    heard: bool,
    last: u64,
    unsent: bool,
    strangers: BTreeSet<u16>,
    patience: Patience,
    begun: u64,
    connects: u8,
    /// The level that its key gave.
    pub level: u8,
}

impl<'a> Unit<'a> {
    /// Connects; that nobody is there shows at the first request.
    pub fn connect(bus: &'a mut Bus, address: u16, patience: Patience) -> Unit<'a> {
        let now = bus.now();
        Unit {
            bus,
            address,
            transport: Transport::open(now),
            answers: VecDeque::new(),
            acknowledged: false,
            ended: None,
            heard: false,
            last: now,
            unsent: false,
            strangers: BTreeSet::new(),
            patience,
            begun: now,
            connects: 1,
            level: 3,
        }
    }

    fn trouble(&self, why: Why) -> Trouble {
        let others: Vec<String> = self.strangers.iter().map(|&a| individual_address(a)).collect();
        match why {
            Why::Ended => Trouble::Ended { at_once: !self.heard },
            _ if !self.heard && !others.is_empty() => Trouble::Another(others.join(", ")),
            _ if self.heard => Trouble::Stopped,
            _ => Trouble::Silent,
        }
    }

    /// Sends what transport wants sent.
    fn flush(&mut self) -> Result<(), Trouble> {
        while let Some(tpdu) = self.transport.sends() {
            self.bus.send(Destination::Individual(self.address), &tpdu)?;
        }
        Ok(())
    }

    /// Something that happens, up to a time.
    fn pump(&mut self, until: u64) -> Result<(), Trouble> {
        let now = self.bus.now();
        self.transport.tick(now);
        self.flush()?;
        while let Some(told) = self.transport.tells() {
            match told {
                Told::Acknowledged => self.acknowledged = true,
                Told::Data(apdu) => self.answers.push_back(apdu),
                Told::Closed(why) => self.ended = Some(why),
            }
        }
        if let Some(why) = self.ended.filter(|_| self.answers.is_empty()) {
            return Err(self.trouble(why));
        }
        if !self.answers.is_empty() || self.acknowledged {
            return Ok(());
        }
        self.wait(until)
    }

    /// A frame, or the time; what patience there is ends here.
    fn wait(&mut self, until: u64) -> Result<(), Trouble> {
        let mut until = self.transport.due().unwrap_or(until).min(until);
        let now = self.bus.now();
        if let Some(limit) = self.patience.limit {
            if now >= self.begun + limit {
                return Err(Trouble::Limit(limit / 1000));
            }
            until = until.min(self.begun + limit);
        }
        if let Some(quiet) = self.patience.quiet {
            if now >= self.last + quiet {
                return Err(self.trouble(Why::Unacknowledged));
            }
            until = until.min(self.last + quiet);
        }
        match self.bus.next(until)? {
            Some(Heard::Frame(frame)) if self.bus.to_us(&frame) => {
                let now = self.bus.now();
                if frame.source == self.address {
                    (self.heard, self.last) = (self.heard || frame.event != event::DISCONNECT, now);
                    self.transport.tpdu(&frame.tpdu, now);
                } else if frame.event != event::DISCONNECT {
                    self.strangers.insert(frame.source);
                }
            }
            Some(Heard::Sent { to, good: false }) if to == self.address && !self.heard => {
                self.unsent = true;
                return Err(Trouble::Absent);
            }
            _ => {}
        }
        Ok(())
    }

    /// Sends a request, and waits until it is acknowledged. A unit that ends the connection before anything else was heard of
    /// it is connected again.
    fn put(&mut self, apdu: &[u8]) -> Result<(), Trouble> {
        loop {
            match self.put_once(apdu) {
                Err(Trouble::Ended { at_once: true }) if self.connects < CONNECTS => {
                    self.connects += 1;
                    self.ended = None;
                    self.transport = Transport::open(self.bus.now());
                }
                done => return done,
            }
        }
    }

    fn put_once(&mut self, apdu: &[u8]) -> Result<(), Trouble> {
        self.answers.clear();
        self.acknowledged = false;
        let now = self.bus.now();
        if !self.transport.send(apdu, now) {
            let why = self.ended.unwrap_or(Why::Silence);
            return Err(self.trouble(why));
        }
        let mut kept = VecDeque::new();
        while !self.acknowledged {
            let until = self.bus.now() + ANSWER;
            self.pump(until)?;
            // an answer may overtake the acknowledgement
            kept.append(&mut self.answers);
        }
        self.acknowledged = false;
        self.answers = kept;
        Ok(())
    }

    /// A request and its answer, with the answer's data.
    fn ask(
        &mut self,
        pdu: Pdu,
        data: &[u8],
        what: &str,
        fits: impl Fn(&Pdu) -> bool,
    ) -> Result<(Pdu, Vec<u8>), Trouble> {
        let apdu = written(pdu, data)?;
        self.put(&apdu)?;
        let until = self.bus.now() + ANSWER;
        let mut strange = None;
        loop {
            while let Some(answer) = self.answers.pop_front() {
                match archive::read(&answer) {
                    Some((pdu, data)) if fits(&pdu) => return Ok((pdu, data.to_vec())),
                    read => strange = Some(read.map_or(kind::NO_KIND, |(pdu, _)| pdu.kind)),
                }
            }
            let done =
                if self.bus.now() < until { self.pump(until) } else { Err(Trouble::Stopped) };
            match (done, strange) {
                (Err(Trouble::Stopped), Some(other)) => {
                    let what = format!("asked for {what}, it answers {}", name(other));
                    return Err(Trouble::Strange(what));
                }
                // it was acknowledged, so that what is missing is the answer
                (Err(Trouble::Stopped), None) => return Err(Trouble::Unanswered(what.to_string())),
                (done, _) => done?,
            }
        }
    }

    /// The mask version.
    pub fn descriptor(&mut self) -> Result<Vec<u8>, Trouble> {
        let pdu = Pdu { kind: kind::DESCRIPTOR_READ, ..Pdu::default() };
        let fits = |p: &Pdu| p.kind == kind::DESCRIPTOR_RESPONSE && p.t == 0;
        let (_, mask) = self.ask(pdu, &[], "the descriptor", fits)?;
        match mask.len() {
            2 => Ok(mask),
            n => Err(Trouble::Strange(format!("a descriptor of {n} bytes, not 2"))),
        }
    }

    /// Offers a key: the level that it gives.
    pub fn authorize(&mut self, key: Key) -> Result<u8, Trouble> {
        let pdu = Pdu { kind: kind::AUTHORIZE_REQUEST, key: key.number(), ..Pdu::default() };
        let fits = |p: &Pdu| p.kind == kind::AUTHORIZE_RESPONSE;
        let (answer, _) = self.ask(pdu, &[], "a key", fits)?;
        self.level = answer.level;
        Ok(answer.level)
    }

    /// Writes the key of a level; false if that is refused.
    pub fn key_write(&mut self, level: u8, key: Key) -> Result<bool, Trouble> {
        let pdu = Pdu { kind: kind::KEY_WRITE, level, key: key.number(), ..Pdu::default() };
        let fits = |p: &Pdu| p.kind == kind::KEY_RESPONSE;
        let (answer, _) = self.ask(pdu, &[], "a new key", fits)?;
        match answer.level {
            0xFF => Ok(false),
            told if told == level => Ok(true),
            told => Err(Trouble::Strange(format!("the key of level {level}, it answers {told}"))),
        }
    }

    /// Restart; it is acknowledged, or the connection ends by it.
    pub fn restart(&mut self) -> Result<(), Trouble> {
        let apdu = written(Pdu { kind: kind::RESTART, ..Pdu::default() }, &[])?;
        match self.put(&apdu) {
            Err(Trouble::Ended { at_once: false }) => Ok(()),
            done => done,
        }
    }

    /// A property's description: by its id, or, if that is 0, by its index in the object.
    pub fn description(
        &mut self,
        object: u8,
        id: u8,
        index: u8,
    ) -> Result<Option<Description>, Trouble> {
        let pdu = Pdu { kind: kind::DESCRIPTION_READ, object, id, index, ..Pdu::default() };
        let fits = |p: &Pdu| {
            let named = if id != 0 { p.id == id } else { p.index == index };
            p.kind == kind::DESCRIPTION_RESPONSE && p.object == object && named
        };
        let what = match id {
            0 => format!("the description of property {index} in object {object}"),
            id => format!("the description of property {object}/{id}"),
        };
        let (p, _) = self.ask(pdu, &[], &what, fits)?;
        if (p.class, p.maximum, p.access) == (0, 0, 0) {
            return Ok(None);
        }
        Ok(Some(Description {
            object: p.object,
            id: p.id,
            index: p.index,
            class: p.class & 0x3F,
            writable: p.class & 0x80 != 0,
            maximum: p.maximum,
            read: p.access >> 4,
            write: p.access & 15,
        }))
    }

    fn property(
        &mut self,
        of: u8,
        (object, id): (u8, u8),
        (s, n): (u16, u8),
        data: &[u8],
    ) -> Result<Option<Vec<u8>>, Trouble> {
        let pdu = Pdu { kind: of, object, id, s, n, ..Pdu::default() };
        let fits =
            |p: &Pdu| p.kind == kind::PROPERTY_RESPONSE && (p.object, p.id, p.s) == (object, id, s);
        let what = format!("property {object}/{id} from element {s}");
        let (p, answer) = self.ask(pdu, data, &what, fits)?;
        match p.n {
            0 => Ok(None),
            told if told == n && answer.len() % usize::from(n) == 0 && !answer.is_empty() => {
                Ok(Some(answer))
            }
            told => {
                let bytes = answer.len();
                let words = format!("asked for {n} of {what}, it answers {told} in {bytes} bytes");
                Err(Trouble::Strange(words))
            }
        }
    }

    /// So many elements of a property; none if that is refused. Element 0 is the count.
    pub fn property_read(
        &mut self,
        which: (u8, u8),
        s: u16,
        n: u8,
    ) -> Result<Option<Vec<u8>>, Trouble> {
        self.property(kind::PROPERTY_READ, which, (s, n), &[])
    }

    /// Writes elements; what the unit says that stands there now, none if it refuses.
    pub fn property_write(
        &mut self,
        which: (u8, u8),
        s: u16,
        n: u8,
        data: &[u8],
    ) -> Result<Option<Vec<u8>>, Trouble> {
        self.property(kind::PROPERTY_WRITE, which, (s, n), data)
    }

    /// Bytes of memory, or of user memory; none if that is refused.
    pub fn memory_read(&mut self, user: bool, at: u16, n: u8) -> Result<Option<Vec<u8>>, Trouble> {
        let (of, answers) = memory_kinds(user, false);
        let pdu = Pdu { kind: of, address: at, n, ..Pdu::default() };
        let fits = |p: &Pdu| p.kind == answers && p.address == at;
        let what = format!("{n} bytes of {}memory at {at:04x}h", if user { "user " } else { "" });
        let (p, data) = self.ask(pdu, &[], &what, fits)?;
        match p.n {
            0 => Ok(None),
            told if told == n => Ok(Some(data)),
            told => Err(Trouble::Strange(format!("asked for {what}, it answers {told}"))),
        }
    }

    /// Writes bytes of memory. A unit out of verify mode does not answer that: the descriptor is asked for behind it, and what
    /// has not come before its answer does not come.
    pub fn memory_write(&mut self, user: bool, at: u16, data: &[u8]) -> Result<Stored, Trouble> {
        let (of, answers) = memory_kinds(user, true);
        let pdu = Pdu { kind: of, address: at, n: data.len() as u8, ..Pdu::default() };
        let apdu = written(pdu, data)?;
        self.put(&apdu)?;
        let mut stored = self.stored(answers, at, data.len());
        let descriptor = written(Pdu { kind: kind::DESCRIPTOR_READ, ..Pdu::default() }, &[])?;
        self.put(&descriptor)?;
        let until = self.bus.now() + ANSWER;
        loop {
            let now = self.stored(answers, at, data.len());
            if now != Stored::Unanswered {
                stored = now;
            }
            let done = |apdu: &Vec<u8>| {
                archive::read(apdu).is_some_and(|(p, _)| p.kind == kind::DESCRIPTOR_RESPONSE)
            };
            if self.answers.iter().any(done) {
                return Ok(stored);
            }
            if self.bus.now() >= until {
                return Err(Trouble::Unanswered("the descriptor".to_string()));
            }
            self.answers.clear();
            self.pump(until)?;
        }
    }

    /// What the answers that are there say of a write.
    fn stored(&self, answers: u8, at: u16, length: usize) -> Stored {
        let read = self.answers.iter().filter_map(|apdu| archive::read(apdu));
        let mut fits = read.filter(|(p, _)| p.kind == answers && p.address == at);
        match fits.next() {
            Some((p, _)) if p.n == 0 => Stored::Refused,
            Some((p, data)) if usize::from(p.n) == length => Stored::Answered(data.to_vec()),
            _ => Stored::Unanswered,
        }
    }

    /// Ends the connection, and waits until that is out.
    pub fn close(mut self) {
        self.end();
    }

    fn end(&mut self) {
        self.transport.close();
        // on an address that nobody has there is nothing to end
        if !self.unsent {
            let _ = self.flush();
        }
    }
}

impl Drop for Unit<'_> {
    fn drop(&mut self) {
        self.end();
    }
}

/// The kinds of a request to one of the memories and of its answer.
fn memory_kinds(user: bool, write: bool) -> (u8, u8) {
    match (user, write) {
        (false, false) => (kind::MEMORY_READ, kind::MEMORY_RESPONSE),
        (false, true) => (kind::MEMORY_WRITE, kind::MEMORY_RESPONSE),
        (true, false) => (kind::USER_MEMORY_READ, kind::USER_MEMORY_RESPONSE),
        (true, true) => (kind::USER_MEMORY_WRITE, kind::USER_MEMORY_RESPONSE),
    }
}

/// A request written, or that it can't be.
pub fn written(pdu: Pdu, data: &[u8]) -> Result<Vec<u8>, Trouble> {
    archive::write(pdu, data).map_err(|_| {
        let words = format!("{} can't be written with {}", name(pdu.kind), byte_line(data));
        Trouble::Word(words)
    })
}

const NAMES: &str = include_str!("../../../include/kelindap_names.h");

/// A kind of PDU in words, as kelindap_names.h has it.
pub fn name(kind: u8) -> String {
    let list = NAMES.split("#define KELINDAP_KINDS").nth(1).unwrap_or("");
    let row = list.split(&format!(" X({kind}, ")).nth(1);
    let words = row.and_then(|row| row.split('"').nth(1));
    words.map_or("what is no PDU".to_string(), |words| words.replace('_', " "))
}
