//! What is played on both sides: the commands of the bridge, and the model
//! that says what each of them must bring.

use model::device::{self, Session, Sessions, Way, FRESH};
use model::faults::Fault;
use model::gen::{Ask, Event};
use model::link::{self, Addresses, Arrival};
use model::pdu;
use model::sheet::{self, Memory};
use model::{store, trace};

use crate::flat::{Flat, NO_KIND};
use crate::hex;

#[derive(Clone, Debug)]
pub enum Play {
    Sheet(Vec<u8>),
    /// One byte of the sheet becomes another.
    Poke(usize, u8),
    Check,
    Convert,
    Fresh,
    /// The session of a connection, 0 or 1, as it is found.
    Found(u8, Session),
    Connect(u8),
    Disconnect(u8),
    Button(bool),
    Request(Ask),
    Property(u8, u8),
    Region(Memory, u64),
    Group(u16),
    Read(Vec<u8>),
    /// A flat PDU, its data, and the buffer as found.
    Write(Flat, Vec<u8>, Vec<u8>),
    Store(Vec<u8>),
    Save,
    /// On a connection, the version of a number.
    Restore(u8, u64),
    Remove(u64),
    Versions,
    Trace(Vec<u8>),
    /// From so many events on, at most so many, into a log as found.
    Pieces(u64, u64, Vec<u8>),
    /// The same with marks, so many events having been marked before.
    Marked(u64, u64, u32, Vec<u8>),
    /// The addresses of both partners, as they are found.
    Addresses(Addresses),
    Heard(Vec<u8>),
    /// With a sequence number, a frame, and the buffer as found.
    Serve(u8, Vec<u8>, Vec<u8>),
}

fn run(out: &mut Vec<u8>, bytes: &[u8]) {
    out.extend((bytes.len() as u16).to_le_bytes());
    out.extend(bytes);
}

impl Play {
    pub fn of(event: Event) -> Play {
        match event {
            Event::Connect(c) => Play::Connect(c),
            Event::Disconnect(c) => Play::Disconnect(c),
            Event::Button(on) => Play::Button(on),
            Event::Found(c, session) => Play::Found(c, session),
            Event::Request(ask) => Play::Request(ask),
        }
    }

    /// A call on the store, beside which nothing else looks at it.
    pub fn on_store(&self) -> bool {
        matches!(self, Play::Save | Play::Restore(..) | Play::Remove(_))
    }

    /// The command for the bridge.
    pub fn send(&self, out: &mut Vec<u8>) {
        match self {
            Play::Sheet(sheet) => {
                out.push(b's');
                out.extend((sheet.len() as u32).to_le_bytes());
                out.extend(sheet);
            }
            Play::Poke(at, value) => {
                out.push(b'x');
                out.extend((*at as u32).to_le_bytes());
                out.push(*value);
            }
            Play::Check => out.push(b'k'),
            Play::Convert => out.push(b'n'),
            Play::Fresh => out.push(b'f'),
            Play::Found(c, session) => out.extend([b'v', *c, session.open as u8, session.level]),
            Play::Connect(c) => out.extend([b'c', *c]),
            Play::Disconnect(c) => out.extend([b'd', *c]),
            Play::Button(on) => out.extend([b'b', *on as u8]),
            Play::Request(ask) => {
                out.extend([b'q', ask.way.mode, ask.way.connection]);
                out.extend(ask.way.group.to_le_bytes());
                run(out, &ask.apdu);
                run(out, &ask.buffer);
            }
            Play::Property(object, id) => out.extend([b'p', *object, *id]),
            Play::Region(memory, k) => {
                out.push(if *memory == Memory::User { b'u' } else { b'r' });
                out.extend(k.to_le_bytes());
            }
            Play::Group(address) => {
                out.push(b'g');
                out.extend(address.to_le_bytes());
            }
            Play::Read(apdu) => {
                out.push(b'R');
                run(out, apdu);
            }
            Play::Write(flat, data, buffer) => {
                out.push(b'W');
                flat.send(out);
                run(out, data);
                run(out, buffer);
            }
            Play::Store(store) => {
                out.push(b'S');
                out.extend((store.len() as u32).to_le_bytes());
                out.extend(store);
            }
            Play::Save => out.push(b'a'),
            Play::Restore(c, number) => {
                out.extend([b'o', *c]);
                out.extend(number.to_le_bytes());
            }
            Play::Remove(number) => {
                out.push(b'e');
                out.extend(number.to_le_bytes());
            }
            Play::Versions => out.push(b'w'),
            Play::Trace(trace) => {
                out.push(b'Y');
                out.extend((trace.len() as u32).to_le_bytes());
                out.extend(trace);
            }
            Play::Pieces(from, limit, log) => {
                out.push(b'y');
                out.extend(from.to_le_bytes());
                out.extend(limit.to_le_bytes());
                out.extend((log.len() as u32).to_le_bytes());
                out.extend(log);
            }
            Play::Addresses(addresses) => {
                out.push(b'l');
                out.extend(both(addresses));
            }
            Play::Heard(frame) => {
                out.push(b'h');
                run(out, frame);
            }
            Play::Serve(sequence, frame, buffer) => {
                out.extend([b'z', *sequence]);
                run(out, frame);
                run(out, buffer);
            }
            Play::Marked(from, limit, played, log) => {
                out.push(b'm');
                out.extend(from.to_le_bytes());
                out.extend(limit.to_le_bytes());
                out.extend(played.to_le_bytes());
                out.extend((log.len() as u32).to_le_bytes());
                out.extend(log);
            }
        }
    }

    /// The command in the desk unit's language; `after` is the sheet that a
    /// changed byte makes.
    pub fn line(&self, after: &[u8]) -> String {
        match self {
            Play::Sheet(_) | Play::Poke(..) | Play::Check => format!("sheet {}", hex(after)),
            Play::Convert => "convert".to_string(),
            Play::Fresh => "# fresh sessions".to_string(),
            Play::Found(c, s) => format!("session {c} {} {}", s.open as u8, s.level),
            Play::Connect(c) => format!("connect {c}"),
            Play::Disconnect(c) => format!("disconnect {c}"),
            Play::Button(on) => format!("button {}", if *on { "on" } else { "off" }),
            Play::Request(a) => {
                let Way { mode, connection, group } = a.way;
                format!("request {mode} {group} {} {} {connection}", hex(&a.apdu), hex(&a.buffer))
            }
            Play::Property(object, id) => format!("lookup property {object} {id}"),
            Play::Region(Memory::Device, k) => format!("lookup region {k}"),
            Play::Region(Memory::User, k) => format!("lookup user {k}"),
            Play::Group(address) => format!("lookup group {address}"),
            Play::Read(apdu) => format!("read {}", hex(apdu)),
            Play::Write(flat, data, buffer) => {
                format!("write {} {}", flat.words(data), hex(buffer))
            }
            Play::Store(store) => format!("store {}", hex(store)),
            Play::Save => "save".to_string(),
            Play::Restore(c, number) => format!("restore {c} {number}"),
            Play::Remove(number) => format!("remove {number}"),
            Play::Versions => "versions".to_string(),
            Play::Trace(trace) => format!("trace {}", hex(trace)),
            Play::Pieces(from, limit, log) => {
                let limit = (*limit).min(65_535);
                format!("# {from} played, a log of {} bytes\nplay {limit}", log.len())
            }
            Play::Addresses([first, second]) => format!("# addresses {first} {second}"),
            Play::Heard(frame) => format!("heard {}", hex(frame)),
            Play::Serve(sequence, frame, buffer) => {
                format!("serve {sequence} {} {}", hex(frame), hex(buffer))
            }
            Play::Marked(from, limit, played, log) => {
                format!("# {from} played, {played} marked, at most {limit}, a log of {}", log.len())
            }
        }
    }

    /// A reply of the bridge in words.
    pub fn explain(&self, reply: &[u8]) -> String {
        let tail = |n: usize| hex(&reply[reply.len() - n..]);
        match self {
            Play::Sheet(_) | Play::Poke(..) | Play::Check => {
                format!("rule {}, sheet hash {}", reply[0], tail(8))
            }
            Play::Fresh | Play::Found(..) => format!("sessions {}", sessions(reply)),
            Play::Convert | Play::Connect(_) | Play::Disconnect(_) | Play::Button(_) => {
                let sessions = sessions(&reply[1..]);
                format!("outcome {}, sessions {sessions}, sheet hash {}", reply[0], tail(8))
            }
            Play::Request(_) => format!(
                "outcome {}, sessions {}, count {}, parts {}, buffer {}, sheet hash {}",
                reply[0],
                sessions(&reply[2..]),
                reply[1],
                parts(&reply[2 + 4..REQUEST]),
                hex(&reply[REQUEST..reply.len() - 8]),
                tail(8)
            ),
            Play::Property(..) | Play::Region(..) | Play::Group(_) => {
                let word = |i: usize| u64::from_le_bytes(reply[i..i + 8].try_into().unwrap());
                format!("offset {}, length {}, sheet hash {}", word(0), word(8), tail(8))
            }
            Play::Read(_) => {
                format!("outcome {}, kind {}, flat PDU {}", reply[20], reply[21], hex(reply))
            }
            Play::Write(..) => {
                format!("outcome {}, count {}, buffer {}", reply[0], reply[1], hex(&reply[2..]))
            }
            Play::Store(_) | Play::Remove(_) => {
                format!("outcome {}, store hash {}", reply[0], tail(8))
            }
            Play::Versions => format!("versions, number and length of each: {}", hex(reply)),
            Play::Save => {
                let number = u16::from_le_bytes([reply[1], reply[2]]);
                format!("outcome {}, number {number}, hashes {}", reply[0], tail(16))
            }
            Play::Restore(..) => {
                let sessions = sessions(&reply[1..]);
                format!("outcome {}, sessions {sessions}, hashes {}", reply[0], tail(16))
            }
            Play::Trace(_) => format!("refusal {}", reply[0]),
            Play::Pieces(..) => {
                let (handled, after) =
                    (u16::from_le_bytes([reply[1], reply[2]]), sessions(&reply[3..]));
                let log = hex(&reply[PIECES..reply.len() - 8]);
                format!("refusal {}, {handled} handled, sessions {after}, log {log}", reply[0])
            }
            Play::Addresses(_) => format!("addresses {}", hex(reply)),
            Play::Heard(_) => {
                let group = u16::from_le_bytes([reply[2], reply[3]]);
                format!("event {}, connection {}, group {group}", reply[0], reply[1])
            }
            Play::Serve(..) => {
                let (four, after) = (&reply[..4], sessions(&reply[4..]));
                let [number, outcome, connection, count] = four else { unreachable!() };
                let (addresses, stored) = (hex(&reply[8..12]), parts(&reply[12..SERVED]));
                let buffer = hex(&reply[SERVED..reply.len() - 8]);
                format!("number {number}, outcome {outcome}, connection {connection}, count {count}, sessions {after}, addresses {addresses}, parts {stored}, buffer {buffer}, sheet hash {}", tail(8))
            }
            Play::Marked(..) => {
                let (handled, after) =
                    (u16::from_le_bytes([reply[1], reply[2]]), sessions(&reply[3..]));
                let log = hex(&reply[PIECES..reply.len() - 16]);
                let hashes = tail(16);
                format!(
                    "refusal {}, {handled} handled, sessions {after}, log {log}, hashes {hashes}",
                    reply[0]
                )
            }
        }
    }
}

/// Open and level of both connections, as the desk unit has them.
pub fn sessions(reply: &[u8]) -> String {
    let [first, its, second, level] = reply[..4] else { unreachable!() };
    format!("{first} {its} {second} {level}")
}

/// Offset and length of both parts that a request stored, as the bridge tells them.
fn flat_parts(changed: &[(usize, usize); 2]) -> [u8; 16] {
    let mut flat = [0; 16];
    let numbers = changed.iter().flat_map(|&(offset, length)| [offset, length]);
    for (place, n) in flat.chunks_mut(4).zip(numbers) {
        place.copy_from_slice(&(n as u32).to_le_bytes());
    }
    flat
}

/// And in words.
fn parts(reply: &[u8]) -> String {
    let (numbers, _) = reply.as_chunks();
    let text: Vec<String> = numbers.iter().map(|n| u32::from_le_bytes(*n).to_string()).collect();
    text.join(" ")
}

/// Where the buffer begins in the reply to a request: after outcome, count, both sessions and the
/// parts stored.
pub const REQUEST: usize = 2 + 4 + 16;

/// Where the log begins in the reply to playing: after refusal, number handled and both sessions.
pub const PIECES: usize = 3 + 4;

/// Where the buffer begins in the reply to serving: after four numbers, both sessions and both addresses.
pub const SERVED: usize = 4 + 4 + 4 + 16;
/// So many versions of a store are asked for: one more than it can keep.
const VERSIONS: usize = 9;

fn both(addresses: &Addresses) -> [u8; 4] {
    let [[a, b], [c, d]] = addresses.map(u16::to_le_bytes);
    [a, b, c, d]
}

/// The hash of the bridge: FNV-1a by words of eight bytes, with each word's
/// upper half brought down.
pub fn hash(bytes: &[u8]) -> u64 {
    const PRIME: u64 = 0x100_0000_01B3;
    let mut h = 0xCBF2_9CE4_8422_2325 ^ bytes.len() as u64;
    let (words, rest) = bytes.as_chunks();
    for word in words {
        h = (h ^ u64::from_le_bytes(*word)).wrapping_mul(PRIME);
        h ^= h >> 32;
    }
    for &b in rest {
        h = (h ^ b as u64).wrapping_mul(PRIME);
    }
    h
}

fn flat(sessions: &Sessions) -> [u8; 4] {
    let [first, second] = sessions;
    [first.open as u8, first.level, second.open as u8, second.level]
}

/// The model's side: a sheet, a store, a trace, the sessions, and perhaps a fault.
#[derive(Clone)]
pub struct World {
    /// The edition that the sheet has on the bridge, where that is another.
    pub told: Option<u8>,
    pub sheet: Vec<u8>,
    pub store: Vec<u8>,
    pub trace: Vec<u8>,
    pub sessions: Sessions,
    pub addresses: Addresses,
    /// A number for each byte of the sheet, and one for each level.
    pub marks: Vec<u32>,
    pub fault: Fault,
}

impl World {
    pub fn new(fault: Fault) -> World {
        let (sheet, store, trace) = (Vec::new(), Vec::new(), Vec::new());
        let (addresses, marks) = ([0; 2], vec![0; 2]);
        World { told: None, sheet, store, trace, sessions: FRESH, addresses, marks, fault }
    }

    /// Plays one command and adds the reply that the bridge must give.
    pub fn play(&mut self, play: &Play, reply: &mut Vec<u8>) {
        match play {
            Play::Sheet(sheet) => {
                self.sheet.clone_from(sheet);
                self.marks = vec![0; sheet.len() + 2];
                self.rule(reply);
            }
            Play::Poke(at, value) => {
                self.sheet[*at] = *value;
                self.rule(reply);
            }
            Play::Check => self.rule(reply),
            Play::Convert => {
                let outcome = sheet::convert(self.fault, &mut self.sheet);
                self.outcome(outcome, reply);
            }
            Play::Fresh => {
                self.sessions = FRESH;
                self.sessions(reply);
            }
            Play::Found(c, session) => {
                self.sessions[*c as usize] = *session;
                self.sessions(reply);
            }
            Play::Connect(c) => {
                let outcome = device::connect_with(self.fault, &mut self.sessions, *c);
                self.outcome(outcome, reply);
            }
            Play::Disconnect(c) => {
                let outcome = device::disconnect_with(self.fault, &mut self.sessions, *c);
                self.outcome(outcome, reply);
            }
            Play::Button(on) => {
                let outcome = device::button_with(self.fault, &mut self.sheet, *on);
                self.outcome(outcome, reply);
            }
            Play::Request(ask) => {
                let (at, buffer) = (reply.len(), reply.len() + REQUEST);
                reply.extend([0; REQUEST]);
                reply.extend(&ask.buffer);
                let (q, sheet, answer) =
                    (&mut self.sessions, &mut self.sheet, &mut reply[buffer..]);
                let got = if self.fault == Fault::None {
                    device::request(q, ask.way, &ask.apdu, sheet, answer)
                } else {
                    device::request_with(self.fault, q, ask.way, &ask.apdu, sheet, answer)
                };
                reply[at..at + 2].copy_from_slice(&[got.outcome, got.count]);
                reply[at + 2..at + 6].copy_from_slice(&flat(&self.sessions));
                reply[at + 6..buffer].copy_from_slice(&flat_parts(&got.changed));
                self.hash(reply);
            }
            Play::Property(object, id) => {
                self.part(sheet::property(self.fault, &self.sheet, *object, *id), reply);
            }
            Play::Region(memory, k) => {
                self.part(sheet::region(self.fault, &self.sheet, *memory, *k as usize), reply);
            }
            Play::Group(address) => {
                self.part(sheet::group(self.fault, &self.sheet, *address), reply);
            }
            Play::Read(apdu) => {
                let flat = match pdu::read(apdu) {
                    Ok((pdu, data)) => Flat {
                        data_offset: data.start as u64,
                        data_length: data.len() as u64,
                        ..Flat::lay(&pdu, Flat::default())
                    },
                    Err(outcome) => Flat { outcome, kind: NO_KIND, ..Flat::default() },
                };
                flat.send(reply);
            }
            Play::Write(flat, data, buffer) => {
                let at = reply.len() + 2;
                reply.extend([0, 0]);
                reply.extend(buffer);
                let written = match flat.mean() {
                    Some(pdu) => pdu::write(&pdu, data, &mut reply[at..]),
                    None if buffer.len() < 16 => Err(3),
                    None => Err(13),
                };
                let (outcome, count) = match written {
                    Ok(count) => (0, count as u8),
                    Err(outcome) => (outcome, 0),
                };
                reply[at - 2..at].copy_from_slice(&[outcome, count]);
            }
            Play::Store(store) => {
                self.store.clone_from(store);
                reply.push(store::check(store));
                self.hash_store(reply);
            }
            Play::Save => {
                let (outcome, number) = store::save(self.fault, &self.sheet, &mut self.store);
                reply.push(outcome);
                reply.extend(number.to_le_bytes());
                self.hash(reply);
                self.hash_store(reply);
            }
            Play::Restore(c, number) => {
                let (q, sheet) = (&self.sessions, &mut self.sheet);
                let outcome = store::restore(self.fault, q, *c, sheet, &self.store, *number);
                self.outcome(outcome, reply);
                self.hash_store(reply);
            }
            Play::Remove(number) => {
                reply.push(store::remove(self.fault, &mut self.store, *number));
                self.hash_store(reply);
            }
            Play::Versions => {
                let kept = store::kept(self.fault, &self.store);
                for k in 0..VERSIONS {
                    let (number, length) = kept.get(k).copied().unwrap_or_default();
                    reply.extend(number.to_le_bytes());
                    reply.extend(length.to_le_bytes());
                }
            }
            Play::Trace(trace) => {
                self.trace.clone_from(trace);
                reply.push(trace::check(self.fault, trace));
            }
            Play::Pieces(from, limit, log) => {
                let (at, start) = (reply.len(), reply.len() + PIECES);
                reply.extend([0; PIECES]);
                reply.extend(log);
                let (q, sheet, log) = (&mut self.sessions, &mut self.sheet, &mut reply[start..]);
                let place = (*from, *limit);
                let (why, handled) = trace::play(self.fault, q, sheet, &self.trace, place, log);
                reply[at] = why;
                reply[at + 1..at + 3].copy_from_slice(&handled.to_le_bytes());
                reply[at + 3..start].copy_from_slice(&flat(&self.sessions));
                self.hash(reply);
            }
            Play::Addresses(addresses) => {
                self.addresses = *addresses;
                reply.extend(both(addresses));
            }
            Play::Heard(frame) => {
                let own = link::own(&self.sheet);
                let (event, connection, group) =
                    match link::heard(self.fault, &self.sessions, &self.addresses, own, frame) {
                        Ok(Arrival::Data(way)) => (way.mode, way.connection, way.group),
                        Ok(Arrival::Connect(c)) => (4, c, 0),
                        Ok(Arrival::Disconnect(c)) => (5, c, 0),
                        Err(why) => (why.number, why.connection, 0),
                    };
                reply.extend([event, connection]);
                reply.extend(group.to_le_bytes());
                let (source, sequence, negative) = link::sender(self.fault, frame);
                reply.extend(source.to_le_bytes());
                reply.extend([sequence, u8::from(negative)]);
            }
            Play::Serve(sequence, frame, buffer) => {
                let (at, start) = (reply.len(), reply.len() + SERVED);
                reply.extend([0; SERVED]);
                reply.extend(buffer);
                let (q, sheet) = ((&mut self.sessions, &mut self.addresses), &mut self.sheet);
                let s = link::serve(self.fault, q, *sequence, frame, sheet, &mut reply[start..]);
                reply[at..at + 4].copy_from_slice(&[s.number, s.outcome, s.connection, s.count]);
                reply[at + 4..at + 8].copy_from_slice(&flat(&self.sessions));
                reply[at + 8..at + 12].copy_from_slice(&both(&self.addresses));
                reply[at + 12..start].copy_from_slice(&flat_parts(&s.changed));
                self.hash(reply);
            }
            Play::Marked(from, limit, played, log) => {
                let (at, start) = (reply.len(), reply.len() + PIECES);
                reply.extend([0; PIECES]);
                reply.extend(log);
                let (q, sheet, log) = (&mut self.sessions, &mut self.sheet, &mut reply[start..]);
                let marks = Some(trace::Marks { of: &mut self.marks, played: *played });
                let place = (*from, *limit);
                let (why, handled) =
                    trace::play_marked(self.fault, q, sheet, &self.trace, place, log, marks);
                reply[at] = why;
                reply[at + 1..at + 3].copy_from_slice(&handled.to_le_bytes());
                reply[at + 3..start].copy_from_slice(&flat(&self.sessions));
                self.hash(reply);
                let bytes: Vec<u8> = self.marks.iter().flat_map(|m| m.to_le_bytes()).collect();
                reply.extend(hash(&bytes).to_le_bytes());
            }
        }
    }

    fn hash_store(&self, reply: &mut Vec<u8>) {
        reply.extend(hash(&self.store).to_le_bytes());
    }

    fn hash(&mut self, reply: &mut Vec<u8>) {
        let edition = self.sheet.first().copied();
        if let (Some(first), Some(told)) = (self.sheet.first_mut(), self.told) {
            *first = told;
        }
        reply.extend(hash(&self.sheet).to_le_bytes());
        if let (Some(first), Some(edition)) = (self.sheet.first_mut(), edition) {
            *first = edition;
        }
    }

    fn sessions(&self, reply: &mut Vec<u8>) {
        reply.extend(flat(&self.sessions));
    }

    fn rule(&mut self, reply: &mut Vec<u8>) {
        reply.push(sheet::check(&self.sheet));
        self.hash(reply);
    }

    fn outcome(&mut self, outcome: u8, reply: &mut Vec<u8>) {
        reply.push(outcome);
        self.sessions(reply);
        self.hash(reply);
    }

    fn part(&mut self, (offset, length): (usize, usize), reply: &mut Vec<u8>) {
        reply.extend((offset as u64).to_le_bytes());
        reply.extend((length as u64).to_le_bytes());
        self.hash(reply);
    }
}
