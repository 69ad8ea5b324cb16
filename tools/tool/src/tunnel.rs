//! A tunnel as a client: its channel, the numbers of both directions, repeats, the connection's state, and the pace. Time and
//! datagrams are handed in, what is to be sent and what happened is taken out; no socket, no clock. `now` is a count of
//! milliseconds that does not go back.
//!
//! One request is under way at a time: the next goes once it is acknowledged and confirmed, or the confirmation is overdue.

use std::collections::VecDeque;
use std::net::SocketAddrV4;

use crate::datagram::{self, Datagram};

/// How long a connect, a state and a disconnect may take.
pub const CONNECT: u64 = 10_000;
pub const STATE: u64 = 10_000;
pub const DISCONNECT: u64 = 1_000;
/// How long a request waits for its acknowledgement; it is sent twice.
pub const REQUEST: u64 = 1_000;
pub const SENDS: u8 = 2;
/// How long the next request waits for the confirmation of the one before.
pub const CONFIRM: u64 = 3_000;
/// How often the state is asked for, and how often at most before the tunnel counts as dead.
pub const OFTEN: u64 = 60_000;
pub const STATES: u8 = 3;
/// The pace: a request each so many milliseconds, with so many saved up. A line of twisted pair carries some 50 frames a second.
pub const GAP: u64 = 12;
pub const SAVED: u64 = 100;
/// So many frames wait to be sent, and so many to be taken out; what is more is refused, or lost and counted.
pub const LINE: usize = 64;

/// The message code of a confirmation.
const CONFIRMATION: u8 = 0x2E;

#[derive(Clone, Copy, Debug, PartialEq, Eq)]
pub enum To {
    Control,
    Data,
}

/// What happened.
#[derive(Clone, Debug, PartialEq, Eq)]
pub enum Told {
    /// The channel is open: where requests go, and the client's address on the bus.
    Opened {
        endpoint: SocketAddrV4,
        address: u16,
    },
    Frame(Vec<u8>),
    /// The confirmation of the request under way.
    Confirmed(Vec<u8>),
    /// No confirmation came.
    Unconfirmed,
    Closed(Why),
}

#[derive(Clone, Copy, Debug, PartialEq, Eq)]
pub enum Why {
    /// No answer to a connect.
    Silent,
    Refused(u8),
    /// A request was not acknowledged, or with this status.
    Unacknowledged,
    Status(u8),
    /// The state was asked for, and not told, or another than good.
    Dead,
    /// The server disconnects.
    Ended,
    /// Closed by this side.
    Asked,
}

#[derive(Clone, Copy, Debug, PartialEq, Eq)]
enum State {
    Idle,
    Opening { until: u64 },
    Open,
    Closing { until: u64 },
    Closed,
}

#[derive(Clone, Debug)]
struct UnderWay {
    frame: Vec<u8>,
    sends: u8,
    again: u64,
    acknowledged: bool,
    confirmed: bool,
    /// When the confirmation is overdue, once it is acknowledged.
    overdue: u64,
}

#[derive(Debug)]
pub struct Tunnel {
    own: SocketAddrV4,
    state: State,
    channel: u8,
    /// The numbers of our next request and of the server's.
    out: u8,
    expected: u8,
    waiting: VecDeque<Vec<u8>>,
    under_way: Option<UnderWay>,
    /// When the state is asked for, and how often it was without an answer.
    ask_state: u64,
    asked: u8,
    /// The time up to which the pace is used.
    paced: u64,
    sent: VecDeque<(To, Vec<u8>)>,
    told: VecDeque<Told>,
    /// Datagrams that are none of ours, and frames for which there was no room.
    pub unread: u64,
    pub lost: u64,
}

impl Tunnel {
    /// Of a client with this endpoint.
    pub fn new(own: SocketAddrV4) -> Tunnel {
        Tunnel {
            own,
            state: State::Idle,
            channel: 0,
            out: 0,
            expected: 0,
            waiting: VecDeque::new(),
            under_way: None,
            ask_state: 0,
            asked: 0,
            paced: 0,
            sent: VecDeque::new(),
            told: VecDeque::new(),
            unread: 0,
            lost: 0,
        }
    }

    pub fn open(&mut self, now: u64) {
        if self.state == State::Idle {
            self.put(To::Control, datagram::connect(self.own));
            self.state = State::Opening { until: now + CONNECT };
        }
    }

    /// The next datagram to send.
    pub fn sends(&mut self) -> Option<(To, Vec<u8>)> {
        self.sent.pop_front()
    }

    /// What happened next.
    pub fn tells(&mut self) -> Option<Told> {
        self.told.pop_front()
    }

    pub fn is_open(&self) -> bool {
        self.state == State::Open
    }

    /// Whether nothing waits to be sent or confirmed.
    pub fn is_quiet(&self) -> bool {
        self.waiting.is_empty() && self.under_way.is_none()
    }

    fn put(&mut self, to: To, bytes: Vec<u8>) {
        self.sent.push_back((to, bytes));
    }

    fn tell(&mut self, told: Told) {
        if self.told.len() == LINE && !matches!(told, Told::Closed(_)) {
            self.lost += 1;
            return;
        }
        self.told.push_back(told);
    }

    /// A frame to send; false if there is no room, or no tunnel.
    pub fn send(&mut self, frame: Vec<u8>, now: u64) -> bool {
        if self.state != State::Open || self.waiting.len() == LINE {
            return false;
        }
        self.waiting.push_back(frame);
        self.next(now);
        true
    }

    /// When the pace lets the next request go.
    fn ready(&self) -> u64 {
        self.paced
    }

    /// The next request goes, if none is under way and the pace lets it.
    fn next(&mut self, now: u64) {
        if self.state != State::Open || self.under_way.is_some() || self.ready() > now {
            return;
        }
        let Some(frame) = self.waiting.pop_front() else { return };
        self.paced = self.paced.max(now.saturating_sub(GAP * SAVED)) + GAP;
        self.put(To::Data, datagram::request(self.channel, self.out, &frame));
        let (again, overdue) = (now + REQUEST, now + CONFIRM);
        let (acknowledged, confirmed) = (false, false);
        self.under_way =
            Some(UnderWay { frame, sends: 1, again, acknowledged, confirmed, overdue });
    }

    /// Closes the channel; a frame that waits is not sent.
    pub fn close(&mut self, now: u64) {
        match self.state {
            State::Open => self.end(now, Why::Asked),
            State::Idle | State::Opening { .. } => self.closed(Why::Asked),
            State::Closing { .. } | State::Closed => {}
        }
    }

    /// Tells the server, and waits for its answer no longer than it must.
    fn end(&mut self, now: u64, why: Why) {
        self.put(To::Control, datagram::disconnect(self.channel, self.own));
        self.state = State::Closing { until: now + DISCONNECT };
        self.waiting.clear();
        self.under_way = None;
        self.tell(Told::Closed(why));
    }

    fn closed(&mut self, why: Why) {
        self.state = State::Closed;
        self.waiting.clear();
        self.under_way = None;
        self.tell(Told::Closed(why));
    }

    /// Whether a disconnect still waits for its answer.
    pub fn is_closing(&self) -> bool {
        matches!(self.state, State::Closing { .. })
    }

    /// A datagram of the server.
    pub fn datagram(&mut self, bytes: &[u8], now: u64) {
        let Some(datagram) = datagram::read(bytes) else {
            self.unread += 1;
            return;
        };
        match (self.state, datagram) {
            (State::Opening { .. }, Datagram::Connected { channel, endpoint, address }) => {
                self.channel = channel;
                self.state = State::Open;
                self.ask_state = now + OFTEN;
                self.paced = now.saturating_sub(GAP * SAVED);
                self.tell(Told::Opened { endpoint, address });
            }
            (State::Opening { .. }, Datagram::Refused(status)) => {
                self.closed(Why::Refused(status));
            }
            (State::Open, Datagram::Request { channel, number, frame }) if self.is(channel) => {
                self.request(number, frame, now);
            }
            (State::Open, Datagram::Acknowledged { channel, number, status })
                if self.is(channel) =>
            {
                self.acknowledged(number, status, now);
            }
            (State::Open, Datagram::StateIs { channel, status }) if self.is(channel) => {
                // one that was not asked for says nothing
                if self.asked > 0 && status == 0 {
                    self.asked = 0;
                    self.ask_state = now + OFTEN;
                } else if self.asked > 0 {
                    self.end(now, Why::Dead);
                }
            }
            (State::Open, Datagram::Disconnect { channel }) if self.is(channel) => {
                self.put(To::Control, datagram::disconnected(channel));
                self.closed(Why::Ended);
            }
            (State::Closing { .. }, Datagram::Disconnect { channel }) if self.is(channel) => {
                self.put(To::Control, datagram::disconnected(channel));
                self.state = State::Closed;
            }
            (State::Closing { .. }, Datagram::Disconnected { channel, .. }) if self.is(channel) => {
                self.state = State::Closed;
            }
            _ => self.unread += 1,
        }
    }

    fn is(&self, channel: u8) -> bool {
        channel == self.channel
    }

    /// The number expected is acknowledged and taken, the one before acknowledged again; any other is dropped.
    fn request(&mut self, number: u8, frame: &[u8], now: u64) {
        if number == self.expected.wrapping_sub(1) {
            self.put(To::Data, datagram::acknowledged(self.channel, number));
            return;
        }
        if number != self.expected {
            self.unread += 1;
            return;
        }
        // what there is no room for is not acknowledged, and comes again
        if self.told.len() >= LINE {
            self.lost += 1;
            return;
        }
        self.expected = self.expected.wrapping_add(1);
        self.put(To::Data, datagram::acknowledged(self.channel, number));
        if frame.first() != Some(&CONFIRMATION) {
            self.tell(Told::Frame(frame.to_vec()));
            return;
        }
        match &mut self.under_way {
            Some(u) if !u.confirmed && confirms(frame, &u.frame) => {
                u.confirmed = true;
                self.tell(Told::Confirmed(frame.to_vec()));
                self.done(now);
            }
            _ => self.unread += 1,
        }
    }

    fn acknowledged(&mut self, number: u8, status: u8, now: u64) {
        match &mut self.under_way {
            Some(u) if number == self.out && !u.acknowledged => {
                if status != 0 {
                    self.end(now, Why::Status(status));
                    return;
                }
                u.acknowledged = true;
                u.overdue = now + CONFIRM;
                self.out = self.out.wrapping_add(1);
                self.done(now);
            }
            _ => self.unread += 1,
        }
    }

    /// The next goes if this one is acknowledged and confirmed.
    fn done(&mut self, now: u64) {
        if self.under_way.as_ref().is_some_and(|u| u.acknowledged && u.confirmed) {
            self.under_way = None;
            self.next(now);
        }
    }

    /// The time has come on.
    pub fn tick(&mut self, now: u64) {
        match self.state {
            State::Opening { until } if now >= until => self.closed(Why::Silent),
            State::Closing { until } if now >= until => self.state = State::Closed,
            State::Open => self.tick_open(now),
            _ => {}
        }
    }

    fn tick_open(&mut self, now: u64) {
        if now >= self.ask_state {
            if self.asked == STATES {
                self.end(now, Why::Dead);
                return;
            }
            self.asked += 1;
            self.ask_state = now + STATE;
            self.put(To::Control, datagram::state(self.channel, self.own));
        }
        match &mut self.under_way {
            Some(u) if !u.acknowledged && now >= u.again => {
                if u.sends == SENDS {
                    self.end(now, Why::Unacknowledged);
                    return;
                }
                u.sends += 1;
                u.again = now + REQUEST;
                let again = datagram::request(self.channel, self.out, &u.frame);
                self.put(To::Data, again);
            }
            Some(u) if u.acknowledged && now >= u.overdue => {
                self.under_way = None;
                self.tell(Told::Unconfirmed);
            }
            _ => {}
        }
        self.next(now);
    }

    /// When `tick` has something to do; none if never.
    pub fn due(&self) -> Option<u64> {
        match self.state {
            State::Opening { until } | State::Closing { until } => Some(until),
            State::Open => {
                let request = match &self.under_way {
                    Some(u) if u.acknowledged => Some(u.overdue),
                    Some(u) => Some(u.again),
                    None if self.waiting.is_empty() => None,
                    None => Some(self.ready()),
                };
                Some(request.map_or(self.ask_state, |at| at.min(self.ask_state)))
            }
            State::Idle | State::Closed => None,
        }
    }
}

/// Whether a confirmation is that of a frame: the same from the destination on. The frames of this side have no additional
/// information, so that the destination stands at byte 6.
fn confirms(confirmation: &[u8], frame: &[u8]) -> bool {
    frame.len() > 6 && confirmation.ends_with(&frame[6..])
}

#[cfg(test)]
mod tests {
    use super::*;
    use std::net::Ipv4Addr;

    const OWN: SocketAddrV4 = SocketAddrV4::new(Ipv4Addr::LOCALHOST, 4660);
    const FRAME: [u8; 10] = [0x11, 0, 0xB0, 0x60, 0, 0, 0x11, 0x05, 0, 0x80];

    fn hex(bytes: &[u8]) -> String {
        bytes.iter().map(|b| format!("{b:02x}")).collect()
    }

    fn datagram(service: u16, body: &[u8]) -> Vec<u8> {
        let mut out = vec![6, 16];
        out.extend(service.to_be_bytes());
        out.extend((6 + body.len() as u16).to_be_bytes());
        out.extend(body);
        out
    }

    fn sent(t: &mut Tunnel) -> Vec<String> {
        std::iter::from_fn(|| t.sends()).map(|(_, bytes)| hex(&bytes[2..])).collect()
    }

    fn told(t: &mut Tunnel) -> Vec<Told> {
        std::iter::from_fn(|| t.tells()).collect()
    }

    fn opened() -> Tunnel {
        let mut t = Tunnel::new(OWN);
        t.open(0);
        sent(&mut t);
        let said = [7, 0, 8, 1, 127, 0, 0, 1, 14, 87, 4, 4, 0x11, 0xF0];
        t.datagram(&datagram(0x0206, &said), 1);
        assert_eq!(told(&mut t).len(), 1);
        t
    }

    fn ack(number: u8, status: u8) -> Vec<u8> {
        datagram(0x0421, &[4, 7, number, status])
    }

    fn req(number: u8, frame: &[u8]) -> Vec<u8> {
        datagram(0x0420, &[&[4, 7, number, 0], frame].concat())
    }

    fn con() -> Vec<u8> {
        let mut con = FRAME.to_vec();
        (con[0], con[4], con[5]) = (0x2E, 0x11, 0xF0);
        con
    }

    #[test]
    fn a_request_and_its_repeats() {
        let mut t = opened();
        assert!(t.send(FRAME.to_vec(), 10));
        assert!(t.send(FRAME.to_vec(), 10));
        assert_eq!(sent(&mut t), ["0420001404070000".to_string() + &hex(&FRAME)]);
        assert_eq!(t.due(), Some(1010));
        t.tick(1009);
        assert_eq!(sent(&mut t).len(), 0);
        t.tick(1010);
        assert_eq!(sent(&mut t).len(), 1); // the same once more
        t.datagram(&ack(1, 0), 1011); // another number
        t.datagram(&ack(0, 0), 1012);
        assert_eq!(sent(&mut t).len(), 0); // the second waits for the confirmation
        t.datagram(&req(0, &con()), 1013);
        assert_eq!(told(&mut t), [Told::Confirmed(con())]);
        let due = ["0421000a04070000".to_string(), "0420001404070100".to_string() + &hex(&FRAME)];
        assert_eq!(sent(&mut t), due);
        // the confirmation before the acknowledgement, and then twice
        t.datagram(&req(1, &con()), 1014);
        t.datagram(&req(1, &con()), 1014);
        assert_eq!(sent(&mut t), ["0421000a04070100"; 2]);
        assert_eq!(told(&mut t).len(), 1);
        t.datagram(&ack(1, 0), 1015);
        assert!(t.is_quiet() && t.is_open());
    }

    #[test]
    fn what_is_not_acknowledged_ends_it() {
        let mut t = opened();
        t.send(FRAME.to_vec(), 10);
        t.tick(1010);
        t.tick(2010);
        assert_eq!(told(&mut t), [Told::Closed(Why::Unacknowledged)]);
        assert!(sent(&mut t).last().unwrap().starts_with("020900100700"));
        assert!(t.is_closing());
        t.tick(3010);
        assert!(!t.is_closing() && t.due().is_none() && !t.send(FRAME.to_vec(), 3011));
        let mut t = opened();
        t.send(FRAME.to_vec(), 10);
        t.datagram(&ack(0, 0x21), 20);
        assert_eq!(told(&mut t), [Told::Closed(Why::Status(0x21))]);
    }

    #[test]
    fn numbers_of_the_server() {
        let mut t = opened();
        let ind = [0x29, 1, 2, 3];
        for number in 0..=255 {
            t.datagram(&req(number, &ind), 5);
            assert_eq!(sent(&mut t), [format!("0421000a0407{number:02x}00")]);
            assert_eq!(told(&mut t).len(), 1);
            t.datagram(&req(number, &ind), 5); // once more: acknowledged, not taken
            assert_eq!((sent(&mut t).len(), told(&mut t).len()), (1, 0));
            t.datagram(&req(number.wrapping_add(2), &ind), 5); // out of turn: dropped
            t.datagram(&datagram(0x0420, &[4, 8, number.wrapping_add(1), 0, 0x29]), 5);
            assert_eq!((sent(&mut t).len(), told(&mut t).len()), (0, 0));
        }
        // without room nothing is acknowledged
        for number in 0..LINE as u8 {
            t.datagram(&req(number, &ind), 5);
        }
        assert_eq!(sent(&mut t).len(), LINE);
        t.datagram(&req(LINE as u8, &ind), 5);
        assert_eq!((sent(&mut t).len(), t.lost), (0, 1));
        told(&mut t);
        t.datagram(&req(LINE as u8, &ind), 5);
        assert_eq!(sent(&mut t).len(), 1);
    }

    #[test]
    fn the_state() {
        let mut t = opened();
        let state = "020700100700";
        t.tick(60_000);
        assert_eq!(sent(&mut t).len(), 0);
        t.tick(60_001);
        assert!(sent(&mut t)[0].starts_with(state));
        t.datagram(&datagram(0x0208, &[7, 0]), 60_002);
        assert_eq!(t.due(), Some(120_002));
        t.datagram(&datagram(0x0208, &[7, 0x21]), 60_003); // nobody asked
        assert!(t.is_open());
        for at in [120_002, 130_002, 140_002] {
            t.tick(at);
            assert!(sent(&mut t)[0].starts_with(state));
        }
        t.tick(150_002);
        assert_eq!(told(&mut t), [Told::Closed(Why::Dead)]);
        let mut t = opened();
        t.tick(60_001);
        t.datagram(&datagram(0x0208, &[7, 0x21]), 60_002);
        assert_eq!(told(&mut t), [Told::Closed(Why::Dead)]);
    }

    #[test]
    fn ends() {
        let mut t = Tunnel::new(OWN);
        t.open(0);
        t.tick(9_999);
        assert_eq!(told(&mut t), []);
        t.tick(10_000);
        assert_eq!(told(&mut t), [Told::Closed(Why::Silent)]);
        let mut t = Tunnel::new(OWN);
        t.open(0);
        t.datagram(&datagram(0x0206, &[0, 0x24]), 1);
        assert_eq!(told(&mut t), [Told::Closed(Why::Refused(0x24))]);
        let mut t = opened();
        t.send(FRAME.to_vec(), 10);
        sent(&mut t);
        let endpoint = [8, 0, 8, 1, 127, 0, 0, 1, 14, 87];
        t.datagram(&datagram(0x0209, &endpoint), 11); // another channel's
        assert!(t.is_open());
        t.datagram(&datagram(0x0209, &[&[7], &endpoint[1..]].concat()), 11);
        assert_eq!(told(&mut t), [Told::Closed(Why::Ended)]);
        assert_eq!(sent(&mut t), ["020a00080700"]);
        let mut t = opened();
        t.close(5);
        assert_eq!(told(&mut t), [Told::Closed(Why::Asked)]);
        assert_eq!(sent(&mut t).len(), 1);
        t.datagram(&datagram(0x020A, &[7, 0]), 6);
        assert!(!t.is_closing());
    }

    #[test]
    fn the_pace_and_a_missing_confirmation() {
        let mut t = opened();
        let mut now = 10_000;
        for _ in 0..=SAVED {
            t.send(FRAME.to_vec(), now);
            let n = t.out;
            t.datagram(&ack(n, 0), now);
            t.datagram(&req(n, &con()), now);
            told(&mut t);
        }
        assert!(t.is_quiet());
        t.send(FRAME.to_vec(), now); // the first above what was saved up
        t.send(FRAME.to_vec(), now);
        let first = t.due().unwrap();
        assert!(first > now && first <= now + GAP, "{first}");
        now = first;
        sent(&mut t);
        t.tick(now);
        assert_eq!(sent(&mut t).len(), 1);
        t.datagram(&ack(t.out, 0), now);
        t.tick(now + CONFIRM - 1);
        assert_eq!(told(&mut t), []);
        t.tick(now + CONFIRM);
        assert_eq!(told(&mut t), [Told::Unconfirmed]);
        assert_eq!(sent(&mut t).len(), 1); // and the next goes
    }
}
