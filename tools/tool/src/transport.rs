//! A tool's end of a transport connection: numbers, acknowledgements, three repeats at 3 s, the end. TPDUs and time are handed
//! in, what is to be sent and what happened is taken out. It knows no address: its user hands in what its partner sends.

use std::collections::VecDeque;

pub const CONNECT: u8 = 0x80;
pub const DISCONNECT: u8 = 0x81;
pub const ACK: u8 = 0xC2;
pub const NAK: u8 = 0xC3;
/// The bits that make data connected; a sequence number stands at bit 2.
pub const DATA: u8 = 0x40;

/// How long an acknowledgement may take, and how often data is sent again.
pub const WAIT: u64 = 3_000;
pub const REPEATS: u8 = 3;
/// Without a frame of the partner and without data of ours the connection ends.
pub const SILENCE: u64 = 6_000;
/// So many APDUs wait to be taken out; what is more is not acknowledged, and comes again.
pub const LINE: usize = 16;
/// The longest TPDU of a standard frame.
pub const LONGEST: usize = 16;

#[derive(Clone, Debug, PartialEq, Eq)]
pub enum Told {
    /// Our data is acknowledged.
    Acknowledged,
    /// An APDU of the partner, transport's bits taken out.
    Data(Vec<u8>),
    Closed(Why),
}

#[derive(Clone, Copy, Debug, PartialEq, Eq)]
pub enum Why {
    /// The partner disconnects.
    Ended,
    /// Data of ours was not acknowledged, or not taken, four times.
    Unacknowledged,
    /// Nothing was heard and nothing sent for 6 s.
    Silence,
    /// By this side.
    Asked,
}

#[derive(Debug)]
struct UnderWay {
    tpdu: Vec<u8>,
    again: u64,
    repeats: u8,
}

#[derive(Debug)]
pub struct Transport {
    open: bool,
    /// The numbers of our next data and of the partner's; whether there was any of the partner's.
    out: u8,
    expected: u8,
    taken: bool,
    under_way: Option<UnderWay>,
    silent: u64,
    sent: VecDeque<Vec<u8>>,
    told: VecDeque<Told>,
    /// Frames that fit in no place: numbers out of turn, acknowledgements of nothing, no transport at all.
    pub stray: u64,
}

impl Transport {
    /// A connection that is opened now.
    pub fn open(now: u64) -> Transport {
        Transport {
            open: true,
            out: 0,
            expected: 0,
            taken: false,
            under_way: None,
            silent: now + SILENCE,
            sent: VecDeque::from([vec![CONNECT]]),
            told: VecDeque::new(),
            stray: 0,
        }
    }

    pub fn is_open(&self) -> bool {
        self.open
    }

    /// The next TPDU to send.
    pub fn sends(&mut self) -> Option<Vec<u8>> {
        self.sent.pop_front()
    }

    /// What happened next.
    pub fn tells(&mut self) -> Option<Told> {
        self.told.pop_front()
    }

    /// An APDU to the partner; false if one is under way, there is no connection, or it fits in no frame.
    pub fn send(&mut self, apdu: &[u8], now: u64) -> bool {
        if !self.open || self.under_way.is_some() || apdu.is_empty() || apdu.len() > LONGEST {
            return false;
        }
        let mut tpdu = apdu.to_vec();
        tpdu[0] = tpdu[0] & 3 | DATA | self.out << 2;
        self.sent.push_back(tpdu.clone());
        self.under_way = Some(UnderWay { tpdu, again: now + WAIT, repeats: 0 });
        self.silent = now + SILENCE;
        true
    }

    /// Ends the connection, and tells the partner.
    pub fn close(&mut self) {
        if self.open {
            self.end(Why::Asked);
        }
    }

    fn end(&mut self, why: Why) {
        self.sent.push_back(vec![DISCONNECT]);
        self.closed(why);
    }

    fn closed(&mut self, why: Why) {
        self.open = false;
        self.under_way = None;
        self.told.push_back(Told::Closed(why));
    }

    /// A TPDU of the partner to this side alone.
    pub fn tpdu(&mut self, tpdu: &[u8], now: u64) {
        if !self.open {
            return;
        }
        match tpdu {
            [DISCONNECT] => self.closed(Why::Ended),
            [octet] if octet & 0xC3 == ACK => self.acknowledged(octet >> 2 & 15, true, now),
            [octet] if octet & 0xC3 == NAK => self.acknowledged(octet >> 2 & 15, false, now),
            [octet, _, ..] if octet & 0xC0 == DATA && tpdu.len() <= LONGEST => {
                self.data(octet >> 2 & 15, tpdu, now);
            }
            _ => self.stray += 1,
        }
    }

    fn data(&mut self, number: u8, tpdu: &[u8], now: u64) {
        self.silent = now + SILENCE;
        if self.taken && number == self.expected.wrapping_sub(1) & 15 {
            self.sent.push_back(vec![ACK | number << 2]);
        } else if number != self.expected {
            self.stray += 1;
            self.sent.push_back(vec![NAK | number << 2]);
        } else if self.told.len() < LINE {
            self.expected = (self.expected + 1) & 15;
            self.taken = true;
            self.sent.push_back(vec![ACK | number << 2]);
            let mut apdu = tpdu.to_vec();
            apdu[0] &= 3;
            self.told.push_back(Told::Data(apdu));
        }
    }

    fn acknowledged(&mut self, number: u8, good: bool, now: u64) {
        self.silent = now + SILENCE;
        if self.under_way.is_none() || number != self.out {
            self.stray += 1;
        } else if good {
            self.under_way = None;
            self.out = (self.out + 1) & 15;
            self.told.push_back(Told::Acknowledged);
        } else {
            self.again(now);
        }
    }

    fn again(&mut self, now: u64) {
        let Some(u) = &mut self.under_way else { return };
        if u.repeats == REPEATS {
            self.end(Why::Unacknowledged);
            return;
        }
        u.repeats += 1;
        u.again = now + WAIT;
        self.sent.push_back(u.tpdu.clone());
        self.silent = now + SILENCE;
    }

    /// The time has come on.
    pub fn tick(&mut self, now: u64) {
        if !self.open {
            return;
        }
        match &self.under_way {
            Some(u) if now >= u.again => self.again(now),
            None if now >= self.silent => self.end(Why::Silence),
            _ => {}
        }
    }

    /// When `tick` has something to do; none if never.
    pub fn due(&self) -> Option<u64> {
        match &self.under_way {
            _ if !self.open => None,
            Some(u) => Some(u.again),
            None => Some(self.silent),
        }
    }
}

#[cfg(test)]
mod tests {
    use super::*;

    fn sent(t: &mut Transport) -> Vec<Vec<u8>> {
        std::iter::from_fn(|| t.sends()).collect()
    }

    fn told(t: &mut Transport) -> Vec<Told> {
        std::iter::from_fn(|| t.tells()).collect()
    }

    fn opened() -> Transport {
        let mut t = Transport::open(0);
        assert_eq!(sent(&mut t), [[CONNECT]]);
        t
    }

    #[test]
    fn sixteen_numbers_and_round() {
        let mut t = opened();
        for i in 0..40u8 {
            let n = i & 15;
            assert!(t.send(&[3, 0xD5, 1], 10));
            assert!(!t.send(&[3, 0xD5, 1], 10)); // one at a time
            assert_eq!(sent(&mut t), [vec![0x43 | n << 2, 0xD5, 1]]);
            t.tpdu(&[ACK | ((n + 1) & 15) << 2], 11); // of another
            assert_eq!(told(&mut t), []);
            t.tpdu(&[ACK | n << 2], 11);
            t.tpdu(&[ACK | n << 2], 11); // doubled
            assert_eq!(told(&mut t), [Told::Acknowledged]);
            t.tpdu(&[0x43 | n << 2, 0xD6, i], 12);
            assert_eq!(told(&mut t), [Told::Data(vec![3, 0xD6, i])]);
            assert_eq!(sent(&mut t), [[ACK | n << 2]]);
            t.tpdu(&[0x43 | n << 2, 0xD6, i], 12); // doubled: acknowledged, not taken
            assert_eq!((sent(&mut t), told(&mut t)), (vec![vec![ACK | n << 2]], vec![]));
            let far = (n + 3) & 15;
            t.tpdu(&[0x43 | far << 2, 0xD6, i], 12);
            assert_eq!((sent(&mut t), told(&mut t)), (vec![vec![NAK | far << 2]], vec![]));
        }
    }

    /// At 0, 3, 6 and 9 s, the end at 12.
    #[test]
    fn repeats() {
        let mut t = opened();
        t.send(&[3, 0], 0);
        assert_eq!(sent(&mut t).len(), 1);
        for at in [3_000, 6_000, 9_000] {
            t.tick(at - 1);
            assert_eq!(sent(&mut t).len(), 0);
            assert_eq!(t.due(), Some(at));
            t.tick(at);
            assert_eq!(sent(&mut t), [[0x43, 0]]);
        }
        t.tick(12_000);
        assert_eq!(sent(&mut t), [[DISCONNECT]]);
        assert_eq!(told(&mut t), [Told::Closed(Why::Unacknowledged)]);
        assert!(!t.send(&[3, 0], 0) && t.due().is_none());
        let mut t = opened();
        t.send(&[3, 0], 0);
        for _ in 0..4 {
            t.tpdu(&[NAK], 1);
        }
        assert_eq!(sent(&mut t).len(), 5); // four times, and the end
        assert_eq!(told(&mut t), [Told::Closed(Why::Unacknowledged)]);
    }

    #[test]
    fn ends() {
        let mut t = opened();
        t.tick(5_999);
        assert!(t.is_open());
        t.tick(6_000);
        assert_eq!(told(&mut t), [Told::Closed(Why::Silence)]);
        let mut t = opened();
        t.tpdu(&[DISCONNECT], 1);
        assert_eq!((sent(&mut t).len(), told(&mut t)), (0, vec![Told::Closed(Why::Ended)]));
        t.tpdu(&[0x43, 0xD6, 1], 1); // late
        t.close();
        assert_eq!((sent(&mut t).len(), told(&mut t).len()), (0, 0));
        let mut t = opened();
        t.close();
        assert_eq!(sent(&mut t), [[DISCONNECT]]);
    }

    /// Number 15 before anything was taken is none before; what is no transport is nothing.
    #[test]
    fn strays() {
        let mut t = opened();
        t.tpdu(&[0x43 | 15 << 2, 0xD6], 1);
        assert_eq!(sent(&mut t), [[NAK | 15 << 2]]);
        for wrong in [&[][..], &[0x43], &[CONNECT], &[0x03, 0xD6], &[DISCONNECT, 0], &[ACK, 0]] {
            t.tpdu(wrong, 1);
            assert_eq!((sent(&mut t).len(), told(&mut t).len()), (0, 0), "{wrong:?}");
        }
        t.tpdu(&[0x43; 17], 1);
        assert_eq!(t.stray, 8);
        // what there is no room for is not acknowledged
        for n in 0..=LINE as u8 {
            t.tpdu(&[0x43 | (n & 15) << 2, n], 1);
        }
        assert_eq!((sent(&mut t).len(), told(&mut t).len()), (LINE, LINE));
    }
}
