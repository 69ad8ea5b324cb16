//! What an account can't know: of an event that gave a byte, by what the recording shows and lacks.

use crate::evidence::{Answer, At, Evidence, Forged, Gap, Loss, Own, Parted, Seen, Taken};

/// Why frames are missing.
#[derive(Clone, Debug, PartialEq, Eq)]
pub enum Cause {
    Gap(Gap),
    Loss(Loss),
}

/// A doubt about an account. Events are told by their numbers.
#[derive(Clone, Debug, PartialEq, Eq)]
pub enum Doubt {
    /// The device did not acknowledge an event, or the wire did not.
    Untaken(u32, Taken),
    /// Its answer is not recorded, and nothing else shows that it was taken.
    Unanswered(u32),
    /// The recording has no frame of the device.
    Unheard,
    /// The partner was silent for so many seconds before an event that the device may have ended the connection.
    Silence(u32, u64),
    /// Another request had the number of an event: which of the two the device took is not known.
    Twofold(u32),
    /// Events are missing before the event on which it rests; after it, where another may have written since.
    Before(Cause),
    After(Cause),
    Parted(Parted),
    Back(At, usize),
    Own(Own),
    /// A disconnect under the device's address stands between the connect and the event: forged, or events are missing.
    Ended(At),
}

impl Doubt {
    /// Whether it is that the recording does not fit together.
    pub fn unfit(&self) -> bool {
        use Doubt::{After, Back, Before, Parted};
        matches!(self, Before(Cause::Loss(_)) | After(Cause::Loss(_)) | Parted(_) | Back(..))
    }
}

/// The event that an account names: its number, those of the connect and the offer on which it rests, 0 for none, and whether
/// it is data on a connection.
#[derive(Clone, Copy, Debug, PartialEq, Eq)]
pub struct Rests {
    pub event: u32,
    pub connect: u32,
    pub offer: u32,
    pub connected: bool,
    /// It is an answer to a group, which behind a gap may be the device's own, under an address that it got there.
    pub answer: bool,
}

/// The evidence of all traces, each behind those before it.
pub struct Doubts {
    all: Vec<Evidence>,
    /// For each trace that has evidence, the number of its first event.
    from: Vec<usize>,
}

impl Doubts {
    /// Of traces with so many events each.
    pub fn new<'a>(traces: impl Iterator<Item = (usize, Option<&'a Evidence>)>) -> Doubts {
        let (mut all, mut from, mut behind) = (Vec::new(), Vec::new(), 0);
        for (events, evidence) in traces {
            if let Some(evidence) = evidence {
                all.push(evidence.behind(behind));
                from.push(behind);
            }
            behind += events;
        }
        Doubts { all, from }
    }

    /// What is shown, trace by trace.
    pub fn evidence(&self) -> &[Evidence] {
        &self.all
    }

    /// The evidence of an event's trace, and what is seen of the event.
    pub fn seen(&self, event: u32) -> Option<(&Evidence, Seen)> {
        let index = event.checked_sub(1)? as usize;
        let part = self.from.partition_point(|&from| from <= index).checked_sub(1)?;
        let seen = self.all[part].events.get(index - self.from[part])?;
        Some((&self.all[part], *seen))
    }

    /// Whether the recording has the answer to an event that playing gives.
    pub fn shown(&self, event: u32) -> bool {
        self.seen(event).is_some_and(|(_, seen)| seen.answer == Answer::Same)
    }

    /// Doubts about whether the device took an event.
    fn untaken(&self, event: u32, out: &mut Vec<Doubt>) {
        let Some((evidence, seen)) = self.seen(event) else { return };
        match seen.taken {
            Taken::Unasked | Taken::Acknowledged => {}
            taken => out.push(Doubt::Untaken(event, taken)),
        }
        if !seen.data && seen.answer == Answer::Absent && evidence.device {
            out.push(Doubt::Unanswered(event));
        }
        if !evidence.device && (seen.data || seen.answer == Answer::Absent) {
            out.push(Doubt::Unheard);
        }
        if seen.silence > 0 && seen.taken != Taken::Acknowledged {
            out.push(Doubt::Silence(event, seen.silence));
        }
        if seen.twofold && seen.answer != Answer::Same {
            out.push(Doubt::Twofold(event));
        }
    }

    /// Whether an account rests on something before a gap that was told. A new key may have been written in it; only the
    /// device's own answer shows which level an offer gave.
    fn rests_before(&self, rests: Rests, gap: u32) -> bool {
        let offered = rests.offer > 0 && (rests.offer <= gap || !self.shown(rests.offer));
        rests.answer || (rests.connected && (rests.connect <= gap || offered))
    }

    /// All doubts about what an event gave, of a place to which frames go under the device's own address, if it is one.
    pub fn about(&self, rests: Rests, group: Option<u16>) -> Vec<Doubt> {
        let mut out = Vec::new();
        self.untaken(rests.event, &mut out);
        if rests.offer > 0 {
            self.untaken(rests.offer, &mut out);
        }
        let behind = |at: At| at.behind as u32;
        let gaps = || self.all.iter().flat_map(|e| &e.gaps);
        let losses = || self.all.iter().flat_map(|e| &e.losses);
        let before = |at: At| behind(at) < rests.event;
        let gap = gaps().rfind(|g| before(g.at) && self.rests_before(rests, behind(g.at)));
        let loss = losses().rfind(|l| before(l.at));
        let cause = gap.cloned().map(Cause::Gap).or(loss.copied().map(Cause::Loss));
        out.extend(cause.map(Doubt::Before));
        let gap = gaps().find(|g| !before(g.at)).cloned().map(Cause::Gap);
        let loss = losses().find(|l| !before(l.at)).copied().map(Cause::Loss);
        out.extend(loss.or(gap).map(Doubt::After));
        out.extend(self.whole());
        let ended = self.all.iter().flat_map(|e| &e.forged).rfind(|(at, forged)| {
            let within = before(*at) && behind(*at) >= rests.connect;
            *forged == Forged::Disconnect && rests.connected && within
        });
        out.extend(ended.map(|(at, _)| Doubt::Ended(*at)));
        if let Some(group) = group {
            let mut own = self.all.iter().flat_map(|e| &e.own);
            let last = own.rfind(|own| own.group == group && !before(own.at));
            out.extend(last.map(|own| Doubt::Own(*own)));
        }
        out.dedup();
        out
    }

    /// A doubt about what stood somewhere before an event, as at first.
    pub fn before(&self, event: u32) -> Option<Doubt> {
        let gap = self.all.iter().flat_map(|e| &e.gaps).find(|g| (g.at.behind as u32) < event);
        gap.cloned().map(|gap| Doubt::Before(Cause::Gap(gap)))
    }

    /// Doubts about what playing gives of an event, its outcome for one. What is missing in a gap that is told behind it does not
    /// matter; where a sign was seen behind it, what is missing may be before it.
    pub fn outcome(&self, rests: Rests) -> Vec<Doubt> {
        let after = |doubt: &Doubt| matches!(doubt, Doubt::After(Cause::Gap(_)));
        self.about(rests, None).into_iter().filter(|doubt| !after(doubt)).collect()
    }

    /// Doubts about everything.
    fn whole(&self) -> impl Iterator<Item = Doubt> + '_ {
        let parted = self.all.iter().find_map(|e| e.parted).map(Doubt::Parted);
        let back = self.all.iter().find_map(|e| e.back);
        parted.into_iter().chain(back.map(|(at, times)| Doubt::Back(at, times)))
    }

    /// The last frame under the device's own address to a group, or to all by 0.
    pub fn own(&self, group: u16) -> Option<Own> {
        self.all.iter().flat_map(|e| &e.own).rfind(|own| own.group == group).copied()
    }

    pub fn clean(&self) -> bool {
        self.all.iter().all(Evidence::clean)
    }
}
