//! An explanation for people, of the facts of explain.rs in the sentences of sentences.rs.

use sheet::place::{Change, Target};

use crate::events::REQUEST;
use crate::explain::{by_known, Account, Final, Origin, Other, Story};
use crate::sentences as say;
use crate::text;
use crate::words;

/// So many refused requests are told of a place; of more, how many.
const REFUSED: usize = 4;

/// So many changes of a place are listed where not all are asked for.
const SHORT: usize = 4;

fn offsets(bytes: &[usize]) -> String {
    let all: Vec<String> = bytes.iter().map(ToString::to_string).collect();
    format!("byte{} {}", if bytes.len() == 1 { "" } else { "s" }, all.join(", "))
}

fn lines(all: impl IntoIterator<Item = String>, before: &str) -> String {
    all.into_iter().fold(String::new(), |out, line| out + before + &line + "\n")
}

impl Story<'_> {
    /// The name of an event.
    pub fn name(&self, number: u32) -> String {
        let fact = self.fact(number);
        format!("event {} of {}", fact.index + 1, self.traces[fact.trace].name)
    }

    /// An event: of which trace, what it asks, when and from whom.
    fn told(&self, number: u32) -> String {
        let fact = self.fact(number);
        let trace = &self.traces[fact.trace];
        let event = &trace.events[fact.index];
        let words = text::meaning(event, false).unwrap_or_else(|| text::event(event, false));
        format!("{}: {words}{}", self.name(number), trace.known[fact.index].told())
    }

    /// The event that gave bytes, with its rights.
    fn by(&self, number: u32, target: Target) -> Vec<String> {
        let fact = self.fact(number);
        let event = &self.traces[fact.trace].events[fact.index];
        let mut lines = vec![format!("by {}", self.told(number))];
        let place = match event.rights() {
            Some(c) => format!("on connection {c} at level {}", fact.level),
            None if event.kind == REQUEST => "on no connection, so at level 3".to_string(),
            None => "at the device itself".to_string(),
        };
        lines.push(match target {
            Target::Nothing => format!("{place}; no level is asked for it"),
            _ => place,
        });
        if event.rights().is_some() && fact.level < 3 && fact.offer > 0 {
            lines.push(format!("level {} by {}", fact.level, self.told(fact.offer)));
        }
        lines
    }

    /// What the recordings show, and lack.
    pub fn shows(&self) -> Vec<String> {
        let mut before = 0;
        let mut all = Vec::new();
        let mut evidence = self.doubts.evidence().iter();
        for trace in self.traces {
            if trace.evidence.is_some() {
                let here = evidence.next().map(|e| say::shows_of(e, before, |n| self.name(n)));
                all.extend(here.unwrap_or_default());
            }
            before += trace.events.len();
        }
        if !self.doubts.evidence().is_empty() && self.doubts.clean() {
            all.push(say::WHOLE.to_string());
        }
        all
    }

    /// The place of an account, in words.
    pub fn head(&self, account: &Account) -> Vec<String> {
        let change = &account.change;
        let Some(first) = account.steps.first().filter(|_| change.lines.is_empty()) else {
            return change.lines.clone();
        };
        let meanwhile = &account.steps[..account.steps.len() - 1];
        let values: Vec<_> = meanwhile.iter().map(|step| change.place.value(&step.new)).collect();
        vec![say::as_at_first(&change.place.named(&first.old), &values)]
    }

    /// The doubts of an account, each a sentence.
    pub fn doubtful(&self, account: &Account) -> Vec<String> {
        let event = account.by.first().map_or(0, |of| of.0);
        account.doubts.iter().map(|doubt| say::doubt(doubt, event, |n| self.name(n))).collect()
    }

    fn history(&self, account: &Account, all: bool) -> Vec<String> {
        let steps = &account.steps;
        if steps.len() < 2 {
            return Vec::new();
        }
        if steps.len() > SHORT && !all {
            return vec![say::changed_often(steps.len())];
        }
        let value = |bytes: &[u8]| account.change.place.value(bytes);
        let mut out = Vec::new();
        for step in steps {
            let event = step.event;
            out.push(say::step(value(&step.old), value(&step.new), &self.told(event)));
            let doubts = self.step_doubts(steps, event, &account.doubts);
            let doubts = doubts.iter().map(|doubt| say::doubt(doubt, event, |n| self.name(n)));
            out.extend(doubts.map(|doubt| format!("  {doubt}")));
        }
        out
    }

    fn account_text(&self, account: &Account, all: bool) -> String {
        let mut out = lines(self.head(account), "");
        for (i, (mark, bytes)) in account.by.iter().enumerate() {
            if i > 0 {
                out += &format!("  {}\n", offsets(bytes));
            }
            out += &lines(self.by(*mark, account.change.target), "  ");
        }
        out += &lines(account.again.map(|number| say::written_again(&self.told(number))), "  ");
        out += &lines(self.doubtful(account), "  ");
        out += &lines(account.left.iter().take(REFUSED).map(say::left_told), "  ");
        out + &lines(self.history(account, all), "    ")
    }

    pub fn text(&self, sheet: &str, beside: Option<(&str, &Final)>, all: bool) -> String {
        let accounts = self.accounts();
        let bytes: usize = accounts.iter().map(|a| a.change.bytes.len()).sum();
        let traces: Vec<&str> = self.traces.iter().map(|t| t.name.as_str()).collect();
        let mut out = format!(
            "{} of {} on {sheet}: {} changed, at {}\n",
            words::many(self.facts.len(), "event"),
            traces.join(", "),
            words::many(bytes, "byte"),
            words::many(accounts.len(), "place")
        );
        out += &lines(self.shows(), "");
        for account in &accounts {
            out += "\n";
            out += &self.account_text(account, all);
        }
        if let Some((name, beside)) = beside {
            out += "\n";
            out += &self.beside_text(name, beside);
        }
        out
    }

    fn beside_text(&self, name: &str, beside: &Final) -> String {
        match beside {
            Final::Places(places) if places.is_empty() => {
                format!("{name} is what the events give, byte by byte\n")
            }
            Final::Places(places) => {
                let bytes: usize = places.iter().map(|c| c.bytes.len()).sum();
                let never = places.iter().flat_map(|c| &c.bytes);
                let never = never.filter(|byte| byte.1.origin == Origin::Never).count();
                let follows = match never {
                    0 if self.was => say::OLDER.to_string(),
                    0 => format!("{}: {}", say::MIXED, say::PAST),
                    _ => say::PAST.to_string(),
                };
                let mut out = format!(
                    "{name}: {} other than the events leave them, at {}; {never} of these no event of the traces gave\n{follows}\n",
                    words::many(bytes, "byte"),
                    words::many(places.len(), "place"),
                );
                for change in places {
                    out += "\n";
                    out += &lines(change.lines.clone(), "");
                    out += &lines(self.unexplained(change), "  ");
                }
                out
            }
            Final::Layout(all) => {
                let no_dump = say::NO_DUMP;
                format!("{name} has another layout, which no event gives: {no_dump}\n\n")
                    + &lines(all.clone(), "")
            }
            Final::Broken(why, bytes) => {
                let no_dump = say::NO_DUMP;
                let bytes =
                    bytes.iter().map(|(at, old, new)| format!("byte {at}: {old:02x} → {new:02x}"));
                format!(
                    "{name} is not accepted, and no event gives such a sheet: {no_dump}\n\n{why}\n"
                ) + &lines(bytes, "")
            }
        }
    }

    /// What the traces say of a place that a dump has otherwise.
    fn unexplained(&self, change: &Change<Other>) -> Vec<String> {
        let mut out: Vec<String> = Vec::new();
        let of = by_known(change);
        if of.iter().any(|(other, _)| other.origin == Origin::Never) {
            out.push(match change.target {
                Target::Nothing => say::NO_EVENT.to_string(),
                _ => say::NO_WRITE.to_string(),
            });
        }
        for (Other { mark, origin }, bytes) in of {
            let left = match mark {
                0 => "left as at first".to_string(),
                mark => format!("last changed by {}", self.told(mark)),
            };
            let before = match origin {
                Origin::Never => String::new(),
                Origin::First => "; at first it was what the dump has".to_string(),
                Origin::Given(number) => {
                    format!("; the dump has what it was by {}", self.told(number))
                }
            };
            out.push(format!("{}: {left}{before}", offsets(&bytes)));
        }
        let doubts = self.other_doubts(change);
        out.extend(doubts.iter().map(|(event, d)| say::doubt(d, *event, |n| self.name(n))));
        let refused = self.refused(change);
        for &number in refused.iter().take(REFUSED) {
            out.extend(self.refused_told(number));
        }
        if refused.len() > REFUSED {
            out.push(format!("and asked for in vain {} times more", refused.len() - REFUSED));
        }
        let left = self.left(change, 0);
        out.extend(left.iter().take(REFUSED).map(say::left_told));
        out
    }

    /// A request that was not carried out, and what of that is not known.
    fn refused_told(&self, number: u32) -> Vec<String> {
        let outcome = self.fact(number).outcome;
        let (otherwise, doubts) = self.refusal(number);
        let told = self.told(number);
        let mut out = vec![say::refused(outcome, words::outcome(outcome), otherwise, &told)];
        out.extend(doubts.iter().map(|d| say::doubt(d, number, |n| self.name(n))));
        out
    }
}
