//! An explanation for other programs, of the facts of explain.rs.

use sheet::json::Json;
use sheet::place::{Change, Target};

use crate::doubts::Doubt;
use crate::events::REQUEST;
use crate::explain::{by_known, Account, Final, Origin, Other, Story};
use crate::play::event_fields;
use crate::sentences as say;

impl Story<'_> {
    fn event_json(&self, number: u32, rights: bool) -> Json {
        let fact = self.fact(number);
        let trace = &self.traces[fact.trace];
        let event = &trace.events[fact.index];
        let mut fields = vec![("trace", trace.name.as_str().into())];
        fields.extend(event_fields(fact.index + 1, event, &trace.known[fact.index], false));
        fields.push(("outcome", fact.outcome.into()));
        if rights {
            fields.push(("connection", event.rights().into()));
            fields.push(("level", (event.kind == REQUEST).then_some(fact.level).into()));
            let offer = (fact.level < 3 && fact.offer > 0).then_some(fact.offer);
            fields.push(("offer", offer.map(|offer| self.event_json(offer, false)).into()));
        }
        Json::Object(fields)
    }

    fn doubt_json(&self, doubt: &Doubt, event: u32) -> Json {
        Json::Object(vec![
            ("doubt", say::kind(doubt).into()),
            ("words", say::doubt(doubt, event, |n| self.name(n)).into()),
        ])
    }

    fn change_fields<K>(
        &self,
        change: &Change<K>,
        what: Vec<String>,
        by: Vec<Json>,
    ) -> Vec<(&'static str, Json)> {
        vec![
            ("offset", change.at.into()),
            ("length", change.length.into()),
            ("what", what.into()),
            ("location", (change.target != Target::Nothing).into()),
            ("by", Json::List(by)),
        ]
    }

    fn account_json(&self, account: &Account) -> Json {
        let change = &account.change;
        let by = account.by.iter().map(|(mark, bytes)| {
            let event = self.event_json(*mark, true);
            Json::Object(vec![("bytes", bytes.clone().into()), ("event", event)])
        });
        let mut fields = self.change_fields(change, self.head(account), by.collect());
        let event = account.by.first().map_or(0, |of| of.0);
        let doubts = account.doubts.iter().map(|doubt| self.doubt_json(doubt, event));
        fields.push(("doubts", Json::List(doubts.collect())));
        let again = account.again.map(|number| self.event_json(number, true));
        fields.push(("again", again.into()));
        let steps = account.steps.iter().map(|step| {
            let value = |bytes: &[u8]| change.place.value(bytes);
            Json::Object(vec![
                ("old", value(&step.old).into()),
                ("new", value(&step.new).into()),
                ("event", self.event_json(step.event, true)),
            ])
        });
        fields.push(("history", Json::List(steps.collect())));
        Json::Object(fields)
    }

    fn other_json(&self, change: &Change<Other>) -> Json {
        let by = by_known(change).into_iter().map(|(Other { mark, origin }, bytes)| {
            let event = (mark > 0).then(|| self.event_json(mark, true));
            let (word, given) = match origin {
                Origin::Never => ("no event", None),
                Origin::First => ("first", None),
                Origin::Given(number) => ("event", Some(self.event_json(number, true))),
            };
            Json::Object(vec![
                ("bytes", bytes.into()),
                ("event", event.into()),
                ("origin", word.into()),
                ("given", given.into()),
            ])
        });
        let mut fields = self.change_fields(change, change.lines.clone(), by.collect());
        let doubts = self.other_doubts(change);
        let doubts = doubts.iter().map(|(event, doubt)| self.doubt_json(doubt, *event));
        fields.push(("doubts", Json::List(doubts.collect())));
        let refused = self.refused(change).into_iter().map(|number| {
            let (otherwise, doubts) = self.refusal(number);
            let doubts = doubts.iter().map(|doubt| self.doubt_json(doubt, number));
            Json::Object(vec![
                ("event", self.event_json(number, true)),
                ("answered_otherwise", otherwise.into()),
                ("doubts", Json::List(doubts.collect())),
            ])
        });
        fields.push(("refused", Json::List(refused.collect())));
        Json::Object(fields)
    }

    pub fn json(&self, sheet: &str, beside: Option<(&str, &Final)>) -> Json {
        let accounts = self.accounts();
        let traces: Vec<&str> = self.traces.iter().map(|t| t.name.as_str()).collect();
        let mut fields = vec![
            ("sheet", sheet.into()),
            ("traces", traces.into()),
            ("events", self.facts.len().into()),
            ("shows", self.shows().into()),
            ("changes", Json::List(accounts.iter().map(|a| self.account_json(a)).collect())),
        ];
        if let Some((name, beside)) = beside {
            fields.push(("final", self.beside_json(name, beside)));
        }
        Json::Object(fields)
    }

    fn beside_json(&self, name: &str, beside: &Final) -> Json {
        let (mut broken, mut lines, mut places) = (None, Vec::new(), Vec::new());
        match beside {
            Final::Places(all) => {
                places = all.iter().map(|change| self.other_json(change)).collect();
            }
            Final::Layout(all) => lines = all.clone(),
            Final::Broken(why, bytes) => {
                broken = Some(why.as_str());
                let byte =
                    |(at, old, new): &(usize, u8, u8)| format!("byte {at}: {old:02x} → {new:02x}");
                lines = bytes.iter().map(byte).collect();
            }
        }
        Json::Object(vec![
            ("dump", name.into()),
            ("explained", beside.explained().into()),
            ("earlier", (self.was && !beside.explained()).into()),
            ("broken", broken.into()),
            ("unexplained", Json::List(places)),
            ("other", lines.into()),
        ])
    }
}
