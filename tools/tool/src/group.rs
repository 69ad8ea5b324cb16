//! Group values, by their datapoint types.

use sheet::asked::Asked;
use sheet::layout::{group_address, individual_address};
use sheet::program::Said;

use crate::archive::{self, event, kind, Pdu};
use crate::bus::{Destination, Heard};
use crate::commands::{bus, done_on};
use crate::trouble::Trouble;
use crate::unit::written;
use crate::values;

/// How long an answer of a group may take.
const ANSWER: u64 = 3_000;

/// The value that the group's first answer has, and who sent it.
pub fn read(asked: &Asked, word: &str, class: &str) -> Said {
    let (group, class) = (values::group(word)?, values::point_type(class)?);
    let apdu = written(Pdu { kind: kind::GROUP_READ, ..Pdu::default() }, &[]);
    let apdu = apdu.map_err(|trouble| trouble.to_string())?;
    let mut bus = bus(asked)?;
    let mut listen = || {
        bus.send(Destination::Group(group), &apdu)?;
        let until = bus.now() + ANSWER;
        loop {
            let frame = match bus.next(until)? {
                None => {
                    let what = format!("nobody answers for {}", group_address(group));
                    return Err(Trouble::Word(what));
                }
                Some(Heard::Frame(frame)) if frame.event == event::MULTICAST => frame,
                Some(_) => continue,
            };
            if frame.destination != group {
                continue;
            }
            match archive::read(&frame.tpdu) {
                Some((pdu, data)) if pdu.kind == kind::GROUP_RESPONSE => {
                    let from = individual_address(frame.source);
                    let value = values::point(class, pdu.v, data).map_err(|what| {
                        Trouble::Word(format!(
                            "{} answers {what}",
                            individual_address(frame.source)
                        ))
                    })?;
                    return Ok((format!("{value}  # from {from}\n"), 0));
                }
                _ => {}
            }
        }
    };
    let done = listen();
    done_on(bus, done.map_err(|trouble| trouble.to_string()))
}

/// Sends a value to a group. Nobody acknowledges one but the interface.
pub fn write(asked: &Asked, word: &str, class: &str, value: &str) -> Said {
    let (group, class) = (values::group(word)?, values::point_type(class)?);
    let (v, data) = values::point_of(class, value)?;
    let apdu = written(Pdu { kind: kind::GROUP_WRITE, v, ..Pdu::default() }, &data);
    let apdu = apdu.map_err(|trouble| trouble.to_string())?;
    let sent = values::point(class, v, &data)?;
    let mut bus = bus(asked)?;
    let mut send = || {
        bus.send(Destination::Group(group), &apdu)?;
        let until = bus.now() + ANSWER;
        loop {
            match bus.next(until)? {
                Some(Heard::Sent { to, good: true }) if to == group => {
                    return Ok((format!("{} is sent {sent}\n", group_address(group)), 0));
                }
                Some(Heard::Sent { to, good: false }) if to == group => {
                    let words = "the interface could not send it".to_string();
                    return Err(Trouble::Interface(words));
                }
                Some(_) => {}
                None => {
                    let words = "the interface does not say whether it was sent".to_string();
                    return Err(Trouble::Interface(words));
                }
            }
        }
    };
    let done = send();
    done_on(bus, done.map_err(|trouble| trouble.to_string()))
}
