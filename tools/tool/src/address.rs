//! The individual address of a unit: of the one in programming mode, or of the one with a serial number.

use sheet::asked::Asked;
use sheet::layout::individual_address;
use sheet::make::short;
use sheet::program::Said;

use crate::archive::{self, event, kind, Pdu};
use crate::bus::{Bus, Destination, Heard};
use crate::commands::{bus, done_on};
use crate::trouble::Trouble;
use crate::unit::{written, Patience, Unit};
use crate::values;

/// How long those who are asked may take.
const ANSWERS: u64 = 2_000;

/// Who is meant.
#[derive(Clone, Copy)]
enum Who {
    Programming,
    Serial(u64),
}

impl Who {
    fn words(self) -> String {
        match self {
            Who::Programming => "in programming mode".to_string(),
            Who::Serial(serial) => format!("with serial number {serial:012x}"),
        }
    }

    fn question(self) -> Pdu {
        match self {
            Who::Programming => Pdu { kind: kind::ADDRESS_READ, ..Pdu::default() },
            Who::Serial(serial) => Pdu { kind: kind::SERIAL_READ, serial, ..Pdu::default() },
        }
    }

    fn answers(self, pdu: &Pdu) -> bool {
        match self {
            Who::Programming => pdu.kind == kind::ADDRESS_RESPONSE,
            Who::Serial(serial) => pdu.kind == kind::SERIAL_RESPONSE && pdu.serial == serial,
        }
    }

    fn order(self, address: u16) -> Pdu {
        match self {
            Who::Programming => Pdu { kind: kind::ADDRESS_WRITE, address, ..Pdu::default() },
            Who::Serial(serial) => {
                Pdu { kind: kind::SERIAL_WRITE, serial, address, ..Pdu::default() }
            }
        }
    }
}

/// The addresses of those who say that they are meant.
fn who_is(bus: &mut Bus, who: Who) -> Result<Vec<u16>, Trouble> {
    bus.send(Destination::All, &written(who.question(), &[])?)?;
    let until = bus.now() + ANSWERS;
    let mut all = Vec::new();
    while let Some(heard) = bus.next(until)? {
        let Heard::Frame(frame) = heard else { continue };
        let data = matches!(frame.event, event::BROADCAST | event::CONNECTIONLESS);
        let read = archive::read(&frame.tpdu).filter(|_| data);
        if read.is_some_and(|(pdu, _)| who.answers(&pdu)) {
            all.push(frame.source);
        }
    }
    all.sort_unstable();
    Ok(all)
}

/// Whether somebody has an address.
fn taken(bus: &mut Bus, address: u16) -> Result<bool, Trouble> {
    let patience = Patience { limit: Some(4_000), quiet: Some(2_000) };
    let mut unit = Unit::connect(bus, address, patience);
    match unit.descriptor() {
        Ok(_) => Ok(true),
        Err(Trouble::Absent | Trouble::Silent) => Ok(false),
        Err(trouble @ (Trouble::Interrupted | Trouble::Interface(_))) => Err(trouble),
        Err(_) => Ok(true), // whatever it says, it is there
    }
}

pub fn address(asked: &Asked) -> Said {
    let who = match asked.option("--serial") {
        None => Who::Programming,
        Some(word) => match values::bytes(&[word]) {
            Ok(bytes) if bytes.len() == 6 => {
                Who::Serial(bytes.iter().fold(0, |serial, &b| serial << 8 | u64::from(b)))
            }
            _ => return Err(format!("no serial number, twelve hex digits: \"{}\"", short(word))),
        },
    };
    let new = asked.option("--set").map(values::address).transpose()?;
    let mut bus = bus(asked)?;
    let done = told(&mut bus, who, new);
    done_on(bus, done.map_err(|trouble| trouble.to_string()))
}

fn told(bus: &mut Bus, who: Who, new: Option<u16>) -> Result<(String, u8), Trouble> {
    let all = who_is(bus, who)?;
    let nobody = |what: &str| Trouble::Word(format!("nobody {what} answers"));
    let Some(new) = new else {
        if all.is_empty() {
            return Err(nobody(&who.words()));
        }
        return Ok((all.iter().map(|&a| individual_address(a) + "\n").collect(), 0));
    };
    let old = match all[..] {
        [] => return Err(nobody(&who.words())),
        [one] => one,
        [..] => {
            let names: Vec<String> = all.iter().map(|&a| individual_address(a)).collect();
            let words = format!("{} units are {}", all.len(), who.words());
            return Err(Trouble::Word(format!("{words}, and one is to be: {}", names.join(", "))));
        }
    };
    let named = individual_address(new);
    if old != new && taken(bus, new)? {
        return Ok((format!("refused: {named} is taken by another unit\n"), 1));
    }
    bus.send(Destination::All, &written(who.order(new), &[])?)?;
    let back = who_is(bus, who)?;
    let before = individual_address(old);
    match back[..] {
        [now] if now == new => Ok((format!("{before} → {named}\nread back: {named}\n"), 0)),
        [] => Err(Trouble::Strange(format!(
            "{named} was written, and nobody {} answers",
            who.words()
        ))),
        [now, ..] => {
            let now = individual_address(now);
            Err(Trouble::Strange(format!("{named} was written, and {now} answers")))
        }
    }
}
