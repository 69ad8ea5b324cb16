//! From the frame to the event: who has which connection, what is for this device, who is turned away, and the frame that
//! answers. By the rules alone.

use crate::device::{self, Sessions, Way};
use crate::faults::Fault;
use crate::frame::{self, Frame};

/// The address that connected last on each connection: its partner's, while its session is open.
pub type Addresses = [u16; 2];

/// No connection.
pub const NOBODY: u8 = 255;

/// The longest frame that answers.
pub const ROOM: usize = 25;

#[derive(Clone, Copy, Debug)]
pub enum Arrival {
    Data(Way),
    Connect(u8),
    Disconnect(u8),
}

/// Why a frame is no event; with it the connection of a partner whose frame is transport's alone.
#[derive(Clone, Copy, Debug)]
pub struct Why {
    pub number: u8,
    pub connection: u8,
}

fn why(number: u8) -> Why {
    Why { number, connection: NOBODY }
}

/// The own address: the sheet's as it stands, 0 of one that is too short.
pub fn own(sheet: &[u8]) -> u16 {
    if sheet.len() < 18 {
        return 0;
    }
    u16::from_be_bytes([sheet[16], sheet[17]])
}

/// What a frame is to the device with this address.
pub fn heard(
    fault: Fault,
    sessions: &Sessions,
    addresses: &Addresses,
    own: u16,
    bytes: &[u8],
) -> Result<Arrival, Why> {
    let f = frame::read(bytes).map_err(why)?;
    let to_group = f.c2 & 0x80 != 0;
    let meaning = frame::meaning(&f);
    let foreign = !to_group && f.destination != u64::from(own);
    let late = fault == Fault::ForAnotherLast && matches!(&meaning[..], "44" | "45");
    if foreign && fault != Fault::AnswersForAnother && !late {
        return Err(why(60));
    }
    let itself = f.source == u64::from(own) && fault != Fault::HearsItself;
    if itself && (!to_group || fault == Fault::OwnUnheard) {
        return Err(why(65));
    }
    let open = |c: &u8| sessions[*c as usize].open;
    let partner = (0..2).find(|c| open(c) && u64::from(addresses[*c as usize]) == f.source);
    let closed = (0..2).find(|c| !open(c));
    let data = |mode: u8, connection: u8| {
        Ok(Arrival::Data(Way { mode, connection, group: f.destination as u16 }))
    };
    match meaning.split(' ').next().unwrap() {
        "multicast" => data(0, NOBODY),
        "broadcast" => data(1, NOBODY),
        "connectionless" => data(2, NOBODY),
        "connected" => match partner {
            Some(c) => data(3, c),
            None if fault == Fault::StrangerActs && open(&0) => data(3, 0),
            None => Err(why(61)),
        },
        "connect" if fault == Fault::SecondConnectMoves && closed.is_some() => {
            Ok(Arrival::Connect(closed.unwrap()))
        }
        "connect" => match partner.or(closed) {
            Some(c) => Ok(Arrival::Connect(c)),
            None if fault == Fault::ThirdTakesPlace => Ok(Arrival::Connect(1)),
            None => Err(why(62)),
        },
        "disconnect" => match partner {
            Some(c) => Ok(Arrival::Disconnect(c)),
            None if fault == Fault::StrangerDisconnects && open(&0) => Ok(Arrival::Disconnect(0)),
            None => Err(why(63)),
        },
        number => {
            let connection = partner.unwrap_or(NOBODY);
            Err(Why { number: number.parse().unwrap(), connection })
        }
    }
}

/// Who sent a frame that reads, its sequence number, and whether it is a negative acknowledgement; else 0, 0 and no.
pub fn sender(fault: Fault, bytes: &[u8]) -> (u16, u8, bool) {
    let Ok(f) = frame::read(bytes) else { return (0, 0, false) };
    let t = f.tpdu[0];
    let source = match fault {
        Fault::SourceAtFixedPlace => u16::from_be_bytes([bytes[4], bytes[5]]),
        _ => f.source as u16,
    };
    (source, t >> 2 & 15, t & 0xC3 == 0xC3)
}

/// What serving a frame gave.
#[derive(Clone, Copy, Debug, Default)]
pub struct Served {
    pub number: u8,
    pub outcome: u8,
    pub connection: u8,
    pub count: u8,
    /// Offset and length of each part of the sheet that was stored.
    pub changed: [(usize, usize); 2],
}

/// A frame in, at most one frame out.
pub fn serve(
    fault: Fault,
    (sessions, addresses): (&mut Sessions, &mut Addresses),
    sequence: u8,
    bytes: &[u8],
    sheet: &mut [u8],
    out: &mut [u8],
) -> Served {
    if out.len() < ROOM {
        return Served { number: 64, connection: NOBODY, ..Served::default() };
    }
    let own = own(sheet);
    let way = match heard(fault, sessions, addresses, own, bytes) {
        Err(Why { number, connection }) => {
            return Served { number, connection, ..Served::default() }
        }
        Ok(Arrival::Connect(connection)) => {
            if fault != Fault::ConnectKeepsAddress {
                addresses[connection as usize] =
                    frame::read(bytes).unwrap_or_else(|_| unreachable!()).source as u16;
            }
            let outcome = device::connect_with(fault, sessions, connection);
            return Served { outcome, connection, ..Served::default() };
        }
        Ok(Arrival::Disconnect(connection)) => {
            let outcome = device::disconnect_with(fault, sessions, connection);
            return Served { outcome, connection, ..Served::default() };
        }
        Ok(Arrival::Data(way)) => way,
    };
    let Ok(f) = frame::read(bytes) else { unreachable!() };
    let mut answer = [0; 16];
    let reply = device::request_with(fault, sessions, way, &f.tpdu, sheet, &mut answer);
    let mut count = 0;
    if reply.count > 0 {
        let to_group = f.c2 & 0x80 != 0 && fault != Fault::GroupAnsweredAtAsker;
        let sent = Frame {
            code: 0x11,
            c1: 0xB0 | f.c1 & 0x0C,
            c2: if fault == Fault::HopsCopied { f.c2 } else { 0x60 | f.c2 & 0x80 },
            source: u64::from(own),
            destination: if to_group { f.destination } else { f.source },
            transport: if way.mode == 3 { 0x10 | u64::from(sequence & 15) } else { 0 },
            info: Vec::new(),
            tpdu: answer[..reply.count as usize].to_vec(),
        };
        let (outcome, n) = frame::write(&sent, out);
        assert_eq!(outcome, 0, "an answer is lost");
        count = n as u8;
    }
    let (outcome, connection, changed) = (reply.outcome, way.connection, reply.changed);
    Served { number: 0, outcome, connection, count, changed }
}
