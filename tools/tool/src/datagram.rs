//! Datagrams of KNXnet/IP, version 1, as a tunnelling client reads and writes them. What stands in a tunnel's request is not
//! looked at here.

use std::net::{Ipv4Addr, SocketAddrV4};

/// Services by their numbers.
const CONNECT: u16 = 0x0205;
const CONNECTED: u16 = 0x0206;
const STATE: u16 = 0x0207;
const STATE_IS: u16 = 0x0208;
const DISCONNECT: u16 = 0x0209;
const DISCONNECTED: u16 = 0x020A;
const REQUEST: u16 = 0x0420;
const ACKNOWLEDGED: u16 = 0x0421;

const HEAD: usize = 6;
/// An endpoint: its length, UDP, address and port.
const ENDPOINT: usize = 8;

/// What a server sends to its client.
#[derive(Clone, Debug, PartialEq, Eq)]
pub enum Datagram<'a> {
    /// With the endpoint for requests and the address that the client has on the bus.
    Connected {
        channel: u8,
        endpoint: SocketAddrV4,
        address: u16,
    },
    /// No channel, with the status that says why.
    Refused(u8),
    StateIs {
        channel: u8,
        status: u8,
    },
    Disconnect {
        channel: u8,
    },
    Disconnected {
        channel: u8,
        status: u8,
    },
    Request {
        channel: u8,
        number: u8,
        frame: &'a [u8],
    },
    Acknowledged {
        channel: u8,
        number: u8,
        status: u8,
    },
}

fn word(bytes: &[u8], at: usize) -> u16 {
    u16::from_be_bytes([bytes[at], bytes[at + 1]])
}

fn endpoint(bytes: &[u8]) -> Option<SocketAddrV4> {
    match bytes {
        [8, 1, a, b, c, d, high, low, ..] => {
            let port = u16::from_be_bytes([*high, *low]);
            Some(SocketAddrV4::new(Ipv4Addr::new(*a, *b, *c, *d), port))
        }
        _ => None,
    }
}

/// The datagram in the bytes; none if it is no whole one, or of a service that a client does not hear.
pub fn read(bytes: &[u8]) -> Option<Datagram<'_>> {
    if bytes.len() < HEAD || bytes[..2] != [6, 0x10] || word(bytes, 4) as usize != bytes.len() {
        return None;
    }
    let body = &bytes[HEAD..];
    match (word(bytes, 2), body) {
        (CONNECTED, [_, status]) if *status != 0 => Some(Datagram::Refused(*status)),
        (CONNECTED, [channel, 0, rest @ ..]) if *channel > 0 => {
            let endpoint = endpoint(rest)?;
            match rest[ENDPOINT..] {
                [4, 4, high, low] => {
                    let address = u16::from_be_bytes([high, low]);
                    Some(Datagram::Connected { channel: *channel, endpoint, address })
                }
                _ => None,
            }
        }
        (CONNECTED, [_, status, ..]) if *status != 0 => Some(Datagram::Refused(*status)),
        (STATE_IS, [channel, status]) => {
            Some(Datagram::StateIs { channel: *channel, status: *status })
        }
        (DISCONNECT, [channel, _, rest @ ..]) if rest.len() == ENDPOINT => {
            Some(Datagram::Disconnect { channel: *channel })
        }
        (DISCONNECTED, [channel, status]) => {
            Some(Datagram::Disconnected { channel: *channel, status: *status })
        }
        (REQUEST, [4, channel, number, 0, frame @ ..]) => {
            Some(Datagram::Request { channel: *channel, number: *number, frame })
        }
        (ACKNOWLEDGED, [4, channel, number, status]) => {
            Some(Datagram::Acknowledged { channel: *channel, number: *number, status: *status })
        }
        _ => None,
    }
}

fn datagram(service: u16, body: &[&[u8]]) -> Vec<u8> {
    let length = HEAD + body.iter().map(|part| part.len()).sum::<usize>();
    let mut out = vec![6, 0x10];
    out.extend(service.to_be_bytes());
    out.extend((length as u16).to_be_bytes());
    body.iter().for_each(|part| out.extend(*part));
    out
}

/// The client's endpoint as it names it; 0.0.0.0:0 asks the server to answer to where a datagram came from.
fn named(own: SocketAddrV4) -> [u8; ENDPOINT] {
    let ([a, b, c, d], [high, low]) = (own.ip().octets(), own.port().to_be_bytes());
    [8, 1, a, b, c, d, high, low]
}

/// A connect to a tunnel at the link layer.
pub fn connect(own: SocketAddrV4) -> Vec<u8> {
    datagram(CONNECT, &[&named(own), &named(own), &[4, 4, 2, 0]])
}

pub fn state(channel: u8, own: SocketAddrV4) -> Vec<u8> {
    datagram(STATE, &[&[channel, 0], &named(own)])
}

pub fn disconnect(channel: u8, own: SocketAddrV4) -> Vec<u8> {
    datagram(DISCONNECT, &[&[channel, 0], &named(own)])
}

pub fn disconnected(channel: u8) -> Vec<u8> {
    datagram(DISCONNECTED, &[&[channel, 0]])
}

pub fn request(channel: u8, number: u8, frame: &[u8]) -> Vec<u8> {
    datagram(REQUEST, &[&[4, channel, number, 0], frame])
}

pub fn acknowledged(channel: u8, number: u8) -> Vec<u8> {
    datagram(ACKNOWLEDGED, &[&[4, channel, number, 0]])
}

/// A status in words.
pub fn status(number: u8) -> String {
    let words = match number {
        0x01 => "it does not serve UDP so",
        0x21 => "it knows no such channel",
        0x22 => "it has no tunnels",
        0x23 => "it does not serve such options",
        0x24 => "all its channels are taken",
        0x25 => "all channels for this client are taken",
        0x26 => "trouble with data",
        0x27 => "trouble with its bus",
        0x29 => "it does not serve this layer",
        _ => "a status that has no name",
    };
    format!("{words} (status {number:02x}h)")
}

#[cfg(test)]
mod tests {
    use super::*;

    fn bytes(text: &str) -> Vec<u8> {
        let digits: Vec<u8> = text.bytes().filter(|b| *b != b' ').collect();
        let pair =
            |pair: &[u8]| u8::from_str_radix(std::str::from_utf8(pair).unwrap(), 16).unwrap();
        digits.chunks(2).map(pair).collect()
    }

    #[test]
    fn read_and_written() {
        let own = SocketAddrV4::new(Ipv4Addr::LOCALHOST, 0x1234);
        let due = "0610 0205 001a 0801 7f000001 1234 0801 7f000001 1234 04040200";
        assert_eq!(connect(own), bytes(due));
        assert_eq!(state(7, own), bytes("0610 0207 0010 0700 0801 7f000001 1234"));
        assert_eq!(disconnect(7, own), bytes("0610 0209 0010 0700 0801 7f000001 1234"));
        assert_eq!(disconnected(7), bytes("0610 020a 0008 0700"));
        assert_eq!(request(7, 9, &[0x11, 0]), bytes("0610 0420 000c 04070900 1100"));
        assert_eq!(acknowledged(7, 9), bytes("0610 0421 000a 04070900"));

        let said = bytes("0610 0206 0014 0700 0801 7f000001 0e57 040411f0");
        let endpoint = SocketAddrV4::new(Ipv4Addr::LOCALHOST, 3671);
        assert_eq!(
            read(&said),
            Some(Datagram::Connected { channel: 7, endpoint, address: 0x11F0 })
        );
        let said = bytes("0610 0420 000b 04070900 29");
        assert_eq!(read(&said), Some(Datagram::Request { channel: 7, number: 9, frame: &[0x29] }));
        assert_eq!(read(&bytes("0610 0206 0008 0024")), Some(Datagram::Refused(0x24)));
        assert_eq!(
            read(&bytes("0610 0208 0008 0721")),
            Some(Datagram::StateIs { channel: 7, status: 0x21 })
        );
    }

    /// Cut, lengthened, or with a length that is not its own.
    #[test]
    fn lies() {
        let whole = bytes("0610 0206 0014 0700 0801 7f000001 0e57 040411f0");
        for upto in 0..whole.len() {
            assert_eq!(read(&whole[..upto]), None);
        }
        for (at, byte) in [(0, 5), (1, 0x20), (5, 0x13), (5, 0x15), (6, 0), (8, 7), (9, 2), (16, 3)]
        {
            let mut lie = whole.clone();
            lie[at] = byte;
            assert_eq!(read(&lie), None, "byte {at}");
        }
        assert_eq!(read(&bytes("0610 0421 0009 040709")), None);
        assert_eq!(read(&bytes("0610 0208 0006")), None);
        assert_eq!(read(&bytes("0610 0206 0008 0700")), None);
    }
}
