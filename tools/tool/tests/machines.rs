//! Random and mutated datagrams to the client's state machines, and what must hold after each: no panic, bounded memory, numbers
//! that go on by one, nothing sent that was not due. Half a million to each; LONG=1 makes it five.

use std::net::{Ipv4Addr, SocketAddrV4};

use model::gen::Rng;
use tool::archive;
use tool::transport::{self, Transport};
use tool::tunnel::{self, To, Told, Tunnel, LINE};

const OWN: SocketAddrV4 = SocketAddrV4::new(Ipv4Addr::LOCALHOST, 4660);

fn times() -> usize {
    if std::env::var_os("LONG").is_some() {
        5_000_000
    } else {
        500_000
    }
}

fn datagram(service: u16, body: &[u8]) -> Vec<u8> {
    let mut out = vec![6, 16];
    out.extend(service.to_be_bytes());
    out.extend((6 + body.len() as u16).to_be_bytes());
    out.extend(body);
    out
}

/// A frame of a unit, or something near one.
fn frame(rng: &mut Rng) -> Vec<u8> {
    let info = if rng.chance(5) { rng.bytes(3) } else { Vec::new() };
    let code = rng.pick(&[0x29, 0x29, 0x29, 0x2E, 0x11, 0x2B]);
    let tpdu = match rng.below(6) {
        0 => vec![rng.pick(&[0x80, 0x81])],
        1 => vec![0xC2 | rng.byte() & 0x3C],
        2 => vec![0xC3 | rng.byte() & 0x3C],
        _ => {
            let apdu = rng.pick(&[
                &[3, 0xD6, 1, 51, 0x10, 1, 3, 232][..],
                &[3, 0xD9, 1, 51, 0, 0x84, 0, 2, 0x31],
                &[2, 0x44, 1, 0, 1, 2, 3, 4],
                &[3, 0xD2, 1],
                &[3, 0x40, 7, 0xB0],
            ]);
            let mut tpdu = apdu.to_vec();
            tpdu[0] |= 0x40 | rng.byte() & 0x3C;
            tpdu
        }
    };
    let mut out = vec![code, info.len() as u8];
    out.extend(info);
    out.extend([0xB0 | rng.byte() & 1, 0x60, 0x11, 5, 0x11, 0xF0, tpdu.len() as u8 - 1]);
    out.extend(tpdu);
    out
}

fn mutated(rng: &mut Rng, mut bytes: Vec<u8>) -> Vec<u8> {
    match rng.below(6) {
        0 => bytes.truncate(rng.below(bytes.len() + 1)),
        1 => {
            let many = rng.below(40);
            bytes.extend(rng.bytes(many));
        }
        2 => {
            for _ in 0..=rng.below(3) {
                let at = rng.below(bytes.len());
                bytes[at] = rng.byte();
            }
        }
        3 if bytes.len() > 5 => bytes[5] = rng.byte(), // a length that lies
        4 if rng.chance(10) => bytes = rng.bytes(600),
        _ => {}
    }
    bytes
}

/// A tunnel that is spoken to by a server that is right, late, doubled, cut, or makes things up.
#[test]
fn the_tunnel() {
    let mut rng = Rng::new(52);
    let mut t = Tunnel::new(OWN);
    let (mut now, mut opened, mut sent, mut frames, mut closed) = (0u64, 0, 0u64, 0u64, 0);
    let (mut number, mut expected, mut channel) = (0u8, 0u8, 0u8);
    let mut last = Vec::new();
    let mut under_way: Option<Vec<u8>> = None;
    t.open(now);
    for _ in 0..times() {
        now += rng.pick(&[0, 0, 1, 5, 20, 300, 1_000, 3_000, 61_000]);
        let said = match rng.below(10) {
            0 => {
                let status = rng.pick(&[0, 0, 0, 0x24]);
                datagram(
                    0x0206,
                    &[&[rng.byte(), status, 8, 1, 127, 0, 0, 1, 14, 87, 4, 4, 0x11, 0xF0][..]]
                        .concat(),
                )
            }
            1 => datagram(0x0208, &[channel, rng.pick(&[0, 0, 0x21])]),
            2 if rng.chance(5) => datagram(0x0209, &[channel, 0, 8, 1, 127, 0, 0, 1, 14, 87]),
            3 => datagram(
                0x0421,
                &[4, channel, number, rng.pick(&[0, 0, 0, 0, 0, 0, 0, 0, 0, 0x29])],
            ),
            4 => datagram(0x0421, &[4, channel, rng.byte(), 0]),
            5 => last.clone(), // doubled
            6 if under_way.is_some() => {
                let mut con = under_way.clone().unwrap();
                con[0] = 0x2E;
                datagram(0x0420, &[&[4, channel, expected, 0], &con[..]].concat())
            }
            _ => {
                let n = if rng.chance(80) { expected } else { rng.byte() };
                datagram(0x0420, &[&[4, channel, n, 0], &frame(&mut rng)[..]].concat())
            }
        };
        last = said.clone();
        let said = if rng.chance(30) { mutated(&mut rng, said) } else { said };
        t.datagram(&said, now);
        if rng.chance(40) {
            t.tick(now);
        }
        if rng.chance(30) {
            let tpdu = [0x43, 0xD5, 1, 51, 0x10, 1];
            let mut frame = vec![0x11, 0, 0xB0, 0x60, 0, 0, 0x11, 5, 5];
            frame.extend(tpdu);
            t.send(frame, now);
        }
        if rng.below(20_000) == 0 {
            t.close(now);
        }
        let mut out = 0;
        while let Some((to, bytes)) = t.sends() {
            out += 1;
            assert!(bytes.len() <= 6 + 4 + 32 && bytes[..2] == [6, 16], "{bytes:?}");
            let service = u16::from_be_bytes([bytes[2], bytes[3]]);
            assert_eq!(to == To::Data, service >= 0x0420, "{bytes:?}");
            match service {
                0x0420 => {
                    // a repetition, or the next number
                    assert!(bytes[8] == number || bytes[8] == number.wrapping_add(1));
                    number = bytes[8];
                    under_way = Some(bytes[10..].to_vec());
                    sent += 1;
                }
                // only what is expected, or was before, is acknowledged
                0x0421 => {
                    assert!(bytes[8] == expected || bytes[8] == expected.wrapping_sub(1));
                    if bytes[8] == expected {
                        expected = expected.wrapping_add(1);
                    }
                }
                0x0207 | 0x0209 | 0x020A | 0x0205 => {}
                _ => panic!("service {service:04x}"),
            }
        }
        assert!(out <= 4, "{out} datagrams for one");
        let mut told = 0;
        while let Some(said) = t.tells() {
            told += 1;
            match said {
                Told::Opened { .. } => {
                    opened += 1;
                    (number, expected, channel) = (0, 0, said_channel(&last));
                }
                Told::Frame(bytes) => {
                    frames += 1;
                    if let Some((_, tpdu)) = archive::frame_read(&bytes) {
                        let _ = archive::read(tpdu);
                    }
                }
                Told::Closed(_) => {
                    closed += 1;
                    under_way = None;
                }
                Told::Confirmed(_) | Told::Unconfirmed => {}
            }
        }
        assert!(told <= LINE + 1);
        if t.due().is_none() {
            // one that is closed stays closed: the next is a new one
            assert!(!t.send(vec![0; 10], now) && t.sends().is_none());
            t = Tunnel::new(OWN);
            t.open(now);
            (number, expected) = (0, 0);
        }
    }
    assert!(
        opened > 100 && closed > 100 && sent > 1_000 && frames > 1_000,
        "{opened} {closed} {sent} {frames}"
    );
    println!("tunnel: {} datagrams, {opened} channels, {sent} requests, {frames} frames", times());
}

/// The channel that a connect's answer names.
fn said_channel(datagram: &[u8]) -> u8 {
    datagram.get(6).copied().unwrap_or(0)
}

/// A connection to a partner that numbers as it likes.
#[test]
fn transport_too() {
    let mut rng = Rng::new(53);
    let mut now = 0u64;
    let mut t = Transport::open(now);
    let (mut out, mut expected, mut asked) = (0u8, 0u8, 0usize);
    let (mut taken, mut closed, mut acknowledged) = (0u64, 0u64, 0u64);
    for _ in 0..times() {
        now += rng.pick(&[0, 1, 10, 100, 1_000, 3_000]);
        let bytes = match rng.below(8) {
            0 => vec![transport::ACK | out << 2],
            1 => vec![rng.pick(&[transport::ACK, transport::NAK]) | rng.byte() & 0x3C],
            2 if rng.chance(3) => vec![transport::DISCONNECT],
            3 => {
                let frame = frame(&mut rng);
                archive::frame_read(&frame).map_or(frame.clone(), |(_, tpdu)| tpdu.to_vec())
            }
            4 => {
                let many = rng.below(20);
                rng.bytes(many)
            }
            _ => {
                vec![0x43 | (if rng.chance(80) { expected } else { rng.byte() & 15 }) << 2, 0xD6, 1]
            }
        };
        t.tpdu(&bytes, now);
        if rng.chance(40) {
            t.tick(now);
        }
        if rng.chance(40) && t.send(&[3, 0xD5, 1], now) {
            asked += 1;
        }
        let mut told = 0;
        while let Some(said) = t.tells() {
            told += 1;
            match said {
                transport::Told::Acknowledged => {
                    acknowledged += 1;
                    asked -= 1;
                    out = (out + 1) & 15;
                }
                transport::Told::Data(apdu) => {
                    assert!(apdu[0] < 4);
                    taken += 1;
                    expected = (expected + 1) & 15;
                }
                transport::Told::Closed(_) => closed += 1,
            }
        }
        assert!(told <= transport::LINE + 1 && asked <= 1);
        let mut sends = 0;
        while let Some(tpdu) = t.sends() {
            sends += 1;
            assert!(!tpdu.is_empty() && tpdu.len() <= transport::LONGEST);
            if tpdu[0] & 0xC0 == transport::DATA {
                assert_eq!(tpdu[0] >> 2 & 15, out, "a number out of turn");
            }
        }
        assert!(sends <= 4);
        if !t.is_open() {
            assert!(!t.send(&[3, 0], now) && t.due().is_none() && t.sends().is_none());
            t = Transport::open(now);
            (out, expected, asked) = (0, 0, 0);
        }
    }
    assert!(
        taken > 1_000 && closed > 100 && acknowledged > 1_000,
        "{taken} {closed} {acknowledged}"
    );
    println!("transport: {} TPDUs, {taken} taken, {acknowledged} acknowledged", times());
}

/// The constants are those of the protocol.
#[test]
fn limits() {
    assert_eq!((tunnel::CONNECT, tunnel::REQUEST, tunnel::SENDS), (10_000, 1_000, 2));
    assert_eq!((tunnel::OFTEN, tunnel::STATE, tunnel::STATES), (60_000, 10_000, 3));
    assert_eq!((transport::WAIT, transport::REPEATS, transport::SILENCE), (3_000, 3, 6_000));
}
