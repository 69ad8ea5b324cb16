//! frames IN OUT COUNT [SEED]: writes COUNT random commands on frames to IN, and to OUT what the desk unit must answer.
//! Frames of every kind, with one byte damaged, cut short or run on; and fields and lengths that no frame has.

use std::env;
use std::fs;

use model::frame::{self, hex};
use model::gen::Rng;

/// The lengths of additional information that are of interest, and any other.
fn info(rng: &mut Rng) -> Vec<u8> {
    let n = match rng.below(8) {
        7 => rng.below(256),
        i => [0, 0, 0, 1, 4, 254, 255][i],
    };
    rng.bytes(n)
}

/// The bytes from octet 6 on: data, connected data, connect, disconnect, acknowledgements, or any.
fn tpdu(rng: &mut Rng) -> Vec<u8> {
    let n = if rng.chance(40) { 1 } else { rng.within(1, 16) };
    let mut t = rng.bytes(n);
    let sequence = rng.byte() & 0x3C;
    t[0] = match rng.below(7) {
        0 => t[0] & 3,
        1 => 0x40 | sequence | t[0] & 3,
        2 => 0x80,
        3 => 0x81,
        4 => 0xC2 | sequence | t[0] & 1,
        5 => 0x80 | t[0],
        _ => t[0],
    };
    t
}

fn whole(rng: &mut Rng) -> Vec<u8> {
    let (i, t) = (info(rng), tpdu(rng));
    let mut b = vec![rng.pick(&[0x11, 0x29]), i.len() as u8];
    b.extend(&i);
    b.extend([rng.byte() | 0x80, rng.byte() & 0xF0]);
    b.extend(rng.array::<2>());
    b.extend(if rng.chance(20) { [0; 2] } else { rng.array::<2>() });
    b.push(t.len() as u8 - 1);
    b.extend(&t);
    b
}

fn read(rng: &mut Rng) -> String {
    let mut b = whole(rng);
    match rng.below(6) {
        0 | 1 => {}
        2 | 3 => {
            // the fields are hit as often as the long additional information
            let i = if rng.chance(50) {
                rng.below(b.len())
            } else {
                b.len() - 1 - rng.below(b.len().min(24))
            };
            b[i] = if rng.chance(50) { rng.byte() } else { b[i] ^ 1 << rng.below(8) };
        }
        4 => b.truncate(rng.below(b.len())),
        _ => {
            let n = rng.within(1, 4);
            b.extend(rng.bytes(n));
        }
    }
    format!("frame read {}", hex(&b))
}

/// A number that suits, or now and then one that doesn't.
fn number(rng: &mut Rng, suits: u64, most: u64) -> u64 {
    match rng.below(40) {
        0 => rng.draw() % (most + 1),
        1 => most + 1 + rng.draw() % 1000,
        2 => rng.draw() >> 1,
        _ => suits,
    }
}

fn write(rng: &mut Rng) -> String {
    let mut i = info(rng);
    if rng.chance(3) {
        let n = rng.within(256, 300);
        i = rng.bytes(n);
    }
    let mut t = tpdu(rng);
    if rng.chance(5) {
        let n = rng.pick(&[0, 17, 18, 40]);
        t = rng.bytes(n);
    }
    let code = rng.pick(&[0x11, 0x29]);
    let c1 = u64::from(rng.byte() | 0x80);
    let c2 = u64::from(rng.byte() & 0xF0);
    let (source, destination) = (u64::from(rng.word()), u64::from(rng.word()));
    let transport = rng.draw() % 64;
    let mut fields = [
        format!("code={}", number(rng, code, 255)),
        format!("c1={}", number(rng, c1, 255)),
        format!("c2={}", number(rng, c2, 255)),
        format!("source={}", number(rng, source, 65_535)),
        format!("destination={}", number(rng, destination, 65_535)),
        format!("transport={}", number(rng, transport, 255)),
        format!("info={}", hex(&i)),
        format!("apdu={}", hex(&t)),
    ];
    for k in (1..fields.len()).rev() {
        fields.swap(k, rng.below(k + 1));
    }
    let room = (9 + i.len() + t.len() + 2).saturating_sub(rng.below(5));
    format!("frame write {} {}", fields.join(" "), hex(&rng.bytes(room)))
}

fn main() {
    let words: Vec<String> = env::args().collect();
    let count: usize = words[3].parse().expect("COUNT is a number");
    let seed = words.get(4).map_or(20_261_115, |w| w.parse().expect("SEED is a number"));
    let mut rng = Rng::new(seed);
    let (mut script, mut expected) = (String::new(), String::new());
    for _ in 0..count {
        let command = if rng.chance(60) { read(&mut rng) } else { write(&mut rng) };
        expected += &(frame::answer(&command) + "\n");
        script += &(command + "\n");
    }
    fs::write(&words[1], script).expect("IN can't be written");
    fs::write(&words[2], expected).expect("OUT can't be written");
}
