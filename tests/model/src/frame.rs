//! cEMI frames (L_Data.req, L_Data.ind), read, understood and written, by the rules alone; and the two commands of the desk
//! unit that play them.

pub struct Frame {
    pub code: u64,
    pub c1: u64,
    pub c2: u64,
    pub source: u64,
    pub destination: u64,
    pub transport: u64,
    pub info: Vec<u8>,
    /// The bytes from octet 6 on; of one to be written, the APDU.
    pub tpdu: Vec<u8>,
}

/// The frame in the bytes, or the number of the refusal.
pub fn read(b: &[u8]) -> Result<Frame, u8> {
    if b.len() < 2 || b.len() < 10 + b[1] as usize {
        return Err(40);
    }
    if b[0] != 0x11 && b[0] != 0x29 {
        return Err(41);
    }
    let (info, rest) = b[2..].split_at(b[1] as usize);
    if rest[0] & 0x80 == 0 || rest[1] & 0x0F != 0 {
        return Err(42);
    }
    let (head, tpdu) = rest.split_at(7);
    if head[6] > 15 || head[6] as usize != tpdu.len() - 1 {
        return Err(43);
    }
    let pair = |i: usize| u64::from(head[i]) << 8 | u64::from(head[i + 1]);
    Ok(Frame {
        code: u64::from(b[0]),
        c1: u64::from(head[0]),
        c2: u64::from(head[1]),
        source: pair(2),
        destination: pair(4),
        transport: u64::from(tpdu[0] >> 2),
        info: info.to_vec(),
        tpdu: tpdu.to_vec(),
    })
}

/// What a frame that reads means, in the desk unit's words.
pub fn meaning(f: &Frame) -> String {
    let first = f.tpdu[0];
    let alone = f.tpdu.len() == 1;
    let text = match (f.c2 & 0x80 != 0, first >> 2) {
        (true, 0) if f.destination == 0 => "broadcast",
        (true, 0) => return format!("multicast {}", f.destination),
        (true, _) => "44",
        (false, 0) => "connectionless",
        (false, 0b010000..=0b011111) => "connected",
        _ if alone && first == 0x80 => "connect",
        _ if alone && first == 0x81 => "disconnect",
        _ if alone && matches!(first & 0xC3, 0xC2 | 0xC3) => "45",
        _ => "44",
    };
    text.to_string()
}

/// The frame's bytes in front of the buffer: outcome and count.
pub fn write(f: &Frame, buffer: &mut [u8]) -> (u8, usize) {
    let possible = (f.code == 0x11 || f.code == 0x29)
        && (128..256).contains(&f.c1)
        && f.c2 < 256
        && f.c2.is_multiple_of(16)
        && f.source < 65_536
        && f.destination < 65_536
        && f.transport < 64
        && f.info.len() < 256
        && (1..=16).contains(&f.tpdu.len());
    if !possible {
        return (47, 0);
    }
    let mut b = vec![f.code as u8, f.info.len() as u8];
    b.extend(&f.info);
    b.extend([f.c1 as u8, f.c2 as u8]);
    b.extend((f.source as u16).to_be_bytes());
    b.extend((f.destination as u16).to_be_bytes());
    b.push(f.tpdu.len() as u8 - 1);
    b.push((f.transport as u8) << 2 | f.tpdu[0] & 3);
    b.extend(&f.tpdu[1..]);
    if buffer.len() < b.len() {
        return (46, 0);
    }
    buffer[..b.len()].copy_from_slice(&b);
    (0, b.len())
}

pub fn hex(b: &[u8]) -> String {
    if b.is_empty() {
        return "-".to_string();
    }
    b.iter().map(|x| format!("{x:02x}")).collect()
}

fn bytes(text: &str) -> Vec<u8> {
    let digits = text.strip_prefix('-').unwrap_or(text);
    (0..digits.len() / 2)
        .map(|i| u8::from_str_radix(&digits[2 * i..2 * i + 2], 16).unwrap())
        .collect()
}

/// What the unit must answer to `frame read HEX` or `frame write field=value .. BUFHEX`.
pub fn answer(command: &str) -> String {
    let words: Vec<&str> = command.split(' ').collect();
    if words[1] == "read" {
        return match read(&bytes(words[2])) {
            Err(n) => n.to_string(),
            Ok(f) => format!(
                "0 code={} c1={} c2={} source={} destination={} transport={} info={} tpdu={} {}",
                f.code,
                f.c1,
                f.c2,
                f.source,
                f.destination,
                f.transport,
                hex(&f.info),
                hex(&f.tpdu),
                meaning(&f)
            ),
        };
    }
    let (fields, buffer) = (&words[2..words.len() - 1], words[words.len() - 1]);
    let value = |name: &str| {
        let at = fields.iter().find_map(|w| w.strip_prefix(name)?.strip_prefix('='));
        at.unwrap_or_else(|| panic!("{name} is missing"))
    };
    let number = |name: &str| value(name).parse().unwrap();
    let f = Frame {
        code: number("code"),
        c1: number("c1"),
        c2: number("c2"),
        source: number("source"),
        destination: number("destination"),
        transport: number("transport"),
        info: bytes(value("info")),
        tpdu: bytes(value("apdu")),
    };
    let mut buffer = bytes(buffer);
    let (outcome, count) = write(&f, &mut buffer);
    format!("{outcome} {count} {}", hex(&buffer))
}
