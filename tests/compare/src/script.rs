//! A script of the desk unit, played on a bridge: each answer is held to the
//! line that the unit must give.

use model::device::{Session, Way};
use model::faults::Fault;
use model::gen::Ask;
use model::link::NOBODY;
use model::sheet::{Memory, OLD, SAMPLE};
use model::trace;

use crate::play::{sessions, Play, World, PIECES, REQUEST, SERVED};
use crate::{hex, Bridge};

fn bytes(word: &str) -> Option<Vec<u8>> {
    let digits = if word == "-" { "" } else { word };
    (0..digits.len())
        .step_by(2)
        .map(|i| u8::from_str_radix(digits.get(i..i + 2)?, 16).ok())
        .collect()
}

/// The command of a line, after which so many events of the trace have been played; none if it is the PDU layer's, or no
/// command.
fn command(line: &str, world: &World, place: usize) -> Option<Play> {
    let words: Vec<&str> = line.split_whitespace().collect();
    Some(match words[..] {
        ["sheet", sheet] => Play::Sheet(bytes(sheet)?),
        ["convert"] => Play::Convert,
        ["session", c, open, level] => {
            Play::Found(c.parse().ok()?, Session { open: open == "1", level: level.parse().ok()? })
        }
        ["connect", c] => Play::Connect(c.parse().ok()?),
        ["disconnect", c] => Play::Disconnect(c.parse().ok()?),
        ["button", way] => Play::Button(way == "on"),
        ["request", mode, group, apdu, buffer, c] => Play::Request(Ask {
            way: Way {
                mode: mode.parse().ok()?,
                connection: c.parse().ok()?,
                group: group.parse().ok()?,
            },
            apdu: bytes(apdu)?,
            buffer: bytes(buffer)?,
        }),
        ["lookup", "property", object, id] => {
            Play::Property(object.parse().ok()?, id.parse().ok()?)
        }
        ["lookup", "region", k] => Play::Region(Memory::Device, k.parse().ok()?),
        ["lookup", "user", k] => Play::Region(Memory::User, k.parse().ok()?),
        ["lookup", "group", address] => Play::Group(address.parse().ok()?),
        ["store", store] => Play::Store(bytes(store)?),
        ["save"] => Play::Save,
        ["restore", c, number] => Play::Restore(c.parse().ok()?, number.parse().ok()?),
        ["remove", number] => Play::Remove(number.parse().ok()?),
        ["versions"] => Play::Versions,
        ["trace", trace] => Play::Trace(bytes(trace)?),
        ["play", limit] => {
            let limit: u64 = limit.parse().ok()?;
            let all = match trace::check(Fault::None, &world.trace) {
                0 => trace::events(Fault::None, &world.trace).len(),
                _ => 0,
            };
            let lines = limit.min((all - place.min(all)) as u64) as usize;
            Play::Pieces(place as u64, limit, vec![0xEE; trace::LINE * lines])
        }
        ["heard", frame] => Play::Heard(bytes(frame)?),
        ["serve", sequence, frame, buffer] => {
            Play::Serve(sequence.parse().ok()?, bytes(frame)?, bytes(buffer)?)
        }
        _ => return None,
    })
}

/// A reply, and sheet and store afterwards, as the unit says it.
fn said(play: &Play, reply: &[u8], sheet: &[u8], store: &[u8]) -> String {
    match play {
        Play::Store(_) if reply[0] == 0 => "OK".to_string(),
        Play::Store(_) => reply[0].to_string(),
        Play::Save => {
            let number = u16::from_le_bytes([reply[1], reply[2]]);
            format!("{} {number} {}", reply[0], hex(store))
        }
        Play::Convert | Play::Restore(..) => format!("{} {}", reply[0], hex(sheet)),
        Play::Remove(_) => format!("{} {}", reply[0], hex(store)),
        Play::Versions => {
            let kept =
                reply.chunks(4).map(|v| [0, 2].map(|i| u16::from_le_bytes([v[i], v[i + 1]])));
            let kept: Vec<_> = kept.filter(|v| v[0] != 0).collect();
            let each = |v: &[u16; 2]| format!(" {}:{}", v[0], v[1]);
            format!("{}{}", kept.len(), kept.iter().map(each).collect::<String>())
        }
        Play::Trace(_) if reply[0] == 0 => "OK".to_string(),
        Play::Trace(_) => reply[0].to_string(),
        Play::Pieces(..) if reply[0] != 0 => reply[0].to_string(),
        Play::Pieces(..) => {
            let log = &reply[PIECES..reply.len() - 8];
            let line = |l: &[u8]| format!(" {}:{}", l[0], hex(&l[2..2 + l[1] as usize]));
            let lines: String = log.chunks(trace::LINE).map(line).collect();
            let handled = u16::from_le_bytes([reply[1], reply[2]]);
            format!("{handled}{lines} {} {}", sessions(&reply[3..]), hex(sheet))
        }
        Play::Heard(_) if reply[0] > 5 => reply[0].to_string(),
        Play::Heard(_) => {
            let names =
                ["multicast", "broadcast", "connectionless", "connected", "connect", "disconnect"];
            let more = match (reply[0], reply[1]) {
                (0, _) => format!(" {}", u16::from_le_bytes([reply[2], reply[3]])),
                (_, NOBODY) => String::new(),
                (_, c) => format!(" {c}"),
            };
            format!("0 {}{more}", names[reply[0] as usize])
        }
        Play::Serve(..) => {
            let if_there = |there: bool, n: u8| if there { n.to_string() } else { "-".to_string() };
            let address = |i: usize| u16::from_le_bytes([reply[i], reply[i + 1]]);
            format!(
                "{} {} {} {} {} {} {} {} {}",
                reply[0],
                if_there(reply[0] == 0, reply[1]),
                if_there(reply[2] != NOBODY, reply[2]),
                reply[3],
                hex(&reply[SERVED..reply.len() - 8]),
                address(8),
                address(10),
                sessions(&reply[4..]),
                hex(sheet)
            )
        }
        Play::Sheet(_) if reply[0] == 0 => "OK".to_string(),
        Play::Sheet(_) if reply[0] == OLD => "OLD".to_string(),
        Play::Sheet(_) => format!("S{}", reply[0]),
        Play::Fresh => String::new(),
        Play::Found(c, _) => {
            let own = &reply[2 * *c as usize..];
            format!("session {c} {} {}", own[0], own[1])
        }
        Play::Request(_) => {
            let (buffer, after) = (&reply[REQUEST..reply.len() - 8], sessions(&reply[2..]));
            format!("{} {after} {} {} {}", reply[0], reply[1], hex(buffer), hex(sheet))
        }
        Play::Property(..) | Play::Region(..) | Play::Group(_) => {
            let number =
                |i: usize| u64::from_le_bytes(reply[i..i + 8].try_into().unwrap()) as usize;
            let (offset, length) = (number(0), number(8));
            sheet.get(offset..offset + length).map_or("outside the sheet".to_string(), hex)
        }
        _ => format!("{} {} 0 - {}", reply[0], sessions(&reply[1..]), hex(sheet)),
    }
}

/// A bridge with the model beside it, which tells how long each reply is.
struct Player {
    bridge: Bridge,
    world: World,
    /// So many events of the trace have been played.
    place: usize,
}

impl Player {
    /// What the unit says to a command, by the bridge's reply; none if there is none.
    fn ask(&mut self, play: &Play) -> Option<String> {
        let (mut wire, mut expected) = (Vec::new(), Vec::new());
        self.world.play(play, &mut expected);
        play.send(&mut wire);
        wire.extend(b"DE");
        self.bridge.send(wire);
        let (sheet, store) = (expected.len(), expected.len() + self.world.sheet.len());
        let got = self.bridge.receive(store + self.world.store.len());
        match play {
            Play::Trace(_) => self.place = 0,
            Play::Pieces(_, _, log) => self.place += log.len() / trace::LINE,
            _ => {}
        }
        (got.len() == store + self.world.store.len())
            .then(|| said(play, &got[..sheet], &got[sheet..store], &got[store..]))
    }
}

/// Plays a script and gives the number of its answers, or says what differs.
fn play(program: &str, script: &str, answers: &str) -> Result<usize, String> {
    let file = |name: &str| std::fs::read_to_string(name).map_err(|e| format!("{name}: {e}"));
    let (script_text, answers_text) = (file(script)?, file(answers)?);
    let lines = script_text.lines().filter(|line| !line.is_empty() && !line.starts_with('#'));
    let (bridge, world) = (Bridge::start(program), World::new(Fault::None));
    let mut player = Player { bridge, world, place: 0 };
    player.ask(&Play::Sheet(SAMPLE.to_vec()));
    player.ask(&Play::Fresh);
    let mut played = 0;
    for (line, wanted) in lines.zip(answers_text.lines()) {
        let command = command(line, &player.world, player.place);
        let Some(play) = command.filter(|_| !wanted.starts_with("ERR")) else { continue };
        let got = player.ask(&play).unwrap_or("no reply".to_string());
        if got != wanted {
            return Err(format!("{script}: {line}\n  expected {wanted}\n  got      {got}"));
        }
        played += 1;
    }
    Ok(played)
}

/// Plays each script, NAME.in, whose answers are in NAME.out.
pub fn scripts(program: &str, names: &[String]) -> bool {
    let mut played = 0;
    for name in names {
        match play(program, &format!("{name}.in"), &format!("{name}.out")) {
            Ok(n) => played += n,
            Err(why) => {
                println!("compare: {why}");
                return false;
            }
        }
    }
    println!("compare: {played} lines of {} scripts, 0 different", names.len());
    played > 0
}
