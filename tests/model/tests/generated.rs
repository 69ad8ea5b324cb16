//! What the generators reach, and what must hold of everything generated.

use std::collections::BTreeSet;

use model::device::{button_with, connect_with, disconnect_with, request_with, Reply, Sessions};
use model::faults::Fault;
use model::gen::{self, Event, Rng};
use model::matrix::{self, ROWS};
use model::pdu::{self, Pdu};
use model::sheet::{self, Memory, LATER, OLD, RULES, USERS};

#[test]
fn sheets_break_no_rule_and_are_of_many_sizes() {
    let mut rng = Rng::new(1);
    let mut lengths = BTreeSet::new();
    let mut seen = [[false; 65]; 4];
    let (mut touching, mut code_0, mut verify) = ([0; 2], 0, [0; 2]);
    let (mut editions, mut rules, mut shared) = ([0; 3], [0; 2], 0);
    for _ in 0..4000 {
        let s = gen::whole_sheet(&mut rng);
        assert_eq!((sheet::rule(&s), sheet::check(&s) == OLD), (0, s[0] == 1));
        lengths.insert(s.len());
        editions[s[0] as usize] += 1;
        rules[s[RULES] as usize] += usize::from(s[0] == 2);
        assert_eq!(sheet::rules(&s), s[RULES]);
        for (k, at) in [1, 2, 3, USERS].into_iter().enumerate() {
            seen[k][s[at] as usize] = true;
        }
        let [device, user] = [Memory::Device, Memory::User]
            .map(|memory| sheet::regions(&s, memory).collect::<Vec<_>>());
        for (count, regions) in touching.iter_mut().zip([&device, &user]) {
            *count +=
                regions.windows(2).filter(|w| w[0].address + w[0].length == w[1].address).count();
        }
        let meet = |a: &sheet::Region, b: &sheet::Region| {
            a.address < b.address + b.length && b.address < a.address + a.length
        };
        shared += usize::from(user.iter().any(|u| device.iter().any(|d| meet(u, d))));
        code_0 += sheet::groups(&s).filter(|g| g.code == 0).count();
        verify[(s[14] >> 1) as usize] += 1;
    }
    assert!(lengths.len() > 1500, "{}", lengths.len());
    assert!(lengths.contains(&32) && lengths.contains(&16_384));
    assert!(seen[0][..17].iter().chain(&seen[3][..17]).all(|&b| b));
    assert!(seen[1..3].iter().flatten().all(|&b| b));
    assert!(touching.iter().all(|&n| n > 1000) && code_0 > 1000);
    assert!(verify[0] > 500 && verify[1] > 500 && editions[1] > 1000 && editions[2] > 1000);
    assert!(rules.iter().all(|&n| n > 1000), "{rules:?}");
    assert!(shared > 500, "{shared}");
}

#[test]
fn damaged_sheets_break_every_rule() {
    let mut rng = Rng::new(2);
    let mut seen = [0; 15];
    for _ in 0..20_000 {
        let s = gen::any_sheet(&mut rng);
        seen[sheet::check(&s) as usize] += 1;
    }
    assert!((0..10).chain([14]).all(|k| seen[k] > 100), "{seen:?}");
}

/// A device as the events find and leave it.
#[derive(Clone, PartialEq, Debug)]
struct State {
    sheet: Vec<u8>,
    sessions: Sessions,
    buffer: Vec<u8>,
    reply: Reply,
}

impl State {
    fn new(rng: &mut Rng) -> State {
        let mut sheet = if rng.chance(10) { gen::old_sheet(rng) } else { gen::sheet(rng) };
        if rng.chance(8) {
            gen::damage(rng, &mut sheet);
        }
        let reply = Reply { outcome: 1, count: 0, changed: [(0, 0); 2] };
        let sessions = [gen::session(rng), gen::session(rng)];
        State { sheet, sessions, buffer: Vec::new(), reply }
    }

    fn step(&mut self, fault: Fault, event: &Event) {
        let done = |outcome| Reply { outcome, count: 0, changed: [(0, 0); 2] };
        self.reply = match event {
            Event::Connect(c) => done(connect_with(fault, &mut self.sessions, *c)),
            Event::Disconnect(c) => done(disconnect_with(fault, &mut self.sessions, *c)),
            Event::Button(on) => done(button_with(fault, &mut self.sheet, *on)),
            Event::Found(c, session) => {
                self.sessions[*c as usize] = *session;
                done(1)
            }
            Event::Request(ask) => {
                self.buffer.clone_from(&ask.buffer);
                request_with(
                    fault,
                    &mut self.sessions,
                    ask.way,
                    &ask.apdu,
                    &mut self.sheet,
                    &mut self.buffer,
                )
            }
        };
    }
}

#[test]
fn every_outcome_that_can_occur_does_and_no_other() {
    let mut rng = Rng::new(3);
    let mut seen = [[[0u16; 5]; ROWS.len()]; 2];
    for _ in 0..16_000 {
        let mut state = State::new(&mut rng);
        for _ in 0..100 {
            let event = gen::event(&mut rng, &state.sheet);
            let before = state.clone();
            state.step(Fault::None, &event);
            let Event::Request(ask) = &event else {
                continue;
            };
            let Reply { outcome, count, changed } = state.reply;
            let (row, column) = (matrix::row(&ask.apdu), matrix::column(ask.way.mode));
            let rules = sheet::rules(&before.sheet);
            let can = matrix::can(rules, &ask.apdu, ask.way.mode);
            assert!(can >> outcome & 1 == 1, "{event:?} {outcome}");
            seen[rules as usize][row][column] |= 1 << outcome;

            let count = count as usize;
            assert!(count <= 16 && state.buffer[count..] == ask.buffer[count..], "{event:?}");
            assert_eq!(count > 0, matches!(outcome, 0 | 11), "{event:?}");
            // every byte outside the parts named is as found
            let named = |i| changed.iter().any(|&(at, n)| (at..at + n).contains(&i));
            let bytes = before.sheet.iter().zip(&state.sheet).enumerate();
            assert!(bytes.into_iter().all(|(i, (b, a))| b == a || named(i)), "{event:?}");
            if !matches!(outcome, 0 | 1) {
                assert_eq!(changed, [(0, 0); 2], "{event:?}");
                assert_eq!(state.sheet, before.sheet, "{event:?}");
                assert_eq!(state.sessions, before.sessions, "{event:?}");
            }
            // how a host sees a Restart, by kelindap.h
            let restarted = row == 16 && outcome == 1;
            for (before, after) in before.sessions.iter().zip(state.sessions) {
                assert_eq!(before.open && !after.open, before.open && restarted, "{event:?}");
            }
            if ask.way.mode == 2 {
                assert_eq!(outcome == 1, restarted, "{event:?}");
            }
            if !matches!(outcome, 3 | 4 | OLD) {
                assert_eq!(sheet::check(&state.sheet), 0, "{event:?}");
            }
            if count > 0 {
                assert!(pdu::read(&state.buffer[..count]).is_ok(), "{event:?}");
            }
        }
    }
    for (rules, seen) in seen.iter().enumerate() {
        for (row, seen) in seen.iter().enumerate() {
            let (name, can) = (ROWS[row].0, matrix::cells(rules as u8, row));
            assert_eq!(can, *seen, "{name}, rules {rules}: {can:?} {seen:?}");
        }
    }
}

/// What the release before made of an old sheet is what this one makes of the converted sheet, but for byte 0; as it is, the
/// old one gets 14 and stays.
#[test]
fn old_sheets_are_converted() {
    let mut rng = Rng::new(112);
    let (mut refused, mut served) = (0, 0);
    for _ in 0..2000 {
        let mut old = State::new(&mut rng);
        old.sheet = gen::old_sheet(&mut rng);
        let mut new = old.clone();
        assert_eq!(sheet::convert(Fault::None, &mut new.sheet), 1);
        assert_eq!((new.sheet[0], &new.sheet[1..]), (2, &old.sheet[1..]));
        assert_eq!((sheet::check(&new.sheet), sheet::rules(&new.sheet)), (0, 0));
        assert_eq!(sheet::convert(Fault::None, &mut new.sheet), 4);
        for _ in 0..40 {
            let event = gen::event(&mut rng, &new.sheet);
            let mut now = old.clone();
            now.step(Fault::None, &event);
            old.step(Fault::OldServed, &event);
            new.step(Fault::None, &event);
            let edition = std::mem::replace(&mut new.sheet[0], 1);
            assert_eq!((edition, &new), (2, &old), "{event:?}");
            new.sheet[0] = edition;
            match &event {
                Event::Request(ask) => {
                    assert_eq!(now.reply.outcome, if ask.buffer.len() < 16 { 3 } else { OLD });
                    assert_eq!(now.buffer, ask.buffer);
                    refused += 1;
                    served += usize::from(new.reply.outcome <= 1);
                }
                Event::Button(_) => assert_eq!(now.reply.outcome, OLD),
                _ => assert_eq!(now.reply, new.reply),
            }
        }
    }
    assert!(served > 10_000 && refused > 2 * served, "{served} {refused}");
}

/// Each fault of old sheets shows in the verdict of what is asked, or in a conversion.
#[test]
fn faults_of_old_sheets_show() {
    for fault in Fault::OLD {
        let mut rng = Rng::new(113);
        let mut found = 0;
        for _ in 0..2000 {
            let right = gen::any_sheet(&mut rng);
            let (mut one, mut two) = (right.clone(), right.clone());
            let convert =
                |fault, sheet: &mut Vec<u8>| (sheet::convert(fault, sheet), sheet.clone());
            let differs = convert(Fault::None, &mut one) != convert(fault, &mut two)
                || sheet::refusal(Fault::None, &right) != sheet::refusal(fault, &right);
            found += usize::from(differs);
        }
        println!("{fault:?}: {found} of 2000 sheets");
        assert!(found >= 20, "{fault:?} {found}");
    }
}

/// Connects and disconnects give 1, or 7 where there is no such connection, which changes nothing.
#[test]
fn connections_there_are_not() {
    let mut rng = Rng::new(8);
    let mut seen = [[0; 2]; 2];
    for _ in 0..200_000 {
        let mut state = State::new(&mut rng);
        let event = gen::event(&mut rng, &state.sheet);
        let before = state.clone();
        let (which, c) = match event {
            Event::Connect(c) => (0, c),
            Event::Disconnect(c) => (1, c),
            _ => continue,
        };
        state.step(Fault::None, &event);
        assert_eq!(state.sheet, before.sheet);
        assert!(matrix::NAMED >> state.reply.outcome & 1 == 1);
        assert_eq!(state.reply.outcome == 7, c > 1);
        for (k, (after, before)) in (0..).zip(state.sessions.iter().zip(&before.sessions)) {
            assert!(k == c || after == before, "{event:?}");
        }
        seen[which][usize::from(c > 1)] += 1;
    }
    assert!(seen.iter().flatten().all(|&n| n > 50), "{seen:?}");
}

/// What the two installers come to: different rights at once, keys that the other changed and
/// that open nothing any more, and restarts that end what the other had.
#[test]
fn two_tools_get_in_each_others_way() {
    let mut rng = Rng::new(9);
    let (mut apart, mut stale, mut ended) = (0, [0; 2], [0; 2]);
    for _ in 0..200 {
        let mut state = State::new(&mut rng);
        if sheet::check(&state.sheet) != 0 {
            continue;
        }
        let mut tools = gen::Tools::new(&state.sheet);
        // the key by which each got its level
        let mut key = [None; 2];
        for _ in 0..300 {
            let event = tools.event(&mut rng, &state.sheet, &state.sessions);
            let before = state.sessions;
            state.step(Fault::None, &event);
            let [first, second] = state.sessions;
            apart += usize::from(first.open && second.open && first.level != second.level);
            let Event::Request(ask) = &event else { continue };
            let (tool, other) =
                (ask.way.connection as usize, 1 - ask.way.connection.min(1) as usize);
            match pdu::read(&ask.apdu) {
                Ok((Pdu::AuthorizeRequest { key: offered }, _)) if state.reply.outcome == 0 => {
                    let level = state.sessions[tool].level;
                    stale[tool] += usize::from(level == 3 && key[tool] == Some(offered));
                    key[tool] = Some(offered).filter(|_| level < 3);
                }
                Ok((Pdu::Restart, _)) if state.reply.outcome == 1 && ask.way.mode == 3 => {
                    ended[tool] += usize::from(before[other].open);
                }
                _ => {}
            }
        }
    }
    println!("{apart} {stale:?} {ended:?}");
    assert!(apart > 10_000 && stale.iter().chain(&ended).all(|&n| n > 50));
}

/// What the rules differ in: the code of Restart in mode 2, whatever the length,
/// since 9 comes before 10, and a descriptor type other than 0. On all else a
/// sheet does the same under both.
#[test]
fn the_rules_differ_in_two_services() {
    let mut rng = Rng::new(7);
    let mut differed = [0; 2];
    for _ in 0..3000 {
        let mut first = State::new(&mut rng);
        (first.sheet[0], first.sheet[RULES]) = (2, 0);
        for _ in 0..40 {
            let event = gen::event(&mut rng, &first.sheet);
            let mut later = first.clone();
            later.sheet[RULES] = LATER;
            first.step(Fault::None, &event);
            later.step(Fault::None, &event);
            let apart = match &event {
                Event::Request(ask) if ask.way.mode == 2 && matrix::row(&ask.apdu) == 16 => Some(0),
                Event::Request(ask) => match pdu::read(&ask.apdu) {
                    Ok((Pdu::DescriptorRead { t: 1.. }, _)) => Some(1),
                    _ => None,
                },
                _ => None,
            };
            assert_eq!((first.sheet[RULES], later.sheet[RULES]), (0, LATER));
            later.sheet[RULES] = 0;
            match apart {
                Some(which) => differed[which] += usize::from(first != later),
                None => assert_eq!(first, later, "{event:?}"),
            }
        }
    }
    assert!(differed.iter().all(|&n| n > 100), "{differed:?}");
}

/// Memory, number and first address of a request for bytes of memory.
fn range(apdu: &[u8]) -> Option<(Memory, u32, u32)> {
    let (memory, n, address) = match pdu::read(apdu).ok()?.0 {
        Pdu::MemoryRead { n, address }
        | Pdu::MemoryWrite { n, address }
        | Pdu::MemoryBitWrite { n, address } => (Memory::Device, n, address),
        Pdu::UserMemoryRead { n, address } | Pdu::UserMemoryWrite { n, address } => {
            (Memory::User, n, address)
        }
        _ => return None,
    };
    Some((memory, n.into(), address.into()))
}

#[test]
fn ranges_go_over_any_number_of_regions() {
    let mut rng = Rng::new(7);
    // carried out, by memory and number of regions; denied for a level, a gap of one byte, the
    // other memory, the last address
    let mut done = [[0; 13]; 2];
    let (mut level, mut gap, mut other, mut last) = ([0; 2], [0; 2], [0; 2], [0; 2]);
    for _ in 0..5000 {
        let mut state = State::new(&mut rng);
        for _ in 0..100 {
            let event = gen::event(&mut rng, &state.sheet);
            let sheet = state.sheet.clone();
            state.step(Fault::None, &event);
            let Event::Request(ask) = &event else { continue };
            let Some((memory, n, first)) = range(&ask.apdu) else { continue };
            let of = memory as usize;
            match state.reply.outcome {
                0 | 1 => {
                    let touched = sheet::regions(&sheet, memory)
                        .filter(|r| r.address < first + n && first < r.address + r.length);
                    done[of][touched.count()] += 1;
                }
                11 | 12 if (2..=12).contains(&n) => {
                    let has = |memory, y| {
                        sheet::regions(&sheet, memory)
                            .any(|r| r.address <= y && y < r.address + r.length)
                    };
                    let missing: Vec<_> = (first..first + n).filter(|&y| !has(memory, y)).collect();
                    let inner = missing.iter().all(|&y| first < y);
                    let user = [Memory::User, Memory::Device][of];
                    level[of] += usize::from(missing.is_empty());
                    gap[of] +=
                        usize::from(missing.len() == 1 && inner && missing[0] + 1 < first + n);
                    other[of] += usize::from(
                        !missing.is_empty() && inner && missing.iter().all(|&y| has(user, y)),
                    );
                    last[of] += usize::from(inner && missing.first() == Some(&65_536));
                }
                _ => {}
            }
        }
    }
    println!("{done:?} {level:?} {gap:?} {other:?} {last:?}");
    assert!(done[0][1..=12].iter().chain(&done[1][1..=11]).all(|&n| n >= 5), "{done:?}");
    for denied in [level, gap, other, last] {
        assert!(denied.iter().all(|&n| n >= 200), "{level:?} {gap:?} {other:?} {last:?}");
    }
}

#[test]
fn every_fault_shows() {
    for (k, fault) in Fault::ALL.into_iter().enumerate() {
        let mut rng = Rng::new(100 + k as u64);
        let mut found = 0;
        for _ in 0..1500 {
            let mut right = State::new(&mut rng);
            let mut wrong = right.clone();
            for _ in 0..40 {
                let event = gen::event(&mut rng, &right.sheet);
                right.step(Fault::None, &event);
                wrong.step(fault, &event);
                if right != wrong {
                    found += 1;
                    break;
                }
            }
        }
        println!("{fault:?}: {found} of 1500 runs");
        assert!(found >= 20, "{fault:?} {found}");
    }
}

#[test]
fn rows_agree_with_the_reader() {
    for code in 0..1024u16 {
        let apdu = code.to_be_bytes();
        if matrix::row(&apdu) != matrix::UNKNOWN {
            assert_ne!(pdu::read(&apdu), Err(8), "{code:03X}");
        }
    }
    let known = (0..1024u16).filter(|c| pdu::read(&c.to_be_bytes()) != Err(8)).count();
    let served = (0..1024u16).filter(|c| matrix::row(&c.to_be_bytes()) != matrix::UNKNOWN).count();
    assert_eq!(served, 1 + 64 + 64 + 1 + 1 + 1 + 1 + 64 + 3 + 16 + 16 + 3 + 1 + 2);
    assert_eq!(known - served, 1 + 1 + 64 + 1 + 1 + 16 + 1 + 1 + 1);
}

#[test]
fn written_pdus_read_back() {
    let mut rng = Rng::new(4);
    let mut written = 0;
    for _ in 0..50_000 {
        let (pdu, data) = gen::pdu(&mut rng);
        let room = if rng.chance(5) { rng.below(16) } else { rng.within(16, 20) };
        let before = rng.bytes(room);
        let mut out = before.clone();
        match pdu::write(&pdu, &data, &mut out) {
            Ok(count) => {
                written += 1;
                assert_eq!(out[count..], before[count..]);
                let (back, range) = pdu::read(&out[..count]).unwrap();
                assert_eq!((back, &out[range]), (pdu, &data[..]));
            }
            Err(number) => {
                assert_eq!(number, if room < 16 { 3 } else { 13 });
                assert_eq!(out, before);
            }
        }
    }
    assert!((20_000..48_000).contains(&written), "{written}");
}

#[test]
fn read_pdus_write_back() {
    let mut rng = Rng::new(5);
    let mut read = 0;
    for _ in 0..20_000 {
        let sheet = gen::sheet(&mut rng);
        let apdu = gen::ask(&mut rng, &sheet).apdu;
        let Ok((pdu, range)) = pdu::read(&apdu) else {
            continue;
        };
        let mut out = [0; 16];
        let count = pdu::write(&pdu, &apdu[range], &mut out).unwrap();
        let mut expected = apdu.clone();
        expected[0] &= 3;
        match pdu::code(&apdu) {
            0x3D1 => expected[2] = 0,
            0x3DD | 0x3DE => expected[10..].fill(0),
            _ => {}
        }
        assert_eq!(out[..count], expected);
        read += 1;
    }
    assert!(read > 10_000);
}
