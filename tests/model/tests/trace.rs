//! Traces: a worked one, each refusal, playing in pieces, there and back.

use model::device::{self, Sessions, Way, FRESH};
use model::faults::Fault;
use model::gen::{self, traces, Rng};
use model::sheet::SAMPLE;
use model::trace::{self, Event, LINE};

fn check(trace: &[u8]) -> u8 {
    trace::check(Fault::None, trace)
}

fn play(
    q: &mut Sessions,
    sheet: &mut [u8],
    trace: &[u8],
    place: (u64, u64),
    log: &mut [u8],
) -> (u8, u16) {
    trace::play(Fault::None, q, sheet, trace, place, log)
}

/// A connect, a key, a height, and the button, byte by byte.
fn worked() -> Vec<u8> {
    let request =
        |apdu: &[u8]| Event::Request { connection: 1, mode: 3, group: 0, apdu: apdu.to_vec() };
    let events = [
        Event::Connect(1),
        request(&[0x03, 0xD1, 0, 0x22, 0x22, 0x22, 0x22]),
        request(&[0x03, 0xD7, 1, 51, 0x10, 1, 0x04, 0xE2]),
        Event::Button(true),
    ];
    let bytes = trace::bytes(&events);
    let expected = [
        &[0, 4][..],
        &[1, 0x10, 0, 0, 0, 34, 0, 0],
        &[0, 0x13, 0, 0, 0, 34, 7, 0],
        &[0, 0x13, 0, 0, 0, 41, 8, 0],
        &[3, 0, 0, 0, 0, 49, 0, 0],
        &[0x03, 0xD1, 0, 0x22, 0x22, 0x22, 0x22, 0x03, 0xD7, 1, 51, 0x10, 1, 0x04, 0xE2],
    ]
    .concat();
    assert_eq!(bytes, expected);
    assert_eq!(trace::events(Fault::None, &bytes), events);
    bytes
}

#[test]
fn by_hand() {
    let trace = worked();
    assert_eq!(check(&trace), 0);
    let (mut q, mut sheet, mut log) = (FRESH, SAMPLE, [0xEE; 4 * LINE + 1]);
    assert_eq!(play(&mut q, &mut sheet, &trace, (0, 9), &mut log), (0, 4));
    assert_eq!(log[..3], [1, 0, 0]);
    assert_eq!(log[18..24], [0, 3, 0x03, 0xD2, 1, 0]);
    assert_eq!(log[36..47], [0, 8, 0x03, 0xD6, 1, 51, 0x10, 1, 0x04, 0xE2, 0]);
    assert_eq!((log[54], log[71], log[72]), (1, 0, 0xEE));
    assert_eq!((sheet[14], &sheet[64..66]), (3, &[0x04, 0xE2][..]));
    assert!(q[1].open && q[1].level == 1);
    // none is left
    for from in [4, 5, u64::MAX] {
        assert_eq!(play(&mut q, &mut sheet, &trace, (from, u64::MAX), &mut []), (0, 0));
    }
    // a log that is too short, before any event
    let (before, before_q) = (sheet, q);
    assert_eq!(play(&mut q, &mut sheet, &trace, (2, 2), &mut [0; 2 * LINE - 1]), (59, 0));
    assert_eq!((sheet, q), (before, before_q));
    assert_eq!(play(&mut q, &mut sheet, &trace, (2, 1), &mut [0; LINE]), (0, 1));
}

#[test]
fn refusals() {
    let told = |at: usize, value: u8| {
        let mut t = worked();
        t[at] = value;
        check(&t)
    };
    assert_eq!([check(&[]), check(&[0])], [50, 50]);
    assert_eq!([told(0, 2), check(&[2, 1]), check(&[2, 0])], [51, 51, 52]);
    assert_eq!([check(&worked()[..33]), told(1, 9)], [52, 52]);
    assert_eq!([told(2, 5), told(2, 255)], [53, 53]);
    assert_eq!([told(8, 1), told(10, 1), told(32, 1)], [54, 54, 54]);
    assert_eq!([told(9, 1), told(33, 1)], [55, 55]);
    assert_eq!([told(7, 33), told(7, 35), told(22, 1), told(31, 50)], [56; 4]);
    assert_eq!([told(24, 9), told(24, 255)], [57, 57]);
    let more = [worked(), vec![0]].concat();
    assert_eq!([check(&more), check(&[0, 0]), check(&[0, 0, 0])], [58, 0, 58]);
    // kind before length, length before zero, zero before offset, offset before end
    let mut all = worked();
    all[2..10].copy_from_slice(&[5, 0, 0, 0, 9, 9, 200, 1]);
    let numbers: Vec<u8> = [(2, 5), (2, 1), (8, 0), (9, 0)]
        .map(|(at, value)| {
            all[at] = value;
            check(&all)
        })
        .into();
    assert_eq!(numbers, [53, 54, 55, 56]);
}

/// Any pieces give what the single events give, and a refused trace changes nothing.
#[test]
fn pieces() {
    let mut rng = Rng::new(110);
    let mut seen = [0; 64];
    for _ in 0..1500 {
        let sheet = gen::any_sheet(&mut rng);
        let start = [gen::session(&mut rng), gen::session(&mut rng)];
        let t = traces::trace(&mut rng, &sheet, &start);
        assert_eq!(check(&t), 0);
        let events = trace::events(Fault::None, &t);
        assert_eq!(trace::bytes(&events), t);
        let (mut q, mut s, mut log) = (start, sheet.clone(), Vec::new());
        for event in &events {
            let (mut answer, mut count) = ([0; 16], 0);
            let outcome = match event {
                Event::Request { connection, mode, group, apdu } => {
                    let way = Way { mode: *mode, connection: *connection, group: *group };
                    let reply = device::request(&mut q, way, apdu, &mut s, &mut answer);
                    count = reply.count;
                    reply.outcome
                }
                Event::Connect(c) => device::connect(&mut q, *c),
                Event::Disconnect(c) => device::disconnect(&mut q, *c),
                Event::Button(on) => device::button(&mut s, *on),
            };
            log.extend([outcome, count]);
            log.extend(answer);
        }
        let (mut again, mut sheet_again, mut place) = (start, sheet.clone(), 0);
        let mut whole = vec![0xEE; log.len()];
        while place < events.len() {
            let limit = rng.below(7) as u64;
            let part = &mut whole[LINE * place..];
            let (why, n) = play(&mut again, &mut sheet_again, &t, (place as u64, limit), part);
            assert_eq!((why, u64::from(n)), (0, limit.min((events.len() - place) as u64)));
            place += n as usize;
        }
        assert_eq!((again, sheet_again, whole), (q, s, log));

        let bad = traces::bad_trace(&mut rng, &sheet, &start);
        let (mut q, mut s, mut log) = (start, sheet.clone(), [7; 40 * LINE]);
        let why = check(&bad);
        seen[why as usize] += 1;
        if why != 0 {
            assert_eq!(play(&mut q, &mut s, &bad, (0, 2), &mut log), (why, 0));
            assert_eq!((q, s, log), (start, sheet, [7; 40 * LINE]));
        }
    }
    assert!((50..=58).all(|k| seen[k] > 10), "{seen:?}");
}
