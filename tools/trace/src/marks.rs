//! Marks in plain code: what `kelindap_play_marked` leaves, by playing event by event and comparing. The tool asks that call;
//! this stands beside it where an archive has none, and in the tests.

use crate::archive::{self, Marking};
use crate::play::LINE;

/// Plays events of a trace with marks.
pub fn play_marked(
    m: &mut Marking,
    trace: &[u8],
    from: usize,
    limit: usize,
    log: &mut [u8],
) -> Result<usize, u8> {
    let mut handled = 0;
    while handled < limit {
        m.before.copy_from_slice(&m.sheet);
        let held = m.sessions;
        let line = &mut log[LINE * handled..];
        if archive::play(&mut m.sessions, &mut m.sheet, trace, from + handled, 1, line)? == 0 {
            break;
        }
        handled += 1;
        m.played += 1;
        let long = m.sheet.len();
        for p in (0..long).filter(|&p| m.before[p] != m.sheet[p]) {
            m.marks[p] = m.played;
        }
        for c in (0..2).filter(|&c| held.of[c].level != m.sessions.of[c].level) {
            m.marks[long + c] = m.played;
        }
    }
    m.before.copy_from_slice(&m.sheet);
    Ok(handled)
}
