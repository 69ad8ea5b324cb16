//! waits COUNT [SEED]: writes COUNT sheets, one to a line: its bytes in hex, and for each of them g if it is of a group value, f for
//! the flags, - for all else. The two sheets of hosts/ come first.

use std::env;

use model::frame::hex;
use model::gen::{self, Rng};
use model::sheet::{self, FLAGS, PUMP, SAMPLE};

/// What each byte of an accepted sheet is.
fn kinds(sheet: &[u8]) -> String {
    let mut kinds = vec![b'-'; sheet.len()];
    kinds[FLAGS] = b'f';
    for group in sheet::groups(sheet) {
        kinds[group.body..group.body + group.length()].fill(b'g');
    }
    String::from_utf8(kinds).expect("letters")
}

fn main() {
    let words: Vec<String> = env::args().collect();
    let number =
        |k: usize, otherwise| words.get(k).map_or(otherwise, |w| w.parse().expect("a number"));
    let mut rng = Rng::new(number(2, 1));
    let made = (0..number(1, 200)).map(|_| gen::sheet(&mut rng));
    for sheet in [SAMPLE.to_vec(), PUMP.to_vec()].into_iter().chain(made) {
        assert_eq!(sheet::check(&sheet), 0);
        println!("{} {}", hex(&sheet), kinds(&sheet));
    }
}
