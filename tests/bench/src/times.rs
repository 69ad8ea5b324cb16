//! Nanoseconds per request. The sides take turns in short rounds, and the best
//! round of each counts, so that what else the machine does falls out; what the
//! loop around the call takes is taken off.

use std::time::Instant;

use crate::cases::Bench;
use crate::sides::Side;
use crate::{for_each_case, Ready};

const ROUNDS: usize = 300;
const ROUND_NS: f64 = 100_000.0;

pub fn measure(benches: &[Bench]) -> Vec<[f64; 2]> {
    let mut all = vec![];
    for_each_case(benches, |bench, case| {
        let sides = [Side::Proved, Side::Plain, Side::Nothing];
        let mut sides = sides.map(|side| Ready::new(side, bench, case));
        let mut best = [f64::MAX; 3];
        // how many make a round, by a first try
        let mut n = 1000;
        for round in 0..ROUNDS {
            for (ready, best) in sides.iter_mut().zip(&mut best) {
                let start = Instant::now();
                ready.run(n);
                *best = best.min(start.elapsed().as_nanos() as f64 / n as f64);
            }
            if round == 0 {
                n = (ROUND_NS / best[0]).max(10.0) as usize;
            }
        }
        let [ours, plain, nothing] = best;
        all.push([ours - nothing, plain - nothing]);
    });
    all
}
