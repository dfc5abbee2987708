//! Times: the best of several turns, all contestants taking their turns one after the other.

use std::time::Instant;

/// Turns of each contestant.
const TURNS: usize = 40;
/// A turn takes about so long, in nanoseconds.
const TURN: f64 = 400_000.0;

/// The least nanoseconds of one round of each of the works.
pub fn best<const N: usize>(mut works: [&mut dyn FnMut(); N]) -> [f64; N] {
    let rounds = works.each_mut().map(|work| {
        let once = time(*work, 1).max(10.0);
        ((TURN / once) as usize).clamp(1, 100_000)
    });
    let mut best = [f64::INFINITY; N];
    for _ in 0..TURNS {
        for at in 0..N {
            best[at] = best[at].min(time(works[at], rounds[at]));
        }
    }
    best
}

fn time(work: &mut dyn FnMut(), rounds: usize) -> f64 {
    let start = Instant::now();
    (0..rounds).for_each(|_| work());
    start.elapsed().as_nanos() as f64 / rounds as f64
}
