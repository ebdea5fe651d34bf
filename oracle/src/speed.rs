//! The library of this repository and the original, timed beside each other at the archive's full size. Works are done by turns, a
//! round of the one and a round of the other, and what both answered is compared.

mod fleet;
mod ours;
mod theirs;
mod work;

use fleet::Fleet;
use std::time::Duration;
use work::{Seen, Work};

const ROUNDS: usize = 20;

/// What a round of a work took, and what of that was not the work.
#[derive(Clone, Copy)]
pub struct Took {
    whole: Duration,
    beside: Duration,
}

/// Nanoseconds a call, by the shortest and by the middle one of the rounds.
fn figures(rounds: &[Took], calls: usize) -> [f64; 2] {
    let sorted = |of: fn(&Took) -> Duration| {
        let mut times: Vec<_> = rounds.iter().map(of).collect();
        times.sort();
        times
    };
    let (whole, beside) = (sorted(|took| took.whole), sorted(|took| took.beside));
    [0, rounds.len() / 2].map(|at| whole[at].saturating_sub(beside[at]).as_nanos() as f64 / calls as f64)
}

fn measure_one(work: Work, translator: &str, fleet: &Fleet) {
    let (mut of_ours, mut of_theirs) = (Vec::new(), Vec::new());
    for _ in 0..ROUNDS {
        let (took, seen) = ours::time(work, translator, fleet);
        let (they_took, they_saw) = theirs::time(work, translator, fleet);
        assert_eq!(seen, they_saw, "{}: both answer alike", work.name());
        of_ours.push(took);
        of_theirs.push(they_took);
    }
    let calls = work.calls(fleet);
    let [least, middle] = figures(&of_ours, calls);
    let [their_least, their_middle] = figures(&of_theirs, calls);
    println!(
        "{:24} {least:8.0} {their_least:8.0} {:5.2}   {middle:8.0} {their_middle:8.0} {:5.2}",
        work.name(),
        least / their_least,
        middle / their_middle
    );
}

pub fn measure() {
    let fleet = Fleet::new();
    println!(
        "Nanoseconds a call, in the best and in the middle one of {ROUNDS} rounds: ours, the original's, ours by the original's."
    );
    for translator in ["fnv", "leading8", "leading4"] {
        println!("by {translator}:");
        for work in Work::ALL {
            measure_one(work, translator, &fleet);
        }
    }
}
