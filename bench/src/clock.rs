//! Two programs timed in turns, so that both see the same machine; the best round of each counts.

use std::hint::black_box;
use std::time::Instant;

/// How many rounds each program gets, and how long one should take, in nanoseconds.
pub struct Rounds {
    count: usize,
    length: f64,
}

pub const LONG: Rounds = Rounds { count: 60, length: 2e6 };

/// For two programs whose ratio matters most: more rounds, so that one of them finds the machine quiet.
pub const SHORT: Rounds = Rounds {
    count: 400,
    length: 2.5e5,
};

/// For one of many places that a mean is taken over.
pub const TURN: Rounds = Rounds { count: 8, length: 6e4 };

impl Rounds {
    /// One only where the program is just to be tried (argument `quick`).
    fn count(&self) -> usize {
        match std::env::args().any(|argument| argument == "quick") {
            true => 1,
            false => self.count,
        }
    }

    /// Nanoseconds per turn of each.
    pub fn in_turns(&self, first: &mut dyn FnMut() -> u64, second: &mut dyn FnMut() -> u64) -> (f64, f64) {
        let (turns, others) = (self.turns(first), self.turns(second));
        let mut best = (f64::INFINITY, f64::INFINITY);
        for _ in 0..self.count() {
            best.0 = best.0.min(round(first, turns));
            best.1 = best.1.min(round(second, others));
        }
        best
    }

    /// Nanoseconds per turn of one program alone.
    pub fn alone(&self, run: &mut dyn FnMut() -> u64) -> f64 {
        let turns = self.turns(run);
        (0..self.count())
            .map(|_| round(run, turns))
            .fold(f64::INFINITY, f64::min)
    }

    /// How many turns fill a round.
    fn turns(&self, run: &mut dyn FnMut() -> u64) -> u32 {
        let one = round(run, 100);
        ((self.length / one) as u32).max(1)
    }
}

/// Nanoseconds of the best of three turns of each, for programs that take too long for rounds.
pub fn best_of_three(first: &mut dyn FnMut() -> u64, second: &mut dyn FnMut() -> u64) -> (f64, f64) {
    (0..3).fold((f64::INFINITY, f64::INFINITY), |best, _| {
        (best.0.min(round(first, 1)), best.1.min(round(second, 1)))
    })
}

fn round(run: &mut dyn FnMut() -> u64, turns: u32) -> f64 {
    let began = Instant::now();
    for _ in 0..turns {
        black_box(run());
    }
    began.elapsed().as_nanos() as f64 / f64::from(turns)
}
