//! Times: the shortest of some repetitions, and nanoseconds a thing.

use std::iter::zip;
use std::ops::Range;
use std::time::{Duration, Instant};

/// How many repetitions are made.
#[derive(Clone, Copy)]
pub enum Patience {
    Quick,
    Full,
}

impl Patience {
    pub fn repetitions(self) -> usize {
        match self {
            Patience::Quick => 6,
            Patience::Full => 40,
        }
    }

    /// The repetitions in rounds, for a table whose lines take turns, in fresh memory each time, so that what is slow for
    /// some seconds, or in some place, is not slow for a line in every round.
    pub fn rounds(self) -> impl Iterator<Item = Range<usize>> {
        let (rounds, each) = match self {
            Patience::Quick => (2, 3),
            Patience::Full => (8, 5),
        };
        (0..rounds).map(move |round| round * each..(round + 1) * each)
    }
}

/// The times of a pass, lap by lap. A lap is a CTB row of a picture: short enough that on a busy machine some repetition
/// has it undisturbed.
pub type Laps = Vec<Duration>;

/// The shortest time of each lap so far.
#[derive(Clone)]
pub struct Best(Laps);

impl Best {
    pub const fn new() -> Best {
        Best(Vec::new())
    }

    pub fn add(&mut self, laps: Laps) {
        if self.0.is_empty() {
            self.0 = laps;
        } else {
            zip(&mut self.0, laps).for_each(|(best, lap)| *best = lap.min(*best));
        }
    }

    /// Of all laps together.
    pub fn time(&self) -> Duration {
        self.0.iter().sum()
    }
}

/// The shortest time of each contestant.
pub fn shortest<C: Copy, E, const N: usize>(
    patience: Patience,
    contestants: [C; N],
    pass: impl FnMut(C) -> Result<Laps, E>,
) -> Result<[Duration; N], E> {
    let mut best = [const { Best::new() }; N];
    race(&mut best, 0..patience.repetitions(), contestants, pass)?;
    Ok(best.map(|best| best.time()))
}

/// Some repetitions of each contestant. They take turns within a repetition, forwards and backwards, so that none always
/// finds the caches as the same other one left them.
pub fn race<C: Copy, E, const N: usize>(
    best: &mut [Best; N],
    repetitions: Range<usize>,
    contestants: [C; N],
    mut pass: impl FnMut(C) -> Result<Laps, E>,
) -> Result<(), E> {
    for repetition in repetitions {
        for turn in 0..N {
            let turn = if repetition % 2 == 0 { turn } else { N - 1 - turn };
            best[turn].add(pass(contestants[turn])?);
        }
    }
    Ok(())
}

/// How long a piece of work takes.
pub fn timed<E>(work: impl FnOnce() -> Result<(), E>) -> Result<Duration, E> {
    let start = Instant::now();
    work()?;
    Ok(start.elapsed())
}

/// A pass of a single lap.
pub fn lap<E>(work: impl FnOnce() -> Result<(), E>) -> Result<Laps, E> {
    Ok(vec![timed(work)?])
}

/// Nanoseconds for each of `count`.
pub fn each(time: Duration, count: usize) -> f64 {
    time.as_secs_f64() * 1e9 / count as f64
}
