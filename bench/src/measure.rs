//! Measuring works beside each other.

use crate::clock::Clock;
use crate::sides::{Side, SIDES};

/// What some rounds of one work cost: the median, and the quartiles about it.
#[derive(Clone, Copy)]
pub struct Spread {
    pub low: f64,
    pub median: f64,
    pub high: f64,
}

impl Spread {
    fn of(mut costs: Vec<u64>) -> Spread {
        costs.sort_unstable();
        let at = |quarters: usize| costs[(costs.len() - 1) * quarters / 4] as f64;
        Spread {
            low: at(1),
            median: at(2),
            high: at(3),
        }
    }

    /// The cost of one of so many equal parts.
    pub fn each(self, parts: usize) -> Spread {
        Spread {
            low: self.low / parts as f64,
            median: self.median / parts as f64,
            high: self.high / parts as f64,
        }
    }
}

/// What the same work costs each side.
pub struct Costs {
    pub library: f64,
    pub peer: f64,
}

impl Costs {
    /// The library's speed, of the peer's: over 1 the library is faster.
    pub fn ratio(&self) -> f64 {
        self.peer / self.library
    }
}

/// What the clock counts during the work, with the work's result.
pub fn counted<T>(clock: &Clock, work: impl FnOnce() -> T) -> (u64, T) {
    let start = clock.now();
    let result = work();
    (clock.now() - start, result)
}

/// The costs of a number of works, each done by every side, in as many rounds as the clock wants.
pub fn rounds<const COUNT: usize>(
    clock: &Clock,
    works: usize,
    cost: impl FnMut(usize, usize) -> u64,
) -> Vec<[Spread; COUNT]> {
    turns(clock.rounds(), works, cost)
}

/// The same in so many rounds. A round does everything once, every other round backwards, so that
/// whatever else goes on meets all alike.
pub fn turns<const COUNT: usize>(
    rounds: usize,
    works: usize,
    mut cost: impl FnMut(usize, usize) -> u64,
) -> Vec<[Spread; COUNT]> {
    let mut all: Vec<(usize, usize)> = (0..works)
        .flat_map(|work| (0..COUNT).map(move |side| (work, side)))
        .collect();
    let mut seen = vec![vec![Vec::new(); COUNT]; works];
    for _ in 0..rounds {
        for &(work, side) in &all {
            seen[work][side].push(cost(work, side));
        }
        all.reverse();
    }
    seen.into_iter()
        .map(|mut sides| std::array::from_fn(|side| Spread::of(std::mem::take(&mut sides[side]))))
        .collect()
}

/// The medians of works that are done by both sides.
pub fn interleaved(
    clock: &Clock,
    works: usize,
    mut cost: impl FnMut(usize, Side) -> u64,
) -> Vec<Costs> {
    rounds(clock, works, |work, side| cost(work, SIDES[side]))
        .into_iter()
        .map(|[library, peer]| Costs {
            library: library.median,
            peer: peer.median,
        })
        .collect()
}
