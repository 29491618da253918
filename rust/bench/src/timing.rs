//! Times: medians of many samples, taken by turns.

use std::time::{Duration, Instant};

use crate::calls::{Round, Side};
use crate::cases::Case;
use crate::figures::Figures;

/// How many samples of each side; odd, so that one of them is the median.
pub const SAMPLES: usize = 1_001;

/// About how long a sample takes: far above the clock's own cost, far below a time slice.
pub const SAMPLE: Duration = Duration::from_micros(30);

/// A case whose samples are taken.
struct Sampled {
    case: Case,
    round: Round,
    /// How many rounds make a sample of any side.
    rounds: u32,
    /// The samples by side, as the case has its sides.
    samples: Vec<Vec<f64>>,
}

impl Sampled {
    fn new(case: Case) -> Sampled {
        let mut round = case.round();
        let rounds = rounds_a_sample(&mut round, case.sides());
        Sampled {
            case,
            round,
            rounds,
            samples: vec![vec![]; case.sides().len()],
        }
    }

    /// Takes a sample of each side. The two that are compared go first by turns, so that what the
    /// first leaves behind falls on both alike.
    fn take(&mut self, turn: usize) {
        let sides = self.case.sides();
        for at in 0..sides.len() {
            let at = if at < 2 { (at + turn) % 2 } else { at };
            self.samples[at].push(sample(&mut self.round, sides[at], self.rounds));
        }
    }
}

/// The nanoseconds of one call, as the mean of several.
fn sample(round: &mut Round, side: Side, rounds: u32) -> f64 {
    let start = Instant::now();
    for _ in 0..rounds {
        round.make(side);
    }
    start.elapsed().as_nanos() as f64 / (f64::from(rounds) * round.calls() as f64)
}

/// How many rounds make a sample of any side, by the one that takes longest; this warms all.
fn rounds_a_sample(round: &mut Round, sides: &[Side]) -> u32 {
    let mut least = |side: &Side| {
        let samples = (0..20).map(|_| sample(round, *side, 1));
        samples.fold(f64::MAX, f64::min)
    };
    let slowest = sides.iter().map(&mut least).fold(1.0, f64::max) * round.calls() as f64;
    (SAMPLE.as_nanos() as f64 / slowest).ceil() as u32
}

/// The middle one of an odd number of figures.
pub fn median(mut figures: Vec<f64>) -> f64 {
    figures.sort_by(f64::total_cmp);
    figures[figures.len() / 2]
}

/// The median nanoseconds of a call, for each case and side. The cases of a section take turns, so
/// that whatever slows the system down for a while falls on all of them.
pub fn figures() -> Figures {
    let mut figures = Figures::default();
    for section in Case::sections() {
        let mut section: Vec<Sampled> = section.into_iter().map(Sampled::new).collect();
        for turn in 0..SAMPLES {
            for sampled in &mut section {
                sampled.take(turn);
            }
        }
        for sampled in section {
            for (side, samples) in sampled.case.sides().iter().zip(sampled.samples) {
                figures.put(sampled.case, *side, median(samples));
            }
        }
    }
    figures
}

#[cfg(test)]
mod tests {
    use super::median;

    #[test]
    fn the_median_stands_in_the_middle() {
        assert_eq!(median(vec![5.0, 1.0, 9.0, 2.0, 3.0]), 3.0);
        assert_eq!(median(vec![4.0]), 4.0);
    }
}
