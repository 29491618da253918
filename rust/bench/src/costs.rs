//! Costs made of the measured calls, and how the two sides compare in them.

use std::fmt::{Display, Formatter, Result};

use crate::calls::Side;
use crate::cases::Case;
use crate::figures::Figures;
use crate::runs::Runs;
use crate::timing::median;

/// What is measured of all cases.
pub struct Measured {
    pub instructions: Figures,
    pub runs: Runs,
}

/// A sum of calls, each with the factor by which it counts.
#[derive(Clone)]
pub struct Cost {
    terms: Vec<(f64, Case)>,
}

impl Cost {
    /// That of one call.
    pub fn of(case: Case) -> Cost {
        Cost {
            terms: vec![(1.0, case)],
        }
    }

    /// What the one costs more than the other.
    pub fn difference(more: Cost, less: Cost) -> Cost {
        let mut terms = more.terms;
        terms.extend(less.terms.iter().map(|(factor, case)| (-factor, *case)));
        Cost { terms }
    }

    /// That of one of so many equal parts.
    pub fn part_of(mut self, parts: usize) -> Cost {
        for (factor, _) in &mut self.terms {
            *factor /= parts as f64;
        }
        self
    }

    fn figure(&self, figures: &Figures, side: Side) -> f64 {
        let terms = self.terms.iter();
        terms
            .map(|(factor, case)| factor * figures.of(*case, side))
            .sum()
    }

    /// The median of the runs.
    pub fn time(&self, runs: &[Figures], side: Side) -> f64 {
        median(runs.iter().map(|run| self.figure(run, side)).collect())
    }

    /// How often the one side's time is the other's, run by run.
    pub fn ratio(&self, runs: &[Figures], of: Side, to: Side) -> Spread {
        let ratio = |run| self.figure(run, of) / self.figure(run, to);
        Spread::of(runs.iter().map(ratio).collect())
    }

    pub fn compared(&self, measured: &Measured) -> Compared {
        let times = |runs: &[Figures]| Times {
            each: Side::COMPARED.map(|side| self.time(runs, side)),
            ratio: self.ratio(runs, Side::Library, Side::Yardstick),
        };
        Compared {
            instructions: Side::COMPARED.map(|side| self.figure(&measured.instructions, side)),
            default: times(&measured.runs.default),
            native: times(&measured.runs.native),
        }
    }
}

/// The median of an odd number of figures, with the least and the greatest of them.
#[derive(Clone, Copy, Debug, PartialEq)]
pub struct Spread {
    pub median: f64,
    least: f64,
    greatest: f64,
}

impl Spread {
    fn of(figures: Vec<f64>) -> Spread {
        Spread {
            least: figures.iter().copied().fold(f64::INFINITY, f64::min),
            greatest: figures.iter().copied().fold(f64::NEG_INFINITY, f64::max),
            median: median(figures),
        }
    }
}

impl Display for Spread {
    fn fmt(&self, f: &mut Formatter<'_>) -> Result {
        write!(
            f,
            "{:.2} ({:.2}-{:.2})",
            self.median, self.least, self.greatest
        )
    }
}

/// Nanoseconds of the library and of the yardstick, and the first by the second.
struct Times {
    each: [f64; 2],
    ratio: Spread,
}

/// How the two sides compare in a cost.
pub struct Compared {
    instructions: [f64; 2],
    default: Times,
    native: Times,
}

/// Above which ratio a cost is named: instructions are the same in every run, times are not.
pub const MOST_INSTRUCTIONS: f64 = 1.00;
pub const MOST_TIME: f64 = 1.05;

impl Compared {
    /// The heads of the cells, and the rule below them.
    pub const HEADS: &str = "library instructions | yardstick instructions | ratio \
        | library ns | yardstick ns | ratio (least-greatest) | native yardstick ns | ratio to it (least-greatest)";
    pub const RULES: &str = "---: | ---: | ---: | ---: | ---: | ---: | ---: | ---:";

    fn instructions_ratio(&self) -> f64 {
        self.instructions[0] / self.instructions[1]
    }

    pub fn cells(&self) -> String {
        let [library, yardstick] = self.instructions;
        let [library_time, yardstick_time] = self.default.each;
        let [_, native_time] = self.native.each;
        format!(
            "{library:.0} | {yardstick:.0} | {:.2} | {library_time:.0} | {yardstick_time:.0} | {} | {native_time:.0} | {}",
            self.instructions_ratio(),
            self.default.ratio,
            self.native.ratio,
        )
    }

    /// What is above the limits, if anything is.
    pub fn above(&self) -> Option<String> {
        let instructions = self.instructions_ratio();
        let time = self.default.ratio.median;
        let mut above = vec![];
        if instructions > MOST_INSTRUCTIONS {
            above.push(format!("instructions {instructions:.3}"));
        }
        if time > MOST_TIME {
            above.push(format!("time {time:.3}"));
        }
        (!above.is_empty()).then(|| above.join(", "))
    }

    /// The time beside the native yardstick, where it is above the limit.
    pub fn above_native(&self) -> Option<String> {
        let time = self.native.ratio.median;
        (time > MOST_TIME).then(|| format!("time {time:.3}"))
    }
}

#[cfg(test)]
mod tests {
    use super::*;

    const SIDES: [Side; 2] = Side::COMPARED;

    /// A run in which no gates take 10 and 20 nanoseconds, and 512 gates so many more.
    fn run(more: [f64; 2]) -> Figures {
        let mut run = Figures::default();
        for (i, side) in SIDES.into_iter().enumerate() {
            let none = 10.0 * (i + 1) as f64;
            run.put(Case::Gates(0), side, none);
            run.put(Case::Gates(512), side, none + more[i]);
        }
        run
    }

    fn page() -> Cost {
        Cost::difference(Cost::of(Case::Gates(512)), Cost::of(Case::Gates(0))).part_of(2)
    }

    #[test]
    fn a_ratio_is_taken_run_by_run() {
        let runs = [[8.0, 4.0], [3.0, 4.0], [9.0, 9.0]].map(run);
        let [library, yardstick] = SIDES;
        assert_eq!(page().time(&runs, library), 4.0);
        assert_eq!(page().time(&runs, yardstick), 2.0);
        let ratio = page().ratio(&runs, library, yardstick);
        assert_eq!(ratio.to_string(), "1.00 (0.75-2.00)");
    }

    #[test]
    fn what_is_above_a_limit_is_named() {
        let compared = |instructions, time, native| {
            let measured = Measured {
                instructions: run(instructions),
                runs: Runs {
                    default: vec![run(time)],
                    native: vec![run(native)],
                },
            };
            page().compared(&measured)
        };
        let within = compared([100.0, 100.0], [105.0, 100.0], [105.0, 100.0]);
        assert_eq!((within.above(), within.above_native()), (None, None));
        let above = compared([1001.0, 1000.0], [106.0, 100.0], [200.0, 100.0]);
        let named = Some("instructions 1.001, time 1.060".to_string());
        assert_eq!(above.above(), named);
        assert_eq!(above.above_native(), Some("time 2.000".to_string()));
    }
}
