//! The figures of one process, a number for each case and side, and their form between two processes.

use std::collections::BTreeMap;
use std::fmt::{Display, Formatter, Result as Written};

use crate::calls::Side;
use crate::cases::Case;
use crate::Outcome;

/// Nanoseconds, or instructions, of one call by case and side.
#[derive(Debug, Default, PartialEq)]
pub struct Figures {
    by_call: BTreeMap<(Case, Side), f64>,
}

impl Figures {
    pub fn put(&mut self, case: Case, side: Side, figure: f64) {
        self.by_call.insert((case, side), figure);
    }

    /// The figure, which has been put or read.
    pub fn of(&self, case: Case, side: Side) -> f64 {
        self.by_call[&(case, side)]
    }

    /// Reads what `Display` writes, which names every case and each of its sides once.
    pub fn read(text: &str) -> Outcome<Figures> {
        let mut figures = Figures::default();
        for line in text.lines() {
            let (case, side, figure) = entry(line).ok_or(format!("no figure: {line:?}"))?;
            if figures.by_call.insert((case, side), figure).is_some() {
                return Err(format!("two figures for {case} of {side}"));
            }
        }
        for case in Case::sections().concat() {
            for &side in case.sides() {
                if !figures.by_call.contains_key(&(case, side)) {
                    return Err(format!("no figure for {case} of {side}"));
                }
            }
        }
        Ok(figures)
    }
}

/// A case, one of its sides, and a figure above zero.
fn entry(line: &str) -> Option<(Case, Side, f64)> {
    let mut words = line.split(' ');
    let (case, side, figure) = (words.next()?, words.next()?, words.next()?);
    let case = Case::named(case)?;
    let side = *case.sides().iter().find(|of| of.to_string() == side)?;
    let figure: f64 = figure.parse().ok()?;
    let right = figure.is_finite() && figure > 0.0 && words.next().is_none();
    right.then_some((case, side, figure))
}

impl Display for Figures {
    fn fmt(&self, f: &mut Formatter<'_>) -> Written {
        for ((case, side), figure) in &self.by_call {
            writeln!(f, "{case} {side} {figure}")?;
        }
        Ok(())
    }
}

#[cfg(test)]
mod tests {
    use super::*;

    /// A different figure for every case and side.
    fn whole() -> Figures {
        let mut figures = Figures::default();
        for case in Case::sections().concat() {
            for &side in case.sides() {
                figures.put(case, side, 0.25 + figures.by_call.len() as f64);
            }
        }
        figures
    }

    #[test]
    fn figures_are_read_as_they_are_written() {
        assert_eq!(Figures::read(&whole().to_string()), Ok(whole()));
    }

    #[test]
    fn what_is_not_whole_is_refused() {
        let text = whole().to_string();
        let (first, rest) = text.split_once('\n').expect("there are several");
        assert!(Figures::read("").is_err());
        assert!(Figures::read(rest).is_err());
        assert!(Figures::read(&format!("{text}{first}")).is_err());
        for wrong in ["0", "-1", "NaN", "inf", "", "1 1", "one"] {
            let (name, _) = first.rsplit_once(' ').expect("it ends in a figure");
            let line = format!("{name} {wrong}");
            assert!(Figures::read(&format!("{line}\n{rest}")).is_err(), "{line}");
        }
        assert!(Figures::read(&format!("{text}gates-0 copy 1")).is_err());
    }
}
