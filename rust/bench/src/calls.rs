//! The calls that are made again and again: on their tables, of either side, or the plain copy in their place.

use std::fmt::{Display, Formatter, Result};
use std::hint::black_box;

use independent::tables::{Evaluation, Tables};
use independent::{check, evaluate, tuned};
use privetcomb::raw;

use crate::copy;

/// Whose code is called.
#[derive(Clone, Copy, Debug, PartialEq, Eq, PartialOrd, Ord)]
pub enum Side {
    Library,
    Yardstick,
    /// The plain copy of the records that a check moves.
    Copy,
}

impl Side {
    /// The two that are compared.
    pub const COMPARED: [Side; 2] = [Side::Library, Side::Yardstick];
    pub const ALL: [Side; 3] = [Side::Library, Side::Yardstick, Side::Copy];
}

impl Display for Side {
    fn fmt(&self, f: &mut Formatter<'_>) -> Result {
        f.write_str(match self {
            Side::Library => "library",
            Side::Yardstick => "yardstick",
            Side::Copy => "copy",
        })
    }
}

/// What one call takes.
pub enum Job {
    Check(Tables),
    Evaluate(Evaluation),
}

impl Job {
    fn is_accepted(&self) -> bool {
        let number = match self {
            Job::Check(tables) => tables.run(check).0.number,
            Job::Evaluate(given) => given.run(evaluate).number,
        };
        number == 0
    }

    fn make(&mut self, side: Side) {
        match self {
            Job::Check(Tables {
                a,
                b,
                steps,
                work,
                gates,
            }) => match side {
                Side::Library => {
                    black_box(raw::check(a, b, steps, work, gates));
                }
                Side::Yardstick => {
                    black_box(tuned::check(a, b, steps, work, gates));
                }
                Side::Copy => {
                    copy::move_records(a, b, steps, work);
                    black_box(work);
                }
            },
            Job::Evaluate(given) => match side {
                Side::Library => {
                    black_box(given.run(raw::evaluate));
                }
                Side::Yardstick => {
                    black_box(given.run(tuned::evaluate));
                }
                Side::Copy => unreachable!("an evaluation moves no records"),
            },
        }
    }
}

/// Calls that are made by turns: one, or several on different tables so that none can be foreseen
/// from the one before.
pub struct Round {
    jobs: Vec<Job>,
}

impl Round {
    /// The round, once it is seen that each of its calls is accepted.
    pub fn new(jobs: Vec<Job>) -> Round {
        assert!(jobs.iter().all(Job::is_accepted), "a call is refused");
        Round { jobs }
    }

    /// How many calls it has.
    pub fn calls(&self) -> usize {
        self.jobs.len()
    }

    /// Makes each call once; the work and gate tables keep what they write.
    pub fn make(&mut self, side: Side) {
        for job in &mut self.jobs {
            job.make(side);
        }
    }
}
