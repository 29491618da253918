//! What is measured: right refutations of five sizes and of two other kinds, and calls that differ by whole pages.

use std::fmt::{Display, Formatter, Result};

use independent::check;
use independent::records::{Clause, Step};
use independent::tables::{coloured, sized, Evaluation, Random, Tables};

use crate::calls::{Job, Round, Side};
use crate::chain::{self, Order};

/// The sizes of the refutations, in clauses; the last is the largest there is.
pub const SIZES: [usize; 5] = [64, 128, 256, 512, 1_024];

/// How many refutations are checked by turns where no call is to be foreseen from the one before.
const BY_TURNS: usize = 16;

/// Refutations of one kind, always the same ones.
#[derive(Clone, Copy, Debug, PartialEq, Eq, PartialOrd, Ord)]
pub enum Family {
    /// One of this many clauses.
    Sized(usize),
    /// Several of the largest size, whose pivots and colours follow no pattern.
    Coloured,
    /// A chain of 512 steps.
    Chain(Order),
}

/// A refutation and an evaluation of its circuit.
pub struct Refutation {
    pub tables: Tables,
    pub evaluation: Evaluation,
}

impl Refutation {
    /// The refutation of these tables, its circuit under any assignment.
    fn of(tables: Tables, random: &mut Random) -> Refutation {
        let (answer, after) = tables.run(check);
        let evaluation = Evaluation {
            assignment: random.bytes(32),
            table: after.gates[..8 * answer.count].to_vec(),
            root: answer.root,
        };
        Refutation { tables, evaluation }
    }

    pub fn gates(&self) -> usize {
        self.evaluation.table.len() / 8
    }
}

impl Family {
    pub fn refutations(self) -> Vec<Refutation> {
        match self {
            Family::Sized(clauses) => {
                let mut random = Random::new(clauses as u64);
                let tables = sized(&mut random, clauses);
                vec![Refutation::of(tables, &mut random)]
            }
            Family::Coloured => {
                let mut random = Random::new(3);
                let mut next = || {
                    let tables = coloured(&mut random, 1_024);
                    Refutation::of(tables, &mut random)
                };
                (0..BY_TURNS).map(|_| next()).collect()
            }
            Family::Chain(order) => {
                let mut random = Random::new(4);
                let tables = chain::refutation(&mut random, order);
                vec![Refutation::of(tables, &mut random)]
            }
        }
    }
}

impl Display for Family {
    fn fmt(&self, f: &mut Formatter<'_>) -> Result {
        match self {
            Family::Sized(clauses) => write!(f, "sized-{clauses}"),
            Family::Coloured => f.write_str("coloured"),
            Family::Chain(Order::ByNumber) => f.write_str("chain-by-number"),
            Family::Chain(Order::Random) => f.write_str("chain-random"),
        }
    }
}

/// What is measured by itself.
#[derive(Clone, Copy, Debug, PartialEq, Eq, PartialOrd, Ord)]
pub enum Case {
    Check(Family),
    Evaluate(Family),
    /// A check of so many clauses and no step.
    Clauses(usize),
    /// A check of so many steps between the same clauses, on common pivots or on others.
    Steps {
        common: bool,
        steps: usize,
    },
    /// An evaluation of so many gates.
    Gates(usize),
}

impl Case {
    /// All of them, by sections: those of a section are measured by turns.
    pub fn sections() -> [Vec<Case>; 3] {
        let both = |family| [Case::Check(family), Case::Evaluate(family)];
        let sizes = SIZES.map(Family::Sized);
        let others = [
            Family::Coloured,
            Family::Chain(Order::ByNumber),
            Family::Chain(Order::Random),
        ];
        let steps = |common| [1, 513].map(|steps| Case::Steps { common, steps });
        let pages = [
            [64, 1_024].map(Case::Clauses),
            steps(false),
            steps(true),
            [0, 512].map(Case::Gates),
        ];
        [
            sizes.into_iter().flat_map(both).collect(),
            others.into_iter().flat_map(both).collect(),
            pages.concat(),
        ]
    }

    pub fn named(name: &str) -> Option<Case> {
        let mut cases = Case::sections().into_iter().flatten();
        cases.find(|case| case.to_string() == name)
    }

    /// What is called on its tables: the plain copy too, where there are steps.
    pub fn sides(self) -> &'static [Side] {
        match self {
            Case::Check(_) | Case::Steps { .. } => &Side::ALL,
            Case::Evaluate(_) | Case::Clauses(_) | Case::Gates(_) => &Side::COMPARED,
        }
    }

    /// Its calls, on tables made anew.
    pub fn round(self) -> Round {
        let jobs = match self {
            Case::Check(family) => {
                let refutations = family.refutations().into_iter();
                refutations.map(|one| Job::Check(one.tables)).collect()
            }
            Case::Evaluate(family) => {
                let refutations = family.refutations().into_iter();
                refutations
                    .map(|one| Job::Evaluate(one.evaluation))
                    .collect()
            }
            Case::Clauses(clauses) => vec![Job::Check(clauses_alone(clauses))],
            Case::Steps { common, steps } => vec![Job::Check(steps_alike(common, steps))],
            Case::Gates(gates) => vec![Job::Evaluate(first_gates(gates))],
        };
        Round::new(jobs)
    }

    /// The function of each side, as its name is at the boundary.
    pub fn function(self) -> &'static str {
        match self {
            Case::Check(_) | Case::Clauses(_) | Case::Steps { .. } => "check",
            Case::Evaluate(_) | Case::Gates(_) => "evaluate",
        }
    }
}

impl Display for Case {
    fn fmt(&self, f: &mut Formatter<'_>) -> Result {
        match self {
            Case::Check(family) => write!(f, "check-{family}"),
            Case::Evaluate(family) => write!(f, "evaluate-{family}"),
            Case::Clauses(clauses) => write!(f, "clauses-{clauses}"),
            Case::Steps { common, steps } => {
                let gates = if *common { "three" } else { "one" };
                write!(f, "steps-{gates}-{steps}")
            }
            Case::Gates(gates) => write!(f, "gates-{gates}"),
        }
    }
}

/// So many clauses of A and none else, the last of them the root.
fn clauses_alone(n: usize) -> Tables {
    let mut random = Random::new(1);
    let mut clauses = vec![Clause::EMPTY.record()];
    // Three literals a clause, so that none of these is the root.
    clauses.resize_with(n, || {
        let [v, w, u] = [(); 3].map(|()| random.below(256));
        Clause::of(&[v, w], &[u]).record()
    });
    clauses.reverse();
    Tables {
        a: clauses.concat(),
        b: vec![],
        steps: vec![],
        work: vec![],
        gates: vec![],
    }
}

/// Steps on any pivot between a clause of all positive literals and one of all negative ones, which
/// is in B where the pivots are to be common. The last step has the root.
fn steps_alike(common: bool, s: usize) -> Tables {
    let mut random = Random::new(2);
    let all: Vec<usize> = (0..256).collect();
    let positive = [Clause::of(&all, &[]), Clause::of(&[0], &[])];
    let negative = [Clause::of(&[], &all), Clause::of(&[], &[0])];
    let records = |clauses: &[Clause]| clauses.iter().flat_map(Clause::record).collect();
    let (a, b) = if common {
        (records(&positive), records(&negative))
    } else {
        (records(&[positive, negative].concat()), vec![])
    };
    let mut steps: Vec<Step> = (1..s).map(|_| Step::of(0, 2, random.below(256))).collect();
    steps.push(Step::of(1, 3, 0));
    Tables {
        a,
        b,
        steps: steps.iter().flat_map(Step::record).collect(),
        work: vec![0xa5; 64 * s],
        gates: vec![0xa5; 24 * s],
    }
}

/// The first gates of the largest circuit, read at the last of them.
fn first_gates(n: usize) -> Evaluation {
    let [.., largest] = SIZES;
    let largest = &Family::Sized(largest).refutations()[0].evaluation;
    Evaluation {
        assignment: largest.assignment.clone(),
        table: largest.table[..8 * n].to_vec(),
        root: 513 + n,
    }
}

#[cfg(test)]
mod tests {
    use independent::records::occurring;

    use super::*;

    #[test]
    fn a_name_tells_a_case_from_all_others() {
        for case in Case::sections().concat() {
            assert_eq!(Case::named(&case.to_string()), Some(case));
        }
        assert_eq!(Case::named("check"), None);
    }

    #[test]
    fn every_case_is_accepted() {
        for case in Case::sections().concat() {
            case.round();
        }
    }

    /// Each colour has at least a fifth of the steps.
    #[test]
    fn the_colours_are_mixed() {
        let mut counts = [0; 3];
        for refutation in Family::Coloured.refutations() {
            let Tables { a, b, steps, .. } = &refutation.tables;
            let [in_a, in_b] = [a, b].map(|table| {
                let clauses: Vec<Clause> = table.chunks(64).map(Clause::read).collect();
                occurring(&clauses)
            });
            for Step { pivot, .. } in steps.chunks(8).map(Step::read) {
                let colour = match (in_a.contains(&pivot), in_b.contains(&pivot)) {
                    (true, true) => 0,
                    (true, false) => 1,
                    (false, _) => 2,
                };
                counts[colour] += 1;
            }
        }
        let all = counts.iter().sum::<usize>();
        assert_eq!(all, 511 * BY_TURNS);
        assert!(counts.iter().all(|n| 5 * n >= all), "{counts:?}");
    }
}
