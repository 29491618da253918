//! The check: the step layer's tests and resolvents, then the circuit of the partial interpolants.

use crate::records::{Clause, Gate, Kind, Step};

/// What the check returns.
#[derive(Clone, Copy, Debug, PartialEq, Eq)]
pub struct Answer {
    pub number: usize,
    pub place: usize,
    pub root: usize,
    pub count: usize,
}

impl Answer {
    /// A refusal has 0 for root reference and gate count.
    pub fn refusal(number: usize, place: usize) -> Answer {
        Answer {
            number,
            place,
            root: 0,
            count: 0,
        }
    }

    /// How many work records of s steps are left as resolvents.
    pub fn resolved(&self, s: usize) -> usize {
        match self.number {
            0 | 11 => s,
            7..=10 => self.place,
            _ => 0,
        }
    }
}

/// The clauses in number order (A, B, results) and the steps taken so far.
pub(crate) struct Refutation {
    pub a: usize,
    pub b: usize,
    pub clauses: Vec<Clause>,
    pub steps: Vec<Step>,
}

/// Where a variable occurs in the whole of tables A and B.
pub(crate) enum Colour {
    AOnly,
    BOnly,
    Common,
}

impl Colour {
    pub fn of(in_a: bool, in_b: bool) -> Colour {
        match (in_a, in_b) {
            (true, true) => Colour::Common,
            (true, false) => Colour::AOnly,
            (false, true) => Colour::BOnly,
            // Every literal of a result stems from an input clause, so a pivot occurs somewhere.
            (false, false) => unreachable!("a pivot occurs in A or in B"),
        }
    }
}

/// The rules at which a build can look right and be wrong; each default is document 01's own.
pub(crate) trait Rules {
    /// Only the pivot's two literals are taken away, each from its own side.
    fn resolvent(&self, left: &Clause, right: &Clause, pivot: usize) -> Clause {
        let mut left = left.clone();
        left.positive[pivot] = false;
        let mut right = right.clone();
        right.negative[pivot] = false;
        Clause {
            positive: std::array::from_fn(|v| left.positive[v] || right.positive[v]),
            negative: std::array::from_fn(|v| left.negative[v] || right.negative[v]),
        }
    }

    /// All s steps are checked, also those after the root.
    fn goes_on(&self, _refutation: &Refutation) -> bool {
        true
    }

    /// The first clause in number order that has no literal, an input clause included.
    fn root(&self, refutation: &Refutation) -> Option<usize> {
        refutation.clauses.iter().position(Clause::is_empty)
    }

    /// By the whole of tables A and B, clauses no step uses too.
    fn colour(&self, refutation: &Refutation, step: &Step) -> Colour {
        let (in_a, rest) = refutation.clauses.split_at(refutation.a);
        let in_b = &rest[..refutation.b];
        Colour::of(
            in_a.iter().any(|clause| clause.names(step.pivot)),
            in_b.iter().any(|clause| clause.names(step.pivot)),
        )
    }

    /// The references that stand beside xp and beside not xp: left's and right's.
    fn paired(&self, left: usize, right: usize) -> (usize, usize) {
        (left, right)
    }
}

/// Document 01's rules, none changed.
pub(crate) struct Document;

impl Rules for Document {}

/// The gates in step order, and the reference of each clause.
struct Circuit {
    gates: Vec<Gate>,
    references: Vec<usize>,
}

impl Circuit {
    /// Adds a gate and hands back its reference.
    fn add(&mut self, kind: Kind, left: usize, right: usize) -> usize {
        self.gates.push(Gate { kind, left, right });
        514 + self.gates.len() - 1
    }
}

fn circuit(rules: &impl Rules, refutation: &Refutation) -> Circuit {
    let mut circuit = Circuit {
        gates: vec![],
        references: [vec![0; refutation.a], vec![1; refutation.b]].concat(),
    };
    for step in &refutation.steps {
        let left = circuit.references[step.left];
        let right = circuit.references[step.right];
        let reference = match rules.colour(refutation, step) {
            Colour::AOnly => circuit.add(Kind::Or, left, right),
            Colour::BOnly => circuit.add(Kind::And, left, right),
            Colour::Common => {
                let (with_positive, with_negative) = rules.paired(left, right);
                let first = circuit.add(Kind::Or, 2 + 2 * step.pivot, with_positive);
                let second = circuit.add(Kind::Or, 3 + 2 * step.pivot, with_negative);
                circuit.add(Kind::And, first, second)
            }
        };
        circuit.references.push(reference);
    }
    circuit
}

pub(crate) fn check_by(
    rules: &impl Rules,
    a: &[u8],
    b: &[u8],
    steps: &[u8],
    work: &mut [u8],
    gates: &mut [u8],
) -> Answer {
    if !a.len().is_multiple_of(64) {
        return Answer::refusal(1, 0);
    }
    if !b.len().is_multiple_of(64) {
        return Answer::refusal(2, 0);
    }
    if !steps.len().is_multiple_of(8) {
        return Answer::refusal(3, 0);
    }
    let s = steps.len() / 8;
    if a.len() / 64 + b.len() / 64 + s > 1024 {
        return Answer::refusal(4, 0);
    }
    if work.len() < 64 * s {
        return Answer::refusal(5, 0);
    }
    if gates.len() < 24 * s {
        return Answer::refusal(6, 0);
    }

    let inputs = a.chunks(64).chain(b.chunks(64));
    let mut refutation = Refutation {
        a: a.len() / 64,
        b: b.len() / 64,
        clauses: inputs.map(Clause::read).collect(),
        steps: vec![],
    };
    for (i, record) in steps.chunks(8).enumerate() {
        if !rules.goes_on(&refutation) {
            break;
        }
        let step = Step::read(record);
        let own = refutation.a + refutation.b + i;
        if step.spare != [0; 3] {
            return Answer::refusal(7, i);
        }
        if step.left >= own || step.right >= own {
            return Answer::refusal(8, i);
        }
        let left = &refutation.clauses[step.left];
        let right = &refutation.clauses[step.right];
        if !left.positive[step.pivot] {
            return Answer::refusal(9, i);
        }
        if !right.negative[step.pivot] {
            return Answer::refusal(10, i);
        }
        let resolvent = rules.resolvent(left, right, step.pivot);
        work[64 * i..64 * (i + 1)].copy_from_slice(&resolvent.record());
        refutation.clauses.push(resolvent);
        refutation.steps.push(step);
    }

    let Some(root) = rules.root(&refutation) else {
        return Answer::refusal(11, 0);
    };
    let circuit = circuit(rules, &refutation);
    for (k, gate) in circuit.gates.iter().enumerate() {
        gates[8 * k..8 * (k + 1)].copy_from_slice(&gate.record());
    }
    Answer {
        number: 0,
        place: root,
        root: circuit.references[root],
        count: circuit.gates.len(),
    }
}

/// Checks the refutation, leaves its resolvents in the work table and its circuit in the gate table.
pub fn check(a: &[u8], b: &[u8], steps: &[u8], work: &mut [u8], gates: &mut [u8]) -> Answer {
    check_by(&Document, a, b, steps, work, gates)
}
