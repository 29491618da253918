//! Wrong versions: of the check, the builds document 01 says look right and the promises kept in part; of the evaluator, misreadings.

use crate::check::{check_by, Answer, Colour, Document, Refutation, Rules};
use crate::records::{Clause, Gate, Kind, Step};
use crate::{evaluate as right_evaluate, Evaluated};

/// What is wrong.
#[derive(Clone, Copy, Debug, PartialEq, Eq)]
pub enum Fault {
    /// Both signs of the pivot are taken out of the joined clause.
    BothSigns,
    /// A pivot is coloured by its antecedents' origin.
    ColourByOrigin,
    /// The positive literal is paired with the right reference.
    PairedWithRight,
    /// The last clause is the root if it is empty, and no other clause can be.
    LastClauseIsRoot,
    /// The last of the empty clauses is the root.
    LastEmptyClauseIsRoot,
    /// The steps after the root are skipped.
    SkipsAfterRoot,
    /// Accepts nothing.
    RefusesEverything,
    /// Gives the circuit of case P5 for every refutation that has a step.
    FixedCircuit,
    /// Answers rightly and leaves both tables as they were.
    WritesNothing,
    /// Resolves the first step and copies its row for the later ones.
    CopiesRows,
    /// Claims three gates for each step.
    InventedCount,
    /// Clears the gate table behind the circuit.
    ClearsBehind,
    /// Leaves the work table of every refusal as it was.
    UndoesResults,
}

impl Fault {
    pub const ALL: [Fault; 13] = [
        Fault::BothSigns,
        Fault::ColourByOrigin,
        Fault::PairedWithRight,
        Fault::LastClauseIsRoot,
        Fault::LastEmptyClauseIsRoot,
        Fault::SkipsAfterRoot,
        Fault::RefusesEverything,
        Fault::FixedCircuit,
        Fault::WritesNothing,
        Fault::CopiesRows,
        Fault::InventedCount,
        Fault::ClearsBehind,
        Fault::UndoesResults,
    ];
}

impl Rules for Fault {
    fn resolvent(&self, left: &Clause, right: &Clause, pivot: usize) -> Clause {
        let mut resolvent = Document.resolvent(left, right, pivot);
        if *self == Fault::BothSigns {
            resolvent.positive[pivot] = false;
            resolvent.negative[pivot] = false;
        }
        resolvent
    }

    fn goes_on(&self, refutation: &Refutation) -> bool {
        *self != Fault::SkipsAfterRoot || Document.root(refutation).is_none()
    }

    fn root(&self, refutation: &Refutation) -> Option<usize> {
        match self {
            Fault::LastClauseIsRoot => {
                let last = refutation.clauses.len().checked_sub(1)?;
                refutation.clauses[last].is_empty().then_some(last)
            }
            Fault::LastEmptyClauseIsRoot => refutation.clauses.iter().rposition(Clause::is_empty),
            Fault::RefusesEverything => None,
            _ => Document.root(refutation),
        }
    }

    fn colour(&self, refutation: &Refutation, step: &Step) -> Colour {
        if *self != Fault::ColourByOrigin {
            return Document.colour(refutation, step);
        }
        // Whether a clause stems from A, and whether it stems from B.
        let mut origins = [
            vec![(true, false); refutation.a],
            vec![(false, true); refutation.b],
        ]
        .concat();
        let joined = |origins: &[(bool, bool)], step: &Step| {
            let (left, right) = (origins[step.left], origins[step.right]);
            (left.0 || right.0, left.1 || right.1)
        };
        for earlier in &refutation.steps {
            origins.push(joined(&origins, earlier));
        }
        let (from_a, from_b) = joined(&origins, step);
        Colour::of(from_a, from_b)
    }

    fn paired(&self, left: usize, right: usize) -> (usize, usize) {
        match self {
            Fault::PairedWithRight => (right, left),
            _ => Document.paired(left, right),
        }
    }
}

/// The check with one fault.
pub fn check(
    fault: Fault,
    a: &[u8],
    b: &[u8],
    steps: &[u8],
    work: &mut [u8],
    gates: &mut [u8],
) -> Answer {
    let (work_before, gates_before) = (work.to_vec(), gates.to_vec());
    let mut answer = check_by(&fault, a, b, steps, work, gates);
    let s = steps.len() / 8;
    match fault {
        Fault::FixedCircuit if answer.number == 0 && s > 0 => {
            gates.copy_from_slice(&gates_before);
            let circuit = [(Kind::Or, 2, 0), (Kind::Or, 3, 1), (Kind::And, 514, 515)];
            for (row, (kind, left, right)) in gates.chunks_mut(8).zip(circuit) {
                row.copy_from_slice(&Gate { kind, left, right }.record());
            }
            answer.root = 516;
            answer.count = 3;
        }
        Fault::WritesNothing => {
            work.copy_from_slice(&work_before);
            gates.copy_from_slice(&gates_before);
        }
        Fault::CopiesRows => {
            for i in 1..answer.resolved(s) {
                work.copy_within(..64, 64 * i);
            }
        }
        Fault::InventedCount if answer.number == 0 => answer.count = 3 * s,
        Fault::ClearsBehind if answer.number == 0 => gates[8 * answer.count..].fill(0),
        Fault::UndoesResults if answer.number != 0 => work.copy_from_slice(&work_before),
        _ => {}
    }
    answer
}

/// What is wrong with the evaluator.
#[derive(Clone, Copy, Debug, PartialEq, Eq)]
pub enum Misreading {
    /// Bytes 1, 6 and 7 of a gate are not looked at.
    SpareIgnored,
    /// AND and OR change places.
    KindsSwapped,
    /// Left and right input are read big endian.
    BigEndian,
    /// The bits of an assignment's byte are read from the other end.
    BitsFromTheEnd,
    /// The root reference is tested before the gates.
    RootFirst,
    /// The root reference is cut to two bytes.
    RootCut,
    /// Gates above 24,576 bytes are left out instead of refused.
    NoLimit,
    /// The value is negated.
    Negated,
}

impl Misreading {
    pub const ALL: [Misreading; 8] = [
        Misreading::SpareIgnored,
        Misreading::KindsSwapped,
        Misreading::BigEndian,
        Misreading::BitsFromTheEnd,
        Misreading::RootFirst,
        Misreading::RootCut,
        Misreading::NoLimit,
        Misreading::Negated,
    ];
}

/// The evaluator with one fault: the right one on what the fault makes of its input.
pub fn evaluate(fault: Misreading, assignment: &[u8], table: &[u8], root: usize) -> Evaluated {
    let each_gate = |change: fn(&mut [u8; 8])| {
        let mut table = table.to_vec();
        table.as_chunks_mut().0.iter_mut().for_each(change);
        right_evaluate(assignment, &table, root)
    };
    let right = right_evaluate(assignment, table, root);
    match fault {
        Misreading::SpareIgnored => each_gate(|gate| (gate[1], gate[6], gate[7]) = (0, 0, 0)),
        // 1 and 2 change places, and no other number becomes one of them.
        Misreading::KindsSwapped => each_gate(|gate| gate[0] ^= 3),
        Misreading::BigEndian => each_gate(|gate| {
            gate.swap(2, 3);
            gate.swap(4, 5);
        }),
        Misreading::BitsFromTheEnd => {
            let reversed: Vec<u8> = assignment.iter().map(|byte| byte.reverse_bits()).collect();
            right_evaluate(&reversed, table, root)
        }
        Misreading::RootFirst => {
            let lengths_pass = !matches!(right.number, 20 | 21);
            if lengths_pass && root >= 514 + table.len() / 8 {
                return Evaluated::refusal(24, 0);
            }
            right
        }
        Misreading::RootCut => right_evaluate(assignment, table, root % 65_536),
        Misreading::NoLimit if table.len().is_multiple_of(8) => {
            right_evaluate(assignment, &table[..table.len().min(24_576)], root)
        }
        Misreading::Negated if right.number == 0 => Evaluated::of(1 - right.value),
        Misreading::NoLimit | Misreading::Negated => right,
    }
}
