//! The evaluator: the value of a gate table at a root reference under an assignment.

use crate::records::{bit, Gate, Kind};

/// What evaluating returns.
#[derive(Clone, Copy, Debug, PartialEq, Eq)]
pub struct Evaluated {
    pub number: usize,
    pub place: usize,
    pub value: usize,
}

impl Evaluated {
    /// The root's value, 0 or 1, accepted.
    pub fn of(value: usize) -> Evaluated {
        Evaluated {
            number: 0,
            place: 0,
            value,
        }
    }

    /// A refusal has value 0.
    pub fn refusal(number: usize, place: usize) -> Evaluated {
        Evaluated {
            number,
            place,
            value: 0,
        }
    }
}

/// Evaluates the gate table at the root reference; writes nothing.
pub fn evaluate(assignment: &[u8], table: &[u8], root: usize) -> Evaluated {
    if assignment.len() != 32 {
        return Evaluated::refusal(20, 0);
    }
    if !table.len().is_multiple_of(8) || table.len() > 24_576 {
        return Evaluated::refusal(21, 0);
    }

    // The value of each reference, in the order of references.
    let mut values = vec![false, true];
    for v in 0..256 {
        let value = bit(assignment, v);
        values.extend([value, !value]);
    }
    for (k, record) in table.chunks(8).enumerate() {
        let Some(gate) = Gate::read(record) else {
            return Evaluated::refusal(22, k);
        };
        if gate.left >= 514 + k || gate.right >= 514 + k {
            return Evaluated::refusal(23, k);
        }
        let (left, right) = (values[gate.left], values[gate.right]);
        values.push(match gate.kind {
            Kind::And => left && right,
            Kind::Or => left || right,
        });
    }
    if root >= 514 + table.len() / 8 {
        return Evaluated::refusal(24, 0);
    }
    Evaluated::of(usize::from(values[root]))
}
