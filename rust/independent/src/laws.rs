//! Demand 3's laws of an accepted circuit, tried by all assignments to the variables that occur.

use crate::records::{bit, occurring, Clause, Gate};
use crate::tables::Tables;
use crate::{Answer, Evaluated};

fn satisfies(assignment: &[u8], clauses: &[Clause]) -> bool {
    clauses.iter().all(|clause| {
        (0..256).any(|v| {
            let value = bit(assignment, v);
            clause.positive[v] && value || clause.negative[v] && !value
        })
    })
}

/// Whether the circuit an acceptance left in these tables keeps the laws: it names common variables
/// only, holds where A does, and never holds where B does. At most eight variables may occur.
pub fn hold(
    tables: &Tables,
    answer: &Answer,
    evaluate: impl Fn(&[u8], &[u8], usize) -> Evaluated,
) -> bool {
    let read = |table: &[u8]| table.chunks(64).map(Clause::read).collect::<Vec<Clause>>();
    let (a, b) = (read(&tables.a), read(&tables.b));
    let (in_a, in_b) = (occurring(&a), occurring(&b));
    let gates = &tables.gates[..8 * answer.count];
    let common = |input: usize| {
        let v = input.wrapping_sub(2) / 2;
        !(2..514).contains(&input) || in_a.contains(&v) && in_b.contains(&v)
    };
    for record in gates.chunks(8) {
        match Gate::read(record) {
            Some(gate) if common(gate.left) && common(gate.right) => {}
            _ => return false,
        }
    }

    let occurs = occurring(&[a.clone(), b.clone()].concat());
    assert!(occurs.len() <= 8);
    common(answer.root)
        && (0..1_usize << occurs.len()).all(|bits| {
            // The variables that do not occur must not matter, so they change as well.
            let mut assignment = [if bits % 3 == 0 { 255 } else { 0 }; 32];
            for (i, v) in occurs.iter().enumerate() {
                assignment[v / 8] &= !(1 << (v % 8));
                assignment[v / 8] |= ((bits >> i & 1) as u8) << (v % 8);
            }
            let evaluated = evaluate(&assignment, gates, answer.root);
            evaluated.number == 0
                && (evaluated.value == 1 || !satisfies(&assignment, &a))
                && (evaluated.value == 0 || !satisfies(&assignment, &b))
        })
}
