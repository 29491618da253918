//! A chain of 512 steps: each resolves the result of the step before with an input clause.

use independent::records::{Clause, Step};
use independent::tables::{Random, Tables};

/// The steps of a chain: each of the 256 variables is the pivot of two.
const STEPS: usize = 512;

/// How the pivots, their signs and the sides of the input clauses follow each other.
#[derive(Clone, Copy, Debug, PartialEq, Eq, PartialOrd, Ord)]
pub enum Order {
    /// By the variables' numbers, all positive, the first half in A.
    ByNumber,
    /// In any order, each of any sign, each input clause on any side.
    Random,
}

/// A clause of at most two literals, each a variable and whether it is positive.
fn clause(literals: &[(usize, bool)]) -> Clause {
    let of_sign = |sign| {
        let these = literals.iter().filter(|(_, positive)| *positive == sign);
        these.map(|(v, _)| *v).collect::<Vec<usize>>()
    };
    Clause::of(&of_sign(true), &of_sign(false))
}

/// The literals that the results hold one by one, twice around a ring of all variables.
fn ring(random: &mut Random, order: Order) -> Vec<(usize, bool)> {
    let mut ring: Vec<(usize, bool)> = (0..256).map(|v| (v, true)).collect();
    if order == Order::Random {
        random.shuffle(&mut ring);
        for (_, positive) in &mut ring {
            *positive = random.chance(50);
        }
    }
    ring
}

/// The refutation: a clause of the ring's first literal, one for each literal that leads from it to
/// the next, and one that denies the last.
pub fn refutation(random: &mut Random, order: Order) -> Tables {
    let ring = ring(random, order);
    let denied = |i: usize| (ring[i].0, !ring[i].1);
    let mut inputs = vec![clause(&[ring[0]])];
    inputs.extend((0..256).map(|i| clause(&[denied(i), ring[(i + 1) % 256]])));
    inputs.push(clause(&[denied(255)]));

    let (mut a, mut b) = (vec![], vec![]);
    for (i, input) in inputs.iter().enumerate() {
        let in_a = match order {
            Order::ByNumber => i <= inputs.len() / 2,
            Order::Random => random.chance(50),
        };
        let side = if in_a { &mut a } else { &mut b };
        side.push((i, input));
    }
    let dealt = || a.iter().chain(&b);
    let number = |input: usize| dealt().position(|(i, _)| *i == input);

    let mut steps = vec![];
    let mut before = number(0).expect("each input is dealt");
    for i in 0..STEPS {
        let last = i + 1 == STEPS;
        let input = if last { inputs.len() - 1 } else { 1 + i % 256 };
        let input = number(input).expect("each input is dealt");
        let (pivot, positive) = ring[i % 256];
        steps.push(if positive {
            Step::of(before, input, pivot)
        } else {
            Step::of(input, before, pivot)
        });
        before = inputs.len() + i;
    }
    let records = |side: &[(usize, &Clause)]| side.iter().flat_map(|(_, c)| c.record()).collect();
    Tables {
        a: records(&a),
        b: records(&b),
        steps: steps.iter().flat_map(Step::record).collect(),
        work: random.bytes(64 * STEPS),
        gates: random.bytes(24 * STEPS),
    }
}

#[cfg(test)]
mod tests {
    use independent::check;

    use super::*;

    #[test]
    fn a_chain_ends_in_its_only_empty_clause() {
        for order in [Order::ByNumber, Order::Random] {
            let tables = refutation(&mut Random::new(7), order);
            let inputs = (tables.a.len() + tables.b.len()) / 64;
            assert_eq!(inputs, 258);
            let (answer, _) = tables.run(check);
            assert_eq!((answer.number, answer.place), (0, inputs + STEPS - 1));
            for (i, step) in tables.steps.chunks(8).map(Step::read).enumerate().skip(1) {
                assert_eq!(step.left.max(step.right), inputs + i - 1);
            }
        }
    }
}
