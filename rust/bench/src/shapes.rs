//! How large the refutations of a family are, and how many pages their calls touch.

use crate::cases::Family;

/// A page of memory, in bytes.
pub const PAGE: usize = 4_096;

/// The numbers of a family's refutation, or the means of its several.
pub struct Shape {
    pub refutations: usize,
    /// All of them, results included.
    pub clauses: usize,
    pub a: usize,
    pub b: usize,
    pub steps: usize,
    pub gates: usize,
}

impl Shape {
    pub fn of(family: Family) -> Shape {
        let refutations = family.refutations();
        let numbers = refutations.iter().map(|refutation| {
            let tables = &refutation.tables;
            let [a, b] = [&tables.a, &tables.b].map(|table| table.len() / 64);
            let steps = tables.steps.len() / 8;
            [a + b + steps, a, b, steps, refutation.gates()]
        });
        let mut sums = [0; 5];
        for numbers in numbers {
            for (sum, number) in sums.iter_mut().zip(numbers) {
                *sum += number;
            }
        }
        let [clauses, a, b, steps, gates] = sums.map(|sum| sum / refutations.len());
        Shape {
            refutations: refutations.len(),
            clauses,
            a,
            b,
            steps,
            gates,
        }
    }

    /// The pages that a check touches.
    pub fn check_pages(&self) -> usize {
        let Shape {
            a, b, steps, gates, ..
        } = self;
        let lengths = [64 * a, 64 * b, 8 * steps, 64 * steps, 8 * gates];
        lengths.map(|bytes| bytes.div_ceil(PAGE)).iter().sum()
    }

    /// The pages that an evaluation touches: the assignment's and the gates'.
    pub fn evaluation_pages(&self) -> usize {
        1 + (8 * self.gates).div_ceil(PAGE)
    }
}
