//! The plain copy: it moves the records that a check moves, and does nothing else.

/// The number of an antecedent, from two bytes of a step.
fn number(bytes: [u8; 2]) -> usize {
    usize::from(u16::from_le_bytes(bytes))
}

/// For each step, reads the records of both antecedents and writes a record: no test, no mask and no
/// gate. The two are joined, so that neither can be left unread.
#[inline(never)]
pub fn move_records(a: &[u8], b: &[u8], steps: &[u8], work: &mut [u8]) {
    let (a, _) = a.as_chunks::<64>();
    let (b, _) = b.as_chunks::<64>();
    let (steps, _) = steps.as_chunks::<8>();
    let (work, _) = work.as_chunks_mut::<64>();
    let inputs = a.len() + b.len();
    for (i, &[l0, l1, r0, r1, ..]) in steps.iter().enumerate() {
        let (results, rows) = work.split_at_mut(i);
        let clause = |number: usize| {
            if number < a.len() {
                &a[number]
            } else if number < inputs {
                &b[number - a.len()]
            } else {
                &results[number - inputs]
            }
        };
        let (left, right) = (clause(number([l0, l1])), clause(number([r0, r1])));
        for ((byte, left), right) in rows[0].iter_mut().zip(left).zip(right) {
            *byte = left | right;
        }
    }
}

#[cfg(test)]
mod tests {
    use super::move_records;

    /// Antecedents from each of the three tables: the work records tell which were read.
    #[test]
    fn each_step_joins_its_antecedents() {
        let (a, b) = ([1; 64], [2; 64]);
        let steps = [[0, 0, 1, 0, 0, 0, 0, 0], [2, 0, 0, 0, 0, 0, 0, 0]].concat();
        let mut work = [0; 128];
        move_records(&a, &[b, [4; 64]].concat(), &steps, &mut work);
        assert_eq!(work, *[[3; 64], [5; 64]].concat());
        move_records(&a, &b, &steps, &mut work);
        assert_eq!(work, [3; 128]);
    }
}
