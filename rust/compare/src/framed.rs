//! One call of a job on tables that stand in a frame, so that every byte of them, and those around them, can be compared afterwards.

use independent::tables::{Evaluation, Tables};
use independent::{Answer, Evaluated};

/// How many bytes stand before and after a table; being odd, this takes the table off every alignment.
const FRAME: usize = 67;

/// The table between two stretches of bytes that no call may change.
fn framed(table: &[u8]) -> Vec<u8> {
    [&[0x5a; FRAME], table, &[0xc3; FRAME]].concat()
}

fn all_framed(tables: &Tables) -> Tables {
    Tables {
        a: framed(&tables.a),
        b: framed(&tables.b),
        steps: framed(&tables.steps),
        work: framed(&tables.work),
        gates: framed(&tables.gates),
    }
}

fn inside(frame: &[u8]) -> &[u8] {
    &frame[FRAME..frame.len() - FRAME]
}

fn inside_mut(frame: &mut [u8]) -> &mut [u8] {
    let end = frame.len() - FRAME;
    &mut frame[FRAME..end]
}

/// The answer of a check, where all bytes are as they should be afterwards.
pub fn check(
    tables: &Tables,
    after: &Tables,
    check: impl FnOnce(&[u8], &[u8], &[u8], &mut [u8], &mut [u8]) -> Answer,
) -> Option<Answer> {
    let mut lent = all_framed(tables);
    let answer = check(
        inside(&lent.a),
        inside(&lent.b),
        inside(&lent.steps),
        inside_mut(&mut lent.work),
        inside_mut(&mut lent.gates),
    );
    (lent == all_framed(after)).then_some(answer)
}

/// The answer of an evaluation, where no byte is changed.
pub fn evaluate(
    given: &Evaluation,
    evaluate: impl FnOnce(&[u8], &[u8], usize) -> Evaluated,
) -> Option<Evaluated> {
    let (assignment, table) = (framed(&given.assignment), framed(&given.table));
    let lent = (assignment.clone(), table.clone());
    let evaluated = evaluate(inside(&lent.0), inside(&lent.1), given.root);
    (lent == (assignment, table)).then_some(evaluated)
}
