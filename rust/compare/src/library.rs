//! The library's jobs, with the answers as the independent version gives them: by its raw numbers, and by the wrapper's results.

use independent::{Answer, Evaluated};
use privetcomb::{raw, Accepted};

pub fn check(a: &[u8], b: &[u8], steps: &[u8], work: &mut [u8], gates: &mut [u8]) -> Answer {
    let raw::Answer {
        number,
        place,
        root,
        count,
    } = raw::check(a, b, steps, work, gates);
    Answer {
        number,
        place,
        root,
        count,
    }
}

pub fn evaluate(assignment: &[u8], table: &[u8], root: usize) -> Evaluated {
    let raw::Evaluated {
        number,
        place,
        value,
    } = raw::evaluate(assignment, table, root);
    Evaluated {
        number,
        place,
        value,
    }
}

pub fn wrapped_check(
    a: &[u8],
    b: &[u8],
    steps: &[u8],
    work: &mut [u8],
    gates: &mut [u8],
) -> Answer {
    match privetcomb::check(a, b, steps, work, gates) {
        Ok(Accepted { place, root, count }) => Answer {
            number: 0,
            place,
            root,
            count,
        },
        Err(refused) => Answer::refusal(refused.reason.number(), refused.place),
    }
}

pub fn wrapped_evaluate(assignment: &[u8], table: &[u8], root: usize) -> Evaluated {
    match privetcomb::evaluate(assignment, table, root) {
        Ok(value) => Evaluated::of(usize::from(value)),
        Err(refused) => Evaluated::refusal(refused.reason.number(), refused.place),
    }
}
