//! The safe wrapper of the proved library: check a refutation and build its circuit, evaluate a circuit, hand back a record.

#![deny(unsafe_code)]

#[allow(unsafe_code)]
pub mod raw;

mod refusal;

pub use refusal::{Refusal, Refused};

/// An accepted refutation.
#[derive(Clone, Copy, Debug, PartialEq, Eq)]
pub struct Accepted {
    /// The root's clause number.
    pub place: usize,
    /// The root's reference.
    pub root: usize,
    /// How many records of the gate table are the circuit.
    pub count: usize,
}

/// Checks a refutation and builds its circuit.
///
/// Accepted, the work table's first records are the steps' results and the gate table's first
/// `count` records the circuit. Refusals 1 to 6 write nothing, 7 to 10 at step i leave the results
/// before step i, 11 leaves all of them; no refusal writes a gate. All other bytes stay.
///
/// ```
/// // A has {x0}, B has {not x0}; one step resolves them on x0.
/// let (mut a, mut b) = ([0; 64], [0; 64]);
/// (a[0], b[32]) = (1, 1);
/// let step = [0, 0, 1, 0, 0, 0, 0, 0];
/// let (mut work, mut gates) = ([0; 64], [0; 24]);
/// let accepted = privetcomb::check(&a, &b, &step, &mut work, &mut gates).unwrap();
/// assert_eq!((accepted.place, accepted.root, accepted.count), (2, 516, 3));
/// // The circuit has the value of x0.
/// let circuit = &gates[..8 * accepted.count];
/// let mut assignment = [0; 32];
/// assert_eq!(privetcomb::evaluate(&assignment, circuit, accepted.root), Ok(false));
/// assignment[0] = 1;
/// assert_eq!(privetcomb::evaluate(&assignment, circuit, accepted.root), Ok(true));
/// ```
pub fn check(
    a: &[u8],
    b: &[u8],
    steps: &[u8],
    work: &mut [u8],
    gates: &mut [u8],
) -> Result<Accepted, Refused> {
    let raw::Answer {
        number,
        place,
        root,
        count,
    } = raw::check(a, b, steps, work, gates);
    Refused::unless_accepted(number, place)?;
    Ok(Accepted { place, root, count })
}

/// The value of a gate table at a root reference under an assignment.
///
/// Refusals 20 to 24; no byte is written.
pub fn evaluate(assignment: &[u8], table: &[u8], root: usize) -> Result<bool, Refused> {
    let raw::Evaluated {
        number,
        place,
        value,
    } = raw::evaluate(assignment, table, root);
    Refused::unless_accepted(number, place)?;
    Ok(value == 1)
}

/// The caller's own 64 bytes from 64r, or none where the table doesn't hold them.
pub fn record(table: &[u8], r: usize) -> Option<&[u8; 64]> {
    let raw::Part { start, length } = raw::record(table, r);
    // The empty part is no array of 64 bytes.
    table[start..start + length].try_into().ok()
}
