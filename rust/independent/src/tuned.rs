//! The tuned version, the yardstick of the benchmarks: the same answers and bytes as the plain one, as fast as we could make it in safe Rust.

use crate::{Answer, Evaluated};

type Record = [u8; 64];

/// A clause record as words; in each half variable v is bit v mod 64 of word v div 64.
type Words = [u64; 8];

fn words(record: &Record) -> Words {
    let (words, _) = record.as_chunks::<8>();
    std::array::from_fn(|j| u64::from_le_bytes(words[j]))
}

fn is_empty(words: &Words) -> bool {
    words.iter().fold(0, |any, word| any | word) == 0
}

/// The lower of two numbers; kept out of the loops, since an empty clause is rare.
#[cold]
fn earlier(this: usize, other: usize) -> usize {
    this.min(other)
}

/// Notes where each clause of the table stands; hands back the variables that occur in it, and its
/// first empty clause or the number of clauses.
fn survey<'t>(table: &'t [Record], clauses: &mut [&'t Record]) -> ([u64; 4], usize) {
    let mut all: Words = [0; 8];
    let first_empty = join(table, clauses, &mut all);
    (std::array::from_fn(|j| all[j] | all[j + 4]), first_empty)
}

/// The same, with the table's literals added to all: behind a reference, so that the compiler keeps
/// them in wide registers.
#[inline(never)]
fn join<'t>(table: &'t [Record], clauses: &mut [&'t Record], all: &mut Words) -> usize {
    let mut first_empty = table.len();
    for ((i, record), clause) in table.iter().enumerate().zip(clauses) {
        *clause = record;
        let words = words(record);
        *all = std::array::from_fn(|j| all[j] | words[j]);
        if is_empty(&words) {
            first_empty = earlier(first_empty, i);
        }
    }
    first_empty
}

/// All bits of a half but one variable's; aligned, so that it is read where it is used.
#[repr(align(32))]
struct Mask([u64; 4]);

/// The mask of each variable.
static MASKS: [Mask; 256] = {
    let mut masks = [const { Mask([u64::MAX; 4]) }; 256];
    let mut v = 0;
    while v < 256 {
        masks[v].0[v / 64] ^= 1 << (v % 64);
        v += 1;
    }
    masks
};

/// Writes the resolvent into its row and tells whether it is empty.
fn resolve(left: &Words, right: &Words, pivot: u8, row: &mut Record) -> bool {
    let Mask(mask) = &MASKS[usize::from(pivot)];
    let resolvent: Words = std::array::from_fn(|j| {
        if j < 4 {
            left[j] & mask[j] | right[j]
        } else {
            left[j] | right[j] & mask[j - 4]
        }
    });
    let (row, _) = row.as_chunks_mut::<8>();
    for (bytes, word) in row.iter_mut().zip(resolvent) {
        *bytes = word.to_le_bytes();
    }
    is_empty(&resolvent)
}

/// A step's fields; its spare bytes are the rest of the number.
fn fields(step: &[u8; 8]) -> (usize, usize, u8, u64) {
    let step = u64::from_le_bytes(*step);
    (
        usize::from(step as u16),
        usize::from((step >> 16) as u16),
        (step >> 32) as u8,
        step >> 40,
    )
}

/// One word of a record.
fn word(record: &Record, at: usize) -> u64 {
    let (words, _) = record.as_chunks::<8>();
    u64::from_le_bytes(words[at])
}

/// Byte 0 of a gate record; OR is one more than AND.
const AND: u64 = 1;
const OR: u64 = 2;

fn gate(kind: u64, left: u64, right: u64) -> [u8; 8] {
    (kind + (left << 16) + (right << 32)).to_le_bytes()
}

/// What test 6 saw to.
const ROOM: &str = "three gates a step have room";

/// Writes the gates of all steps; hands back the root's reference and the gate count. Numbers below
/// 1,024 are cut to ten bits: the steps are by the rule, and so no look-up needs a test.
#[inline(never)]
fn build(
    (a, b): (usize, usize),
    in_a: &[u64; 4],
    in_b: &[u64; 4],
    steps: &[[u8; 8]],
    root: usize,
    gates: &mut [[u8; 8]],
) -> (usize, usize) {
    let in_both: [u64; 4] = std::array::from_fn(|j| in_a[j] & in_b[j]);
    let mut references = [0_u16; 1024];
    references[a..a + b].fill(1);
    let mut free = gates;
    let mut next = 514;
    for (own, step) in (a + b..1024).zip(steps) {
        let (left, right, pivot, _) = fields(step);
        let [left, right] = [left, right].map(|number| u64::from(references[number & 1023]));
        let pivot = u64::from(pivot);
        let occurs = |side: &[u64; 4]| side[(pivot / 64) as usize & 3] >> (pivot % 64) & 1;
        if occurs(&in_both) != 0 {
            let (row, rest) = free.split_first_chunk_mut().expect(ROOM);
            let positive = 2 + 2 * pivot;
            *row = [
                gate(OR, positive, left),
                gate(OR, positive + 1, right),
                gate(AND, next, next + 1),
            ];
            references[own & 1023] = next as u16 + 2;
            next += 3;
            free = rest;
        } else {
            let (row, rest) = free.split_first_mut().expect(ROOM);
            *row = gate(AND + occurs(in_a), left, right);
            references[own & 1023] = next as u16;
            next += 1;
            free = rest;
        }
    }
    (usize::from(references[root & 1023]), next as usize - 514)
}

/// The refusal of a step that is not by the rule.
#[cold]
fn refusal(i: usize, step: &[u8; 8], clauses: &[&Record]) -> Answer {
    let (left, right, pivot, spare) = fields(step);
    let number = match (clauses.get(left), clauses.get(right)) {
        _ if spare != 0 => 7,
        (Some(left), Some(_)) if word(left, usize::from(pivot / 64)) >> (pivot % 64) & 1 == 0 => 9,
        (Some(_), Some(_)) => 10,
        _ => 8,
    };
    Answer::refusal(number, i)
}

/// Resolves all steps; hands back the number of the first empty result, or of clauses. A row that is
/// written is lent on as a clause, so that the table need not be lent anew at each step.
#[inline(never)]
fn derive<'t>(
    inputs: usize,
    steps: &[[u8; 8]],
    work: &'t mut [Record],
    clauses: &mut [&'t Record],
) -> Result<usize, Answer> {
    let mut root = clauses.len();
    for (own, (step, row)) in (inputs..clauses.len()).zip(steps.iter().zip(work)) {
        let (left, right, pivot, spare) = fields(step);
        let known = &clauses[..own];
        let Some(left) = known.get(left) else {
            return Err(refusal(own - inputs, step, known));
        };
        let Some(right) = known.get(right) else {
            return Err(refusal(own - inputs, step, known));
        };
        let at = usize::from(pivot / 64);
        let both = word(left, at) & word(right, 4 + at);
        if spare != 0 || both >> (pivot % 64) & 1 == 0 {
            return Err(refusal(own - inputs, step, known));
        }
        if resolve(&words(left), &words(right), pivot, row) {
            root = earlier(root, own);
        }
        clauses[own] = row;
    }
    Ok(root)
}

/// What a place holds until a clause is noted there.
static EMPTY: Record = [0; 64];

/// Checks as `crate::check` does.
pub fn check(a: &[u8], b: &[u8], steps: &[u8], work: &mut [u8], gates: &mut [u8]) -> Answer {
    let (a, a_rest) = a.as_chunks::<64>();
    if !a_rest.is_empty() {
        return Answer::refusal(1, 0);
    }
    let (b, b_rest) = b.as_chunks::<64>();
    if !b_rest.is_empty() {
        return Answer::refusal(2, 0);
    }
    let (steps, steps_rest) = steps.as_chunks::<8>();
    if !steps_rest.is_empty() {
        return Answer::refusal(3, 0);
    }
    let inputs = a.len() + b.len();
    if inputs + steps.len() > 1024 {
        return Answer::refusal(4, 0);
    }
    let (work, _) = work.as_chunks_mut::<64>();
    if work.len() < steps.len() {
        return Answer::refusal(5, 0);
    }
    if gates.len() < 24 * steps.len() {
        return Answer::refusal(6, 0);
    }

    // As much room as is near what is needed: all of it is filled first.
    let tables = (a, b, steps, work, gates);
    match inputs + steps.len() {
        0..=64 => derive_and_build(tables, &mut [&EMPTY; 64]),
        65..=256 => derive_and_build(tables, &mut [&EMPTY; 256]),
        _ => derive_and_build(tables, &mut [&EMPTY; 1024]),
    }
}

/// The tables' records, the gates still as bytes.
type Tables<'t> = (
    &'t [Record],
    &'t [Record],
    &'t [[u8; 8]],
    &'t mut [Record],
    &'t mut [u8],
);

/// Checks tables of the right lengths, with room to note where each clause stands.
fn derive_and_build<'t>(
    (a, b, steps, work, gates): Tables<'t>,
    clauses: &mut [&'t Record],
) -> Answer {
    let inputs = a.len() + b.len();
    let total = inputs + steps.len();
    let (in_a, empty_a) = survey(a, &mut clauses[..a.len()]);
    let (in_b, empty_b) = survey(b, &mut clauses[a.len()..inputs]);
    let result = match derive(inputs, steps, work, &mut clauses[..total]) {
        Ok(result) => result,
        Err(answer) => return answer,
    };
    let root = if empty_a < a.len() {
        empty_a
    } else if empty_b < b.len() {
        a.len() + empty_b
    } else {
        result
    };
    if root == total {
        return Answer::refusal(11, 0);
    }
    let (gates, _) = gates.as_chunks_mut::<8>();
    let (reference, count) = build((a.len(), b.len()), &in_a, &in_b, steps, root, gates);
    Answer {
        number: 0,
        place: root,
        root: reference,
        count,
    }
}

/// The values of the sixteen references of eight neighbouring variables, by their eight bits.
static LITERALS: [[u8; 16]; 256] = {
    let mut table = [[0; 16]; 256];
    let mut bits = 0;
    while bits < 256 {
        let mut v = 0;
        while v < 8 {
            let value = (bits >> v & 1) as u8;
            table[bits][2 * v] = value;
            table[bits][2 * v + 1] = 1 - value;
            v += 1;
        }
        bits += 1;
    }
    table
};

/// Bytes 0, 1, 6 and 7 of a gate record: its kind, and the spare ones.
const KIND: u64 = 0xffff_0000_0000_ffff;

/// Evaluates as `crate::evaluate` does.
pub fn evaluate(assignment: &[u8], table: &[u8], root: usize) -> Evaluated {
    let Ok(assignment) = assignment.try_into() else {
        return Evaluated::refusal(20, 0);
    };
    let (gates, gates_rest) = table.as_chunks::<8>();
    if !gates_rest.is_empty() {
        return Evaluated::refusal(21, 0);
    }
    // As much room as is near what is needed: all of it is cleared first.
    match gates.len() {
        0..=126 => value(assignment, gates, root, &mut [0; 514 + 126]),
        127..=512 => value(assignment, gates, root, &mut [0; 514 + 512]),
        513..=3072 => value(assignment, gates, root, &mut [0; 514 + 3072]),
        _ => Evaluated::refusal(21, 0),
    }
}

/// Evaluates with room for the value of each reference.
#[inline(never)]
fn value(assignment: &[u8; 32], gates: &[[u8; 8]], root: usize, values: &mut [u8]) -> Evaluated {
    let (constants, references) = values.split_at_mut(2);
    constants[1] = 1;
    let (rows, _) = references.as_chunks_mut::<16>();
    for (row, byte) in rows.iter_mut().zip(assignment) {
        *row = LITERALS[usize::from(*byte)];
    }
    let values = &mut values[..514 + gates.len()];
    for (own, gate) in (514..values.len()).zip(gates) {
        let gate = u64::from_le_bytes(*gate);
        // 0 for AND and 1 for OR, and anything else where the gate is malformed.
        let or = (gate & KIND).wrapping_sub(1);
        if or > 1 {
            return Evaluated::refusal(22, own - 514);
        }
        // Only earlier values are in reach, so a failed lookup is the test on the inputs.
        let known = &values[..own];
        let left = known.get(usize::from((gate >> 16) as u16));
        let right = known.get(usize::from((gate >> 32) as u16));
        let (Some(left), Some(right)) = (left, right) else {
            return Evaluated::refusal(23, own - 514);
        };
        // Without a branch on the kind: one more for an OR, and half of the sum.
        values[own] = (left + right + or as u8) / 2;
    }
    match values.get(root) {
        Some(value) => Evaluated::of(usize::from(*value)),
        None => Evaluated::refusal(24, 0),
    }
}
