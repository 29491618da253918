//! The cases document 01 lists, with the edges of the evaluator and of handing back a record.

use std::hint::black_box;

use independent::listed;
use privetcomb::raw::{self, Part};

use crate::framed;
use crate::library;
use crate::tally::Tally;

pub fn run(tally: &mut Tally) {
    for case in listed::cases() {
        let after = case.after();
        let met = [library::check, library::wrapped_check]
            .into_iter()
            .all(|check| framed::check(&case.tables, &after, check) == Some(case.answer));
        tally.expect(format!("check: {}", case.name), met);
    }
    for case in listed::values() {
        let met = [library::evaluate, library::wrapped_evaluate]
            .into_iter()
            .all(|evaluate| framed::evaluate(&case.evaluation, evaluate) == Some(case.evaluated));
        tally.expect(format!("evaluate: {}", case.name), met);
    }
    for listed::Part { length, r, start } in listed::parts() {
        let table: Vec<u8> = (0..length).map(|byte| byte as u8).collect();
        let met = record_agrees(&table, r, start);
        tally.expect(format!("record: {r} of {length} bytes"), met);
    }
}

/// Whether both forms of handing back record r say that it starts there, or that there is none, and
/// leave the table as it was.
pub fn record_agrees(table: &[u8], r: usize, start: Option<usize>) -> bool {
    let before = table.to_vec();
    // The compiler may take a lent table to be as it was; this makes it look.
    let unwritten = || black_box(table) == before;
    let part = start.map_or(
        Part {
            start: 0,
            length: 0,
        },
        |start| Part { start, length: 64 },
    );
    let met = raw::record(table, r) == part && unwritten();
    let wrapped_met = match (privetcomb::record(table, r), start) {
        // The caller's own bytes, not a copy of them.
        (Some(record), Some(start)) => std::ptr::eq(&record[..], &table[start..start + 64]),
        (None, None) => true,
        _ => false,
    };
    met && wrapped_met && unwritten()
}
