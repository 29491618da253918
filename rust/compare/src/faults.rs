//! The tests tried: each fault in the library's place has to be caught by the same comparison.

use independent::tables::{evaluation, tables, Evaluation, Random, Tables};
use independent::wrong::{self, Fault, Misreading};
use independent::{check, evaluate, listed, Answer, Evaluated};

use crate::framed;
use crate::tally::Tally;

/// How many random tables, and evaluations, each fault is tried on.
const TRIED: usize = 2_000;

pub fn run(tally: &mut Tally, random: &mut Random) {
    checks(tally, random);
    evaluations(tally, random);
}

/// Whether the comparison tells the fault from this answer and these tables afterwards.
fn caught(fault: Fault, tables: &Tables, answer: Answer, after: &Tables) -> bool {
    let given = framed::check(tables, after, |a, b, steps, work, gates| {
        wrong::check(fault, a, b, steps, work, gates)
    });
    given != Some(answer)
}

fn checks(tally: &mut Tally, random: &mut Random) {
    let mut counts = [0; Fault::ALL.len()];
    for _ in 0..TRIED {
        let tables = tables(random);
        let (answer, after) = tables.run(check);
        for (count, fault) in counts.iter_mut().zip(Fault::ALL) {
            *count += usize::from(caught(fault, &tables, answer, &after));
        }
    }
    let cases = listed::cases();
    for (count, fault) in counts.into_iter().zip(Fault::ALL) {
        let on_listed: Vec<&str> = cases
            .iter()
            .filter(|case| caught(fault, &case.tables, case.answer, &case.after()))
            .map(|case| case.name)
            .collect();
        let name = format!("{fault:?}");
        tally_fault(tally, &name, count, on_listed.len(), cases.len());
        if let Some(case) = named_case(fault) {
            let name = format!("fault {name} caught on {case}, the case document 01 names for it");
            tally.expect(name, on_listed.contains(&case));
        }
    }
}

/// The case that document 01 names for a fault.
fn named_case(fault: Fault) -> Option<&'static str> {
    match fault {
        Fault::BothSigns => Some("P9"),
        Fault::ColourByOrigin => Some("P8"),
        Fault::PairedWithRight => Some("P5"),
        _ => None,
    }
}

/// The same for the evaluator.
fn misreading_caught(fault: Misreading, given: &Evaluation, evaluated: Evaluated) -> bool {
    let wrong = framed::evaluate(given, |assignment, table, root| {
        wrong::evaluate(fault, assignment, table, root)
    });
    wrong != Some(evaluated)
}

fn evaluations(tally: &mut Tally, random: &mut Random) {
    let mut counts = [0; Misreading::ALL.len()];
    for _ in 0..TRIED {
        let given = evaluation(random);
        let evaluated = given.run(evaluate);
        for (count, fault) in counts.iter_mut().zip(Misreading::ALL) {
            *count += usize::from(misreading_caught(fault, &given, evaluated));
        }
    }
    let cases = listed::values();
    for (count, fault) in counts.into_iter().zip(Misreading::ALL) {
        let on_listed = cases
            .iter()
            .filter(|case| misreading_caught(fault, &case.evaluation, case.evaluated))
            .count();
        tally_fault(tally, &format!("{fault:?}"), count, on_listed, cases.len());
    }
}

fn tally_fault(tally: &mut Tally, fault: &str, count: usize, on_listed: usize, listed: usize) {
    let name = format!(
        "fault {fault} caught on {count} of {TRIED} random ones and {on_listed} of {listed} listed ones"
    );
    tally.expect(name, count > 0 && on_listed > 0);
}
