//! The tests of the independent version: the listed cases, the bytes left, the laws, what random tables reach, and the tuned twin.

use std::collections::BTreeMap;

use crate::records::{occurring, Clause, Step};
use crate::tables::{evaluation, small, tables, Random, Tables};
use crate::wrong::{self, Fault};
use crate::{check, evaluate, laws, listed, print, record, tuned, Answer};

#[test]
fn listed_checks() {
    for case in listed::cases() {
        let (answer, after) = case.tables.run(check);
        assert_eq!(answer, case.answer, "{}", case.name);
        assert!(after == case.after(), "{}: bytes", case.name);
    }
}

#[test]
fn listed_evaluations() {
    for case in listed::values() {
        assert_eq!(
            case.evaluation.run(evaluate),
            case.evaluated,
            "{}",
            case.name
        );
    }
}

#[test]
fn listed_parts() {
    for case in listed::parts() {
        let table: Vec<u8> = (0..case.length).map(|byte| byte as u8).collect();
        let expected = match case.start {
            Some(start) => &table[start..start + 64],
            None => &table[..0],
        };
        // Its own bytes, not a copy of them.
        let part = record(&table, case.r);
        assert!(
            std::ptr::eq(part, expected),
            "{} of {}",
            case.r,
            case.length
        );
    }
}

#[test]
fn listed_prints() {
    for case in listed::prints() {
        assert_eq!(print(case.files()), case.lines, "{}", case.name);
    }
}

/// Document 01's words on the bytes left after each answer, apart from what the bytes written are.
#[test]
fn bytes_left() {
    let mut random = Random::new(1);
    for n in 0..5_000 {
        let before = tables(&mut random);
        let (answer, after) = before.run(check);
        let resolved = answer.resolved(before.steps.len() / 8);
        assert!(
            after.work[64 * resolved..] == before.work[64 * resolved..],
            "{n}"
        );
        assert!(
            after.gates[8 * answer.count..] == before.gates[8 * answer.count..],
            "{n}"
        );
        if answer.number != 0 {
            assert_eq!((answer.root, answer.count), (0, 0), "{n}");
        }
        if !(7..=10).contains(&answer.number) && answer.number != 0 {
            assert_eq!(answer.place, 0, "{n}");
        }
    }
}

#[test]
fn laws_on_small_tables() {
    let mut random = Random::new(2);
    // These give circuits that break a law somewhere; with them the test shows that it can fail.
    let faults = [
        Fault::BothSigns,
        Fault::ColourByOrigin,
        Fault::PairedWithRight,
        Fault::FixedCircuit,
        Fault::WritesNothing,
    ];
    let (mut accepted, mut gates) = (0, 0);
    let mut broken = [0; 5];
    for n in 0..4_000 {
        let tables = small(&mut random);
        let (answer, after) = tables.run(check);
        if answer.number == 0 {
            assert!(laws::hold(&after, &answer, evaluate), "{n}");
            accepted += 1;
            gates += answer.count;
        }
        for (broken, fault) in broken.iter_mut().zip(faults) {
            let (answer, after) = run_wrong(fault, &tables);
            *broken += usize::from(answer.number == 0 && !laws::hold(&after, &answer, evaluate));
        }
    }
    println!("{accepted} of 4000 small tables accepted, {gates} gates");
    println!("laws broken by {faults:?}: {broken:?}");
    assert!(accepted > 2_000);
    assert!(broken.iter().all(|&broken| broken > 0));
}

fn run_wrong(fault: Fault, tables: &Tables) -> (Answer, Tables) {
    tables.run(|a, b, steps, work, gates| wrong::check(fault, a, b, steps, work, gates))
}

/// Prints how often each number is answered, and asks for each of these at least 50 times.
fn reached(name: &str, counts: &[usize], numbers: std::ops::RangeInclusive<usize>) {
    for (number, count) in counts.iter().enumerate().filter(|(_, &count)| count > 0) {
        println!("{name} {number}: {count}");
    }
    for number in numbers {
        assert!(counts[number] >= 50, "{name} {number}: {}", counts[number]);
    }
    assert!(counts[0] >= 2_000, "{name}: acceptance is rare");
}

#[test]
fn every_number_is_reached() {
    let mut random = Random::new(4);
    let (mut checked, mut evaluated) = ([0; 25], [0; 25]);
    for _ in 0..20_000 {
        let (answer, _) = tables(&mut random).run(check);
        checked[answer.number] += 1;
        evaluated[evaluation(&mut random).run(evaluate).number] += 1;
    }
    reached("check", &checked, 1..=11);
    reached("evaluate", &evaluated, 20..=24);
}

/// The kinds of tables document 01's sentences turn on; each has to come up.
#[test]
fn every_edge_is_reached() {
    let mut random = Random::new(7);
    let mut counts = BTreeMap::new();
    for _ in 0..10_000 {
        let tables = tables(&mut random);
        let (answer, _) = tables.run(check);
        let steps: Vec<Step> = tables.steps.chunks_exact(8).map(Step::read).collect();
        let clauses = |table: &[u8]| table.chunks_exact(64).map(Clause::read).collect::<Vec<_>>();
        let inputs = [clauses(&tables.a), clauses(&tables.b)].concat();
        let (s, all) = (steps.len(), inputs.len() + steps.len());
        let (work, gates) = (tables.work.len(), tables.gates.len());
        let accepted = answer.number == 0;
        for (edge, met) in [
            ("1,024 clauses accepted", accepted && all == 1_024),
            ("1,025 clauses", answer.number == 4 && all == 1_025),
            ("work room 64s", accepted && s > 0 && work == 64 * s),
            (
                "work room 64s - 1",
                answer.number == 5 && work == 64 * s - 1,
            ),
            ("gate room 24s", accepted && s > 0 && gates == 24 * s),
            (
                "gate room 24s - 1",
                answer.number == 6 && gates == 24 * s - 1,
            ),
            ("no clause at all", answer.number == 11 && all == 0),
            (
                "an input clause as root",
                accepted && answer.place < inputs.len(),
            ),
            (
                "steps after the root",
                accepted && answer.place >= inputs.len() && answer.place + 1 < all,
            ),
            ("only single gates", accepted && s > 0 && answer.count == s),
            (
                "only triple gates",
                accepted && s > 0 && answer.count == 3 * s,
            ),
            (
                "all 256 variables",
                accepted && occurring(&inputs).len() == 256,
            ),
            (
                "left is right",
                accepted && steps.iter().any(|step| step.left == step.right),
            ),
            ("7 to 10 at a later step", answer.place > 0 && !accepted),
            ("a tautology", accepted && inputs.iter().any(both_signs)),
        ] {
            *counts.entry(edge).or_insert(0) += usize::from(met);
        }
    }
    for (edge, count) in counts {
        println!("{edge}: {count}");
        assert!(count >= 20, "{edge}: {count}");
    }
}

fn both_signs(clause: &Clause) -> bool {
    (0..256).any(|v| clause.positive[v] && clause.negative[v])
}

#[test]
fn tuned_check_is_the_same() {
    let mut random = Random::new(5);
    let generated = (0..10_000).map(|_| tables(&mut random));
    let listed = listed::cases().into_iter().map(|case| case.tables);
    for (n, tables) in listed.chain(generated).enumerate() {
        assert!(tables.run(tuned::check) == tables.run(check), "{n}");
    }
}

#[test]
fn tuned_evaluate_is_the_same() {
    let mut random = Random::new(6);
    let generated = (0..20_000).map(|_| evaluation(&mut random));
    let listed = listed::values().into_iter().map(|case| case.evaluation);
    for (n, given) in listed.chain(generated).enumerate() {
        assert_eq!(given.run(tuned::evaluate), given.run(evaluate), "{n}");
    }
}
