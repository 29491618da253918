//! Random tables: the library's answers and bytes beside the independent version's, and demand 3's laws by all assignments.

use std::fmt::Debug;

use independent::tables::{self, Random};
use independent::{check, evaluate, laws, record};
use privetcomb::Refusal;

use crate::framed;
use crate::library;
use crate::listed_cases::record_agrees;
use crate::tally::Tally;

/// How many small tables the laws are tried on.
const SMALL: usize = 5_000;

/// How often each number was answered.
type Reached = [usize; 25];

pub fn run(tally: &mut Tally, random: &mut Random, count: usize) {
    let checked = checks(tally, random, count);
    let evaluated = evaluations(tally, random, count);
    records(tally, random, count);

    // What is hardly reached is hardly compared. A tenth at least of each job is accepted.
    let least = count.div_ceil(10);
    for (job, times) in [("checks", checked[0]), ("evaluations", evaluated[0])] {
        let name = format!("{job} accepted {times} times, {least} asked for");
        tally.expect(name, times >= least);
    }
    // 200 of 100,000 at least are each refusal.
    let least = count.div_ceil(500);
    for refusal in Refusal::ALL {
        let number = refusal.number();
        let times = checked[number] + evaluated[number];
        let name = format!("number {number} reached {times} times, {least} asked for ({refusal})");
        tally.expect(name, times >= least);
    }
    laws_of_small_tables(tally, random);
}

/// How many differ, and the smallest of them with what was found on it: the one to look into.
struct Differing<T> {
    count: usize,
    smallest: Option<(usize, T, String)>,
}

impl<T: Debug> Differing<T> {
    fn none() -> Differing<T> {
        Differing {
            count: 0,
            smallest: None,
        }
    }

    fn add(&mut self, size: usize, on: T, found: String) {
        self.count += 1;
        let least = self.smallest.as_ref().map(|(least, ..)| *least);
        if least.is_none_or(|least| size < least) {
            self.smallest = Some((size, on, found));
        }
    }

    /// Tallies that there are none.
    fn close(self, tally: &mut Tally, compared: String) {
        if let Some((_, on, found)) = self.smallest {
            println!("{found}, the smallest of all on {on:02x?}");
        }
        tally.expect(
            format!("{compared}: {} differ", self.count),
            self.count == 0,
        );
    }
}

fn checks(tally: &mut Tally, random: &mut Random, count: usize) -> Reached {
    let mut reached = [0; 25];
    let mut differing = Differing::none();
    for _ in 0..count {
        let tables = tables::tables(random);
        let (answer, after) = tables.run(check);
        reached[answer.number] += 1;
        let given = [library::check, library::wrapped_check]
            .map(|check| framed::check(&tables, &after, check));
        if given != [Some(answer); 2] {
            let size = tables.a.len() + tables.b.len() + tables.steps.len();
            let found =
                format!("expected {answer:?}, given raw and wrapped {given:?} (none: other bytes)");
            differing.add(size, tables, found);
        }
    }
    differing.close(
        tally,
        format!("{count} random tables compared, every byte of them"),
    );
    reached
}

fn evaluations(tally: &mut Tally, random: &mut Random, count: usize) -> Reached {
    let mut reached = [0; 25];
    let mut differing = Differing::none();
    for _ in 0..count {
        let evaluation = tables::evaluation(random);
        let evaluated = evaluation.run(evaluate);
        reached[evaluated.number] += 1;
        let given = [library::evaluate, library::wrapped_evaluate]
            .map(|evaluate| framed::evaluate(&evaluation, evaluate));
        if given != [Some(evaluated); 2] {
            let size = evaluation.assignment.len() + evaluation.table.len();
            let found = format!(
                "expected {evaluated:?}, given raw and wrapped {given:?} (none: other bytes)"
            );
            differing.add(size, evaluation, found);
        }
    }
    differing.close(tally, format!("{count} random evaluations compared"));
    reached
}

fn records(tally: &mut Tally, random: &mut Random, count: usize) {
    let mut differ = 0;
    let mut there = 0;
    for _ in 0..count {
        let length = random.below(400);
        let table = random.bytes(length);
        let r = match random.below(4) {
            0 => random.word() as usize >> random.below(64),
            _ => random.below(8),
        };
        let expected = record(&table, r);
        let start = (!expected.is_empty()).then(|| 64 * r);
        there += usize::from(start.is_some());
        differ += usize::from(!record_agrees(&table, r, start));
    }
    let name = format!("{count} random records compared, {there} of them there: {differ} differ");
    tally.expect(name, differ == 0);
}

/// With the library's own check and evaluator.
fn laws_of_small_tables(tally: &mut Tally, random: &mut Random) {
    let (mut accepted, mut gates, mut broken, mut refused) = (0, 0, 0, 0);
    for _ in 0..SMALL {
        let tables = tables::small(random);
        let (answer, after) = tables.run(library::wrapped_check);
        if answer.number == 0 {
            accepted += 1;
            gates += answer.count;
            broken += usize::from(!laws::hold(&after, &answer, library::wrapped_evaluate));
        } else {
            let (expected, _) = tables.run(check);
            refused += usize::from(expected.number == 0);
        }
    }
    let name = format!(
        "demand 3 by all assignments: {SMALL} small tables, {accepted} accepted, {gates} gates: {broken} break a law"
    );
    tally.expect(name, broken == 0 && accepted > SMALL / 2);
    let name = format!(
        "demand 3's last sentence: {refused} of these refused that the independent version accepts"
    );
    tally.expect(name, refused == 0);
}
