//! The cases document 01 lists under "Small refutations and their edges", and what each gives.

use crate::records::{Clause, Gate, Kind, Step};
use crate::tables::{Evaluation, Plan, Tables};
use crate::{Answer, Evaluated};

/// One listed check.
pub struct Case {
    pub name: &'static str,
    pub tables: Tables,
    pub answer: Answer,
    /// The resolvents left in the work table.
    pub results: Vec<Clause>,
    /// The gates left in the gate table.
    pub gates: Vec<Gate>,
}

impl Case {
    /// All tables afterwards: what is written, and every other byte as it was.
    pub fn after(&self) -> Tables {
        let mut after = self.tables.clone();
        for (row, clause) in after.work.chunks_mut(64).zip(&self.results) {
            row.copy_from_slice(&clause.record());
        }
        for (row, gate) in after.gates.chunks_mut(8).zip(&self.gates) {
            row.copy_from_slice(&gate.record());
        }
        after
    }
}

/// What fills work and gate tables before the check.
const JUNK: u8 = 0xa5;

fn and(left: usize, right: usize) -> Gate {
    let kind = Kind::And;
    Gate { kind, left, right }
}

fn or(left: usize, right: usize) -> Gate {
    let kind = Kind::Or;
    Gate { kind, left, right }
}

/// A clause of one positive literal, and one of a negative literal.
fn is(v: usize) -> Clause {
    Clause::of(&[v], &[])
}

fn is_not(v: usize) -> Clause {
    Clause::of(&[], &[v])
}

/// Tables with a little more room than needed.
fn tables(a: Vec<Clause>, b: Vec<Clause>, steps: &[(usize, usize, usize)]) -> Tables {
    let plan = Plan {
        a,
        b,
        steps: steps.iter().map(|&(l, r, p)| Step::of(l, r, p)).collect(),
    };
    plan.tables(
        vec![JUNK; 64 * steps.len() + 37],
        vec![JUNK; 24 * steps.len() + 11],
    )
}

/// P1 with another first step.
fn p1_tables(first: (usize, usize, usize)) -> Tables {
    tables(
        vec![is(0), Clause::of(&[1], &[0])],
        vec![Clause::of(&[2], &[1]), is_not(2)],
        &[first, (2, 3, 2), (4, 5, 1)],
    )
}

/// An acceptance; its gate count is that of the gates it leaves.
fn accepted(
    name: &'static str,
    tables: Tables,
    (place, root): (usize, usize),
    results: Vec<Clause>,
    gates: Vec<Gate>,
) -> Case {
    Case {
        name,
        tables,
        answer: Answer {
            number: 0,
            place,
            root,
            count: gates.len(),
        },
        results,
        gates,
    }
}

/// A refusal that leaves these results and no gate.
fn refused(
    name: &'static str,
    tables: Tables,
    (number, place): (usize, usize),
    results: Vec<Clause>,
) -> Case {
    Case {
        name,
        tables,
        answer: Answer::refusal(number, place),
        results,
        gates: vec![],
    }
}

/// P1 itself.
pub fn p1() -> Case {
    accepted(
        "P1",
        p1_tables((0, 1, 0)),
        (6, 518),
        vec![is(1), is_not(1), Clause::EMPTY],
        vec![or(0, 0), and(1, 1), or(4, 514), or(5, 515), and(516, 517)],
    )
}

/// P1 with this much room.
fn p1_in(name: &'static str, work: usize, gates: usize) -> Case {
    let mut case = p1();
    case.name = name;
    case.tables.work.truncate(work);
    case.tables.gates.truncate(gates);
    case
}

/// P1 with room too short for it.
fn p1_refused(name: &'static str, work: usize, gates: usize, number: usize) -> Case {
    let tables = p1_in(name, work, gates).tables;
    refused(name, tables, (number, 0), vec![])
}

/// P1 to P12.
fn proved() -> Vec<Case> {
    let step = [(0, 1, 0)];
    let p3 = tables(vec![Clause::EMPTY], vec![], &[]);
    let p4 = tables(vec![], vec![Clause::EMPTY], &[]);
    let p5 = tables(vec![is(0)], vec![is_not(0)], &step);
    let p6 = tables(vec![is(0), is_not(0)], vec![], &step);
    let p7 = tables(vec![], vec![is(0), is_not(0)], &step);
    let p8 = tables(vec![is(0), is_not(0)], vec![is(0)], &step);
    let p8_gates = vec![or(2, 0), or(3, 0), and(514, 515)];
    let both_signs = vec![Clause::of(&[0], &[0])];
    let p9 = tables(both_signs.clone(), vec![], &[(0, 0, 0)]);
    let p12 = p1_tables((4, 1, 0));
    let mut p12_spare = p12.clone();
    p12_spare.steps[5] = 1;
    let empty = vec![Clause::EMPTY];
    vec![
        p1(),
        refused("P2", tables(vec![], vec![], &[]), (11, 0), vec![]),
        accepted("P3", p3, (0, 0), vec![], vec![]),
        accepted("P4", p4, (0, 1), vec![], vec![]),
        accepted("P5", p5, (2, 516), empty.clone(), p5_gates()),
        accepted("P6", p6, (2, 514), empty.clone(), vec![or(0, 0)]),
        accepted("P7", p7, (2, 514), empty.clone(), vec![and(1, 1)]),
        accepted("P8", p8, (3, 516), empty, p8_gates),
        refused("P9", p9, (11, 0), both_signs),
        refused("P10", p1_tables((1, 0, 0)), (9, 0), vec![]),
        refused("P11", p1_tables((0, 2, 0)), (10, 0), vec![]),
        refused("P12", p12, (8, 0), vec![]),
        refused("P12 with byte 5 set", p12_spare, (7, 0), vec![]),
    ]
}

/// The gates where A's clause has x0, B's has not x0 and these are resolved first.
fn p5_gates() -> Vec<Gate> {
    vec![or(2, 0), or(3, 1), and(514, 515)]
}

/// The limits' edges.
fn edges() -> Vec<Case> {
    let mut lengths = tables(vec![], vec![], &[]);
    lengths.a = vec![0; 63];
    lengths.b = vec![0; 65];
    // This many clauses x0 in A and not x0 in B, with steps between the last of A and the first of B.
    let many = |a: usize, b: usize, s: usize| {
        let steps = vec![(a.saturating_sub(1), a, 0); s];
        tables(vec![is(0); a], vec![is_not(0); b], &steps)
    };
    vec![
        refused("A of 63 bytes and B of 65", lengths, (1, 0), vec![]),
        refused("1,024 clauses", many(1_024, 0, 0), (11, 0), vec![]),
        refused("1,025 clauses", many(1_025, 0, 0), (4, 0), vec![]),
        refused("1,024 and a step", many(512, 512, 1), (4, 0), vec![]),
        accepted(
            "1,023 and a step",
            many(512, 511, 1),
            (1_023, 516),
            vec![Clause::EMPTY],
            p5_gates(),
        ),
        p1_in("gate room 72", 192, 72),
        p1_in("work room 192", 192, 83),
        p1_refused("gate room 71", 192, 71, 6),
        p1_refused("work room 191", 191, 72, 5),
        p1_refused("both rooms short", 191, 71, 5),
    ]
}

/// Roots that are not the last clause, and steps after them.
fn roots() -> Vec<Case> {
    let with = |second| tables(vec![is(0)], vec![is_not(0)], &[(0, 1, 0), second]);
    let twice = [p5_gates(), vec![or(2, 0), or(3, 1), and(517, 518)]].concat();
    let empty = vec![Clause::EMPTY];
    let input = tables(vec![is(0)], vec![is_not(0), Clause::EMPTY], &[(0, 1, 0)]);
    vec![
        accepted(
            "a step after the root",
            with((0, 1, 0)),
            (2, 516),
            vec![Clause::EMPTY; 2],
            twice,
        ),
        refused("9 after the root", with((2, 1, 0)), (9, 1), empty.clone()),
        refused("8 after the root", with((0, 3, 0)), (8, 1), empty.clone()),
        accepted("an input root", input, (2, 1), empty, p5_gates()),
    ]
}

/// Every listed check, with more on the roots document 01 warns of.
pub fn cases() -> Vec<Case> {
    [proved(), edges(), roots()].into_iter().flatten().collect()
}

/// One listed evaluation.
pub struct Value {
    pub name: String,
    pub evaluation: Evaluation,
    pub evaluated: Evaluated,
}

/// The values document 01 gives for the circuits of P1, P5 and P8, under every assignment that
/// differs on x0, x1 and x2.
fn circuit_values() -> Vec<Value> {
    let mut values = vec![];
    for case in proved() {
        // By the assignment's first byte.
        let value: fn(usize) -> usize = match case.name {
            "P1" => |first| first >> 1 & 1,
            "P5" => |first| first & 1,
            "P8" => |_| 0,
            _ => continue,
        };
        for first in 0..8 {
            let mut assignment = vec![0; 32];
            assignment[0] = first as u8;
            values.push(Value {
                name: format!("{}'s circuit where byte 0 is {first}", case.name),
                evaluation: Evaluation {
                    assignment,
                    table: case.gates.iter().flat_map(Gate::record).collect(),
                    root: case.answer.root,
                },
                evaluated: Evaluated::of(value(first)),
            });
        }
    }
    values
}

/// Every listed evaluation, with more around the same edges.
pub fn values() -> Vec<Value> {
    [circuit_values(), evaluator_edges()]
        .into_iter()
        .flatten()
        .collect()
}

fn evaluator_edges() -> Vec<Value> {
    let (value, refusal) = (Evaluated::of, Evaluated::refusal);
    let (falses, trues) = ([0; 32], [255; 32]);
    let mut x255 = falses;
    x255[31] = 128;
    let records = |gates: &[Gate]| gates.iter().flat_map(Gate::record).collect::<Vec<u8>>();
    let gate = records(&[or(2, 0)]);
    let most = records(&vec![or(0, 1); 3_072]);
    let over = [&most[..], &[0]].concat();
    let many = records(&vec![or(0, 1); 3_073]);
    let (own_left, own_right) = (records(&[or(514, 0)]), records(&[or(0, 514)]));
    let later = records(&[or(0, 0), and(1, 515)]);
    // The second of two gates with one byte changed.
    let with = |at: usize, byte: u8| {
        let mut table = records(&[or(0, 1), or(0, 1)]);
        table[8 + at] = byte;
        table
    };
    let case = |name: &str, assignment: &[u8], table: &[u8], root, evaluated| Value {
        name: name.to_string(),
        evaluation: Evaluation {
            assignment: assignment.to_vec(),
            table: table.to_vec(),
            root,
        },
        evaluated,
    };
    vec![
        case("false", &trues, &[], 0, value(0)),
        case("true", &falses, &[], 1, value(1)),
        case("x255 where false", &falses, &[], 512, value(0)),
        case("x255 where true", &x255, &[], 512, value(1)),
        case("not x255 where false", &falses, &[], 513, value(1)),
        case("not x255 where true", &x255, &[], 513, value(0)),
        case("no gate 0", &trues, &[], 514, refusal(24, 0)),
        case("huge root", &trues, &[], usize::MAX, refusal(24, 0)),
        case("root of three bytes", &trues, &[], 65_537, refusal(24, 0)),
        case("a gate as root", &trues, &gate, 514, value(1)),
        case("its other value", &falses, &gate, 514, value(0)),
        case("one past it", &trues, &gate, 515, refusal(24, 0)),
        case("left is itself", &trues, &own_left, 514, refusal(23, 0)),
        case("right is itself", &trues, &own_right, 0, refusal(23, 0)),
        case("gate 1 is itself", &trues, &later, 0, refusal(23, 1)),
        case("zero record", &trues, &[0; 8], 514, refusal(22, 0)),
        case("22 before 24", &trues, &[0; 8], 515, refusal(22, 0)),
        case("kind 0", &trues, &with(0, 0), 0, refusal(22, 1)),
        case("kind 3", &trues, &with(0, 3), 0, refusal(22, 1)),
        case("byte 1", &trues, &with(1, 1), 0, refusal(22, 1)),
        case("byte 6", &trues, &with(6, 1), 0, refusal(22, 1)),
        case("byte 7", &trues, &with(7, 1), 0, refusal(22, 1)),
        case("seven bytes", &trues, &[0; 7], 0, refusal(21, 0)),
        case("24,576 bytes", &trues, &most, 3_585, value(1)),
        case("one past them", &trues, &most, 3_586, refusal(24, 0)),
        case("24,577 bytes", &trues, &over, 0, refusal(21, 0)),
        case("24,584 bytes", &trues, &many, 0, refusal(21, 0)),
        case("31 bytes", &trues[1..], &[0; 7], 514, refusal(20, 0)),
        case("33 bytes", &[0; 33], &[], 0, refusal(20, 0)),
        case("no assignment", &[], &[], 0, refusal(20, 0)),
    ]
}

/// One record asked for: the table's length, its number, and where it starts if it is there.
pub struct Part {
    pub length: usize,
    pub r: usize,
    pub start: Option<usize>,
}

/// The edges of handing back a record.
pub fn parts() -> Vec<Part> {
    let part = |length, r, start| Part { length, r, start };
    vec![
        part(200, 0, Some(0)),
        part(200, 2, Some(128)),
        part(200, 3, None),
        part(200, 4, None),
        // The exact end, and one byte short of it.
        part(192, 2, Some(128)),
        part(191, 2, None),
        part(64, 0, Some(0)),
        part(63, 0, None),
        part(0, 0, None),
        part(0, 1, None),
        // 64r or 64(r + 1) wraps to 0 or to 64 here.
        part(200, usize::MAX / 64, None),
        part(200, usize::MAX / 64 + 1, None),
        part(200, usize::MAX, None),
        part(0, usize::MAX, None),
    ]
}

/// One run of the printing program: a.rec, b.rec and steps.rec, none where a file can't be read.
pub struct Print {
    pub name: &'static str,
    pub files: [Option<Vec<u8>>; 3],
    pub lines: String,
}

impl Print {
    pub fn files(&self) -> [Option<&[u8]>; 3] {
        self.files.each_ref().map(Option::as_deref)
    }
}

/// The edges of the printing program, P1's lines first.
pub fn prints() -> Vec<Print> {
    let case = |name, files, lines: &str| Print {
        name,
        files,
        lines: lines.to_string(),
    };
    let Tables { a, b, steps, .. } = p1().tables;
    let (a, b, steps) = (Some(a), Some(b), Some(steps));
    let of = |n| Some(vec![1; n]);
    let zeros = |n| Some(vec![0; n]);
    let p1_files = [a.clone(), b.clone(), steps.clone()];
    let p1_lines =
        "0 6 518 5\n514 or 0 0\n515 and 1 1\n516 or 4 514\n517 or 5 515\n518 and 516 517\n";
    // 256 clauses on each side and 256 steps of three gates each: the most that is ever printed.
    let many = |clause: Clause| Some(clause.record().repeat(256));
    let most = [
        many(is(255)),
        many(is_not(255)),
        Some([0, 0, 0, 1, 255, 0, 0, 0].repeat(256)),
    ];
    let mut most_lines = String::from("0 512 516 768\n");
    for first in (514..514 + 768).step_by(3) {
        let (second, third) = (first + 1, first + 2);
        most_lines +=
            &format!("{first} or 512 0\n{second} or 513 1\n{third} and {first} {second}\n");
    }
    vec![
        case("P1", p1_files, p1_lines),
        case("the most lines", most, &most_lines),
        case("empty files", [of(0), of(0), of(0)], "11 0 0 0\n"),
        case("no steps", [a.clone(), b.clone(), of(0)], "11 0 0 0\n"),
        case("P3", [zeros(64), of(0), of(0)], "0 0 0 0\n"),
        case("P4", [of(0), zeros(64), of(0)], "0 0 1 0\n"),
        case("lengths", [of(63), of(65), of(0)], "1 0 0 0\n"),
        case("B's length", [of(64), of(65), of(1)], "2 0 0 0\n"),
        case("the steps' length", [of(64), of(64), of(9)], "3 0 0 0\n"),
        case(
            "the limits",
            [of(16_384), of(16_384), of(2_048)],
            "7 0 0 0\n",
        ),
        case(
            "A at its limit",
            [of(16_384), b.clone(), of(0)],
            "11 0 0 0\n",
        ),
        case(
            "B at its limit",
            [a.clone(), of(16_384), of(0)],
            "11 0 0 0\n",
        ),
        case(
            "steps at their limit",
            [of(0), of(0), zeros(2_048)],
            "8 0 0 0\n",
        ),
        case(
            "A above it",
            [of(16_385), b.clone(), steps.clone()],
            "30 1 0 0\n",
        ),
        case(
            "B above it",
            [a.clone(), of(16_385), steps.clone()],
            "30 2 0 0\n",
        ),
        case(
            "steps above it",
            [a.clone(), b.clone(), of(2_049)],
            "30 3 0 0\n",
        ),
        case(
            "A far above it",
            [of(100_000), b.clone(), steps.clone()],
            "30 1 0 0\n",
        ),
        case("no A", [None, b.clone(), steps.clone()], "30 1 0 0\n"),
        case("no B", [a.clone(), None, steps.clone()], "30 2 0 0\n"),
        case("no steps.rec", [a, b, None], "30 3 0 0\n"),
        // The first one is named, and before any test of a length.
        case("none", [None, None, None], "30 1 0 0\n"),
        case("no B and no steps", [of(63), None, None], "30 2 0 0\n"),
        case("A above it, no B", [of(16_385), None, of(0)], "30 1 0 0\n"),
        case(
            "no B, steps above it",
            [of(16_384), None, of(2_049)],
            "30 2 0 0\n",
        ),
        case(
            "B above it, no steps",
            [of(0), of(16_385), None],
            "30 2 0 0\n",
        ),
        case(
            "A of 63 bytes, no steps",
            [of(63), of(0), None],
            "30 3 0 0\n",
        ),
    ]
}
