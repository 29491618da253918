//! Random tables from a seed: right refutations, each kind of damage, and the edges of every limit.

use crate::check::{Document, Rules};
use crate::records::{Clause, Gate, Kind, Step};

/// A small generator (splitmix64): the same seed gives the same tables everywhere.
pub struct Random {
    state: u64,
}

impl Random {
    pub fn new(seed: u64) -> Random {
        Random { state: seed }
    }

    pub fn word(&mut self) -> u64 {
        self.state = self.state.wrapping_add(0x9e37_79b9_7f4a_7c15);
        let mut z = self.state;
        z = (z ^ (z >> 30)).wrapping_mul(0xbf58_476d_1ce4_e5b9);
        z = (z ^ (z >> 27)).wrapping_mul(0x94d0_49bb_1331_11eb);
        z ^ (z >> 31)
    }

    /// A number below n, which must not be 0.
    pub fn below(&mut self, n: usize) -> usize {
        (self.word() % n as u64) as usize
    }

    pub fn chance(&mut self, percent: usize) -> bool {
        self.below(100) < percent
    }

    pub fn pick<T: Copy>(&mut self, from: &[T]) -> T {
        from[self.below(from.len())]
    }

    pub fn bytes(&mut self, n: usize) -> Vec<u8> {
        (0..n).map(|_| self.word() as u8).collect()
    }

    pub fn shuffle<T>(&mut self, items: &mut [T]) {
        for i in 1..items.len() {
            items.swap(i, self.below(i + 1));
        }
    }
}

/// The five tables of one check.
#[derive(Clone, Debug, PartialEq, Eq)]
pub struct Tables {
    pub a: Vec<u8>,
    pub b: Vec<u8>,
    pub steps: Vec<u8>,
    pub work: Vec<u8>,
    pub gates: Vec<u8>,
}

impl Tables {
    /// Runs a check on a copy; hands back its answer and the tables as it leaves them.
    pub fn run<T>(
        &self,
        check: impl FnOnce(&[u8], &[u8], &[u8], &mut [u8], &mut [u8]) -> T,
    ) -> (T, Tables) {
        let mut after = self.clone();
        let answer = check(
            &after.a,
            &after.b,
            &after.steps,
            &mut after.work,
            &mut after.gates,
        );
        (answer, after)
    }
}

/// Clauses and steps before they become bytes.
pub(crate) struct Plan {
    pub a: Vec<Clause>,
    pub b: Vec<Clause>,
    pub steps: Vec<Step>,
}

impl Plan {
    /// The tables of this plan, with these work and gate tables.
    pub fn tables(&self, work: Vec<u8>, gates: Vec<u8>) -> Tables {
        let records = |clauses: &[Clause]| clauses.iter().flat_map(Clause::record).collect();
        Tables {
            a: records(&self.a),
            b: records(&self.b),
            steps: self.steps.iter().flat_map(Step::record).collect(),
            work,
            gates,
        }
    }

    /// The tables with junk in the work and gate tables, which suffice and are often longer.
    fn with_junk(&self, random: &mut Random) -> Tables {
        let s = self.steps.len();
        let (work, gates) = (room(random, 64 * s), room(random, 24 * s));
        self.tables(random.bytes(work), random.bytes(gates))
    }

    /// How many clauses there are less than the total, results included.
    fn missing(&self, total: usize) -> usize {
        total - (self.a.len() + self.b.len() + self.steps.len())
    }

    /// Puts the clauses at the end of B, and moves the results' numbers up by them.
    fn pad(&mut self, clauses: Vec<Clause>) {
        let inputs = self.a.len() + self.b.len();
        for step in &mut self.steps {
            for antecedent in [&mut step.left, &mut step.right] {
                if *antecedent >= inputs {
                    *antecedent += clauses.len();
                }
            }
        }
        self.b.extend(clauses);
    }

    /// Appends right steps between any clauses that clash, as far as such are found.
    fn go_on(&mut self, random: &mut Random, more: usize) {
        let mut clauses = [&self.a[..], &self.b[..]].concat();
        let result = |clauses: &[Clause], step: &Step| {
            Document.resolvent(&clauses[step.left], &clauses[step.right], step.pivot)
        };
        for step in &self.steps {
            clauses.push(result(&clauses, step));
        }
        for _ in 0..more {
            if let Some(step) = clash(random, &clauses) {
                clauses.push(result(&clauses, &step));
                self.steps.push(step);
            }
        }
    }
}

/// A length that suffices: exact, a few bytes more or many more.
fn room(random: &mut Random, need: usize) -> usize {
    let spare = random.pick(&[1, 9, 300]);
    need + random.below(spare)
}

/// A step between two of the clauses, if a few tries find one.
fn clash(random: &mut Random, clauses: &[Clause]) -> Option<Step> {
    for _ in 0..10 {
        if clauses.is_empty() {
            break;
        }
        let left = random.below(clauses.len());
        let pivots: Vec<usize> = (0..256).filter(|&v| clauses[left].positive[v]).collect();
        if pivots.is_empty() {
            continue;
        }
        let pivot = random.pick(&pivots);
        let rights: Vec<usize> = (0..clauses.len())
            .filter(|&number| clauses[number].negative[pivot])
            .collect();
        if !rights.is_empty() {
            return Some(Step::of(left, random.pick(&rights), pivot));
        }
    }
    None
}

/// At least one and at most `most` variables out of all 256.
fn variables(random: &mut Random, most: usize) -> Vec<usize> {
    let mut all: Vec<usize> = (0..256).collect();
    random.shuffle(&mut all);
    all.truncate(1 + random.below(most));
    all
}

/// A clause no refutation asked for: sometimes empty, sometimes a tautology.
fn loose_clause(random: &mut Random, variables: &[usize]) -> Clause {
    let mut clause = Clause::EMPTY;
    if random.chance(97) {
        for _ in 0..=random.below(4) {
            let v = random.pick(variables);
            match random.below(5) {
                0 | 1 => clause.positive[v] = true,
                2 | 3 => clause.negative[v] = true,
                _ => (clause.positive[v], clause.negative[v]) = (true, true),
            }
        }
    }
    clause
}

fn loose_clauses(random: &mut Random, variables: &[usize], n: usize) -> Vec<Clause> {
    (0..n).map(|_| loose_clause(random, variables)).collect()
}

/// A clause in a refutation that grows backwards from the empty clause.
struct Node {
    clause: Clause,
    in_a: bool,
    /// Left and right node and the pivot, once the clause is a step's result.
    from: Option<(usize, usize, usize)>,
}

/// Antecedents whose resolvent on the pivot is the clause.
fn antecedents(random: &mut Random, clause: &Clause, pivot: usize) -> (Clause, Clause) {
    let (mut left, mut right) = (Clause::EMPTY, Clause::EMPTY);
    for v in 0..256 {
        if clause.positive[v] {
            // The step takes the positive pivot from the left, so only the right can bring it.
            let side = if v == pivot { 1 } else { random.below(3) };
            left.positive[v] = side != 1;
            right.positive[v] = side != 0;
        }
        if clause.negative[v] {
            let side = if v == pivot { 0 } else { random.below(3) };
            left.negative[v] = side != 1;
            right.negative[v] = side != 0;
        }
    }
    left.positive[pivot] = true;
    right.negative[pivot] = true;
    (left, right)
}

/// A right refutation grown backwards from the empty clause, at most `most` steps long; the
/// loose clauses join tables A and B without being used.
fn grown_back(random: &mut Random, variables: &[usize], most: usize, loose: Vec<Clause>) -> Plan {
    let firm = random.pick(&[0, 80, 97]);
    let sides = Sides {
        a: variables,
        b: variables,
        firm,
    };
    grown_back_on_sides(random, &sides, most, loose)
}

/// On which side the antecedents of a refutation stand that grows backwards.
struct Sides<'a> {
    /// The variables that A may name, and those that B may.
    a: &'a [usize],
    b: &'a [usize],
    /// How firmly, in percent, the two antecedents stay on the side of their result: pivots on one
    /// side only are rare where every input clause falls on a side of its own.
    firm: usize,
}

impl Sides<'_> {
    /// The variables that a side may name.
    fn variables(&self, in_a: bool) -> &[usize] {
        if in_a {
            self.a
        } else {
            self.b
        }
    }

    /// Whether an antecedent of a result on this side is in A.
    fn antecedent_in_a(&self, random: &mut Random, clause: &Clause, in_a: bool) -> bool {
        let other = self.variables(!in_a);
        let bound = || (0..256).any(|v| clause.names(v) && !other.contains(&v));
        if random.chance(self.firm) || bound() {
            in_a
        } else {
            random.chance(50)
        }
    }
}

/// The same with a word on the sides.
fn grown_back_on_sides(
    random: &mut Random,
    sides: &Sides,
    most: usize,
    loose: Vec<Clause>,
) -> Plan {
    let tautologies = random.chance(15);
    let mut nodes = vec![Node {
        clause: Clause::EMPTY,
        in_a: random.chance(50),
        from: None,
    }];
    let mut open = vec![0];
    let mut results = vec![];
    while results.len() < most && !open.is_empty() {
        let at = open.swap_remove(random.below(open.len()));
        let free: Vec<usize> = sides
            .variables(nodes[at].in_a)
            .iter()
            .copied()
            .filter(|&v| tautologies || !nodes[at].clause.names(v))
            .collect();
        if free.is_empty() {
            continue;
        }
        let pivot = random.pick(&free);
        let (left, right) = antecedents(random, &nodes[at].clause, pivot);
        nodes[at].from = Some((nodes.len(), nodes.len() + 1, pivot));
        results.push(at);
        for clause in [left, right] {
            let in_a = sides.antecedent_in_a(random, &clause, nodes[at].in_a);
            open.push(nodes.len());
            nodes.push(Node {
                clause,
                in_a,
                from: None,
            });
        }
    }
    numbered(random, nodes, &results, loose)
}

/// Deals the nodes that are no results out to tables A and B and numbers all clauses.
fn numbered(random: &mut Random, nodes: Vec<Node>, results: &[usize], loose: Vec<Clause>) -> Plan {
    let mut inputs: Vec<(Option<usize>, bool, &Clause)> = vec![];
    for (at, node) in nodes.iter().enumerate() {
        if node.from.is_none() {
            inputs.push((Some(at), node.in_a, &node.clause));
        }
    }
    for clause in &loose {
        inputs.push((None, random.chance(50), clause));
    }
    random.shuffle(&mut inputs);

    let mut numbers = vec![0; nodes.len()];
    let mut deal = |random: &mut Random, to_a: bool, first: usize| {
        let mut table: Vec<Clause> = vec![];
        for (at, _, clause) in inputs.iter().filter(|(_, in_a, _)| *in_a == to_a) {
            // A clause needed twice is sometimes one clause with two uses.
            let same = table.iter().position(|other| other == *clause);
            let reused = same.filter(|_| at.is_some() && random.chance(50));
            let number = reused.unwrap_or(table.len());
            if reused.is_none() {
                table.push((*clause).clone());
            }
            if let Some(at) = at {
                numbers[*at] = first + number;
            }
        }
        table
    };
    let a = deal(random, true, 0);
    let b = deal(random, false, a.len());

    // A result's antecedents were opened after it, so backwards every step comes after them.
    let mut steps = vec![];
    for &at in results.iter().rev() {
        if let Some((left, right, pivot)) = nodes[at].from {
            numbers[at] = a.len() + b.len() + steps.len();
            steps.push(Step::of(numbers[left], numbers[right], pivot));
        }
    }
    Plan { a, b, steps }
}

/// All clauses over one to three variables, resolved at random: the empty clause often turns up,
/// and results serve several steps.
fn grown_forward(random: &mut Random, variables: &[usize], most: usize) -> Plan {
    let few = &variables[..variables.len().min(1 + random.below(3))];
    let (mut a, mut b) = (vec![], vec![]);
    for signs in 0..1 << few.len() {
        let mut clause = Clause::EMPTY;
        for (i, &v) in few.iter().enumerate() {
            clause.positive[v] = signs >> i & 1 == 1;
            clause.negative[v] = signs >> i & 1 == 0;
        }
        let side = if random.chance(50) { &mut a } else { &mut b };
        side.push(clause);
    }
    for table in [&mut a, &mut b] {
        let n = random.below(3);
        table.extend(loose_clauses(random, variables, n));
        random.shuffle(table);
    }
    let mut plan = Plan {
        a,
        b,
        steps: vec![],
    };
    let more = 1 + random.below(most);
    plan.go_on(random, more);
    plan
}

/// A right refutation over at most eight variables, with few clauses.
fn small_plan(random: &mut Random) -> Plan {
    let variables = variables(random, 8);
    if random.chance(30) {
        return grown_forward(random, &variables, 30);
    }
    let most = random.below(13);
    let n = random.pick(&[0, 0, 1, 2, 5]);
    let loose = loose_clauses(random, &variables, n);
    let mut plan = grown_back(random, &variables, most, loose);
    if random.chance(25) {
        // Steps after the root.
        let more = 1 + random.below(5);
        plan.go_on(random, more);
    }
    plan
}

/// A refutation with any number of variables and up to `most` steps.
fn wide_plan(random: &mut Random, most: usize) -> Plan {
    let all = random.pick(&[1, 9, 64, 256]);
    let variables = variables(random, all);
    let n = random.below(6);
    let loose = loose_clauses(random, &variables, n);
    let mut plan = grown_back(random, &variables, most, loose);
    if random.chance(25) {
        let more = 1 + random.below(20);
        plan.go_on(random, more);
    }
    plan
}

/// A long refutation over all 256 variables, sometimes beside a clause of every literal.
fn crowded_plan(random: &mut Random) -> Plan {
    let variables: Vec<usize> = (0..256).collect();
    let mut loose = vec![];
    if random.chance(40) {
        loose.push(Clause::of(&variables, &variables));
    }
    let most = 1 + random.below(500);
    let mut plan = grown_back(random, &variables, most, loose);
    let more = random.below(20);
    plan.go_on(random, more);
    plan
}

/// A plan whose clauses are around 1,024 in all: by steps, by input clauses, or by both.
fn full_plan(random: &mut Random) -> Plan {
    let total = random.pick(&[1_022, 1_023, 1_024, 1_024, 1_025, 1_026]);
    // At most 510 steps and their 511 input clauses, so that none of the totals is passed.
    let most = random.pick(&[0, 3, 100, 510]);
    let variables = variables(random, 256);
    let mut plan = grown_back(random, &variables, most, vec![]);
    if random.chance(50) {
        let missing = plan.missing(total);
        plan.go_on(random, missing);
    }
    let loose = loose_clauses(random, &variables, plan.missing(total));
    plan.pad(loose);
    plan
}

/// Tables of any content whose lengths stand around one record, and rooms around what they need.
fn edges(random: &mut Random) -> Tables {
    let clauses = [0, 0, 0, 0, 0, 1, 63, 64, 64, 65, 128, 129];
    let steps = random.pick(&[0, 0, 0, 1, 7, 8, 8, 9, 16, 17]);
    let s = steps / 8;
    let around = |random: &mut Random, need: usize| {
        random.pick(&[0, need.saturating_sub(1), need, need, need + 1, need + 77])
    };
    let filled = |random: &mut Random, n: usize| match random.below(3) {
        0 => vec![0; n],
        1 => vec![255; n],
        _ => random.bytes(n),
    };
    let a = random.pick(&clauses);
    let b = random.pick(&clauses);
    let (work, gates) = (around(random, 64 * s), around(random, 24 * s));
    Tables {
        a: filled(random, a),
        b: filled(random, b),
        steps: filled(random, steps),
        work: random.bytes(work),
        gates: random.bytes(gates),
    }
}

/// Makes a table's length no multiple of the record's size.
fn damage_length(random: &mut Random, table: &mut Vec<u8>, size: usize) {
    let more = 1 + random.below(size - 1);
    if random.chance(50) || table.len() < size {
        table.extend(random.bytes(more));
    } else {
        table.truncate(table.len() - more);
    }
}

/// Makes room too short, mostly by one byte.
fn damage_room(random: &mut Random, table: &mut Vec<u8>, need: usize) {
    if need > 0 {
        let room = if random.chance(70) {
            need - 1
        } else {
            random.below(need)
        };
        table.truncate(room);
    }
}

/// Makes the clauses more than 1,024, mostly by one.
fn damage_number(random: &mut Random, tables: &mut Tables) {
    let clauses = (tables.a.len() + tables.b.len()) / 64 + tables.steps.len() / 8;
    let total = random.pick(&[1_025, 1_025, 1_026, 1_100]);
    let missing = total - clauses.min(total);
    match random.below(3) {
        0 => tables.a.extend(vec![0; 64 * missing]),
        1 => tables.b.extend(vec![255; 64 * missing]),
        _ => tables.steps.extend(vec![0; 8 * missing]),
    }
}

/// Damages one step, at any place before or after the root.
fn damage_step(random: &mut Random, tables: &mut Tables) {
    let s = tables.steps.len() / 8;
    if s == 0 {
        return;
    }
    let i = random.below(s);
    let own = (tables.a.len() + tables.b.len()) / 64 + i;
    let mut step = Step::read(&tables.steps[8 * i..8 * (i + 1)]);
    match random.below(7) {
        0 => step.spare[random.below(3)] = random.pick(&[1, 128, 255]),
        1 | 2 => {
            let late = random.pick(&[own, own, own + 1, own + 1_000, 65_535]);
            let side = random.below(3);
            if side != 1 {
                step.left = late;
            }
            if side != 0 {
                step.right = late;
            }
        }
        3 => step.pivot ^= random.pick(&[1, 8, 128, 255]),
        4 => (step.left, step.right) = (step.right, step.left),
        5 if own > 0 => step.left = random.below(own),
        _ if own > 0 => step.right = random.below(own),
        _ => {}
    }
    tables.steps[8 * i..8 * (i + 1)].copy_from_slice(&step.record());
}

/// Swaps two steps.
fn damage_order(random: &mut Random, tables: &mut Tables) {
    let (steps, _) = tables.steps.as_chunks_mut::<8>();
    if !steps.is_empty() {
        let (i, j) = (random.below(steps.len()), random.below(steps.len()));
        steps.swap(i, j);
    }
}

/// Turns one bit of A, B or the steps over.
fn damage_bit(random: &mut Random, tables: &mut Tables) {
    let table = match random.below(3) {
        0 => &mut tables.a,
        1 => &mut tables.b,
        _ => &mut tables.steps,
    };
    if !table.is_empty() {
        let at = random.below(table.len());
        table[at] ^= 1 << random.below(8);
    }
}

fn damage(random: &mut Random, tables: &mut Tables) {
    let s = tables.steps.len() / 8;
    match random.below(100) {
        0..=4 => damage_length(random, &mut tables.a, 64),
        5..=10 => damage_length(random, &mut tables.b, 64),
        11..=16 => damage_length(random, &mut tables.steps, 8),
        17 => damage_number(random, tables),
        18..=23 => damage_room(random, &mut tables.work, 64 * s),
        24..=30 => damage_room(random, &mut tables.gates, 24 * s),
        31..=74 => damage_step(random, tables),
        75..=82 => damage_order(random, tables),
        83..=90 => damage_bit(random, tables),
        // The last steps are cut off, often the one with the empty result.
        _ => tables.steps.truncate(8 * random.below(s + 1)),
    }
}

/// Right tables over at most eight variables, most of them accepted: few enough to try all
/// assignments.
pub fn small(random: &mut Random) -> Tables {
    small_plan(random).with_junk(random)
}

/// Tables of every kind, right or damaged.
pub fn tables(random: &mut Random) -> Tables {
    let plan = match random.below(200) {
        0..=15 => return edges(random),
        16..=119 => small_plan(random),
        120..=189 => {
            let most = random.pick(&[1, 4, 20, 60]);
            wide_plan(random, most)
        }
        190..=195 => crowded_plan(random),
        _ => full_plan(random),
    };
    let mut tables = plan.with_junk(random);
    while random.chance(45) {
        damage(random, &mut tables);
    }
    tables
}

/// A right refutation of exactly this many clauses, results included, about half of them results;
/// the work and gate tables are just long enough, with junk.
fn of_size(random: &mut Random, total: usize, sides: &Sides) -> Tables {
    // A refutation of k steps has at most k + 1 input clauses.
    let most = (total - 1) / 2;
    let mut plan = grown_back_on_sides(random, sides, most, vec![]);
    let unused = vec![Clause::of(&[0], &[1]); plan.missing(total)];
    plan.pad(unused);
    let s = plan.steps.len();
    plan.tables(random.bytes(64 * s), random.bytes(24 * s))
}

/// Such a refutation whose pivots are common for the most part.
pub fn sized(random: &mut Random, total: usize) -> Tables {
    let all: Vec<usize> = (0..256).collect();
    let sides = Sides {
        a: &all,
        b: &all,
        firm: 80,
    };
    of_size(random, total, &sides)
}

/// Such a refutation whose pivots are A-only, B-only and common in an order that follows no pattern.
pub fn coloured(random: &mut Random, total: usize) -> Tables {
    // A third of the variables each for A alone, for B alone and for both.
    let [a, b] = [1, 0].map(|lacks| {
        let named = (0..256).filter(|v| v % 3 != lacks);
        named.collect::<Vec<usize>>()
    });
    let sides = Sides {
        a: &a,
        b: &b,
        firm: 0,
    };
    of_size(random, total, &sides)
}

/// What one evaluation takes.
#[derive(Clone, Debug, PartialEq, Eq)]
pub struct Evaluation {
    pub assignment: Vec<u8>,
    pub table: Vec<u8>,
    pub root: usize,
}

impl Evaluation {
    pub fn run<T>(&self, evaluate: impl FnOnce(&[u8], &[u8], usize) -> T) -> T {
        evaluate(&self.assignment, &self.table, self.root)
    }
}

/// A gate whose inputs are below 514 + k.
fn gate(random: &mut Random, k: usize) -> Gate {
    let input = |random: &mut Random| match random.below(10) {
        0 => random.below(2),
        1..=3 => 2 + random.below(512),
        4 => 514 + k - 1,
        5 => 514 + k - 1 - random.below(k.min(9) + 1),
        _ => random.below(514 + k),
    };
    Gate {
        kind: random.pick(&[Kind::And, Kind::Or]),
        left: input(random),
        right: input(random),
    }
}

/// Damages one gate record.
fn damage_gate(random: &mut Random, table: &mut [u8]) {
    let (gates, _) = table.as_chunks_mut::<8>();
    if gates.is_empty() {
        return;
    }
    let k = random.below(gates.len());
    let late = random.pick(&[514 + k, 514 + k, 515 + k, 4_000, 65_535]) as u16;
    match random.below(6) {
        0 => gates[k][0] = random.pick(&[0, 3, 4, 255]),
        1 => gates[k][random.pick(&[1, 6, 7])] = random.pick(&[1, 128, 255]),
        2 => gates[k] = [0; 8],
        3 => gates[k][2..4].copy_from_slice(&late.to_le_bytes()),
        4 => gates[k][4..6].copy_from_slice(&late.to_le_bytes()),
        _ => gates[k][random.below(8)] ^= 1 << random.below(8),
    }
}

/// Assignments, gate tables and roots of every kind, right or damaged.
pub fn evaluation(random: &mut Random) -> Evaluation {
    let gates = match random.below(100) {
        0 => random.pick(&[3_071, 3_072, 3_072, 3_073]),
        1..=10 => random.below(2),
        11..=30 => random.below(300),
        _ => random.below(40),
    };
    let mut assignment = random.bytes(32);
    let mut table: Vec<u8> = (0..gates).flat_map(|k| gate(random, k).record()).collect();
    let mut root = match random.below(10) {
        0 => random.pick(&[0, 1, 2, 3, 512, 513]),
        1..=4 => 514 + gates - 1,
        _ => random.below(514 + gates),
    };
    while random.chance(35) {
        match random.below(6) {
            0 => assignment = vec![255; random.pick(&[0, 1, 31, 33, 64])],
            1 => damage_length(random, &mut table, 8),
            // Around 24,576 bytes, with a right gate up to the end.
            2 if random.chance(20) => {
                let room = random.pick(&[24_568, 24_575, 24_576, 24_577, 24_584]);
                table = [2, 0, 0, 0, 1, 0, 0, 0].repeat(3_073);
                table.truncate(room);
            }
            2 | 3 => {
                // 65,536 above a right root: one that is cut to two bytes looks right.
                let cut = 65_536 + random.below(514);
                let end = 514 + table.len() / 8;
                root = random.pick(&[end, end, end + 1, cut, usize::MAX]);
            }
            _ => damage_gate(random, &mut table),
        }
    }
    Evaluation {
        assignment,
        table,
        root,
    }
}
